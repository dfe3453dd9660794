/* takes TABLE PROFILE NAMES ..: times the take-over of each table, which is of edition 2, beside its check; and the check and a LIR over an area that
 * is as long as the longest table beside the same over the table alone.
 * A table is taken over once: then its issue stands in the area. So before each take-over the area's issues are made older, and what that takes is
 * timed by itself and not counted. */
#define _POSIX_C_SOURCE 199309L
#include "aims.h"
#include "requests.h"
#include "samples.h"
#include "timing.h"

/* The aims, at the most records: a take-over, which checks, asks every block of the area and copies; and nothing for bytes that are not looked at. */
static const Aim NONE = {"", 0}, TAKE_AIM = {"<= 3", 300}, LONGER_AIM = {"<= 1.1", 110};

enum { CHECK, TAKE, AGE, SUBJECTS };
enum { CHECK_EXACT, CHECK_LONGER, ASK_EXACT, ASK_LONGER, LENGTHS };

/* The table, an area for it of the longest table's length, and a question. */
typedef struct {
    const Sample *of;
    uint8_t *area;
    Request *question;
} Area;

static uint64_t check_of(const Area *a, const uint8_t *table, size_t length) { return ndushavire_check(table, length, a->of->profile, a->of->profile_len); }
static uint64_t check_exact(const void *area) { return check_of((const Area *)area, ((const Area *)area)->area, ((const Area *)area)->of->table_len); }
static uint64_t check_longer(const void *area) { return check_of((const Area *)area, ((const Area *)area)->area, NDUSHAVIRE_TABLE_MAX); }

static uint64_t check_new(const void *area) { return check_of((const Area *)area, ((const Area *)area)->of->table, ((const Area *)area)->of->table_len); }

static uint64_t age(const void *area) {
    const Area *a = (const Area *)area;
    for (size_t at = 0; at < a->of->table_len; at += NDUSHAVIRE_BLOCK) spell(a->area + at + 408, 0);
    return 0;
}

static uint64_t take(const void *area) {
    const Area *a = (const Area *)area;
    age(area);
    return ndushavire_take(a->area, a->of->table_len, a->of->table, a->of->table_len, a->of->profile, a->of->profile_len);
}

static uint64_t ask_of(const Area *a, size_t length) {
    static uint8_t answer[NDUSHAVIRE_ANSWER_ROOM], none;
    return ndushavire_decide(a->question->bytes, a->question->length, a->area, length, a->of->profile, a->of->profile_len, &none, 0, answer,
                             sizeof answer, NDUSHAVIRE_RFC_6733, NDUSHAVIRE_NO_FEATURES);
}
static uint64_t ask_exact(const void *area) { return ask_of((const Area *)area, ((const Area *)area)->of->table_len); }
static uint64_t ask_longer(const void *area) { return ask_of((const Area *)area, NDUSHAVIRE_TABLE_MAX); }

/* A wrong take-over is not worth a time. */
static int right(const Area *a) {
    const Sample *s = a->of;
    return ndushavire_edition(s->table) == 2 && ndushavire_issue(s->table) > 0 && take(a) == s->records && memcmp(a->area, s->table, s->table_len) == 0 &&
           check_exact(a) == s->records && check_longer(a) == s->records && ndushavire_answered(ask_exact(a)) && ask_exact(a) == ask_longer(a);
}

static int measure(const Sample *s) {
    static Subject *const subject[SUBJECTS] = {check_new, take, age};
    static Subject *const lengths[LENGTHS] = {check_exact, check_longer, ask_exact, ask_longer};
    static Request question;
    const Area a = {s, (uint8_t *)malloc(NDUSHAVIRE_TABLE_MAX), &question};
    double t[SUBJECTS], l[LENGTHS];
    if (a.area == NULL) abort();
    memset(a.area, 0xA5, NDUSHAVIRE_TABLE_MAX);
    memcpy(a.area, s->table, s->table_len);
    ask_location(&question, last_in(s->table, s->records, REGISTERED));
    const int passes = right(&a);
    if (passes) {
        medians(subject, SUBJECTS, &a, t);
        take(&a); /* the question is asked over the sound table */
        medians(lengths, LENGTHS, &a, l);
        const int most = s->records == NDUSHAVIRE_RECORDS_MAX;
        const double took = t[TAKE] - t[AGE], check_in = l[CHECK_LONGER] / l[CHECK_EXACT], ask_in = l[ASK_LONGER] / l[ASK_EXACT];
        printf("%7lu  %-5s %8.2f %9.2f %7.2f  %-13s %8.2f %8.2f  %-13s %8.2f\n", (unsigned long)s->records, s->names, t[CHECK], took, took / t[CHECK],
               judged(most ? TAKE_AIM : NONE, took / t[CHECK]), check_in, ask_in, judged(most ? NONE : LONGER_AIM, check_in > ask_in ? check_in : ask_in),
               l[ASK_EXACT]);
    } else {
        fprintf(stderr, "takes: %s is not of edition 2, or is not taken over\n", s->path);
    }
    free(a.area);
    return passes;
}

int main(int argc, char **argv) {
    return each_sample(argc, argv,
                       "take-overs: microseconds, medians; as a multiple of the check; check and LIR in an area of 2,097,664 bytes, by the table alone\n"
                       "records  names    check take-over  /check  aim           check in   LIR in  aim                LIR\n",
                       measure);
}
