/* row TABLE PROFILE NAMES ..: times the row on each table. What one request more takes is what a row of 64 takes beyond a row of one, shared out; it stands
 * beside one decision of such a request. Every row leaves the table as it was, so that each call does the same work, and the vector file is empty. */
#define _POSIX_C_SOURCE 199309L
#include "aims.h"
#include "months.h"
#include "timing.h"

enum { MORE = 63, MOST = MORE + 2 };

/* The aim: a request more that alters nothing at the most records, against its decision. */
static const Aim NONE = {"", 0}, MORE_AIM = {"<= 0.1", 10};

static uint8_t answers[MOST * NDUSHAVIRE_ANSWER_ROOM], words[MOST * NDUSHAVIRE_ROW_WORD];

static uint64_t row(const Month *m, size_t length) {
    return ndushavire_row(m->file, length, m->of->table, m->of->table_len, m->of->profile, m->of->profile_len, &nothing, 0, answers, sizeof answers, words,
                          sizeof words, NDUSHAVIRE_RFC_6733, NDUSHAVIRE_NO_FEATURES);
}
static uint64_t few(const void *month) { return row((const Month *)month, ((const Month *)month)->few); }
static uint64_t many(const void *month) { return row((const Month *)month, ((const Month *)month)->many); }

/* Whether all of them are answered, something is altered or nothing, and the table is as it was: a wrong row is not worth a time. */
static int right(const Month *m, size_t count, uint32_t altered) {
    uint8_t *before = (uint8_t *)malloc(m->of->table_len);
    int answered = 1;
    if (before == NULL) abort();
    memcpy(before, m->of->table, m->of->table_len);
    const uint64_t word = row(m, m->many);
    for (uint32_t k = 0; k < count; k++) answered &= ndushavire_answered(ndushavire_row_word(words, k));
    const int same = memcmp(before, m->of->table, m->of->table_len) == 0;
    free(before);
    return answered && same && word == ((uint64_t)altered << 32 | count);
}

enum { DECIDE, FIRST, ALL, SUBJECTS };

/* A request more of these kinds in turn. */
static int measure_more(const Sample *s, const Request *kinds, int turns, const char *what, uint32_t altered) {
    Subject *const subject[SUBJECTS] = {turns == 1 ? decide_one : decide_two, few, many};
    const size_t first = (size_t)turns, more = MORE - MORE % first;
    const Month m = lay(s, kinds, turns, first + more, first);
    double t[SUBJECTS];
    const int is_right = right(&m, first + more, altered);
    if (!is_right) fprintf(stderr, "row: %s over %s: another word than there should be\n", what, s->path);
    medians(subject, SUBJECTS, &m, t);
    const double one = t[DECIDE] / turns, next = (t[ALL] - t[FIRST]) / (double)more;
    printf("%7lu  %-14s %9.2f %9.2f %9.3f %8.2f  %s\n", (unsigned long)s->records, what, one, t[FIRST], next, next / one,
           judged(s->records == NDUSHAVIRE_RECORDS_MAX && altered == 0 ? MORE_AIM : NONE, next / one));
    free(m.file);
    return is_right;
}

static int measure_all(const Sample *s) {
    static Request kinds[2];
    const uint8_t *registered = last_in(s->table, s->records, REGISTERED);
    int passes = 1;
    ask_authorization(kinds, s->table, last_in(s->table, s->records, NOT_REGISTERED));
    passes &= measure_more(s, kinds, 1, "UAR", 0);
    ask_location(kinds, registered);
    passes &= measure_more(s, kinds, 1, "LIR", 0);
    ask_assignment(kinds, s->table, s->records, registered, 1, 1);
    passes &= measure_more(s, kinds, 1, "SAR type 1", 0);
    /* The record is registered, removed and registered again: the server's name is asked for while it is there. */
    ask_assignment(kinds, s->table, s->records, registered, 5, 1);
    ask_assignment(kinds + 1, s->table, s->records, registered, 1, 1);
    return passes & measure_more(s, kinds, 2, "SAR, altering", NDUSHAVIRE_ROW_ALTERED);
}

int main(int argc, char **argv) {
    return each_sample(argc, argv,
                       "row: microseconds, medians; a request more as a multiple of its decision; no vectors\n"
                       "records  request           decide     first  one more  /decide  aim\n",
                       measure_all);
}
