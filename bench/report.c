/* report TABLE PROFILE NAMES ..: times the report on each table. What one request more takes is what a file of many takes beyond a file of
 * the first, shared out; it stands beside one decision of such a request. Then a file of 1,000,000 requests beside one of 100,000.
 * Every file leaves the table as it was, so that each call does the same work, and the vector file is empty. */
#define _POSIX_C_SOURCE 199309L
#include "aims.h"
#include "months.h"
#include "timing.h"

enum { MORE = 1000, FEW = 100000, MANY = 1000000, TRIES = 3, KINDS_MOST = 3 };

/* The aims: a request more that alters nothing at the most records, against its decision; ten times as many requests. */
static const Aim NONE = {"", 0}, MORE_AIM = {"<= 0.1", 10}, MANY_AIM = {"<= 11", 1100};

static uint8_t numbers[NDUSHAVIRE_REPORT_ROOM];

static uint64_t report(const Month *m, size_t length) {
    return ndushavire_report(m->file, length, m->of->table, m->of->table_len, m->of->profile, m->of->profile_len, &nothing, 0, answer,
                             sizeof answer, numbers, sizeof numbers, NDUSHAVIRE_RFC_6733, NDUSHAVIRE_NO_FEATURES);
}
static uint64_t few(const void *month) { return report((const Month *)month, ((const Month *)month)->few); }
static uint64_t many(const void *month) { return report((const Month *)month, ((const Month *)month)->many); }

/* Whether all of them are read and answered with a success, so many records are altered, and the table is as it was: a wrong report is not
 * worth a time. */
static int right(const Month *m, size_t count, size_t altered) {
    uint8_t *before = (uint8_t *)malloc(m->of->table_len);
    uint64_t successes = 0;
    if (before == NULL) abort();
    memcpy(before, m->of->table, m->of->table_len);
    const uint64_t word = report(m, m->many);
    const int same = memcmp(before, m->of->table, m->of->table_len) == 0;
    free(before);
    for (uint32_t row = 0; row < NDUSHAVIRE_REPORT_ROWS; row++)
        for (uint32_t column = 0; column < NDUSHAVIRE_REPORT_COLUMNS; column++)
            if (ndushavire_report_result(column) < 3000) successes += ndushavire_report_count(numbers, row, column);
    return word == 0 && same && successes == count && ndushavire_report_word(numbers, NDUSHAVIRE_REPORT_READ) == count &&
           ndushavire_report_word(numbers, NDUSHAVIRE_REPORT_ALTERED) == altered;
}

static void need_right(const Month *m, const char *what, size_t count, size_t altered) {
    if (right(m, count, altered)) return;
    fprintf(stderr, "report: %s over %s: other numbers than there should be\n", what, m->of->path);
    exit(1);
}

enum { DECIDE, FIRST, ALL, SUBJECTS };

/* A request more of these kinds in turn, of which each alters so many records. */
static void measure_more(const Sample *s, const Request *kinds, int turns, const char *what, size_t alters, Aim at_most_records) {
    Subject *const subject[SUBJECTS] = {turns == 1 ? decide_one : decide_two, few, many};
    const Month m = lay(s, kinds, turns, (size_t)(turns + MORE), (size_t)turns);
    double t[SUBJECTS];
    need_right(&m, what, (size_t)(turns + MORE), alters * (size_t)(turns + MORE));
    medians(subject, SUBJECTS, &m, t);
    const double one = t[DECIDE] / turns, more = (t[ALL] - t[FIRST]) / MORE;
    printf("%7lu  %-14s %9.2f %9.2f %9.3f %8.2f  %s\n", (unsigned long)s->records, what, one, t[FIRST], more, more / one,
           judged(s->records == NDUSHAVIRE_RECORDS_MAX ? at_most_records : NONE, more / one));
    free(m.file);
}

/* The least of some tries of each, which take turns: one of them is long enough. */
static void measure_many(const Sample *s, const Request *kinds, int turns) {
    const Month m = lay(s, kinds, turns, MANY, FEW);
    double short_one = 0, long_one = 0;
    need_right(&m, "a file of many", MANY, 0);
    for (int i = 0; i < TRIES; i++) {
        const double a = turn(few, &m, 1), b = turn(many, &m, 1);
        if (i == 0 || a < short_one) short_one = a;
        if (i == 0 || b < long_one) long_one = b;
    }
    printf("%7lu  %d in %.0f ms, %d in %.0f ms: %.2f times  %s\n", (unsigned long)s->records, MANY, long_one / 1e3, FEW, short_one / 1e3,
           long_one / short_one, judged(MANY_AIM, long_one / short_one));
    free(m.file);
}

static int measure_all(const Sample *s) {
    static Request kinds[KINDS_MOST], pair[2];
    const uint8_t *registered = last_in(s->table, s->records, REGISTERED);
    ask_authorization(kinds, s->table, last_in(s->table, s->records, NOT_REGISTERED));
    ask_location(kinds + 1, registered);
    ask_assignment(kinds + 2, s->table, s->records, registered, 1, 1);
    measure_more(s, kinds, 1, "UAR", 0, MORE_AIM);
    measure_more(s, kinds + 1, 1, "LIR", 0, MORE_AIM);
    measure_more(s, kinds + 2, 1, "SAR type 1", 0, MORE_AIM);
    /* The record is registered, removed and registered again: the server's name is asked for while it is there. */
    ask_assignment(pair, s->table, s->records, registered, 5, 1);
    ask_assignment(pair + 1, s->table, s->records, registered, 1, 1);
    measure_more(s, pair, 2, "SAR, altering", 1, NONE);
    measure_many(s, kinds, KINDS_MOST);
    return 1;
}

int main(int argc, char **argv) {
    return each_sample(argc, argv,
                       "report: microseconds, medians; a request more as a multiple of its decision; no vectors\n"
                       "records  request           decide     first  one more  /decide  aim\n",
                       measure_all);
}
