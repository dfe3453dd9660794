/* timing.h: median times of several subjects. They take turns in every round, so that a busy machine slows all alike. */
#ifndef TIMING_H
#define TIMING_H

#include <stdint.h>
#include <stdlib.h>
#include <time.h>

enum { ROUNDS = 201, SUBJECTS_MOST = 4 };
static const double TURN = 400; /* microseconds that a turn takes at least: one call is short beside the clock's step */

typedef uint64_t Subject(const void *sample);

static double now(void) {
    struct timespec t;
    clock_gettime(CLOCK_MONOTONIC, &t);
    return (double)t.tv_sec * 1e6 + (double)t.tv_nsec / 1e3;
}

static int by_time(const void *left, const void *right) {
    const double a = *(const double *)left, b = *(const double *)right;
    return (a > b) - (a < b);
}

/* Microseconds of one call, over so many. */
static double turn(Subject *subject, const void *sample, long calls) {
    static volatile uint64_t sink;
    const double began = now();
    for (long call = 0; call < calls; call++) sink = subject(sample);
    (void)sink;
    return (now() - began) / (double)calls;
}

/* The median time of one call of each subject, in microseconds. */
static inline void medians(Subject *const subject[], int subjects, const void *sample, double median[]) {
    static double took[SUBJECTS_MOST][ROUNDS];
    long calls[SUBJECTS_MOST];
    for (int i = 0; i < subjects; i++) calls[i] = 1 + (long)(TURN / turn(subject[i], sample, 3));
    for (int round = 0; round < ROUNDS; round++)
        for (int i = 0; i < subjects; i++) took[i][round] = turn(subject[i], sample, calls[i]);
    for (int i = 0; i < subjects; i++) {
        qsort(took[i], ROUNDS, sizeof took[i][0], by_time);
        median[i] = took[i][ROUNDS / 2];
    }
}

/* The median time of one call of a subject by itself, in microseconds, of fewer rounds where a call takes long. */
static inline double median_of(Subject *subject, const void *sample) {
    static double took[ROUNDS];
    const double once = turn(subject, sample, 1);
    const long calls = 1 + (long)(TURN / once);
    const int rounds = once > 1e6 ? 1 : once > 20000 ? 3 : once > 2000 ? 15 : ROUNDS;
    for (int round = 0; round < rounds; round++) took[round] = turn(subject, sample, calls);
    qsort(took, (size_t)rounds, sizeof took[0], by_time);
    return took[rounds / 2];
}

#endif
