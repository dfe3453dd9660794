/* decide TABLE PROFILE NAMES ..: times one decision on each table, of Cx or of Sh, beside the checks that are part of it and the
 * reference's decision in Rust. Over a table with tiny names, of which a request can hold 1,000, removals
 * are timed. Every request leaves the table as the first call made it, and what it marks in the vector file, which is empty
 * but for a MAR, is unmarked again, so that each call does the same work. As in all benchmarks the peer follows RFC 6733, by which one rule more is
 * asked, and no feature is supported. */
#define _POSIX_C_SOURCE 199309L
#include <ndushavire_sh.h>

#include "aims.h"
#include "timing.h"
#include "vectors.h"

/* The aims, where there is one: UAR, which goes over the table once more, LIR, UDR and SAR type 1 at the most records, against the
 * check alone, and a MAR against both checks; from 16 records on, against Rust; 1,000 identities at the most records, against 1. */
static const Aim NONE = {"", 0}, UAR_AIM = {"<= 1.35", 135}, CHECK_AIM = {"<= 1.1", 110}, CHECKS_AIM = {"<= 1.2", 120};
static const Aim RUST_AIM = {"< 1.0", 99}, REMOVAL_AIM = {"<= 3.0", 300};

uint64_t reference_serve(const uint8_t *request, size_t request_len, uint8_t *table, size_t table_len,
                         const uint8_t *profile, size_t profile_len, uint8_t *vectors, size_t vectors_len, uint8_t *answer,
                         size_t answer_len);

uint64_t reference_sh_serve(const uint8_t *request, size_t request_len, const uint8_t *table, size_t table_len,
                            const uint8_t *profile, size_t profile_len, uint8_t *answer, size_t answer_len);

typedef struct {
    const Sample *of;
    uint8_t *table, *answer;
    Vectors vectors;
    const Request *request;
} Call;

static uint64_t decide(const void *call) {
    const Call *c = (const Call *)call;
    if (ndushavire_sh_meant(c->request->bytes))
        return ndushavire_sh_decide(c->request->bytes, c->request->length, c->table, c->of->table_len, c->of->profile, c->of->profile_len,
                                    c->answer, NDUSHAVIRE_ANSWER_ROOM, NDUSHAVIRE_RFC_6733);
    const uint64_t word = ndushavire_decide(c->request->bytes, c->request->length, c->table, c->of->table_len, c->of->profile,
                                            c->of->profile_len, c->vectors.bytes, c->vectors.length, c->answer, NDUSHAVIRE_ANSWER_ROOM,
                                            NDUSHAVIRE_RFC_6733, NDUSHAVIRE_NO_FEATURES);
    unmark(&c->vectors);
    return word;
}

static uint64_t check(const void *call) {
    const Call *c = (const Call *)call;
    return ndushavire_check(c->table, c->of->table_len, c->of->profile, c->of->profile_len) +
           ndushavire_check_vectors(c->vectors.bytes, c->vectors.length);
}

static uint64_t rust(const void *call) {
    const Call *c = (const Call *)call;
    if (ndushavire_sh_meant(c->request->bytes))
        return reference_sh_serve(c->request->bytes, c->request->length, c->table, c->of->table_len, c->of->profile, c->of->profile_len,
                                  c->answer, NDUSHAVIRE_ANSWER_ROOM);
    const uint64_t word = reference_serve(c->request->bytes, c->request->length, c->table, c->of->table_len, c->of->profile,
                                          c->of->profile_len, c->vectors.bytes, c->vectors.length, c->answer, NDUSHAVIRE_ANSWER_ROOM);
    unmark(&c->vectors);
    return word;
}

enum { DECIDE, CHECK, RUST, SUBJECTS };
static Subject *const subject[SUBJECTS] = {decide, check, rust};

/* Whether both answer alike, and with a result that is a success: a wrong answer is not worth a time. */
static int agree(const Call *call) {
    static uint8_t answer[NDUSHAVIRE_ANSWER_ROOM];
    const size_t length = call->of->table_len;
    const Call other = {call->of, (uint8_t *)malloc(length), answer, call->vectors, call->request};
    if (other.table == NULL) return 0;
    memcpy(other.table, call->table, length);
    const uint64_t word = decide(call);
    const int same = rust(&other) == word && ndushavire_answered(word) && memcmp(other.table, call->table, length) == 0 &&
                     memcmp(answer, call->answer, ndushavire_value(word)) == 0;
    free(other.table);
    if (!same) return 0;
    /* 260 and then the result, whose last four bytes are its number. */
    const uint8_t *at = call->answer + 20 + 12 + 32;
    const uint8_t *number = at + at[7] - 4;
    return number[2] * 256 + number[3] < 3000;
}

/* Times one request over a vector file, prints its line and gives the time of a decision. */
static double measure_over(const Sample *s, Vectors vectors, const Request *request, const char *what, Aim at_most_records) {
    static uint8_t answer[NDUSHAVIRE_ANSWER_ROOM];
    const Call call = {s, s->table, answer, vectors, request};
    if (!agree(&call)) {
        fprintf(stderr, "decide: %s is not answered alike, or with no success\n", what);
        exit(1);
    }
    double t[SUBJECTS];
    medians(subject, SUBJECTS, &call, t);
    printf("%7lu  %-14s %9.2f %9.2f %9.2f %8.2f  %-14s %7.2f  %s\n", (unsigned long)s->records, what, t[DECIDE], t[CHECK],
           t[RUST], t[DECIDE] / t[CHECK],
           judged(s->records == NDUSHAVIRE_RECORDS_MAX ? at_most_records : NONE, t[DECIDE] / t[CHECK]),
           t[DECIDE] / t[RUST], judged(s->records >= 16 ? RUST_AIM : NONE, t[DECIDE] / t[RUST]));
    return t[DECIDE];
}

/* The same without vectors. */
static double measure(const Sample *s, const Request *request, const char *what, Aim at_most_records) {
    static uint8_t nothing;
    const Vectors none = {&nothing, 0, 0};
    return measure_over(s, none, request, what, at_most_records);
}

static void measure_removals(const Sample *s, Request *request, const uint8_t *registered) {
    ask_assignment(request, s->table, s->records, registered, 6, 1);
    const double one = measure(s, request, "removal of 1", NONE);
    ask_assignment(request, s->table, s->records, registered, 6, 1000);
    const double many = measure(s, request, "removal, 1000", NONE);
    printf("%7lu  1000 against 1 %9.2f  %s\n", (unsigned long)s->records, many / one,
           judged(s->records == NDUSHAVIRE_RECORDS_MAX ? REMOVAL_AIM : NONE, many / one));
}

/* Reading is linear: some 1,350 AVPs take twice the time of half as many. As many Proxy-Infos are copied into the answer besides; some 290
 * Supported-Features are asked for bits, and looked at once more for the own list. */
static void measure_reading(const Sample *s, Request *request, const uint8_t *record) {
    ask_long_location(request, record, NDUSHAVIRE_REQUEST_MAX / 2);
    const double half = measure(s, request, "LIR of 8 KiB", NONE);
    ask_long_location(request, record, NDUSHAVIRE_REQUEST_MAX);
    const double whole = measure(s, request, "LIR of 16 KiB", NONE);
    printf("%7lu  whole against half %5.2f\n", (unsigned long)s->records, whole / half);
    ask_by_proxies(request, record);
    measure(s, request, "LIR by proxies", NONE);
    ask_with_features(request, record);
    measure(s, request, "LIR, features", NONE);
}

/* A vector for each record; one is asked for, and then as many as are ever sent. */
static void measure_authentication(const Sample *s, Request *request, const uint8_t *registered) {
    static char server[97];
    const Name stored = server_of(registered);
    const Vectors vectors = make_vectors(s, registered);
    memcpy(server, stored.bytes, stored.length);
    server[stored.length] = '\0';
    ask_authentication(request, registered, 1, server);
    measure_over(s, vectors, request, "MAR for 1", CHECKS_AIM);
    ask_authentication(request, registered, SENT_MOST, server);
    measure_over(s, vectors, request, "MAR for 16", CHECKS_AIM);
    free(vectors.bytes);
}

static int measure_all(const Sample *s) {
    static Request request;
    const uint8_t *registered = last_in(s->table, s->records, REGISTERED);
    if (strcmp(s->names, "tiny") == 0) {
        measure_removals(s, &request, registered);
        return 1;
    }
    ask_authorization(&request, s->table, last_in(s->table, s->records, NOT_REGISTERED));
    measure(s, &request, "UAR", UAR_AIM);
    ask_location(&request, registered);
    measure(s, &request, "LIR", CHECK_AIM);
    ask_user_data(&request, registered);
    measure(s, &request, "UDR", CHECK_AIM);
    ask_assignment(&request, s->table, s->records, registered, 1, 1);
    measure(s, &request, "SAR type 1", CHECK_AIM);
    measure_authentication(s, &request, registered);
    if (s->records == 1) measure_reading(s, &request, registered);
    return 1;
}

int main(int argc, char **argv) {
    return each_sample(argc, argv,
                       "decide: microseconds, medians; then decide as a multiple of each other; the check of a MAR is that of table and vectors\n"
                       "records  request           decide     check      Rust   /check  aim              /Rust  aim\n",
                       measure_all);
}
