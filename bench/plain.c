/* plain TABLE PROFILE NAMES ..: what cleverness buys. One decision of the plain engine on each table beside the same one of the quick engine, which
 * must return the same word and leave the same table, vectors and answer. The plain one compares every record with each before it, and looks up every
 * name from the first record on: ten times the records take it a hundred times as long. There is no aim. */
#define _POSIX_C_SOURCE 199309L
#include "timing.h"
#include "vectors.h"

typedef uint64_t Engine(const uint8_t *request, size_t request_len, uint8_t *table, size_t table_len, const uint8_t *profile, size_t profile_len,
                        uint8_t *vectors, size_t vectors_len, uint8_t *answer, size_t answer_len, uint32_t peer, uint32_t features);

typedef struct {
    const Sample *of;
    uint8_t *table, *answer;
    Vectors vectors;
    const Request *request;
} Call;

static uint64_t call(Engine *engine, const Call *c) {
    return engine(c->request->bytes, c->request->length, c->table, c->of->table_len, c->of->profile, c->of->profile_len, c->vectors.bytes,
                  c->vectors.length, c->answer, NDUSHAVIRE_ANSWER_ROOM, NDUSHAVIRE_RFC_6733, NDUSHAVIRE_NO_FEATURES);
}

/* Each call finds the vectors unmarked. */
static uint64_t quick(const void *of) {
    const Call *c = (const Call *)of;
    const uint64_t word = call(ndushavire_decide, c);
    unmark(&c->vectors);
    return word;
}

static uint64_t plain(const void *of) {
    const Call *c = (const Call *)of;
    const uint64_t word = call(ndushavire_plain, c);
    unmark(&c->vectors);
    return word;
}

static void *copied(const void *bytes, size_t length) {
    void *copy = malloc(length + 1);
    if (copy == NULL) abort();
    return memcpy(copy, bytes, length);
}

/* Whether both return the same word and leave the same: a difference is not worth a time. */
static int alike(const Call *c) {
    static uint8_t answer[NDUSHAVIRE_ANSWER_ROOM];
    Call other = *c;
    other.table = (uint8_t *)copied(c->table, c->of->table_len);
    other.vectors.bytes = (uint8_t *)copied(c->vectors.bytes, c->vectors.length);
    other.answer = answer;
    memset(answer, 0, sizeof answer);
    memset(c->answer, 0, sizeof answer);
    const uint64_t word = call(ndushavire_decide, c);
    const int same = call(ndushavire_plain, &other) == word && ndushavire_answered(word) && memcmp(other.table, c->table, c->of->table_len) == 0 &&
                     memcmp(other.vectors.bytes, c->vectors.bytes, c->vectors.length) == 0 && memcmp(answer, c->answer, sizeof answer) == 0;
    unmark(&c->vectors);
    free(other.table);
    free(other.vectors.bytes);
    return same;
}

static int measure(const Sample *s, Vectors vectors, const Request *request, const char *what, const char *sets) {
    static uint8_t answer[NDUSHAVIRE_ANSWER_ROOM];
    const Call c = {s, s->table, answer, vectors, request};
    if (!alike(&c)) {
        fprintf(stderr, "plain: %s is not answered alike\n", what);
        return 0;
    }
    const double p = median_of(plain, &c), q = median_of(quick, &c);
    printf("%7lu  %-4s  %-12s %12.2f %9.2f %10.1f\n", (unsigned long)s->records, sets, what, p, q, p / q);
    return 1;
}

static int measure_all(const Sample *s) {
    static Request request;
    static uint8_t nothing;
    static char server[97];
    const Vectors none = {&nothing, 0, 0};
    const uint8_t *registered = last_in(s->table, s->records, REGISTERED);
    const char *sets = s->table[NDUSHAVIRE_BLOCK + 406] != 0 || s->table[NDUSHAVIRE_BLOCK + 407] != 0 ? "sets" : "";
    const Name stored = server_of(registered);
    ask_authorization(&request, s->table, last_in(s->table, s->records, NOT_REGISTERED));
    int passes = measure(s, none, &request, "UAR", sets);
    ask_location(&request, registered);
    passes &= measure(s, none, &request, "LIR", sets);
    ask_assignment(&request, s->table, s->records, registered, 1, 1);
    passes &= measure(s, none, &request, "SAR type 1", sets);
    memcpy(server, stored.bytes, stored.length);
    server[stored.length] = '\0';
    ask_authentication(&request, registered, 1, server);
    const Vectors vectors = make_vectors(s, registered);
    passes &= measure(s, vectors, &request, "MAR for 1", sets);
    free(vectors.bytes);
    return passes;
}

int main(int argc, char **argv) {
    return each_sample(argc, argv,
                       "plain: what cleverness buys, microseconds, medians; the plain engine as a multiple of the quick one\n"
                       "records  sets  request             plain     quick     /quick\n",
                       measure_all);
}
