/* month TABLE PROFILE VECTORS SEED COUNT: the report beside as many decisions. COUNT files of random requests about the table's lines, laid
 * end to end, of which some end in a broken one: the report returns and counts what calls of ndushavire_decide in turn return and answer, and leaves
 * their table, vectors and answer buffer; bytes behind each slice stay. Some lend a table of edition 2, a short answer buffer, an unsound table
 * or vector file, a longer report area, or one that is too short, under which nothing may be written. Peers follow RFC 3588, RFC 6733, or
 * neither, and of some requests the 260 has a second Vendor-Id. The server supports some features, none or any, and some requests ask for some.
 * Exit status: 0 all alike, 1 not so, or too little was tried, 2 wrong use. */
#include <stdio.h>

#include "../bench/requests.h"
#include "../examples/load.h"

enum { LAID_MOST = 1 << 18, REQUESTS_MOST = 24, BEHIND = 64, FILL = 0xEE, VECTORS_ROOM = 64 * NDUSHAVIRE_BLOCK, TABLE_ROOM = 64 * NDUSHAVIRE_BLOCK };

static uint64_t state; /* of the random numbers, never 0 */

static uint64_t below(uint64_t n) {
    state ^= state << 13;
    state ^= state >> 7;
    state ^= state << 17;
    return (state >> 11) % n;
}

/* What is lent, and how much of it; all of it is compared. */
typedef struct {
    uint8_t table[TABLE_ROOM + BEHIND], vectors[VECTORS_ROOM + BEHIND], answer[NDUSHAVIRE_ANSWER_ROOM + BEHIND], report[NDUSHAVIRE_REPORT_ROOM + BEHIND];
    size_t table_len, vectors_len, answer_len, report_len;
    uint32_t peer, features;
} Lent;

static uint8_t *table, *profile, *vectors;
static size_t table_len, profile_len, vectors_len;
static uint8_t laid[LAID_MOST];
static size_t laid_len;
static uint64_t seen[NDUSHAVIRE_REPORT_WORDS], several, stopped, short_areas, second, told_apart, own_lists;

static const uint8_t *some_record(void) { return table + (1 + below(table_len / NDUSHAVIRE_BLOCK - 1)) * NDUSHAVIRE_BLOCK; }

static void ask(Request *r) {
    static const char *const servers[] = {"sip:scscf1.isle:6060", "sip:scscf2.isle:6060"};
    static const uint32_t types[] = {0, 1, 1, 1, 2, 3, 4, 5, 5, 6, 8, 9, 11, 12};
    const char *server = servers[below(2)];
    const Name name = {server, strlen(server)};
    switch (below(5)) {
    case 0: ask_authorization(r, table, some_record()); return;
    case 1: ask_location(r, some_record()); return;
    case 2: ask_authentication(r, some_record(), (uint32_t)below(4), server); return;
    default:
        begin(r, 301);
        /* A removal may name the card alone: it reaches all its lines. */
        if (below(4) == 0)
            put(r, 1, 0, private_of(some_record()));
        else
            for (uint64_t lines = below(8) == 0 ? 2 : 1; lines > 0; lines--) put(r, 601, VENDOR, public_of(some_record()));
        put(r, 602, VENDOR, name);
        put_word(r, 614, VENDOR, types[below(sizeof types / sizeof types[0])]);
        put_word(r, 624, VENDOR, 0);
        end(r);
    }
}

/* A bit or two of list 1, mostly, with M or without; now and then more than one AVP of them. */
static void ask_for_features(Request *r) {
    do put_features(r, below(2) == 0 ? 0xC0 : 0x80, below(16) == 0 ? 13019 : VENDOR, below(16) == 0 ? 2 : 1, (uint32_t)below(8));
    while (below(4) == 0);
    end(r);
}

/* The first member of 260, its Vendor-Id, a second time. */
static void double_vendor(Request *r) {
    static const uint8_t group[] = {0, 0, 1, 4, 0x40, 0, 0, 32};
    size_t at = 20;
    while (memcmp(r->bytes + at, group, sizeof group) != 0) at += 4;
    memmove(r->bytes + at + 20, r->bytes + at + 8, r->length - at - 8);
    r->bytes[at + 7] += 12;
    r->length += 12;
}

/* Most requests stay as they are. A length that is altered here is still that of the bytes that are laid. */
static void spoil(Request *r) {
    switch (below(16)) {
    case 0: r->bytes[20 + below(r->length - 20)] ^= (uint8_t)(1 << below(8)); return;
    case 1: r->bytes[4] ^= (uint8_t)(1 << below(8)); return; /* the R bit among the flags */
    case 2: r->bytes[7] ^= (uint8_t)(1 << below(8)); return; /* the command */
    case 3: r->bytes[0] = (uint8_t)below(256); return;
    case 4: r->length = NDUSHAVIRE_REQUEST_MIN + below(16); break;
    case 5: r->length += 1 + below(3); break;
    case 6: r->bytes[11] ^= 1; return; /* the application */
    case 7: double_vendor(r); break;
    default: return;
    }
    for (int i = 1; i < 4; i++) r->bytes[i] = (uint8_t)(r->length >> (24 - 8 * i));
}

static void lay(const uint8_t *bytes, size_t length) {
    if (laid_len + length > sizeof laid) abort();
    memcpy(laid + laid_len, bytes, length);
    laid_len += length;
}

static void lay_some(void) {
    static Request r;
    static uint8_t too_long[NDUSHAVIRE_REQUEST_MAX + 4];
    laid_len = 0;
    for (uint64_t left = below(REQUESTS_MOST + 1); left > 0; left--) {
        ask(&r);
        if (below(4) == 0) ask_for_features(&r);
        spoil(&r);
        lay(r.bytes, r.length);
        if (below(64) == 0) {
            spell(too_long, 0x01000000u + (uint32_t)sizeof too_long);
            lay(too_long, sizeof too_long);
        }
    }
    /* A broken one, and often something behind it: fewer bytes than the length says, a length that is none, a piece of a length. */
    ask(&r);
    switch (below(6)) {
    case 0: lay(r.bytes, 1 + below(r.length - 1)); return;
    case 1: r.bytes[2] = 0; r.bytes[3] = (uint8_t)below(20); lay(r.bytes, 4 + below(r.length - 4)); return;
    case 2: lay(r.bytes, 1 + below(3)); return;
    default: return;
    }
}

static Lent lend(void) {
    static Lent lent;
    memset(&lent, FILL, sizeof lent);
    memcpy(lent.table, table, table_len);
    memcpy(lent.vectors, vectors, vectors_len);
    lent.table_len = table_len - (below(16) == 0 ? NDUSHAVIRE_BLOCK : 0);
    lent.vectors_len = below(16) == 0 ? vectors_len - 1 - below(NDUSHAVIRE_BLOCK - 1) : below(16) == 0 ? 0 : vectors_len;
    lent.answer_len = NDUSHAVIRE_ANSWER_ROOM - (below(16) == 0 ? 1 + below(NDUSHAVIRE_ANSWER_ROOM) : 0);
    lent.report_len = below(8) == 0 ? below(NDUSHAVIRE_REPORT_ROOM) : NDUSHAVIRE_REPORT_ROOM + below(BEHIND);
    lent.peer = below(16) == 0 ? (uint32_t)below(10000) : below(2) == 0 ? NDUSHAVIRE_RFC_3588 : NDUSHAVIRE_RFC_6733;
    lent.features = below(4) == 0 ? NDUSHAVIRE_NO_FEATURES : (uint32_t)below(below(2) == 0 ? 8 : (uint64_t)1 << 32);
    if (below(4) == 0) second += ndushavire_moved(ndushavire_forward(lent.table, lent.table_len, profile, profile_len, (uint32_t)below(9)));
    return lent;
}

static uint32_t four(const uint8_t *at) { return (uint32_t)at[0] << 24 | (uint32_t)at[1] << 16 | (uint32_t)at[2] << 8 | at[3]; }

/* Where an answer has the first AVP of one of two codes; its end if there is none. */
static size_t find(const uint8_t *answer, size_t length, uint32_t code, uint32_t other) {
    size_t at = 20;
    while (at < length && four(answer + at) != code && four(answer + at) != other) at += ((four(answer + at + 4) & 0xFFFFFFu) + 3) / 4 * 4;
    return at;
}

/* The column of an answer's result, 268 or 297 with a vendor and a number in it. */
static uint32_t column_of(const uint8_t *answer, size_t length) {
    const size_t at = find(answer, length, 268, 297);
    if (at >= length) abort();
    const int base = four(answer + at) == 268;
    const uint32_t result = four(answer + at + (base ? 8 : 28));
    for (uint32_t column = base ? 0 : NDUSHAVIRE_REPORT_BASE; column < (base ? NDUSHAVIRE_REPORT_BASE : NDUSHAVIRE_REPORT_COLUMNS); column++)
        if (ndushavire_report_result(column) == result) return column;
    abort();
}

static uint64_t altered(const uint8_t *before, const uint8_t *after, size_t length) {
    uint64_t records = 0;
    for (size_t at = NDUSHAVIRE_BLOCK; at + NDUSHAVIRE_BLOCK <= length; at += NDUSHAVIRE_BLOCK)
        records += memcmp(before + at, after + at, NDUSHAVIRE_BLOCK) != 0;
    return records;
}

/* One request decided and counted. */
static void decide(Lent *l, const uint8_t *request, size_t length, uint64_t *words) {
    static uint8_t before[TABLE_ROOM];
    memcpy(before, l->table, l->table_len);
    const uint64_t word = ndushavire_decide(request, length, l->table, l->table_len, profile, profile_len, l->vectors, l->vectors_len,
                                            l->answer, l->answer_len, l->peer, l->features);
    words[NDUSHAVIRE_REPORT_READ]++;
    words[NDUSHAVIRE_REPORT_REFUSED + ndushavire_number(word)]++; /* by 0: answered */
    if (!ndushavire_answered(word)) return;
    const uint32_t command = four(request + 4) & 0xFFFFFFu, row = command >= 300 && command <= 303 ? command - 300 : 4;
    const uint32_t column = column_of(l->answer, ndushavire_value(word)), place = ndushavire_place(word);
    words[NDUSHAVIRE_REPORT_RESULTS + NDUSHAVIRE_REPORT_COLUMNS * row + column]++;
    own_lists += find(l->answer, ndushavire_value(word), 628, 628) < ndushavire_value(word);
    told_apart += place != 0 && four(request + place) == 260 && ndushavire_report_result(column) == 5009;
    const uint64_t records = altered(before, l->table, l->table_len);
    words[NDUSHAVIRE_REPORT_ALTERED] += records;
    several += records > 1;
    if (ndushavire_value(word) > words[NDUSHAVIRE_REPORT_LARGEST]) words[NDUSHAVIRE_REPORT_LARGEST] = ndushavire_value(word);
}

/* What the report should return and leave. */
static uint64_t expect(Lent *l) {
    uint64_t words[NDUSHAVIRE_REPORT_WORDS] = {0};
    size_t at = 0;
    if (l->report_len < NDUSHAVIRE_REPORT_ROOM) {
        short_areas++;
        return (uint64_t)NDUSHAVIRE_OUTPUT_SHORT << 48;
    }
    while (laid_len - at >= 4) {
        const size_t length = four(laid + at) & 0xFFFFFFu;
        if (length < NDUSHAVIRE_REQUEST_MIN || length > laid_len - at) break;
        decide(l, laid + at, length, words);
        at += length;
    }
    words[NDUSHAVIRE_REPORT_STOP] = at;
    for (size_t k = 0; k < NDUSHAVIRE_REPORT_WORDS; k++) {
        seen[k] += words[k];
        for (int i = 0; i < 8; i++) l->report[8 * k + (size_t)i] = (uint8_t)(words[k] >> (56 - 8 * i));
    }
    stopped += at != laid_len;
    return at == laid_len ? 0 : (uint64_t)NDUSHAVIRE_REQUESTS_BROKEN << 48;
}

/* The rows and the refusals add up to the requests read, and the rows to those answered. */
static int adds_up(const uint8_t *report) {
    uint64_t rows = 0, refused = 0;
    for (uint32_t row = 0; row < NDUSHAVIRE_REPORT_ROWS; row++)
        for (uint32_t column = 0; column < NDUSHAVIRE_REPORT_COLUMNS; column++) rows += ndushavire_report_count(report, row, column);
    for (uint32_t number = 1; number <= 15; number++) refused += ndushavire_report_refused(report, number);
    return rows == ndushavire_report_word(report, NDUSHAVIRE_REPORT_ANSWERED) &&
           rows + refused == ndushavire_report_word(report, NDUSHAVIRE_REPORT_READ);
}

static int alike(void) {
    static Lent given, expected;
    given = expected = lend();
    const uint64_t wanted = expect(&expected);
    const uint64_t word = ndushavire_report(laid, laid_len, given.table, given.table_len, profile, profile_len, given.vectors, given.vectors_len,
                                            given.answer, given.answer_len, given.report, given.report_len, given.peer, given.features);
    return word == wanted && memcmp(&given, &expected, sizeof given) == 0 &&
           (ndushavire_number(word) == NDUSHAVIRE_OUTPUT_SHORT || adds_up(given.report));
}

/* Whether the files had something of everything: refusals 1 to 6 and 12, some forty cells of the table, records altered, also several by one
 * request, broken ends, short areas, tables of edition 2, second Vendor-Ids under RFC 6733, features that are not supported in every row but the
 * last, and answers with the server's own. */
static int enough(void) {
    int cells = 0, refusals = 0, unsupported = 0;
    for (size_t k = NDUSHAVIRE_REPORT_RESULTS; k < NDUSHAVIRE_REPORT_WORDS; k++) cells += seen[k] > 0;
    for (size_t number = 1; number <= NDUSHAVIRE_PEER_UNKNOWN; number++) refusals += seen[NDUSHAVIRE_REPORT_REFUSED + number] > 0;
    for (size_t row = 0; row < NDUSHAVIRE_REPORT_ROWS; row++)
        unsupported += seen[NDUSHAVIRE_REPORT_RESULTS + NDUSHAVIRE_REPORT_COLUMNS * (row + 1) - 1] > 0;
    printf("month: %lu requests, %d cells, %d refusals, %lu records altered, several by %lu requests, %lu broken ends, %lu short areas, %lu of edition 2, "
           "%lu with a second Vendor-Id, %d commands with X5011, %lu own lists\n",
           (unsigned long)seen[NDUSHAVIRE_REPORT_READ], cells, refusals, (unsigned long)seen[NDUSHAVIRE_REPORT_ALTERED], (unsigned long)several,
           (unsigned long)stopped, (unsigned long)short_areas, (unsigned long)second, (unsigned long)told_apart, unsupported, (unsigned long)own_lists);
    return cells >= 40 && refusals == 7 && unsupported == 4 && own_lists > 0 && told_apart > 0 && several > 0 && stopped > 0 && short_areas > 0 && second > 0;
}

int main(int argc, char **argv) {
    if (argc != 6) {
        fprintf(stderr, "usage: month TABLE PROFILE VECTORS SEED COUNT\n");
        return 2;
    }
    table = load(argv[1], &table_len);
    profile = load(argv[2], &profile_len);
    vectors = load(argv[3], &vectors_len);
    if (table_len > TABLE_ROOM || vectors_len > VECTORS_ROOM || vectors_len < NDUSHAVIRE_BLOCK) return 2;
    state = strtoull(argv[4], NULL, 10) * 2654435761u + 1;
    const unsigned long count = strtoul(argv[5], NULL, 10);
    for (unsigned long i = 0; i < count; i++) {
        lay_some();
        if (alike()) continue;
        fprintf(stderr, "month: seed %s: the report over file %lu is not that of its decisions\n", argv[4], i);
        return 1;
    }
    if (!enough()) {
        fprintf(stderr, "month: seed %s: too little was tried\n", argv[4]);
        return 1;
    }
    return 0;
}
