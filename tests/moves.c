/* moves SEED COUNT: the moves between editions beside a plain model in C, over random tables of either edition: sound ones with sets and
 * without, damaged ones, and such as mix editions or issues.
 *   - Each move returns the word that it should, and leaves the bytes that it should, also behind the table, and the profile as it was.
 *   - There and back gives the first bytes, and so does back and there with the same issue.
 *   - A request gets the same answer in either edition, and alters the same records. What it does to a record of a set it does to the whole set,
 *     and a barred line goes on with a free one of its set; else sets change nothing, and they stay.
 * How a table was damaged says which block is bad, so the model needs no rules of its own for soundness.
 * Exit status: 0 all as it should be, 1 not so, or too little was tried, 2 wrong use. */
#include "../bench/requests.h"
#include "random-tables.h"

enum { BEHIND = 64, FILL = 0xEE, FULL = 2 }; /* the first tables are full, one of each edition */

static unsigned long number; /* of the table */
static const char *seed;
static struct {
    unsigned long forward, back, other_edition, sets, unsound, mixed, disagreeing, answers, altering, reaching, freed;
} seen;

static void fail(const char *what) {
    fprintf(stderr, "moves: seed %s, table %lu: %s\n", seed, number, what);
    exit(1);
}

/* ---- the model */

static int has_set(const uint8_t *record) { return record[406] != 0 || record[407] != 0; }

static size_t first_with_set(Bytes table) {
    size_t k = 1;
    while (BLOCK * k < table.length && !has_set(table.bytes + BLOCK * k)) k++;
    return BLOCK * k < table.length ? k : 0;
}

static void stamp(Bytes table, uint8_t edition, uint32_t issue) {
    for (size_t at = 0; at < table.length; at += BLOCK) {
        table.bytes[at + 1] = edition;
        put32(table.bytes + at + 408, issue);
        seal(table.bytes + at);
    }
}

/* What a table is: whether it is sound, and else its first bad block. */
typedef struct {
    int sound;
    size_t bad;
} Verdict;

static uint64_t refusal(uint32_t why, size_t block) { return (uint64_t)why << 48 | block; }

/* The word of a move of a table of this verdict, which is then moved if it can be. */
static uint64_t expect(Bytes table, Verdict verdict, uint8_t from, uint32_t issue) {
    if (!verdict.sound) return refusal(NDUSHAVIRE_TABLE_UNSOUND, verdict.bad);
    if (table.bytes[1] != from) return refusal(NDUSHAVIRE_TABLE_UNSOUND, 0);
    if (from == 2 && first_with_set(table) > 0) return refusal(NDUSHAVIRE_TABLE_HAS_SETS, first_with_set(table));
    stamp(table, from == 1 ? 2 : 1, issue);
    return table.length / BLOCK - 1;
}

/* ---- copies, each with bytes behind it that no call may touch */

static Bytes copy_of(Bytes table) {
    const Bytes copy = {(uint8_t *)malloc(table.length + BEHIND), table.length};
    if (copy.bytes == NULL) stop("no memory");
    memcpy(copy.bytes, table.bytes, table.length);
    memset(copy.bytes + table.length, FILL, BEHIND);
    return copy;
}

static int alike(Bytes a, Bytes b) { return a.length == b.length && memcmp(a.bytes, b.bytes, a.length + BEHIND) == 0; }

static uint64_t moved(Bytes table, Bytes profile, uint8_t from, uint32_t issue) {
    return from == 1 ? ndushavire_forward(table.bytes, table.length, profile.bytes, profile.length, issue)
                     : ndushavire_back(table.bytes, table.length, profile.bytes, profile.length);
}

/* ---- a move of either kind */

static void count_word(uint64_t word, Verdict verdict, uint8_t from) {
    if (ndushavire_moved(word) && from == 1) seen.forward++;
    else if (ndushavire_moved(word)) seen.back++;
    else if (ndushavire_number(word) == NDUSHAVIRE_TABLE_HAS_SETS) seen.sets++;
    else if (verdict.sound) seen.other_edition++;
    else seen.unsound++;
}

static void try_move(Bytes table, Bytes profile, Verdict verdict, uint8_t from, uint32_t issue) {
    const Bytes given = copy_of(table), expected = copy_of(table), lent = copy_of(profile);
    const uint64_t due = expect(expected, verdict, from, from == 1 ? issue : 0), word = moved(given, lent, from, issue);
    if (word != due) fail(from == 1 ? "another word of the move forward" : "another word of the move back");
    if (!alike(given, expected)) fail(from == 1 ? "the move forward leaves other bytes" : "the move back leaves other bytes");
    if (memcmp(lent.bytes, profile.bytes, profile.length) != 0) fail("a move alters the profile");
    count_word(word, verdict, from);
    /* And the other way: the first bytes again. */
    const uint32_t old = verdict.sound ? get32(table.bytes + 408) : 0;
    if (ndushavire_moved(word) && (moved(given, lent, (uint8_t)(3 - from), old) != word || memcmp(given.bytes, table.bytes, table.length) != 0))
        fail("there and back is another table");
    free(given.bytes);
    free(expected.bytes);
    free(lent.bytes);
}

static void try_both(Bytes table, Bytes profile, Verdict verdict) {
    const uint64_t word = ndushavire_check(table.bytes, table.length, profile.bytes, profile.length);
    const uint64_t due = verdict.sound ? table.length / BLOCK - 1 : refusal(NDUSHAVIRE_TABLE_UNSOUND, verdict.bad);
    if (word != due) fail("the check says otherwise");
    try_move(table, profile, verdict, 1, one_in(3) ? 0 : one_in(3) ? UINT32_MAX : below(UINT32_MAX));
    try_move(table, profile, verdict, 2, 0);
}

/* ---- damage, of which the first bad block is known */

static const Verdict SOUND = {1, 0};

static Verdict bad_at(size_t block) {
    const Verdict verdict = {0, block};
    return verdict;
}

/* A header that does not go with its records makes the first of them bad, and alone it is a table. */
static Verdict mixed_at(Bytes table, size_t block) {
    seen.mixed++;
    if (block > 0) return bad_at(block);
    return table.length == BLOCK ? SOUND : bad_at(1);
}

/* A record that is sound by itself, and in another state than it was. */
static void change_state(uint8_t *block) {
    block[8] = block[8] == 1 ? 2 : 1;
    if (block[15] > 0) return;
    block[15] = 1;
    block[272] = 's';
}

/* In one thing a record differs from the one it agreed with. */
static void differ(uint8_t *block) {
    const uint32_t what = below(4);
    if (what == 0 || block[15] == 0) change_state(block);
    else if (what == 1 && block[8] > 0) block[9] ^= 1;
    else if (what == 2 && block[15] < 96) block[15]++; /* by a zero byte */
    else block[272 + below(block[15])] ^= (uint8_t)(1u << below(8));
    seal(block);
}

/* The first record from a block on that is a later one of its set differs from the first, if there is one. */
static Verdict disagree(Bytes table, size_t from) {
    const size_t count = table.length / BLOCK - 1;
    for (size_t n = 0; n < count; n++) {
        const size_t k = 1 + (from + n) % count;
        if (first_of_set(table.bytes, k) == k) continue;
        differ(table.bytes + BLOCK * k);
        seen.disagreeing++;
        return bad_at(k);
    }
    return SOUND;
}

static Verdict damage(Bytes *table, Bytes profile) {
    const size_t k = below((uint32_t)(table->length / BLOCK));
    uint8_t *block = table->bytes + BLOCK * k;
    const uint32_t issue = get32(block + 408);
    switch (below(11)) {
    case 0: /* a bit of any byte, and so another sum; the count of a header is its length too */
        block[below(BLOCK)] ^= (uint8_t)(1u << below(8));
        return bad_at(k);
    case 1: /* a byte that no edition names */
        block[one_in(2) ? 2 + below(2) : 412 + below(96)] ^= (uint8_t)(1u << below(8));
        seal(block);
        return bad_at(k);
    case 2: /* an edition that there is not */
        block[1] = (uint8_t)(one_in(3) ? 0 : 3 + below(253));
        seal(block);
        return bad_at(k);
    case 3: /* another issue, and in edition 1 one that has no place there */
        put32(block + 408, issue ^ 1u << below(32));
        seal(block);
        return block[1] == 1 ? bad_at(k) : mixed_at(*table, k);
    case 4: /* the other edition, whole: without a set, and without an issue or with one */
        block[1] ^= 3;
        memset(block + 406, 0, 2);
        put32(block + 408, block[1] == 1 ? 0 : below(3));
        seal(block);
        return mixed_at(*table, k);
    case 5: /* what edition 2 has, in edition 1; a header has no set in either */
        if (block[1] == 2 && k > 0) block[1] = 1;
        block[one_in(2) ? 406 : 407] ^= (uint8_t)(1u << below(8));
        if (!has_set(block)) block[407] = 1;
        seal(block);
        return bad_at(k);
    case 6: /* a length that is no table's, or another one's */
        table->length -= one_in(2) && table->length > BLOCK ? BLOCK : 1 + below(BLOCK - 1);
        return bad_at(0);
    case 7: /* a part that ends a byte outside the profile file */
        if (k == 0) return SOUND;
        put32(block + 400, (uint32_t)profile.length + 1 - ((uint32_t)block[404] << 8 | block[405]));
        seal(block);
        return bad_at(k);
    case 8: /* a set whose records differ */
    case 9: return disagree(*table, k);
    default: return SOUND;
    }
}

/* ---- a request over the same records in either edition */

typedef struct {
    uint8_t answer[NDUSHAVIRE_ANSWER_ROOM];
    uint64_t word;
} Said;

/* Any record, or half of the time the next one that has another of its set before it, if there is one. */
static const uint8_t *whom(Bytes table) {
    const size_t count = table.length / BLOCK - 1, from = below((uint32_t)count);
    if (one_in(2)) return table.bytes + BLOCK * (1 + from);
    size_t n = 0;
    while (n < count && first_of_set(table.bytes, 1 + (from + n) % count) == 1 + (from + n) % count) n++;
    return table.bytes + BLOCK * (1 + (from + n) % count);
}

static void ask(Request *r, Bytes table) {
    static const char *const servers[] = {"sip:scscf1.isle:6060", "s"};
    const uint8_t *record = whom(table);
    const char *server = servers[below(2)];
    const Name name = {server, strlen(server)};
    const uint32_t kind = below(5);
    if (kind == 0 && table.bytes[15] > 0) {
        ask_authorization(r, table.bytes, record);
    } else if (kind == 1) {
        ask_location(r, record);
    } else {
        begin(r, 301);
        /* A removal may name the card alone: it reaches all its lines. */
        if (kind == 2) put(r, 1, 0, private_of(record));
        else put(r, 601, VENDOR, public_of(record));
        put(r, 602, VENDOR, record[15] > 0 && !one_in(3) ? server_of(record) : name);
        put_word(r, 614, VENDOR, one_in(2) ? 1 : below(12));
        put_word(r, 624, VENDOR, 0);
        end(r);
    }
}

static void decide(Said *said, const Request *r, Bytes table, Bytes profile) {
    uint8_t nothing = 0;
    memset(said, FILL, sizeof *said);
    said->word = ndushavire_decide(r->bytes, r->length, table.bytes, table.length, profile.bytes, profile.length, &nothing, 0, said->answer,
                                   sizeof said->answer, NDUSHAVIRE_RFC_3588, NDUSHAVIRE_NO_FEATURES);
}

/* Whether one of its set lets a barred line go on. */
static int goes_on(Bytes table, const uint8_t *record) {
    int found = 0;
    for (size_t at = BLOCK; at < table.length; at += BLOCK) found |= of_one_set(record, table.bytes + at) && (table.bytes[at + 9] & 2) == 0;
    return found;
}

/* The table in edition 1, without sets; a barred line that goes on is free there. */
static Bytes without_sets(Bytes table) {
    const Bytes plain = copy_of(table);
    for (size_t at = BLOCK; at < plain.length; at += BLOCK) {
        if (goes_on(table, table.bytes + at)) plain.bytes[at + 9] &= (uint8_t)~2u;
        seen.freed += plain.bytes[at + 9] != table.bytes[at + 9];
        memset(plain.bytes + at + 406, 0, 2);
    }
    stamp(plain, 1, 0);
    return plain;
}

/* What was done to a record without sets, done to the whole set of it. */
static void reach(Bytes table, Bytes plain, Bytes done) {
    const Bytes before = copy_of(table);
    for (size_t at = BLOCK; at < table.length; at += BLOCK) {
        if (memcmp(plain.bytes + at, done.bytes + at, BLOCK) == 0) continue;
        for (size_t to = BLOCK; to < table.length; to += BLOCK) {
            if (to != at && !of_one_set(before.bytes + at, before.bytes + to)) continue;
            seen.reaching += to != at;
            agree_with(table.bytes + to, done.bytes + at);
            seal(table.bytes + to);
        }
    }
    free(before.bytes);
}

/* The table in edition 1, without sets, and in edition 2 as it is or moved: the same answer, and the same records but for what sets add. */
static void try_request(Bytes table, Bytes profile) {
    static Request r;
    static Said first, second;
    if (table.length == BLOCK) return; /* nobody to ask about */
    const Bytes plain = without_sets(table), done = copy_of(plain), with = copy_of(table);
    if (table.bytes[1] == 1) stamp(with, 2, below(9));
    const Bytes expected = copy_of(with);
    ask(&r, table);
    decide(&first, &r, done, profile);
    decide(&second, &r, with, profile);
    if (!ndushavire_answered(first.word)) fail("a request is refused");
    if (first.word != second.word || memcmp(first.answer, second.answer, sizeof first.answer) != 0) fail("another answer in edition 2");
    seen.answers++;
    seen.altering += !alike(expected, with);
    reach(expected, plain, done);
    if (!alike(expected, with)) fail("a request alters other records in edition 2, or a set or the issue");
    free(expected.bytes);
    free(plain.bytes);
    free(done.bytes);
    free(with.bytes);
}

/* Whether there was something of everything. */
static int enough(void) {
    printf("moves: %lu forward, %lu back; refused: %lu of the other edition, %lu for a set, %lu unsound; of the tables %lu mix and %lu disagree;\n",
           seen.forward, seen.back, seen.other_edition, seen.sets, seen.unsound, seen.mixed, seen.disagreeing);
    printf("moves: %lu requests, %lu alter, and %lu records more by sets; %lu barred lines go on with a set\n", seen.answers, seen.altering,
           seen.reaching, seen.freed);
    return seen.forward > 0 && seen.back > 0 && seen.other_edition > 0 && seen.sets > 0 && seen.unsound > 0 && seen.mixed > 0 &&
           seen.disagreeing > 0 && seen.altering > 0 && seen.reaching > 0 && seen.freed > 0;
}

int main(int argc, char **argv) {
    if (argc != 3) {
        fprintf(stderr, "usage: moves SEED COUNT\n");
        return 2;
    }
    const unsigned long first = strtoul(seed = argv[1], NULL, 10), count = strtoul(argv[2], NULL, 10);
    for (number = 0; number < count; number++) {
        chance = (first + number + 1) * 0x9E3779B97F4A7C15u | 1;
        for (int i = 0; i < 8; i++) below(2);
        Bytes profile, made = put_table((uint8_t)(1 + number % 2), number < FULL, &profile), table = copy_of(made);
        const size_t length = table.length;
        try_both(table, profile, SOUND);
        try_request(table, profile);
        const Verdict verdict = damage(&table, profile);
        memset(table.bytes + table.length, FILL, length - table.length + BEHIND);
        try_both(table, profile, verdict);
        free(made.bytes);
        free(table.bytes);
        free(profile.bytes);
    }
    if (enough()) return 0;
    fprintf(stderr, "moves: seed %s: too little was tried\n", seed);
    return 1;
}
