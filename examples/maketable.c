/* maketable table TEXT, maketable profile TEXT: the table that a text describes, or its profile file, on standard output. A text
 * with an issue number makes a table of edition 2, every other one of edition 1.
 * maketable vectors TEXT: the vector file that a text describes, which is another text.
 * It is installed as ndushavire-maketable.
 * It writes no file. Never send its output over a file in use, as with `> table`: the shell empties that file before
 * this program has read a line. Send it into a new one, check that and switch; tablecheck(1) and ndushavire-check(1) show how.
 *
 * TABLE.md among the documents says how the texts are written ("As text") and what stands in the blocks; households.txt and
 * vectors.txt are examples. showtable goes the other way.
 *
 * Exit status: 0 written; 1 the text is refused with its line, since no sound file can be made from it, or since a vector
 * stands there twice; 2 wrong use, a file that cannot be read, or no memory, or standard output fails. Nothing is written of a
 * text that is refused.
 * This program stands apart from the library, of whose header it takes the version alone, and reads the rules of both files for itself, so
 * that each tests the other. */
#include <ctype.h>
#include <stdarg.h>

#include <ndushavire.h>

#include "load.h"

enum { BLOCK = 512, RECORDS = 4096, NETWORKS = 8, CAPABILITIES = 4, VECTORS = 4096, KEY = 16, XRES_LEAST = 4, XRES_MOST = 16 };
static const uint64_t PLACE_MOST = 1000000000000000; /* a place in the profile file; a record's has 32 bits */
static const uint64_t LEFT_MOST = 4096 * 4096;       /* bytes that nobody names: no more records can have been taken out */

typedef struct {
    const uint8_t *bytes;
    size_t length;
} Name;

typedef struct {
    uint32_t value[CAPABILITIES];
    unsigned count;
} Capabilities;

/* A part of the profile file. */
typedef struct {
    size_t line;
    Name bytes;
    int placed; /* whether the text says where */
    uint64_t start;
} Part;

typedef struct {
    size_t line;
    Name public_identity, private_identity, server;
    Part profile;
    unsigned state, pending, barred, services, roaming, set;
    Capabilities mandatory, optional;
} Record;

/* An authentication vector. Its bytes stand in the text as digits. */
typedef struct {
    size_t line;
    Name private_identity;
    uint8_t rand[KEY], autn[KEY], xres[XRES_MOST], confidentiality[KEY], integrity[KEY];
    size_t xres_length;
    unsigned used;
} Vector;

static struct {
    Name host, realm, network[NETWORKS];
    unsigned keep, networks, edition;
    uint32_t issue;
} header;

static Record records[RECORDS];
static size_t count;
static Vector vectors[VECTORS];
static size_t vector_count;
static Part *unused;
static size_t unused_count;
static const char *text_name;

static void refuse(size_t line, const char *form, ...) {
    va_list words;
    va_start(words, form);
    fprintf(stderr, "ndushavire-maketable: %s:%lu: ", text_name, (unsigned long)line);
    vfprintf(stderr, form, words);
    fputc('\n', stderr);
    va_end(words);
    exit(1);
}

static void *got(void *memory) {
    if (memory != NULL) return memory;
    fprintf(stderr, "ndushavire-maketable: no memory\n");
    exit(2);
}

/* ---- the text's words */

typedef enum {
    HOST, REALM, KEEP, ISSUE, NETWORK,
    PUBLIC, PRIVATE, SET, STATE, PENDING, BARRED, SERVICES, ROAMING, MANDATORY, OPTIONAL, SERVER, PROFILE,
    PROFILE_AT, UNUSED,
    RAND, AUTN, XRES, CONFIDENTIALITY, INTEGRITY, USED,
    KEYS
} Key;

static const struct {
    const char *name;
    int is_flag, repeats;
    size_t least, most;
} keys[KEYS] = {
    [HOST] = {"host", 0, 0, 1, 64},
    [REALM] = {"realm", 0, 0, 1, 64},
    [KEEP] = {"keep", 0, 0, 0, 4096},
    [ISSUE] = {"issue", 0, 0, 0, 4096},
    [NETWORK] = {"network", 0, 1, 1, 31},
    [PUBLIC] = {"public", 0, 0, 1, 128},
    [PRIVATE] = {"private", 0, 0, 1, 128},
    [SET] = {"set", 0, 0, 0, 4096},
    [STATE] = {"state", 0, 0, 0, 4096},
    [PENDING] = {"pending", 1, 0, 0, 0},
    [BARRED] = {"barred", 1, 0, 0, 0},
    [SERVICES] = {"unregistered-services", 1, 0, 0, 0},
    [ROAMING] = {"roaming", 0, 1, 0, 4096},
    [MANDATORY] = {"mandatory", 0, 0, 0, 4096},
    [OPTIONAL] = {"optional", 0, 0, 0, 4096},
    [SERVER] = {"server", 0, 0, 1, 96},
    [PROFILE] = {"profile", 0, 0, 0, 4096},
    [PROFILE_AT] = {"profile-at", 0, 0, 0, 4096},
    [UNUSED] = {"unused", 0, 0, 1, 4096},
    [RAND] = {"rand", 0, 0, 0, 4096},
    [AUTN] = {"autn", 0, 0, 0, 4096},
    [XRES] = {"xres", 0, 0, 0, 4096},
    [CONFIDENTIALITY] = {"confidentiality", 0, 0, 0, 4096},
    [INTEGRITY] = {"integrity", 0, 0, 0, 4096},
    [USED] = {"used", 1, 0, 0, 0},
};

typedef struct {
    uint8_t *at, *end;
    size_t line;
    int empty; /* whether the line has had no word and no comment yet */
} Text;

typedef struct {
    enum { END, GAP, WORD } kind;
    size_t line;
    Key key;
    Name value;
} Word;

static int same(Name a, Name b) { return a.length == b.length && memcmp(a.bytes, b.bytes, a.length) == 0; }

static int same_text(Name a, const char *b) { return a.length == strlen(b) && memcmp(a.bytes, b, a.length) == 0; }

static int hex_digit(int c) { return isdigit(c) ? c - '0' : isxdigit(c) ? tolower(c) - 'a' + 10 : -1; }

/* The byte that a backslash in a quoted value stands for. */
static uint8_t escaped(Text *text) {
    const uint8_t c = text->at < text->end ? *text->at++ : 0;
    if (c == 'n') return '\n';
    if (c == 'x' && text->end - text->at >= 2) {
        const int high = hex_digit(text->at[0]), low = hex_digit(text->at[1]);
        text->at += 2;
        if (high >= 0 && low >= 0) return (uint8_t)(high * 16 + low);
    } else if (c == '"' || c == '\\') {
        return c;
    }
    refuse(text->line, "a backslash wants \", \\, n, or x and two hexadecimal digits");
    return 0;
}

/* A value in quotes, written over itself: it only ever shrinks. */
static Name quoted(Text *text) {
    uint8_t *start = ++text->at, *to = start;
    while (text->at < text->end && *text->at != '"' && *text->at != '\n') {
        uint8_t c = *text->at++;
        *to++ = c == '\\' ? escaped(text) : c;
    }
    if (text->at == text->end || *text->at != '"') refuse(text->line, "a quote is not closed on its line");
    text->at++;
    if (text->at < text->end && !isspace(*text->at)) refuse(text->line, "a blank is missing after a quoted value");
    const Name name = {start, (size_t)(to - start)};
    return name;
}

/* What stands here up to a blank, or to `stop`. */
static Name run(Text *text, int stop) {
    uint8_t *start = text->at;
    while (text->at < text->end && !isspace(*text->at) && *text->at != stop) text->at++;
    const Name name = {start, (size_t)(text->at - start)};
    return name;
}

/* Goes to the next word, and says whether an empty line was passed. */
static int skip(Text *text) {
    int gap = 0;
    while (text->at < text->end && (isspace(*text->at) || *text->at == '#')) {
        if (*text->at == '#') {
            while (text->at < text->end && *text->at != '\n') text->at++;
            text->empty = 0;
        } else if (*text->at++ == '\n') {
            gap |= text->empty;
            text->empty = 1;
            text->line++;
        }
    }
    return gap;
}

static Word next_word(Text *text) {
    const int gap = skip(text);
    Word word = {END, text->line, KEYS, {NULL, 0}};
    if (text->at == text->end) return word;
    word.kind = gap ? GAP : WORD;
    if (gap) return word;
    text->empty = 0;
    const Name key = run(text, '=');
    for (word.key = HOST; word.key < KEYS && !same_text(key, keys[word.key].name);) word.key = (Key)(word.key + 1);
    if (word.key == KEYS) refuse(word.line, "there is no word %.*s", (int)(key.length < 64 ? key.length : 64), (const char *)key.bytes);
    const int has_value = text->at < text->end && *text->at == '=';
    const char *name = keys[word.key].name;
    if (keys[word.key].is_flag && has_value) refuse(word.line, "%s takes no value", name);
    if (!keys[word.key].is_flag && !has_value) refuse(word.line, "%s wants a value", name);
    if (!has_value) return word;
    text->at++;
    word.value = text->at < text->end && *text->at == '"' ? quoted(text) : run(text, -1);
    if (word.value.length < keys[word.key].least || word.value.length > keys[word.key].most)
        refuse(word.line, "%s has %lu bytes, and may have %lu to %lu", name, (unsigned long)word.value.length,
               (unsigned long)keys[word.key].least, (unsigned long)keys[word.key].most);
    return word;
}

/* ---- what the words mean */

static unsigned choice(const Word *word, const char *const *names, unsigned many) {
    unsigned i = 0;
    while (i < many && !same_text(word->value, names[i])) i++;
    if (i == many) refuse(word->line, "%s has none of its values", keys[word->key].name);
    return i;
}

static unsigned find_network(Name name) {
    unsigned i = 0;
    while (i < header.networks && !same(name, header.network[i])) i++;
    return i;
}

/* The digits at `at` as a number, which stops growing past `most`. */
static uint64_t digits(const uint8_t **at, const uint8_t *end, uint64_t most) {
    uint64_t number = 0;
    for (; *at < end && isdigit(**at) && number <= most; ++*at) number = number * 10 + (uint64_t)(**at - '0');
    return number;
}

/* A value that is one number. */
static uint64_t number_of(const Word *word, uint64_t most, const char *what) {
    const uint8_t *at = word->value.bytes, *end = at + word->value.length;
    const uint64_t found = digits(&at, end, most);
    if (at == word->value.bytes || at < end || found > most) refuse(word->line, "%s is a %s", keys[word->key].name, what);
    return found;
}

static uint64_t place(const Word *word) { return number_of(word, PLACE_MOST, "place in the profile file"); }

static Capabilities capabilities(const Word *word) {
    Capabilities found = {{0}, 0};
    const uint8_t *at = word->value.bytes, *end = at + word->value.length;
    for (;; at++) {
        const uint8_t *start = at;
        const uint64_t number = digits(&at, end, UINT32_MAX);
        if (number > UINT32_MAX) refuse(word->line, "a number of %s is over 32 bits", keys[word->key].name);
        if (at == start || (at < end && *at != ',')) refuse(word->line, "%s is numbers with commas between", keys[word->key].name);
        if (found.count == CAPABILITIES) refuse(word->line, "%s has more than %d numbers", keys[word->key].name, CAPABILITIES);
        found.value[found.count++] = (uint32_t)number;
        if (at == end) return found;
    }
}

/* A value of hexadecimal digits, two for a byte; gives how many bytes there are. */
static size_t hexadecimal(const Word *word, uint8_t *to, size_t least, size_t most) {
    const size_t length = word->value.length / 2;
    int right = word->value.length % 2 == 0 && length >= least && length <= most;
    for (size_t i = 0; right && i < length; i++) {
        const int high = hex_digit(word->value.bytes[2 * i]), low = hex_digit(word->value.bytes[2 * i + 1]);
        right = high >= 0 && low >= 0;
        to[i] = (uint8_t)(high * 16 + low);
    }
    if (!right && least == most)
        refuse(word->line, "%s is %lu hexadecimal digits", keys[word->key].name, (unsigned long)(2 * most));
    if (!right)
        refuse(word->line, "%s is %lu to %lu hexadecimal digits, two for a byte", keys[word->key].name, (unsigned long)(2 * least),
               (unsigned long)(2 * most));
    return length;
}

static void header_word(const Word *word) {
    static const char *const keeps[] = {"0", "1"};
    switch (word->key) {
    case HOST: header.host = word->value; break;
    case REALM: header.realm = word->value; break;
    case KEEP: header.keep = choice(word, keeps, 2); break;
    case ISSUE:
        header.edition = 2;
        header.issue = (uint32_t)number_of(word, UINT32_MAX, "number of up to 32 bits");
        break;
    case NETWORK:
        if (find_network(word->value) < header.networks) refuse(word->line, "two networks are alike");
        if (header.networks == NETWORKS) refuse(word->line, "there are more than %d networks", NETWORKS);
        header.network[header.networks++] = word->value;
        break;
    default: refuse(word->line, "%s is no word of a header", keys[word->key].name);
    }
}

static void record_word(Record *record, const Word *word) {
    static const char *const states[] = {"not-registered", "registered", "unregistered"};
    switch (word->key) {
    case PUBLIC: record->public_identity = word->value; break;
    case PRIVATE: record->private_identity = word->value; break;
    case SET:
        record->set = (unsigned)number_of(word, UINT16_MAX, "number of up to 16 bits");
        if (record->set != 0 && header.edition == 1) refuse(word->line, "a set wants an issue in the header");
        break;
    case STATE: record->state = choice(word, states, 3); break;
    case PENDING: record->pending = 1; break;
    case BARRED: record->barred = 1; break;
    case SERVICES: record->services = 1; break;
    case ROAMING:
        if (find_network(word->value) == header.networks) refuse(word->line, "roaming names no network of the header");
        record->roaming |= 1u << find_network(word->value);
        break;
    case MANDATORY: record->mandatory = capabilities(word); break;
    case OPTIONAL: record->optional = capabilities(word); break;
    case SERVER: record->server = word->value; break;
    case PROFILE: record->profile.bytes = word->value; break;
    case PROFILE_AT:
        record->profile.placed = 1;
        record->profile.start = place(word);
        break;
    default: refuse(word->line, "%s is no word of a record", keys[word->key].name);
    }
}

static void vector_word(Vector *vector, const Word *word) {
    switch (word->key) {
    case PRIVATE: vector->private_identity = word->value; break;
    case RAND: hexadecimal(word, vector->rand, KEY, KEY); break;
    case AUTN: hexadecimal(word, vector->autn, KEY, KEY); break;
    case XRES: vector->xres_length = hexadecimal(word, vector->xres, XRES_LEAST, XRES_MOST); break;
    case CONFIDENTIALITY: hexadecimal(word, vector->confidentiality, KEY, KEY); break;
    case INTEGRITY: hexadecimal(word, vector->integrity, KEY, KEY); break;
    case USED: vector->used = 1; break;
    default: refuse(word->line, "%s is no word of a vector", keys[word->key].name);
    }
}

/* Notes a word of a paragraph; few kinds of words may stand there twice. */
static void note(unsigned *seen, const Word *word) {
    if ((*seen >> word->key & 1u) && !keys[word->key].repeats) refuse(word->line, "%s stands there twice", keys[word->key].name);
    *seen |= 1u << word->key;
}

static void want(unsigned seen, Key key, size_t line) {
    if (!(seen >> key & 1u)) refuse(line, "%s is missing", keys[key].name);
}

/* Each of these begins at a paragraph's first word and gives what follows its last one. */
static Word read_header(Text *text, Word word) {
    const size_t line = word.line;
    unsigned seen = 0;
    header.edition = 1;
    for (; word.kind == WORD; word = next_word(text)) {
        note(&seen, &word);
        header_word(&word);
    }
    want(seen, HOST, line);
    want(seen, REALM, line);
    want(seen, KEEP, line);
    return word;
}

static Word read_record(Text *text, Word word) {
    if (count == RECORDS) refuse(word.line, "there are more than %d records", RECORDS);
    Record *record = &records[count++];
    record->line = record->profile.line = word.line;
    unsigned seen = 0;
    for (; word.kind == WORD; word = next_word(text)) {
        note(&seen, &word);
        record_word(record, &word);
    }
    want(seen, PUBLIC, record->line);
    want(seen, PRIVATE, record->line);
    const int named = record->state != 0 || record->pending;
    if (named) want(seen, SERVER, record->line);
    if (!named && record->server.length > 0) refuse(record->line, "a line that is not registered and not pending has no server");
    return word;
}

static Word read_unused(Text *text, Word word) {
    const size_t line = word.line;
    Part part = {line, {NULL, 0}, 1, 0};
    unsigned seen = 0;
    for (; word.kind == WORD; word = next_word(text)) {
        note(&seen, &word);
        if (word.key == UNUSED) part.bytes = word.value;
        else if (word.key == PROFILE_AT) part.start = place(&word);
        else refuse(word.line, "%s is no word beside unused", keys[word.key].name);
    }
    want(seen, PROFILE_AT, line);
    unused = (Part *)got(realloc(unused, (unused_count + 1) * sizeof *unused));
    unused[unused_count++] = part;
    return word;
}

static Word read_vector(Text *text, Word word) {
    static const Key wanted[] = {PRIVATE, RAND, AUTN, XRES, CONFIDENTIALITY, INTEGRITY};
    if (vector_count == VECTORS) refuse(word.line, "there are more than %d vectors", VECTORS);
    Vector *vector = &vectors[vector_count++];
    vector->line = word.line;
    unsigned seen = 0;
    for (; word.kind == WORD; word = next_word(text)) {
        note(&seen, &word);
        vector_word(vector, &word);
    }
    for (size_t i = 0; i < sizeof wanted / sizeof wanted[0]; i++) want(seen, wanted[i], vector->line);
    return word;
}

/* The word that the text begins with, or its end. */
static Word first_word(Text *text) {
    const Word word = next_word(text);
    return word.kind == GAP ? next_word(text) : word;
}

static void read_table(Text *text) {
    Word word = read_header(text, first_word(text));
    while (word.kind == GAP) {
        word = next_word(text);
        word = word.key == UNUSED ? read_unused(text, word) : read_record(text, word);
    }
}

static void read_vectors(Text *text) {
    Word word = first_word(text);
    while (word.kind == WORD) {
        word = read_vector(text, word);
        if (word.kind == GAP) word = next_word(text);
    }
}

/* ---- implicit sets: the records of one private identity with the same number, other than 0 */

static const Record *first_of_set(const Record *record) {
    const Record *first = records;
    while (first < record && (first->set != record->set || !same(first->private_identity, record->private_identity))) first++;
    return first;
}

/* The records of a set agree in state, pending and server's name, since they are registered and removed together. */
static void refuse_disagreement(void) {
    for (const Record *record = records; record < records + count; record++) {
        if (record->set == 0) continue;
        const Record *first = first_of_set(record);
        const Key other = first->state != record->state ? STATE : first->pending != record->pending ? PENDING : SERVER;
        if (other == SERVER && same(first->server, record->server)) continue;
        refuse(record->line, "%s is not as at line %lu, which is of the same set", keys[other].name, (unsigned long)first->line);
    }
}

/* ---- the order of the records */

/* Bytewise, a prefix first. */
static int by_public_identity(const void *left, const void *right) {
    const Name a = ((const Record *)left)->public_identity, b = ((const Record *)right)->public_identity;
    const int order = memcmp(a.bytes, b.bytes, a.length < b.length ? a.length : b.length);
    return order != 0 ? order : (a.length > b.length) - (a.length < b.length);
}

static void sort_records(void) {
    qsort(records, count, sizeof records[0], by_public_identity);
    for (size_t i = 1; i < count; i++)
        if (by_public_identity(&records[i - 1], &records[i]) == 0) {
            const size_t a = records[i - 1].line, b = records[i].line;
            refuse(a < b ? b : a, "its public identity stands at line %lu already", (unsigned long)(a < b ? a : b));
        }
}

/* ---- vectors that stand there twice */

static int by_challenge(const void *left, const void *right) {
    const Vector *a = *(const Vector *const *)left, *b = *(const Vector *const *)right;
    const Name m = a->private_identity, n = b->private_identity;
    int order = (m.length > n.length) - (m.length < n.length);
    if (order == 0) order = memcmp(m.bytes, n.bytes, m.length);
    if (order == 0) order = memcmp(a->rand, b->rand, KEY);
    if (order == 0) order = memcmp(a->autn, b->autn, KEY);
    return order != 0 ? order : (a > b) - (a < b);
}

static int twins(const Vector *a, const Vector *b) {
    return same(a->private_identity, b->private_identity) && memcmp(a->rand, b->rand, KEY) == 0 && memcmp(a->autn, b->autn, KEY) == 0;
}

/* A vector that stands there twice would be sent twice, and a card takes none a second time. */
static void refuse_twins(void) {
    static const Vector *sorted[VECTORS];
    const Vector *first = NULL, *again = NULL;
    for (size_t i = 0; i < vector_count; i++) sorted[i] = &vectors[i];
    qsort(sorted, vector_count, sizeof sorted[0], by_challenge);
    for (size_t i = 1; i < vector_count; i++)
        if (twins(sorted[i - 1], sorted[i]) && (again == NULL || sorted[i] < again)) {
            first = sorted[i - 1];
            again = sorted[i];
        }
    if (again != NULL) refuse(again->line, "this vector stands at line %lu already", (unsigned long)first->line);
}

/* ---- the profile file */

static size_t part_count(void) { return count + unused_count; }

/* The parts of the records, and then those that are unused. */
static const Part *part(size_t i) { return i < count ? &records[i].profile : &unused[i - count]; }

static uint64_t part_end(const Part *p) { return p->start + p->bytes.length; }

/* Says where each part begins that the text leaves open, and gives the file's length. */
static size_t lay_out(void) {
    uint64_t end = 0, named = 0;
    for (size_t i = 0; i < part_count(); i++) {
        named += part(i)->bytes.length;
        if (part(i)->placed && part_end(part(i)) > end) end = part_end(part(i));
    }
    for (size_t i = 0; i < part_count(); i++) {
        const Part *p = part(i);
        if (i < count && p->placed && p->start > UINT32_MAX) refuse(p->line, "profile-at is over 32 bits");
        if (p->placed && part_end(p) > named + LEFT_MOST) refuse(p->line, "profile-at leaves over 16 MiB to nobody");
    }
    for (size_t i = 0; i < count; i++) {
        Part *p = &records[i].profile;
        if (p->placed) continue;
        p->start = end;
        end = part_end(p);
        if (p->start > UINT32_MAX) refuse(p->line, "the profile file is too long for one part more");
    }
    return (size_t)end;
}

static void refuse_part(const Part *late, uint64_t place) {
    for (size_t i = 0; i < part_count(); i++) {
        const Part *p = part(i);
        if (p != late && place >= p->start && place < part_end(p))
            refuse(late->line, "byte %llu of the profile file is another one at line %lu; without profile-at it is another place",
                   (unsigned long long)place, (unsigned long)p->line);
    }
}

/* Parts may share bytes, if they are the same in each. */
static void put_profile(uint8_t *profile, size_t length) {
    uint8_t *taken = (uint8_t *)got(calloc(length + 1, 1));
    for (size_t i = 0; i < part_count(); i++) {
        const Part *p = part(i);
        for (size_t j = 0; j < p->bytes.length; j++) {
            const size_t at = (size_t)p->start + j;
            if (taken[at] && profile[at] != p->bytes.bytes[j]) refuse_part(p, at);
            taken[at] = 1;
            profile[at] = p->bytes.bytes[j];
        }
    }
    free(taken);
}

/* ---- the blocks */

static void put_name(uint8_t *to, Name name) {
    if (name.length > 0) memcpy(to, name.bytes, name.length);
}

static void put_word(uint8_t *to, uint32_t word) {
    for (int i = 0; i < 4; i++) to[i] = (uint8_t)(word >> (24 - 8 * i));
}

/* Sets the check word, so that the block's 128 words sum to zero. */
static void seal(uint8_t *block) {
    uint32_t sum = 0;
    for (size_t at = 0; at < BLOCK - 4; at += 4)
        sum += (uint32_t)block[at] << 24 | (uint32_t)block[at + 1] << 16 | (uint32_t)block[at + 2] << 8 | block[at + 3];
    put_word(block + BLOCK - 4, 0 - sum);
}

static void put_header(uint8_t *block) {
    block[0] = 1;
    block[1] = (uint8_t)header.edition;
    put_word(block + 8, (uint32_t)count);
    block[12] = (uint8_t)header.keep;
    block[13] = (uint8_t)header.host.length;
    block[14] = (uint8_t)header.realm.length;
    block[15] = (uint8_t)header.networks;
    put_name(block + 16, header.host);
    put_name(block + 80, header.realm);
    for (unsigned i = 0; i < header.networks; i++) {
        block[144 + 32 * i] = (uint8_t)header.network[i].length;
        put_name(block + 145 + 32 * i, header.network[i]);
    }
    put_word(block + 408, header.issue);
    seal(block);
}

static void put_record(uint8_t *block, const Record *record, uint32_t number) {
    block[0] = 2;
    block[1] = (uint8_t)header.edition;
    put_word(block + 4, number);
    block[8] = (uint8_t)record->state;
    block[9] = (uint8_t)(record->pending | record->barred << 1 | record->services << 2);
    block[10] = (uint8_t)record->roaming;
    block[11] = (uint8_t)record->mandatory.count;
    block[12] = (uint8_t)record->optional.count;
    block[13] = (uint8_t)record->public_identity.length;
    block[14] = (uint8_t)record->private_identity.length;
    block[15] = (uint8_t)record->server.length;
    put_name(block + 16, record->public_identity);
    put_name(block + 144, record->private_identity);
    put_name(block + 272, record->server);
    for (size_t i = 0; i < CAPABILITIES; i++) {
        put_word(block + 368 + 4 * i, record->mandatory.value[i]);
        put_word(block + 384 + 4 * i, record->optional.value[i]);
    }
    put_word(block + 400, (uint32_t)record->profile.start);
    block[404] = (uint8_t)(record->profile.bytes.length >> 8);
    block[405] = (uint8_t)record->profile.bytes.length;
    block[406] = (uint8_t)(record->set >> 8);
    block[407] = (uint8_t)record->set;
    put_word(block + 408, header.issue);
    seal(block);
}

static void put_vector(uint8_t *block, const Vector *vector) {
    block[0] = 3;
    block[1] = (uint8_t)vector->used;
    block[2] = (uint8_t)vector->xres_length;
    block[3] = (uint8_t)vector->private_identity.length;
    put_name(block + 4, vector->private_identity);
    memcpy(block + 132, vector->rand, KEY);
    memcpy(block + 148, vector->autn, KEY);
    memcpy(block + 164, vector->xres, vector->xres_length);
    memcpy(block + 180, vector->confidentiality, KEY);
    memcpy(block + 196, vector->integrity, KEY);
    seal(block);
}

static int print(const uint8_t *bytes, size_t length) {
    if (fwrite(bytes, 1, length, stdout) == length && fflush(stdout) == 0) return 1;
    fprintf(stderr, "ndushavire-maketable: standard output: %s\n", strerror(errno));
    return 0;
}

/* Each of these writes a file of a text. */
static int make_pair(Text *text, int profile_wanted) {
    read_table(text);
    refuse_disagreement();
    sort_records();
    const size_t profile_length = lay_out();
    uint8_t *table = (uint8_t *)got(calloc(count + 1, BLOCK)), *profile = (uint8_t *)got(calloc(profile_length + 1, 1));
    put_header(table);
    for (size_t i = 0; i < count; i++) put_record(table + BLOCK * (i + 1), &records[i], (uint32_t)(i + 1));
    put_profile(profile, profile_length);
    const int printed = profile_wanted ? print(profile, profile_length) : print(table, BLOCK * (count + 1));
    free(table);
    free(profile);
    free(unused);
    return printed;
}

static int make_vectors(Text *text) {
    read_vectors(text);
    refuse_twins();
    uint8_t *file = (uint8_t *)got(calloc(vector_count + 1, BLOCK));
    for (size_t i = 0; i < vector_count; i++) put_vector(file + BLOCK * i, &vectors[i]);
    const int printed = print(file, BLOCK * vector_count);
    free(file);
    return printed;
}

static int is(const char *word, const char *other) { return strcmp(word, other) == 0; }

int main(int argc, char **argv) {
    static const char usage[] = "usage: ndushavire-maketable table|profile|vectors TEXT\n"
                                "Writes what TEXT describes to standard output: a table, its profile file, or a vector file.\n"
                                "Exit status: 0 written, 1 the text is refused, 2 unreadable, not written or wrong use.\n";
    static const char *const files[] = {"table", "profile", "vectors"};
    int file = 0;
    if (argc == 2 && (is(argv[1], "--help") || is(argv[1], "--version"))) {
        printf("%s", is(argv[1], "--help") ? usage : "ndushavire-maketable " NDUSHAVIRE_VERSION "\n");
        return printed() ? 0 : 2;
    }
    while (file < 3 && argc == 3 && !is(argv[1], files[file])) file++;
    if (argc != 3 || file == 3) {
        fprintf(stderr, "%s", usage);
        return 2;
    }
    size_t length;
    uint8_t *bytes = load(text_name = argv[2], &length);
    Text text = {bytes, bytes + length, 1, 1};
    const int made = file == 2 ? make_vectors(&text) : make_pair(&text, file == 1);
    free(bytes);
    return made ? 0 : 2;
}
