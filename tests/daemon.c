/* daemon FOLDER TABLE PROFILE VECTORS QUESTION ASSIGNMENT CHALLENGE RUBBISH: example.c, which is the daemon of ndushavire(3) or that of the
 * examples, on a disk that fails. Its system calls fail, or are its last, or the last before a power cut, one by one and two by two; it is
 * started again, and its peer asks until it is answered. No answer may go out while a power cut could bring back another table or vector
 * file than it was given from, and no vector twice. To RUBBISH, which has an AVP at fault, its log says where it hurts. Each peer gets the
 * answer by the base standard that is stated of it, and whoever asks for features is told those that are supported. A daemon that serves rows is asked
 * in rows of 1 to 64: all of a row is answered, from what it altered as a whole, or none of it. A daemon that looks for new tables has an unsound one
 * laid over its own: until its own is stored again that one stays, and what alters is not answered.
 * The disk is a model: what is in the folders is what every reader sees, and only what was flushed is on disk. */
#define _GNU_SOURCE /* memmem, MAP_ANONYMOUS */
#include <stdarg.h>
#include <errno.h>
#include <fcntl.h>
#include <stdint.h>
#include <stdio.h>
#include <stdlib.h>
#include <string.h>
#include <sys/mman.h>
#include <sys/stat.h>
#include <sys/wait.h>
#include <unistd.h>

enum { ROOM = 16 * 512, FILES = 8, FAULTS = 2, LIVES = 8, SCRIPT = 6, REQUESTS = 64, ANOTHER = REQUESTS, BLOCKS = 16, ENDED = 9 };

/* The files that are stored; each lies in a folder of its own. */
enum { TABLE, VECTORS, NAMES };
static const char *const names[NAMES] = {"table", "vectors"}, *const fresh_names[NAMES] = {"table.new", "vectors.new"};
static const char aside_name[] = "table.ours", fresh_aside_name[] = "table.ours.new"; /* what is stored beside a table that was laid over it */
static int folders[NAMES];

typedef struct {
    uint8_t bytes[ROOM];
    size_t length;
} Bytes;

typedef enum { FAILS, KILLS, CUTS, WAYS } Way; /* the call fails; it is the daemon's last; it is the last before a power cut */

typedef struct {
    unsigned call; /* the number of the call that goes wrong, or 0 */
    Way way;
} Fault;

/* What outlives a daemon: the disk, the faults to come, the peer. */
static struct Model {
    Bytes on_disk[NAMES];      /* what has the name after a power cut */
    int renamed[NAMES];        /* whether the name has a change that is not on disk, and that a flush of its folder would write */
    int forgets;               /* whether what a failed flush should have written is not written by the next one either */
    struct {
        ino_t number;          /* 0: free */
        Bytes flushed;
    } file[FILES];
    unsigned calls;
    Fault fault[FAULTS];
    int cut;                   /* whether the power went */
    int covered;               /* whether a table was laid over the daemon's */
    unsigned answered;         /* how many requests the peer has answers for */
    int sent[BLOCKS];          /* which vectors it has got */
    const char *broken;        /* the rule that was broken */
} *model;

/* ---- the disk */

static void slurp(int file, Bytes *to) {
    ssize_t more;
    to->length = 0;
    while ((more = pread(file, to->bytes + to->length, ROOM - to->length, (off_t)to->length)) > 0) to->length += (size_t)more;
}

static unsigned slot_of(ino_t number) {
    unsigned i = 0;
    while (i < FILES && model->file[i].number != number) i++;
    return i;
}

static void forget_file(ino_t number) {
    const unsigned i = slot_of(number);
    if (i < FILES) model->file[i].number = 0;
}

static ino_t number_at(int folder, const char *name) {
    struct stat found;
    return fstatat(folder, name, &found, AT_SYMLINK_NOFOLLOW) == 0 ? found.st_ino : 0;
}

static ino_t number_of(int file) {
    struct stat found;
    return fstat(file, &found) == 0 ? found.st_ino : 0;
}

static void flush_as(int folder, const char *name, ino_t number) {
    if (number_at(folder, name) != number) return;
    const unsigned slot = slot_of(0); /* there is one: a file that loses its name is forgotten */
    const int file = openat(folder, name, O_RDONLY);
    slurp(file, &model->file[slot].flushed);
    model->file[slot].number = number;
    close(file);
}

static void flush_file(ino_t number) {
    forget_file(number);
    for (int i = 0; i < NAMES; i++) {
        flush_as(folders[i], names[i], number);
        flush_as(folders[i], fresh_names[i], number);
    }
    flush_as(folders[TABLE], aside_name, number);
    flush_as(folders[TABLE], fresh_aside_name, number);
}

static void flush_name(int i) {
    const ino_t number = number_at(folders[i], names[i]);
    const unsigned slot = slot_of(number);
    if (!model->renamed[i]) return;
    model->renamed[i] = 0;
    model->on_disk[i].length = 0; /* a file whose bytes were not flushed may be empty */
    if (number != 0 && slot < FILES) model->on_disk[i] = model->file[slot].flushed;
}

/* The file of a name as it is given, on disk and to see. */
static int lay_down(int i, const Bytes *bytes) {
    unlinkat(folders[i], fresh_names[i], 0);
    unlinkat(folders[i], names[i], 0);
    const int file = openat(folders[i], names[i], O_RDWR | O_CREAT | O_TRUNC, 0600);
    if (file < 0 || write(file, bytes->bytes, bytes->length) != (ssize_t)bytes->length) return 0;
    flush_file(number_of(file));
    close(file);
    model->renamed[i] = 1;
    flush_name(i);
    return 1;
}

/* The power comes back: what every reader sees is what is on disk. */
static int power_back(void) {
    const Bytes disk[NAMES] = {model->on_disk[TABLE], model->on_disk[VECTORS]};
    memset(model->file, 0, sizeof model->file);
    model->cut = 0;
    return lay_down(TABLE, &disk[TABLE]) && lay_down(VECTORS, &disk[VECTORS]);
}

/* ---- the calls that store.h makes */

static void broken(const char *rule);

static int fails(void) {
    model->calls++;
    if (model->covered && number_at(folders[TABLE], names[TABLE]) == 0) broken("there was no table");
    for (int i = 0; i < FAULTS; i++)
        if (model->fault[i].call == model->calls && model->fault[i].way == FAILS) {
            errno = EIO;
            return 1;
        }
    return 0;
}

static int done(int result) {
    for (int i = 0; i < FAULTS; i++)
        if (model->fault[i].call == model->calls && model->fault[i].way != FAILS) {
            model->cut = model->fault[i].way == CUTS;
            _exit(ENDED);
        }
    return result;
}

static int disk_openat(int folder, const char *name, int how, ...) {
    struct stat made;
    va_list words;
    va_start(words, how);
    const mode_t mode = how & O_CREAT ? (mode_t)va_arg(words, int) : 0;
    va_end(words);
    if (fails()) return -1;
    const int file = openat(folder, name, how, mode);
    if (file >= 0 && how & O_CREAT && fstat(file, &made) == 0) forget_file(made.st_ino);
    return done(file);
}

static ssize_t disk_write(int file, const void *bytes, size_t length) {
    if (fails()) return -1;
    const ssize_t wrote = write(file, bytes, length < 2048 ? length : 2048);
    done(0);
    return wrote;
}

static int disk_fsync(int file) {
    struct stat about;
    const int failed = fails(), folder = fstat(file, &about) == 0 && S_ISDIR(about.st_mode);
    for (int i = 0; folder && i < NAMES; i++) {
        if (number_of(folders[i]) != about.st_ino) continue;
        if (failed && model->forgets) model->renamed[i] = 0;
        if (!failed) flush_name(i);
    }
    if (failed) return -1;
    if (!folder) flush_file(about.st_ino);
    return done(0);
}

static int disk_renameat(int from_folder, const char *from, int to_folder, const char *to) {
    if (fails()) return -1;
    const ino_t number = number_at(to_folder, to);
    const int result = renameat(from_folder, from, to_folder, to);
    for (int i = 0; i < NAMES; i++)
        if (result == 0 && strcmp(to, names[i]) == 0) model->renamed[i] = 1;
    if (result == 0 && number != 0) forget_file(number);
    return done(result);
}

static inline int disk_linkat(int from_folder, const char *from, int to_folder, const char *to, int how) {
    return fails() ? -1 : done(linkat(from_folder, from, to_folder, to, how));
}

static int disk_unlinkat(int folder, const char *name, int how) {
    if (fails()) return -1;
    const ino_t number = number_at(folder, name);
    const int result = unlinkat(folder, name, how);
    if (result == 0 && number != 0) forget_file(number);
    return done(result);
}

static int disk_fstatat(int folder, const char *name, struct stat *to, int how) {
    return fails() ? -1 : done(fstatat(folder, name, to, how));
}

static int disk_fchmod(int file, mode_t mode) { return fails() ? -1 : done(fchmod(file, mode)); }

static int disk_close(int file) {
    const int failed = fails();
    close(file);
    return failed ? -1 : done(0);
}

#define openat disk_openat
#define write disk_write
#define fsync disk_fsync
#define renameat disk_renameat
#define linkat disk_linkat
#define unlinkat disk_unlinkat
#define fstatat disk_fstatat
#define fchmod disk_fchmod
#define close disk_close
#include "example.c"
#undef openat
#undef write
#undef fsync
#undef renameat
#undef linkat
#undef unlinkat
#undef fstatat
#undef fchmod
#undef close

#ifndef MORE_LOGGED
#define MORE_LOGGED "" /* what else the log has of a request with an AVP at fault */
#endif
#ifndef UNSUPPORTED_LOGGED
#define UNSUPPORTED_LOGGED "" /* and of one that asks for what is not supported */
#endif
#ifndef PAIRED
#define PAIRED WAYS /* how many of the ways are tried two by two */
#endif
#ifndef ROWS
#define ROWS 1 /* the most requests of a row: it is asked one by one */
#define ask_in_row(peer, request, length) ((void)(peer), (void)(request), (void)(length))
#define answer_in_row(peer) ((void)(peer))
#endif

/* ---- the peer */

static Bytes old_file[NAMES], old_profile, question, assignment, challenge, rubbish, doubled, asking;

/* A line that nobody has registered is challenged, assigned, challenged anew; the last assignment finds its work done. */
static const Bytes *const script[SCRIPT] = {&question, &challenge, &assignment, &challenge, &question, &assignment};
static Bytes expected[REQUESTS + 1]; /* the table before the first request and after each */
static unsigned requests = SCRIPT;   /* how many there are; behind the script come questions */
static unsigned row_length = 1;      /* how many are asked at once */
static int rotten;                   /* whether the vector file is unsound */
static int told_features;            /* whether the answer to come has the features that are supported */

static const Bytes *asked(unsigned i) { return i < SCRIPT ? script[i] : &question; }

/* Behind which request the row ends that begins with request I. */
static unsigned row_end(unsigned i) { return i + row_length < requests ? i + row_length : requests; }

static int same(const Bytes *a, const uint8_t *b, size_t length) { return a->length == length && memcmp(a->bytes, b, length) == 0; }

static void broken(const char *rule) {
    model->broken = rule;
    _exit(1);
}

int refused(int peer, uint64_t word) {
    (void)peer;
    (void)word;
    broken("a request was refused");
    return 0;
}

uint32_t edition_stated(int peer) { return peer == ANOTHER ? NDUSHAVIRE_RFC_6733 : NDUSHAVIRE_RFC_3588; }

/* A Supported-Features (628), of bits 0 and 2: as the server sends it, or with M, as one that asks for it. */
enum { BITS_AT = 55, FLAGS_AT = 4 };
static const uint8_t own_list[] = {0, 0, 2, 0x74, 0x80, 0, 0, 56, 0, 0, 0x28, 0xAF, 0, 0, 1, 10, 0x40, 0, 0, 12, 0, 0, 0x28, 0xAF,
                                   0, 0, 2, 0x75, 0x80, 0, 0, 16, 0, 0, 0x28, 0xAF, 0, 0, 0, 1,
                                   0, 0, 2, 0x76, 0x80, 0, 0, 16, 0, 0, 0x28, 0xAF, 0, 0, 0, 5};

uint32_t features_stated(void) { return own_list[BITS_AT]; }

static int used_on_disk(size_t block) { return model->on_disk[VECTORS].length > 512 * block && model->on_disk[VECTORS].bytes[512 * block + 1] == 1; }

static size_t many_used(void) {
    size_t many = 0;
    for (size_t block = 0; block < BLOCKS; block++) many += used_on_disk(block) != 0;
    return many;
}

static size_t many_sent(void) {
    size_t many = 0;
    for (size_t block = 0; block < BLOCKS; block++) many += model->sent[block] != 0;
    return many;
}

/* How many vectors an answer has, none of which the peer may have got before. RAND and AUTN tell one from another. */
static int vectors_in(const uint8_t *bytes, size_t length) {
    int many = 0;
    for (size_t block = 0; 512 * block < old_file[VECTORS].length; block++) {
        if (memmem(bytes, length, old_file[VECTORS].bytes + 512 * block + 132, 32) == NULL) continue;
        if (model->sent[block]) broken("a vector was sent twice");
        if (!used_on_disk(block)) broken("a vector was sent that is unused after a power cut");
        model->sent[block] = 1;
        many++;
    }
    return many;
}

/* Whether the file that every reader sees, which the disk may have written of itself, is this. */
static int seen(int i, const uint8_t *bytes, size_t length) {
    static Bytes now;
    const int file = openat(folders[i], names[i], O_RDONLY);
    slurp(file, &now);
    close(file);
    return same(&now, bytes, length);
}

int send_all(int peer, const uint8_t *bytes, size_t length) {
    if (length != ((size_t)bytes[1] << 16 | (size_t)bytes[2] << 8 | bytes[3])) broken("more or less than the answer went out");
    if (!same(&model->on_disk[TABLE], table.bytes, table.length)) broken("an answer went out that a power cut takes back");
    if (!seen(TABLE, table.bytes, table.length)) broken("an answer went out, and the disk may have more than it was given from");
    for (size_t at = 0; at < vectors.length; at += 512)
        if (vectors.bytes[at + 1] == 1 && !used_on_disk(at / 512)) broken("an answer went out, and a vector is used in memory alone");
    if ((memmem(bytes, length, own_list, sizeof own_list) != NULL) != told_features)
        broken(told_features ? "the features that are supported are not told" : "features are told that nobody asked for");
    if (peer == ANOTHER) return 1;
    if (!same(&expected[row_end((unsigned)peer / row_length * row_length)], table.bytes, table.length)) broken("a request was answered and not carried out");
    if (vectors_in(bytes, length) != (asked((unsigned)peer) == &challenge && !rotten)) broken("an answer has more vectors or fewer than were asked for");
    model->answered++;
    return 1;
}

/* Asks for a row, which is answered whole or not at all. */
static void serve_row(unsigned first) {
    for (unsigned i = first; row_length > 1 && i < row_end(first); i++) ask_in_row((int)i, asked(i)->bytes, asked(i)->length);
    if (row_length > 1) answer_in_row((int)first);
    else serve((int)first, asked(first)->bytes, asked(first)->length);
    if (model->answered != first && model->answered != row_end(first)) broken("a row was answered in part");
}

/* One life of the daemon: it serves until all is answered, or ends. Another peer asks a question where the first gets no answer. */
static void live(void) {
    start("live", ".");
    for (unsigned tries = 0; model->answered < requests && tries < LIVES * requests; tries++) {
        const unsigned before = model->answered;
        serve_row(before);
        if (model->answered == before) serve(ANOTHER, question.bytes, question.length);
    }
}

static int is_challenged(unsigned from, unsigned to) {
    int is = 0;
    for (; from < to; from++) is |= asked(from) == &challenge;
    return is;
}

/* What may be on disk between two lives: the last answer's work, or all of the next row's; never a challenge's name without its vectors. */
static const char *disk_is_wrong(void) {
    const unsigned end = row_end(model->answered);
    const Bytes *disk = &model->on_disk[TABLE], *next = &expected[end];
    for (size_t block = 0; block < BLOCKS; block++)
        if (model->sent[block] && !used_on_disk(block)) return "a vector that was sent is unused on disk";
    if (same(disk, expected[model->answered].bytes, expected[model->answered].length)) return NULL;
    if (!same(disk, next->bytes, next->length)) return "an answered request was lost";
    if (!rotten && is_challenged(model->answered, end) && many_used() == many_sent()) return "the table has a challenge's name, and no vector was used for it";
    return NULL;
}

/* ---- the trials */

static int nowhere; /* /dev/null, for what a daemon says that ends */

/* The files as they were, on disk, and the faults to come. */
static int prepare(Fault first, Fault second, int forgets) {
    memset(model, 0, sizeof *model);
    model->forgets = forgets;
    model->fault[0] = first;
    model->fault[1] = second;
    return lay_down(TABLE, &old_file[TABLE]) && lay_down(VECTORS, &old_file[VECTORS]);
}

static int try_faults(Fault first, Fault second, int forgets) {
    static const char *const ways[WAYS] = {"failed", "was the last", "was the last before a power cut"};
    int lives = 0;
    if (!prepare(first, second, forgets)) return 0;
    for (; lives < LIVES && model->answered < requests && model->broken == NULL; lives++) {
        int status;
        const pid_t child = fork();
        if (child == 0) {
            dup2(nowhere, STDERR_FILENO);
            live();
            _exit(0);
        }
        if (child < 0 || waitpid(child, &status, 0) != child) return 0;
        if (!WIFEXITED(status)) model->broken = "the daemon crashed";
        if (model->broken == NULL) model->broken = disk_is_wrong();
        if (model->cut && !power_back()) return 0;
    }
    if (model->broken == NULL && model->answered < requests) model->broken = "the peer was never answered";
    if (model->broken == NULL && !rotten && lives == 1 && many_used() != many_sent())
        model->broken = "a vector was used and not sent, though the daemon lived on";
    if (model->broken == NULL) return 1;
    fprintf(stderr, "daemon: %s: call %u %s, call %u %s, on a disk that %s, rows of %u\n", model->broken, first.call, ways[first.way], second.call,
            ways[second.way], forgets ? "forgets" : "does not forget", row_length);
    return 0;
}

static void read_all(const char *path, Bytes *to) {
    const int file = open(path, O_RDONLY);
    if (file < 0) {
        perror(path);
        exit(2);
    }
    slurp(file, to);
    close(file);
}

/* The table after each request, by calls whose vectors are lent as the daemon should lend them. */
static int expect(void) {
    static Bytes lent;
    lent = old_file[VECTORS];
    if (rotten) lent.length = 0;
    expected[0] = old_file[TABLE];
    for (int i = 0; i < REQUESTS; i++) {
        Bytes *to = &expected[i + 1];
        *to = expected[i];
        if (!ndushavire_answered(ndushavire_decide(asked((unsigned)i)->bytes, asked((unsigned)i)->length, to->bytes, to->length, old_profile.bytes,
                                                   old_profile.length, lent.bytes, lent.length, answer, sizeof answer, NDUSHAVIRE_RFC_3588,
                                                   features_stated())))
            return 0;
    }
    return !same(&expected[2], expected[3].bytes, expected[3].length) && (rotten || !same(&expected[1], expected[2].bytes, expected[2].length));
}

/* Every fault by itself and with every later one; gives how many runs that were, or 0 if a rule was broken. */
static unsigned try_all(unsigned whole) {
    const Fault none = {0, FAILS};
    unsigned runs = 0;
    for (int way = 0; way < WAYS; way++)
        for (unsigned call = 1; call <= whole; call++) {
            const Fault first = {call, (Way)way};
            if (!try_faults(first, none, 1)) return 0;
            runs++;
            for (int later_way = 0; way < PAIRED && later_way < PAIRED; later_way++)
                for (unsigned later = call + 1, most = model->calls; later <= most; later++) {
                    const Fault second = {later, (Way)later_way};
                    if (!try_faults(first, second, 0)) return 0;
                    runs++;
                }
        }
    return runs;
}

/* The same in rows of so many requests, the last of which may be shorter. */
static unsigned try_rows(unsigned length) {
    const Fault none = {0, FAILS};
    row_length = length;
    requests = length > SCRIPT ? REQUESTS : SCRIPT;
    if (!try_faults(none, none, 0)) return 0;
    const unsigned whole = model->calls, runs = try_all(whole);
    if (runs > 0)
        printf("daemon: rows of %u, %u calls, %u runs with a fault or two, no answer that was not on disk and no vector sent twice\n", length, whole, runs);
    fflush(stdout);
    return runs;
}

/* A vector file that is unsound: everything but challenges is answered as ever, and the file stays for whoever mends it. */
static int try_rotten(void) {
    const Fault none = {0, FAILS};
    uint8_t *byte = &old_file[VECTORS].bytes[512 + 200];
    *byte ^= 1;
    rotten = 1;
    const int right = expect() && try_faults(none, none, 0) && same(&model->on_disk[VECTORS], old_file[VECTORS].bytes, old_file[VECTORS].length);
    *byte ^= 1;
    rotten = 0;
    if (!right) fprintf(stderr, "daemon: an unsound vector file is not served around, or was written to\n");
    return right;
}

#ifdef LAID_OVER
static const Bytes unsound_table = {"unsound", 7};

/* A challenge is answered, an unsound table laid over what it left, and the assignment asked for until it is answered. */
static void live_covered(Fault fault) {
    start("live", ".");
    serve(0, question.bytes, question.length);
    serve(1, challenge.bytes, challenge.length);
    if (!lay_down(TABLE, &unsound_table)) _exit(2);
    model->calls = 0;
    model->covered = 1;
    model->fault[0] = fault;
    for (int tries = 0; model->answered < 3 && tries < LIVES; tries++) {
        LAID_OVER();
        serve(2, assignment.bytes, assignment.length);
    }
}

/* The unsound one, the daemon's own, or the next one: not the first if the daemon stopped, and only the last if it was answered from. */
static int is_one_of(const Bytes *found, int stopped) {
    const Bytes *const may_be[] = {&unsound_table, &expected[2], &expected[3]};
    int is = 0;
    for (int i = model->answered == 3 ? 2 : stopped; i < 3; i++) is |= same(found, may_be[i]->bytes, may_be[i]->length);
    return is;
}

static int try_covered(Fault fault) {
    const Fault none = {0, FAILS};
    static Bytes found;
    int status;
    if (!prepare(none, none, 1)) return 0;
    unlinkat(folders[TABLE], "table.declined", 0);
    unlinkat(folders[TABLE], aside_name, 0);
    const pid_t child = fork();
    if (child == 0) {
        dup2(nowhere, STDERR_FILENO);
        live_covered(fault);
        _exit(0);
    }
    if (child < 0 || waitpid(child, &status, 0) != child) return 0;
    const int ended = WIFEXITED(status) ? WEXITSTATUS(status) : 2, whole = ended == 0;
    if (model->broken == NULL && ended != 0 && ended != ENDED && ended != 1) model->broken = "the daemon crashed";
    if (model->broken == NULL && whole && model->answered < 3) model->broken = "the peer was never answered";
    const int file = openat(folders[TABLE], whole ? "table.declined" : names[TABLE], O_RDONLY);
    slurp(file, &found);
    close(file);
    if (model->broken == NULL && whole && !same(&found, unsound_table.bytes, unsound_table.length)) model->broken = "what was declined is not kept";
    if (model->broken == NULL && !whole && !is_one_of(&found, ended == 1)) model->broken = "there is another table, or none";
    if (model->broken == NULL && !is_one_of(&model->on_disk[TABLE], ended == 1)) model->broken = "after a power cut there is another table, or none";
    if (model->broken == NULL) return 1;
    fprintf(stderr, "daemon: an unsound table laid over ours: %s: call %u, way %d\n", model->broken, fault.call, (int)fault.way);
    return 0;
}

/* Every call as the one that goes wrong; gives how many runs that were, or 0 if a rule was broken. */
static unsigned try_all_covered(void) {
    const Fault none = {0, FAILS};
    unsigned runs = 1;
    if (!try_covered(none)) return 0;
    const unsigned whole = model->calls;
    for (int way = 0; way < WAYS; way++)
        for (unsigned call = 1; call <= whole; call++, runs++) {
            const Fault fault = {call, (Way)way};
            if (!try_covered(fault)) return 0;
        }
    printf("daemon: an unsound table laid over ours, %u calls, %u runs: there is always a table, and what was declined is kept\n", whole, runs);
    fflush(stdout);
    return runs;
}
#else
static unsigned try_all_covered(void) { return 1; }
#endif

/* What a peer asks is answered and nothing is logged of it; then another's request is, and the log has this. */
static int logs(int peer, const Bytes *asks, const Bytes *anothers, const char *fault) {
    const Fault none = {0, FAILS};
    char logged[1000];
    int status;
    FILE *log = tmpfile();
    if (log == NULL || !prepare(none, none, 0)) return 0;
    const pid_t child = fork();
    if (child == 0) {
        dup2(fileno(log), STDERR_FILENO);
        start("live", ".");
        _exit(serve(peer, asks->bytes, asks->length) && serve(ANOTHER, anothers->bytes, anothers->length) ? 0 : 2);
    }
    if (child < 0 || waitpid(child, &status, 0) != child) return 0;
    rewind(log);
    logged[fread(logged, 1, sizeof logged - 1, log)] = '\0';
    fclose(log);
    if (WIFEXITED(status) && WEXITSTATUS(status) == 0 && strcmp(logged, fault) == 0) return 1;
    fprintf(stderr, "daemon: %s; the log has '%s' and should have '%s'\n", model->broken != NULL ? model->broken : "an AVP at fault", logged, fault);
    return 0;
}

/* Of a request with an AVP at fault the log says where it hurts. */
static int try_rubbish(void) {
    return logs(ANOTHER, &question, &rubbish,
                "daemon: peer 64: B5004 at byte 208: AVP 612 vendor 10415 flags 0xc0 length 84\n"
                "    192: 0000025F C0000010 000028AF 00000001\n"
                "    208:[00000264 C0000054 000028AF]00000260\n"
                "    224: C000001C 000028AF 44696765 73742D41\n" MORE_LOGGED);
}

/* The question with its Vendor-Id, the first member of 260, a second time: right by RFC 3588, and at fault by RFC 6733. */
static int try_doubled(void) {
    static const uint8_t group[] = {0, 0, 1, 4, 0x40, 0, 0, 32, 0, 0, 1, 10};
    const uint8_t *at = (const uint8_t *)memmem(question.bytes, question.length, group, sizeof group);
    if (at == NULL) return 0;
    const size_t first = (size_t)(at - question.bytes) + 8;
    memcpy(doubled.bytes, question.bytes, first + 12);
    memcpy(doubled.bytes + first + 12, question.bytes + first, question.length - first);
    doubled.length = question.length + 12;
    doubled.bytes[3] = (uint8_t)(doubled.bytes[3] + 12);
    doubled.bytes[first - 1] += 12;
    return logs(0, &doubled, &doubled,
                "daemon: peer 64: B5009 at byte 96: AVP 260 flags 0x40 length 44\n"
                "     80: 69736C65 0000011B 4000000C 69736C65\n"
                "     96:[00000104 4000002C]0000010A 4000000C\n"
                "    112: 000028AF 0000010A 4000000C 000028AF\n");
}

/* The question, asking for the features that are supported, and then for one that is not. */
static int try_features(void) {
    asking = question;
    memcpy(asking.bytes + question.length, own_list, sizeof own_list);
    asking.bytes[question.length + FLAGS_AT] |= 0x40;
    asking.length += sizeof own_list;
    asking.bytes[3] = (uint8_t)(asking.bytes[3] + sizeof own_list);
    told_features = 1;
    int right = logs(ANOTHER, &asking, &asking, "");
    asking.bytes[asking.length - 1] = 2;
    right = right && logs(ANOTHER, &asking, &asking, UNSUPPORTED_LOGGED UNSUPPORTED_LOGGED);
    told_features = 0;
    return right;
}

int main(int argc, char **argv) {
    static const unsigned lengths[] = {1, 2, 3, SCRIPT, REQUESTS};
    if (argc != 9) {
        fprintf(stderr, "usage: daemon FOLDER TABLE PROFILE VECTORS QUESTION ASSIGNMENT CHALLENGE RUBBISH\n");
        return 2;
    }
    read_all(argv[2], &old_file[TABLE]);
    read_all(argv[3], &old_profile);
    read_all(argv[4], &old_file[VECTORS]);
    read_all(argv[5], &question);
    read_all(argv[6], &assignment);
    read_all(argv[7], &challenge);
    read_all(argv[8], &rubbish);
    folders[VECTORS] = chdir(argv[1]) == 0 ? open(".", O_RDONLY | O_DIRECTORY) : -1;
    folders[TABLE] = open("live", O_RDONLY | O_DIRECTORY);
    model = (struct Model *)mmap(NULL, sizeof *model, PROT_READ | PROT_WRITE, MAP_SHARED | MAP_ANONYMOUS, -1, 0);
    if (folders[VECTORS] < 0 || folders[TABLE] < 0 || model == MAP_FAILED) {
        perror(argv[1]);
        return 2;
    }
    nowhere = open("/dev/null", O_WRONLY);
    const Fault none = {0, FAILS};
    if (!try_rubbish() || !try_rotten()) return 1;
    if (!expect()) {
        fprintf(stderr, "daemon: the assignment or the challenge alters nothing\n");
        return 2;
    }
    if (!try_doubled() || !try_features()) return 1;
    if (try_all_covered() == 0 || !try_faults(none, none, 0) || !prepare(none, none, 0)) return 1;
    live(); /* not forked, so that an emulator has translated it all */
    if (fchdir(folders[VECTORS]) != 0) return 2;
    for (size_t i = 0; i < sizeof lengths / sizeof lengths[0] && lengths[i] <= ROWS; i++)
        if (try_rows(lengths[i]) == 0) return 1;
    return 0;
}
