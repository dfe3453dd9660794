/* cuts ROOM TAKE CUT_TAKE SEED SETS KILLS: a take-over over a file that is cut off, as it happens. ROOM is a folder for the files; TAKE is the
 * program ndushavire-take, and CUT_TAKE the same built with cut.h.
 *   - SETS times a new table of up to 10 blocks over a random area, which may be cut or damaged before: every set of its blocks is written into a
 *     file. Reread, it checks as the old area, as the new table or as refused, at the block that is proved; a question gets the old table's
 *     answer, the new one's, or refusal 5, which alters nothing.
 *   - At each block of a table of 64 records the program is killed with SIGKILL: before it writes the block, behind that, and behind the flush.
 *     The file is the old area with as many blocks of the new table as were written. Then it is mended, by a greater issue or by zeros.
 *   - KILLS times a table of 4,096 records is taken over, and killed at a random moment, or by cut.h at a random block.
 * Exit status: 0 all as it should be, 1 not so, 2 wrong use. Whatever it started has ended before it does. */
#define _POSIX_C_SOURCE 200809L
#include <fcntl.h>
#include <signal.h>
#include <sys/stat.h>
#include <sys/wait.h>
#include <time.h>
#include <unistd.h>

#include "areas.h"

enum { SMALL = 10, MIDDLE = 64 };

static const char *room, *seed, *take_program, *cut_program;
static volatile pid_t child; /* that runs, or 0 */
static struct {
    unsigned long sets, old, fresh, refused, killed, unkilled, mended;
} seen;

static void end_child(void) {
    if (child <= 0) return;
    kill(child, SIGKILL);
    waitpid(child, NULL, 0);
    child = 0;
}

/* Told to end, it takes along what it started. */
static void end_all(int signal) {
    if (child > 0) kill(child, SIGKILL);
    _exit(128 + signal);
}

static void fail(const char *what, unsigned long at) {
    end_child();
    fprintf(stderr, "cuts: seed %s: %s, at %lu\n", seed, what, at);
    exit(1);
}

/* ---- files */

static const char *path_of(const char *name) {
    static char path[4][4096];
    static int next;
    char *to = path[next = (next + 1) % 4];
    if (snprintf(to, sizeof path[0], "%s/%s", room, name) >= (int)sizeof path[0]) fail("a path that is too long", 0);
    return to;
}

static void write_at(int file, const uint8_t *bytes, size_t length, size_t at) {
    if (pwrite(file, bytes, length, (off_t)at) != (ssize_t)length) stop("pwrite");
}

static void write_file(const char *name, Bytes bytes) {
    const int file = open(path_of(name), O_WRONLY | O_CREAT | O_TRUNC, 0600);
    if (file < 0) stop(name);
    write_at(file, bytes.bytes, bytes.length, 0);
    close(file);
}

/* What a file has, into bytes of that length; nothing may be behind them. */
static void reread(const char *name, Bytes to) {
    struct stat about;
    const int file = open(path_of(name), O_RDONLY);
    if (file < 0 || fstat(file, &about) != 0) stop(name);
    if ((size_t)about.st_size != to.length) fail("the area has another length", (unsigned long)about.st_size);
    if (pread(file, to.bytes, to.length, 0) != (ssize_t)to.length) stop(name);
    close(file);
}

static Bytes room_for(Bytes of) {
    const Bytes made = {(uint8_t *)malloc(of.length + 1), of.length};
    if (made.bytes == NULL) stop("no memory");
    return made;
}

static Bytes copy_of(Bytes of) {
    const Bytes copy = room_for(of);
    memcpy(copy.bytes, of.bytes, of.length);
    return copy;
}

/* ---- every set of blocks */

static void count_word(uint64_t word, uint64_t before, const uint8_t *chosen) {
    seen.sets++;
    if (word == before && !chosen[0]) seen.old++;
    else if (ndushavire_sound(word)) seen.fresh++;
    else seen.refused++;
}

/* A question about a record of the new table, or of the old one, over the file's bytes: as the check has them. */
static void answers_as(const Pair *p, Bytes found, uint64_t word, const uint8_t *chosen, unsigned long set) {
    static Request r;
    static Said over_file, over_one;
    const Bytes *one = chosen[0] ? &p->fresh : &p->area;
    if (one->length < 2 * BLOCK || (ndushavire_sound(word) && count_of(*one) == 0)) return;
    ask_location(&r, one->bytes + BLOCK);
    const Bytes given = copy_of(found), alone = copy_of(*one);
    ask_over(&over_file, &r, given, p->profile);
    ask_over(&over_one, &r, alone, p->profile);
    const uint32_t number = ndushavire_number(over_file.word);
    if (ndushavire_sound(word) ? !same_said(&over_file, &over_one) : number >= NDUSHAVIRE_TABLE_UNSOUND && over_file.word != word)
        fail("a question gets another answer, or another refusal", set);
    if (!ndushavire_sound(word) && ndushavire_answered(over_file.word)) fail("a question gets an answer from half a table", set);
    if (memcmp(given.bytes, found.bytes, found.length) != 0) fail("a question alters the area", set);
    free(given.bytes);
    free(alone.bytes);
}

static void try_set(const Pair *p, int file, Bytes found, unsigned long set) {
    uint8_t chosen[SMALL] = {0};
    const size_t blocks = p->fresh.length / BLOCK;
    const uint64_t before = check_over(p->area, p->profile);
    write_at(file, p->area.bytes, p->area.length, 0);
    for (size_t k = 0; k < blocks; k++) {
        chosen[k] = (uint8_t)(set >> k & 1);
        if (chosen[k]) write_at(file, p->fresh.bytes + BLOCK * k, BLOCK, BLOCK * k);
    }
    reread("area", found);
    const uint64_t word = check_over(found, p->profile);
    if (word != read_as(chosen, blocks, before, count_of(p->area))) fail("the check says otherwise of this set of blocks", set);
    if (ndushavire_sound(word) && memcmp(found.bytes, chosen[0] ? p->fresh.bytes : p->area.bytes, BLOCK * ((size_t)ndushavire_value(word) + 1)) != 0)
        fail("it is sound, and neither the old table nor the new one", set);
    answers_as(p, found, word, chosen, set);
    count_word(word, before, chosen);
}

static void try_sets(size_t records) {
    Pair p = put_pair(records, 1, 3 * BLOCK);
    const Bytes found = room_for(p.area);
    write_file("area", p.area);
    const int file = open(path_of("area"), O_WRONLY);
    if (file < 0) stop("area");
    for (unsigned long set = 0; set < 1ul << p.fresh.length / BLOCK; set++) try_set(&p, file, found, set);
    close(file);
    free(found.bytes);
    give_back(&p);
}

/* ---- the program, killed */

static void start(const char *program, const char *cut) {
    const char *area = path_of("area"), *fresh = path_of("new"), *profile = path_of("profile");
    fflush(stdout);
    child = fork();
    if (child < 0) stop("fork");
    if (child > 0) return;
    const int nothing = open("/dev/null", O_WRONLY);
    if (nothing < 0 || dup2(nothing, STDOUT_FILENO) < 0) _exit(98);
    if (cut != NULL ? setenv("CUT", cut, 1) : unsetenv("CUT")) _exit(98);
    const char *runs = getenv("RUN"); /* the emulator, where there is one */
    if (runs != NULL && *runs != '\0') execlp(runs, runs, program, area, fresh, profile, (char *)NULL);
    else execl(program, program, area, fresh, profile, (char *)NULL);
    _exit(98);
}

static int ended(void) {
    int status;
    if (waitpid(child, &status, 0) != child) stop("waitpid");
    child = 0;
    return status;
}

static int was_killed(int status) { return WIFSIGNALED(status) && WTERMSIG(status) == SIGKILL; }

/* The whole file is the old area with the first blocks of the new table; gives how many. */
static size_t blocks_written(const Pair *p, Bytes found) {
    size_t k = 0;
    reread("area", found);
    while (BLOCK * k < p->fresh.length && memcmp(found.bytes + BLOCK * k, p->fresh.bytes + BLOCK * k, BLOCK) == 0) k++;
    if (memcmp(found.bytes + BLOCK * k, p->area.bytes + BLOCK * k, found.length - BLOCK * k) != 0)
        fail("it is not the old area with the first blocks of the new table", k);
    return k;
}

/* It checks as it did before, as the new table, or as refused at block K. */
static void reads_as(const Pair *p, Bytes found, size_t k) {
    const uint64_t word = check_over(found, p->profile), before = check_over(p->area, p->profile);
    const size_t blocks = p->fresh.length / BLOCK;
    if (word != (k == 0 ? before : k == blocks ? blocks - 1 : refused_at(k))) fail("the check says otherwise", k);
    seen.old += k == 0;
    seen.fresh += k == blocks;
    seen.refused += k > 0 && k < blocks;
}

/* The whole program; what stands past the new table is REST's. */
static void takes_now(const Pair *p, Bytes found, Bytes rest, size_t k, const char *what) {
    start(take_program, NULL);
    const int status = ended();
    if (!WIFEXITED(status) || WEXITSTATUS(status) != 0) fail(what, k);
    reread("area", found);
    if (memcmp(found.bytes + p->fresh.length, rest.bytes + p->fresh.length, found.length - p->fresh.length) != 0)
        fail("bytes past the new table are altered", k);
}

/* A cut one is not taken again with its issue; it is with a greater one, and the same table is over zeros. */
static void mend(Pair *p, Bytes found, size_t k, int by_zeros) {
    const uint32_t issue = get32(p->fresh.bytes + 408);
    start(take_program, NULL);
    const int status = ended();
    if (!WIFEXITED(status) || WEXITSTATUS(status) != NDUSHAVIRE_ISSUE_NOT_GREATER) fail("a cut take-over is repeated with its issue", k);
    if (by_zeros || issue == UINT32_MAX) {
        const Bytes zeros = {(uint8_t *)calloc(found.length + 1, 1), found.length};
        if (zeros.bytes == NULL) stop("no memory");
        write_file("area", zeros);
        takes_now(p, found, zeros, k, "zeroed, the area does not take the same table");
        free(zeros.bytes);
    } else {
        give_issue(p->fresh, issue + 1);
        write_file("new", p->fresh);
        takes_now(p, found, p->area, k, "a greater issue does not mend it");
    }
    if (memcmp(found.bytes, p->fresh.bytes, p->fresh.length) != 0) fail("mended, it is another table", k);
    seen.mended++;
    give_issue(p->fresh, issue);
    write_file("new", p->fresh);
}

/* Sees that a process that was to be killed was, unless it was done before, and what it left. */
static size_t killed(const Pair *p, Bytes found, int status) {
    if (!was_killed(status) && !(WIFEXITED(status) && WEXITSTATUS(status) == 0)) fail("it ends otherwise than by the kill", (unsigned long)status);
    const size_t k = blocks_written(p, found);
    if (!was_killed(status) && BLOCK * k != p->fresh.length) fail("it ends with status 0 and has not written all", k);
    seen.killed += was_killed(status) != 0;
    seen.unkilled += !was_killed(status);
    reads_as(p, found, k);
    return k;
}

static void cut_at(Pair *p, Bytes found, size_t block, const char *what) {
    char cut[40];
    snprintf(cut, sizeof cut, "%lu:%s", (unsigned long)block, what);
    write_file("area", p->area);
    start(cut_program, cut);
    const int status = ended();
    if (!was_killed(status)) fail("it is not killed at this block", block);
    const size_t k = killed(p, found, status), due = block + (strcmp(what, "before") != 0);
    if (k != due) fail("other blocks are written than before the kill", block);
    if (k > 0 && k < p->fresh.length / BLOCK) mend(p, found, block, block % 2 == 0);
}

static Pair put_files(size_t records) {
    const Pair p = put_pair(records, 1, 5 * BLOCK);
    write_file("new", p.fresh);
    write_file("profile", p.profile);
    return p;
}

static void kill_everywhere(void) {
    static const char *const points[] = {"before", "written", "flushed"};
    Pair p = put_files(MIDDLE);
    const Bytes found = room_for(p.area);
    for (size_t block = 0; BLOCK * block < p.fresh.length; block++)
        for (int i = 0; i < 3; i++) cut_at(&p, found, block, points[i]);
    free(found.bytes);
    give_back(&p);
}

static double seconds(void) {
    struct timespec now;
    clock_gettime(CLOCK_MONOTONIC, &now);
    return (double)now.tv_sec + (double)now.tv_nsec / 1e9;
}

static void sleep_for(double time) {
    const struct timespec some = {(time_t)time, (long)((time - (double)(time_t)time) * 1e9)};
    nanosleep(&some, NULL);
}

/* A full table; every other time the kill comes from outside, at any moment of what a whole take-over takes. */
static void kill_anywhere(unsigned long kills) {
    Pair p = put_files(RECORDS);
    const Bytes found = room_for(p.area);
    write_file("area", p.area);
    const double begun = seconds();
    takes_now(&p, found, p.area, 0, "a full table is not taken over");
    const double whole = seconds() - begun;
    for (unsigned long i = 0; i < kills; i++) {
        if (i % 2 == 0) {
            cut_at(&p, found, below(RECORDS + 1), one_in(2) ? "written" : "before");
            continue;
        }
        write_file("area", p.area);
        start(take_program, NULL);
        sleep_for(whole * (double)below(1000) / 1000);
        kill(child, SIGKILL);
        killed(&p, found, ended());
    }
    free(found.bytes);
    give_back(&p);
}

int main(int argc, char **argv) {
    if (argc != 7) {
        fprintf(stderr, "usage: cuts ROOM TAKE CUT_TAKE SEED SETS KILLS\n");
        return 2;
    }
    struct sigaction ends;
    memset(&ends, 0, sizeof ends);
    ends.sa_handler = end_all;
    sigaction(SIGTERM, &ends, NULL);
    sigaction(SIGINT, &ends, NULL);
    room = argv[1];
    take_program = argv[2];
    cut_program = argv[3];
    const unsigned long first = strtoul(seed = argv[4], NULL, 10), sets = strtoul(argv[5], NULL, 10), kills = strtoul(argv[6], NULL, 10);
    chance = (first + 1) * 0x9E3779B97F4A7C15u | 1;
    for (int i = 0; i < 8; i++) below(2);
    for (unsigned long i = 0; i < sets; i++) try_sets(i % 2 == 0 ? SMALL - 1 : below(SMALL));
    printf("cuts: %lu sets of blocks: %lu read as before, %lu as the new table, %lu are refused\n", seen.sets, seen.old, seen.fresh, seen.refused);
    seen.old = seen.fresh = seen.refused = 0;
    kill_everywhere();
    kill_anywhere(kills);
    printf("cuts: %lu take-overs killed, %lu done before their kill: %lu read as before, %lu as the new table, %lu are refused; %lu mended\n", seen.killed,
           seen.unkilled, seen.old, seen.fresh, seen.refused, seen.mended);
    return 0;
}
