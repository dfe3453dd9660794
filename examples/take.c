/* take AREA NEW PROFILE: takes the new table NEW over, which is of edition 2 and sound beside PROFILE: writes it over the file AREA, block by block
 * from block 0, each on disk before the next. It is installed as ndushavire-take.
 * AREA is the working area, and is written in place: it keeps its length, and what stands past the new table. A last good file is only ever
 * NEW, which is opened to be read and never written to: AREA must be another file than NEW and PROFILE, and somebody may write to it.
 * First it asks the library over a copy in memory whether the take-over is refused; then nothing is written. If it is cut off between two
 * blocks, the area is refused until a take-over of a greater issue is finished, or it is zeroed from block 0 up and NEW is taken again.
 * While it works it has the lock on AREA's folder that a daemon has.
 * Exit status: 0 taken over and on disk; 9, 10 or 11 refused by that number; 1 begun and not finished; 2 a file cannot be read, is locked or may
 * not be written over, standard output cannot be written, or the arguments are others. Under all but 0 and 1 nothing was written. */
#define _POSIX_C_SOURCE 200809L
#include <ndushavire.h>

#include <signal.h>
#include <sys/file.h>

#include "area.h"
#include "load.h"
#include "store.h"

static int is(const char *word, const char *other) { return strcmp(word, other) == 0; }

static void fail(const char *path, const char *why) {
    fprintf(stderr, "%s: %s\n", path, why);
    exit(2);
}

/* The folder of a path, open, and the name in it. */
static int folder_of(const char *path, const char **name) {
    const char *slash = strrchr(path, '/');
    const size_t length = slash == NULL ? 0 : (size_t)(slash - path) + 1;
    char *folder = (char *)malloc(length + 2);
    if (folder == NULL) fail(path, strerror(errno));
    memcpy(folder, path, length);
    strcpy(folder + length, length == 0 ? "." : "");
    *name = path + length;
    const int opened = open(folder, O_RDONLY | O_DIRECTORY | O_CLOEXEC);
    if (opened < 0) fail(folder, strerror(errno));
    free(folder);
    return opened;
}

/* What is judged must be on disk, or a power cut would bring back blocks that nobody has looked at. */
static void settle(int folder, const char *name, const char *path) {
    if (!settled(folder, name)) fail(path, errno == ELOOP ? "it is a link: the file itself must stand here" : strerror(errno));
}

/* By whatever names: NEW is the last good file, and the profile must stay. */
static void must_differ(const struct stat *area, const char *other) {
    struct stat found;
    if (stat(other, &found) != 0) fail(other, strerror(errno));
    if (found.st_dev == area->st_dev && found.st_ino == area->st_ino) fail(other, "it is the area itself, and would be written over");
}

/* Opens the area to be written over, once it is locked as a daemon locks it. Root may write to everything: it is the mode that tells a last good file. */
static int open_area(char **paths, int folder, const char *name) {
    struct stat about;
    if (flock(folder, LOCK_EX | LOCK_NB) != 0)
        fail(paths[0], errno == EWOULDBLOCK ? "a daemon has its folder, or a script: stop it, or give it the new table as table.next" : strerror(errno));
    const int area = openat(folder, name, O_RDWR | O_NOFOLLOW | O_NONBLOCK | O_CLOEXEC);
    if (area < 0 || fstat(area, &about) != 0) fail(paths[0], errno == ELOOP ? "it is a link: the file itself must stand here" : strerror(errno));
    if (!S_ISREG(about.st_mode)) fail(paths[0], "it is no file");
    if ((about.st_mode & 0222) == 0) fail(paths[0], "nobody may write to it: a last good file is only ever the second argument");
    must_differ(&about, paths[1]);
    must_differ(&about, paths[2]);
    return area;
}

/* The bytes of the open area: a name may have become another file's by now. */
static uint8_t *read_area(int area, const char *path, size_t *length) {
    struct stat about;
    if (fstat(area, &about) != 0) fail(path, strerror(errno));
    *length = (size_t)about.st_size;
    uint8_t *bytes = (uint8_t *)malloc(*length + 1);
    if (bytes == NULL) fail(path, strerror(errno));
    for (size_t at = 0; at < *length;) {
        const ssize_t got = pread(area, bytes + at, *length - at, (off_t)at);
        if (got < 0 && errno == EINTR) continue;
        if (got <= 0) fail(path, got < 0 ? strerror(errno) : "it was cut short");
        at += (size_t)got;
    }
    return bytes;
}

/* A terminal whose link goes, or somebody's key, does not cut it: their signals wait until the program ends. */
static void hold_signals(void) {
    static const int waiting[] = {SIGHUP, SIGINT, SIGQUIT, SIGTERM};
    sigset_t held;
    sigemptyset(&held);
    for (size_t i = 0; i < sizeof waiting / sizeof waiting[0]; i++) sigaddset(&held, waiting[i]);
    sigprocmask(SIG_BLOCK, &held, NULL);
}

/* Writes all blocks in place, or ends the program. */
static void write_blocks(int area, const char *path, const uint8_t *fresh, size_t blocks) {
    hold_signals();
    for (size_t k = 0; k < blocks; k++) {
        if (write_block(area, fresh, k)) continue;
        fprintf(stderr, "%s: block %lu of %lu: %s: the take-over is NOT finished, and the area is refused until it is mended\n", path, (unsigned long)k,
                (unsigned long)blocks, strerror(errno));
        exit(1);
    }
}

/* Asks whether the take-over is refused, and says what was done. Gives the exit status, but for standard output's. */
static int take_over(char **paths, int file) {
    TakeOver t;
    uint8_t *area = read_area(file, paths[0], &t.area_len), *fresh = load(paths[1], &t.fresh_len), *profile = load(paths[2], &t.profile_len);
    t.area = area;
    t.fresh = fresh;
    t.profile = profile;
    const uint64_t word = ndushavire_take(area, t.area_len, fresh, t.fresh_len, profile, t.profile_len);
    if (ndushavire_taken(word)) {
        write_blocks(file, paths[0], fresh, t.fresh_len / NDUSHAVIRE_BLOCK);
        printf("taken over, %lu records, issue %lu\n", (unsigned long)ndushavire_value(word), (unsigned long)ndushavire_issue(fresh));
    } else {
        printf("%s\n", refusal_of(word, &t));
    }
    free(area);
    free(fresh);
    free(profile);
    return (int)ndushavire_number(word);
}

int main(int argc, char **argv) {
    static const char usage[] = "usage: ndushavire-take AREA NEW PROFILE\n"
                                "Writes the table NEW, of edition 2 and sound beside PROFILE, over the file AREA, block by block.\n"
                                "A last good file is only ever NEW, which is never written to.\n"
                                "Exit status: 0 taken over; 9, 10, 11 refused; 1 begun and not finished; 2 unreadable or wrong use.\n";
    if (argc == 2 && (is(argv[1], "--help") || is(argv[1], "--version"))) {
        printf("%s", is(argv[1], "--help") ? usage : "ndushavire-take " NDUSHAVIRE_VERSION "\n");
        return printed() ? 0 : 2;
    }
    if (argc != 4) {
        fprintf(stderr, "%s", usage);
        return 2;
    }
    const char *area_name, *profile_name;
    const int folder = folder_of(argv[1], &area_name), profiles = folder_of(argv[3], &profile_name);
    const int file = open_area(argv + 1, folder, area_name);
    settle(folder, area_name, argv[1]);
    settle(profiles, profile_name, argv[3]);
    const int status = take_over(argv + 1, file);
    close(file);
    close(folder);
    close(profiles);
    return printed() ? status : 2;
}
