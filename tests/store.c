/* store FOLDER: tries examples/store.h in an empty folder. A store that fails leaves the old file as it was and nothing
 * beside it; one that succeeds replaces it whole, keeps its mode, and opens nothing that stands at the new name. Writes that
 * are interrupted or cut short are gone on with. What is not on disk, or may lie elsewhere, is not settled. */
#ifndef _GNU_SOURCE
#define _GNU_SOURCE /* O_PATH: a folder that can be written to and not flushed */
#endif
#include <dirent.h>
#include <signal.h>
#include <sys/resource.h>
#include <sys/stat.h>
#include <sys/time.h>
#include <sys/wait.h>

#include "../examples/load.h"
#include "../examples/store.h"

enum { LENGTH = 10 * 512, LIMIT = 9 * 512, SHORTER = 512 };
static int tried;

static void expect(int right, const char *what) {
    if (!right) {
        fprintf(stderr, "store: %s: not as it should be (%s)\n", what, strerror(errno));
        exit(1);
    }
    tried++;
}

static int has(const char *name, const uint8_t *bytes, size_t length) {
    size_t found;
    uint8_t *file = load(name, &found);
    const int same = found == length && memcmp(file, bytes, length) == 0;
    free(file);
    return same;
}

/* How many files and folders there are here. */
static int count(void) {
    int many = 0;
    DIR *here = opendir(".");
    if (here == NULL) return -1;
    while (readdir(here) != NULL) many++;
    closedir(here);
    return many - 2;
}

/* Whether a store fails for the reason and leaves the old table alone. */
static int fails(int folder, const char *name, const uint8_t *bytes, int reason, const uint8_t *old, int files) {
    errno = 0;
    return store(folder, name, bytes, LENGTH) == NOT_STORED && errno == reason && has("table", old, LENGTH) && count() == files;
}

static void ignore(int signal_number) { (void)signal_number; }

/* Whether all bytes reach a reader that is slow to begin, while a timer interrupts. */
static int writes_through(void) {
    static uint8_t sent[1 << 18], got[sizeof sent];
    int ends[2];
    for (size_t i = 0; i < sizeof sent; i++) sent[i] = (uint8_t)(i * 2654435761u >> 24);
    if (pipe(ends) != 0) return 0;
    const pid_t reader = fork();
    if (reader == 0) {
        size_t used = 0;
        ssize_t more;
        close(ends[1]);
        usleep(50000);
        while ((more = read(ends[0], got + used, sizeof got - used)) > 0) used += (size_t)more;
        _exit(used == sizeof sent && memcmp(sent, got, sizeof sent) == 0 ? 0 : 1);
    }
    struct sigaction action;
    const struct itimerval every = {{0, 5000}, {0, 5000}}, never = {{0, 0}, {0, 0}};
    memset(&action, 0, sizeof action);
    action.sa_handler = ignore;
    close(ends[0]);
    int status = 1;
    const int wrote = sigaction(SIGALRM, &action, NULL) == 0 && setitimer(ITIMER_REAL, &every, NULL) == 0 &&
                      write_all(ends[1], sent, sizeof sent);
    setitimer(ITIMER_REAL, &never, NULL);
    close(ends[1]);
    return waitpid(reader, &status, 0) == reader && wrote && status == 0;
}

static mode_t mode_of(const char *name) {
    struct stat about;
    return lstat(name, &about) == 0 ? about.st_mode : 0;
}

/* The mode is the old file's, whatever the umask, and a first file's is narrowed by it. */
static void try_modes(int folder, const uint8_t *bytes) {
    static const mode_t modes[] = {0600, 0640, 0604, 0400, 0666};
    const mode_t before = umask(027);
    expect(store(folder, "first", bytes, LENGTH) == STORED && mode_of("first") == (S_IFREG | 0640), "a first file");
    expect(unlink("first") == 0, "the first file removed");
    umask(077);
    expect(store(folder, "first", bytes, LENGTH) == STORED && mode_of("first") == (S_IFREG | 0600), "a first file under a narrow umask");
    for (size_t i = 0; i < sizeof modes / sizeof modes[0]; i++) {
        expect(chmod("first", modes[i]) == 0, "a mode set");
        expect(store(folder, "first", bytes, LENGTH) == STORED && mode_of("first") == (S_IFREG | modes[i]), "a mode kept");
    }
    expect(unlink("first") == 0, "the first file removed again");
    umask(before);
}

/* What stands at the new name is removed and not opened: a link's file stays as it is, and a fifo holds nothing up. */
static void try_new_name(int folder, const uint8_t *old, const uint8_t *fresh) {
    const int files = count();
    expect(store(folder, "elsewhere", old, LENGTH) == STORED, "a file elsewhere");
    expect(symlink("elsewhere", "table.new") == 0, "a link at the new name");
    expect(store(folder, "table", fresh, LENGTH) == STORED && has("table", fresh, LENGTH) && has("elsewhere", old, LENGTH), "a link not followed");
    expect(S_ISREG(mode_of("table")) && count() == files + 1, "the link removed");
    expect(symlink("nowhere", "table.new") == 0, "a link to nothing at the new name");
    expect(store(folder, "table", old, LENGTH) == STORED && has("table", old, LENGTH) && count() == files + 1, "a link to nothing");
    expect(mkfifo("table.new", 0600) == 0, "a fifo at the new name");
    expect(store(folder, "table", fresh, LENGTH) == STORED && S_ISREG(mode_of("table")) && count() == files + 1, "a fifo not waited for");
    expect(mkdir("table.new", 0700) == 0, "a folder at the new name");
    expect(fails(folder, "table", old, EISDIR, fresh, files + 2), "a folder at the new name, in the way");
    expect(rmdir("table.new") == 0, "the folder removed");
    expect(unlink("table") == 0 && symlink("elsewhere", "table") == 0, "a link at the name");
    expect(store(folder, "table", fresh, LENGTH) == STORED && S_ISREG(mode_of("table")) && has("elsewhere", old, LENGTH), "a link replaced");
    expect(mode_of("table") == (S_IFREG | (0640 & ~umask(umask(0)))), "a link's mode not kept");
    expect(unlink("elsewhere") == 0 && count() == files, "the file elsewhere removed");
}

/* Whether a file is not settled, for the reason. */
static int unsettled(int folder, const char *name, int reason) {
    errno = 0;
    return !settled(folder, name) && errno == reason;
}

static void try_settled(int folder, int unflushable) {
    expect(settled(folder, "table"), "a settled file");
    expect(unsettled(folder, "none", ENOENT), "no file");
    expect(unsettled(unflushable, "table", EBADF), "a settled file in a folder that cannot be flushed");
    expect(symlink("table", "link") == 0 && unsettled(folder, "link", ELOOP) && unlink("link") == 0, "a link");
    expect(mkfifo("fifo", 0600) == 0 && unsettled(folder, "fifo", EINVAL) && unlink("fifo") == 0, "a fifo");
}

int main(int argc, char **argv) {
    static uint8_t old[LENGTH], fresh[LENGTH];
    static char long_name[300];
    memset(old, 'o', sizeof old);
    memset(fresh, 'n', sizeof fresh);
    memset(long_name, 'l', sizeof long_name - 1);
    if (argc != 2 || chdir(argv[1]) != 0 || count() != 0) {
        fprintf(stderr, "usage: store FOLDER, which is empty\n");
        return 2;
    }
    const int folder = open(".", O_RDONLY | O_DIRECTORY), unflushable = open(".", O_PATH | O_DIRECTORY);
    expect(folder >= 0 && unflushable >= 0, "the folder opened");

    expect(store(folder, "table", old, LENGTH) == STORED && has("table", old, LENGTH) && count() == 1, "the first store");

    /* The disk is full after nine of ten blocks. */
    struct rlimit whole, limited;
    expect(getrlimit(RLIMIT_FSIZE, &whole) == 0, "the limit read");
    limited = whole;
    limited.rlim_cur = LIMIT;
    signal(SIGXFSZ, SIG_IGN);
    expect(setrlimit(RLIMIT_FSIZE, &limited) == 0, "the limit set");
    expect(fails(folder, "table", fresh, EFBIG, old, 1), "a store that does not fit");
    expect(setrlimit(RLIMIT_FSIZE, &whole) == 0, "the limit lifted");

    expect(mkdir("taken", 0700) == 0, "a folder made");
    expect(fails(folder, "taken", fresh, EISDIR, old, 2), "a name that is a folder's");
    expect(fails(folder, long_name, fresh, ENAMETOOLONG, old, 2), "a name that is too long");
    expect(fails(-1, "table", fresh, EBADF, old, 2), "no folder");

    expect(store(folder, "table", fresh, LENGTH) == STORED && has("table", fresh, LENGTH) && count() == 2, "a new table");
    expect(store(unflushable, "table", old, LENGTH) == UNSURE && has("table", old, LENGTH) && count() == 2, "a folder not flushed");
    FILE *left = fopen("table.new", "wb"); /* as a power cut leaves it */
    expect(left != NULL && fwrite(old, 1, LENGTH, left) == LENGTH && fclose(left) == 0, "a file left behind");
    expect(store(folder, "table", fresh, SHORTER) == STORED && has("table", fresh, SHORTER) && count() == 2, "a shorter table");
    alarm(60); /* nothing waits for a fifo */
    try_modes(folder, old);
    try_new_name(folder, old, fresh);
    try_settled(folder, unflushable);
    alarm(0);
    expect(writes_through(), "interrupted writes");
    printf("store: %d steps, each as it should be\n", tried);
    return 0;
}
