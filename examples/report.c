/* report [-e EDITION] [-f FEATURES] TABLE PROFILE VECTORS REQUESTS: the month's numbers. REQUESTS has requests laid end to end, as they came over the
 * wire. They are decided again, and shown is how many of each command got each result, how many were refused and why, and where reading
 * stopped.
 * It is installed as ndushavire-report.
 * EDITION is the base standard that the peers followed, all of them: 3588 unless it is given, or 6733. FEATURES are the bits of list 1 that the daemon
 * supported all the time, as a number, decimal or with 0x: 0 unless it is given.
 * TABLE, PROFILE and VECTORS are copies from the month's start, from before the first request: over others the numbers are others.
 * VECTORS may be /dev/null: there are no vectors then. No file is written to. REQUESTS is mapped, whatever its size, and must not be cut
 * short meanwhile.
 * Exit status: 0 the requests were read to their end, 1 they were not, 2 a file cannot be read, standard output cannot be written, or the
 * arguments are others. */
#define _POSIX_C_SOURCE 200809L
#include <fcntl.h>
#include <sys/mman.h>
#include <sys/stat.h>
#include <unistd.h>

#include <ndushavire.h>

#include "load.h"
#include "stated.h"

static int is(const char *word, const char *other) { return strcmp(word, other) == 0; }

/* The file of requests, mapped if it has bytes on disk, and else read: it may be empty, or a pipe. */
typedef struct {
    uint8_t *bytes;
    size_t length;
    int mapped;
} Requests;

static Requests lend(const char *path) {
    Requests requests = {NULL, 0, 0};
    struct stat file;
    if (stat(path, &file) != 0 || !S_ISREG(file.st_mode) || file.st_size == 0) {
        requests.bytes = load(path, &requests.length);
        return requests;
    }
    const int open_file = open(path, O_RDONLY | O_CLOEXEC);
    requests.length = (size_t)file.st_size;
    void *bytes = open_file >= 0 ? mmap(NULL, requests.length, PROT_READ, MAP_PRIVATE, open_file, 0) : MAP_FAILED;
    if (bytes == MAP_FAILED) {
        fprintf(stderr, "%s: %s\n", path, strerror(errno));
        exit(2);
    }
    close(open_file);
    requests.bytes = (uint8_t *)bytes;
    requests.mapped = 1;
    return requests;
}

static void give_back(Requests requests) {
    if (requests.mapped)
        munmap(requests.bytes, requests.length);
    else
        free(requests.bytes);
}

/* How wide a column is: two blanks and the greatest count, which is that of the requests read, or a command's name. */
static int width;

static void print_count(uint64_t count) {
    if (count == 0)
        printf("%*s", width, ".");
    else
        printf("%*lu", width, (unsigned long)count);
}

/* What a column's result is called in RFC 3588, and for X in the standard of Cx. */
static const char *meaning(uint32_t column) {
    static const char *const names[NDUSHAVIRE_REPORT_COLUMNS] = {
        "success", "command unsupported", "application unsupported", "invalid header bits", "invalid AVP bits", "AVP unsupported",
        "authorization rejected", "invalid AVP value", "missing AVP", "AVP occurs too many times", "unsupported version", "unable to comply",
        "invalid AVP length", "first registration", "subsequent registration", "unregistered service", "server name not stored", "user unknown",
        "identities do not match", "identity not registered", "roaming not allowed", "identity already registered",
        "authentication scheme not supported", "error in assignment type", "feature unsupported"};
    return names[column];
}

static const char *reason(uint32_t number) {
    switch (number) {
    case NDUSHAVIRE_REQUEST_SIZE: return "over 16384 bytes";
    case NDUSHAVIRE_REQUEST_LENGTH: return "a length that is no multiple of 4";
    case NDUSHAVIRE_NO_REQUEST: return "no request: the R bit is clear";
    case NDUSHAVIRE_TABLE_UNSOUND: return "the table is unsound";
    case NDUSHAVIRE_VECTORS_UNSOUND: return "the vectors are unsound";
    default: return "";
    }
}

/* A line for each result that was given, with how many requests of each command got it. */
static void print_results(const uint8_t *report) {
    static const char *const commands[NDUSHAVIRE_REPORT_ROWS + 1] = {"UAR", "SAR", "LIR", "MAR", "other", "all"};
    uint64_t total[NDUSHAVIRE_REPORT_ROWS] = {0};
    printf("%-10s", "");
    for (uint32_t row = 0; row <= NDUSHAVIRE_REPORT_ROWS; row++) printf("%*s", width, commands[row]);
    printf("\n");
    for (uint32_t column = 0; column < NDUSHAVIRE_REPORT_COLUMNS; column++) {
        uint64_t all = 0;
        for (uint32_t row = 0; row < NDUSHAVIRE_REPORT_ROWS; row++) {
            total[row] += ndushavire_report_count(report, row, column);
            all += ndushavire_report_count(report, row, column);
        }
        if (all == 0) continue;
        printf("%c%-9lu", column < NDUSHAVIRE_REPORT_BASE ? 'B' : 'X', (unsigned long)ndushavire_report_result(column));
        for (uint32_t row = 0; row < NDUSHAVIRE_REPORT_ROWS; row++) print_count(ndushavire_report_count(report, row, column));
        print_count(all);
        printf("  %s\n", meaning(column));
    }
    printf("%-10s", "answered");
    for (uint32_t row = 0; row < NDUSHAVIRE_REPORT_ROWS; row++) print_count(total[row]);
    print_count(ndushavire_report_word(report, NDUSHAVIRE_REPORT_ANSWERED));
    printf("\n");
}

/* A line for each refusal that was given. A refused request has no command here, so its count stands under "all". */
static void print_refusals(const uint8_t *report) {
    for (uint32_t number = 1; number <= 15; number++) {
        if (ndushavire_report_refused(report, number) == 0) continue;
        printf("refused %-2lu%*s", (unsigned long)number, NDUSHAVIRE_REPORT_ROWS * width, "");
        print_count(ndushavire_report_refused(report, number));
        printf("%s%s\n", *reason(number) != '\0' ? "  " : "", reason(number));
    }
    printf("%-10s%*s", "read", NDUSHAVIRE_REPORT_ROWS * width, "");
    print_count(ndushavire_report_word(report, NDUSHAVIRE_REPORT_READ));
    printf("\n");
}

/* Where reading stopped, and what stands there if it is not the end. */
static void print_stop(const uint8_t *report, Requests requests) {
    const size_t stop = (size_t)ndushavire_report_word(report, NDUSHAVIRE_REPORT_STOP), left = requests.length - stop;
    const uint8_t *at = requests.bytes + stop;
    if (left == 0) {
        printf("the file was read to its end, %lu bytes\n", (unsigned long)stop);
        return;
    }
    printf("STOPPED at byte %lu of %lu: ", (unsigned long)stop, (unsigned long)requests.length);
    if (left < 4) {
        printf("%lu bytes left\n", (unsigned long)left);
        return;
    }
    const unsigned long length = (unsigned long)at[1] << 16 | (unsigned long)at[2] << 8 | (unsigned long)at[3];
    if (length < NDUSHAVIRE_REQUEST_MIN)
        printf("header length %lu\n", length);
    else
        printf("header length %lu, and %lu bytes left\n", length, (unsigned long)left);
}

static void print_report(const uint8_t *report, Requests requests) {
    width = 2 + snprintf(NULL, 0, "%lu", (unsigned long)ndushavire_report_word(report, NDUSHAVIRE_REPORT_READ));
    if (width < 7) width = 7;
    print_results(report);
    print_refusals(report);
    printf("\nrecords altered: %lu\n", (unsigned long)ndushavire_report_word(report, NDUSHAVIRE_REPORT_ALTERED));
    printf("largest answer: %lu bytes\n", (unsigned long)ndushavire_report_word(report, NDUSHAVIRE_REPORT_LARGEST));
    print_stop(report, requests);
}

int main(int argc, char **argv) {
    static const char usage[] = "usage: ndushavire-report [-e EDITION] [-f FEATURES] TABLE PROFILE VECTORS REQUESTS\n"
                                "Counts what the requests in REQUESTS, end to end, get over copies from before the first of them.\n"
                                "EDITION: the base standard that the peers followed, all of them: 3588, unless it is given, or 6733.\n"
                                "FEATURES: the bits of list 1 that were supported all the time, decimal or with 0x: 0, unless it is given.\n"
                                "Exit status: 0 read to the end, 1 stopped before, 2 unreadable or wrong use.\n";
    if (argc == 2 && (is(argv[1], "--help") || is(argv[1], "--version"))) {
        printf("%s", is(argv[1], "--help") ? usage : "ndushavire-report " NDUSHAVIRE_VERSION "\n");
        return printed() ? 0 : 2;
    }
    Stated stated;
    const int first = take_stated(argc, argv, &stated);
    if (first == 0 || argc - first != 4 || stated.peer == 0) {
        fprintf(stderr, "%s", usage);
        return 2;
    }
    argv += first - 1;
    size_t table_len, profile_len, vectors_len;
    uint8_t *table = load(argv[1], &table_len);
    uint8_t *profile = load(argv[2], &profile_len);
    uint8_t *vectors = load(argv[3], &vectors_len);
    const Requests requests = lend(argv[4]);
    static uint8_t answer[NDUSHAVIRE_ANSWER_ROOM], report[NDUSHAVIRE_REPORT_ROOM];

    const uint64_t word = ndushavire_report(requests.bytes, requests.length, table, table_len, profile, profile_len, vectors, vectors_len,
                                            answer, sizeof answer, report, sizeof report, stated.peer, stated.features);
    const uint32_t number = ndushavire_number(word);
    if (number == NDUSHAVIRE_DONE || number == NDUSHAVIRE_REQUESTS_BROKEN)
        print_report(report, requests);
    else
        printf("refused %lu\n", (unsigned long)number);

    free(table);
    free(profile);
    free(vectors);
    give_back(requests);
    if (!printed()) return 2;
    return number == NDUSHAVIRE_DONE ? 0 : 1;
}
