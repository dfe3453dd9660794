/* stack TABLE PROFILE NAMES ..: how deep the libraries' calls reach into the stack. Each runs on a stack of its own that
 * was filled with a pattern; the deepest byte that lost it tells, less what a call that does nothing takes there.
 * With LD_BIND_NOW set the aim is for what a call takes by itself. With LD_BIND_NOT set the dynamic linker looks up memset and the like each
 * time (ld.so(8)), as it does at a first call that is bound lazily: what it takes besides depends on the processor, and has no aim.
 * Exit status 1 if a call takes more than the aim, or is refused and so tells nothing. */
#define _XOPEN_SOURCE 600
#include <ucontext.h>

#include <ndushavire_sh.h>

#include "vectors.h"

enum { STACK = 1 << 20, PATTERN = 0xA5, AIM = 12288 };

static const Sample *s;
static Request request;
static Vectors vectors; /* a vector for each record */
static uint8_t month[1 << 17]; /* the requests decided so far, laid end to end */
static size_t month_len;
static uint64_t word;
static ucontext_t here, there;

static void nothing(void) { word = 0; }
static void check(void) { word = ndushavire_check(s->table, s->table_len, s->profile, s->profile_len); }
static void check_vectors(void) { word = ndushavire_check_vectors(vectors.bytes, vectors.length); }
static void decide(void) {
    static uint8_t answer[NDUSHAVIRE_ANSWER_ROOM];
    word = ndushavire_decide(request.bytes, request.length, s->table, s->table_len, s->profile, s->profile_len, vectors.bytes,
                             vectors.length, answer, sizeof answer, NDUSHAVIRE_RFC_6733, NDUSHAVIRE_NO_FEATURES);
}

static void plain(void) {
    static uint8_t answer[NDUSHAVIRE_ANSWER_ROOM];
    word = ndushavire_plain(request.bytes, request.length, s->table, s->table_len, s->profile, s->profile_len, vectors.bytes,
                            vectors.length, answer, sizeof answer, NDUSHAVIRE_RFC_6733, NDUSHAVIRE_NO_FEATURES);
}

static void sh_decide(void) {
    static uint8_t answer[NDUSHAVIRE_ANSWER_ROOM];
    word = ndushavire_sh_decide(request.bytes, request.length, s->table, s->table_len, s->profile, s->profile_len, answer, sizeof answer, NDUSHAVIRE_RFC_6733);
}

static uint8_t numbers[NDUSHAVIRE_REPORT_ROOM];
static void report(void) {
    static uint8_t answer[NDUSHAVIRE_ANSWER_ROOM];
    word = ndushavire_report(month, month_len, s->table, s->table_len, s->profile, s->profile_len, vectors.bytes, vectors.length, answer,
                             sizeof answer, numbers, sizeof numbers, NDUSHAVIRE_RFC_6733, NDUSHAVIRE_NO_FEATURES);
}

enum { ROW_MOST = 16 };
static void row(void) {
    static uint8_t answers[ROW_MOST * NDUSHAVIRE_ANSWER_ROOM], words[ROW_MOST * NDUSHAVIRE_ROW_WORD];
    word = ndushavire_row(month, month_len, s->table, s->table_len, s->profile, s->profile_len, vectors.bytes, vectors.length, answers,
                          sizeof answers, words, sizeof words, NDUSHAVIRE_RFC_6733, NDUSHAVIRE_NO_FEATURES);
}

static uint8_t fresh[NDUSHAVIRE_TABLE_MAX], area[NDUSHAVIRE_TABLE_MAX]; /* the table in edition 2, and nothing, or what was taken over before */
static void take(void) { word = ndushavire_take(area, s->table_len, fresh, s->table_len, s->profile, s->profile_len); }

static uint8_t listed[NDUSHAVIRE_LIST_MAX]; /* that table as a list */
static size_t listed_len;
static void export_list(void) { word = ndushavire_export(fresh, s->table_len, s->profile, s->profile_len, listed, sizeof listed); }
static void import_list(void) { word = ndushavire_import(listed, listed_len, fresh, NDUSHAVIRE_BLOCK, s->profile, s->profile_len, area, sizeof area); }

static void forward(void) { word = ndushavire_forward(s->table, s->table_len, s->profile, s->profile_len, 7); }
static void back(void) { word = ndushavire_back(s->table, s->table_len, s->profile, s->profile_len); }

/* The most that each entry took. */
static struct {
    void (*call)(void);
    const char *name;
    size_t most;
} entries[] = {{check, "check", 0}, {check_vectors, "vector check", 0}, {forward, "move forward", 0},
               {back, "move back", 0}, {take, "take-over", 0}, {export_list, "export", 0}, {import_list, "import", 0},
               {decide, "decide", 0}, {plain, "plain engine", 0}, {report, "report", 0}, {row, "row", 0}, {sh_decide, "Sh", 0}};
enum { ENTRIES = sizeof entries / sizeof entries[0] };
static int lazily, sets; /* how memset and the like are bound; whether the table has sets, for which the check has more to call */
static uint32_t due;     /* the number that the calls return */

/* How many bytes of the stack a call alters. */
static size_t depth(void (*call)(void)) {
    static uint8_t stack[STACK];
    memset(stack, PATTERN, sizeof stack);
    if (getcontext(&there) != 0) exit(2);
    there.uc_stack.ss_sp = stack;
    there.uc_stack.ss_size = sizeof stack;
    there.uc_link = &here;
    makecontext(&there, call, 0);
    if (swapcontext(&here, &there) != 0) exit(2);
    size_t untouched = 0;
    while (untouched < sizeof stack && stack[untouched] == PATTERN) untouched++;
    return sizeof stack - untouched;
}

static int within(void (*call)(void), const char *what) {
    const size_t base = depth(nothing), bytes = depth(call) - base;
    printf("%7lu  %-5s  %-4s  %-14s %7lu\n", (unsigned long)s->records, s->names, sets ? "sets" : "", what, (unsigned long)bytes);
    for (size_t i = 0; i < ENTRIES; i++)
        if (entries[i].call == call && entries[i].most < bytes) entries[i].most = bytes;
    if (ndushavire_number(word) != due) {
        fprintf(stderr, "stack: %s: number %lu\n", what, (unsigned long)ndushavire_number(word));
        return 0;
    }
    return lazily || bytes <= AIM;
}

/* A decision of the request, which is kept for the report; and the same by the plain engine, over what the quick one found. */
static int decides(const char *what) {
    static uint8_t table[NDUSHAVIRE_TABLE_MAX], file[NDUSHAVIRE_VECTOR_FILE_MAX];
    if (month_len + request.length > sizeof month) abort();
    memcpy(month + month_len, request.bytes, request.length);
    month_len += request.length;
    memcpy(table, s->table, s->table_len);
    memcpy(file, vectors.bytes, vectors.length);
    const int passes = within(decide, what);
    const uint64_t quick = word;
    memcpy(s->table, table, s->table_len);
    memcpy(vectors.bytes, file, vectors.length);
    const int passes_too = within(plain, "  plain engine");
    if (word != quick) fprintf(stderr, "stack: %s: the plain engine returns another word\n", what);
    return passes & passes_too & (word == quick);
}

/* A report over all of them, of which none is refused: a refused one would tell little; and a row, over what the report found. */
static int reports(void) {
    static uint8_t table[NDUSHAVIRE_TABLE_MAX], file[NDUSHAVIRE_VECTOR_FILE_MAX];
    memcpy(table, s->table, s->table_len);
    memcpy(file, vectors.bytes, vectors.length);
    const int passes = within(report, "report");
    const uint64_t read = ndushavire_report_word(numbers, NDUSHAVIRE_REPORT_READ);
    memcpy(s->table, table, s->table_len);
    memcpy(vectors.bytes, file, vectors.length);
    const int passes_too = within(row, "row");
    const int answered = read > 1 && ndushavire_report_word(numbers, NDUSHAVIRE_REPORT_ANSWERED) == read && ndushavire_value(word) == read;
    if (!answered) fprintf(stderr, "stack: the requests of the report or of the row are not answered\n");
    return passes & passes_too & answered;
}

/* Whether the first and the last of the vectors that an answer can send are marked: another answer would tell little. */
static int all_sent(void) {
    const uint8_t *end = vectors.bytes + vectors.length;
    const int sent = end[1 - SENT_MOST * NDUSHAVIRE_BLOCK] == 1 && end[1 - NDUSHAVIRE_BLOCK] == 1;
    if (!sent) fprintf(stderr, "stack: the MAR does not send 16 items\n");
    return sent;
}

/* There and back again: the calls behind find the table as it was. One with sets is checked and refused. */
static int measure_moves(void) {
    due = sets ? NDUSHAVIRE_TABLE_UNSOUND : NDUSHAVIRE_DONE;
    int passes = within(forward, "move forward");
    due = NDUSHAVIRE_DONE;
    passes &= within(check, "check, 2nd");
    due = sets ? NDUSHAVIRE_TABLE_HAS_SETS : NDUSHAVIRE_DONE;
    passes &= within(back, "move back");
    due = NDUSHAVIRE_DONE;
    return passes;
}

/* Over nothing, and then over itself, which is refused. */
static int measure_takes(void) {
    memcpy(fresh, s->table, s->table_len);
    memset(area, 0, s->table_len);
    if (!sets) ndushavire_forward(fresh, s->table_len, s->profile, s->profile_len, 7);
    int passes = within(take, "take-over");
    due = NDUSHAVIRE_ISSUE_NOT_GREATER;
    passes &= within(take, "take-over, 2nd");
    due = NDUSHAVIRE_DONE;
    return passes;
}

/* The table that was taken over becomes a list, and that the table again. */
static int measure_lists(void) {
    int passes = within(export_list, "export");
    listed_len = ndushavire_value(word);
    memset(area, 0, s->table_len);
    passes &= within(import_list, "import");
    const int same = memcmp(area, fresh, s->table_len) == 0;
    if (!same) fprintf(stderr, "stack: the list does not give the table back\n");
    return passes & same;
}

/* A voicemail box asks: of a line, with an AVP at fault, and with nothing behind the header. The report has none of these. */
static int measure_sh(const uint8_t *registered) {
    ask_user_data(&request, registered);
    int passes = within(sh_decide, "UDR");
    const int told = ndushavire_value(word) > 200;
    if (!told) fprintf(stderr, "stack: the UDR is told nothing\n");
    spell(request.bytes + request.length - 12, 0xC0000000u + 15); /* its last reference has 3 bytes */
    passes &= within(sh_decide, "UDR at fault") & told;
    request.length = NDUSHAVIRE_REQUEST_MIN;
    end(&request);
    return passes & within(sh_decide, "UDR's header");
}

static int measure_all(const uint8_t *registered) {
    month_len = 0;
    int passes = within(check, "check");
    passes &= within(check_vectors, "vector check");
    passes &= measure_sh(registered);
    passes &= measure_moves();
    passes &= measure_takes();
    passes &= measure_lists();
    if (strcmp(s->names, "tiny") == 0) {
        ask_assignment(&request, s->table, s->records, registered, 6, 1);
        passes &= decides("removal of 1");
        ask_assignment(&request, s->table, s->records, registered, 6, 1000);
        passes &= decides("removal, 1000");
        return passes & reports();
    }
    ask_authorization(&request, s->table, last_in(s->table, s->records, NOT_REGISTERED));
    passes &= decides("UAR");
    ask_location(&request, registered);
    passes &= decides("LIR");
    ask_long_location(&request, registered, NDUSHAVIRE_REQUEST_MAX);
    passes &= decides("LIR of 16 KiB");
    ask_assignment(&request, s->table, s->records, registered, 1, 1);
    passes &= decides("SAR type 1");
    /* Another server's name, so that the record is rewritten too. */
    ask_authentication(&request, registered, SENT_MOST, "sip:another.isle:6060");
    passes &= decides("MAR, 16 items") & all_sent();
    unmark(&vectors); /* for the report to send again */
    request.length = NDUSHAVIRE_REQUEST_MIN;
    end(&request);
    passes &= decides("a header alone");
    passes &= reports();
    return passes & all_sent();
}

/* Over a table of tiny names: as many identities as a request has room for, and all lines of the one card, each of them rewritten. */
static int measure_removals(const uint8_t *registered) {
    month_len = 0;
    ask_assignment(&request, s->table, s->records, registered, 6, 1);
    const size_t more = (NDUSHAVIRE_REQUEST_MAX - request.length) / 16;
    ask_assignment(&request, s->table, s->records, registered, 6, 1 + more);
    int passes = decides("removal, most");
    ask_assignment_of_card(&request, registered, 5);
    passes &= decides("removal of all");
    const int removed = last_in(s->table, s->records, REGISTERED)[8] == NOT_REGISTERED && registered[8] == NOT_REGISTERED;
    if (!removed) fprintf(stderr, "stack: the removal of all leaves a line registered\n");
    return passes & removed & reports();
}

/* The longest answers, and every kind of Failed-AVP: the AVP at fault, a header alone, a second identity, an example of what is missing; and the most
 * Supported-Features, all of which go on, or the last of which asks for what is not supported. */
static int measure_faults(const uint8_t *registered) {
    month_len = 0;
    ask_by_faulty_proxy(&request, registered);
    int passes = decides("proxy at fault");
    const int longest = ndushavire_value(word) > 2 * (NDUSHAVIRE_REQUEST_MAX - 256);
    if (!longest) fprintf(stderr, "stack: the answer does not have the Proxy-Info twice\n");
    ask_by_proxies(&request, registered);
    passes &= decides("most proxies");
    spell(request.bytes + request.length - 8, 0x40000000u + 16); /* its last AVP now ends behind it */
    passes &= decides("length fault");
    ask_with_features(&request, registered);
    passes &= decides("most features");
    spell(request.bytes + request.length - 4, 1);
    passes &= decides("1 unsupported");
    ask_assignment(&request, s->table, s->records, registered, 1, 2);
    passes &= decides("2 identities");
    begin(&request, 302);
    end(&request);
    passes &= decides("missing AVP") & longest;
    return passes & reports();
}

static int measure(const Sample *sample) {
    s = sample;
    sets = s->table[NDUSHAVIRE_BLOCK + 406] != 0 || s->table[NDUSHAVIRE_BLOCK + 407] != 0; /* of its first record */
    const uint8_t *registered = last_in(s->table, s->records, REGISTERED);
    vectors = make_vectors(s, registered);
    const int tiny = strcmp(s->names, "tiny") == 0;
    const int passes = measure_all(registered) & (tiny ? measure_removals(registered) : measure_faults(registered));
    free(vectors.bytes);
    return passes;
}

int main(int argc, char **argv) {
    lazily = getenv("LD_BIND_NOT") != NULL;
    printf("stack of one call in bytes, %s\n", lazily ? "what it calls bound lazily; no aim" : "what it calls bound at the start; the aim is 12,288 at most");
    const int status = each_sample(argc, argv, "records  names  sets  call             bytes\n", measure);
    for (size_t i = 0; i < ENTRIES; i++) printf("%s%s %lu", i == 0 ? "the most: " : ", ", entries[i].name, (unsigned long)entries[i].most);
    printf("\n");
    return status;
}
