/*
 * The little box: it stands between a program and the libraries' entries, and makes each call on a thread whose stack is
 * 16 KiB, above pages that nobody may touch. A call that needs more is told of, and ends the program with status 3.
 * SPENT in the environment is how many bytes of the stack are used up before the call, to see that this is noticed.
 */
#define _GNU_SOURCE
#include <pthread.h>
#include <signal.h>
#include <stddef.h>
#include <stdint.h>
#include <stdio.h>
#include <stdlib.h>
#include <string.h>
#include <sys/mman.h>
#include <unistd.h>

#define STACK 16384u
#define GUARD (1u << 20) /* wide: one array can reach far below the stack */

/* By these names the linker's option --wrap puts one function before another. */
uint64_t __real_ndushavire_check(const uint8_t *table, size_t table_len, const uint8_t *profile, size_t profile_len);
uint64_t __wrap_ndushavire_check(const uint8_t *table, size_t table_len, const uint8_t *profile, size_t profile_len);
uint64_t __real_ndushavire_check_vectors(const uint8_t *vectors, size_t vectors_len);
uint64_t __wrap_ndushavire_check_vectors(const uint8_t *vectors, size_t vectors_len);
uint64_t __real_ndushavire_decide(const uint8_t *request, size_t request_len, uint8_t *table, size_t table_len, const uint8_t *profile,
                                  size_t profile_len, uint8_t *vectors, size_t vectors_len, uint8_t *answer, size_t answer_len, uint32_t peer,
                                  uint32_t features);
uint64_t __wrap_ndushavire_decide(const uint8_t *request, size_t request_len, uint8_t *table, size_t table_len, const uint8_t *profile,
                                  size_t profile_len, uint8_t *vectors, size_t vectors_len, uint8_t *answer, size_t answer_len, uint32_t peer,
                                  uint32_t features);
uint64_t __real_ndushavire_plain(const uint8_t *request, size_t request_len, uint8_t *table, size_t table_len, const uint8_t *profile,
                                 size_t profile_len, uint8_t *vectors, size_t vectors_len, uint8_t *answer, size_t answer_len, uint32_t peer,
                                 uint32_t features);
uint64_t __wrap_ndushavire_plain(const uint8_t *request, size_t request_len, uint8_t *table, size_t table_len, const uint8_t *profile,
                                 size_t profile_len, uint8_t *vectors, size_t vectors_len, uint8_t *answer, size_t answer_len, uint32_t peer,
                                 uint32_t features);
uint64_t __real_ndushavire_report(const uint8_t *requests, size_t requests_len, uint8_t *table, size_t table_len, const uint8_t *profile,
                                  size_t profile_len, uint8_t *vectors, size_t vectors_len, uint8_t *answer, size_t answer_len, uint8_t *report,
                                  size_t report_len, uint32_t peer, uint32_t features);
uint64_t __wrap_ndushavire_report(const uint8_t *requests, size_t requests_len, uint8_t *table, size_t table_len, const uint8_t *profile,
                                  size_t profile_len, uint8_t *vectors, size_t vectors_len, uint8_t *answer, size_t answer_len, uint8_t *report,
                                  size_t report_len, uint32_t peer, uint32_t features);
uint64_t __real_ndushavire_forward(uint8_t *table, size_t table_len, const uint8_t *profile, size_t profile_len, uint32_t issue);
uint64_t __wrap_ndushavire_forward(uint8_t *table, size_t table_len, const uint8_t *profile, size_t profile_len, uint32_t issue);
uint64_t __real_ndushavire_back(uint8_t *table, size_t table_len, const uint8_t *profile, size_t profile_len);
uint64_t __wrap_ndushavire_back(uint8_t *table, size_t table_len, const uint8_t *profile, size_t profile_len);
uint64_t __real_ndushavire_take(uint8_t *area, size_t area_len, const uint8_t *fresh, size_t fresh_len, const uint8_t *profile,
                                size_t profile_len);
uint64_t __wrap_ndushavire_take(uint8_t *area, size_t area_len, const uint8_t *fresh, size_t fresh_len, const uint8_t *profile,
                                size_t profile_len);
uint64_t __real_ndushavire_row(const uint8_t *requests, size_t requests_len, uint8_t *table, size_t table_len, const uint8_t *profile,
                               size_t profile_len, uint8_t *vectors, size_t vectors_len, uint8_t *answers, size_t answers_len, uint8_t *words,
                               size_t words_len, uint32_t peer, uint32_t features);
uint64_t __wrap_ndushavire_row(const uint8_t *requests, size_t requests_len, uint8_t *table, size_t table_len, const uint8_t *profile,
                               size_t profile_len, uint8_t *vectors, size_t vectors_len, uint8_t *answers, size_t answers_len, uint8_t *words,
                               size_t words_len, uint32_t peer, uint32_t features);
uint64_t __real_ndushavire_export(const uint8_t *table, size_t table_len, const uint8_t *profile, size_t profile_len, uint8_t *list, size_t list_len);
uint64_t __wrap_ndushavire_export(const uint8_t *table, size_t table_len, const uint8_t *profile, size_t profile_len, uint8_t *list, size_t list_len);
uint64_t __real_ndushavire_import(const uint8_t *list, size_t list_len, const uint8_t *header, size_t header_len, const uint8_t *profile,
                                  size_t profile_len, uint8_t *table, size_t table_len);
uint64_t __wrap_ndushavire_import(const uint8_t *list, size_t list_len, const uint8_t *header, size_t header_len, const uint8_t *profile,
                                  size_t profile_len, uint8_t *table, size_t table_len);
uint64_t __real_ndushavire_sh_decide(const uint8_t *request, size_t request_len, const uint8_t *table, size_t table_len, const uint8_t *profile,
                                     size_t profile_len, uint8_t *answer, size_t answer_len, uint32_t peer);
uint64_t __wrap_ndushavire_sh_decide(const uint8_t *request, size_t request_len, const uint8_t *table, size_t table_len, const uint8_t *profile,
                                     size_t profile_len, uint8_t *answer, size_t answer_len, uint32_t peer);

/* The call that is made next: what it is lent, in its order, and the word that it returned. */
static struct {
    const uint8_t *read[6];
    uint8_t *written[6];
    size_t length[6];
    uint32_t number[2];
    uint64_t word;
} lent;

#define READ(s) lent.read[s], lent.length[s]
#define WRITTEN(s) lent.written[s], lent.length[s]
#define NUMBERS lent.number[0], lent.number[1]

static void check(void) { lent.word = __real_ndushavire_check(READ(0), READ(1)); }
static void check_vectors(void) { lent.word = __real_ndushavire_check_vectors(READ(0)); }
static void decide(void) { lent.word = __real_ndushavire_decide(READ(0), WRITTEN(1), READ(2), WRITTEN(3), WRITTEN(4), NUMBERS); }
static void plain(void) { lent.word = __real_ndushavire_plain(READ(0), WRITTEN(1), READ(2), WRITTEN(3), WRITTEN(4), NUMBERS); }
static void report(void) { lent.word = __real_ndushavire_report(READ(0), WRITTEN(1), READ(2), WRITTEN(3), WRITTEN(4), WRITTEN(5), NUMBERS); }
static void forward(void) { lent.word = __real_ndushavire_forward(WRITTEN(0), READ(1), lent.number[0]); }
static void back(void) { lent.word = __real_ndushavire_back(WRITTEN(0), READ(1)); }
static void take(void) { lent.word = __real_ndushavire_take(WRITTEN(0), READ(1), READ(2)); }
static void row(void) { lent.word = __real_ndushavire_row(READ(0), WRITTEN(1), READ(2), WRITTEN(3), WRITTEN(4), WRITTEN(5), lent.number[0], lent.number[1]); }
static void export_list(void) { lent.word = __real_ndushavire_export(READ(0), READ(1), WRITTEN(2)); }
static void import_list(void) { lent.word = __real_ndushavire_import(READ(0), READ(1), READ(2), WRITTEN(3)); }
static void sh_decide(void) { lent.word = __real_ndushavire_sh_decide(READ(0), READ(1), READ(2), WRITTEN(3), lent.number[0]); }

static void (*call)(void);
static size_t spent;
static uint8_t *below; /* the pages below the stack */

static void fail(const char *why)
{
    fprintf(stderr, "narrow: %s\n", why);
    exit(2);
}

/* On a stack of its own, since there is none left. */
static void told(int signal, siginfo_t *info, void *context)
{
    static const char past[] = "narrow: a call needs more than a stack of 16 KiB\n", other[] = "narrow: a call reaches where it may not\n";
    const uint8_t *at = (const uint8_t *)info->si_addr;
    const int stack = at >= below && at < below + GUARD;

    (void)signal;
    (void)context;
    if (write(2, stack ? past : other, stack ? sizeof past - 1 : sizeof other - 1) < 0)
        _exit(4);
    _exit(3);
}

static void *make_call(void *unused)
{
    static uint8_t handler_stack[1 << 16];
    const stack_t handler = {.ss_sp = handler_stack, .ss_flags = 0, .ss_size = sizeof handler_stack};

    (void)unused;
    if (sigaltstack(&handler, NULL) != 0)
        fail("no stack for the handler");
    volatile uint8_t above[spent + 1]; /* between here and the call; its far end alone is touched */
    above[spent] = 0;
    call();
    (void)above[spent];
    return NULL;
}

/* The stack, its pages below it, and the handler. */
static void prepare(pthread_attr_t *thread)
{
    const char *asked = getenv("SPENT");
    struct sigaction action;

    spent = asked == NULL ? 0 : strtoul(asked, NULL, 10);
    below = mmap(NULL, GUARD + STACK, PROT_NONE, MAP_PRIVATE | MAP_ANONYMOUS, -1, 0);
    if (below == MAP_FAILED || mprotect(below + GUARD, STACK, PROT_READ | PROT_WRITE) != 0)
        fail("no memory");
    if (pthread_attr_init(thread) != 0 || pthread_attr_setstack(thread, below + GUARD, STACK) != 0)
        fail("no thread may have a stack of 16 KiB here");
    memset(&action, 0, sizeof action);
    action.sa_sigaction = told;
    action.sa_flags = SA_SIGINFO | SA_ONSTACK;
    if (sigaction(SIGSEGV, &action, NULL) != 0)
        fail("no handler");
}

static uint64_t narrow(void (*next)(void))
{
    static pthread_attr_t attributes;
    pthread_t thread;

    if (below == NULL)
        prepare(&attributes);
    call = next;
    if (pthread_create(&thread, &attributes, make_call, NULL) != 0 || pthread_join(thread, NULL) != 0)
        fail("no thread");
    return lent.word;
}

static void lend_read(size_t s, const uint8_t *at, size_t length)
{
    lent.read[s] = at;
    lent.length[s] = length;
}

static void lend_written(size_t s, uint8_t *at, size_t length)
{
    lent.written[s] = at;
    lent.length[s] = length;
}

uint64_t __wrap_ndushavire_check(const uint8_t *table, size_t table_len, const uint8_t *profile, size_t profile_len)
{
    lend_read(0, table, table_len);
    lend_read(1, profile, profile_len);
    return narrow(check);
}

uint64_t __wrap_ndushavire_check_vectors(const uint8_t *vectors, size_t vectors_len)
{
    lend_read(0, vectors, vectors_len);
    return narrow(check_vectors);
}

/* Both engines are lent the same. */
static uint64_t narrow_engine(void (*engine)(void), const uint8_t *request, size_t request_len, uint8_t *table, size_t table_len,
                              const uint8_t *profile, size_t profile_len, uint8_t *vectors, size_t vectors_len, uint8_t *answer, size_t answer_len,
                              uint32_t peer, uint32_t features)
{
    lend_read(0, request, request_len);
    lend_written(1, table, table_len);
    lend_read(2, profile, profile_len);
    lend_written(3, vectors, vectors_len);
    lend_written(4, answer, answer_len);
    lent.number[0] = peer;
    lent.number[1] = features;
    return narrow(engine);
}

uint64_t __wrap_ndushavire_decide(const uint8_t *request, size_t request_len, uint8_t *table, size_t table_len, const uint8_t *profile,
                                  size_t profile_len, uint8_t *vectors, size_t vectors_len, uint8_t *answer, size_t answer_len, uint32_t peer,
                                  uint32_t features)
{
    return narrow_engine(decide, request, request_len, table, table_len, profile, profile_len, vectors, vectors_len, answer, answer_len, peer, features);
}

uint64_t __wrap_ndushavire_plain(const uint8_t *request, size_t request_len, uint8_t *table, size_t table_len, const uint8_t *profile,
                                 size_t profile_len, uint8_t *vectors, size_t vectors_len, uint8_t *answer, size_t answer_len, uint32_t peer,
                                 uint32_t features)
{
    return narrow_engine(plain, request, request_len, table, table_len, profile, profile_len, vectors, vectors_len, answer, answer_len, peer, features);
}

uint64_t __wrap_ndushavire_report(const uint8_t *requests, size_t requests_len, uint8_t *table, size_t table_len, const uint8_t *profile,
                                  size_t profile_len, uint8_t *vectors, size_t vectors_len, uint8_t *answer, size_t answer_len, uint8_t *numbers,
                                  size_t numbers_len, uint32_t peer, uint32_t features)
{
    lend_read(0, requests, requests_len);
    lend_written(1, table, table_len);
    lend_read(2, profile, profile_len);
    lend_written(3, vectors, vectors_len);
    lend_written(4, answer, answer_len);
    lend_written(5, numbers, numbers_len);
    lent.number[0] = peer;
    lent.number[1] = features;
    return narrow(report);
}

uint64_t __wrap_ndushavire_forward(uint8_t *table, size_t table_len, const uint8_t *profile, size_t profile_len, uint32_t issue)
{
    lend_written(0, table, table_len);
    lend_read(1, profile, profile_len);
    lent.number[0] = issue;
    return narrow(forward);
}

uint64_t __wrap_ndushavire_back(uint8_t *table, size_t table_len, const uint8_t *profile, size_t profile_len)
{
    lend_written(0, table, table_len);
    lend_read(1, profile, profile_len);
    return narrow(back);
}

uint64_t __wrap_ndushavire_take(uint8_t *area, size_t area_len, const uint8_t *fresh, size_t fresh_len, const uint8_t *profile,
                                size_t profile_len)
{
    lend_written(0, area, area_len);
    lend_read(1, fresh, fresh_len);
    lend_read(2, profile, profile_len);
    return narrow(take);
}

uint64_t __wrap_ndushavire_row(const uint8_t *requests, size_t requests_len, uint8_t *table, size_t table_len, const uint8_t *profile,
                               size_t profile_len, uint8_t *vectors, size_t vectors_len, uint8_t *answers, size_t answers_len, uint8_t *words,
                               size_t words_len, uint32_t peer, uint32_t features)
{
    lend_read(0, requests, requests_len);
    lend_written(1, table, table_len);
    lend_read(2, profile, profile_len);
    lend_written(3, vectors, vectors_len);
    lend_written(4, answers, answers_len);
    lend_written(5, words, words_len);
    lent.number[0] = peer;
    lent.number[1] = features;
    return narrow(row);
}

uint64_t __wrap_ndushavire_export(const uint8_t *table, size_t table_len, const uint8_t *profile, size_t profile_len, uint8_t *list, size_t list_len)
{
    lend_read(0, table, table_len);
    lend_read(1, profile, profile_len);
    lend_written(2, list, list_len);
    return narrow(export_list);
}

uint64_t __wrap_ndushavire_import(const uint8_t *list, size_t list_len, const uint8_t *header, size_t header_len, const uint8_t *profile,
                                  size_t profile_len, uint8_t *table, size_t table_len)
{
    lend_read(0, list, list_len);
    lend_read(1, header, header_len);
    lend_read(2, profile, profile_len);
    lend_written(3, table, table_len);
    return narrow(import_list);
}

uint64_t __wrap_ndushavire_sh_decide(const uint8_t *request, size_t request_len, const uint8_t *table, size_t table_len, const uint8_t *profile,
                                     size_t profile_len, uint8_t *answer, size_t answer_len, uint32_t peer)
{
    lend_read(0, request, request_len);
    lend_read(1, table, table_len);
    lend_read(2, profile, profile_len);
    lend_written(3, answer, answer_len);
    lent.number[0] = peer;
    return narrow(sh_decide);
}
