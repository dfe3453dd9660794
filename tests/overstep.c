/*
 * Libraries that overstep: they stand between the driver and the two checks, the plain engine, the row, export, import and the decision of Sh, say what
 * each says, and alter a byte that is not theirs to alter, around or inside of the last slice, or of a profile file, table or header block that is only read.
 * OVERSTEP in the environment says which; the driver must tell of it.
 */
#include <stddef.h>
#include <stdint.h>
#include <stdlib.h>
#include <string.h>

/* By these names the linker's option --wrap puts one function before another. */
uint64_t __real_ndushavire_check(const uint8_t *table, size_t table_len, const uint8_t *profile, size_t profile_len);
uint64_t __wrap_ndushavire_check(const uint8_t *table, size_t table_len, const uint8_t *profile, size_t profile_len);
uint64_t __real_ndushavire_check_vectors(const uint8_t *vectors, size_t vectors_len);
uint64_t __wrap_ndushavire_check_vectors(const uint8_t *vectors, size_t vectors_len);
uint64_t __real_ndushavire_plain(const uint8_t *request, size_t request_len, uint8_t *table, size_t table_len, const uint8_t *profile,
                                 size_t profile_len, uint8_t *vectors, size_t vectors_len, uint8_t *answer, size_t answer_len, uint32_t peer,
                                 uint32_t features);
uint64_t __wrap_ndushavire_plain(const uint8_t *request, size_t request_len, uint8_t *table, size_t table_len, const uint8_t *profile,
                                 size_t profile_len, uint8_t *vectors, size_t vectors_len, uint8_t *answer, size_t answer_len, uint32_t peer,
                                 uint32_t features);
uint64_t __real_ndushavire_row(const uint8_t *requests, size_t requests_len, uint8_t *table, size_t table_len, const uint8_t *profile,
                               size_t profile_len, uint8_t *vectors, size_t vectors_len, uint8_t *answers, size_t answers_len, uint8_t *words,
                               size_t words_len, uint32_t peer, uint32_t features);
uint64_t __wrap_ndushavire_row(const uint8_t *requests, size_t requests_len, uint8_t *table, size_t table_len, const uint8_t *profile,
                               size_t profile_len, uint8_t *vectors, size_t vectors_len, uint8_t *answers, size_t answers_len, uint8_t *words,
                               size_t words_len, uint32_t peer, uint32_t features);
uint64_t __real_ndushavire_export(const uint8_t *table, size_t table_len, const uint8_t *profile, size_t profile_len, uint8_t *list, size_t list_len);
uint64_t __wrap_ndushavire_export(const uint8_t *table, size_t table_len, const uint8_t *profile, size_t profile_len, uint8_t *list, size_t list_len);
uint64_t __real_ndushavire_import(const uint8_t *list, size_t list_len, const uint8_t *header, size_t header_len, const uint8_t *profile,
                                  size_t profile_len, uint8_t *table, size_t table_len);
uint64_t __wrap_ndushavire_import(const uint8_t *list, size_t list_len, const uint8_t *header, size_t header_len, const uint8_t *profile,
                                  size_t profile_len, uint8_t *table, size_t table_len);
uint64_t __real_ndushavire_sh_decide(const uint8_t *request, size_t request_len, const uint8_t *table, size_t table_len, const uint8_t *profile,
                                     size_t profile_len, uint8_t *answer, size_t answer_len, uint32_t peer);
uint64_t __wrap_ndushavire_sh_decide(const uint8_t *request, size_t request_len, const uint8_t *table, size_t table_len, const uint8_t *profile,
                                     size_t profile_len, uint8_t *answer, size_t answer_len, uint32_t peer);

static void overstep(const uint8_t *slice, size_t length)
{
    const char *which = getenv("OVERSTEP");
    uint8_t *at = (uint8_t *)slice;

    if (which != NULL && strcmp(which, "before") == 0)
        at[-1] ^= 1;
    if (which != NULL && strcmp(which, "behind") == 0)
        at[length] ^= 1;
    if (which != NULL && strcmp(which, "inside") == 0 && length > 0)
        at[length - 1] ^= 1;
}

uint64_t __wrap_ndushavire_check(const uint8_t *table, size_t table_len, const uint8_t *profile, size_t profile_len)
{
    uint64_t word = __real_ndushavire_check(table, table_len, profile, profile_len);

    overstep(profile, profile_len);
    return word;
}

uint64_t __wrap_ndushavire_check_vectors(const uint8_t *vectors, size_t vectors_len)
{
    uint64_t word = __real_ndushavire_check_vectors(vectors, vectors_len);

    overstep(vectors, vectors_len);
    return word;
}

uint64_t __wrap_ndushavire_plain(const uint8_t *request, size_t request_len, uint8_t *table, size_t table_len, const uint8_t *profile,
                                 size_t profile_len, uint8_t *vectors, size_t vectors_len, uint8_t *answer, size_t answer_len, uint32_t peer,
                                 uint32_t features)
{
    uint64_t word = __real_ndushavire_plain(request, request_len, table, table_len, profile, profile_len, vectors, vectors_len, answer,
                                            answer_len, peer, features);

    overstep(profile, profile_len);
    return word;
}

uint64_t __wrap_ndushavire_row(const uint8_t *requests, size_t requests_len, uint8_t *table, size_t table_len, const uint8_t *profile,
                               size_t profile_len, uint8_t *vectors, size_t vectors_len, uint8_t *answers, size_t answers_len, uint8_t *words,
                               size_t words_len, uint32_t peer, uint32_t features)
{
    uint64_t word = __real_ndushavire_row(requests, requests_len, table, table_len, profile, profile_len, vectors, vectors_len, answers,
                                          answers_len, words, words_len, peer, features);

    overstep(profile, profile_len);
    return word;
}

uint64_t __wrap_ndushavire_export(const uint8_t *table, size_t table_len, const uint8_t *profile, size_t profile_len, uint8_t *list, size_t list_len)
{
    uint64_t word = __real_ndushavire_export(table, table_len, profile, profile_len, list, list_len);

    overstep(profile, profile_len);
    return word;
}

uint64_t __wrap_ndushavire_import(const uint8_t *list, size_t list_len, const uint8_t *header, size_t header_len, const uint8_t *profile,
                                  size_t profile_len, uint8_t *table, size_t table_len)
{
    uint64_t word = __real_ndushavire_import(list, list_len, header, header_len, profile, profile_len, table, table_len);

    overstep(header, header_len);
    return word;
}

uint64_t __wrap_ndushavire_sh_decide(const uint8_t *request, size_t request_len, const uint8_t *table, size_t table_len, const uint8_t *profile,
                                     size_t profile_len, uint8_t *answer, size_t answer_len, uint32_t peer)
{
    uint64_t word = __real_ndushavire_sh_decide(request, request_len, table, table_len, profile, profile_len, answer, answer_len, peer);

    overstep(table, table_len);
    return word;
}
