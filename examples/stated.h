/* stated.h: what is stated at a call behind its slices, as a program is told it by options: -e, which edition of the base standard the peer follows
 * (peers.h), and -f, which features the server supports: the bits of list 1 of vendor 10415, as one number. Who is told nothing supports none. */
#ifndef STATED_H
#define STATED_H

#include "peers.h"

/* Features by the digits of their number, decimal or behind 0x hexadecimal; gives 0 if it is no number of 32 bits. Nor is one that has a 0 before other
 * decimal digits, since elsewhere that makes them octal. */
static inline int features_of(const char *digits, uint32_t *features) {
    static const char all[] = "0123456789abcdefABCDEF";
    const int sixteen = digits[0] == '0' && (digits[1] == 'x' || digits[1] == 'X');
    const char *first = sixteen ? digits + 2 : digits;
    uint64_t number = 0;
    if (*first == '\0' || first[strspn(first, sixteen ? all : "0123456789")] != '\0' || (!sixteen && first[0] == '0' && first[1] != '\0')) return 0;
    for (; *first != '\0'; first++) {
        const unsigned digit = (unsigned)(strchr(all, *first) - all);
        number = number * (sixteen ? 16 : 10) + (digit < 16 ? digit : digit - 6);
        if (number > UINT32_MAX) return 0;
    }
    *features = (uint32_t)number;
    return 1;
}

typedef struct {
    uint32_t peer, features;
} Stated;

/* Takes the options that a program's arguments begin with, in any order, of which the last word counts; gives the number of the first argument behind
 * them, or 0 if what is given for features is no such number. An edition that is none is 0 in what is stated. */
static inline int take_stated(int argc, char **argv, Stated *stated) {
    int at = 1;
    stated->peer = NDUSHAVIRE_RFC_3588;
    stated->features = NDUSHAVIRE_NO_FEATURES;
    for (; at + 1 < argc; at += 2) {
        if (strcmp(argv[at], "-e") == 0) stated->peer = edition_of(argv[at + 1], strlen(argv[at + 1]));
        else if (strcmp(argv[at], "-f") != 0) break;
        else if (!features_of(argv[at + 1], &stated->features)) return 0;
    }
    return at;
}

#endif
