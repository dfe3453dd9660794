/* peers.h: which edition of the base standard a peer follows, RFC 3588 or RFC 6733, as a program is told it by its option -e.
 * Who is not told takes RFC 3588, which allows all that RFC 6733 allows: nobody is turned away for what was not stated. */
#ifndef PEERS_H
#define PEERS_H

#include <stddef.h>
#include <stdint.h>
#include <string.h>
#include <strings.h>

#include <ndushavire.h>

/* An edition by its digits: its number, or 0, which no call takes. */
static inline uint32_t edition_of(const char *digits, size_t length) {
    if (length == 4 && memcmp(digits, "3588", 4) == 0) return NDUSHAVIRE_RFC_3588;
    if (length == 4 && memcmp(digits, "6733", 4) == 0) return NDUSHAVIRE_RFC_6733;
    return 0;
}

/* What a daemon is told of its peers: EDITION, which is for all, or EDITION=HOST, which is for the one with that Origin-Host. */
static inline const char *host_in(const char *statement) {
    const char *equals = strchr(statement, '=');
    return equals != NULL ? equals + 1 : NULL;
}

static inline uint32_t edition_in(const char *statement) { return edition_of(statement, strcspn(statement, "=")); }

static inline int is_statement(const char *statement) {
    const char *host = host_in(statement);
    return edition_in(statement) != 0 && (host == NULL || *host != '\0');
}

/* The edition that a peer follows, by the Origin-Host of its CER. What is stated of it goes before what is stated of all, and the last
 * word on either counts. Names of hosts are the same in upper and lower case. */
static inline uint32_t edition_followed(char *const *statements, size_t count, const uint8_t *name, size_t length) {
    uint32_t of_all = NDUSHAVIRE_RFC_3588, of_peer = 0;
    for (size_t i = 0; i < count; i++) {
        const char *host = host_in(statements[i]);
        if (host == NULL) of_all = edition_in(statements[i]);
        else if (strlen(host) == length && strncasecmp(host, (const char *)name, length) == 0) of_peer = edition_in(statements[i]);
    }
    return of_peer != 0 ? of_peer : of_all;
}

#endif
