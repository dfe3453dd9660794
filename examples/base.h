/* base.h: as much of Diameter's base protocol as a daemon behind a relay speaks itself: Capabilities-Exchange, Device-Watchdog and
 * Disconnect-Peer, of application 0. They are not for the library, which would answer each with B3001. */
#ifndef BASE_H
#define BASE_H

#include <stddef.h>
#include <stdint.h>
#include <string.h>

#include "fault.h"

enum { HEADER = 20, CAPABILITIES = 257, WATCHDOG = 280, DISCONNECT = 282, PRODUCT_NAME = 269 };
enum { PROXIABLE = 0x40, REQUEST = 0x80 };
enum { SERVER_ASSIGNMENT = 301, MULTIMEDIA_AUTH = 303 };
enum { SUCCESS = 2001, NO_COMMON_APPLICATION = 5010 };
#define CX 16777216u
#define SH 16777217u
#define RELAY 0xFFFFFFFFu /* the application of a relay, which carries all */
#define VENDOR_3GPP 10415u

/* A message's length, by its header. */
static inline size_t message_length(const uint8_t *message) { return four_bytes(message) & 0xFFFFFFu; }

static inline int is_request(const uint8_t *message) { return (message[4] & REQUEST) != 0; }

static inline unsigned long command_of(const uint8_t *message) { return four_bytes(message + 4) & 0xFFFFFFu; }

/* The base protocol's command, or 0 if it is none of the three: then the message is for the library. */
static inline unsigned long base_command(const uint8_t *message) {
    const unsigned long command = command_of(message);
    const int ours = command == CAPABILITIES || command == WATCHDOG || command == DISCONNECT;
    return ours && message[0] == 1 && four_bytes(message + 8) == 0 ? command : 0;
}

/* How many bytes an AVP and its padding take of the LEFT ones, or 0 if there is no whole AVP. */
static inline size_t avp_span(const uint8_t *avp, size_t left) {
    if (left < 8) return 0;
    const size_t length = avp_length(avp), padded = (length + 3) / 4 * 4;
    if (length < (avp[4] & 0x80 ? 12u : 8u) || length > left) return 0;
    return padded < left ? padded : left;
}

/* The first AVP of that code without a vendor, or NULL. */
static inline const uint8_t *find_avp(const uint8_t *avps, size_t length, unsigned long code) {
    size_t span;
    for (size_t at = 0; (span = avp_span(avps + at, length - at)) > 0; at += span)
        if (four_bytes(avps + at) == code && !(avps[at + 4] & 0x80)) return avps + at;
    return NULL;
}

/* The number of an answer's Experimental-Result (297), as the library writes it, or 0 if it has a Result-Code instead. */
static inline unsigned long experimental_result(const uint8_t *answer, size_t length) {
    const uint8_t *group = find_avp(answer + HEADER, length - HEADER, 297);
    return group != NULL ? four_bytes(group + 28) : 0;
}

static inline int is_ours(unsigned long application) { return application == CX || application == SH || application == RELAY; }

/* Whether a row of AVPs names an application of ours, Cx or Sh, or a relay's: in Auth-Application-Id (258), by itself or in
 * Vendor-Specific-Application-Id (260). */
static inline int names_ours(const uint8_t *avps, size_t length) {
    size_t span;
    for (size_t at = 0; (span = avp_span(avps + at, length - at)) > 0; at += span) {
        const unsigned long code = four_bytes(avps + at), size = avp_length(avps + at);
        if (code == 260 && names_ours(avps + at + 8, size - 8)) return 1;
        if (code == 258 && size == 12 && is_ours(four_bytes(avps + at + 8))) return 1;
    }
    return 0;
}

/* ---- writing: each function adds to a message and keeps the length in its header right */

static inline void put_four(uint8_t *to, unsigned long number) {
    for (int i = 0; i < 4; i++) to[i] = (uint8_t)(number >> (24 - 8 * i));
}

static inline void set_length(uint8_t *message, size_t length) { put_four(message, 1ul << 24 | length); }

static inline void put_avp(uint8_t *message, unsigned long code, const void *data, size_t size) {
    uint8_t *avp = message + message_length(message);
    const size_t padded = (size + 3) / 4 * 4;
    const unsigned long flags = code == PRODUCT_NAME ? 0 : 0x40; /* by the standard it is the one without M */
    put_four(avp, code);
    put_four(avp + 4, flags << 24 | (8 + size));
    memset(avp + 8, 0, padded);
    memcpy(avp + 8, data, size);
    set_length(message, message_length(message) + 8 + padded);
}

static inline void put_number(uint8_t *message, unsigned long code, unsigned long number) {
    uint8_t data[4];
    put_four(data, number);
    put_avp(message, code, data, sizeof data);
}

/* A header alone; both identifiers have four bytes each. */
static inline void put_header(uint8_t *message, unsigned flags, unsigned long command, const uint8_t *identifiers) {
    set_length(message, HEADER);
    put_four(message + 4, (unsigned long)flags << 24 | command);
    put_four(message + 8, 0);
    memcpy(message + 12, identifiers, 8);
}

/* Origin-Host and Origin-Realm, which every message of ours has: those of the table's header, as the library has them. */
static inline void put_origin(uint8_t *message, const uint8_t *table) {
    put_avp(message, 264, table + 16, table[13]);
    put_avp(message, 296, table + 80, table[14]);
}

/* What an answer to one of the three begins with: header, Result-Code, origin. */
static inline void put_answer(uint8_t *answer, const uint8_t *request, const uint8_t *table, unsigned long result) {
    put_header(answer, request[4] & PROXIABLE, base_command(request), request + 12);
    put_number(answer, 268, result);
    put_origin(answer, table);
}

/* An application of the vendor's, as Vendor-Specific-Application-Id (260) has it. */
static inline void put_application(uint8_t *answer, unsigned long application) {
    uint8_t members[HEADER + 24] = {0};
    put_header(members, 0, 0, members); /* a message for its AVPs alone */
    put_number(members, 266, VENDOR_3GPP);
    put_number(members, 258, application);
    put_avp(answer, 260, members + HEADER, 24);
}

/* What a CEA has besides: Host-IP-Address (257), of ADDRESS as the AVP has it, Vendor-Id, Product-Name, Supported-Vendor-Id and the
 * two applications. */
static inline void put_capabilities(uint8_t *answer, const uint8_t *address, size_t size) {
    static const char product[] = "ndushavire example daemon";
    put_avp(answer, 257, address, size);
    put_number(answer, 266, VENDOR_3GPP);
    put_avp(answer, PRODUCT_NAME, product, sizeof product - 1);
    put_number(answer, 265, VENDOR_3GPP);
    put_application(answer, CX);
    put_application(answer, SH);
}

#endif
