/* requests.h: requests as call servers and a voicemail box send them, about the records of a table. */
#ifndef REQUESTS_H
#define REQUESTS_H

#include <ndushavire.h>
#include <stdint.h>
#include <stdlib.h>
#include <string.h>

enum { CX = 16777216, OF_SH = 16777217, VENDOR = 10415 };
enum { NOT_REGISTERED = 0, REGISTERED = 1 };

typedef struct {
    uint8_t bytes[NDUSHAVIRE_REQUEST_MAX];
    size_t length;
} Request;

typedef struct {
    const void *bytes;
    size_t length;
} Name;

/* A name of a block: where its length stands, and where its bytes begin. */
static inline Name name_at(const uint8_t *block, size_t length_at, size_t at) {
    const Name name = {block + at, block[length_at]};
    return name;
}

static inline Name public_of(const uint8_t *block) { return name_at(block, 13, 16); }
static inline Name private_of(const uint8_t *block) { return name_at(block, 14, 144); }
static inline Name server_of(const uint8_t *block) { return name_at(block, 15, 272); }
static inline Name network_of(const uint8_t *header) { return name_at(header, 144, 145); }

/* The last record in a state, or the last of all if none is. */
static inline const uint8_t *last_in(const uint8_t *table, size_t records, unsigned state) {
    for (size_t k = records; k > 0; k--)
        if (table[k * NDUSHAVIRE_BLOCK + 8] == state) return table + k * NDUSHAVIRE_BLOCK;
    return table + records * NDUSHAVIRE_BLOCK;
}

static inline void spell(uint8_t *to, uint32_t n) {
    for (int i = 0; i < 4; i++) to[i] = (uint8_t)(n >> (24 - 8 * i));
}

static inline void put_number(Request *r, uint32_t n) {
    if (r->length + 4 > sizeof r->bytes) abort();
    spell(r->bytes + r->length, n);
    r->length += 4;
}

static inline void put(Request *r, uint32_t code, uint32_t vendor, Name data) {
    const size_t padded = (data.length + 3) / 4 * 4;
    put_number(r, code);
    put_number(r, (vendor != 0 ? 0xC000000Cu : 0x40000008u) + (uint32_t)data.length);
    if (vendor != 0) put_number(r, vendor);
    if (r->length + padded > sizeof r->bytes) abort();
    memset(r->bytes + r->length, 0, padded);
    memcpy(r->bytes + r->length, data.bytes, data.length);
    r->length += padded;
}

static inline void put_text(Request *r, uint32_t code, const char *text) {
    const Name data = {text, strlen(text)};
    put(r, code, 0, data);
}

static inline void put_word(Request *r, uint32_t code, uint32_t vendor, uint32_t value) {
    uint8_t bytes[4];
    const Name data = {bytes, 4};
    spell(bytes, value);
    put(r, code, vendor, data);
}

/* Supported-Features (628): bits of a vendor's list. Its flags are 0xC0 with M, and 0x80 without. */
static inline void put_features(Request *r, uint32_t flags, uint32_t vendor, uint32_t list, uint32_t bits) {
    put_number(r, 628);
    put_number(r, flags << 24 | 56);
    put_number(r, VENDOR);
    put_word(r, 266, 0, vendor);
    put_word(r, 629, VENDOR, list);
    put_word(r, 630, VENDOR, bits);
}

/* The header, and the AVPs that every request has. */
static inline void begin(Request *r, uint32_t command) {
    r->length = 0;
    put_number(r, 0);
    put_number(r, 0xC0000000u + command);
    put_number(r, CX);
    put_number(r, 1);
    put_number(r, 2);
    put_text(r, 263, "s;1");
    put_text(r, 264, "c");
    put_text(r, 296, "isle");
    put_text(r, 283, "isle");
    put_number(r, 260);
    put_number(r, 0x40000020u);
    put_word(r, 266, 0, VENDOR);
    put_word(r, 258, 0, CX);
    put_word(r, 277, 0, 1);
}

/* Version 1 and the length. */
static inline void end(Request *r) { spell(r->bytes, 0x01000000u + (uint32_t)r->length); }

/* May this line register in the first network? */
static inline void ask_authorization(Request *r, const uint8_t *table, const uint8_t *record) {
    begin(r, 300);
    put(r, 1, 0, private_of(record));
    put(r, 601, VENDOR, public_of(record));
    put(r, 600, VENDOR, network_of(table));
    end(r);
}

/* Where is this line? */
static inline void ask_location(Request *r, const uint8_t *record) {
    begin(r, 302);
    put(r, 601, VENDOR, public_of(record));
    end(r);
}

/* The same, filled up with Route-Records of 12 bytes to at most so many bytes. */
static inline void ask_long_location(Request *r, const uint8_t *record, size_t most) {
    ask_location(r, record);
    while (r->length + 12 <= most) put_text(r, 282, "r.is");
    end(r);
}

/* The same, filled up with Supported-Features that ask for no bit: each is looked at twice, for what it asks and for whether it calls for the own list. */
static inline void ask_with_features(Request *r, const uint8_t *record) {
    ask_location(r, record);
    while (r->length + 56 <= sizeof r->bytes) put_features(r, 0xC0, VENDOR, 1, 0);
    end(r);
}

/* The same, filled up with as many Proxy-Infos, which the answer copies. */
static inline void ask_by_proxies(Request *r, const uint8_t *record) {
    ask_location(r, record);
    while (r->length + 12 <= sizeof r->bytes) put_text(r, 284, "p.is");
    end(r);
}

/* The same, filled up with one Proxy-Info that is at fault by a reserved flag: the answer has it twice, in Failed-AVP and copied, and none is longer. */
static inline void ask_by_faulty_proxy(Request *r, const uint8_t *record) {
    ask_location(r, record);
    const size_t length = sizeof r->bytes - r->length;
    put_number(r, 284);
    put_number(r, 0x41000000u + (uint32_t)length);
    memset(r->bytes + r->length, 0x50, length - 8);
    r->length += length - 8;
    end(r);
}

/* An assignment of a type to so many lines: the record's last, before it lines from all over the table. The server is
 * the record's. */
static inline void ask_assignment(Request *r, const uint8_t *table, size_t records, const uint8_t *record, uint32_t type, size_t lines) {
    begin(r, 301);
    for (size_t i = 1; i < lines; i++) put(r, 601, VENDOR, public_of(table + (1 + i * 7919 % records) * NDUSHAVIRE_BLOCK));
    put(r, 601, VENDOR, public_of(record));
    put(r, 602, VENDOR, server_of(record));
    put_word(r, 614, VENDOR, type);
    put_word(r, 624, VENDOR, 0);
    end(r);
}

/* An assignment of a type to all lines of the record's card: none is named. */
static inline void ask_assignment_of_card(Request *r, const uint8_t *record, uint32_t type) {
    begin(r, 301);
    put(r, 1, 0, private_of(record));
    put(r, 602, VENDOR, server_of(record));
    put_word(r, 614, VENDOR, type);
    put_word(r, 624, VENDOR, 0);
    end(r);
}

/* Vectors for this line: so many, from a server of this name. */
static inline void ask_authentication(Request *r, const uint8_t *record, uint32_t number, const char *server) {
    const Name scheme = {"Digest-AKAv1-MD5", 16}, name = {server, strlen(server)};
    begin(r, 303);
    put(r, 1, 0, private_of(record));
    put(r, 601, VENDOR, public_of(record));
    put_number(r, 612);
    put_number(r, 0xC0000000u + 12 + 28);
    put_number(r, VENDOR);
    put(r, 608, VENDOR, scheme);
    put_word(r, 607, VENDOR, number);
    put(r, 602, VENDOR, name);
    end(r);
}

/* Is this line registered, and with which call server? It is of Sh, whose application stands in the header and in 260. */
static inline void ask_user_data(Request *r, const uint8_t *record) {
    const Name identity = public_of(record);
    begin(r, 306);
    spell(r->bytes + 8, OF_SH);
    spell(r->bytes + r->length - 16, OF_SH); /* behind it stands 277 */
    put_number(r, 700);
    put_number(r, 0xC0000000u + 24 + (uint32_t)(identity.length + 3) / 4 * 4);
    put_number(r, VENDOR);
    put(r, 601, VENDOR, identity);
    put_word(r, 703, VENDOR, 11);
    put_word(r, 703, VENDOR, 12);
    end(r);
}

#endif
