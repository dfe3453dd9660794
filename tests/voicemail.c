/*
 * The Sh entry by itself, over a table of four lines: every refusal and which goes first, what is told and what is turned away, each with the bytes of its
 * answer and the place of the AVP at fault, and every order in which a request's AVPs can stand behind the Session-Id. Table and profile file are never
 * written to, nor is the buffer past the answer.
 */
#include <stdio.h>

#include "../bench/requests.h"

#include <ndushavire_sh.h>

#define BLOCK NDUSHAVIRE_BLOCK
#define SH NDUSHAVIRE_SH_APPLICATION
#define UDR NDUSHAVIRE_SH_USER_DATA_REQUEST

enum { RECORDS = 4, AREA = (RECORDS + 2) * BLOCK + 100, PROFILE = 64 };

static uint8_t area[AREA], area_before[AREA], profile[PROFILE], profile_before[PROFILE];
static uint8_t answer[NDUSHAVIRE_ANSWER_ROOM + 64], answer_before[sizeof answer];
static const size_t table_length = (RECORDS + 1) * BLOCK;
static unsigned tried, failed;

static void expect(int holds, const char *about, const char *what)
{
    tried++;
    if (!holds) {
        failed++;
        fprintf(stderr, "voicemail: %s: %s\n", about, what);
    }
}

/* ---- the table */

static void seal(uint8_t *block)
{
    uint32_t sum = 0;

    for (size_t at = 0; at < 508; at++)
        sum += (uint32_t)block[at] << (24 - 8 * (at % 4));
    spell(block + 508, 0u - sum);
}

static void put_name_of(uint8_t *block, size_t length_at, size_t at, const char *name)
{
    block[length_at] = (uint8_t)strlen(name);
    memcpy(block + at, name, strlen(name));
}

static void put_line(unsigned number, const char *public_name, const char *private_name, unsigned state, unsigned bits, const char *server)
{
    uint8_t *record = area + number * BLOCK;

    record[0] = 2;
    record[1] = 1;
    record[7] = (uint8_t)number;
    record[8] = (uint8_t)state;
    record[9] = (uint8_t)bits;
    put_name_of(record, 13, 16, public_name);
    put_name_of(record, 14, 144, private_name);
    put_name_of(record, 15, 272, server);
    record[405] = 8; /* of the profile file */
    seal(record);
}

static const char marked_name[] = "sip:a&b<c>d\"e'f\xC3\xA9\t@isle";
static const char marked_text[] = "sip:a&amp;b&lt;c&gt;d&quot;e&apos;f\xC3\xA9\t@isle";
static char longest_name[97], longest_text[6 * 96 + 1]; /* quotes, each of which is sent as six bytes */

/* Alice was never registered; Bob is; Carol is being registered; Dave is barred, and a server is kept for him. Behind them stands rubbish. */
static void make_table(void)
{
    memset(area, 0, sizeof area);
    area[0] = area[1] = 1;
    area[11] = RECORDS;
    put_name_of(area, 13, 16, "hss.isle");
    put_name_of(area, 14, 80, "isle");
    seal(area);
    memset(longest_name, '"', 96);
    for (size_t i = 0; i < 96; i++)
        memcpy(longest_text + 6 * i, "&quot;", 6);
    put_line(1, "sip:alice@isle", "alice@isle", 0, 0, "");
    put_line(2, "sip:bob@isle", "bob@isle", 1, 1, marked_name);
    put_line(3, "sip:carol@isle", "bob@isle", 0, 1, "sip:c");
    put_line(4, "sip:dave@isle", "dave@isle", 2, 2 | 1, longest_name);
    memset(area + table_length, 0xA5, sizeof area - table_length);
    memset(profile, 'p', sizeof profile);
}

/* ---- requests, as rows of parts */

enum { SESSION, GROUP, STATE, HOST, REALM, TO, IDENTITY, REFERENCE, PARTS };

typedef struct {
    uint8_t bytes[1024];
    size_t length;
} Part;

static Part part_of(const Request *r, size_t from)
{
    Part part;

    part.length = r->length - from;
    if (part.length > sizeof part.bytes)
        abort();
    memcpy(part.bytes, r->bytes + from, part.length);
    return part;
}

static void put_part(Request *r, const Part *part)
{
    if (r->length + part->length > sizeof r->bytes)
        abort();
    memcpy(r->bytes + r->length, part->bytes, part->length);
    r->length += part->length;
}

static Part text_part(uint32_t code, uint32_t vendor, const char *text)
{
    const Name name = {text, strlen(text)};
    Request r;

    r.length = 0;
    put(&r, code, vendor, name);
    return part_of(&r, 0);
}

static Part word_part(uint32_t code, uint32_t vendor, uint32_t value)
{
    Request r;

    r.length = 0;
    put_word(&r, code, vendor, value);
    return part_of(&r, 0);
}

/* A group of so many of the parts given. */
static Part group_part(uint32_t code, uint32_t vendor, const Part *members, size_t count)
{
    Request inner, r;
    Name data;

    inner.length = r.length = 0;
    for (size_t i = 0; i < count; i++)
        put_part(&inner, &members[i]);
    data.bytes = inner.bytes;
    data.length = inner.length;
    put(&r, code, vendor, data);
    return part_of(&r, 0);
}

static Part application_part(unsigned vendors, uint32_t application)
{
    Part members[4];
    unsigned count = 0;

    for (; count < vendors; count++)
        members[count] = word_part(266, 0, VENDOR);
    members[count++] = word_part(258, 0, application);
    return group_part(260, 0, members, count);
}

static Part identity_part(const char *identity)
{
    const Part member = text_part(601, VENDOR, identity);

    return group_part(700, VENDOR, &member, 1);
}

/* A request as the voicemail box sends it, about a line: its state alone. */
static void make_parts(Part *parts, const char *identity)
{
    parts[SESSION] = text_part(263, 0, "vm.isle;1;2");
    parts[GROUP] = application_part(1, SH);
    parts[STATE] = word_part(277, 0, 1);
    parts[HOST] = text_part(264, 0, "vm.isle");
    parts[REALM] = text_part(296, 0, "isle");
    parts[TO] = text_part(283, 0, "isle");
    parts[IDENTITY] = identity_part(identity);
    parts[REFERENCE] = word_part(703, VENDOR, 11);
}

static void make_header(Request *r, uint32_t command, uint32_t application)
{
    r->length = 0;
    put_number(r, 0);
    put_number(r, 0xC0000000u + command);
    put_number(r, application);
    put_number(r, 0x01020304u);
    put_number(r, 0x05060708u);
}

static Request request_of(const Part *parts, size_t count)
{
    Request r;

    make_header(&r, UDR, SH);
    for (size_t i = 0; i < count; i++)
        put_part(&r, &parts[i]);
    end(&r);
    return r;
}

static Request ask(const char *identity)
{
    Part parts[PARTS];

    make_parts(parts, identity);
    return request_of(parts, PARTS);
}

static void add(Request *r, Part part)
{
    put_part(r, &part);
    end(r);
}

/* ---- answers */

static uint64_t decide(const Request *r, size_t area_len, uint32_t peer)
{
    return ndushavire_sh_decide(r->bytes, r->length, area, area_len, profile, sizeof profile, answer, NDUSHAVIRE_ANSWER_ROOM, peer);
}

static void keep(void)
{
    for (size_t at = 0; at < sizeof answer; at++)
        answer[at] = (uint8_t)(at * 7 + 3);
    memcpy(area_before, area, sizeof area);
    memcpy(profile_before, profile, sizeof profile);
    memcpy(answer_before, answer, sizeof answer);
}

static int kept_from(size_t at)
{
    return memcmp(area_before, area, sizeof area) == 0 && memcmp(profile_before, profile, sizeof profile) == 0 &&
           memcmp(answer_before + at, answer + at, sizeof answer - at) == 0;
}

/* What an answer should be: a result, B or X; the document, if there is one; what Failed-AVP holds, if there is one. */
typedef struct {
    char kind;
    uint32_t number;
    size_t place;
    const char *document;
    const Part *failed;
    int session; /* whether the Session-Id is copied */
    const Part *proxies[2];
} Expected;

static void put_expected(Request *to, const Request *r, const Expected *e)
{
    const Part session = text_part(263, 0, "vm.isle;1;2"), group = application_part(1, SH);
    Part members[2];

    to->length = 0;
    put_number(to, 0);
    memcpy(to->bytes + to->length, r->bytes + 4, 16);
    to->bytes[to->length] = e->number / 1000 == 3 && e->kind == 'B' ? 0x60 : 0x40;
    to->length += 16;
    if (e->session)
        put_part(to, &session);
    put_part(to, &group);
    members[0] = word_part(266, 0, VENDOR);
    members[1] = word_part(298, 0, e->number);
    if (e->kind == 'B')
        put_word(to, 268, 0, e->number);
    else
        members[0] = group_part(297, 0, members, 2), put_part(to, &members[0]);
    put_word(to, 277, 0, 1);
    put_text(to, 264, "hss.isle");
    put_text(to, 296, "isle");
    if (e->document != NULL) {
        const Name document = {e->document, strlen(e->document)};
        put(to, 702, VENDOR, document);
    }
    if (e->failed != NULL) {
        members[0] = group_part(279, 0, e->failed, 1);
        put_part(to, &members[0]);
    }
    for (size_t i = 0; i < 2 && e->proxies[i] != NULL; i++)
        put_part(to, e->proxies[i]);
    end(to);
}

static void brings(const char *about, const Request *r, Expected e)
{
    static const uint32_t peers[] = {NDUSHAVIRE_RFC_3588, NDUSHAVIRE_RFC_6733};
    static const size_t lengths[] = {(RECORDS + 1) * BLOCK, AREA - 100, AREA};
    Request wanted;

    put_expected(&wanted, r, &e);
    for (size_t p = 0; p < 2; p++)
        for (size_t l = 0; l < sizeof lengths / sizeof lengths[0]; l++) {
            keep();
            const uint64_t word = decide(r, lengths[l], peers[p]);
            expect(ndushavire_answered(word) && ndushavire_place(word) == e.place && ndushavire_value(word) == wanted.length, about, "another word");
            expect(memcmp(answer, wanted.bytes, wanted.length) == 0, about, "another answer");
            expect(kept_from(wanted.length), about, "something was written that may not be");
        }
}

static const char *document_of(const char *name, const char *state)
{
    static char document[1024];

    snprintf(document, sizeof document, "<?xml version=\"1.0\" encoding=\"UTF-8\"?><Sh-Data><Sh-IMS-Data>%s%s%s%s%s%s</Sh-IMS-Data></Sh-Data>",
             name != NULL ? "<SCSCFName>" : "", name != NULL ? name : "", name != NULL ? "</SCSCFName>" : "", state != NULL ? "<IMSUserState>" : "",
             state != NULL ? state : "", state != NULL ? "</IMSUserState>" : "");
    return document;
}

static void tells(const char *about, const Request *r, const char *name, const char *state)
{
    const Expected e = {'B', 2001, 0, document_of(name, state), NULL, 1, {NULL, NULL}};

    brings(about, r, e);
}

static void result(const char *about, const Request *r, char kind, uint32_t number)
{
    const Expected e = {kind, number, 0, NULL, NULL, 1, {NULL, NULL}};

    brings(about, r, e);
}

/* A fault of the AVP at a place, which Failed-AVP holds as it is given. */
static void fault(const char *about, const Request *r, uint32_t number, size_t place, const Part *given)
{
    const Expected e = {'B', number, place, NULL, given, 1, {NULL, NULL}};

    brings(about, r, e);
}

/* ---- the trials */

static void lines(void)
{
    static const struct {
        const char *identity, *name, *state;
    } of[] = {{"sip:alice@isle", NULL, "0"}, {"sip:bob@isle", marked_text, "1"}, {"sip:carol@isle", "sip:c", "3"}, {"sip:dave@isle", longest_text, "2"}};

    for (size_t i = 0; i < sizeof of / sizeof of[0]; i++) {
        Part parts[PARTS];
        make_parts(parts, of[i].identity);
        Request r = request_of(parts, PARTS);
        tells("the state", &r, NULL, of[i].state);
        add(&r, word_part(703, VENDOR, 11));
        tells("the state twice", &r, NULL, of[i].state);
        add(&r, word_part(703, VENDOR, 12));
        tells("both", &r, of[i].name, of[i].state);
        parts[REFERENCE] = word_part(703, VENDOR, 12);
        r = request_of(parts, PARTS);
        tells("the name", &r, of[i].name, NULL);
        add(&r, word_part(703, VENDOR, 11));
        tells("both, the name asked first", &r, of[i].name, of[i].state);
        add(&r, word_part(703, VENDOR, 13));
        result("a third reference", &r, 'X', 5100);
    }
}

static void decisions(void)
{
    static const uint32_t others[] = {0, 1, 10, 13, 14, 17, 256 + 11, 0x0B000000u, 0xFFFFFFFFu};
    Part parts[PARTS];
    Request r;

    for (size_t i = 0; i < sizeof others / sizeof others[0]; i++) {
        make_parts(parts, "sip:bob@isle");
        parts[REFERENCE] = word_part(703, VENDOR, others[i]);
        r = request_of(parts, PARTS);
        result("another reference", &r, 'X', 5100);
        parts[IDENTITY] = identity_part("sip:nobody@isle");
        r = request_of(parts, PARTS);
        result("another reference of an unknown line", &r, 'X', 5001);
    }
    static const char *const unknown[] = {"", "sip:bob@isl", "sip:bob@islee", "sip:BOB@isle", "bob@isle", "sip:zoe@isle", "sip:a"};
    for (size_t i = 0; i < sizeof unknown / sizeof unknown[0]; i++) {
        r = ask(unknown[i]);
        result("an unknown line", &r, 'X', 5001);
    }
}

/* Parts 1 to LAST in every order: they are swapped in place. */
static void orders(Part *parts, size_t from, size_t last)
{
    if (from == last) {
        const Request r = request_of(parts, PARTS);
        static uint8_t first[NDUSHAVIRE_ANSWER_ROOM];
        static uint64_t first_word;
        const uint64_t word = decide(&r, table_length, NDUSHAVIRE_RFC_6733);
        if (first_word == 0) {
            first_word = word;
            memcpy(first, answer, ndushavire_value(word));
        }
        expect(word == first_word && memcmp(first, answer, ndushavire_value(word)) == 0, "an order of the AVPs", "another answer");
        return;
    }
    for (size_t i = from; i <= last; i++) {
        Part other = parts[from];
        parts[from] = parts[i];
        parts[i] = other;
        orders(parts, from + 1, last);
        other = parts[from];
        parts[from] = parts[i];
        parts[i] = other;
    }
}

static void headers(void)
{
    static const struct {
        const char *about;
        size_t at;
        uint8_t byte;
        uint32_t result;
    } of[] = {{"version 2", 0, 2, 5011},     {"the E bit", 4, 0xE0, 3008},            {"command 50", 6, 0, 3001},
              {"command 304", 7, 48, 3001}, {"application 16777216", 11, 0, 3007}, {"application 1", 8, 0, 3007}};

    for (size_t i = 0; i < sizeof of / sizeof of[0]; i++) {
        Request r = ask("sip:bob@isle");
        r.bytes[of[i].at] = of[i].byte;
        result(of[i].about, &r, 'B', of[i].result);
    }
    for (unsigned set = 1; set < 16; set++) { /* several at once: the first in the order is told */
        Request r = ask("sip:bob@isle");
        if (set & 1)
            r.bytes[0] = 0;
        if (set & 2)
            r.bytes[4] |= 0x20;
        if (set & 4)
            r.bytes[7] = 47; /* 303 */
        if (set & 8)
            r.bytes[11] = 0;
        result("several faults of the header", &r, 'B', set & 1 ? 5011 : set & 2 ? 3008 : set & 4 ? 3001 : 3007);
    }
    for (uint32_t command = 300; command < 313; command++) {
        Request r = ask("sip:bob@isle");
        spell(r.bytes + 4, 0xC0000000u + command);
        if (command != UDR)
            result("another command", &r, 'B', 3001);
    }
}

static void readings(void)
{
    Part parts[PARTS];
    Request r;
    size_t place;

    /* What is missing, in this order: an example of it. */
    static const struct {
        size_t part;
        uint32_t code, vendor;
        int has_word;
    } needed[] = {{GROUP, 260, 0, 0}, {STATE, 277, 0, 1},         {HOST, 264, 0, 0},           {REALM, 296, 0, 0},
                  {TO, 283, 0, 0},    {IDENTITY, 700, VENDOR, 0}, {REFERENCE, 703, VENDOR, 1}};
    for (size_t i = 0; i < sizeof needed / sizeof needed[0]; i++) {
        make_parts(parts, "sip:bob@isle");
        const Part example = needed[i].has_word ? word_part(needed[i].code, needed[i].vendor, 0) : text_part(needed[i].code, needed[i].vendor, "");
        for (size_t k = i; k < sizeof needed / sizeof needed[0]; k++) {
            parts[needed[k].part].length = 0; /* from here on, all those behind it too */
            r = request_of(parts, PARTS);
            fault("something is missing", &r, 5005, 0, &example);
        }
    }
    make_parts(parts, "sip:bob@isle");
    r = request_of(parts + 1, PARTS - 1);
    const Part session = text_part(263, 0, "");
    const Expected no_session = {'B', 5005, 0, NULL, &session, 0, {NULL, NULL}};
    brings("no Session-Id", &r, no_session);

    /* What is unknown here: with M it is a fault, without M it is skipped; what is known and not named, or repeats, is skipped. */
    static const uint32_t unknown[] = {600, 601, 602, 606, 607, 612, 614, 623, 624, 629, 630, 701, 702, 704, 705, 708};
    for (size_t i = 0; i < sizeof unknown / sizeof unknown[0]; i++) {
        Part more = text_part(unknown[i], VENDOR, "sip:bob@isle");
        r = ask("sip:bob@isle");
        place = r.length;
        add(&r, more);
        fault("an unknown kind with M", &r, 5001, place, &more);
        more.bytes[4] = 0x80;
        r = ask("sip:bob@isle");
        add(&r, more);
        tells("an unknown kind without M", &r, NULL, "1");
    }
    static const uint32_t plain[] = {700, 703, 628, 258, 266, 278};
    for (size_t i = 0; i < sizeof plain / sizeof plain[0]; i++) {
        const Part more = word_part(plain[i], 0, 11);
        r = ask("sip:bob@isle");
        place = r.length;
        add(&r, more);
        fault("an unknown kind of vendor 0", &r, 5001, place, &more);
    }
    r = ask("sip:bob@isle");
    put_features(&r, 0xC0, 13019, 2, 0xFFFFFFFFu);
    add(&r, text_part(628, VENDOR, "rubbish"));
    add(&r, text_part(282, 0, "relay1"));
    add(&r, text_part(282, 0, "relay2"));
    add(&r, text_part(293, 0, "hss.isle"));
    add(&r, text_part(1, 0, "somebody else"));
    tells("features, routes, another User-Name", &r, NULL, "1");
    const Part again[] = {text_part(1, 0, "bob@isle"), text_part(293, 0, "hss.isle")};
    for (size_t i = 0; i < 2; i++) {
        Request more = r;
        add(&more, again[i]);
        fault("a second User-Name or Destination-Host", &more, 5009, r.length, &again[i]);
    }
    for (size_t i = SESSION; i < REFERENCE; i++) {
        make_parts(parts, "sip:bob@isle");
        r = request_of(parts, PARTS);
        place = r.length;
        add(&r, parts[i]);
        fault("an AVP twice", &r, 5009, place, &parts[i]);
    }

    /* Reserved flags, of what is known and of what is not; lengths that are too short, go past the end, or have no room for the header. */
    static const uint32_t flagged[] = {282, 703, 999};
    for (size_t i = 0; i < 3; i++)
        for (unsigned bit = 1; bit < 32; bit *= 2) {
            Part more = word_part(flagged[i], flagged[i] == 703 ? VENDOR : 0, 11);
            more.bytes[4] = (uint8_t)((more.bytes[4] & 0x80) | bit);
            r = ask("sip:bob@isle");
            place = r.length;
            add(&r, more);
            fault("a reserved flag", &r, 3009, place, &more);
        }
    static const struct {
        uint32_t code, word, kept;
        size_t length;
    } cut[] = {{282, 0x40000007u, 8, 8},    {282, 0x4000000Du, 8, 12}, {703, 0xC000000Bu, 12, 12},
               {703, 0xC0000011u, 12, 16}, {703, 0xC0000010u, 0, 8},  {282, 0, 0, 4}};
    for (size_t i = 0; i < sizeof cut / sizeof cut[0]; i++) {
        Part more = word_part(cut[i].code, cut[i].code == 703 ? VENDOR : 0, 11), header;
        spell(more.bytes + 4, cut[i].word);
        more.length = cut[i].length;
        header = more;
        header.length = cut[i].kept;
        header.bytes[7] = (uint8_t)cut[i].kept; /* a header alone, or nothing of one that is cut off */
        r = ask("sip:bob@isle");
        place = r.length;
        add(&r, more);
        fault("a wrong length", &r, 5014, place, &header);
    }

    /* Proxy-Infos go back, last and with zero padding, from a request that is told and from one with a fault. */
    const Part proxies[] = {text_part(284, 0, "p1.isle"), text_part(284, 0, "another")};
    const Part public_part = text_part(601, VENDOR, "sip:bob@isle");
    r = ask("sip:bob@isle");
    add(&r, proxies[0]);
    r.bytes[r.length - 1] = 0xFF; /* padding */
    place = r.length;
    Request faulty = r;
    add(&r, proxies[1]);
    const Expected told = {'B', 2001, 0, document_of(NULL, "1"), NULL, 1, {&proxies[0], &proxies[1]}};
    brings("proxies", &r, told);
    add(&faulty, public_part);
    add(&faulty, proxies[1]);
    const Expected turned_away = {'B', 5001, place, NULL, &public_part, 1, {&proxies[0], &proxies[1]}};
    brings("proxies around a fault", &faulty, turned_away);

    /* Data-Reference has 4 bytes; Auth-Session-State is 1; the group is Sh's. */
    static const char *const lengths[] = {"", "abc", "abcde", "abcdefgh"};
    for (size_t i = 0; i < sizeof lengths / sizeof lengths[0]; i++) {
        const Part header = text_part(703, VENDOR, "");
        r = ask("sip:bob@isle");
        place = r.length;
        add(&r, text_part(703, VENDOR, lengths[i]));
        fault("a reference of another length", &r, 5014, place, &header);
    }
    make_parts(parts, "sip:bob@isle");
    place = 20 + parts[SESSION].length;
    parts[GROUP] = application_part(1, CX);
    r = request_of(parts, PARTS);
    fault("the group of Cx", &r, 5004, place, &parts[GROUP]);
    parts[GROUP] = application_part(0, SH);
    r = request_of(parts, PARTS);
    fault("a group without a vendor", &r, 5004, place, &parts[GROUP]);
    make_parts(parts, "sip:bob@isle");
    place += parts[GROUP].length;
    parts[STATE] = word_part(277, 0, 0);
    r = request_of(parts, PARTS);
    fault("a state that is maintained", &r, 5004, place, &parts[STATE]);
}

/* User-Identity: one Public-Identity and nothing else, its padding whole or cut. */
static void identities(void)
{
    const Part public_part = text_part(601, VENDOR, "sip:bob@isle"), odd = text_part(601, VENDOR, "sip:dave@isle");
    Part parts[PARTS], members[3];
    Request r;
    size_t place = 20;

    make_parts(parts, "sip:bob@isle");
    for (size_t i = SESSION; i < IDENTITY; i++)
        place += parts[i].length;
    static const struct {
        const char *about;
        uint32_t code, vendor;
    } others[] = {
        {"a telephone number", 701, VENDOR}, {"an identity of vendor 0", 601, 0}, {"an identity of another vendor", 601, 13019}, {"a User-Name", 1, 0}};
    for (size_t i = 0; i < sizeof others / sizeof others[0]; i++) {
        members[0] = text_part(others[i].code, others[i].vendor, "sip:bob@isle");
        members[1] = public_part;
        parts[IDENTITY] = group_part(700, VENDOR, members, 1);
        r = request_of(parts, PARTS);
        fault(others[i].about, &r, 5004, place, &parts[IDENTITY]);
        parts[IDENTITY] = group_part(700, VENDOR, members, 2);
        r = request_of(parts, PARTS);
        fault("and an identity behind it", &r, 5004, place, &parts[IDENTITY]);
        members[2] = members[0];
        parts[IDENTITY] = group_part(700, VENDOR, members + 1, 2);
        r = request_of(parts, PARTS);
        fault("and before it", &r, 5004, place, &parts[IDENTITY]);
    }
    parts[IDENTITY] = group_part(700, VENDOR, members, 0);
    r = request_of(parts, PARTS);
    fault("an empty User-Identity", &r, 5004, place, &parts[IDENTITY]);
    members[0] = public_part;
    parts[IDENTITY] = group_part(700, VENDOR, members, 2);
    r = request_of(parts, PARTS);
    fault("one identity twice", &r, 5004, place, &parts[IDENTITY]);
    for (unsigned bit = 1; bit < 32; bit *= 2) {
        members[0] = public_part;
        members[0].bytes[4] |= (uint8_t)bit;
        parts[IDENTITY] = group_part(700, VENDOR, members, 1);
        r = request_of(parts, PARTS);
        fault("a reserved flag within", &r, 5004, place, &parts[IDENTITY]);
    }
    static const uint8_t free_flags[] = {0x80, 0xA0, 0xC0, 0xE0};
    for (size_t i = 0; i < sizeof free_flags; i++) {
        members[0] = public_part;
        members[0].bytes[4] = free_flags[i];
        parts[IDENTITY] = group_part(700, VENDOR, members, 1);
        r = request_of(parts, PARTS);
        tells("M and P within", &r, NULL, "1");
    }
    /* An identity of 13 bytes: the group has room for 0 to 3 bytes of its padding, and for no more. The padding may be any bytes. */
    for (size_t more = 0; more < 8; more++) {
        Name data;
        data.bytes = odd.bytes;
        data.length = 12 + 13 + more;
        Request group;
        group.length = 0;
        put(&group, 700, VENDOR, data);
        parts[IDENTITY] = part_of(&group, 0);
        memset(parts[IDENTITY].bytes + 12 + 12 + 13, 0, parts[IDENTITY].length - 37);
        if (more > 0 && more < 4)
            memset(parts[IDENTITY].bytes + 12 + 12 + 13, 0x5A, more);
        r = request_of(parts, PARTS);
        if (more < 4)
            tells("padding whole or cut", &r, NULL, "2");
        else
            fault("more than padding", &r, 5004, place, &parts[IDENTITY]);
    }
}

/* Each set of things that are wrong with a call: the first in the order is told, and nothing is written. */
static void refusals(void)
{
    for (unsigned set = 0; set < 64; set++) {
        const int peer = set & 1, buffer = set & 2, size = set & 4, length = set & 8, answers = set & 16, table = set & 32;
        Request r = ask("sip:bob@isle");
        const size_t given = size ? NDUSHAVIRE_REQUEST_MIN - 1 : r.length;
        if (length)
            r.bytes[3] ^= 4;
        if (answers)
            r.bytes[4] &= 0x7F;
        area[3 * BLOCK + 100] ^= (uint8_t)(table ? 1 : 0);
        keep();
        const uint64_t word = ndushavire_sh_decide(r.bytes, given, area, sizeof area, profile, sizeof profile, answer,
                                                   buffer ? NDUSHAVIRE_ANSWER_ROOM - 1 : NDUSHAVIRE_ANSWER_ROOM, peer ? 6734 : 6733);
        const uint64_t wanted = peer ? 12 : buffer ? 1 : size ? 2 : length ? 3 : answers ? 4 : 5;
        if (set == 0)
            expect(ndushavire_answered(word), "a call with nothing wrong", "it is refused");
        else
            expect(word == (wanted << 48 | (wanted == 5 ? 3 : 0)) && kept_from(0), "what is wrong with a call", "another refusal, or something was written");
        area[3 * BLOCK + 100] ^= (uint8_t)(table ? 1 : 0);
    }
}

static void refused(const char *about, const Request *r, size_t length, size_t area_len, size_t profile_len, uint32_t peer, uint64_t wanted)
{
    keep();
    expect(ndushavire_sh_decide(r->bytes, length, area, area_len, profile, profile_len, answer, NDUSHAVIRE_ANSWER_ROOM, peer) == wanted && kept_from(0), about,
           "another word, or something was written");
}

static void limits(void)
{
    static const uint32_t peers[] = {0, 1, 3587, 3589, 6732, 6734, 3588u + 65536u, 0xFFFFFFFFu};
    Request r = ask("sip:bob@isle");

    for (size_t i = 0; i < sizeof peers / sizeof peers[0]; i++)
        refused("a peer of neither edition", &r, r.length, sizeof area, sizeof profile, peers[i], (uint64_t)12 << 48);
    refused("no byte", &r, 0, sizeof area, sizeof profile, 3588, (uint64_t)2 << 48);
    refused("a table cut short", &r, r.length, table_length - 1, sizeof profile, 3588, (uint64_t)5 << 48);
    refused("no table", &r, r.length, 0, sizeof profile, 3588, (uint64_t)5 << 48);
    refused("a profile file of 7 bytes", &r, r.length, sizeof area, 7, 3588, (uint64_t)5 << 48 | 1);
    keep();
    expect(ndushavire_answered(ndushavire_sh_decide(r.bytes, r.length, area, sizeof area, profile, 8, answer, NDUSHAVIRE_ANSWER_ROOM, 3588)) &&
               memcmp(area, area_before, sizeof area) == 0,
           "a profile file of 8 bytes", "it is refused");
    /* The longest request: a Route-Record fills it up. One that is 4 bytes longer is refused, whatever it holds. */
    static uint8_t longest[NDUSHAVIRE_REQUEST_MAX + 4];
    memset(longest, 'x', sizeof longest);
    memcpy(longest, r.bytes, r.length);
    spell(longest + r.length, 282);
    spell(longest + r.length + 4, 0x40000000u | (uint32_t)(NDUSHAVIRE_REQUEST_MAX - r.length));
    spell(longest, 0x01000000u | NDUSHAVIRE_REQUEST_MAX);
    keep();
    uint64_t word = ndushavire_sh_decide(longest, sizeof longest - 4, area, sizeof area, profile, sizeof profile, answer, NDUSHAVIRE_ANSWER_ROOM, 3588);
    expect(ndushavire_answered(word), "the longest request", "it is refused");
    spell(longest, 0x01000000u | (NDUSHAVIRE_REQUEST_MAX + 4));
    word = ndushavire_sh_decide(longest, sizeof longest, area, sizeof area, profile, sizeof profile, answer, NDUSHAVIRE_ANSWER_ROOM, 3588);
    expect(word == (uint64_t)2 << 48, "a request that is too long", "it is not refused by 2");
    /* By RFC 6733 a second Vendor-Id is a fault, and by RFC 3588 it is none. */
    Part parts[PARTS];
    make_parts(parts, "sip:bob@isle");
    parts[GROUP] = application_part(2, SH);
    r = request_of(parts, PARTS);
    const uint64_t older = decide(&r, sizeof area, NDUSHAVIRE_RFC_3588), newer = decide(&r, sizeof area, NDUSHAVIRE_RFC_6733);
    expect(ndushavire_answered(older) && ndushavire_place(older) == 0, "a second Vendor-Id by RFC 3588", "it is a fault");
    expect(ndushavire_answered(newer) && ndushavire_place(newer) == 20 + parts[SESSION].length, "a second Vendor-Id by RFC 6733", "it is none");
}

int main(void)
{
    Part parts[PARTS];

    make_table();
    if (ndushavire_check(area, sizeof area, profile, sizeof profile) != RECORDS) {
        fprintf(stderr, "voicemail: the table is not sound\n");
        return 1;
    }
    lines();
    decisions();
    make_parts(parts, "sip:bob@isle");
    orders(parts, 1, PARTS - 1);
    headers();
    readings();
    identities();
    refusals();
    limits();
    if (failed == 0)
        printf("voicemail: %u trials of the Sh entry, each as it should be\n", tried);
    return failed != 0;
}
