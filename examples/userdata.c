/* userdata [-e EDITION] TABLE PROFILE REQUEST: answers one User-Data-Request of the Sh interface, and shows the answer, the document that it carries, and
 * where it hurts if an AVP of the request is at fault. EDITION is that of the base standard which the peer follows, 3588 unless it is given, or 6733; every
 * other is refused by 12. REQUEST is text, as for decide: hexadecimal digits, blanks between bytes as you like, and comments from # to the line's end.
 * Of the document, bytes outside of 32 to 126 are shown as \x and two digits. Nothing is altered, so a daemon stores nothing behind such a call.
 * Exit status: 0 answered, 1 refused, 2 a file cannot be read, standard output cannot be written, or the arguments are others. */
#include <ndushavire_sh.h>

#include "fault.h"
#include "hex.h"
#include "load.h"
#include "peers.h"

enum { USER_DATA = 702 };

/* The document in an answer that the library wrote, or NULL; its length. */
static const uint8_t *document_in(const uint8_t *answer, size_t answer_len, size_t *length) {
    for (size_t at = 20; at < answer_len; at += (avp_length(answer + at) + 3) / 4 * 4) {
        if (four_bytes(answer + at) != USER_DATA || !(answer[at + 4] & 0x80)) continue;
        *length = avp_length(answer + at) - 12;
        return answer + at + 12;
    }
    return NULL;
}

static void print_document(const uint8_t *answer, size_t answer_len) {
    size_t length = 0;
    const uint8_t *document = document_in(answer, answer_len, &length);
    if (document == NULL) return;
    for (size_t i = 0; i < length; i++)
        if (document[i] >= 32 && document[i] <= 126) putchar(document[i]);
        else printf("\\x%02X", document[i]);
    putchar('\n');
}

int main(int argc, char **argv) {
    uint32_t peer = NDUSHAVIRE_RFC_3588;
    int first = 1;
    for (; first + 1 < argc && strcmp(argv[first], "-e") == 0; first += 2) peer = edition_of(argv[first + 1], strlen(argv[first + 1]));
    if (argc - first != 3) {
        fprintf(stderr, "usage: userdata [-e EDITION] TABLE PROFILE REQUEST\n");
        return 2;
    }
    size_t table_len, profile_len, request_len;
    uint8_t *table = load(argv[first], &table_len);
    uint8_t *profile = load(argv[first + 1], &profile_len);
    uint8_t *request = load(argv[first + 2], &request_len);
    static uint8_t answer[NDUSHAVIRE_ANSWER_ROOM];
    request_len = from_hex("userdata", request, request_len);

    const uint64_t word = ndushavire_sh_decide(request, request_len, table, table_len, profile, profile_len, answer, sizeof answer, peer);
    const unsigned long value = ndushavire_value(word);
    if (ndushavire_answered(word)) {
        printf("answered, %lu bytes\n", value);
        print_hex(answer, value);
        print_document(answer, value);
        if (ndushavire_place(word) != 0) print_fault(stdout, answer, value, request, request_len, ndushavire_place(word));
    } else if (ndushavire_number(word) == NDUSHAVIRE_TABLE_UNSOUND) {
        printf("refused 5, block %lu is bad\n", value);
    } else {
        printf("refused %lu\n", (unsigned long)ndushavire_number(word));
    }

    free(table);
    free(profile);
    free(request);
    if (!printed()) return 2;
    return ndushavire_answered(word) ? 0 : 1;
}
