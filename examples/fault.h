/* fault.h: where it hurts. What the night man wants of a request with an AVP at fault: the result, the byte of the message at which
 * the AVP begins, what its header says, and the bytes around it. Of a card that is out of step:
 *
 *     B5004 at byte 208: AVP 612 vendor 10415 flags 0xc0 length 84
 *         192: 0000025F C0000010 000028AF 00000001
 *         208:[00000264 C0000054 000028AF]00000260
 *         224: C000001C 000028AF 44696765 73742D41
 *
 * The AVP's header stands in brackets, as far as it is there. What stands before it is shown because a length that is wrong there
 * makes the next AVP begin at a wrong place. */
#ifndef FAULT_H
#define FAULT_H

#include <stddef.h>
#include <stdint.h>
#include <stdio.h>

static inline unsigned long four_bytes(const uint8_t *at) {
    return (unsigned long)at[0] << 24 | (unsigned long)at[1] << 16 | (unsigned long)at[2] << 8 | (unsigned long)at[3];
}

/* An AVP's length, without its padding; AT is where the AVP begins. */
static inline unsigned long avp_length(const uint8_t *at) { return four_bytes(at + 4) & 0xFFFFFFu; }

/* The Result-Code (AVP 268) of an answer that the library wrote, or 0 if it has an Experimental-Result instead. */
static inline unsigned long base_result(const uint8_t *answer, size_t length) {
    for (size_t at = 20; at < length; at += (avp_length(answer + at) + 3) / 4 * 4)
        if (four_bytes(answer + at) == 268) return four_bytes(answer + at + 8);
    return 0;
}

/* Prints it: the answer and the place that ndushavire_decide gave, which is not 0, and the request that it was given. All of an AVP's
 * header but its code may be cut off by the request's end. */
static inline void print_fault(FILE *to, const uint8_t *answer, size_t answer_len, const uint8_t *request, size_t request_len, size_t place) {
    const uint8_t *avp = request + place;
    const size_t left = request_len - place;
    const int vendor = left >= 8 && (avp[4] & 0x80) != 0;
    const size_t header = vendor ? 12 : 8;
    fprintf(to, "B%lu at byte %lu: AVP %lu", base_result(answer, answer_len), (unsigned long)place, four_bytes(avp));
    if (vendor && left >= 12) fprintf(to, " vendor %lu", four_bytes(avp + 8));
    if (left >= 8) fprintf(to, " flags 0x%02x length %lu", avp[4], avp_length(avp));
    if (left < header || left < avp_length(avp)) fprintf(to, ", %lu bytes left", (unsigned long)left);
    fputc('\n', to);
    for (size_t line = place - 16; line < request_len && line < place + 32; line += 16) {
        fprintf(to, "%7lu:", (unsigned long)line);
        for (size_t at = line; at < request_len && at < line + 16; at += 4)
            fprintf(to, "%c%08lX", at == place ? '[' : at == place + header ? ']' : ' ', four_bytes(request + at));
        fputs(line == place && left <= header ? "]\n" : "\n", to);
    }
}

#endif
