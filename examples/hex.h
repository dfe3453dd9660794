/* hex.h: requests as text, and answers as text: hexadecimal digits, blanks between bytes as you like, and comments from # to the line's end. */
#ifndef HEX_H
#define HEX_H

#include <ctype.h>
#include <stdint.h>
#include <stdio.h>
#include <stdlib.h>
#include <string.h>

/* Turns hexadecimal text into bytes, in place, and gives their number. What is no such text ends PROGRAM with status 2. */
static size_t from_hex(const char *program, uint8_t *text, size_t length) {
    static const char digits[] = "0123456789abcdef";
    size_t digit = 0;
    int comment = 0;
    for (size_t i = 0; i < length; i++) {
        const int c = tolower(text[i]);
        comment = c == '#' || (comment && c != '\n');
        if (comment || isspace(c)) continue;
        const char *at = c != 0 ? strchr(digits, c) : NULL;
        if (at == NULL) {
            fprintf(stderr, "%s: a request is hexadecimal digits\n", program);
            exit(2);
        }
        const uint8_t value = (uint8_t)(at - digits);
        text[digit / 2] = (uint8_t)(digit % 2 == 0 ? value << 4 : text[digit / 2] | value);
        digit++;
    }
    if (digit % 2 != 0) {
        fprintf(stderr, "%s: half a byte at the request's end\n", program);
        exit(2);
    }
    return digit / 2;
}

/* Four bytes to a word and eight words to a line. */
static void print_hex(const uint8_t *bytes, size_t length) {
    for (size_t i = 0; i < length; i++) {
        const char *after = i + 1 == length || i % 32 == 31 ? "\n" : i % 4 == 3 ? " " : "";
        printf("%02X%s", bytes[i], after);
    }
}

#endif
