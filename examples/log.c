/* log.c: see log.h. */
#ifndef _POSIX_C_SOURCE
#define _POSIX_C_SOURCE 200809L
#endif
#include <stdarg.h>
#include <stdio.h>
#include <stdlib.h>
#include <string.h>

#include "log.h"

enum { LOG_LINES = 50 }; /* in a second */

static time_t second_now;

void look_at_clock(void) {
    struct timespec time;
    clock_gettime(CLOCK_MONOTONIC, &time);
    second_now = time.tv_sec;
}

time_t now(void) { return second_now; }

int may_say(void) {
    static time_t second;
    static unsigned long said;
    if (second != second_now) {
        if (said > LOG_LINES) fprintf(stderr, "daemon: %lu more lines were left out\n", said - LOG_LINES);
        second = second_now;
        said = 0;
    }
    return ++said <= LOG_LINES;
}

int say(const char *format, ...) {
    va_list words;
    if (!may_say()) return 0;
    va_start(words, format);
    fputs("daemon: ", stderr);
    vfprintf(stderr, format, words);
    fputc('\n', stderr);
    va_end(words);
    return 1;
}

void say_once(char *told, const char *what, const char *why) {
    char line[LOG_LINE];
    if (snprintf(line, sizeof line, "%s: %s", what, why) < 0) return; /* a line that is longer is cut */
    if (strcmp(line, told) != 0 && say("%s", line)) strcpy(told, line);
}

void stop(const char *what, const char *why) {
    fprintf(stderr, "daemon: %s: %s\n", what, why);
    exit(1);
}

void write_name(char *to, size_t room, const uint8_t *name, size_t length) {
    const size_t used = length < room ? length : room - 1;
    for (size_t i = 0; i < used; i++) to[i] = (char)(name[i] > ' ' && name[i] < 127 ? name[i] : '?');
    to[used] = '\0';
}
