/* log.h: what a daemon says on standard error, and its clock. A peer that sends rubbish sends much of it, so that a second has only so many lines. */
#ifndef LOG_H
#define LOG_H

#include <stddef.h>
#include <stdint.h>
#include <time.h>

enum { LOG_LINE = 400 };

/* The second that it is, of a clock that nobody sets; the loop looks at it once a turn. */
void look_at_clock(void);
time_t now(void);

/* Whether this second has room for a line more. */
int may_say(void);

/* Says a line, and gives whether it was said. */
int say(const char *format, ...);

/* What lasts is said once, and again when it is another: TOLD has room for a line and remembers it; it is emptied when all is well. */
void say_once(char *told, const char *what, const char *why);

/* Says why the daemon cannot start or go on, and ends it with status 1. */
void stop(const char *what, const char *why);

/* A name that a peer sent, as letters that a log can hold. */
void write_name(char *to, size_t room, const uint8_t *name, size_t length);

#endif
