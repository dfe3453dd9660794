/* load.h: a whole file in memory, as the library's callers need it, and what they print seen to its end. */
#ifndef LOAD_H
#define LOAD_H

#include <errno.h>
#include <stdint.h>
#include <stdio.h>
#include <stdlib.h>
#include <string.h>

/* The bytes of a file, for the caller to free; the pointer is non-null for an empty file too, since the library
 * takes no null. Reports on standard error why a file cannot be read, and ends the program with status 2. */
static uint8_t *load(const char *path, size_t *length) {
    size_t room = 65536, used = 0, got = 0;
    uint8_t *bytes = (uint8_t *)malloc(room);
    FILE *file = bytes != NULL ? fopen(path, "rb") : NULL;
    while (file != NULL && (got = fread(bytes + used, 1, room - used, file)) > 0) {
        used += got;
        if (used == room) {
            uint8_t *more = (uint8_t *)realloc(bytes, room *= 2);
            if (more == NULL) break;
            bytes = more;
        }
    }
    if (file == NULL || ferror(file) || !feof(file)) {
        fprintf(stderr, "%s: %s\n", path, strerror(errno));
        exit(2);
    }
    fclose(file);
    *length = used;
    return bytes;
}

/* Ends standard output, and says whether all that was printed got there; reports on standard error if it did not. */
static inline int printed(void) {
    if (!ferror(stdout) && fclose(stdout) == 0) return 1;
    fprintf(stderr, "standard output: %s\n", strerror(errno));
    return 0;
}

#endif
