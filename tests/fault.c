/* fault: fault.h by itself, in C and in C++. Each request ends where the memory does, with 4 to 64 bytes from the place of its AVP on, so
 * that one byte read behind it is the program's end. What is said of the AVP stands in decide.sh.
 * Exit status: 0 all as it should be, 1 not so; a signal if a byte behind a request or an answer was read. */
#ifndef _GNU_SOURCE
#define _GNU_SOURCE /* MAP_ANONYMOUS; in C++ it is defined already */
#endif
#include <string.h>
#include <sys/mman.h>
#include <unistd.h>

#include "../examples/fault.h"

enum { BEFORE = 36, MOST = 64 };

/* The last bytes before a page that nobody may read. */
static uint8_t *ending(size_t length) {
    const size_t page = (size_t)sysconf(_SC_PAGESIZE);
    uint8_t *pages = (uint8_t *)mmap(NULL, 2 * page, PROT_READ | PROT_WRITE, MAP_PRIVATE | MAP_ANONYMOUS, -1, 0);
    if (pages == (uint8_t *)MAP_FAILED || mprotect(pages + page, page, PROT_NONE) != 0) {
        perror("fault");
        _exit(1);
    }
    return pages + page - length;
}

int main(void) {
    static const uint8_t flags[] = {0x00, 0x40, 0x80, 0xC0}, result[] = {0, 0, 1, 12, 0x40, 0, 0, 12, 0, 0, 0x13, 0x96};
    static const uint32_t lengths[] = {0, 7, 8, 11, 12, 13, 16, 64, 65, 0xFFFFFF};
    uint8_t *answer = ending(20 + sizeof result);
    FILE *to = tmpfile();
    unsigned tried = 0;
    if (to == NULL) {
        perror("fault");
        return 1;
    }
    memcpy(answer + 20, result, sizeof result);
    for (size_t left = 4; left <= MOST; left += 4) {
        uint8_t *request = ending(BEFORE + left);
        for (size_t f = 0; f < sizeof flags; f++)
            for (size_t l = 0; l < sizeof lengths / sizeof lengths[0]; l++) {
                const uint8_t header[8] = {0, 0, 2, 88, flags[f], (uint8_t)(lengths[l] >> 16), (uint8_t)(lengths[l] >> 8), (uint8_t)lengths[l]};
                const char *const said = "B5014 at byte 36: AVP 600";
                char line[80] = "";
                memcpy(request + BEFORE, header, left < 8 ? left : 8);
                rewind(to);
                print_fault(to, answer, 20 + sizeof result, request, BEFORE + left, BEFORE);
                rewind(to);
                if (fgets(line, sizeof line, to) == NULL || strncmp(line, said, strlen(said)) != 0) {
                    fprintf(stderr, "fault: with %lu bytes left: not '%s' but '%s'\n", (unsigned long)left, said, line);
                    return 1;
                }
                tried++;
            }
    }
    printf("fault: %u AVPs at the end of a request, and no byte read behind it\n", tried);
    return 0;
}
