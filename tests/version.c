/* version: which version the library that was linked says it is. Exit status: 0 that of the header, 1 another. */
#include <stdio.h>

#include <ndushavire.h>

int main(void) {
    const uint32_t number = ndushavire_version();
    printf("%lu\n", (unsigned long)number);
    if (number == NDUSHAVIRE_VERSION_NUMBER) return 0;
    fprintf(stderr, "version: the library is %lu, and the header is of %s\n", (unsigned long)number, NDUSHAVIRE_VERSION);
    return 1;
}
