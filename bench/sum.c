/* The least that a table check can do: sum the table's words. Compiled twice, under two names and with two sets of
 * options. Words are read by a copy and ntohl, because compilers make vectors of that and not of shifted bytes. */
#include <arpa/inet.h>
#include <stddef.h>
#include <stdint.h>
#include <string.h>

uint32_t SUM(const uint8_t *table, size_t length);

uint32_t SUM(const uint8_t *table, size_t length) {
    uint32_t sum = 0;
    for (size_t i = 0; i < length / 4; i++) {
        uint32_t word;
        memcpy(&word, table + 4 * i, 4);
        sum += ntohl(word);
    }
    return sum;
}
