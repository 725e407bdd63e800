// The profile page of a row of an E column as a C program writes it: each line by snprintf.
#include <stdint.h>
#include <stdio.h>
#include <string.h>

// the bytes of a line
enum { LINE = 27 };

// Writes the line of each item, and cuts one that is longer. The page has a byte more than its lines, for the zero
// that snprintf puts behind the last one. The answer is the number of lines that were not cut.
uint64_t snprintf_page(const uint8_t *items, size_t count, size_t row, int decimals, char *page) {
    uint64_t whole = 0;
    for (size_t i = 0; i < count; i++) {
        uint32_t bits;
        float weight;
        memcpy(&bits, items + i * 4, 4);
        bits = __builtin_bswap32(bits);
        memcpy(&weight, &bits, 4);
        char *line = page + i * LINE;
        int n = decimals == 1 ? snprintf(line, LINE + 1, "%8lu %6lu %10.1f\n", row, i, weight)
                              : snprintf(line, LINE + 1, "%8lu %6lu %10.2f\n", row, i, weight);
        whole += n == LINE;
    }
    return whole;
}
