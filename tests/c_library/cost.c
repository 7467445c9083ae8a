/* Makes one call for each symbol of standard input. Its output and limit are 4,096 bytes. The input is that of answers.c. */
#include "kodliwe.h"

#include <stdint.h>
#include <stdio.h>

static char symbol[8 << 20], out[4096];

int main(void) {
    uint32_t len;
    uint64_t limit;
    size_t sum = 0;
    while (fread(&len, sizeof len, 1, stdin) == 1) {
        if (len > sizeof symbol || fread(&limit, sizeof limit, 1, stdin) != 1 || fread(symbol, 1, len, stdin) != len) return 2;
        sum += kodliwe_demangle_limited(symbol, len, out, sizeof out, true, sizeof out);
    }
    printf("%zu\n", sum);
    return 0;
}
