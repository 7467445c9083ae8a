/* Prints the longest time of a call. The output and the limit have 4,096 bytes, and each time is the best of five. The input is
 * that of answers.c. */
#define _GNU_SOURCE
#include "kodliwe.h"

#include <stdint.h>
#include <stdio.h>
#include <time.h>

static char symbol[8 << 20], out[4096];

static double now(void) {
    struct timespec t;
    clock_gettime(CLOCK_MONOTONIC, &t);
    return t.tv_sec * 1e3 + t.tv_nsec / 1e6;
}

int main(void) {
    uint32_t len, calls = 0;
    uint64_t limit;
    double longest = 0;
    while (fread(&len, sizeof len, 1, stdin) == 1) {
        if (len > sizeof symbol || fread(&limit, sizeof limit, 1, stdin) != 1 || fread(symbol, 1, len, stdin) != len) return 2;
        double best = 1e9;
        for (int turn = 0; turn < 5; turn++) {
            double began = now();
            kodliwe_demangle_limited(symbol, len, out, sizeof out, true, sizeof out);
            double took = now() - began;
            if (took < best) best = took;
        }
        calls++;
        if (best > longest) longest = best;
    }
    printf("%u symbols, the longest call %.3f ms\n", calls, longest);
    return 0;
}
