/* Makes one call for each run of each text of standard input: hostile CALL < RECORDS. A record is 4 bytes of a text's length and the
   text. It prints the number of bytes of each output. `measured` makes the calls, so that callgrind can count them alone. */
#include "kodliwe.h"

#include <ctype.h>
#include <stdint.h>
#include <stdio.h>
#include <stdlib.h>
#include <string.h>

#define LIMIT 1000000

static char text[16 << 20], out[64 << 20];

static size_t is_symbol(const char *run, size_t len) { return kodliwe_is_symbol(run, len); }

static size_t path_len(const char *run, size_t len) { return kodliwe_path_len(run, len); }

static size_t demangle(const char *run, size_t len) { return kodliwe_demangle(run, len, out, sizeof out, true); }

static size_t symbol_len(const char *run, size_t len) { return kodliwe_symbol_len(run, len); }

static size_t limited(const char *run, size_t len) { return kodliwe_demangle_limited(run, len, out, sizeof out, true, LIMIT); }

static size_t part(const char *run, size_t len) { return kodliwe_demangle_part(run, len, out, sizeof out, true, LIMIT, 0); }

static size_t print_part(const char *run, size_t len) {
    size_t path = kodliwe_path_len(run, len);
    return path == 0 ? 0 : kodliwe_print_part(run, len, path, out, sizeof out, true, LIMIT, 0);
}

static size_t folded(const char *run, size_t len) { return kodliwe_demangle_folded(run, len, out, sizeof out, true, LIMIT); }

static size_t whole(const char *all, size_t len) { return kodliwe_demangle_text(all, len, out, sizeof out, true, LIMIT); }

static size_t whole_folded(const char *all, size_t len) { return kodliwe_demangle_text_folded(all, len, out, sizeof out, true, LIMIT); }

static size_t linear(const char *all, size_t len) {
    return kodliwe_demangle_text(all, len, out, sizeof out, true, KODLIWE_NO_LIMIT);
}

static size_t linear_folded(const char *all, size_t len) {
    return kodliwe_demangle_text_folded(all, len, out, sizeof out, true, KODLIWE_NO_LIMIT);
}

static const struct {
    const char *name;
    size_t (*of)(const char *, size_t);
    bool of_texts;
} CALLS[] = {
    {"kodliwe_is_symbol", is_symbol, false},
    {"kodliwe_symbol_len", symbol_len, false},
    {"kodliwe_path_len", path_len, false},
    {"kodliwe_demangle", demangle, false},
    {"kodliwe_demangle_limited", limited, false},
    {"kodliwe_demangle_part", part, false},
    {"kodliwe_print_part", print_part, false},
    {"kodliwe_demangle_folded", folded, false},
    {"kodliwe_demangle_text", whole, true},
    {"kodliwe_demangle_text_folded", whole_folded, true},
    {"kodliwe_demangle_text, no limit", linear, true},
    {"kodliwe_demangle_text_folded, no limit", linear_folded, true},
};

__attribute__((noinline)) size_t measured(size_t call, size_t len) {
    if (CALLS[call].of_texts) return CALLS[call].of(text, len);
    size_t sum = 0;
    for (size_t at = 0; at < len;) {
        size_t end = at;
        while (end < len && text[end] != '\n' && text[end] != ' ') end++;
        sum += CALLS[call].of(text + at, end - at);
        at = end + 1;
    }
    return sum;
}

int main(int count, char **words) {
    size_t call = 0;
    uint32_t len;
    if (count != 2) return 2;
    while (call < sizeof CALLS / sizeof *CALLS && strcmp(CALLS[call].name, words[1]) != 0) call++;
    if (call == sizeof CALLS / sizeof *CALLS) return 2;
    while (fread(&len, sizeof len, 1, stdin) == 1) {
        if (len > sizeof text || fread(text, 1, len, stdin) != len) return 2;
        printf("%zu\n", measured(call, len));
    }
    return 0;
}
