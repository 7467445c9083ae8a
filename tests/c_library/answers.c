/* Calls the library for each symbol of standard input, at thirteen sizes of the output in both forms, and writes the results.
 *
 * A record of the input: 4 bytes of the symbol's length, 8 of the limit (all ones: none), the symbol. For each record, with the
 * hash and without it, the output has 4 bytes of what was returned, 4 of kodliwe_symbol_len, and the path. Each path is also read
 * in parts of several sizes, by the call that reads the symbol and by the one that gets the length of its path. The latter gets
 * other lengths too. After the symbol, and after each output, comes a page that can be neither read nor written. Guard bytes are
 * before the output, and in it after the NUL.
 *
 * With the argument `quick`, each symbol is tried only at the four largest sizes, and not in parts.
 *
 * Status 1, with a line on standard error, if a call does not do what kodliwe.h says. */
#ifndef _GNU_SOURCE
#define _GNU_SOURCE /* MAP_ANONYMOUS */
#endif
#include "rustc_demangle.h"

#include <stdint.h>
#include <stdio.h>
#include <stdlib.h>
#include <string.h>
#include <sys/mman.h>

enum { PAGE = 4096, ROOM = 8 << 20, GUARD = 64, MARK = 0x5A };
static const uint64_t NONE = UINT64_MAX;

static char *symbol_end, *out_end; /* the pages after them are fenced */
static char *whole;
static uint64_t limit;

static char *fenced(void) {
    char *memory = (char *)mmap(NULL, ROOM + PAGE, PROT_READ | PROT_WRITE, MAP_PRIVATE | MAP_ANONYMOUS, -1, 0);
    if (memory == MAP_FAILED || mprotect(memory + ROOM, PAGE, PROT_NONE) != 0) exit(2);
    return memory + ROOM;
}

static size_t call(const char *symbol, size_t len, char *out, size_t size, bool hash) {
    return limit == NONE ? kodliwe_demangle(symbol, len, out, size, hash)
                         : kodliwe_demangle_limited(symbol, len, out, size, hash, (size_t)limit);
}

static void fail(const char *why, const char *symbol, size_t len, size_t size) {
    fprintf(stderr, "%s, at %zu bytes of output, for %.*s\n", why, size, (int)(len < 80 ? len : 80), symbol);
    exit(1);
}

static void try_size(const char *symbol, size_t len, bool hash, size_t want, size_t size) {
    char *out = out_end - size;
    memset(out - GUARD, MARK, size + GUARD);
    if (call(symbol, len, out, size, hash) != want) fail("another number is returned", symbol, len, size);
    size_t kept = want == 0 ? 0 : want <= size ? want : size;
    if (kept != 0 && memcmp(out, whole, kept - 1) != 0) fail("another text is written", symbol, len, size);
    if (kept != 0 && out[kept - 1] != 0) fail("no NUL is written", symbol, len, size);
    for (size_t i = 0; i < GUARD; i++)
        if (out[(ptrdiff_t)i - GUARD] != MARK) fail("a byte before the output is changed", symbol, len, size);
    for (size_t i = kept; i < size; i++)
        if (out[i] != MARK) fail("a byte behind the NUL is changed", symbol, len, size);
}

/* The bound of every result. */
static size_t most(size_t len) { return (limit < 1000000 ? (size_t)limit : 1000000) + 21 + len; }

/* Checks that the bytes before the output, and those in it from an offset on, are unchanged. */
static void try_guards(const char *symbol, size_t len, const char *out, size_t size, size_t from) {
    for (size_t i = 0; i < GUARD; i++)
        if (out[(ptrdiff_t)i - GUARD] != MARK) fail("a part changes a byte before the output", symbol, len, size);
    for (size_t i = from; i < size; i++)
        if (out[i] != MARK) fail("a part changes a byte behind the NUL", symbol, len, size);
}

/* Prints a part, with this number as the length of the path. A wrong number does no harm. */
static void try_length(const char *symbol, size_t len, bool hash, size_t path_len, size_t size, size_t start) {
    char *out = out_end - size;
    memset(out - GUARD, MARK, size + GUARD);
    size_t want = kodliwe_print_part(symbol, len, path_len, out, size, hash, (size_t)limit, start);
    if (want > most(len)) fail("a printed part returns more than the limit allows", symbol, len, size);
    size_t left = want == 0 ? 0 : start >= want ? 1 : want - start;
    try_guards(symbol, len, out, size, left < size ? left : size);
}

/* One part of the path, and that nothing else is written. A path_len of 0: by the call that reads the symbol. */
static void try_part(const char *symbol, size_t len, bool hash, size_t want, size_t path_len, size_t size, size_t start) {
    char *out = out_end - size;
    memset(out - GUARD, MARK, size + GUARD);
    size_t told = path_len == 0 ? kodliwe_demangle_part(symbol, len, out, size, hash, (size_t)limit, start)
                                : kodliwe_print_part(symbol, len, path_len, out, size, hash, (size_t)limit, start);
    if (told != want) fail("a part returns another number", symbol, len, size);
    size_t left = want == 0 || start >= want ? 0 : want - 1 - start, room = size == 0 ? 0 : size - 1;
    size_t text = left < room ? left : room, kept = want == 0 || size == 0 ? 0 : text + 1;
    if (kept != 0 && memcmp(out, whole + (text ? start : 0), text) != 0) fail("a part has another text", symbol, len, size);
    if (kept != 0 && out[text] != 0) fail("a part has no NUL", symbol, len, size);
    try_guards(symbol, len, out, size, kept);
}

/* Prints the complete path in parts, and parts at and after its end. */
static void try_parts(const char *symbol, size_t len, bool hash, size_t want, size_t path_len) {
    const size_t sizes[] = {2, 8, 101, 70001}, starts[] = {want, want + 1, (size_t)PTRDIFF_MAX, SIZE_MAX - 1, SIZE_MAX};
    for (size_t i = 0; i < sizeof sizes / sizeof *sizes; i++) {
        if (want / sizes[i] > 100) continue;
        for (size_t start = 0; start < want; start += sizes[i] - 1) try_part(symbol, len, hash, want, path_len, sizes[i], start);
    }
    for (size_t i = 0; i < sizeof starts / sizeof *starts; i++) try_part(symbol, len, hash, want, path_len, 9, starts[i]);
    for (size_t size = 0; size < 2; size++) try_part(symbol, len, hash, want, path_len, size, 1);
}

static void try_upstream(const char *symbol, size_t len, size_t want) {
    char *text = (char *)malloc(len + 1), *out = (char *)malloc(want + 1);
    if (text == NULL || out == NULL) exit(2);
    memcpy(text, symbol, len);
    text[len] = 0;
    if (rustc_demangle(text, out, want) != (want != 0)) fail("upstream's call refuses", symbol, len, want);
    if (want != 0 && strcmp(out, whole) != 0) fail("upstream's call writes another text", symbol, len, want);
    if (want > 0 && rustc_demangle(text, out, want - 1) != 0) fail("upstream's call takes too little", symbol, len, want - 1);
    if (rustc_demangle(text, NULL, 0) != 0) fail("upstream's call takes nothing", symbol, len, 0);
    free(text);
    free(out);
}

int main(int count, char **words) {
    const bool is_quick = count > 1 && strcmp(words[1], "quick") == 0;
    uint32_t len;
    symbol_end = fenced();
    out_end = fenced();
    whole = (char *)malloc(ROOM);
    if (whole == NULL) return 2;
    while (fread(&len, sizeof len, 1, stdin) == 1) {
        char *symbol = symbol_end - len;
        if (len > ROOM || fread(&limit, sizeof limit, 1, stdin) != 1 || fread(symbol, 1, len, stdin) != len) return 2;
        for (int form = 0; form < 2; form++) {
            bool hash = form == 0;
            size_t want = call(symbol, len, whole, ROOM, hash);
            uint32_t told = (uint32_t)want;
            size_t sizes[] = {0, 1, 2, 3, 7, 16, 40, 100, want > 1 ? want - 2 : 0, want ? want - 1 : 0, want, want + 1, want + 50};
            for (size_t i = is_quick ? 9 : 0; i < sizeof sizes / sizeof *sizes; i++) try_size(symbol, len, hash, want, sizes[i]);
            if (!is_quick) try_parts(symbol, len, hash, want, 0);
            size_t path_len = kodliwe_path_len(symbol, len);
            if ((path_len != 0) != (want != 0) || path_len > len) fail("kodliwe_path_len says otherwise", symbol, len, 0);
            if (path_len != 0 && !is_quick) try_parts(symbol, len, hash, want, path_len);
            size_t lengths[] = {0, 1, path_len ? path_len - 1 : 0, path_len + 1, len, len + 1, (size_t)PTRDIFF_MAX, SIZE_MAX};
            for (size_t i = 0; !is_quick && i < sizeof lengths / sizeof *lengths; i++) try_length(symbol, len, hash, lengths[i], 40, i);
            uint32_t symbol_len = (uint32_t)kodliwe_symbol_len(symbol, len);
            if ((symbol_len != 0) != (want != 0) || symbol_len > len) fail("kodliwe_symbol_len says otherwise", symbol, len, 0);
            if (kodliwe_is_symbol(symbol, len) != (want != 0)) fail("kodliwe_is_symbol says otherwise", symbol, len, 0);
            if (limit == NONE && kodliwe_demangle_limited(symbol, len, whole, ROOM, hash, SIZE_MAX) != want)
                fail("a limit above 1,000,000 is another", symbol, len, ROOM);
            if (want > (limit == NONE ? 1000000 : limit) + 21 + len) fail("more than the limit allows", symbol, len, ROOM);
            if (!hash && limit == NONE && memchr(symbol, 0, len) == NULL) try_upstream(symbol, len, want);
            fwrite(&told, sizeof told, 1, stdout);
            fwrite(&symbol_len, sizeof symbol_len, 1, stdout);
            if (want != 0) fwrite(whole, 1, want - 1, stdout);
        }
    }
    return 0;
}
