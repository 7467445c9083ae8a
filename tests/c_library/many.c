/* Makes each call for each text of standard input from two threads at once, which share the texts, and checks that the results
 * agree. It is built with a sanitizer. The input is that of answers.c, whose limits are not read.
 *
 * Each text is copied to memory of exactly its size, and each result is written to memory of exactly its size. */
#include "kodliwe.h"
#include "rustc_demangle.h"

#include <pthread.h>
#include <stdint.h>
#include <stdio.h>
#include <stdlib.h>
#include <string.h>

enum { THREADS = 2, LIMIT = 600, ROOM = 4096 };

typedef struct {
    char *bytes;
    size_t len;
} text_t;

static text_t *texts;
static size_t count;

static void fail(const char *why, const text_t *text) {
    fprintf(stderr, "%s: %.*s\n", why, (int)(text->len < 80 ? text->len : 80), text->bytes);
    exit(1);
}

/* Calls of one kind: without a limit, or with LIMIT. */
typedef size_t call_t(const text_t *text, char *out, size_t size, bool hash);

static size_t plain(const text_t *text, char *out, size_t size, bool hash) {
    return kodliwe_demangle(text->bytes, text->len, out, size, hash);
}

static size_t folded(const text_t *text, char *out, size_t size, bool hash) {
    return kodliwe_demangle_folded(text->bytes, text->len, out, size, hash, LIMIT);
}

static size_t text_folded(const text_t *text, char *out, size_t size, bool hash) {
    return kodliwe_demangle_text_folded(text->bytes, text->len, out, size, hash, LIMIT);
}

/* Fails if a call returns another size for memory of exactly its size, or writes no NUL at its end. */
static void ask_exactly(call_t *call, const text_t *text, bool hash, const char *why) {
    char room[ROOM];
    size_t want = call(text, room, sizeof room, hash);
    char *exact = (char *)malloc(want ? want : 1);
    if (call(text, exact, want, hash) != want || (want != 0 && exact[want - 1] != 0)) fail(why, text);
    if (want != 0 && memcmp(exact, room, want < sizeof room ? want : sizeof room - 1) != 0) fail(why, text);
    free(exact);
}

/* Tries the call of upstream's header, which reads a C string. */
static void ask_by_c_string(const text_t *text) {
    char room[ROOM], path[ROOM], *mangled = (char *)malloc(text->len + 1);
    memcpy(mangled, text->bytes, text->len);
    mangled[text->len] = 0;
    size_t len = strlen(mangled), want = kodliwe_demangle(mangled, len, room, sizeof room, false);
    int is_written = rustc_demangle(mangled, path, sizeof path);
    if ((is_written != 0) != (want != 0 && want <= sizeof path)) fail("rustc_demangle says otherwise", text);
    if (is_written && strcmp(path, room) != 0) fail("rustc_demangle writes another path", text);
    free(mangled);
}

static void ask(const text_t *text, bool hash) {
    char room[ROOM], part[33];
    size_t len = text->len;
    size_t want = kodliwe_demangle_limited(text->bytes, len, room, sizeof room, hash, LIMIT);
    if (kodliwe_is_symbol(text->bytes, len) != (want != 0)) fail("is_symbol says otherwise", text);
    size_t symbol_len = kodliwe_symbol_len(text->bytes, len);
    if ((symbol_len != 0) != (want != 0) || symbol_len > len) fail("symbol_len says otherwise", text);
    for (size_t start = 0; start < want && start < 100; start += sizeof part - 1) {
        if (kodliwe_demangle_part(text->bytes, len, part, sizeof part, hash, LIMIT, start) != want) fail("a part has another size", text);
        size_t left = want - start < sizeof part ? want - start : sizeof part;
        if (want <= sizeof room && memcmp(part, room + start, left - 1) != 0) fail("a part differs", text);
    }
    size_t path_len = kodliwe_path_len(text->bytes, len);
    if ((path_len != 0) != (want != 0) || path_len > len) fail("path_len says otherwise", text);
    for (size_t start = 0; path_len != 0 && start < want && start < 100; start += sizeof part - 1) {
        if (kodliwe_print_part(text->bytes, len, path_len, part, sizeof part, hash, LIMIT, start) != want) fail("a printed part has another size", text);
        size_t left = want - start < sizeof part ? want - start : sizeof part;
        if (want <= sizeof room && memcmp(part, room + start, left - 1) != 0) fail("a printed part differs", text);
    }
    const size_t lengths[] = {0, path_len / 2, path_len + 1, len, len + 1, SIZE_MAX};
    for (size_t i = 0; i < sizeof lengths / sizeof *lengths; i++) {
        size_t told = kodliwe_print_part(text->bytes, len, lengths[i], part, sizeof part, hash, LIMIT, i);
        if (told > LIMIT + 21 + len) fail("a printed part of another length is past the limit", text);
        char *fit = (char *)malloc(told ? told : 1);
        if (kodliwe_print_part(text->bytes, len, lengths[i], fit, told, hash, LIMIT, 0) != told) fail("a printed part of another length has another size", text);
        if (told != 0 && fit[told - 1] != 0) fail("a printed part of another length has no NUL", text);
        free(fit);
    }
    char *exact = (char *)malloc(want ? want : 1);
    if (kodliwe_demangle_limited(text->bytes, len, exact, want, hash, LIMIT) != want) fail("another size", text);
    if (want != 0 && want <= sizeof room && memcmp(exact, room, want) != 0) fail("another path", text);
    free(exact);
    want = kodliwe_demangle_text(text->bytes, len, room, sizeof room, hash, LIMIT);
    if (want == 0) fail("a text has no size", text);
    exact = (char *)malloc(want);
    if (kodliwe_demangle_text(text->bytes, len, exact, want, hash, LIMIT) != want || exact[want - 1] != 0) fail("a text has another size", text);
    if (memcmp(exact, room, want < sizeof room ? want : sizeof room - 1) != 0) fail("another text", text);
    free(exact);
    ask_exactly(plain, text, hash, "another path without a limit");
    ask_exactly(folded, text, hash, "another folded path");
    ask_exactly(text_folded, text, hash, "another folded text");
    ask_by_c_string(text);
}

static void *ask_all(void *hash) {
    for (size_t i = 0; i < count; i++) ask(&texts[i], hash != NULL);
    return NULL;
}

/* Fails if the version has another size in memory of exactly its size. */
static void ask_version(void) {
    char none;
    size_t size = kodliwe_version(&none, 0);
    char *version = (char *)malloc(size);
    if (kodliwe_version(version, size) != size || strlen(version) + 1 != size) exit(1);
    free(version);
}

int main(void) {
    uint32_t len;
    uint64_t limit;
    size_t room = 0;
    while (fread(&len, sizeof len, 1, stdin) == 1) {
        if (count == room) {
            room = room ? 2 * room : 1024;
            texts = (text_t *)realloc(texts, room * sizeof *texts);
            if (texts == NULL) return 2;
        }
        texts[count].bytes = (char *)malloc(len ? len : 1);
        texts[count].len = len;
        if (texts[count].bytes == NULL || fread(&limit, sizeof limit, 1, stdin) != 1 || fread(texts[count].bytes, 1, len, stdin) != len) return 2;
        count++;
    }
    ask_version();
    pthread_t threads[THREADS];
    for (size_t i = 0; i < THREADS; i++)
        if (pthread_create(&threads[i], NULL, ask_all, i ? texts : NULL) != 0) return 2;
    for (size_t i = 0; i < THREADS; i++) pthread_join(threads[i], NULL);
    for (size_t i = 0; i < count; i++) free(texts[i].bytes);
    free(texts);
    printf("%zu texts\n", count);
    return 0;
}
