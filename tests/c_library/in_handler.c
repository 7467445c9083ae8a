/* Makes each call in a signal handler on a separate stack, and prints a line for each: its name, and the most bytes of that stack
 * that it touches. The input is that of answers.c. With the name of a call, it makes only this call, once, for the first symbol:
 * so the loader binds functions of the C library on that stack. */
#define _GNU_SOURCE
#include "kodliwe.h"

#include <signal.h>
#include <stdint.h>
#include <stdio.h>
#include <stdlib.h>
#include <string.h>

enum { STACK = 1 << 18, MARK = 0xA5 };
static const char *const calls[] = {
    "none",
    "kodliwe_demangle",
    "kodliwe_demangle_limited",
    "kodliwe_demangle_part",
    "kodliwe_print_part",
    "kodliwe_demangle_folded",
    "kodliwe_demangle_text",
    "kodliwe_demangle_text_folded",
    "kodliwe_is_symbol",
    "kodliwe_symbol_len",
    "kodliwe_path_len",
    "kodliwe_version",
};
enum { CALLS = sizeof calls / sizeof *calls };
static unsigned char *stack; /* marked, except while a call is made */
static char symbol[8 << 20], out[4096];
static uint32_t len;
static size_t path_len;
static int which; /* the index of the call that the handler makes */
static bool hash;

static void handler(int sig) {
    (void)sig;
    switch (which) {
    case 1: kodliwe_demangle(symbol, len, out, sizeof out, hash); break;
    case 2: kodliwe_demangle_limited(symbol, len, out, sizeof out, hash, sizeof out); break;
    case 3: kodliwe_demangle_part(symbol, len, out, sizeof out, hash, SIZE_MAX, 1); break;
    case 4: kodliwe_print_part(symbol, len, path_len, out, sizeof out, hash, SIZE_MAX, 1); break;
    case 5: kodliwe_demangle_folded(symbol, len, out, sizeof out, hash, SIZE_MAX); break;
    case 6: kodliwe_demangle_text(symbol, len, out, sizeof out, hash, SIZE_MAX); break;
    case 7: kodliwe_demangle_text_folded(symbol, len, out, sizeof out, hash, SIZE_MAX); break;
    case 8: kodliwe_is_symbol(symbol, len); break;
    case 9: kodliwe_symbol_len(symbol, len); break;
    case 10: kodliwe_path_len(symbol, len); break;
    case 11: kodliwe_version(out, sizeof out); break;
    default: break;
    }
}

static size_t touched(int call) {
    uint64_t mark;
    size_t low = 0;
    memset(&mark, MARK, sizeof mark);
    which = call;
    raise(SIGUSR1);
    while (low < STACK && memcmp(stack + low, &mark, sizeof mark) == 0) low += sizeof mark;
    memset(stack + low, MARK, STACK - low);
    return STACK - low;
}

int main(int count, char **arguments) {
    int first = 0;
    for (int call = 1; call < CALLS; call++) {
        if (count > 1 && strcmp(arguments[1], calls[call]) == 0) first = call;
    }
    stack = aligned_alloc(4096, STACK);
    stack_t alternate = {.ss_sp = stack, .ss_size = STACK};
    struct sigaction action = {.sa_handler = handler, .sa_flags = SA_ONSTACK};
    if (stack == NULL || sigaltstack(&alternate, NULL) != 0 || sigaction(SIGUSR1, &action, NULL) != 0) return 2;
    memset(stack, MARK, STACK);
    size_t alone = touched(0), most[CALLS] = {0};
    uint64_t limit;
    while (fread(&len, sizeof len, 1, stdin) == 1) {
        if (len > sizeof symbol || fread(&limit, sizeof limit, 1, stdin) != 1 || fread(symbol, 1, len, stdin) != len) return 2;
        path_len = kodliwe_path_len(symbol, len);
        if (first != 0) {
            hash = true;
            printf("%s %zu\n", calls[first], touched(first) - alone);
            return 0;
        }
        for (int call = 1; call < CALLS; call++) {
            for (int form = 0; form < 2; form++) {
                hash = form == 0;
                size_t bytes = touched(call) - alone;
                if (bytes > most[call]) most[call] = bytes;
                if (call > 7) break; /* it has no form */
            }
        }
    }
    for (int call = 1; call < CALLS; call++) printf("%s %zu\n", calls[call], most[call]);
    return 0;
}
