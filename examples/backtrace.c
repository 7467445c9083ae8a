/* A program that prints its own backtrace when it fails, with the paths of Rust functions in place of their symbols.
 *
 *     gcc -O1 -g -rdynamic -I include examples/backtrace.c out/none/build/libkodliwe.a -o out/backtrace && out/backtrace
 *
 * `make KIT=none` builds this archive. `make` builds the proved one, out/build/libkodliwe.a.
 *
 * The handler of SIGSEGV runs on a separate stack. Its calls into the library allocate nothing and take no lock, and it
 * passes a limit, so that it gets no more bytes of a path than it has room for. Three functions of C have the symbols that
 * rustc gives to Rust functions, so this example needs no Rust compiler. A program that links Rust code has such symbols.
 *
 * That stack has 16 KiB. This is enough for every symbol except those that are made to be deep: the handler was seen to
 * touch 9.4 KB of it, even with the real symbols that need most. A symbol that is made to be deep may be short: with
 * `_RNvB_1a`, of 8 bytes, it touches 16.0 KB. For others, a call into the library touches up to 81 KB by itself. 96 KiB
 * before the stack cannot be touched. So such a symbol may end the program, and overwrites nothing. A program that prints a
 * stranger's symbols needs a stack of 96 KiB. */
#ifndef _GNU_SOURCE
#define _GNU_SOURCE
#endif
#include "kodliwe.h"

#include <dlfcn.h>
#include <execinfo.h>
#include <signal.h>
#include <stdio.h>
#include <string.h>
#include <sys/mman.h>
#include <unistd.h>

enum { FRAMES = 64, LINE = 512, STACK = 16 * 1024, FENCE = 96 * 1024 };

static void print(const char *text, size_t len) {
    while (len > 0) {
        ssize_t wrote = write(STDERR_FILENO, text, len);
        if (wrote <= 0) return;
        text += wrote;
        len -= (size_t)wrote;
    }
}

/* Prints one line: the frame's number, and the path, the symbol or the file of the address. */
static void print_frame(int number, const char *address) {
    char line[LINE] = "  0: ";
    line[1] = (char)(number >= 10 ? '0' + number / 10 : ' ');
    line[2] = (char)('0' + number % 10);
    Dl_info info;
    const char *name = "?";
    if (dladdr(address, &info) != 0) name = info.dli_sname ? info.dli_sname : info.dli_fname;
    size_t room = sizeof line - 5, len = strlen(name);
    size_t want = kodliwe_demangle_limited(name, len, line + 5, room, false, room);
    if (want == 0) { /* not a Rust symbol */
        if (len >= room) len = room - 1;
        memcpy(line + 5, name, len + 1);
        line[5 + len] = 0;
    }
    print(line, strlen(line));
    print("\n", 1);
}

static void on_fault(int sig) {
    void *frames[FRAMES];
    int count = backtrace(frames, FRAMES);
    print("segmentation fault\n", 19);
    /* The first two are this handler and the code that it returns to. The third is the address of the fault. The others are
     * return addresses, which may be the first byte after the calling function. */
    for (int i = 2; i < count; i++) print_frame(i - 2, (const char *)frames[i] - (i > 2));
    /* SA_RESETHAND removed the handler, so the fault comes again after the return, and ends the process. */
    (void)sig;
}

#define AS(symbol) __asm__(symbol) __attribute__((noinline))

int fail(const volatile int *at) AS("_ZN5crash4fail17h05af221e174051e9E");
int deep(int n) AS("_RNvNtCs1234_5crash6parser4deep");
int fill(int n) AS("_RNvMC5crashINtB2_5TablemE4fill");

int fail(const volatile int *at) { return *at + 1; }
int deep(int n) { return n == 0 ? fail(NULL) + 1 : deep(n - 1) + 1; }
int fill(int n) { return deep(n) + 1; }

/* Returns the memory of the handler's stack, after its fence. */
static char *handler_stack(void) {
    char *fence = (char *)mmap(NULL, FENCE + STACK, PROT_NONE, MAP_PRIVATE | MAP_ANONYMOUS, -1, 0);
    if (fence == MAP_FAILED || mprotect(fence + FENCE, STACK, PROT_READ | PROT_WRITE) != 0) return NULL;
    return fence + FENCE;
}

int main(void) {
    void *first[1];
    stack_t stack;
    struct sigaction action;
    memset(&stack, 0, sizeof stack);
    stack.ss_sp = handler_stack();
    stack.ss_size = STACK;
    memset(&action, 0, sizeof action);
    action.sa_handler = on_fault;
    action.sa_flags = (int)(SA_ONSTACK | SA_RESETHAND);
    backtrace(first, 1); /* its first call loads a library, which a handler must not do */
    if (stack.ss_sp == NULL || sigaltstack(&stack, NULL) != 0 || sigaction(SIGSEGV, &action, NULL) != 0) return 2;
    return fill(1);
}
