/* Prints the paths that the symbols in its arguments name. Any other argument is printed unchanged. */
#include "kodliwe.h"
#include <stdio.h>
#include <string.h>

int main(int count, char **symbols) {
    char path[256];
    for (int i = 1; i < count; i++) {
        size_t want = kodliwe_demangle(symbols[i], strlen(symbols[i]), path, sizeof path, false);
        printf("%s%s\n", want ? path : symbols[i], want > sizeof path ? ".." : "");
    }
}
