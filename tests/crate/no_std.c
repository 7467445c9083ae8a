/* Prints the path of each argument by the library of no_std.rs. */
#include <stddef.h>
#include <stdio.h>
#include <string.h>

size_t path_of(const char *symbol, size_t len, char *out, size_t size);

int main(int count, char **symbols) {
    char path[256];
    for (int i = 1; i < count; i++)
        printf("%.*s\n", (int)path_of(symbols[i], strlen(symbols[i]), path, sizeof path), path);
}
