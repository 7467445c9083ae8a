/* Compares bytes, so that the archive that cargo builds does not need these two functions of the C library.
 *
 * `make KIT=none` links it with that archive, and then makes both names local. */
#include <stddef.h>

int memcmp(const void *one, const void *other, size_t size);
int bcmp(const void *one, const void *other, size_t size);

int memcmp(const void *one, const void *other, size_t size) {
    const unsigned char *a = (const unsigned char *)one, *b = (const unsigned char *)other;
    for (size_t i = 0; i < size; i++)
        if (a[i] != b[i]) return a[i] - b[i];
    return 0;
}

int bcmp(const void *one, const void *other, size_t size) { return memcmp(one, other, size); }
