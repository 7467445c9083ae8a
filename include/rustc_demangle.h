/* rustc_demangle.h: the C function of the Rust crate rustc-demangle, implemented with kodliwe.h.
 *
 * The file that includes this header defines the function. A program that looks it up by its name, as by dlsym, finds it in
 * libkodliwe.so and libkodliwe.a too. Only the build of these defines RUSTC_DEMANGLE_EXPORTED. */
#ifndef RUSTC_DEMANGLE_H
#define RUSTC_DEMANGLE_H

#include "kodliwe.h"

#include <string.h>

#if defined(RUSTC_DEMANGLE_EXPORTED)
#define RUSTC_DEMANGLE_LINKAGE
#elif defined(__cplusplus) || (defined(__STDC_VERSION__) && __STDC_VERSION__ >= 199901L)
#define RUSTC_DEMANGLE_LINKAGE static inline
#elif defined(__GNUC__)
#define RUSTC_DEMANGLE_LINKAGE static __inline__
#else
#define RUSTC_DEMANGLE_LINKAGE static
#endif

#ifdef __cplusplus
extern "C" {
#endif

/* Writes the path of the symbol, without its hash, and a NUL to out.
 *
 * Returns 1 if mangled, a C string, is a Rust symbol and the whole path with its NUL fits in out_size bytes. Otherwise
 * returns 0. If out was too small, it then holds the first bytes of the path and a NUL. If mangled is not a symbol, out is
 * unchanged. */
RUSTC_DEMANGLE_LINKAGE int rustc_demangle(const char *mangled, char *out, size_t out_size) {
    char none;
    size_t want = kodliwe_demangle(mangled, strlen(mangled), out_size ? out : &none, out_size, false);
    return want != 0 && want <= out_size;
}

#ifdef __cplusplus
}
#endif

#undef RUSTC_DEMANGLE_LINKAGE

#endif
