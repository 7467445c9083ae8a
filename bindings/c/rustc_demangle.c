/* Exports rustc_demangle as a function of the library, for programs that load it by its name.
 *
 *     cc -O2 -fPIC -I include -c bindings/c/rustc_demangle.c -o rustc_demangle.o
 *
 * Link it, or add it to the archive with `ar r`. It needs strlen, and the functions that the archive needs. */
#define RUSTC_DEMANGLE_EXPORTED
#include "rustc_demangle.h"
