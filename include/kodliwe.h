/* kodliwe.h: demangles Rust symbols, of the legacy scheme (_ZN..E) and of v0 (_R.., Rust RFC 2603).
 *
 * The header needs C99 or C++. It also works with C89 and a compiler that has <stdbool.h> and <stdint.h>, such as gcc and
 * clang. The type bool and SIZE_MAX are the only things in it that C89 lacks.
 *
 * Link with libkodliwe.so or libkodliwe.a, as `pkg-config --cflags --libs kodliwe` says. The shared library needs only the
 * C library. The archive needs memcpy, memmove, memset and strlen; only rustc_demangle needs the last.
 *
 * No call allocates, locks, does I/O, or touches a global, errno or thread-local data. So each may be made from any thread,
 * and in a signal handler.
 *
 * The library is built from one source with the Rattle kit or without it. kodliwe_version says which. With the kit, the calls
 * are proved; docs/C.md says which properties. Without it, they are tested, not proved.
 *
 * The caller must ensure the following:
 *
 *   - symbol points to symbol_len bytes that can be read, and out to out_size bytes that can be read and written.
 *     Neither is NULL, even if its size is 0.
 *
 *   - They do not overlap. During the call, no other thread writes to either, or reads out.
 *
 *   - A size is at most PTRDIFF_MAX, as for every object in C.
 *
 *   - The stack has room. 8 KiB suffice for every symbol that a compiler made: of 1,400 real ones, none made a call touch
 *     more than 5.6 KB, also as the first call of a process. A v0 symbol that is made to be deep can be short: for _RNvB_1a,
 *     of 8 bytes, a first call touches 13.7 KB. For one that leaves over 512 productions open at once, a call touches up to
 *     81 KB. If symbols come from strangers, provide 96 KiB. The same holds for a handler with its own stack (sigaltstack;
 *     examples/backtrace.c).
 *
 *   - Time grows with the limit, if one is given, and not with out_size. If symbols may be hostile or time matters, as in a handler, call
 *     kodliwe_demangle_limited with out_size as the limit.
 */
#ifndef KODLIWE_H
#define KODLIWE_H

#include <stdbool.h>
#include <stddef.h>
#include <stdint.h>

/* A program for Windows that links with kodliwe.dll may define KODLIWE_DLL. Each call is then one jump shorter. */
#if defined(_WIN32) && defined(KODLIWE_DLL)
#define KODLIWE_API __declspec(dllimport)
#else
#define KODLIWE_API
#endif

#ifdef __cplusplus
extern "C" {
#endif

/* Returns whether the bytes are a Rust symbol, after a suffix of ThinLTO (.llvm.) is removed. Prints nothing. */
KODLIWE_API bool kodliwe_is_symbol(const char *symbol, size_t symbol_len);

/* Returns the number of bytes of the symbol without a suffix of ThinLTO (.llvm.), or 0 if the bytes are not a Rust symbol.
 * Prints nothing. */
KODLIWE_API size_t kodliwe_symbol_len(const char *symbol, size_t symbol_len);

/* Writes the path of a Rust symbol to out, as a C string.
 *
 * Returns 0 if the bytes are not a Rust symbol. out is then unchanged. Otherwise returns the number of bytes of the whole
 * path and its NUL. The number does not depend on out_size:
 *
 *   - If it is at most out_size, out holds the whole path and its NUL.
 *
 *   - If it is more, out holds the first out_size - 1 bytes of the path and a NUL. They may end within a UTF-8 character.
 *     If out_size is 0, nothing is written.
 *
 * No byte of out after the NUL is changed.
 *
 * If include_hash is true, the path has the hash of a legacy symbol, as with Rust's {}. Otherwise the hash is omitted, as
 * with {:#}, and so are the disambiguators of v0.
 *
 * A path is cut after at most 1,000,000 bytes. {size limit reached} and the symbol's suffix then follow. */
KODLIWE_API size_t kodliwe_demangle(const char *symbol, size_t symbol_len, char *out, size_t out_size, bool include_hash);

/* Does the same with another limit: a path is cut after at most limit bytes, at the end of a piece of its text. A limit
 * above 1,000,000 counts as 1,000,000. The result is at most limit + 21 + symbol_len. */
KODLIWE_API size_t kodliwe_demangle_limited(const char *symbol, size_t symbol_len, char *out, size_t out_size,
                                            bool include_hash, size_t limit);

/* Does the same for the bytes of the path from start. The rest of the path, or its first out_size - 1 bytes, and a NUL are
 * written to out. If start is at or after the path's end, out gets only the NUL. The result is the number for the whole path,
 * whatever start is. So a buffer of any size prints any path in parts. Each call reads the symbol again.
 *
 *     for (start = 0; (size = kodliwe_demangle_part(s, len, part, sizeof part, false, limit, start)) > start + 1;
 *          start += sizeof part - 1)
 *         fputs(part, stdout); */
KODLIWE_API size_t kodliwe_demangle_part(const char *symbol, size_t symbol_len, char *out, size_t out_size, bool include_hash,
                                         size_t limit, size_t start);

/* Returns the number of bytes of the symbol before its suffix and before a suffix of ThinLTO. Returns 0 if the bytes are not
 * a Rust symbol. Prints nothing. */
KODLIWE_API size_t kodliwe_path_len(const char *symbol, size_t symbol_len);

/* Writes and returns the same as kodliwe_demangle_part, without searching again for the end of the path. The argument
 * path_len is the nonzero result of kodliwe_path_len for the same bytes. A v0 symbol is then read once for each path that
 * is printed, and not twice.
 *
 * With other bytes or another number, the call still returns. It reads and writes nothing outside the two ranges, and the
 * result is at most limit + 21 + symbol_len. The contents of out are then unspecified. */
KODLIWE_API size_t kodliwe_print_part(const char *symbol, size_t symbol_len, size_t path_len, char *out, size_t out_size,
                                      bool include_hash, size_t limit, size_t start);

/* Does the same as kodliwe_demangle_limited, with _ for each list of generic arguments: foo::bar::<_> for every foo::bar. So all
 * instances of a generic function have one name. Only v0 symbols are folded, because the arguments of a legacy symbol are parts
 * of names. The result is at most limit + 21 + symbol_len. */
KODLIWE_API size_t kodliwe_demangle_folded(const char *symbol, size_t symbol_len, char *out, size_t out_size,
                                           bool include_hash, size_t limit);

/* Given as the limit of a text, it says that there is none. */
#define KODLIWE_NO_LIMIT SIZE_MAX

/* Writes a text to out, as a C string, with each Rust symbol in it replaced by its path. The text may be a line of a log, a
 * backtrace or a whole file, and the call may be made in a handler. The text is any bytes. Bytes outside symbols stay
 * unchanged.
 *
 * A candidate symbol starts at _ZN or _R. It ends before the next byte that is not an ASCII letter, a digit, $, . or _.
 * It stays if it begins with _RC, as in SW_RC0.zip. A single _ before a symbol, as macOS has it, is replaced with it, if
 * the _ is the first byte or follows one that no symbol may have.
 *
 * Each path is cut after at most limit bytes, as by kodliwe_demangle_limited. With KODLIWE_NO_LIMIT, the path of a symbol
 * of n bytes is cut after at most 999 n - 20 bytes, and 1,000,000 at most. So the text has at most 1,000 bytes for each of
 * its own. A path is also cut where the references of its symbol would have more than 384 n bytes, or more than
 * 384,000,000, read again. So with KODLIWE_NO_LIMIT the time grows with the text alone.
 *
 * Returns the number of bytes of the whole new text and its NUL, whatever out_size is. It writes as much of the text to out
 * as kodliwe_demangle does of a path. The result is never 0. It is SIZE_MAX if a size_t cannot hold the number, which needs
 * a text of 10^13 bytes. The contents of out are then unspecified. */
KODLIWE_API size_t kodliwe_demangle_text(const char *text, size_t text_len, char *out, size_t out_size, bool include_hash,
                                         size_t limit);

/* Does the same with _ for each list of generic arguments, as kodliwe_demangle_folded does. */
KODLIWE_API size_t kodliwe_demangle_text_folded(const char *text, size_t text_len, char *out, size_t out_size,
                                                bool include_hash, size_t limit);

/* Writes the name and the version of the library to out, as a C string, and how it was built:
 *
 *     kodliwe 0.1.0, proved with Rattle
 *     kodliwe 0.1.0, tested, not proved
 *
 * Returns the number of bytes of this text and its NUL, and writes as much of it to out as kodliwe_demangle does of a path. */
KODLIWE_API size_t kodliwe_version(char *out, size_t out_size);

#ifdef __cplusplus
}
#endif

#endif
