// Kodliwe's WebAssembly module for JavaScript: kodliwe.load(bytes) returns its calls.
"use strict";

// A single function without free names, so that page.js can start a worker from its source. A page
// that was opened as a file may load scripts only by <script>.
function kodliweEngine() {
  const PAGE = 65536;
  const MARKER = 21; // bytes of `{size limit reached}` and the 0 after it
  const MOST = 1_000_000; // the most bytes of one path
  const NO_LIMIT = 2n ** 64n - 1n; // of a text: then its length limits what it prints
  const NOT_ASCII = 0x80; // replaces any character that a symbol cannot contain
  const PIECE = 16_384; // the bytes of a text for one call, without the rest of the candidate at their end
  const encoder = new TextEncoder();
  const decoder = new TextDecoder("utf-8", { ignoreBOM: true });

  // a module that has only a 64-bit memory
  const MEMORY64 = new Uint8Array([0, 0x61, 0x73, 0x6d, 1, 0, 0, 0, 5, 3, 1, 4, 1]);

  /** Returns true if this browser has 64-bit WebAssembly memory. The module needs it. */
  function isSupported() {
    return typeof WebAssembly === "object" && WebAssembly.validate(MEMORY64);
  }

  /** Returns the bytes of the module. The text is that of module.js: gzip, in base64. */
  async function unpack(text) {
    const packed = Uint8Array.from(atob(text), (it) => it.charCodeAt(0));
    const stream = new Blob([packed]).stream().pipeThrough(new DecompressionStream("gzip"));
    return new Uint8Array(await new Response(stream).arrayBuffer());
  }

  /** Returns the module's calls for texts. The bytes are those of kodliwe.wasm. */
  async function load(bytes) {
    const { instance } = await WebAssembly.instantiate(bytes, {});
    return callsOf(instance.exports);
  }

  function callsOf(wasm) {
    const base = Number(wasm.__heap_base.value); // the memory from here is free for texts
    let view = new Uint8Array(wasm.memory.buffer);

    // Node.js 20 takes the number of pages of a 64-bit memory as a number, later engines as a BigInt.
    function grow(pages) {
      try {
        wasm.memory.grow(BigInt(pages));
      } catch (error) {
        if (!(error instanceof TypeError)) throw error;
        wasm.memory.grow(pages);
      }
    }

    // Ensures that there are `size` bytes after the base. If the memory grows, it needs a new view.
    function reserve(size) {
      const lacking = base + size - wasm.memory.buffer.byteLength;
      if (lacking > 0) grow(Math.ceil(lacking / PAGE));
      if (view.buffer !== wasm.memory.buffer) view = new Uint8Array(wasm.memory.buffer);
    }

    const read = (at, size) => decoder.decode(view.subarray(at, at + size));

    // Writes a text to the base, one byte for each UTF-16 code unit. So an index in the memory is an
    // index in the text. Symbols are ASCII, so any other code unit becomes NOT_ASCII.
    function putUnits(text) {
      reserve(text.length);
      const { read: taken, written } = encoder.encodeInto(text, view.subarray(base, base + text.length));
      if (taken === text.length && written === taken) return;
      for (let n = 0; n < text.length; n++) {
        const unit = text.charCodeAt(n);
        view[base + n] = unit < 0x80 ? unit : NOT_ASCII;
      }
    }

    // Returns the path of the symbol at `at`, or null if it is not a symbol. Memory from `next` is free.
    function pathAt(at, size, next, { hash, fold, limit }) {
      const room = Math.min(limit, MOST) + MARKER + size; // enough for any path
      reserve(next - base + room);
      const print = fold ? wasm.kodliwe_demangle_folded : wasm.kodliwe_demangle_limited;
      const size64 = print(BigInt(at), BigInt(size), BigInt(next), BigInt(room), hash ? 1 : 0, BigInt(limit));
      return size64 === 0n ? null : read(next, Number(size64) - 1);
    }

    /**
     * Returns the path of a symbol, or null if the text is not a symbol. If `fold` is true, the path
     * has `_` for each list of generic arguments of a v0 symbol. The path is cut at `limit` bytes.
     * It is also cut where the references of the symbol would make a print read more than 384 bytes
     * again for each of its own, or more than 384,000,000.
     */
    function demangle(symbol, { hash = false, fold = false, limit = MOST } = {}) {
      putUnits(symbol);
      return pathAt(base, symbol.length, base + symbol.length, { hash, fold, limit });
    }

    /** Returns true if the text is a symbol. Prints nothing. */
    function isSymbol(text) {
      putUnits(text);
      return wasm.kodliwe_is_symbol(BigInt(base), BigInt(text.length)) !== 0;
    }

    /**
     * Yields the symbols of a text in order, each as { start, end, path }. The start and the end
     * count UTF-16 code units. The path is null if a candidate only starts like a symbol, or begins
     * with `_RC`. A single `_` before a symbol belongs to it, if the `_` is the first character or
     * follows one that no symbol may have. The call limit() returns the most bytes of each path.
     * The references of a symbol also cut its path, as in `demangle`. Another call of the module
     * overwrites its memory. After one, the later symbols must not be used.
     */
    function* symbols(text, { hash = false, fold = false, limit = () => MOST } = {}) {
      putUnits(text);
      const next = base + text.length;
      for (let at = base; at < next;) {
        const start = at + Number(wasm.kodliwe_run_start(BigInt(at), BigInt(next - at)));
        if (start === next) return;
        const end = start + Number(wasm.kodliwe_run_len(BigInt(start), BigInt(next - start)));
        const from = at + Number(wasm.kodliwe_plain_len(BigInt(at), BigInt(start - at)));
        const isKept = wasm.kodliwe_stays(BigInt(from), BigInt(end - from)) !== 0;
        const path = isKept ? null : pathAt(from, end - from, next, { hash, fold, limit: limit() });
        yield { start: from - base, end: end - base, path };
        at = end;
      }
    }

    /**
     * Returns a text with its symbols demangled. Without a limit, each path ends after at most 999
     * bytes for each byte of its symbol, so the text gets at most 1,000 bytes for each of its own. The
     * references of a symbol also cut its path, as in `demangle`.
     */
    function demangleText(text, { hash = false, fold = false, limit = NO_LIMIT } = {}) {
      // UTF-8 cannot represent a lone surrogate. So the texts before and after it get a call each.
      return text.split(/(\p{Surrogate})/u)
        .map((part) => (part.isWellFormed() ? demangleUtf8(part, { hash, fold, limit }) : part)).join("");
    }

    // Returns where a piece of a text ends: at its last byte, or after the first character from the
    // PIECEth byte on that no symbol has. What follows such a character is as at the start of a text.
    function pieceEnd(start, end) {
      for (let at = start + PIECE; at < end; at++) {
        at += Number(wasm.kodliwe_run_len(BigInt(at), BigInt(end - at)));
        const isContinued = (view[at + 1] & 0xc0) === 0x80;
        if (at < end && !isContinued) return at + 1;
      }
      return end;
    }

    // Returns a text without lone surrogates, with its symbols demangled by one call for each piece.
    function demangleUtf8(text, options) {
      reserve(text.length * 3);
      const next = base + encoder.encodeInto(text, view.subarray(base)).written;
      const printed = [];
      for (let start = base; start < next;) {
        const end = pieceEnd(start, next);
        printed.push(demanglePiece(start, end - start, next, options));
        start = end;
      }
      return printed.join("");
    }

    // Returns a piece of a text with its symbols demangled. Memory from `next` is free. The first room
    // is enough if there is no limit: the piece has at most PIECE + 4 bytes and one long candidate.
    function demanglePiece(at, size, next, { hash, fold, limit }) {
      const print = fold ? wasm.kodliwe_demangle_text_folded : wasm.kodliwe_demangle_text;
      for (let room = 1000 * Math.min(size, PIECE + 1) + MOST + MARKER + size; ;) {
        reserve(next - base + room);
        const needed = Number(print(
          BigInt(at), BigInt(size), BigInt(next), BigInt(room), hash ? 1 : 0, BigInt(limit)));
        if (needed <= room) return read(next, needed - 1);
        room = needed;
      }
    }

    return { demangle, isSymbol, symbols, demangleText };
  }

  return { isSupported, unpack, load };
}

const kodliwe = kodliweEngine();
if (typeof module !== "undefined") module.exports = kodliwe;
