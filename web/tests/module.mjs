// Tests the module with the stored corpus, hostile symbols and odd texts, and compares it with the program.
import { spawnSync } from "node:child_process";
import { createHash } from "node:crypto";
import fs from "node:fs";
import { createRequire } from "node:module";
import { BEFORE, FOLDED, HOSTILE, HOSTILE_LINES, LOG, LOG_LINE, MARKER, ODD, ODD_RESULT, REREAD } from "./texts.mjs";

const require = createRequire(import.meta.url);
const root = new URL("../../", import.meta.url).pathname;
const PROGRAMS = `${root}out/build/`;
const CORPUS = `${root}crates/demangle_corpus/stdin`;
const BUILT = `${root}crates/demangle_web/out/kodliwe.wasm`;

const MOST = 1_000_000; // bytes of a path without its marker
const LETTERS = { n: "\n", r: "\r", t: "\t", "\\": "\\", "|": "|" };

// Returns a field of the corpus without its escapes (tests/README.md).
function plain(field) {
  return field.replace(/\\(x[0-9a-fA-F]{2}|u\{[0-9a-fA-F]+\}|[nrt\\|])/g, (_, it) =>
    LETTERS[it] ?? String.fromCodePoint(parseInt(it.replace(/^[xu]\{?/, ""), 16)));
}

// Returns true if a text matches a field, which is the text, or its length and its digest.
function isField(text, field) {
  const sum = /^#len=(\d+) sha256=([0-9a-f]+)$/.exec(field);
  if (!sum) return text === plain(field);
  const bytes = Buffer.from(text ?? "");
  return bytes.length === Number(sum[1]) && createHash("sha256").update(bytes).digest("hex") === sum[2];
}

// Returns the output of a program for a text, or null if its status is not 0.
function outputOf(program, flags, text) {
  if (!fs.existsSync(PROGRAMS + program)) throw new Error(`${program} is not in ${PROGRAMS}: \`make\` builds it`);
  const run = spawnSync(PROGRAMS + program, flags, { input: text, maxBuffer: 1 << 30 });
  return run.status === 0 ? run.stdout.toString() : null;
}

// Returns the path of a symbol with its hash and the path without it. demangle_filter follows each reference.
const wholePaths = (symbol) => [[], ["--no-hash"]].map((flags) => outputOf("demangle_filter", flags, symbol));

const unmarked = (path) => (path.endsWith(MARKER) ? path.slice(0, -MARKER.length) : path);

// Returns the folded paths of a symbol, from the second symbol that REREAD has for it. They have over 1,000,000 bytes.
const foldedPaths = (like) => wholePaths(like).map((path) => unmarked(path).replaceAll("}<>", "}<_>").slice(0, MOST) + MARKER);

// Returns true if a path is the start of the whole path, the marker and the suffix. The start ends before a reference, which
// never follows a letter or a digit.
function isCut(path, whole, suffix) {
  const end = MARKER + suffix;
  const start = path.slice(0, -end.length);
  const all = unmarked(whole);
  return path.endsWith(end) && /\W$/.test(start) && start.length < all.length && all.startsWith(start);
}

// Returns true if the paths of a symbol are cut, without a suffix and with one.
function areCut(it, symbol, wholes, fold) {
  return ["", ".cold.7"].every((suffix) => [true, false].every((hash, at) =>
    isCut(it.demangle(symbol + suffix, { hash, fold }), wholes[at], suffix)));
}

// Compares each symbol with its stored paths. For a symbol of REREAD, demangle_filter has to return the stored paths, since
// the corpus has only their digests. The module has to cut them, and no others.
function testCorpus(it, check) {
  const count = { symbols: 0, others: 0, limits: 0, cut: 0 };
  const wrong = [];
  for (const line of fs.readFileSync(CORPUS, "utf8").split("\n")) {
    const fields = line.split("\t");
    const text = plain(fields[0] === "\\limit" ? fields[1] : fields[0]);
    const both = (limit) => [true, false].map((hash) => it.demangle(text, { hash, limit }));
    let isRight = true;
    if (fields[0] === "\\limit") {
      count.limits++;
      const [full, short] = both(Math.min(Number(fields[2]), MOST));
      isRight = full === null || (isField(full, fields[3]) && isField(short, fields[4]));
    } else if (fields[0] !== "\\pieces" && fields.length === 5) {
      if (fields[1] === "OK") {
        count.symbols++;
        const wholes = REREAD.has(text) ? wholePaths(text) : both();
        isRight = wholes.every((path, at) => path !== null && isField(path, fields[3 + at])) && it.isSymbol(text);
        if (REREAD.has(text)) {
          count.cut++;
          isRight &&= areCut(it, text, wholes, false);
        }
      } else {
        count.others++;
        isRight = both()[0] === null && !it.isSymbol(text);
      }
    }
    if (!isRight) wrong.push(line.slice(0, 100));
  }
  check("the stored corpus", wrong.length === 0 && count.symbols > 2000 && count.others > 500 && count.cut === REREAD.size,
    `${count.symbols} symbols, ${count.others} others, ${count.limits} limits, ${count.cut} cut; wrong: ${wrong.length} ${wrong.slice(0, 3).join(" | ")}`);
}

function testFolding(it, check) {
  const generic = "_RINvC3foo3barhE";
  check("arguments are printed unless they are folded", it.demangle(generic) === "foo::bar::<u8>" && it.demangleText(generic) === "foo::bar::<u8>");
  for (const [symbol, full, short] of FOLDED) {
    const forms = [[true, full], [false, short]];
    check(`folded: ${symbol}`, forms.every(([hash, path]) => it.demangle(symbol, { hash, fold: true }) === path));
    // A text with half a character is demangled in parts.
    const isText = (start) => forms.every(([hash, path]) => it.demangleText(`${start}${symbol} b`, { hash, fold: true }) === `${start}${path} b`);
    check(`folded in a text: ${symbol}`, isText("é ") && isText("\ud800 "));
  }
  const options = { fold: true, limit: 4 };
  check("a folded path's limit", it.demangle(`${generic}.cold.7`, options) === "foo{size limit reached}.cold.7");
  check("a folded text's limit", it.demangleText(`a ${generic} b`, options) === "a foo{size limit reached} b");
  const half = generic.slice(0, -1);
  check("no symbol, folded", it.demangle(half, { fold: true }) === null && it.demangleText(half, { fold: true }) === half);
}

// The SHA-256 of the corpus's folded paths, each with its hash and without it, and a line feed after either. The paths
// come from the crate with the change that tests/README.md describes.
const FOLDED_CORPUS = "1115a1606b838030f4d3de7343fa19ce82e129044f750537a7c938998f47f82c";

// Folds each symbol of the corpus. The paths of 1,252 symbols then differ from those that are not folded. Where the module has
// to cut a path, the digest has the whole path.
function testFoldedCorpus(it, check) {
  const sum = createHash("sha256");
  const wrong = [];
  let count = 0, changed = 0;
  for (const line of fs.readFileSync(CORPUS, "utf8").split("\n")) {
    const fields = line.split("\t");
    if (fields[0] === "\\limit" || fields[0] === "\\pieces" || fields[1] !== "OK") continue;
    const text = plain(fields[0]);
    const like = REREAD.get(text);
    const [full, short] = like ? foldedPaths(like) : [true, false].map((hash) => it.demangle(text, { hash, fold: true }));
    if (like && !areCut(it, text, [full, short], true)) wrong.push(text);
    sum.update(`${full}\n${short}\n`);
    count++;
    if (!isField(full, fields[3])) changed++;
  }
  check("the stored corpus, folded", sum.digest("hex") === FOLDED_CORPUS && changed === 1252 && wrong.length === 0,
    `${count} symbols, ${changed} other paths; wrong: ${wrong.length} ${wrong.join(" | ")}`);
}

function joined(it, text, options) {
  let result = "", kept = 0;
  for (const { start, end, path } of it.symbols(text, options)) {
    if (path === null) continue;
    result += text.slice(kept, start) + path;
    kept = end;
  }
  return result + text.slice(kept);
}

// A limit of over 1,000,000 takes no more room. In `symbols`, each path has a limit of its own.
function testLimits(it, check) {
  const paths = (limit) => [...it.symbols("_ZN3foo3barE _ZN3foo3barE _ZN3foo3barE", { limit })].map((one) => one.path).join();
  for (const limit of [MOST + 1, 2 ** 40, Number.MAX_SAFE_INTEGER]) {
    check(`a limit of ${limit}`, () => it.demangle("_ZN3foo3barE", { limit }) === "foo::bar" && paths(() => limit) === "foo::bar,foo::bar,foo::bar");
  }
  const limits = [4, 8, 0];
  check("a limit for each symbol", paths(() => limits.shift()) === `foo${MARKER},foo::bar,${MARKER}` && limits.length === 0);
}

// A text of 10 KB whose paths are over 60,000 times as long as their symbols, if only a limit of bytes cuts them.
function testNoLimit(it, check) {
  const text = "_RMC0FG15FTGf_Eu\n".repeat(600);
  const most = 1_000 * text.length;
  check("a text without a limit", it.demangleText(text).length <= most && it.demangleText(`\ud800${text}`).length <= most);
  check("a text with a limit", it.demangleText(text.slice(0, 17), { limit: 1_000_000 }).length > 1_000 * 17);
}

// Texts with a candidate near the 16,384th byte, where a piece of a text ends.
function testPieces(it, check) {
  const pairs = [
    [" _RNvC3foo3bar", " foo::bar"], ["a_RC1a __ZN1aE", "a_RC1a a"], ["é__ZN3fooEß", "éfooß"], ["€._ZN1aE", "€.a"], ["𝕂_ZN1aE", "𝕂a"],
    ["\\n_RNvC3foo3bar", "\\nfoo::bar"], ["\x1b[31m_ZN1aE", "\x1b[31ma"], ["_RC2_40 ", "_RC2_40 "],
  ];
  const wrong = [];
  for (const [symbol, path] of pairs) {
    for (let at = 16_384 - 20; at < 16_384 + 3; at++) {
      const [start, end] = ["-".repeat(at), "é".repeat(9)];
      if (it.demangleText(start + symbol + end) !== start + path + end) wrong.push(`${symbol} at ${at}`);
    }
  }
  check("the end of a piece changes nothing", wrong.length === 0, wrong.slice(0, 3).join(" | "));
}

// Counts the bytes that the module is called for: each text is printed once, in pieces of at least 16,384 bytes.
async function testCalls(kodliwe, bytes, check) {
  const { instantiate } = WebAssembly;
  const sizes = [];
  WebAssembly.instantiate = async (...given) => {
    const { instance } = await instantiate(...given);
    const print = instance.exports.kodliwe_demangle_text;
    const counted = (at, size, ...more) => {
      sizes.push(Number(size));
      return print(at, size, ...more);
    };
    return { instance: { exports: { ...instance.exports, kodliwe_demangle_text: counted } } };
  };
  const loaded = kodliwe.load(bytes);
  WebAssembly.instantiate = instantiate;
  const it = await loaded;
  const binder = "_RMC0FGZZZZZZZZZZ_Eu";
  // The memory grows for this path, which fills it up to a few bytes.
  check("a long path as the first", () => it.demangle(binder, { limit: 500_000 }).length > 500_000);
  const text = `${binder}${".a".repeat(40)}\n`.repeat(600);
  check("no text is printed twice", it.demangleText(text).length > 1_000_000 && sizes.reduce((sum, size) => sum + size) === text.length);
  check("a text has few pieces", sizes.length <= text.length / 16_384 + 1, `${sizes.length} of ${text.length} bytes`);
}

// The programs that the module is compared with, each with its options and those of the module.
const COMPARED = [
  ["with hashes", { hash: true }, "kodliwe", ["--hash"]],
  ["without hashes", { hash: false }, "kodliwe", []],
  ["folded, with hashes", { hash: true, fold: true }, "kodliwe", ["--fold", "--hash"]],
  ["folded, without hashes", { hash: false, fold: true }, "kodliwe", ["--fold"]],
];

function testBesideProgram(it, check) {
  const corpus = fs.readFileSync(CORPUS, "utf8");
  const texts = [["corpus", corpus], ["log", LOG], ["log in one line", LOG_LINE], ["50 hostile", HOSTILE_LINES.slice(0, 50 * (HOSTILE.length + 1))]];
  for (const [how, options, program, flags] of COMPARED) {
    if (!fs.existsSync(PROGRAMS + program)) {
      check(`the program ${program}, which is compared with`, false, `it is not in ${PROGRAMS}: \`make\` builds it`);
      continue;
    }
    for (const [name, text] of texts) {
      const expected = outputOf(program, flags, text);
      check(`${name}, ${how}, is the output of ${program}`, expected !== text && it.demangleText(text, options) === expected, `${expected?.length} characters`);
      const cut = outputOf(program, [...flags, "--limit", "1000000"], text);
      check(`${name}, ${how}, each path on its own`, cut !== text && joined(it, text, options) === cut && it.demangleText(text, { ...options, limit: 1_000_000 }) === cut, `${cut?.length} characters`);
    }
  }
}

export async function testModule(check) {
  const kodliwe = require("../kodliwe.js");
  const bytes = await kodliwe.unpack(require("../module.js"));
  if (fs.existsSync(BUILT)) {
    check("module.js has the module that is built", Buffer.compare(fs.readFileSync(BUILT), bytes) === 0);
  } else {
    check("module.js has the module that is built", false, `no ${BUILT}: web/build makes it`);
  }
  check("64-bit memory is told", kodliwe.isSupported());
  check("its lack is told", () => {
    const { validate } = WebAssembly;
    WebAssembly.validate = () => false;
    try {
      return !kodliwe.isSupported();
    } finally {
      WebAssembly.validate = validate;
    }
  });
  const { imports, exports } = { imports: WebAssembly.Module.imports, exports: WebAssembly.Module.exports };
  const compiled = new WebAssembly.Module(bytes);
  check("the module asks nothing of its page", imports(compiled).length === 0);
  const named = exports(compiled).map((one) => one.name).filter((one) => one.startsWith("kodliwe_")).sort();
  check("its calls", named.join() === "kodliwe_demangle_folded,kodliwe_demangle_limited,kodliwe_demangle_text,kodliwe_demangle_text_folded,kodliwe_is_symbol,kodliwe_plain_len,kodliwe_run_len,kodliwe_run_start,kodliwe_stays", named.join(" "));
  const it = await kodliwe.load(bytes);
  check("a path", () => it.demangle("_ZN3foo17h05af221e174051e9E") === "foo");
  check("a path with its hash", () => it.demangle("_ZN3foo17h05af221e174051e9E", { hash: true }) === "foo::h05af221e174051e9");
  check("a suffix behind the marker", () => it.demangle("_ZN3foo3barE.cold.7", { limit: 4 }) === "foo{size limit reached}.cold.7");
  check("no symbol", () => it.demangle("_ZN3foo") === null && it.demangle("é") === null && it.demangle("") === null);
  check("a hostile symbol ends at the limit", () => it.demangle(HOSTILE, { limit: 16384 }).length === 16384 + 20);
  check("a text that loses nothing", () => it.demangleText(ODD) === ODD_RESULT && joined(it, ODD, {}) === ODD_RESULT);
  for (const [text, wanted] of BEFORE) {
    check(`before a symbol: ${JSON.stringify(text)}`, () => it.demangleText(text) === wanted && joined(it, text, {}) === wanted);
  }
  check("a text without symbols", () => it.demangleText("_R _ZN\r\n") === "_R _ZN\r\n" && it.demangleText("") === "");
  check("a text's limit", () => it.demangleText("a _ZN3foo3barE b", { limit: 4 }) === "a foo{size limit reached} b");
  for (const test of [testFolding, testCorpus, testFoldedCorpus, testLimits, testNoLimit, testPieces, testBesideProgram]) {
    try {
      test(it, check);
    } catch (error) {
      check(test.name, false, error.stack);
    }
  }
  await testCalls(kodliwe, bytes, check);
}
