// Tests the page's worker without a browser: what it sends for a text, block by block.
import fs from "node:fs";
import { createRequire } from "node:module";
import { HOSTILE, LOG, MARKER, ODD } from "./texts.mjs";

const require = createRequire(import.meta.url);
const SOURCE = fs.readFileSync(new URL("../worker.js", import.meta.url), "utf8");
const [LINES, CHARS, ROW, LIMIT, FEW, MANY] = [100, 8_192, 1_024, 16_384, 256, 1_000_000];

// Returns a worker, as a function that takes a message, and all messages that it sends.
function worker(kodliwe) {
  const sent = [];
  const start = new Function("kodliwe", "postMessage", `let onmessage;${SOURCE}kodliweWorker(kodliwe); return (data) => onmessage({ data });`);
  return { ask: start(kodliwe, (message) => sent.push(message)), sent };
}

// Returns what a worker sends for a text, joined: its blocks, the numbers of the paths that are cut, and the last message. Only that
// one says that the text is done.
async function answer({ ask, sent }, text, options = {}) {
  sent.length = 0;
  await ask({ turn: 1, text, hash: false, fold: false, isWhole: false, ...options });
  const all = (name) => sent.flatMap((message) => message[name]);
  const isDone = sent.every((message, at) => message.isDone === (at === sent.length - 1));
  return { input: all("input"), output: all("output"), cut: all("cut"), end: sent.at(-1), isDone };
}

// Returns the rows of a block, without the line feeds at their ends.
const rowsOf = ({ text, breaks }) => [0, ...breaks].flatMap((start, at) => text.slice(start, breaks[at] ?? text.length).replace(/\n$/, "").split("\n"));

// Returns true if no block has too many lines, characters or rows, or a row that is too long.
const areSmall = (blocks) => blocks.every((block) => {
  const rows = rowsOf(block);
  return block.text.split("\n").length <= LINES + 1 && block.text.length <= CHARS + ROW + 1 && rows.length === Math.max(block.rows, 1)
    && rows.every((row) => row.length <= ROW + 1);
});

// Returns true if exactly the blocks that end within a line are open. After a last line feed there is a block with an empty line.
const areEnded = (blocks, text) => blocks.every((block, at) => block.isOpen === (at < blocks.length - 1 && !block.text.endsWith("\n")))
  && (/[^\n]$/.test(text) || (blocks.at(-1).text === "" && blocks.at(-1).rows === 1));

// Returns the marked texts of blocks, by the numbers of their symbols.
function marked(blocks, textOf) {
  const texts = [];
  for (const block of blocks) {
    for (let at = 0; at < block.marks.length; at += 3) {
      const [number, start, end] = block.marks.slice(at, at + 3);
      texts[number] = (texts[number] ?? "") + textOf(block).slice(start, end);
    }
  }
  return texts;
}

export async function testWorker(check) {
  const kodliwe = require("../kodliwe.js");
  const bytes = await kodliwe.unpack(require("../module.js"));
  const it = await kodliwe.load(bytes);
  const one = worker(kodliwe);
  await one.ask({ bytes });
  check("the worker is ready", one.sent.length === 1 && one.sent[0].isReady);
  const broken = worker(kodliwe);
  await broken.ask({ bytes: bytes.slice(0, 100) });
  check("a broken module is a fault", broken.sent.length === 1 && typeof broken.sent[0].fault === "string");

  const wide = `x${"\u{1f600}".repeat(3_000)} ${"x".repeat(1_023)}\u{1f600}${"y".repeat(20_000)} _RNvC3foo3bar\n`;
  const generic = "_RINvC3foo3barhE _ZN3foo17h05af221e174051e9E\n";
  for (const [name, text] of [["log", LOG], ["odd", ODD], ["wide", wide.repeat(3)], ["generic", generic], ["empty", ""], ["\\n", "\n\n"], [HOSTILE, HOSTILE]]) {
    for (const options of [{}, { hash: true }, { fold: true }, { isWhole: true }]) {
      const told = await answer(one, text, options);
      const how = `worker, ${name.slice(0, 9)}, ${JSON.stringify(options)}`;
      const { isWhole, ...format } = options;
      const wanted = it.demangleText(text, { ...format, limit: LIMIT });
      check(`${how}: the text`, told.output.map((block) => block.text).join("") === wanted && told.isDone && !told.end.isFew);
      const ends = told.input.map(({ to }) => to);
      check(`${how}: the input`, told.input.every(({ from }, at) => from === (ends[at - 1] ?? 0)) && ends.at(-1) === text.length);
      const symbols = [...it.symbols(text, { ...format, limit: () => LIMIT })].filter(({ path }) => path !== null);
      check(`${how}: the marks`, told.end.count === symbols.length
        && marked(told.input, ({ from, to }) => text.slice(from, to)).join() === symbols.map(({ start, end }) => text.slice(start, end)).join()
        && marked(told.output, (block) => block.text).join() === symbols.map(({ path }) => path).join());
      const isPair = (before, after) => /[\ud800-\udbff]$/.test(before) && /^[\udc00-\udfff]/.test(after);
      const input = told.input.map(({ from, to, ...rest }) => ({ text: text.slice(from, to), ...rest }));
      check(`${how}: the ends of blocks`, areEnded(told.output, text) && areEnded(input, text));
      check(`${how}: the rows`, areSmall(told.output) && told.output.flatMap(rowsOf).every((row, at, rows) => at === 0 || !isPair(rows[at - 1], row)));
      check(`${how}: the rows of the input`, isWhole ? input.every(({ breaks }) => breaks.length === 0) : areSmall(input));
    }
  }

  // Each path has over 16,384 bytes. When all together have 1,000,000 characters and 8 for each of the text, 256 are left.
  const many = "_RMC0FGZZZ_Eu\n".repeat(200);
  const told = await answer(one, many);
  const lengths = marked(told.output, (block) => block.text).map((path) => path.length - MARKER.length);
  const most = MANY + 8 * many.length;
  let printed = 0;
  const areCut = lengths.every((length) => {
    const limit = printed < most ? LIMIT : FEW;
    printed += length + MARKER.length;
    return length <= limit && length > limit - 20;
  });
  check("worker: later paths are cut at 256", areCut && lengths.at(-1) <= FEW && told.end.isFew && told.cut.length === 200, `${printed} characters`);

  // A newer text ends the older one, also where that has no symbol for long.
  for (const text of [LOG.repeat(20), `${"x".repeat(30_000_000)} _ZN3fooE`]) {
    const older = one.ask({ turn: 2, text, hash: false, fold: false, isWhole: false });
    one.sent.length = 0;
    await one.ask({ turn: 3, text: "_ZN3fooE", hash: false, fold: false, isWhole: false });
    await older;
    const done = one.sent.filter((message) => message.isDone).map((message) => message.turn);
    check(`worker: a newer text ends one of ${text.length} characters`, done.join() === "3", done.join());
  }
}
