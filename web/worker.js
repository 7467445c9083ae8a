// The page's worker. It demangles a text, and divides the text and the result into blocks.
"use strict";

// A single function whose only free name is its argument, like kodliweEngine. page.js makes the
// worker from both.
function kodliweWorker(kodliwe) {
  const LINES = 100; // the most lines of a block
  const CHARS = 8_192; // about the most characters of a block
  const ROW = 1_024; // the characters of a row; a longer line continues in the next row
  const LIMIT = 16_384; // the most bytes of one path, before `{size limit reached}`
  const FEW = 256; // the most bytes of one path after all paths together
  const MANY = 1_000_000; // have this many characters and 8 times those of the text
  const MARKER = "{size limit reached}";
  const STRETCH = 262_144; // the most characters without a symbol that are processed at once
  const SLICE = 40; // milliseconds between two checks for a newer text

  let calls = null;
  let latest = null; // the job that was requested last

  const pause = () => new Promise((done) => {
    const channel = new MessageChannel();
    channel.port1.onmessage = () => { channel.port1.close(); done(); };
    channel.port2.postMessage(0);
  });

  // returns true if a division here would separate the two halves of a character
  const isLow = (text, at) => (text.charCodeAt(at) & 0xfc00) === 0xdc00;

  // Collects text and marks, and passes them to `hand` as blocks { text, marks, breaks, rows, isOpen }.
  // A mark is a triple: the number of the symbol, its start and its end in the block. A row ends
  // within a line at each break, and at the end of an open block. If isWhole is true, no line is
  // divided.
  function blocks(hand, isWhole) {
    const most = isWhole ? Infinity : ROW;
    let parts = [], marks = [], breaks = [], chars = 0, rows = 0, row = 0;
    function end(isOpen) {
      const all = rows + (row > 0 || parts.length === 0 ? 1 : 0);
      hand({ text: parts.join(""), marks: Int32Array.from(marks), breaks: Int32Array.from(breaks), rows: all, isOpen });
      parts = [];
      marks = [];
      breaks = [];
      chars = rows = row = 0;
    }
    function put(part, number) {
      if (number !== null) marks.push(number, chars, chars + part.length);
      parts.push(part);
      chars += part.length;
      row += part.length;
    }
    function divide() {
      if (chars >= CHARS) {
        end(true);
        return;
      }
      breaks.push(chars);
      rows++;
      row = 0;
    }
    // Adds text that is within one line.
    function add(text, number) {
      for (let from = 0; from < text.length;) {
        if (row >= most) divide();
        let to = Math.min(text.length, from + most - row);
        if (to < text.length && isLow(text, to)) to++;
        put(text.slice(from, to), number);
        from = to;
      }
    }
    function feed() {
      put("\n", null);
      row = 0;
      if (++rows >= LINES || chars >= CHARS) end(false);
    }
    let feedAt = -1; // the index of the next line feed in the text; `plain` reads the text in order
    function plain(text, from, to) {
      for (let at = from; at < to;) {
        if (feedAt < at) feedAt = text.indexOf("\n", at);
        if (feedAt === -1) feedAt = Infinity;
        const stop = Math.min(feedAt, to);
        add(text.slice(at, stop), null);
        if (stop < to) feed();
        at = stop + 1;
      }
    }
    // Ends the text. After a last line feed there is one more line, which is empty.
    function last() {
      if (row === 0 && parts.length > 0) end(false);
      end(false);
    }
    return { plain, add, last };
  }

  async function run(job) {
    const { text, hash, fold, isWhole } = job;
    let news = { input: [], output: [], cut: [] };
    let count = 0, printed = 0, isFew = false, from = 0;
    const send = (isDone) => {
      postMessage({ turn: job.turn, ...news, count, isFew, isDone });
      news = { input: [], output: [], cut: [] };
    };
    // The page has the text, so a block of it is reported only by its start and its end.
    const input = blocks(({ text: part, ...rest }) => {
      news.input.push({ from, to: from + part.length, ...rest });
      from += part.length;
    }, isWhole);
    const output = blocks((block) => news.output.push(block), false);
    const most = MANY + 8 * text.length;
    const limit = () => (printed < most ? LIMIT : FEW);
    let kept = 0;
    let until = performance.now() + SLICE / 2;
    // Returns true if this job is still the latest. Reports its results so far, and lets a newer job arrive.
    async function isWanted() {
      if (performance.now() < until) return true;
      send(false);
      await pause();
      until = performance.now() + SLICE;
      return job === latest;
    }
    // Copies the text up to an index. Returns true if this job is still the latest.
    async function keep(to) {
      while (to - kept > STRETCH) {
        plain(kept + STRETCH);
        if (!(await isWanted())) return false;
      }
      plain(to);
      return true;
    }
    function plain(to) {
      input.plain(text, kept, to);
      output.plain(text, kept, to);
      kept = to;
    }
    for (const { start, end, path } of calls.symbols(text, { hash, fold, limit })) {
      if (path !== null) {
        // A wait costs more than most symbols do, so only a long text without symbols waits.
        if (start - kept > STRETCH && !(await keep(start))) return;
        plain(start);
        input.add(text.slice(start, end), count);
        output.add(path, count);
        kept = end;
        if (path.includes(MARKER)) news.cut.push(count);
        isFew ||= printed >= most;
        printed += path.length;
        count++;
      }
      // All jobs share the module's memory, so a newer job has overwritten the text.
      if (performance.now() >= until && !(await isWanted())) return;
    }
    if (!(await keep(text.length))) return;
    input.last();
    output.last();
    send(true);
  }

  onmessage = async ({ data }) => {
    if (data.bytes) {
      try {
        calls = await kodliwe.load(data.bytes);
        postMessage({ isReady: true });
      } catch (error) {
        postMessage({ fault: error.message });
      }
    } else {
      latest = data;
      await run(data);
    }
  };
}
