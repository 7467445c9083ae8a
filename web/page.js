// The page shows a text next to the same text with its symbols demangled. A worker (worker.js) does
// the work. Its results are shown in blocks of lines, and the browser lays out only those in view.
"use strict";

(() => {
  // A text of more characters, or with a longer line, is shown but not edited. At each key, browsers
  // lay out the whole line of a text area, and some browsers all of its lines.
  const EDITED = 100_000;
  const EDITED_LINE = 20_000;
  const LARGEST = 32_000_000; // the most characters of a text, or bytes of a file
  const SLICE = 8; // milliseconds of work on the display between two chances for a key
  const TOLD = 600; // the most characters of a name in the line below the panes
  const STILL = 600; // milliseconds without a change before a screen reader is notified
  const LINKED = 30_000; // the most characters of a symbol in a link
  const FRAMES = 12; // the number of frames in which a symbol is scrolled into view again
  const EXAMPLE = `thread 'main' panicked at src/parse.rs:88:14:
called \`Option::unwrap()\` on a \`None\` value
stack backtrace:
   0:     0x55d0c1a2b3c4 - _ZN3std9panicking11begin_panic17h3f1a9c2b7d5e6041E
   1:     0x55d0c1a2b5f0 - _ZN71_$LT$Test$u20$$u2b$$u20$$u27$static$u20$as$u20$foo..Bar$LT$Test$GT$$GT$3bar17h930b740aa94f1d3aE
   2:     0x55d0c1a2b9a8 - _RNvMsr_NtCs3ssYzQotkvD_3std4pathNtB5_7PathBuf3newCs15kBYyAo9fc_7mycrate
   3:     0x55d0c1a2bb10 - _RINbNbCskIICzLVDPPb_5alloc5alloc8box_freeDINbNiB4_5boxed5FnBoxuEp6OutputuEL_ECs1iopQbuBiw2_3std
   4:     0x55d0c1a2bc44 - __libc_start_main
`;

  const $ = (id) => document.getElementById(id);
  const [input, copy, download, clear] = ["input", "copy", "download", "clear"].map($);
  const [hash, fold, wrap] = ["hash", "fold", "wrap"].map($);
  const commas = (number) => number.toLocaleString("en");

  // ---- Messages

  let waiting = 0;

  // Sets the status after a moment without a change, so that a screen reader is not flooded.
  function say(text) {
    clearTimeout(waiting);
    waiting = setTimeout(() => { $("status").textContent = text; }, STILL);
  }

  function tell(fault) {
    $("fault").textContent = fault;
    $("fault").hidden = fault === "";
  }

  const shortened = (text) =>
    text.length > TOLD ? `${text.slice(0, TOLD)}… (${commas(text.length)} characters)` : text;

  // ---- Panes

  // Returns the index of the first element that passes a test. No element before it may pass.
  function firstOf(row, test) {
    let low = 0, high = row.length;
    while (low < high) {
      const middle = (low + high) >> 1;
      if (test(row[middle])) high = middle; else low = middle + 1;
    }
    return low;
  }

  // A text in blocks { text, marks, rows, isOpen }, as the worker makes them. A block gets elements
  // for its marks when it comes into view.
  class Pane {
    constructor(element) {
      this.element = element;
      this.blocks = [];
      this.begin();
      this.current = -1;
      const seen = (entries) => entries.forEach((it) => { if (it.isIntersecting) this.mark(it.target.block); });
      this.observer = new IntersectionObserver(seen, { root: element, rootMargin: "50% 0px" });
    }

    begin() {
      this.reached = 0; // the number of blocks that belong to the current text
      this.isDivided = false; // whether a line of it has several rows
    }

    clear() {
      this.observer.disconnect();
      this.element.replaceChildren();
      this.blocks = [];
      this.begin();
    }

    // Adds the next block. If the same block is already there, it stays.
    take(block) {
      const old = this.blocks[this.reached];
      this.isDivided ||= block.isOpen || block.breaks.length > 0;
      if (!old || !isSame(old, block)) {
        this.make(block);
        if (old) {
          this.observer.unobserve(old.element);
          old.element.replaceWith(block.element);
        } else {
          this.element.append(block.element);
        }
        this.blocks[this.reached] = block;
      } else {
        [old.from, old.to] = [block.from, block.to]; // the text before the block may have changed
      }
      this.reached++;
    }

    make(block) {
      const element = document.createElement("div");
      element.className = block.isOpen ? "block open" : "block";
      element.style.setProperty("--rows", block.rows);
      element.textContent = block.text;
      element.block = block;
      block.element = element;
      block.isMade = block.marks.length + block.breaks.length === 0;
      if (!block.isMade) this.observer.observe(element);
    }

    // Removes the remaining blocks of an earlier text.
    end() {
      for (const { element } of this.blocks.splice(this.reached)) {
        this.observer.unobserve(element);
        element.remove();
      }
    }

    // Makes the marks and rows of a block that comes into view.
    mark(block) {
      this.observer.unobserve(block.element);
      if (block.isMade) return;
      block.isMade = true;
      const { text, marks, breaks } = block;
      const parts = [];
      let kept = 0, divided = 0;
      const put = (to, into) => {
        for (; divided < breaks.length && breaks[divided] <= to; divided++) {
          const row = document.createElement("span");
          row.className = "row";
          into.push(text.slice(kept, breaks[divided]), row);
          kept = breaks[divided];
        }
        into.push(text.slice(kept, to));
        kept = to;
      };
      for (let n = 0; n < marks.length; n += 3) {
        put(marks[n + 1], parts);
        const mark = document.createElement("mark");
        mark.dataset.number = marks[n];
        mark.classList.toggle("current", marks[n] === this.current);
        mark.textContent = text.slice(kept, marks[n + 2]);
        kept = marks[n + 2];
        parts.push(mark);
      }
      put(text.length, parts);
      block.element.replaceChildren(...parts);
    }

    text() {
      return this.blocks.map((it) => it.text).join("");
    }

    // Yields the blocks that contain a part of a symbol, in order.
    *blocksOf(number) {
      const last = ({ marks }) => (marks.length ? marks[marks.length - 3] : -1);
      const marked = this.blocks.filter((it) => it.marks.length);
      for (let at = firstOf(marked, (it) => last(it) >= number); at < marked.length && marked[at].marks[0] <= number; at++) {
        yield marked[at];
      }
    }

    textOf(number) {
      let text = "";
      for (const block of this.blocksOf(number)) {
        const { marks } = block;
        for (let n = 0; n < marks.length; n += 3) {
          if (marks[n] === number) text += block.text.slice(marks[n + 1], marks[n + 2]);
        }
      }
      return text;
    }

    // Returns the first symbol that ends after an index in the text, or -1. Only blocks of the input have indices.
    firstAfter(place) {
      const at = firstOf(this.blocks, (it) => it.to > place);
      for (const { from, marks } of this.blocks.slice(at, this.reached)) {
        for (let n = 0; n < marks.length; n += 3) {
          if (from + marks[n + 2] > place) return marks[n];
        }
      }
      return -1;
    }

    // Returns the symbol that contains an index in the text or ends there, or -1.
    symbolAt(place) {
      const block = this.blocks[firstOf(this.blocks, (it) => it.to >= place)];
      for (let n = 0; block && n < block.marks.length; n += 3) {
        const [number, start, end] = block.marks.subarray(n, n + 3);
        if (block.from + start <= place && place <= block.from + end) return number;
      }
      return -1;
    }

    // Highlights the symbol that is shown below the panes.
    point(number) {
      this.current = number;
      for (const it of this.element.querySelectorAll("mark.current")) it.classList.remove("current");
      for (const it of this.element.querySelectorAll(`mark[data-number="${number}"]`)) it.classList.add("current");
    }

    // Scrolls a symbol into view.
    bring(number) {
      const { value: block } = this.blocksOf(number).next();
      if (!block) return;
      this.mark(block);
      this.scrollTo(block.element.querySelector(`mark[data-number="${number}"]`).getClientRects()[0]);
    }

    // Scrolls a rectangle into view, as little as possible. A name may be wider than the pane.
    scrollTo(place) {
      const box = this.element.getBoundingClientRect();
      if (place.top < box.top || place.bottom > box.bottom) {
        this.element.scrollTop += place.top - box.top - box.height / 2;
      }
      if (place.left < box.left || place.left > box.right - box.width / 4) {
        this.element.scrollLeft += place.left - box.left - box.width / 4;
      }
    }
  }

  function isSame(one, other) {
    return one.text === other.text && one.isOpen === other.isOpen && one.rows === other.rows
      && isEqual(one.marks, other.marks) && isEqual(one.breaks, other.breaks);
  }

  const isEqual = (one, other) => one.length === other.length && one.every((it, n) => it === other[n]);

  const shown = new Pane($("shown"));
  const output = new Pane($("output"));

  // ---- The text

  let held = null; // { text, name } if the text is only shown, null if it is in the text area
  let lineEnd = "\n"; // the line end that a line feed of the text area represents
  let worker = null;
  let turn = 0; // the number of the latest job; results of earlier jobs are dropped
  let asked = { text: "", isNew: true };
  let symbols = 0;
  let cut = new Set(); // the numbers of the paths that end with the marker
  let isFinished = false; // whether the whole result is shown
  let sought = -1; // the first symbol that ends after this index is to be scrolled into view, unless it is -1

  const isArea = () => held === null;

  function isEdited(text) {
    if (text.length > EDITED) return false;
    for (let at = 0; text.length - at > EDITED_LINE;) {
      const end = text.indexOf("\n", at);
      if (end === -1 || end - at > EDITED_LINE) return false;
      at = end + 1;
    }
    return true;
  }

  // Returns the line end of a text, or null if it has several kinds or only carriage returns.
  function lineEndOf(text) {
    if (!text.includes("\r")) return "\n";
    return /\r(?!\n)|(?<!\r)\n/.test(text) ? null : "\r\n";
  }

  function isTooLarge(size, what) {
    if (size <= LARGEST) return false;
    tell(`${what} is too large for this page: it has ${commas(size)} characters, and the page takes `
      + `${commas(LARGEST)}. The program kodliwe filters texts of any size.`);
    return true;
  }

  function hold(text, name) {
    held = { text, name };
    input.value = "";
    input.hidden = true;
    const box = shown.element;
    box.removeAttribute("aria-hidden");
    box.setAttribute("role", "region");
    box.setAttribute("aria-labelledby", "label held");
    box.tabIndex = 0;
    $("held").textContent = `${name}: ${commas(text.length)} characters, shown but not edited here`;
  }

  function release() {
    held = null;
    input.hidden = false;
    const box = shown.element;
    box.setAttribute("aria-hidden", "true");
    box.removeAttribute("role");
    box.removeAttribute("aria-labelledby");
    box.removeAttribute("tabindex");
    $("held").textContent = "";
  }

  // Replaces the text. The new text is put into the text area if that loses nothing, and is only shown otherwise.
  function set(text, name) {
    if (isTooLarge(text.length, name)) return;
    tell("");
    const ends = lineEndOf(text);
    if (ends !== null && isEdited(text)) {
      if (!isArea()) {
        shown.clear(); // otherwise the whole earlier text would be laid out under the text area
        release();
      }
      input.value = text;
      lineEnd = ends;
      if (input.value === text.replaceAll("\r\n", "\n")) {
        ask(true, 0);
        return;
      }
    }
    lineEnd = "\n";
    hold(text, name);
    ask(true, 0);
  }

  let pastedAt = -1; // the index of a pasted text that the text area inserts by itself

  // Reads the text area after an edit.
  function edited() {
    const place = pastedAt;
    pastedAt = -1;
    if (!isEdited(input.value)) {
      set(input.value, "The text");
      shown.element.focus();
    } else {
      tell("");
      ask(false, place);
    }
  }

  function pasted(event) {
    const [file] = event.clipboardData.files;
    const text = event.clipboardData.getData("text/plain");
    if (file && text === "") {
      event.preventDefault();
      open(file);
      return;
    }
    const ends = lineEndOf(text);
    if (isArea() && event.target === input) {
      const before = input.value.slice(0, input.selectionStart), behind = input.value.slice(input.selectionEnd);
      const isWhole = before + behind === "";
      if (isEdited(before + text + behind) && ends !== null && !text.includes("\0")) {
        if (isWhole) lineEnd = ends; // otherwise the pasted text gets the line ends of the text
        if (text !== "") pastedAt = before.length;
        return;
      }
      event.preventDefault();
      set(isWhole ? text : withEnds(before) + text + withEnds(behind), "The pasted text");
    } else {
      event.preventDefault();
      set(text, "The pasted text");
    }
    (isArea() ? input : shown.element).focus();
  }

  const withEnds = (text) => (lineEnd === "\n" ? text : text.replaceAll("\n", lineEnd));

  // ---- Files

  // Returns the text of a file's bytes. They are read as UTF-8, or as UTF-16 after its byte order mark, as
  // some shells write it. Any others are read as Windows-1252, which has a character for every byte.
  function decoded(bytes) {
    const [first, second] = bytes;
    const named = first === 0xff && second === 0xfe ? "utf-16le" : first === 0xfe && second === 0xff ? "utf-16be" : "utf-8";
    for (const label of [named, "windows-1252"]) {
      try {
        const text = new TextDecoder(label, { fatal: true, ignoreBOM: label === "utf-8" }).decode(bytes);
        return { text, label };
      } catch {
        // the next encoding is tried
      }
    }
    throw new Error("no text");
  }

  async function open(file) {
    if (isTooLarge(file.size, file.name)) return;
    let bytes;
    try {
      bytes = new Uint8Array(await file.arrayBuffer());
    } catch (error) {
      tell(`${file.name} could not be read: ${error.message}`);
      return;
    }
    const { text, label } = decoded(bytes);
    set(text, file.name);
    fileName = file.name;
    if (label !== "utf-8") tell(`${file.name} is not UTF-8; it was read as ${label}.`);
    (isArea() ? input : shown.element).focus();
  }

  let fileName = "";

  function resultName() {
    const [, stem, ending] = /^(.*?)(\.[^.]*)?$/.exec(fileName);
    return `${stem || "text"}.demangled${ending ?? ".txt"}`;
  }

  // ---- The worker's jobs, and the display of their results

  function ask(isNew, place = -1) {
    const text = held ? held.text : input.value;
    asked = { text, isNew };
    sought = place;
    isFinished = false;
    if (text === "") fileName = "";
    worker.postMessage({ turn: ++turn, text, hash: hash.checked, fold: fold.checked, isWhole: isArea() });
    clear.disabled = text === "";
    for (const it of [copy, download, $("previous"), $("next")]) it.disabled = true;
    shown.begin();
    output.begin();
    symbols = 0;
    cut = new Set();
    choose(-1);
    output.element.ariaBusy = "true";
  }

  // Results are shown in slices, so that a key never waits for all of them.
  const answers = [];

  const pause = () => new Promise((done) => {
    const channel = new MessageChannel();
    channel.port1.onmessage = () => { channel.port1.close(); done(); };
    channel.port2.postMessage(0);
  });

  async function answered(news) {
    if (answers.push(news) > 1) return;
    let until = performance.now() + SLICE;
    while (answers.length) {
      for (const _ of showing(answers[0])) {
        if (performance.now() < until) continue;
        await pause();
        until = performance.now() + SLICE;
      }
      answers.shift();
    }
  }

  function* showing(news) {
    const isLate = () => news.turn !== turn;
    if (isLate()) return;
    if (asked.isNew) {
      asked.isNew = false;
      for (const pane of [shown, output]) {
        pane.clear();
        pane.element.scrollTo(0, 0);
      }
    }
    for (const it of news.input) {
      shown.take({ ...it, text: asked.text.slice(it.from, it.to) });
      yield;
      if (isLate()) return;
    }
    for (const it of news.output) {
      output.take(it);
      yield;
      if (isLate()) return;
    }
    for (const number of news.cut) cut.add(number);
    symbols = news.count;
    count(news);
    seek();
    if (news.isDone) finish();
  }

  function finish() {
    shown.end();
    output.end();
    output.element.ariaBusy = "false";
    for (const it of [copy, download]) it.disabled = asked.text === "";
    for (const it of [$("previous"), $("next")]) it.disabled = symbols === 0;
    scrolled(input, shown.element);
    isFinished = true;
    seek();
    if (symbols === 1) choose(0); else caretMoved();
    document.body.dataset.done = turn;
  }

  function count({ isDone, isFew }) {
    const found = `${commas(symbols)} ${symbols === 1 ? "symbol" : "symbols"}`;
    const none = "No symbols found. Rust symbols begin with _R or _ZN.";
    const text = asked.text === "" ? "" : !isDone ? `${found} so far …` : symbols === 0 ? none : `${found} demangled.`;
    const few = isFew ? " (256 once all were very long)" : "";
    const paths = cut.size === 1 ? "path ends" : "paths end";
    const more = cut.size ? `${commas(cut.size)} ${paths} in {size limit reached}, after 16,384 bytes${few} or too many references.` : "";
    $("count").textContent = text;
    $("cut").textContent = more;
    if (isDone) say(`${text} ${more}`);
  }

  // ---- Pointing at a symbol, choosing it, and stepping to it

  let current = -1; // the symbol that is shown below the panes
  let chosen = -1; // the symbol that was clicked, stepped to, or has the text cursor; it is shown again when the pointer leaves

  function point(number) {
    if (number === current) return;
    current = number;
    shown.point(number);
    output.point(number);
    for (const it of [$("copypath"), $("link")]) it.disabled = number === -1;
    $("mangled").textContent = number === -1 ? "Hover over or step to a name" : shortened(shown.textOf(number));
    $("path").textContent = number === -1 ? "" : shortened(output.textOf(number)) || "(empty)";
  }

  function choose(number) {
    chosen = number;
    point(number);
  }

  function step(by) {
    const from = current === -1 && by < 0 ? symbols : current;
    choose(Math.min(Math.max(from + by, 0), symbols - 1));
    reveal(current);
    say(`${commas(current + 1)} of ${commas(symbols)}: ${$("mangled").textContent} is ${$("path").textContent}`);
  }

  let revealed = 0; // the number of calls of reveal

  // Scrolls a symbol into view in both panes. A block gets its size only some frames after it comes into view, which
  // may move the symbol. So the call scrolls again in the next frames.
  function reveal(number) {
    const [call, before] = [++revealed, turn];
    let frames = FRAMES;
    const bring = () => {
      if (call !== revealed || turn !== before) return;
      output.bring(number);
      shown.bring(number);
      // The text area follows the marks under it.
      if (isArea()) input.scrollTo(shown.element.scrollLeft, shown.element.scrollTop);
      if (frames-- > 0) requestAnimationFrame(bring);
    };
    bring();
  }

  // Scrolls the sought symbol into view when both panes have it.
  function seek() {
    const number = sought === -1 ? -1 : shown.firstAfter(sought);
    if (number === -1 || output.blocksOf(number).next().done) return;
    sought = -1;
    const before = turn;
    // The text area scrolls to its cursor first.
    requestAnimationFrame(() => { if (turn === before) reveal(number); });
  }

  // The text area covers the marks, so they are searched at the pointer's position.
  const markUnder = ({ clientX, clientY }) => document.elementsFromPoint(clientX, clientY).find((it) => it.localName === "mark");

  function pointed(event) {
    const mark = markUnder(event);
    if (mark) point(Number(mark.dataset.number));
  }

  function clicked(event) {
    const mark = markUnder(event);
    if (mark) choose(Number(mark.dataset.number));
  }

  function left() {
    if (chosen !== -1) point(chosen);
  }

  function caretMoved() {
    if (!isFinished || !isArea() || document.activeElement !== input) return;
    const number = shown.symbolAt(input.selectionStart);
    if (number !== -1) choose(number);
  }

  // ---- Scrolling: the marks under the text area follow it, and the panes follow each other

  function scrolled(one, other) {
    if (one.hidden) return;
    const { scrollLeft, scrollTop } = one;
    if (other.scrollLeft !== scrollLeft || other.scrollTop !== scrollTop) other.scrollTo(scrollLeft, scrollTop);
  }

  function follow(event) {
    const one = event.currentTarget;
    if (one === input) scrolled(input, shown.element);
    if (!one.matches(":hover, :focus")) return;
    if (wrap.checked || shown.isDivided || output.isDivided) return; // their rows are different lines
    const source = isArea() ? input : shown.element;
    const other = one === output.element ? source : output.element;
    if (other.scrollTop !== one.scrollTop) other.scrollTop = one.scrollTop;
  }

  // ---- Wrapping, which is on by default if the page is narrow

  const narrow = matchMedia("(width < 700px)");

  function wrapLines() {
    document.body.classList.toggle("wrapped", wrap.checked);
    input.wrap = wrap.checked ? "soft" : "off";
    fit();
    if (current !== -1) reveal(current);
  }

  // Gives the marks under the text area its width, without its scroll bar, and its position.
  function fit() {
    if (input.hidden) return;
    shown.element.style.setProperty("--inner", `${input.clientWidth}px`);
    scrolled(input, shown.element);
  }

  function setWrap() {
    wrap.checked = kept("wrap", narrow.matches ? "on" : "off") === "on";
    wrapLines();
  }

  // ---- Copying

  // A selection is copied as the original text, without the division into blocks.
  function copied(event) {
    event.clipboardData.setData("text/plain", withEnds(getSelection().toString() && getSelection().getRangeAt(0).toString()));
    event.preventDefault();
  }

  function told(text) {
    $("count").textContent = text;
    say(text);
  }

  // Copies a text in a browser that copies only a selection.
  function copySelected(text, element) {
    const put = (event) => {
      event.clipboardData.setData("text/plain", text);
      event.preventDefault();
      event.stopPropagation();
    };
    addEventListener("copy", put, { capture: true });
    getSelection().selectAllChildren(element);
    const isCopied = document.execCommand("copy");
    removeEventListener("copy", put, { capture: true });
    if (isCopied) getSelection().removeAllRanges();
    return isCopied;
  }

  // Copies a text. If the browser does not let a script copy, selects the element that shows the text.
  async function copyText(text, element, what) {
    try {
      await navigator.clipboard.writeText(text);
    } catch {
      if (!copySelected(text, element)) {
        const isShortened = element === $("path") && element.textContent !== text;
        told(isShortened ? `${what} could not be copied.` : `${what} is selected: press Ctrl+C or Cmd+C to copy it.`);
        return;
      }
    }
    told(what === "The result" ? "Copied." : `${what} is copied.`);
  }

  const copyResult = () => copyText(withEnds(output.text()), output.element, "The result");
  const copyPath = () => copyText(output.textOf(current), $("path"), "The path");

  // ---- Links: #symbol=.. shows a symbol. The text after # is not sent to any server.

  function linked() {
    const [, given] = /^#symbol=(.*)$/s.exec(location.hash) ?? [];
    if (given === undefined) return null;
    try {
      return decodeURIComponent(given);
    } catch {
      return given;
    }
  }

  function showLinked() {
    const symbol = linked();
    if (symbol !== null) set(symbol, "The symbol of the link");
  }

  // Writes the link of the shown symbol to the address bar, and copies it.
  async function link() {
    const symbol = shown.textOf(current);
    if (symbol.length > LINKED) {
      told(`The symbol has ${commas(symbol.length)} characters, and a link takes ${commas(LINKED)}.`);
      return;
    }
    const url = new URL(`#symbol=${encodeURIComponent(symbol)}`, location.href).href;
    history.replaceState(null, "", url);
    try {
      await navigator.clipboard.writeText(url);
      told("The link is copied, and it is the page's address now.");
    } catch {
      told(copySelected(url, $("mangled")) ? "The link is copied, and it is the page's address now." : "The link is the page's address now.");
    }
  }

  function downloadResult() {
    const link = document.createElement("a");
    link.href = URL.createObjectURL(new Blob([withEnds(output.text())], { type: "text/plain;charset=utf-8" }));
    link.download = resultName();
    link.click();
    setTimeout(() => URL.revokeObjectURL(link.href), 60_000);
    say(`Downloaded as ${link.download}.`);
  }

  // ---- The switches, which are stored for the next visit

  function kept(name, otherwise) {
    try {
      return localStorage.getItem(`kodliwe-${name}`) ?? otherwise;
    } catch {
      return otherwise; // this browser stores nothing for the page
    }
  }

  function keep(name, value) {
    try {
      localStorage.setItem(`kodliwe-${name}`, value);
    } catch {
      // as above
    }
  }

  // ---- The start

  function listen() {
    input.addEventListener("input", edited);
    addEventListener("paste", pasted);
    shown.element.addEventListener("keydown", (event) => {
      if (event.key.length === 1 && event.key !== " " && !event.ctrlKey && !event.metaKey && !event.altKey) {
        tell("A text that is only shown can't be typed into: clear it, or paste another.");
      }
    });
    hash.addEventListener("change", () => { keep("hash", hash.checked ? "shown" : "hidden"); ask(false); });
    fold.addEventListener("change", () => { keep("fold", fold.checked ? "on" : "off"); ask(false); });
    wrap.addEventListener("change", () => { keep("wrap", wrap.checked ? "on" : "off"); wrapLines(); });
    narrow.addEventListener("change", setWrap);
    copy.addEventListener("click", copyResult);
    download.addEventListener("click", downloadResult);
    $("copypath").addEventListener("click", copyPath);
    $("link").addEventListener("click", link);
    $("previous").addEventListener("click", () => step(-1));
    $("next").addEventListener("click", () => step(1));
    $("example").addEventListener("click", () => { set(EXAMPLE, "The example"); input.focus(); });
    clear.addEventListener("click", () => { set("", ""); input.focus(); });
    $("file").addEventListener("change", ({ target }) => {
      if (target.files.length) open(target.files[0]);
      target.value = "";
    });
    for (const one of [input, shown.element, output.element]) {
      one.addEventListener("scroll", follow, { passive: true });
      one.addEventListener("pointermove", pointed, { passive: true });
      one.addEventListener("pointerleave", left, { passive: true });
      one.addEventListener("click", clicked);
    }
    for (const one of [shown.element, output.element]) one.addEventListener("copy", copied);
    document.addEventListener("selectionchange", caretMoved);
    addEventListener("hashchange", showLinked);
    new ResizeObserver(fit).observe(input);
    listenToDrops();
  }

  function listenToDrops() {
    const isFile = (event) => event.dataTransfer.types.includes("Files");
    addEventListener("dragover", (event) => {
      if (!isFile(event)) return;
      event.preventDefault();
      document.body.classList.add("dropped");
    });
    addEventListener("dragleave", () => document.body.classList.remove("dropped"));
    addEventListener("drop", (event) => {
      document.body.classList.remove("dropped");
      const text = event.dataTransfer.getData("text/plain");
      if (!isFile(event) && isEdited(text)) return;
      event.preventDefault();
      const [file] = event.dataTransfer.files;
      if (file) open(file); else if (text) set(text, "The dropped text");
    });
  }

  function startWorker() {
    const source = `"use strict";\n${kodliweEngine}\n(${kodliweWorker})(kodliweEngine());`;
    const url = URL.createObjectURL(new Blob([source], { type: "text/javascript" }));
    return new Promise((done, fail) => {
      worker = new Worker(url);
      worker.onerror = (event) => fail(new Error(event.message || "no worker can be started"));
      worker.onmessage = ({ data }) => (data.isReady ? done() : data.fault ? fail(new Error(data.fault)) : answered(data));
      kodliwe.unpack(KODLIWE_MODULE).then((bytes) => worker.postMessage({ bytes }, [bytes.buffer]), fail);
    });
  }

  async function main() {
    if (!kodliwe.isSupported()) {
      tell("This browser has no 64-bit WebAssembly memory, which this page needs. Chromium 156 and "
        + "Firefox 153 have it, and so do somewhat older ones.");
      return;
    }
    if (typeof KODLIWE_MODULE === "undefined") {
      tell("The file module.js is missing beside this page: web/build makes it.");
      return;
    }
    try {
      await startWorker();
    } catch (error) {
      tell(`This browser does not run the module: ${error.message}.`);
      return;
    }
    hash.checked = kept("hash", "hidden") === "shown";
    fold.checked = kept("fold", "off") === "on";
    setWrap();
    listen();
    if (linked() !== null) showLinked();
    else if (location.hash === "#try" && input.value === "") set(EXAMPLE, "The example");
    else edited();
    document.body.dataset.ready = "";
  }

  main();
})();
