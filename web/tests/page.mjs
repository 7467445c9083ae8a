// Tests the page in a browser, from a file and from a server on the loopback.
import { createHash } from "node:crypto";
import fs from "node:fs";
import http from "node:http";
import { createRequire } from "node:module";
import os from "node:os";
import path from "node:path";
import { fileURLToPath } from "node:url";
import { sleep, start } from "./driver.mjs";
import { FOLDED, HOSTILE, HOSTILE_LINE, HOSTILE_LINES, LOG, LOG_LINE, MARKER, ODD, ODD_RESULT, REREAD } from "./texts.mjs";

const require = createRequire(import.meta.url);
const WEB = fileURLToPath(new URL("../", import.meta.url));
const FILE = `file://${WEB}index.html`;
// The most milliseconds that a key may wait longer than over a short text, until its effect is painted.
const PAUSE = 200;
const SHORT = "_ZN3fooE\n";
const TRIES = 4; // the best of these counts

const TYPES = { ".html": "text/html", ".js": "text/javascript", ".css": "text/css", ".svg": "image/svg+xml" };

// Serves the folder and records the requests. Under /old/ 64-bit memory is hidden.
function serve() {
  const asked = [];
  const server = http.createServer((request, response) => {
    asked.push(request.url);
    const isOld = request.url.startsWith("/old/");
    const name = path.basename(request.url) || "index.html";
    const ending = path.extname(name);
    if (!TYPES[ending] || !fs.existsSync(WEB + name)) {
      response.writeHead(404).end();
      return;
    }
    const hidden = isOld && name === "kodliwe.js" ? "WebAssembly.validate = () => false;\n" : "";
    response.writeHead(200, { "Content-Type": TYPES[ending] }).end(hidden + fs.readFileSync(WEB + name));
  });
  return new Promise((done) => {
    server.listen(0, "127.0.0.1", () => done({ asked, server, url: `http://127.0.0.1:${server.address().port}/` }));
  });
}

// Records the time of each key and input event. Meanwhile a busy thread of the page repeats the same work and
// records how long it takes. On a busy machine both the thread and the page take longer.
const PROBE = `
  window.events = [];
  window.units = [];
  new PerformanceObserver((list) => { for (const it of list.getEntries()) if (/key|input/.test(it.name)) events.push([it.startTime, it.startTime + it.duration]); })
    .observe({ type: "event", durationThreshold: 16 });
  window.busy = new Worker(URL.createObjectURL(new Blob([\`
    let sum = 0, units = [];
    for (;;) {
      const from = performance.now();
      for (let n = 0; n < 10_000_000; n++) sum = (Math.imul(sum, 31) + n) | 0;
      units.push([performance.timeOrigin + from, performance.timeOrigin + performance.now()]);
      if (units.length === 5) {
        postMessage(units);
        units = [];
      }
    }\`])));
  busy.onmessage = ({ data }) => { for (const unit of data) units.push(unit.map((it) => it - performance.timeOrigin)); };
  0`;
// Returns the duration of the longest event, times the share of a core that the busy thread had meanwhile.
const OWN = `(() => {
  busy.terminate();
  const least = Math.min(...units.map(([from, to]) => to - from));
  const share = ([start, end]) => {
    let got = 0, all = 0;
    for (const [from, to] of units) {
      const both = Math.min(to, end) - Math.max(from, start);
      if (both <= 0) continue;
      all += both;
      got += both * least / (to - from);
    }
    return all === 0 ? 1 : got / all;
  };
  return Math.round(Math.max(0, ...events.map((it) => (it[1] - it[0]) * share(it))));
})()`;

export async function testPage(kind, check, shots) {
  const folder = fs.mkdtempSync(path.join(os.tmpdir(), "kodliwe-web-"));
  const site = await serve();
  const browser = await start(kind, { downloads: folder });
  const { evaluate } = browser;
  console.log(`-- ${browser.version}`);
  const say = (name, isRight, told) => check(`${kind}: ${name}`, isRight, told);

  const value = (id, what = "textContent") => evaluate(`document.getElementById("${id}").${what}`);
  const click = (id) => evaluate(`document.getElementById("${id}").click(); 0`);
  const wait = async (condition, seconds = 30) => {
    for (let turn = 0; turn < seconds * 20; turn++) {
      if (await evaluate(`Boolean(${condition})`)) return true;
      await sleep(50);
    }
    return false;
  };
  const done = () => wait("document.body.dataset.done");
  const fresh = () => evaluate("delete document.body.dataset.done; 0");
  const visit = async (url) => {
    await browser.go("about:blank");
    await browser.go(url);
    return wait('"done" in document.body.dataset || !document.getElementById("fault").hidden');
  };
  const file = (name, text) => {
    fs.writeFileSync(path.join(folder, name), text);
    return path.join(folder, name);
  };
  const open = async (name, text) => {
    await fresh();
    await browser.files("#file", [file(name, text)]);
  };
  const output = () => value("output");
  const type = async (text) => { for (const key of text) await browser.key(key); };

  const paste = async (text) => {
    await fresh();
    await browser.paste(text);
    await done();
  };

  // Returns true if a test becomes true within some seconds, since the page scrolls in its next frames.
  const until = async (test, seconds = 5) => {
    for (let turn = 0; turn < seconds * 20; turn++) {
      if (await test()) return true;
      await sleep(50);
    }
    return false;
  };

  // Returns true if the text area and the marks under it are scrolled to the same position.
  const isLevel = () => evaluate(`input.hidden || (input.scrollTop === shown.scrollTop && input.scrollLeft === shown.scrollLeft)`);

  // Returns true if the first part of a symbol comes into view in both panes and stays there.
  const isBrought = async (number) => {
    const isThere = () => evaluate(`["shown", "output"].every((id) => {
      const box = document.getElementById(id).getBoundingClientRect();
      const it = document.querySelector("#" + id + " mark[data-number='${number}']")?.getClientRects()[0];
      return Boolean(it && it.top >= box.top && it.bottom <= box.bottom && it.left >= box.left && it.left < box.right);
    })`);
    const isRight = async () => (await isThere()) && (await isLevel());
    if (!(await until(isRight))) return false;
    await sleep(300);
    return isRight();
  };
  const wide = `${"wide ".repeat(80)}`;
  const lines = (count) => Array.from({ length: count }, (_, n) => `${n} ${n % 7 ? "" : wide}\n`).join("");

  // Returns how many marks are in view, and whether each is under the same characters of the text area.
  const alignment = () => evaluate(`(() => {
    const box = input.getBoundingClientRect();
    let count = 0;
    for (const mark of document.querySelectorAll("#shown mark")) {
      const it = mark.getClientRects()[0];
      if (it.top < box.top + 1 || it.bottom > box.bottom - 1 || it.left < box.left || it.left > box.left + input.clientWidth - 4) continue;
      const place = document.caretPositionFromPoint(it.left + 1, it.top + it.height / 2);
      if (place?.offsetNode !== input || place.offset !== input.value.indexOf(mark.textContent)) return -1 - count;
      count++;
    }
    return count;
  })()`);

  // Lines that browsers wrap at different places: spaces, tabs, characters of other scripts, symbols, no place to break.
  const odd = Array.from({ length: 60 }, (_, n) => [
    `${n} ${"word ".repeat(n)} _ZN4name${String(n).length + 1}a${n}E end`, `${"x".repeat(n * 7)} _ZN4tail${String(n).length + 1}b${n}E`,
    `\t${n}\t${"é漢字 ".repeat(n % 9)}\t_RNvC${String(n).length + 1}c${n}3bar   ${" ".repeat(n * 3)}`][n % 3]).join("\n");

  const isAligned = () => until(async () => (await alignment()) > 3 && (await isLevel()));

  const address = () => evaluate("location.href");

  // Returns whether each of the two switches for paths is on.
  const switches = () => evaluate(`["hash", "fold"].map((id) => document.getElementById(id).checked).join()`);

  try {
    await browser.allow();
    await browser.downloads(folder);
    await browser.look();
    for (const [name, url] of [["a server", site.url], ["a file", FILE]]) {
      await visit(`${url}#try`);
      say(`runs from ${name}`, (await output()).includes("std::panicking::begin_panic\n") && (await value("fault")) === "");
    }
    for (const part of [typing, wording, bringing, wrapping, linking, choosing, switching, folding, copying, stepping, files, staying, pictures]) {
      // an error of one part does not end the others
      await part().catch((error) => say(`the part ${part.name} ends`, false, error.stack));
    }
    await visit(`${site.url}old/index.html`);
    say("without 64-bit memory it says so", /no 64-bit WebAssembly memory/.test(await value("fault")) && !(await value("fault", "hidden")));
    requests();
    say("no fault is logged", browser.faults().length === 0, browser.faults().join("\n"));
  } finally {
    await browser.end();
    site.server.close();
    fs.rmSync(folder, { recursive: true, force: true });
  }

  async function typing() {
    await click("clear");
    await done();
    await evaluate('document.getElementById("input").focus(); 0');
    await type("a _ZN3foo3barE b");
    say("types", await wait('document.getElementById("output").textContent === "a foo::bar b"'), await output());
    say("counts", (await value("count")) === "1 symbol demangled.", await value("count"));
    say("tells what it counted", await wait('document.getElementById("status").textContent.startsWith("1 symbol demangled.")', 5));
    const marks = await evaluate(`["shown", "output"].map((id) => [...document.querySelectorAll("#" + id + " mark")].map((it) => it.textContent).join()).join(" ")`);
    say("marks in both", marks === "_ZN3foo3barE foo::bar", marks);
    await pointing("output");
    await pointing("shown");
    await click("clear");
    await evaluate('document.getElementById("input").focus(); 0');
    await browser.paste("see _RNvC3foo3bar\r\nend");
    say("pastes", await wait('document.getElementById("output").textContent === "see foo::bar\\nend"', 5), await output());
  }

  // Moves the mouse over a mark, which may be under the text area.
  async function pointing(id) {
    await browser.mouse(5, 5);
    await wait(`document.querySelector("#${id} mark") !== null`, 5);
    const place = JSON.parse(await evaluate(`(() => { const it = document.querySelector("#${id} mark").getBoundingClientRect(); return JSON.stringify([it.x + it.width / 2, it.y + it.height / 2]); })()`));
    await browser.mouse(...place);
    await sleep(200);
    say(`pointing at a mark in ${id} shows the mangled name`, (await value("mangled")) === "_ZN3foo3barE" && (await value("path")) === "foo::bar", await value("mangled"));
    say(`and marks it in both`, (await evaluate('document.querySelectorAll("mark.current").length')) === 2);
  }

  // Opens the page again, with all switches off and an empty text area that has the focus.
  async function empty() {
    await evaluate("localStorage.clear(); 0");
    await visit(FILE);
    await evaluate('document.getElementById("input").focus(); 0');
    await fresh();
    await type("x"); // a browser lets a script write to the clipboard only after a key
    await wait('document.body.dataset.done && document.getElementById("output").textContent === "x"');
    await fresh();
    await click("clear");
    await done();
  }

  async function wording() {
    await empty();
    say("an empty input has a placeholder", /Paste a symbol/.test(await value("input", "placeholder")));
    say("the name's line says what to do", (await value("mangled")) === "Hover over or step to a name");
    await paste("foo _ZN3fo_R \n");
    say("says that there are no symbols", (await value("count")) === "No symbols found. Rust symbols begin with _R or _ZN.", await value("count"));
    const words = await evaluate(`["label", "result", "copy", "download"].map((id) => document.getElementById(id).textContent).join()`);
    say("the panes and buttons have their words", words === "Input,Demangled,Copy,Download", words);
    const links = JSON.parse(await evaluate(`JSON.stringify([...document.querySelectorAll("a")].map((it) => it.href))`));
    const dead = links.filter((it) => !it.startsWith("file://") || !fs.existsSync(fileURLToPath(it)));
    say("the footer's links name files", links.length === 4 && dead.length === 0, links.join(" "));
  }

  async function bringing() {
    for (const isWrapped of [false, true]) {
      const how = isWrapped ? "wrapped, " : "";
      for (const [name, text] of [["a paste", lines(150)], ["a large paste", lines(3000)]]) {
        await empty();
        if (isWrapped) await click("wrap");
        await paste(`${text}${wide}_ZN3foo3barE\n${lines(100)}`);
        say(`${how}${name} brings the first symbol into view`, await isBrought(0));
        say(`${how}and tells of no other`, (await value("output")).includes("foo::bar") && (await evaluate("input.hidden")) === text.length > 100_000);
      }
    }
    await empty();
    await paste(`_ZN1aE\n${lines(100)}`);
    await evaluate("input.setSelectionRange(input.value.length, input.value.length); 0");
    await paste(`${lines(60)}_ZN1bE\n${lines(60)}_ZN1cE\n${lines(60)}`);
    say("a paste into a text brings its own first symbol into view", await isBrought(1));
    await open("first.txt", `${lines(150)}_ZN3foo3barE\n${lines(100)}`);
    await done();
    say("so does a file", await isBrought(0));
  }

  async function wrapping() {
    await empty();
    say("lines do not wrap in a wide page", !(await value("wrap", "checked")) && (await evaluate("getComputedStyle(input).whiteSpace")) === "pre");
    for (const isWrapped of [false, true]) {
      const how = isWrapped ? "wrapped" : "unwrapped";
      await empty();
      if (isWrapped) await click("wrap");
      await paste(odd);
      for (const [place, top] of [["at the top", 0], ["in the middle", 600], ["at the end", 1e6]]) {
        await evaluate(`input.scrollTo(0, ${top}); 0`);
        say(`${how}, the marks are under their symbols ${place}`, await isAligned(), await alignment());
      }
      const isWide = await evaluate("[input, output].map((it) => it.scrollWidth > it.clientWidth).join()");
      say(`${how}, ${isWrapped ? "nothing is beside the panes" : "long lines go on beside the panes"}`, isWide === (isWrapped ? "false,false" : "true,true"), isWide);
    }
    const heights = await evaluate(`[input.scrollHeight, [...shown.children].reduce((sum, it) => sum + it.getBoundingClientRect().height, 0)].join()`);
    const [area, marks] = heights.split(",").map(Number);
    say("wrapped, the marks have as many rows as the text area", Math.abs(area - marks - 19.2) < 2, heights);
    await type("\u0020_ZN3addE");
    await wait('document.getElementById("output").textContent.includes("add")', 5);
    say("wrapped, an edit is marked in its place", await isAligned(), await alignment());
    await fresh();
    await visit(FILE);
    say("the switch is kept for the next visit", await value("wrap", "checked"));
    await open("log.txt", LOG.slice(0, 400_000));
    await done();
    await click("previous");
    const last = Number(await evaluate('document.querySelector("#output mark.current")?.dataset.number'));
    say("wrapped, it steps to the last symbol of a large text", last > 3000 && (await isBrought(last)), last);
    await click("wrap");
    say("the symbol that is told stays in view when lines unwrap", await isBrought(last));
    await evaluate("localStorage.clear(); 0");
    await browser.look({ width: 690, height: 800 });
    await visit(`${FILE}#try`);
    say("lines wrap in a page of under 700 px", await value("wrap", "checked"));
    await browser.look();
    say("and no longer once it is wide", await wait('!document.getElementById("wrap").checked', 5));
  }

  async function linking() {
    for (const [name, url] of [["a file", FILE], ["a server", site.url]]) {
      await visit(`${url}#symbol=_ZN11_%24LT%24u8%24GT%243bar17h05af221e174051e9E`);
      const text = [await value("input", "value"), await output(), await value("path")].join();
      say(`#symbol= shows that symbol from ${name}`, text === "_ZN11_$LT$u8$GT$3bar17h05af221e174051e9E,<u8>::bar,<u8>::bar", text);
    }
    say("the server is not told of it", !site.asked.some((it) => it.includes("u8")));
    await visit(`${FILE}#symbol=_ZN3fooE%`);
    say("an address that is no code is taken as it is", (await output()) === "foo%", await output());
    await fresh();
    await evaluate('location.hash = "#symbol=_RNvC3foo3bar"; 0');
    say("an address that changes shows its symbol", await wait('document.getElementById("output").textContent === "foo::bar"', 5), await output());
    await empty();
    say("there is no link without a symbol", (await value("link", "disabled")) && (await value("copypath", "disabled")));
    await paste("a _ZN3foo3barE b\n_ZN11_$LT$u8$GT$3bazE.cold c");
    await click("next");
    await click("next");
    await evaluate('document.getElementById("link").focus(); 0');
    await browser.key("Enter");
    say("Link says what it did", await wait('document.getElementById("count").textContent === "The link is copied, and it is the page\'s address now."', 5), await value("count"));
    const link = await address();
    say("Link writes the address", link === `${FILE}#symbol=_ZN11_%24LT%24u8%24GT%243bazE.cold`, link);
    say("and the text stays", (await value("input", "value")).startsWith("a _ZN3foo3barE b"));
    await evaluate("input.select(); 0");
    await evaluate('input.focus(); 0');
    await browser.pasteKey();
    say("and copies it", await wait(`input.value === ${JSON.stringify(link)}`, 5), await value("input", "value"));
    await visit(link);
    say("a link shows its symbol", (await output()) === "<u8>::baz.cold", await output());
    await empty();
    await paste(`_ZN${"3foo".repeat(8000)}E`);
    await click("link");
    say("a symbol that is too long for a link says so", /32,004 characters, and a link takes 30,000/.test(await value("count")), await value("count"));
    say("and leaves the address", (await address()) === FILE);
  }

  async function choosing() {
    await empty();
    await paste("_ZN3foo3barE\n_RNvC1a1b\n_ZN1xE");
    await evaluate("input.setSelectionRange(16, 16); 0");
    say("the text cursor chooses a symbol", await wait('document.getElementById("mangled").textContent === "_RNvC1a1b"', 5), await value("mangled"));
    say("the symbol has a mark in the output", await wait('document.querySelector("#output mark") !== null', 5));
    const place = JSON.parse(await evaluate(`(() => { const it = document.querySelector("#output mark").getBoundingClientRect(); return JSON.stringify([it.x + it.width / 2, it.y + it.height / 2]); })()`));
    await browser.mouse(...place);
    say("the pointer tells another", await wait('document.getElementById("mangled").textContent === "_ZN3foo3barE"', 5), await value("mangled"));
    await browser.mouse(5, 5);
    say("and the chosen one is told once the pointer leaves", await wait('document.getElementById("mangled").textContent === "_RNvC1a1b"', 5), await value("mangled"));
    await evaluate('document.getElementById("copypath").focus(); 0');
    await browser.key("Enter");
    say("Copy path says what it did", await wait('document.getElementById("count").textContent === "The path is copied."', 5), await value("count"));
    await click("clear");
    await evaluate("input.focus(); 0");
    await browser.pasteKey();
    say("and copies the path alone", await wait('input.value === "a::b"', 5), await value("input", "value"));
    await evaluate("input.select(); 0");
    await paste(`${"_ZN3foo3barE\n".repeat(250)}_RNvC1a1b`);
    await evaluate("input.setSelectionRange(0, 0); 0");
    await type("first ");
    await wait('document.getElementById("output").textContent.startsWith("first ")', 5);
    await sleep(300);
    await evaluate("input.setSelectionRange(input.value.length - 2, input.value.length - 2); 0");
    say("the text cursor chooses a symbol far after an edit", await wait('document.getElementById("mangled").textContent === "_RNvC1a1b"', 5), await value("mangled"));
    await evaluate("input.select(); 0");
    await paste(" _ZN3oneE");
    say("the only symbol of a text is told", (await value("path")) === "one", await value("path"));
  }

  async function switching() {
    await open("hash.txt", "_ZN3foo17h05af221e174051e9E");
    await done();
    say("hashes are left out", (await output()) === "foo", await output());
    await evaluate('document.getElementById("hash").focus(); 0');
    await fresh();
    await browser.key(" ");
    await done();
    say("the switch shows hashes", (await output()) === "foo::h05af221e174051e9", await output());
    await visit(FILE);
    say("and is kept for the next visit", await value("hash", "checked"));
    await fresh();
    await click("hash");
    await done();
  }

  async function folding() {
    const lines = (column) => FOLDED.map((it) => it[column]).join("\n");
    const shows = (text) => until(async () => (await output()) === text);
    await empty();
    say("arguments are not folded at first", (await switches()) === "false,false");
    await paste("a _RINvC3foo3barhE b");
    say("and are printed", (await output()) === "a foo::bar::<u8> b", await output());
    await evaluate('document.getElementById("fold").focus(); 0');
    await browser.key(" ");
    say("the switch folds them", await shows("a foo::bar::<_> b"), await output());
    say("the text stays", (await value("input", "value")) === "a _RINvC3foo3barhE b");
    await click("next");
    say("the path is shown folded", (await value("path")) === "foo::bar::<_>", await value("path"));
    await evaluate("input.focus(); input.select(); 0");
    await paste(lines(0));
    say("a pasted text is folded", await shows(lines(2)), await output());
    await evaluate("input.focus(); input.setSelectionRange(0, 0); 0");
    await type("_RINvC3foo3barhE ");
    say("a typed symbol is folded", await shows(`foo::bar::<_> ${lines(2)}`), await output());
    await click("hash");
    say("hashes are shown in folded paths", await shows(`foo::bar::<_> ${lines(1)}`), await output());
    await click("hash");
    await visit(FILE);
    say("the switch for folding is kept for the next visit", (await switches()) === "false,true", await switches());
    await folded(lines);
    await visit(`${FILE}#symbol=_RNvMC3fooINtB2_3BarlE3baz`);
    say("the symbol of a link is folded", (await output()) === "<foo::Bar<_>>::baz", await output());
    await visit(`${FILE}#try`);
    say("the example is folded", (await output()).includes(" alloc::alloc::box_free::<_>\n"), await output());
    await click("fold");
    say("the switch unfolds", await until(async () => (await output()).includes(" alloc::alloc::box_free::<dyn alloc::boxed::FnBox<(), Output = ()>>\n")), await output());
    await visit(FILE);
    say("that is kept too", (await switches()) === "false,false", await switches());
  }

  // Folds the symbols of a small file, which is edited, and of a large one, which is only shown.
  async function folded(lines) {
    for (const [name, copies] of [["small", 1], ["large", 1000]]) {
      const [text, expected] = [0, 2].map((column) => `${lines(column)}\n`.repeat(copies));
      await open(`${name}.txt`, text);
      await done();
      say(`a ${name} file is folded`, (await value("input", "hidden")) === copies > 1 && (await output()) === expected);
      await click("download");
      const saved = path.join(folder, `${name}.demangled.txt`);
      say(`a ${name} file is downloaded folded`, await until(() => fs.existsSync(saved) && fs.readFileSync(saved, "utf8") === expected));
    }
  }

  async function copying() {
    await open("crlf.txt", "1 _ZN3foo3barE\r\n2 _RNvC3foo3bar\r\n");
    await done();
    say("a text with CR LF is edited", !(await value("input", "hidden")) && (await value("input", "value")).length === 31);
    const wanted = "1 foo::bar\r\n2 foo::bar\r\n";
    await click("download");
    const saved = path.join(folder, "crlf.demangled.txt");
    for (let turn = 0; turn < 100 && !fs.existsSync(saved); turn++) await sleep(100);
    await sleep(300);
    say("downloads, with its line ends", fs.existsSync(saved) && fs.readFileSync(saved, "utf8") === wanted);
    await evaluate('document.getElementById("copy").focus(); 0');
    await browser.key("Enter");
    say("copies", await wait('document.getElementById("count").textContent === "Copied."', 5), await value("count"));
    await click("clear");
    await evaluate('document.getElementById("input").focus(); 0');
    await browser.pasteKey();
    say("and what was copied is pasted", await wait('document.getElementById("input").value === "1 foo::bar\\n2 foo::bar\\n"', 5), JSON.stringify(await value("input", "value")));
  }

  async function stepping() {
    await visit(`${FILE}#try`);
    await evaluate('document.getElementById("hash").focus(); 0');
    const order = [];
    for (let turn = 0; turn < 11; turn++) {
      order.push(await evaluate('document.activeElement.id'));
      await browser.key("Tab");
    }
    say("the order of the keyboard", order.join() === "hash,fold,wrap,example,file,clear,copy,download,previous,next,input", order.join());
    say("the result is after it", (await evaluate("document.activeElement.id")) === "output");
    for (const wanted of ["_ZN3std9panicking11begin_panic17h3f1a9c2b7d5e6041E", "_ZN71_$LT$Test"]) {
      await evaluate('document.getElementById("next").focus(); 0');
      await browser.key("Enter");
      await sleep(100);
      say("steps to a symbol", (await value("mangled")).startsWith(wanted), await value("mangled"));
    }
    say("and tells it", await wait('document.getElementById("status").textContent.startsWith("2 of 4: _ZN71_")', 5), await value("status"));
    const unnamed = await evaluate(`[...document.querySelectorAll("button, input, textarea, [tabindex]")].filter((it) => !(it.labels?.length || it.textContent.trim() || it.getAttribute("aria-labelledby"))).map((it) => it.outerHTML).join()`);
    say("every control has a label", unnamed === "", unnamed);
    if (browser.names) {
      const nodes = await browser.names();
      const controls = nodes.filter(({ role }) => ["button", "switch", "checkbox", "textbox", "region"].includes(role));
      const nameless = controls.filter((it) => it.name === "");
      say("every control has a name in the accessibility tree", controls.length >= 13 && nameless.length === 0, controls.map((it) => `${it.role} ${it.name}`).join(", "));
    }
    const moving = await evaluate(`[...document.querySelectorAll("*")].flatMap((it) => [it, it.matches("input") ? "::before" : null].map((one) => one === null ? null : getComputedStyle(it, typeof one === "string" ? one : null))).filter((it) => it && (it.transitionDuration !== "0s" || it.animationName !== "none")).length`);
    say("nothing moves", moving === 0);
  }

  async function files() {
    await open("odd.txt", "");
    await done();
    await fresh();
    await evaluate(`(() => { const data = new DataTransfer(); data.setData("text/plain", ${JSON.stringify(ODD)}); dispatchEvent(Object.assign(new Event("drop", { cancelable: true }), { dataTransfer: { types: ["Files"], getData: () => ${JSON.stringify(ODD)}, files: [] } })); return 0; })()`);
    await done();
    say("halves of characters, NUL and line ends are kept", await evaluate(`document.getElementById("output").textContent === ${JSON.stringify(ODD_RESULT)} && document.getElementById("shown").textContent === ${JSON.stringify(ODD)}`), JSON.stringify(await output()));
    await open("latin.txt", Buffer.from([0xe9, 0x20, ...Buffer.from("_ZN3fooE")]));
    await done();
    say("a file that is not UTF-8 is read", (await output()) === "é foo" && /windows-1252/.test(await value("fault")), await output());
    await open("wide.txt", Buffer.from("\ufeff_ZN3fooE", "utf16le"));
    await done();
    say("a file of UTF-16 is read", (await output()) === "foo", await output());
    await open("large.txt", Buffer.alloc(104_857_600, "x"));
    say("100 MB are too large, and it says so", await wait('/too large/.test(document.getElementById("fault").textContent)', 10), await value("fault"));
    say("and the text before it is still there", (await output()) === "foo");
    await open("cut.txt", HOSTILE);
    await done();
    const cut = "1 path ends in {size limit reached}, after 16,384 bytes or too many references.";
    say("a path past 16,384 bytes says so", (await output()).length === 16_384 + MARKER.length && (await output()).endsWith(MARKER) && (await value("cut")) === cut, await value("cut"));
    await open("references.txt", [...REREAD.keys()][0]);
    await done();
    say("a path with too many references says so", (await output()).length < 16_384 && (await output()).endsWith(MARKER) && (await value("cut")) === cut, await value("cut"));
  }

  // Presses some keys over a text, and returns the milliseconds of the one that waits longest.
  async function longest(text, isWrapped) {
    await visit(FILE);
    if ((await value("wrap", "checked")) !== isWrapped) await click("wrap");
    await evaluate(PROBE);
    await open("text.txt", text);
    for (let turns = 0; turns < 15; turns++) {
      await browser.key("x");
      await sleep(60);
    }
    await done();
    await evaluate('document.getElementById("hash").focus(); 0');
    for (let turns = 0; turns < 6; turns++) {
      await fresh();
      await browser.key(" ");
      await sleep(100);
    }
    await done();
    await sleep(500);
    return evaluate(OWN);
  }

  async function staying() {
    const kodliwe = require("../kodliwe.js");
    const it = await kodliwe.load(await kodliwe.unpack(require("../module.js")));
    const sum = (text) => createHash("sha256").update(text).digest("hex");
    const texts = [["40,000 symbols in lines", LOG, true], ["40,000 symbols in one line", LOG_LINE, true], ["5,000 hostile symbols in lines", HOSTILE_LINES, false],
      ["5,000 hostile symbols in one line", HOSTILE_LINE, false], ["a text area full of symbols", LOG.slice(0, 99_000), false], ["a text area full of hostile symbols", HOSTILE_LINES.slice(0, 99_000), false],
      ["40,000 symbols in lines, wrapped", LOG, false], ["a text area full of symbols, wrapped", LOG.slice(0, 99_000), false]];
    for (const [name, text, isCompared] of texts) {
      const isWrapped = name.endsWith("wrapped");
      let best = Infinity;
      for (let turn = 0; turn < TRIES && best > PAUSE; turn++) {
        const usual = await longest(SHORT, isWrapped);
        best = Math.min(best, await longest(text, isWrapped) - usual);
      }
      say(`${name}: the longest key`, best <= PAUSE, `${Math.max(0, best)} ms or less beyond a short text's`);
      if (isCompared) {
        const shown = await evaluate(`crypto.subtle.digest("SHA-256", new TextEncoder().encode(document.getElementById("output").textContent)).then((it) => [...new Uint8Array(it)].map((one) => one.toString(16).padStart(2, "0")).join(""))`);
        say(`${name}: shown as the module says`, shown === sum(it.demangleText(text)));
        say(`${name}: counted`, (await value("count")) === "40,000 symbols demangled.", await value("count"));
        await click("previous");
        await sleep(300);
        const seen = await evaluate(`["shown", "output"].every((id) => { const box = document.getElementById(id).getBoundingClientRect(), it = document.querySelector("#" + id + " mark.current")?.getBoundingClientRect(); return it && it.top >= box.top && it.bottom <= box.bottom && it.left < box.right; })`);
        say(`${name}: steps to the last symbol`, seen, await value("mangled"));
      }
    }
    await evaluate(`document.getElementById("clear").click(); localStorage.clear(); 0`);
  }

  async function pictures() {
    const looks = [["light", {}], ["dark", { dark: true }], ["narrow", { width: 390, height: 844 }], ["narrow-dark", { width: 390, height: 664, dark: true }]];
    for (const [name, look] of looks) {
      await browser.look(look);
      await visit(FILE);
      await evaluate("localStorage.clear(); 0");
      await visit(`${FILE}#try`);
      await click("next");
      await sleep(300);
      const wide = await evaluate("document.documentElement.scrollWidth <= innerWidth");
      say(`${name}: nothing stands out of the page`, wide);
      const rows = await evaluate(`new Set([...document.querySelectorAll(".tools > *")].map((it) => it.getBoundingClientRect()).map((it) => Math.round((it.top + it.bottom) / 8))).size`);
      say(`${name}: the buttons take few rows`, rows <= (look.width ? 2 : 1), rows);
      const seen = await evaluate(`(() => { const it = document.querySelector("#output mark.current").getClientRects()[0]; return it.top > 0 && it.bottom < innerHeight && scrollY === 0; })()`);
      say(`${name}: the result is on the first screen`, seen);
      for (const how of ["", "-toggled"]) {
        if (how) await click("wrap");
        await sleep(300);
        if (shots) await browser.shot(path.join(shots, `${kind}-${name}${how}.png`));
      }
    }
    await evaluate("localStorage.clear(); 0");
    await browser.look();
  }

  function requests() {
    const own = (url) => url.startsWith(`file://${WEB}`) || url.startsWith(site.url) || url.startsWith("blob:") || /^(data|about|chrome|resource|moz-extension):/.test(url);
    const others = browser.requests().filter((url) => !own(url));
    say("no request but its own files", others.length === 0, others.join(" "));
    const served = [...new Set(site.asked.map((url) => path.basename(url)))].filter((it) => it !== "icon.svg").sort();
    say("the files of the page", served.join() === ",index.html,kodliwe.js,module.js,page.js,style.css,worker.js", served.join(" "));
  }
}
