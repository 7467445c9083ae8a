// Drives headless Chromium by its own protocol (CDP) and Firefox by WebDriver BiDi, only over the
// loopback. The call start(kind) returns a browser with one open page. Both have the same methods.
import { spawn, spawnSync } from "node:child_process";
import fs from "node:fs";
import net from "node:net";
import os from "node:os";
import path from "node:path";

const PROGRAMS = {
  chromium: ["chromium", "chromium-browser", "google-chrome"],
  firefox: ["firefox-esr", "firefox"],
};
const SIZE = { width: 1280, height: 800 };

export const sleep = (milliseconds) => new Promise((done) => setTimeout(done, milliseconds));

/** Returns the program for this kind of browser on this machine, or undefined. */
export function program(kind) {
  const found = (name) => spawnSync("sh", ["-c", `command -v ${name}`]).status === 0;
  return PROGRAMS[kind].find(found);
}

function freePort() {
  return new Promise((done) => {
    const server = net.createServer().listen(0, "127.0.0.1", () => {
      const { port } = server.address();
      server.close(() => done(port));
    });
  });
}

async function retried(call) {
  for (let turn = 0; ; turn++) {
    try {
      return await call();
    } catch (error) {
      if (turn === 150) throw error;
      await sleep(200);
    }
  }
}

// Opens a connection that sends commands and stores the events that arrive.
async function connect(url) {
  const socket = await retried(() => new Promise((done, fail) => {
    const it = new WebSocket(url);
    it.onopen = () => done(it);
    it.onerror = () => fail(new Error(`no connection to ${url}`));
  }));
  const waiting = new Map();
  const events = [];
  let last = 0;
  socket.onmessage = ({ data }) => {
    const message = JSON.parse(data);
    const [done, fail] = waiting.get(message.id) ?? [];
    waiting.delete(message.id);
    if (!done) events.push(message);
    else if (message.error) fail(new Error(JSON.stringify(message)));
    else done(message.result);
  };
  const send = (method, params = {}) => new Promise((done, fail) => {
    waiting.set(++last, [done, fail]);
    socket.send(JSON.stringify({ id: last, method, params }));
  });
  return { send, events, close: () => socket.close() };
}

function launch(command, words) {
  const folder = fs.mkdtempSync(path.join(os.tmpdir(), "kodliwe-browser-"));
  const child = spawn(command, words(folder), { stdio: "ignore", detached: true });
  const stop = async () => {
    try {
      process.kill(-child.pid, "SIGTERM");
    } catch {
      // the process has already ended
    }
    await sleep(500);
    fs.rmSync(folder, { recursive: true, force: true, maxRetries: 5 });
  };
  return stop;
}

const KEYS = { Tab: [9, "\uE004"], Enter: [13, "\uE007"], Escape: [27, "\uE00C"], " ": [32, " "] };

async function startChromium(command) {
  const port = await freePort();
  const stop = launch(command, (folder) => [
    "--headless=new", "--no-sandbox", "--disable-gpu", "--no-first-run", "--disable-sync",
    "--disable-background-networking", "--disable-component-update", "--disable-extensions",
    "--remote-debugging-address=127.0.0.1", `--remote-debugging-port=${port}`,
    `--user-data-dir=${folder}`, `--window-size=${SIZE.width},${SIZE.height}`, "about:blank",
  ]);
  const pages = () => fetch(`http://127.0.0.1:${port}/json`).then((it) => it.json());
  const page = await retried(async () => {
    const found = (await pages()).find((it) => it.type === "page");
    if (!found) throw new Error("no page");
    return found;
  });
  const wire = await connect(page.webSocketDebuggerUrl);
  const { send, events } = wire;
  for (const domain of ["Page", "Runtime", "Network", "Log", "DOM", "Accessibility"]) await send(`${domain}.enable`);
  const version = (await send("Browser.getVersion")).product;

  async function evaluate(expression) {
    const answer = await send("Runtime.evaluate", { expression, awaitPromise: true, returnByValue: true });
    if (answer.exceptionDetails) throw new Error(JSON.stringify(answer.exceptionDetails).slice(0, 600));
    return answer.result.value;
  }

  async function key(name, shift = false) {
    const [code] = KEYS[name] ?? [name.toUpperCase().charCodeAt(0)];
    const text = name === "Enter" ? "\r" : name.length === 1 ? name : undefined;
    const common = { key: name, code: name.length > 1 ? name : undefined, windowsVirtualKeyCode: code, modifiers: shift ? 8 : 0 };
    await send("Input.dispatchKeyEvent", { type: text ? "keyDown" : "rawKeyDown", text, ...common });
    await send("Input.dispatchKeyEvent", { type: "keyUp", ...common });
  }

  async function node(selector) {
    const { root } = await send("DOM.getDocument");
    return (await send("DOM.querySelector", { nodeId: root.nodeId, selector })).nodeId;
  }

  return {
    kind: "chromium", version, evaluate, key, events, send,
    mouse: (x, y) => send("Input.dispatchMouseEvent", { type: "mouseMoved", x, y }),
    async files(selector, files) {
      await send("DOM.setFileInputFiles", { files, nodeId: await node(selector) });
    },
    async paste(text) {
      await evaluate(`navigator.clipboard.writeText(${JSON.stringify(text)}).then(() => 0)`);
      await this.pasteKey();
    },
    async pasteKey() {
      await send("Input.dispatchKeyEvent", { type: "rawKeyDown", key: "v", code: "KeyV", windowsVirtualKeyCode: 86, modifiers: 2, commands: ["paste"] });
      await send("Input.dispatchKeyEvent", { type: "keyUp", key: "v", code: "KeyV", windowsVirtualKeyCode: 86, modifiers: 2 });
    },
    async allow() {
      await send("Browser.grantPermissions", { permissions: ["clipboardReadWrite", "clipboardSanitizedWrite"] });
    },
    async downloads(folder) {
      await send("Browser.setDownloadBehavior", { behavior: "allow", downloadPath: folder });
    },
    async go(url) {
      await send("Page.navigate", { url });
      await retried(async () => {
        if ((await evaluate("document.readyState")) !== "complete") throw new Error("loading");
      });
    },
    async look({ dark = false, width = SIZE.width, height = SIZE.height } = {}) {
      await send("Emulation.setEmulatedMedia", { features: [{ name: "prefers-color-scheme", value: dark ? "dark" : "light" }] });
      await send("Emulation.setDeviceMetricsOverride", { width, height, deviceScaleFactor: 1, mobile: false });
    },
    async shot(file) {
      const { data } = await send("Page.captureScreenshot", { format: "png" });
      fs.writeFileSync(file, Buffer.from(data, "base64"));
    },
    async names() {
      const { nodes } = await send("Accessibility.getFullAXTree");
      return nodes.filter((it) => !it.ignored).map((it) => ({ role: it.role?.value, name: it.name?.value ?? "" }));
    },
    requests: () => events.filter((it) => it.method === "Network.requestWillBeSent").map((it) => it.params.request.url),
    faults: () => events.filter((it) => it.method === "Runtime.exceptionThrown"
      || (it.method === "Log.entryAdded" && it.params.entry.level === "error")).map((it) => JSON.stringify(it.params).slice(0, 400)),
    async end() {
      await Promise.race([send("Browser.close").catch(() => 0), sleep(1500)]);
      await stop();
    },
  };
}

const PREFERENCES = `
user_pref("app.normandy.enabled", false);
user_pref("app.update.enabled", false);
user_pref("browser.shell.checkDefaultBrowser", false);
user_pref("browser.safebrowsing.downloads.remote.enabled", false);
user_pref("datareporting.policy.dataSubmissionEnabled", false);
user_pref("network.captive-portal-service.enabled", false);
user_pref("network.connectivity-service.enabled", false);
user_pref("services.settings.server", "http://127.0.0.1:9/");
user_pref("toolkit.telemetry.enabled", false);
user_pref("browser.download.alwaysOpenPanel", false);
user_pref("browser.download.folderList", 2);
user_pref("browser.download.useDownloadDir", true);
user_pref("browser.download.always_ask_before_handling_new_types", false);
`;

async function startFirefox(command, { downloads, preferences = "" } = {}) {
  const port = await freePort();
  const stop = launch(command, (folder) => {
    const where = downloads ? `user_pref("browser.download.dir", ${JSON.stringify(downloads)});\n` : "";
    fs.writeFileSync(path.join(folder, "user.js"), PREFERENCES + where + preferences);
    return ["--headless", "--no-remote", "--profile", folder, `--remote-debugging-port=${port}`, `--width=${SIZE.width}`, `--height=${SIZE.height}`];
  });
  const wire = await connect(`ws://127.0.0.1:${port}/session`);
  const { send, events } = wire;
  const session = await send("session.new", { capabilities: {} });
  // the first window is not active, so keys would not press its buttons
  const { context } = await send("browsingContext.create", { type: "window" });
  const target = { context };
  await send("browsingContext.activate", target);
  await send("session.subscribe", { events: ["network.beforeRequestSent", "log.entryAdded"] });
  const version = `Firefox/${session.capabilities.browserVersion}`;

  async function evaluate(expression) {
    const answer = await send("script.evaluate", { expression, target, awaitPromise: true });
    if (answer.type === "exception") throw new Error(JSON.stringify(answer.exceptionDetails).slice(0, 600));
    return answer.result.type === "null" ? null : answer.result.value;
  }

  const press = (value) => [{ type: "keyDown", value }, { type: "keyUp", value }];
  const keys = (actions) => send("input.performActions", { context, actions: [{ type: "key", id: "keys", actions }] });

  return {
    kind: "firefox", version, evaluate, events, send, context,
    key(name, shift = false) {
      const value = KEYS[name]?.[1] ?? name;
      const held = "\uE008";
      return keys(shift ? [{ type: "keyDown", value: held }, ...press(value), { type: "keyUp", value: held }] : press(value));
    },
    mouse: (x, y) => send("input.performActions", { context, actions: [{ type: "pointer", id: "mouse", actions: [{ type: "pointerMove", x: Math.round(x), y: Math.round(y) }] }] }),
    async files(selector, files) {
      const { nodes } = await send("browsingContext.locateNodes", { context, locator: { type: "css", value: selector } });
      await send("input.setFiles", { context, element: { sharedId: nodes[0].sharedId }, files });
    },
    async paste(text) {
      await send("script.evaluate", { expression: `navigator.clipboard.writeText(${JSON.stringify(text)}).then(() => 0)`, target, awaitPromise: true, userActivation: true });
      await this.pasteKey();
    },
    pasteKey: () => keys([{ type: "keyDown", value: "\uE009" }, ...press("v"), { type: "keyUp", value: "\uE009" }]),
    allow: async () => {},
    downloads: async () => {},
    go: (url) => send("browsingContext.navigate", { context, url, wait: "complete" }),
    async look({ width = SIZE.width, height = SIZE.height, dark = false } = {}) {
      await send("browsingContext.setViewport", { context, viewport: { width, height } });
      await send("emulation.setForcedColorsModeThemeOverride", { contexts: [context], theme: null }).catch(() => 0);
      return dark;
    },
    async shot(file) {
      const { data } = await send("browsingContext.captureScreenshot", { context });
      fs.writeFileSync(file, Buffer.from(data, "base64"));
    },
    names: null,
    requests: () => events.filter((it) => it.method === "network.beforeRequestSent").map((it) => it.params.request.url),
    faults: () => events.filter((it) => it.method === "log.entryAdded" && it.params.level === "error").map((it) => JSON.stringify(it.params).slice(0, 400)),
    async end() {
      await Promise.race([send("browser.close").catch(() => 0), sleep(1500)]);
      await stop();
    },
  };
}

/** Starts a browser of this kind with an empty page. */
export function start(kind, options = {}) {
  const command = program(kind);
  return kind === "chromium" ? startChromium(command) : startFirefox(command, options);
}
