// Runs all tests, and counts them.
import fs from "node:fs";
import { parseArgs } from "node:util";
import { program } from "./driver.mjs";
import { testModule } from "./module.mjs";
import { testPage } from "./page.mjs";
import { testWorker } from "./worker.mjs";

const { values, positionals } = parseArgs({ options: { shots: { type: "string" } }, allowPositionals: true });
let passed = 0, failed = 0;

// Counts a test. Its result is given, or returned by a call. If the call throws, the test has failed.
function check(name, isRight, told = "") {
  if (typeof isRight === "function") {
    try {
      isRight = isRight();
    } catch (error) {
      isRight = false;
      told = error.stack;
    }
  }
  if (isRight) passed++; else failed++;
  console.log(`${isRight ? "ok  " : "FAIL"} ${name}${told === "" ? "" : `: ${told}`}`);
}

async function guarded(name, run) {
  try {
    await run();
  } catch (error) {
    check(name, false, error.stack);
  }
}

const unknown = positionals.filter((it) => !["chromium", "firefox"].includes(it));
if (unknown.length) {
  console.error(`web/test knows chromium and firefox, and not ${unknown.join(", ")}`);
  process.exit(2);
}
if (values.shots) fs.mkdirSync(values.shots, { recursive: true });
await guarded("module", () => testModule(check));
await guarded("worker", () => testWorker(check));
for (const kind of positionals.length ? positionals : ["chromium", "firefox"]) {
  if (program(kind)) {
    await guarded(kind, () => testPage(kind, check, values.shots));
  } else {
    const debian = { chromium: "chromium", firefox: "firefox-esr" }[kind];
    check(kind, false, `it is not on this machine: the Debian package ${debian} has it`);
  }
}
console.log(`${passed} passed, ${failed} failed`);
process.exit(failed === 0 ? 0 : 1);
