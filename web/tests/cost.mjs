// Prints the processor time that the module takes for each text of standard input, an array in JSON:
// microseconds, the least of five rounds, plain and with folded arguments. Each round makes as many calls
// as take 10 ms or more.
import fs from "node:fs";
import { createRequire } from "node:module";

const require = createRequire(import.meta.url);
const kodliwe = require("../kodliwe.js");
const ROUNDS = 5;
const LEAST = 10_000;

// The system divides the sum of both times by ticks, so one of them may not have changed.
function timeOf(call, count) {
  const before = process.cpuUsage();
  for (let turn = 0; turn < count; turn++) call();
  const { user, system } = process.cpuUsage(before);
  return user + system;
}

function costOf(call) {
  let count = 1;
  while (timeOf(call, count) < LEAST) count *= 2;
  const times = Array.from({ length: ROUNDS }, () => timeOf(call, count));
  return Math.min(...times) / count;
}

const it = await kodliwe.load(await kodliwe.unpack(require("../module.js")));
const texts = JSON.parse(fs.readFileSync(0, "utf8"));
const costs = texts.map((text) => [false, true].map((fold) => costOf(() => it.demangleText(text, { fold }))));
console.log(JSON.stringify(costs));
