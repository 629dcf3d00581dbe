// Compares the reading and driving parts of docs/player.html with the program, in Node.
//
//     node dev/player/fuzz.js PROGRAM SEED COUNT
//
// COUNT changed texts: the page must read them, or refuse them with the program's line, and show the same lines. COUNT random patterns with
// random ports and streams: the same lines, the same line `not quiet`, the same bits of a net, and after going back in time and on again
// the same lines once more. The status is 1 if something differs.
"use strict";
const fs = require("fs"), path = require("path"), { spawnSync } = require("child_process");
const [program, seed, count] = process.argv.slice(2);
if (!count) {
  console.error("usage: node dev/player/fuzz.js PROGRAM SEED COUNT");
  process.exit(2);
}
const examples = path.join(__dirname, "../../examples");
const script = ["reading", "streams", "wires", "machine"].map((it) => fs.readFileSync(path.join(__dirname, `${it}.js`), "utf8")).join("\n");
const { Machine, readPattern, readWords, Fault } = new Function(`${script}; return { Machine, readPattern, readWords, Fault };`)();

let state = Number(seed);
function below(n) {
  state = (Math.imul(state, 1103515245) + 12345) >>> 0;
  return (state >>> 8) % n;
}
const pick = (list) => list[below(list.length)];
const times = (n, make) => Array.from({ length: n }, (_, i) => make(i));
const asked = (order, text) => {
  const done = spawnSync(program, order, { input: Buffer.from(text, "latin1") });
  return { status: done.status, text: (done.status === 0 ? done.stdout : done.stderr).toString("latin1") };
};
const refusalOf = (message) => message.split(": ").slice(0, /^(not quiet|too large|too long)/.test(message) ? 2 : 1).join(": ");
const linesOf = (machine, ports, cycles) => machine.linesOf(ports, cycles).map((it) => `${it}\n`).join("");
// Names are shown as UTF-8, and printed as bytes.
const bitsOnly = (lines) => lines.split("\n").map((it) => it.slice(it.lastIndexOf("=") + 1)).join("\n");

let bad = 0;
function compare(what, own, wanted, text) {
  if (own === wanted) return;
  bad++;
  console.log(what, JSON.stringify({ own, wanted, text: text.slice(0, 500) }));
}

const stored = (name) => fs.readFileSync(path.join(examples, name), "latin1").replace(/^#C BLIFWW IN.*\n/gm, "");
const BASES = ["or.rle", "toggle.tape.rle", "lights.rle"].map(stored);
BASES.push(BASES[0].replace("BLIFWW 2", "BLIFWW 1"));
const PARTS = [
  "#C BLIFWW ", "#", "x", "0", "1", "9", "!", "$", "C", "\n", "\r\n", "\r", " ", "\t", "%", "%41", "%4", "%0A", ".", "A", "B", "o", "b",
  "18446744073709551615", "18446744073709551616", ",", "rule", "=", "-", "1.0", "P", "L", "NET 0 0 0 zz -\n", "#C BLIFWW OUT 1 1 a%20b\n",
  "#C BLIFWW NET 1 1 5 q 0.1\n", "#C BLIFWW NET 1 1 5 q 0.01\n", "#C BLIFWW 2 P 64 L 1 C 2\n", "3C", "2$", "",
];

function changedText() {
  let text = pick(BASES);
  for (let left = 1 + below(2); left > 0; left--) {
    const at = below((below(3) ? text.length : Math.min(text.length, 260)) + 1);
    text = text.slice(0, at) + pick(PARTS) + text.slice(at + (below(3) ? below(3) : below(20)));
  }
  return below(8) ? text : text.slice(0, below(text.length + 1));
}

function tryText(text) {
  const wanted = asked(["simulate", "--cycles", "2"], text);
  if (wanted.status === 9 || wanted.text.startsWith("too large")) return; // inputs without words, and limits that differ
  let own;
  try {
    const machine = new Machine(readPattern(text));
    machine.run(machine.endOf(2));
    own = linesOf(machine, machine.table.outputs, 2);
  } catch (fault) {
    own = fault instanceof Fault ? `${fault.refusal || fault.message}\n` : fault.stack;
  }
  compare("text", bitsOnly(own), bitsOnly(wanted.text), text);
}

/** A random plane with its table, and words for it. */
function soup() {
  const wide = 3 + below(14), high = 3 + below(10), density = 1 + below(6), contexts = below(3) ? 1 : 2 + below(2), cycles = 1 + below(9);
  const period = contexts === 1 && below(4) === 0 ? 1 + below(40) : 32 * contexts + (below(2) ? below(80) : 0);
  const inputs = below(3), nets = below(3), cell = () => `${below(wide)} ${below(high)}`;
  const tag = () => (below(10) >= density ? "." : below(8) ? "C" : pick(["A", "B"]));
  const table = [
    `2 P ${period} L ${below(3) ? below(120) : below(4)} C ${contexts}`, ...times(inputs, (i) => `IN ${cell()} i${i}`),
    ...times(1 + below(3), (i) => `OUT ${cell()} o${i}`), ...times(nets, (i) => `NET ${cell()} ${below(200)} n${i} -`),
  ];
  const plane = times(high, () => times(wide, tag).join("")).join("$");
  const text = `${table.map((it) => `#C BLIFWW ${it}\n`).join("")}x = ${wide}, y = ${high}, rule = WireWorld\n${plane}!\n`;
  const bits = () => times(cycles, () => (below(4) ? 0 : 1)).join("");
  const words = times(contexts, (c) => times(inputs, (i) => `${contexts > 1 ? `${c}:` : ""}i${i}=${bits()}`)).flat();
  return { text, words, cycles, contexts, nets };
}

function trySoup() {
  const { text, words, cycles, contexts, nets } = soup();
  const driven = () => {
    const machine = new Machine(readPattern(text));
    machine.feed(readWords(`--cycles ${cycles} ${words.join(" ")}`, machine.table));
    return machine;
  };
  const shownBy = (machine, ports = machine.table.outputs) => {
    return machine.trouble ? `${refusalOf(machine.trouble)}\n` : linesOf(machine, ports, cycles);
  };
  const machine = driven();
  machine.run(machine.endOf(cycles));
  const first = shownBy(machine), end = machine.generation;
  compare("simulate", first, asked(["simulate", "--cycles", String(cycles), ...words], text).text, text);
  machine.seek(below(end + 1));
  machine.run(machine.endOf(cycles));
  compare("back and on", shownBy(machine), first, text);
  if (!nets) return;
  const probed = driven(), [net] = probed.table.nets;
  probed.run(net.offset + probed.entryOf(contexts - 1, cycles - 1));
  compare("probe", shownBy(probed, [net]), asked(["probe", "--cycles", String(cycles), "--net", "n0", ...words], text).text, text);
}

for (let i = 0; i < Number(count); i++) {
  tryText(changedText());
  trySoup();
}
console.log(`${count} texts and ${count} soups from seed ${seed}, ${bad} bad`);
process.exitCode = bad ? 1 : 0;
