// Prints what the readers of docs/player.html say of each case of dev/readers/cases, a line for each; dev/readers-test compares them.
"use strict";
const fs = require("fs"), path = require("path");
const scripts = ["reading", "streams", "gates"].map((it) => fs.readFileSync(path.join(__dirname, `../player/${it}.js`), "utf8")).join("\n");
const { readPattern, readWords, readGates, rowsOf, Fault } = new Function(`${scripts}; return { readPattern, readWords, readGates, rowsOf, Fault };`)();

const LETTERS = { n: "\n", r: "\r", t: "\t", "\\": "\\" };
const unescaped = (field) => field.replace(/\\(x(..)|.)/g, (_, letter, digits) => (digits ? String.fromCharCode(parseInt(digits, 16)) : LETTERS[letter]));
const hex = (letter) => `%${letter.charCodeAt(0).toString(16).toUpperCase().padStart(2, "0")}`;
const escaped = (name) => name.replace(/[^!-~]|%/g, hex);
const bytesOf = (line) => Buffer.from(line, "utf8").toString("latin1").replace(/[^ -~]/g, hex); // a refusal shows names as people read them

function tableOf(text) {
  const { table, states, count } = readPattern(text), ports = [];
  for (const it of [...table.inputs, ...table.outputs]) ports.push(` ${it.kind} ${it.x} ${it.y} ${escaped(it.name)}`);
  for (const it of table.nets) ports.push(` NET ${it.x} ${it.y} ${it.offset} ${escaped(it.name)} ${it.path}`);
  const counts = [1, 2, 3].map((state) => states.slice(0, count).filter((it) => it === state).length);
  return `P ${table.period} L ${table.latency} C ${table.contexts}${ports.join("")}; cells ${counts.join(" ")}`;
}

const portsOf = (names) => names.split(" ").map((name, index) => ({ name, full: name, label: name, index }));

function streamsOf(contexts, inputs, words) {
  const ports = portsOf(inputs), { cycles, streams } = readWords(words, { inputs: ports, contexts: Number(contexts) }), said = [cycles];
  streams.forEach((own, c) => ports.forEach((it, k) => { if (own[k]) said.push(`${c}:${escaped(it.name)}=${own[k].join("")}`); }));
  return said.join(" ");
}

const busesOf = (names) => rowsOf(portsOf(names)).map((row) => escaped(row.name) + (row.isBus ? `=${row.ports.map((it) => escaped(it.full)).join(",")}` : "")).join(" ");

function gatesOf(text) {
  const { gates, wires } = readGates(readPattern(text).gateLines);
  const named = gates.map((it) => `${it.word}-${it.turn} ${it.x} ${it.y} ${it.wide}x${it.high}`);
  const led = wires.map((it) => `wire ${it.x} ${it.y} ${it.step} ${it.u} ${it.v} ${it.starts || "-"}`);
  return [...named, ...led].join(", ") || "none";
}

for (const line of fs.readFileSync(process.argv[2], "latin1").split("\n")) {
  if (!line || line.startsWith("#")) continue;
  const [kind, ...fields] = line.split(" | ").slice(0, -1), read = { text: tableOf, words: streamsOf, buses: busesOf, gates: gatesOf }[kind];
  try {
    console.log(read(...fields.map(unescaped)));
  } catch (fault) {
    if (!(fault instanceof Fault)) throw fault;
    console.log(bytesOf(fault.refusal));
  }
}
