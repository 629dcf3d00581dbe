/* ---- Streams: ports as rows, and the words that drive them. ---- */

const MOST_BITS = 4096; // of a bus
const BIT_NAMES = [/^(.+)\[(0|[1-9]\d{0,8})\]$/s, /^(.*\D)(0|[1-9]\d{0,8})$/s]; // a[0] and a0

const rowOf = (port) => ({ name: port.full, label: port.label, isBus: false, ports: [port] });

/** Ports that are named as bits of one bus, with the numbers of these, by the bus' names: those as a[4], a[5], .. before those as a4, a5, .. */
function bitsOfBuses(ports) {
  const buses = BIT_NAMES.map(() => new Map());
  for (const port of ports) {
    const form = BIT_NAMES.findIndex((it) => it.test(port.full));
    if (form < 0) continue;
    const [, name, bit] = BIT_NAMES[form].exec(port.full);
    if (!buses[form].has(name)) buses[form].set(name, []);
    buses[form].get(name).push({ port, bit: Number(bit) });
  }
  return buses.flatMap((it) => [...it]);
}

/**
 * Groups ports into rows, by the rule of the scripts: a bus has two bits or more and none is missing between them, no port has its name, and
 * its lowest bit stands first and counts 1, whatever its number. Any other port is a row.
 */
function rowsOf(ports) {
  const names = new Set(ports.map((it) => it.full)), owners = new Map();
  for (const [name, bits] of bitsOfBuses(ports)) {
    bits.sort((a, b) => a.bit - b.bit);
    const isWhole = bits.length > 1 && bits.length <= MOST_BITS && bits.every(({ bit }, k) => bit === bits[0].bit + k);
    if (!isWhole || names.has(name)) continue;
    const bus = { name, label: shown(name), isBus: true, ports: bits.map((it) => it.port) };
    names.add(name);
    for (const port of bus.ports) owners.set(port, bus);
  }
  return [...new Set(ports.map((port) => owners.get(port) ?? rowOf(port)))];
}

/** A number such as 3, -5, 0x1f or 0b101 that a bus of a width can carry, or null. */
function busNumber(text, width) {
  if (!/^-?(\d+|0x[\da-f]+|0b[01]+)$/i.test(text)) return null;
  const number = text[0] === "-" ? -BigInt(text.slice(1)) : BigInt(text);
  return number < -(1n << BigInt(width - 1)) || number >= 1n << BigInt(width) ? null : number;
}

/** The bits of numbers with commas between them, for a bus: a list for each of its inputs; or null. */
function bitsOfNumbers(list, width) {
  const numbers = list.split(",").map((it) => busNumber(it, width));
  if (numbers.includes(null)) return null;
  return Array.from({ length: width }, (_, k) => numbers.map((it) => Number((it >> BigInt(k)) & 1n)));
}

function cyclesOf(text) {
  const cycles = Number(text);
  if (/^\d+$/.test(text) && cycles >= 1 && cycles <= MOST_CYCLES) return cycles;
  throw new Fault(`There can be 1 to ${MOST_CYCLES} cycles, not ${shown(text)}`);
}

/** Puts the bits of a word name=bits or bus=numbers, with its context before it if there are several, into the streams. */
function readWord(word, { inputs, contexts }, streams) {
  const fail = (kind, says) => { throw new Fault(says, `stream: ${kind} ${shown(word)}`); };
  const cut = word.lastIndexOf("="), value = word.slice(cut + 1);
  if (cut < 0) fail("NoEquals", "a word is name=bits");
  const [, context, name] = contexts > 1 ? /^(0|[1-9]\d*):(.*)$/s.exec(word.slice(0, cut)) ?? [] : [, 0, word.slice(0, cut)];
  if (!(context < contexts)) fail("BadContext", `a word begins with the number of a machine, 0: to ${contexts - 1}:`);
  const input = inputs.find((it) => it.name === name);
  const row = input ? rowOf(input) : rowsOf(inputs).find((it) => it.isBus && it.name === name), own = streams[context];
  if (!row) fail("UnknownInput", "no input has this name");
  if (row.ports.some((it) => own[it.index])) fail("TwiceInput", "this input has a word already");
  const plain = /^[01]+$/.test(value) ? [Array.from(value, Number)] : null;
  const bits = row.isBus ? bitsOfNumbers(value, row.ports.length) : plain;
  if (!bits) fail("BadBit", row.isBus ? `the bus takes numbers of ${row.ports.length} bits` : "a bit is 0 or 1");
  row.ports.forEach((it, k) => { own[it.index] = bits[k]; });
}

/** The words of a text. A name may have blanks, but no line ends: a word ends at the first one behind its `=`. */
const wordsIn = (text) => text.match(/[^\s=][^=\n]*=\S*|\S+/g) ?? [];

/** Reads streams: words, and `--cycles N`. Gives { cycles, streams }: the bits by context and input. */
function readWords(text, table) {
  const streams = Array.from({ length: table.contexts }, () => table.inputs.map(() => null));
  let cycles = 0;
  for (const word of wordsIn(text.replace(/--cycles\s+(?=\d)/g, "--cycles="))) {
    if (word.startsWith("--cycles=")) cycles = cyclesOf(word.slice(9));
    else readWord(word, table, streams);
  }
  const longest = Math.max(0, ...streams.flat().map((it) => it?.length ?? 0));
  return { cycles: cycles || (longest && cyclesOf(String(longest))), streams };
}
