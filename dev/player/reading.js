"use strict";

/* ---- Reading patterns. A text is a string of bytes: one character, 0 to 255, for each. ---- */

const HEAD = 1, TAIL = 2, WIRE = 3; // as Golly numbers them
const MOST_BYTES = 16777216, MOST_BOX = 268435456, MOST_CYCLES = 1048576; // the program's limits
const LAST_GENERATION = 4294967296; // and this
const MOST_CELLS = 5000000, MOST_CONTEXTS = 1024; // this page's
const TAGS = { ".": 0, b: 0, A: HEAD, o: HEAD, B: TAIL, C: WIRE, $: -1, "!": -2 };
const GUESSES = [
  [/^\x1f\x8b/, "this file is compressed by gzip. Unpack it first: gunzip FILE.rle.gz"],
  [/^PK\x03\x04/, "this is a zip archive. Unpack it first"],
  [/^\x89PNG/, "this is a picture (PNG), not the text of a pattern"],
  [/^(\xff\xfe|\xfe\xff|\0?([\x01-\x7f]\0){2})/, "this text is UTF-16. Make it UTF-8 first: iconv -f UTF-16 -t UTF-8 FILE"],
  [/^\xef\xbb\xbf/, "the text begins with a byte order mark. Save it without"],
  [/^\.model\b/, "this is a netlist. Compile it first: blifww compile < FILE > pattern.rle"],
  [/^(aag|aig) /, "this is an AIGER circuit. Compile it first: blifww aiger < FILE > pattern.rle"],
  [/^\[M2\]/, "this is a macrocell file. In Golly, save the pattern as RLE"],
  [/[\0-\x08\x0e-\x1f]/, "this file is not a text"],
];

/** What is wrong: the line with which the program `blifww` refuses, if it has one, and what that means. */
class Fault extends Error {
  constructor(says, refusal = "") {
    super(refusal ? `${refusal}: ${says}` : says);
    this.refusal = refusal;
  }
}

/** Refuses a text because of one of its lines. */
function refuse(kind, line, says) {
  throw new Fault(says, `${kind} line ${line}`);
}

function bytesOf(buffer) {
  const bytes = new Uint8Array(buffer), parts = [];
  for (let i = 0; i < bytes.length; i += 32768) parts.push(String.fromCharCode(...bytes.subarray(i, i + 32768)));
  return parts.join("");
}

const encoded = (text) => bytesOf(new TextEncoder().encode(text));

/** The text that bytes of UTF-8 spell, or null. */
function textOf(bytes) {
  try {
    return new TextDecoder("utf-8", { fatal: true, ignoreBOM: true }).decode(Uint8Array.from(bytes, (it) => it.charCodeAt(0)));
  } catch {
    return null;
  }
}

/** Bytes as people read them: as UTF-8, if they are that; otherwise each byte stands for itself. */
const shown = (bytes) => (textOf(bytes) ?? bytes).replace(/[\0-\x1f\x7f-\x9f]/g, "\u00b7");

const bareOf = (digits) => digits.replace(/^0+(?=.)/, ""); // without leading zeros

/** A number of the formats, or null. Numbers over 2^53 are rounded; they are larger than any box or run here. */
function numberOf(digits) {
  const bare = bareOf(digits);
  return /^\d{1,20}$/.test(bare) && (bare.length < 20 || bare <= "18446744073709551615") ? Number(bare) : null;
}

function linesOf(text) {
  const lines = text.split("\n"), last = lines.pop();
  const ended = lines.map((line) => (line.endsWith("\r") ? line.slice(0, -1) : line));
  return last === "" ? ended : [...ended, last];
}

const HEADER = /^[ \t]*x[ \t]*=[ \t]*(\d+)[ \t]*,[ \t]*y[ \t]*=[ \t]*(\d+)[ \t]*(?:,[ \t]*rule[ \t]*=[ \t]*([^ \t].*?)[ \t]*)?$/s;

/** What a line is that is no header, as far as it can be told, or else what is said. */
const guessed = (line, otherwise) => (GUESSES.find(([form]) => form.test(line)) ?? [, otherwise])[1];

/** Finds the header: the index of its line, and the box. */
function headerOf(lines) {
  const at = lines.findIndex((line) => !line.startsWith("#") && !/^[ \t]*$/.test(line));
  const number = at < 0 ? Math.max(1, lines.length) : at + 1, line = lines[number - 1] ?? "";
  const isHeader = at >= 0 && /^[ \t]*x/.test(line), form = "x = 33, y = 32, rule = WireWorld";
  if (!isHeader) refuse("G1 NoHeader", number, guessed(line, `here a header such as “${form}” should stand`));
  const [, across, down, rule] = HEADER.exec(line) ?? [, "", ""], width = numberOf(across), height = numberOf(down);
  if (width === null || height === null) refuse("G2 BadHeader", number, guessed(line, `it is not of the form ${form}`));
  if (rule?.toLowerCase() !== "wireworld") refuse("G3 OtherRule", number, rule ? `the rule is ${shown(rule)}` : "no rule is named");
  if (width * height > MOST_BOX) {
    throw new Fault(`the box has more than ${MOST_BOX} cells`, `too large: grid ${bareOf(across)} by ${bareOf(down)}`);
  }
  return { at, width, height };
}

function grown(list) {
  const longer = new list.constructor(list.length * 2);
  longer.set(list);
  return longer;
}

/** Gives the cells that are not empty, row by row: their columns xs, their rows ys and their states. */
function cellsOf(lines, { at, width, height }, isEnded) {
  let count = 0, x = 0, y = 0;
  const cells = { xs: new Int32Array(1024), ys: new Int32Array(1024), states: new Uint8Array(1024) };
  for (let number = at + 2; number <= lines.length; number++) {
    if (lines[number - 1].startsWith("#")) continue;
    for (const [item, digits, tag] of lines[number - 1].matchAll(/[ \t]+|(\d*)(.?)/gs)) {
      if (tag === undefined || item === "") continue; // blanks, or the end of the line
      if (tag === "" && number === lines.length && !isEnded) break; // digits that the end of the text cuts off
      const length = digits === "" ? 1 : numberOf(digits), state = TAGS[tag];
      const isBad = state === undefined || !length || (state === -2 && digits);
      if (isBad) refuse("G4 BadItem", number, `“${shown(item.slice(0, 30))}” is no item of a pattern`);
      if (state === -2) return { ...cells, count };
      if (state > 0) {
        if (x + length > width || y >= height) refuse("G5 CellOutside", number, "the header's box is smaller");
        if (count + length > MOST_CELLS) throw new Fault(`This page takes patterns of at most ${MOST_CELLS} cells`);
        while (count + length > cells.xs.length) for (const list in cells) cells[list] = grown(cells[list]);
        cells.ys.fill(y, count, count + length);
        cells.states.fill(state, count, count + length);
        for (let k = 0; k < length; k++) cells.xs[count++] = x + k;
      }
      [x, y] = state === -1 ? [0, y + length] : [x + length, y];
    }
  }
  return refuse("G6 NoEnd", Math.max(1, lines.length), "the text ends without “!”");
}

/** The name that a field of the port table stands for, or null. */
function nameOf(field, version) {
  if (version === 1) return field || null;
  if (/%(?![0-9A-F]{2})|%0A/i.test(field)) return null;
  return field.replace(/%(..)/g, (_, digits) => String.fromCharCode(parseInt(digits, 16))) || null;
}

/** What the fields of a version line say, or null. */
function versionOf(fields) {
  const [kind] = fields, isCounted = fields.length === 7 && fields[5] === "C";
  const isForm = fields[1] === "P" && fields[3] === "L" && (isCounted || (fields.length === 5 && kind === "1"));
  if (!/^[12]$/.test(kind) || !isForm) return null;
  const [period, latency, contexts] = [fields[2], fields[4], isCounted ? fields[6] : "1"].map(numberOf);
  const isRoomy = contexts === 1 || (contexts > 1 && 32 * contexts <= period);
  return period && latency !== null && isRoomy ? { kind: "version", period, latency, contexts } : null;
}

/** What the fields of a line of the port table say, or null. */
function formOf(fields, version) {
  const [kind] = fields, isNet = kind === "NET";
  if (isNet ? fields.length !== 6 : !/^(IN|OUT)$/.test(kind) || fields.length !== 4) return versionOf(fields);
  const [x, y, offset] = [fields[1], fields[2], isNet ? fields[3] : "0"].map(numberOf);
  const form = { kind, x, y, offset, name: nameOf(fields[isNet ? 4 : 3], version), path: isNet ? fields[5] : "-" };
  const isNumber = (part) => /^(0|[1-9]\d*)$/.test(part) && numberOf(part) !== null;
  const isPlaced = form.path === "-" || form.path.split(".").every(isNumber);
  return isPlaced && !Object.values(form).includes(null) ? form : null;
}

/** Reads the port table, which stands in the lines before the header. */
function tableOf(lines, { at, width, height }) {
  const table = { period: 32, latency: 0, contexts: 1, inputs: [], outputs: [], nets: [] }, names = new Set();
  const portsOf = { IN: table.inputs, OUT: table.outputs, NET: table.nets };
  let version = 0;
  for (let number = 1; number <= at; number++) {
    if (!lines[number - 1].startsWith("#C BLIFWW ")) continue;
    const fields = lines[number - 1].slice(10).split(" "), isFirst = version === 0;
    if (isFirst) version = fields[0] === "2" ? 2 : 1;
    const form = formOf(fields, version);
    if (!form) refuse("H1 BadLine", number, "a line of the port table does not have this form");
    if ((form.kind === "version") !== isFirst) refuse("H2 BadOrder", number, "the version line stands first, and only there");
    if (isFirst) { Object.assign(table, form); continue; }
    if (form.x >= width || form.y >= height) refuse("H3 CellOutside", number, `(${form.x}, ${form.y}) is outside the box`);
    const full = form.path === "-" ? form.name : `${form.path}/${form.name}`, key = `${form.kind} ${form.path} ${form.name}`;
    if (names.has(key)) refuse("H4 Twice", number, `the name ${shown(form.name)} stands twice`);
    names.add(key);
    portsOf[form.kind].push({ ...form, full, label: shown(full), index: portsOf[form.kind].length });
  }
  return table;
}

const MOST_LAMPS = 1000;

/** The boxes of the lamps that comments such as `#C lamp 0 425 698 15 5` name: a cell, columns and rows. */
function lampsOf(lines, { at, width, height }) {
  const found = lines.slice(0, at).map((it) => /^#C lamp \d+ (\d{1,9}) (\d{1,9}) (\d{1,9}) (\d{1,9})$/.exec(it)).filter((it) => it);
  const boxes = found.map(([, ...numbers]) => {
    const [left, top, wide, high] = numbers.map(Number);
    return { left, top, right: Math.min(width, left + wide), bottom: Math.min(height, top + high) };
  });
  return boxes.filter((it) => it.left < width && it.top < height).slice(0, MOST_LAMPS);
}

function readPattern(text) {
  if (text.length > MOST_BYTES) throw new Fault("the text has more bytes", `too long: limit ${MOST_BYTES}`);
  const lines = linesOf(text), header = headerOf(lines), cells = cellsOf(lines, header, text.endsWith("\n"));
  const table = tableOf(lines, header);
  if (table.contexts > MOST_CONTEXTS) throw new Fault(`This page takes at most ${MOST_CONTEXTS} contexts`);
  const gateLines = lines.slice(0, header.at).filter((it) => /^#C (gate|wire) /.test(it));
  return { ...header, ...cells, table, text, lamps: lampsOf(lines, header), gateLines };
}
