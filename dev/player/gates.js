/* ---- Gates and wires of a routed circuit. Comments of the pattern name them (docs/FORMATS.md): a line that the cells do not bear out counts
   for nothing. ---- */

// What each gate is called, what it does, its drawing with the signals running east, as docs/GATES.md has it, and which input an output copies.
const GATES = {
  LONE: { title: "point", does: "Wires begin or end here.", rows: ["a"], copies: { a: "a" } },
  FORK: { title: "fork", does: "One signal goes on twice.", rows: ["..y", ".C.", "a..", ".C.", "..z"], copies: { y: "a", z: "a" } },
  OR: { title: "OR", does: "1 if at least one of the two inputs is 1.", rows: ["a..", ".C.", "CCy", ".C.", "b.."] },
  XOR: {
    title: "XOR", does: "1 if exactly one of the two inputs is 1.",
    rows: ["a....", ".C...", "CCCC.", "C..Cy", "CCCC.", ".C...", "b...."],
  },
  XOR2: {
    title: "XOR", does: "1 if exactly one of the two inputs is 1, at two exits.", rows: ["a.C.y", ".CCC.", "C...C", ".CCC.", "z.C.b"],
  },
  ANDNOT: { title: "AND-NOT", does: "1 if the first input is 1 and the second one is 0.", rows: ["a.y", ".C.", "CCC", ".C.", "b.."] },
  "ANDNOT-LEVEL": {
    title: "AND-NOT", does: "1 if the first input is 1 and the second one is 0.",
    rows: ["a....", ".C...", "CCC..", "C..C.", "CCCCy", ".C.C.", "b...."],
  },
  CROSS: {
    title: "crossing", does: "Two signals change places, one after the other.",
    rows: ["a....", ".C.C.", "CCCCy", "C..C.", "CCCCz", ".C.C.", "b...."], copies: { y: "b", z: "a" },
  },
  TAP: {
    title: "crossing", does: "Two signals change places, and one of them also goes straight on.",
    rows: ["a....", ".C.C.", "CCCCy", "C..C.", "CCCCz", ".C.C.", "b...u"], copies: { y: "b", z: "a", u: "b" },
  },
  TAP2: {
    title: "crossing", does: "Two signals change places, and both also go straight on.",
    rows: ["a...t", ".C.C.", "CCCCy", "C..C.", "CCCCz", ".C.C.", "b...u"], copies: { y: "b", z: "a", u: "b", t: "a" },
  },
};
// Where a cell of a turned drawing is in the one whose signals run east, with that one's last column and last row.
const TURNS = {
  E: (x, y) => [x, y], e: (x, y, right, low) => [x, low - y], S: (x, y, right, low) => [y, low - x], s: (x, y) => [y, x],
  W: (x, y, right, low) => [right - x, low - y], w: (x, y, right) => [right - x, y],
  N: (x, y, right) => [right - y, x], n: (x, y, right, low) => [right - y, low - x],
};
const STEPS = { N: [0, -1], NE: [1, -1], E: [1, 0], SE: [1, 1], S: [0, 1], SW: [-1, 1], W: [-1, 0], NW: [-1, -1] };
const GATE_LINE = /^#C gate ([A-Z0-9-]+)-([EeSsWwNn]) (\d{1,9}) (\d{1,9}) \d{1,9}(?: \d{1,9})?$/;
const WIRE_LINE = /^#C wire (\d{1,9}) (\d{1,9}) ([NESW]{1,2}) (\d{1,9}) (\d{1,9}) (-|[01]+)$/;

/** The rows of a drawing in a turn. */
function turned(rows, turn) {
  const right = rows[0].length - 1, low = rows.length - 1, [wide, high] = /[SN]/i.test(turn) ? [low, right] : [right, low];
  const letter = (x, y) => { const [u, v] = TURNS[turn](x, y, right, low); return rows[v][u]; };
  return Array.from({ length: high + 1 }, (_, y) => Array.from({ length: wide + 1 }, (_, x) => letter(x, y)).join(""));
}

/** What the lines say that have the form of a gate's or a wire's. */
function readGates(lines) {
  const gates = [], wires = [];
  for (const line of lines) {
    const [, word, turn, ...corner] = GATE_LINE.exec(line) ?? [], [, ...fields] = WIRE_LINE.exec(line) ?? [];
    if (word && Object.hasOwn(GATES, word)) {
      const [x, y] = corner.map(Number), rows = turned(GATES[word].rows, turn);
      gates.push({ word, turn, x, y, rows, wide: rows[0].length, high: rows.length });
    } else if (STEPS[fields[2]]) {
      const [x, y, , u, v] = fields.map(Number);
      wires.push({ x, y, step: fields[2], u, v, starts: fields[5] === "-" ? "" : fields[5] });
    }
  }
  return { gates, wires };
}

/** The gates and the wires that are there; `cells` are numbers of Wires. */
class Routed {
  constructor({ gateLines, table }, wires) {
    const said = readGates(gateLines);
    Object.assign(this, { plane: wires, gates: [], wires: [], ports: new Map(), outputs: new Map(), left: 4 * wires.count });
    this.ownerOf = new Array(gateLines.length ? wires.count : 0); // the gate or the wire of a cell
    this.copied = new Map(); // of an output that copies an input: that input's cell
    this.into = new Map(); // of an input's cell: the wire that ends there
    for (const it of [...table.nets, ...table.inputs]) this.ports.set(wires.find(it.x, it.y), it);
    for (const it of table.outputs) this.outputs.set(wires.find(it.x, it.y), it);
    for (const it of said.gates) this.addGate(it);
    for (const it of said.wires) this.addWire(it);
    for (const it of this.wires) Object.assign(it, this.sourceOf(it.begin));
  }

  addGate(gate) {
    const cells = [], ports = {};
    for (let y = 0; y < gate.high; y++) {
      for (let x = 0; x < gate.wide; x++) {
        const letter = gate.rows[y][x], cell = letter === "." ? -1 : this.plane.find(gate.x + x, gate.y + y);
        if (letter === ".") continue;
        if (cell < 0) return;
        cells.push(cell);
        ports[letter] = cell;
      }
    }
    const own = { ...gate, ...GATES[gate.word], kind: "gate", cells };
    for (const [output, input] of Object.entries(own.copies ?? {})) this.copied.set(ports[output], ports[input]);
    for (const it of cells) this.ownerOf[it] = own;
    this.gates.push(own);
  }

  addWire({ x, y, step, u, v, starts }) {
    const { plane } = this, [dx, dy] = STEPS[step], begin = plane.find(x, y), end = plane.find(u, v);
    const cells = this.follow(begin, plane.find(x + dx, y + dy), end);
    if (!cells) return;
    const own = { kind: "wire", cells, begin, end, starts };
    for (const it of cells) this.ownerOf[it] = own;
    this.into.set(end, own);
    this.wires.push(own);
  }

  /** The cells of the wire that leaves a port's cell by a first cell, or null if it does not lead to an end. */
  follow(begin, here, end) {
    const { near, first } = this.plane, cells = [];
    for (let before = begin; here !== end; this.left--) { // lines at fault cost no more than some looks at each cell
      if (before < 0 || here < 0 || this.ownerOf[here] || first[here + 1] - first[here] !== 2 || !this.left) return null;
      const [a, b] = near.subarray(first[here], first[here + 1]);
      if (a !== before && b !== before) return null;
      cells.push(here);
      [before, here] = [here, a === before ? b : a];
    }
    return cells;
  }

  /** Where the signal comes from that leaves a cell: back through copies, and wires that are no latches, with the first name on this way. */
  sourceOf(cell) {
    let port = this.ports.get(cell);
    for (let left = this.gates.length; left > 0; left--) {
      const wire = this.into.get(this.copied.get(cell));
      if (!wire || wire.starts) break;
      cell = wire.begin;
      port ??= this.ports.get(cell);
    }
    return { source: cell, port };
  }

  /** The gate or the wire at a cell of the plane, or near it: the nearest one within some cells. */
  partAt(x, y, reach) {
    if (!this.gates.length) return null;
    const own = this.ownerOf[this.plane.find(x, y)];
    if (own) return own;
    const inside = this.gates.find((it) => x >= it.x && y >= it.y && x < it.x + it.wide && y < it.y + it.high);
    return inside ?? this.nearest(x, y, reach);
  }

  nearest(x, y, reach) {
    for (let far = 1; far <= reach; far++) {
      for (let k = -far; k <= far; k++) {
        for (const [u, v] of [[x + k, y - far], [x + k, y + far], [x - far, y + k], [x + far, y + k]]) {
          const own = this.ownerOf[this.plane.find(u, v)];
          if (own) return own;
        }
      }
    }
    return null;
  }

  /** The cells of all wires that carry the signal of a wire. */
  alike(part) {
    return part.kind === "wire" ? this.wires.filter((it) => it.source === part.source).flatMap((it) => it.cells) : part.cells;
  }

  /** What is at a wire's end: the port that has its cell, or a gate. */
  endName(cell) {
    const port = this.outputs.get(cell) ?? this.ports.get(cell);
    return port && port.kind !== "NET" ? `${port.kind === "IN" ? "input" : "output"} ${port.label}` : this.ownerOf[cell]?.title ?? "a loose end";
  }

  /** What a gate or a wire is: its title, and what else is known. */
  describe(part) {
    if (part.kind === "gate") return [part.title, part.does];
    const { cells, port, starts, begin, end } = part, way = `from ${this.endName(begin)} to ${this.endName(end)}, ${cells.length + 1} cells long`;
    const latches = starts.length > 1 ? `${starts.length} latches, which start with ${starts}` : `a latch that starts with ${starts}`;
    return [`wire${port ? ` of ${port.label}` : ""}`, starts ? `${latches}; ${way}` : way];
  }
}

