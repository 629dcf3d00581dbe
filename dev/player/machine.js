/* ---- Driving. Heads enter and bits are read, each at its own generation. ---- */

/** A list of bits that grows. */
class Bits {
  constructor() {
    this.length = 0;
    this.bytes = new Uint8Array(8);
  }

  at(t) { return (this.bytes[t >> 3] >> (t & 7)) & 1; }
  last() { return this.length ? this.at(this.length - 1) : null; }
  cut(length) { this.length = Math.min(this.length, length); }

  push(bit) {
    const t = this.length++, place = 1 << (t & 7);
    if (t >> 3 >= this.bytes.length) this.bytes = grown(this.bytes);
    if (bit) this.bytes[t >> 3] |= place;
    else this.bytes[t >> 3] &= ~place;
  }
}

/** The bits of an input: those that are fixed, and the bit of all cycles after them. */
class Stream extends Bits {
  constructor(bits, cycles) {
    super();
    this.rest = 0;
    for (const bit of bits) this.push(bit);
    while (this.length < cycles) this.push(bits.at(-1) ?? 0);
  }

  at(t) { return t < this.length ? super.at(t) : this.rest; }
  fix(length) { while (this.length < length) this.push(this.rest); }

  /** From cycle t on the bit is this one. */
  hold(t, bit) {
    this.fix(t);
    this.cut(t);
    this.rest = bit;
  }

  flip(t) {
    this.fix(t + 1);
    this.bytes[t >> 3] ^= 1 << (t & 7);
  }
}

const MOST_KEPT = 256, MOST_KEPT_CELLS = 4000000;

/** A pattern that is driven. Its streams stay when it goes back in time. */
class Machine {
  constructor(pattern) {
    this.pattern = pattern;
    this.table = pattern.table;
    this.wires = new Wires(pattern);
    this.entries = this.table.inputs.map((it) => this.wires.find(it.x, it.y));
    this.makeEvents();
    this.feed({ cycles: 0, streams: [] });
  }

  get generation() { return this.wires.generation; }

  /** The generation of the next event. */
  get due() { return this.cycle * this.table.period + this.events[this.turn].within; }

  /** When the inputs of a cycle enter a context. */
  entryOf(c, cycle) { return cycle * this.table.period + 32 * c; }

  /** When the outputs have shown so many cycles. */
  endOf(cycles) { return this.table.latency + this.entryOf(this.table.contexts - 1, cycles - 1); }

  /** The last generation: a run ends there. */
  get last() { return Math.min(LAST_GENERATION, this.endOf(MOST_CYCLES)); }

  /** How many cycles have gone by in a context; a part of one counts. */
  passed(c) { return (this.generation - 32 * c) / this.table.period; }

  /** The first cycle whose inputs can be changed: it may enter at this generation. */
  open(c) { return Math.max(0, Math.ceil(this.passed(c))); }

  /** The number of cycles whose inputs have entered. */
  entered(c) { return Math.max(0, Math.floor(this.passed(c)) + 1); }

  /** Lists what happens in a period, in order. A trace has the bits of a cell from a generation on, one for each cycle. */
  makeEvents() {
    const { period, latency, contexts, outputs, nets } = this.table, events = new Map(), traces = new Map();
    const eventAt = (within) => {
      if (!events.has(within)) events.set(within, { within, enters: [], reads: [] });
      return events.get(within);
    };
    const traceOf = ({ x, y }, first) => {
      const key = `${x} ${y} ${first}`;
      if (!traces.has(key)) {
        traces.set(key, { first, cell: this.wires.find(x, y), bits: new Bits() });
        eventAt(first % period).reads.push(traces.get(key));
      }
      return traces.get(key).bits;
    };
    const each = Array.from({ length: contexts }, (_, c) => c);
    for (const c of each) eventAt(32 * c % period).enters.push(c);
    this.outputs = each.map((c) => outputs.map((it) => traceOf(it, latency + 32 * c)));
    this.nets = each.map((c) => nets.map((it) => traceOf(it, it.offset + 32 * c)));
    this.traces = [...traces.values()];
    this.events = [...events.values()].sort((a, b) => a.within - b.within);
  }

  /** Takes streams, and begins again. */
  feed({ cycles, streams }) {
    const end = this.endOf(Math.max(1, cycles));
    const made = (c) => this.table.inputs.map((_, i) => new Stream(streams[c]?.[i] ?? [], cycles));
    if (cycles && end > LAST_GENERATION) throw new Fault(`the limit is ${LAST_GENERATION}`, `too large: generations ${BigInt(end)}`);
    this.cycles = cycles;
    this.streams = Array.from({ length: this.table.contexts }, (_, c) => made(c));
    this.restart();
  }

  restart() {
    this.stride = 1; // of so many cycles one is kept
    this.kept = [];
    this.resume(this.wires.start);
    this.wires.lit.fill(0);
  }

  /** Goes to what was kept at the beginning of a cycle. */
  resume(kept) {
    this.wires.restore(kept);
    Object.assign(this, { cycle: kept.cycle, turn: 0, trouble: "" });
    for (const { first, bits } of this.traces) {
      bits.cut(Math.max(0, Math.ceil((kept.generation - first) / this.table.period)));
    }
    this.happen();
  }

  happen() {
    const { wires } = this, event = this.events[this.turn];
    if (this.turn === 0) this.keep();
    for (const c of event.enters) this.enter(c);
    for (const { first, cell, bits } of event.reads) {
      if (wires.generation >= first) bits.push(cell >= 0 && wires.state[cell] === HEAD);
    }
    this.turn = (this.turn + 1) % this.events.length;
    if (this.turn === 0) this.cycle++;
  }

  /** Puts a head at each input of a context that is 1; two inputs may share a cell. */
  enter(c) {
    const taken = new Set();
    this.table.inputs.forEach((input, i) => {
      const cell = this.entries[i];
      this.streams[c][i].fix(this.cycle + 1);
      if (!this.streams[c][i].at(this.cycle) || taken.has(cell) || this.trouble) return;
      if (this.wires.inject(cell)) taken.add(cell);
      else this.trouble = this.notQuiet(input);
    });
  }

  notQuiet({ x, y, label }) {
    const refusal = `not quiet: generation ${this.generation} cell ${x} ${y}`;
    return `${refusal}: a head is due at the input ${label}, and no conductor is there then`;
  }

  /** Keeps the plane at the beginning of some cycles, so that going back is quick. */
  keep() {
    if (this.cycle % this.stride || this.kept.at(-1)?.generation >= this.generation) return;
    const kept = { ...this.wires.kept(), cycle: this.cycle };
    const most = MOST_KEPT_CELLS / (kept.heads.length + kept.tails.length + 1);
    this.kept.push(kept);
    while (this.kept.length > Math.max(1, Math.min(MOST_KEPT, most))) {
      this.stride *= 2;
      this.kept = this.kept.filter((it) => it.cycle % this.stride === 0);
    }
  }

  /** Runs to a generation, or until the clock shows a time, or into trouble. */
  run(target, time = Infinity) {
    const { wires } = this, last = Math.min(target, this.last);
    for (let look = wires.generation; wires.generation < last && !this.trouble; ) {
      if (wires.generation >= look) {
        if (performance.now() > time) return;
        look += Math.ceil(20000 / (80 + wires.heads)); // some 0.3 ms of work
      }
      wires.advance(Math.min(last, this.due, look) - wires.generation);
      if (wires.generation === this.due) this.happen();
    }
  }

  /** Goes to a generation, as `run` does. Back in time it runs the period before again, so that the trail is there. */
  seek(target, time = Infinity) {
    const from = target - this.table.period;
    if (target <= this.generation) {
      while (this.kept.length > 1 && this.kept.at(-1).generation > from) this.kept.pop();
      this.resume(this.kept.at(-1));
    }
    this.run(target, time);
  }

  /** Changes streams of a context from its open cycle on. */
  change(c, work) {
    const { generation } = this;
    work();
    if (this.entryOf(c, this.open(c)) === generation) this.seek(generation);
  }

  /** The first generation after another one of those that are `first`, and every period after it. */
  nextOf(first, from) {
    return first + Math.max(0, Math.floor((from - first) / this.table.period) + 1) * this.table.period;
  }

  /** The next generation after another one at which inputs enter a context, and at which its outputs are read. */
  nextEntry(c, from) { return this.nextOf(32 * c, from); }
  nextResult(c, from) { return this.nextOf(this.table.latency + 32 * c, from); }

  /** The number of cycles that all outputs have shown. */
  shownCycles() {
    const all = this.outputs.flat();
    return all.length ? Math.min(...all.map((it) => it.length)) : this.entered(this.table.contexts - 1);
  }

  /** The bits of a port in a context. */
  bitsOf(c, { kind, index }) {
    return { IN: this.streams, OUT: this.outputs, NET: this.nets }[kind][c][index];
  }

  /** Lines name=bits of some cycles, context by context. */
  linesOf(ports, cycles) {
    const { contexts } = this.table, lines = [];
    for (let c = 0; c < contexts; c++) {
      for (const port of ports) {
        const bits = Array.from({ length: cycles }, (_, t) => this.bitsOf(c, port).at(t));
        lines.push(`${contexts > 1 ? `${c}:` : ""}${port.label}=${bits.join("")}`);
      }
    }
    return lines;
  }
}

