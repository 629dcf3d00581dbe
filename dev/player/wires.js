/* ---- The rule. Only electrons cost time: a generation looks at the cells beside heads. ---- */

/** Gives the neighbours of each cell: those of cell i are near[first[i]] to near[first[i + 1] - 1]. */
function neighboursOf({ count, xs, ys }) {
  const first = new Int32Array(count + 1);
  let near = new Int32Array(count * 3 + 8), end = 0, above = 0, below = 0;
  for (let i = 0; i < count; i++) {
    const x = xs[i], y = ys[i];
    if (end + 8 > near.length) near = grown(near);
    while (ys[above] < y - 1 || (ys[above] === y - 1 && xs[above] < x - 1)) above++;
    while (below < count && (ys[below] < y + 1 || (ys[below] === y + 1 && xs[below] < x - 1))) below++;
    for (let k = above; ys[k] === y - 1 && xs[k] <= x + 1; k++) near[end++] = k;
    if (i > 0 && ys[i - 1] === y && xs[i - 1] === x - 1) near[end++] = i - 1;
    if (i + 1 < count && ys[i + 1] === y && xs[i + 1] === x + 1) near[end++] = i + 1;
    for (let k = below; k < count && ys[k] === y + 1 && xs[k] <= x + 1; k++) near[end++] = k;
    first[i + 1] = end;
  }
  return { first, near };
}

/** The plane: the state of each cell, and the lists of heads and tails. */
class Wires {
  constructor(pattern) {
    const { count, xs, ys, states } = pattern;
    Object.assign(this, { count, xs, ys }, neighboursOf(pattern));
    this.state = new Uint8Array(count);
    this.seen = new Uint8Array(count); // heads beside a cell, while a generation is made
    this.lit = new Uint32Array(count); // the generation in which a cell was last a head
    this.lists = [0, 1, 2].map(() => new Int32Array(count)); // heads, tails, and room for the next heads
    this.start = { generation: 0, cycle: 0, heads: [], tails: [] };
    for (let i = 0; i < count; i++) if (states[i] !== WIRE) this.start[states[i] === HEAD ? "heads" : "tails"].push(i);
    this.restore(this.start);
  }

  restore({ generation, heads, tails }) {
    Object.assign(this, { generation, heads: heads.length, tails: tails.length });
    this.lists[0].set(heads);
    this.lists[1].set(tails);
    this.state.fill(WIRE);
    for (const i of heads) this.state[i] = HEAD;
    for (const i of tails) this.state[i] = TAIL;
  }

  kept() {
    return { generation: this.generation, heads: this.lists[0].slice(0, this.heads), tails: this.lists[1].slice(0, this.tails) };
  }

  /** The number of the first cell at or after (x, y), row by row. */
  place(x, y) {
    let low = 0, high = this.count;
    while (low < high) {
      const middle = (low + high) >> 1;
      if (this.ys[middle] < y || (this.ys[middle] === y && this.xs[middle] < x)) low = middle + 1;
      else high = middle;
    }
    return low;
  }

  /** The number of the cell (x, y), or -1 if it is empty. */
  find(x, y) {
    const i = this.place(x, y);
    return i < this.count && this.xs[i] === x && this.ys[i] === y ? i : -1;
  }

  /** Puts a head on a conductor; says whether the cell was one. */
  inject(cell) {
    if (cell < 0 || this.state[cell] !== WIRE) return false;
    this.state[cell] = HEAD;
    this.lists[0][this.heads++] = cell;
    this.lit[cell] = this.generation;
    return true;
  }

  advance(generations) {
    const { state, seen, lit, near, first } = this, last = this.generation + generations;
    let [heads, tails, next] = this.lists, headCount = this.heads, tailCount = this.tails;
    for (let g = this.generation + 1; g <= last && headCount + tailCount > 0; g++) {
      let touched = 0, born = 0;
      for (let i = 0; i < headCount; i++) {
        for (let k = first[heads[i]], end = first[heads[i] + 1]; k < end; k++) {
          const cell = near[k];
          if (state[cell] === WIRE && seen[cell]++ === 0) next[touched++] = cell;
        }
      }
      for (let i = 0; i < tailCount; i++) state[tails[i]] = WIRE;
      for (let i = 0; i < headCount; i++) state[heads[i]] = TAIL;
      for (let i = 0; i < touched; i++) {
        const cell = next[i];
        if (seen[cell] < 3) {
          state[cell] = HEAD;
          lit[cell] = g;
          next[born++] = cell;
        }
        seen[cell] = 0;
      }
      [heads, tails, next] = [next, heads, tails];
      [headCount, tailCount] = [born, headCount];
    }
    Object.assign(this, { lists: [heads, tails, next], heads: headCount, tails: tailCount, generation: last });
  }
}

