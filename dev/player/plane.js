/* ---- The view: the plane as points of the screen, and the names over it. ---- */

// In the dark the colours are Golly's. On light ground wires and heads are darker, and tails dark: white would not be seen. A lit lamp is
// another hue: it has a contrast of more than 3 to 1 to one that is not.
const THEMES = {
  dark: {
    outside: "#282828", empty: "#303030", grid: "#4c4c4c", wire: "#ff8000", head: "#0080ff", tail: "#ffffff", trail: "#ffd050", mark: "#38d6c4",
    unlit: "#8a4600", lit: "#8dff6a",
    in: "#7ddc87", out: "#ff8fb4", net: "#c9cdd3",
    ground: "#1b1d21", panel: "#23262b", raised: "#2e3238", line: "#3a3f47", text: "#eceef1", soft: "#a7afb9",
    accent: "#4da3ff", onAccent: "#06121f", warn: "#ffb454",
  },
  light: {
    outside: "#eeeeea", empty: "#fafaf7", grid: "#d2d2cc", wire: "#d87200", head: "#005cd6", tail: "#1c222c", trail: "#8a2800", mark: "#00857c",
    unlit: "#e2b27a", lit: "#0b6b2e",
    in: "#17752b", out: "#b3205c", net: "#4a535d",
    ground: "#eef0f2", panel: "#ffffff", raised: "#f1f3f5", line: "#d3d8de", text: "#1c2127", soft: "#59636e",
    accent: "#0b63c5", onAccent: "#ffffff", warn: "#9a5b00",
  },
};
// Points of a cell, level by level. Below 1 a point shows several cells; from 3 on all cells have one size.
const POWERS = Array.from({ length: 93 }, (_, i) => 2 ** ((i - 48) / 8));
const SIZES = [...new Set(POWERS.map((it) => (it < 3 ? it : Math.round(it))))];
const SHADES = 8, FONT = 'system-ui, "Segoe UI", "DejaVu Sans", sans-serif';

/** The point of a colour #rrggbb, or of one between two. */
function mixed(from, to = from, part = 0) {
  const [a, b] = [from, to].map((it) => [1, 3, 5].map((i) => parseInt(it.slice(i, i + 2), 16)));
  const [red, green, blue] = a.map((it, i) => Math.round(it + (b[i] - it) * part));
  return ((255 << 24) | (blue << 16) | (green << 8) | red) >>> 0;
}

/** Gives names, in the order of their cells, levels from `top` to `bottom` at which they do not overlap, if all have room there. */
function spread(names, high, top, bottom) {
  const groups = [], middle = (group) => group.reduce((sum, name) => sum + name.at[1], 0) / group.length;
  const areNear = (a, b) => b && middle(b) - middle(a) < ((a.length + b.length) * high) / 2;
  if (names.length * high > bottom - top) return;
  for (const it of names.sort((a, b) => a.at[1] - b.at[1])) {
    groups.push([it]);
    for (let [a, b] = groups.slice(-2); areNear(a, b); [a, b] = groups.slice(-2)) groups.splice(-2, 2, [...a, ...b]);
  }
  const starts = groups.map((group) => middle(group) - (group.length * high) / 2);
  groups.forEach((group, i) => { starts[i] = Math.max(starts[i], i ? starts[i - 1] + groups[i - 1].length * high : top); });
  for (let i = groups.length - 1, end = bottom; i >= 0; end = starts[i--]) starts[i] = Math.min(starts[i], end - groups[i].length * high);
  groups.forEach((group, i) => group.forEach((name, k) => {
    const level = starts[i] + (k + 0.5) * high;
    Object.assign(name, { level, isAway: Math.abs(level - name.at[1]) > 1 || group.length > 1 });
  }));
}

/** Marks the cells of the lamps. */
function lampCells(lamps, wires) {
  const marks = new Uint8Array(wires.count);
  for (const { left, top, right, bottom } of lamps) {
    for (let y = top; y < bottom; y++) marks.fill(1, wires.place(left, y), wires.place(right, y));
  }
  return marks;
}

/** The plane on a canvas; `left` and `top` are its first points on show. */
class Plane {
  constructor(canvas, marks) {
    Object.assign(this, { canvas, marks, left: 0, top: 0, ratio: 1, above: 62, below: 46, isFitted: true, part: null, spots: [], gates: [], marked: [] });
    this.shows = { grid: false, nets: false, trail: true };
    this.context = canvas.getContext("2d", { alpha: false });
    this.setLevel(48);
    this.resize();
  }

  /** Sets the size of a cell, and the side of its square: large cells stand a little apart. */
  setLevel(level) {
    this.level = Math.max(0, Math.min(SIZES.length - 1, level));
    this.size = SIZES[this.level];
    this.side = this.size >= 5 * this.ratio ? this.size - Math.round(this.ratio) : Math.ceil(this.size);
    this.isStale = true;
  }

  column(x) { return Math.floor(x * this.size) - this.left; }
  row(y) { return Math.floor(y * this.size) - this.top; }
  cellAt(px, py) { return [px + this.left, py + this.top].map((it) => Math.floor(it / this.size)); }

  /** The middle of a cell, in points of the page. */
  middle({ x, y }) { return [this.column(x), this.row(y)].map((it) => (it + this.size / 2) / this.ratio); }

  paintWith(theme) {
    this.theme = theme;
    this.trails = Uint32Array.from({ length: SHADES }, (_, i) => mixed(theme.trail, theme.wire, ((0.5 + i) / SHADES) ** 2));
    for (const kind of ["wire", "head", "tail", "lit", "unlit", "mark"]) this[kind] = mixed(theme[kind]);
    this.densities = Uint32Array.from({ length: SHADES + 1 }, (_, i) => mixed(theme.empty, theme.wire, 0.3 + (0.6 * i) / SHADES));
    this.isStale = true;
  }

  resize() {
    const { clientWidth, clientHeight } = this.canvas;
    this.ratio = window.devicePixelRatio || 1;
    [this.wide, this.high] = [clientWidth, clientHeight].map((it) => Math.max(1, Math.round(it * this.ratio)));
    for (const it of [this.canvas, this.marks]) Object.assign(it, { width: this.wide, height: this.high });
    this.image = new ImageData(this.wide, this.high);
    this.points = new Uint32Array(this.image.data.buffer);
    this.base = new Uint32Array(this.points.length);
    this.setLevel(this.level);
    if (this.isFitted && this.pattern) this.fit();
    if (this.part) this.show(this.part);
  }

  open(pattern, wires, gates) {
    Object.assign(this, { pattern, wires, gates, marked: [], pointOf: new Int32Array(wires.count), isLamp: lampCells(pattern.lamps, wires) });
    this.fit();
  }

  /** How far names stand out at a side of the box: for each of them its cell's distance from the side, and its width. */
  marginOf(ports, insideOf) {
    const context = this.marks.getContext("2d");
    context.font = `600 12px ${FONT}`;
    return ports.map((port) => [insideOf(port), (context.measureText(port.label).width + 64) * this.ratio]);
  }

  /** Shows the whole box, with room for the names at its sides, and for what lies above and below. */
  fit() {
    const { ratio, pattern: { width, height, table } } = this, above = this.above * ratio, below = this.below * ratio;
    const west = this.marginOf(table.inputs, (it) => it.x), east = this.marginOf(table.outputs, (it) => width - it.x - 1);
    for (let level = SIZES.length - 1; level >= 0; level--) {
      this.setLevel(level);
      const roomFor = (names) => Math.max(12 * ratio, ...names.map(([inside, wide]) => wide - inside * this.size));
      const boxWide = Math.ceil(width * this.size), boxHigh = Math.ceil(height * this.size), sides = [west, east].map(roomFor);
      this.left = -Math.round((this.wide - boxWide + sides[0] - sides[1]) / 2);
      this.top = -Math.round((this.high - boxHigh + above - below) / 2);
      const isInside = boxWide + sides[0] + sides[1] <= this.wide && boxHigh + above + below <= this.high;
      if (this.size <= 24 * ratio && isInside) break;
    }
    Object.assign(this, { isFitted: true, part: null });
  }

  /** How many points of the page are free between what lies above and below. */
  room() { return this.high / this.ratio - this.above - this.below; }

  /** Shows a part of the plane. */
  show([x, y, width, height]) {
    const high = this.room() * this.ratio;
    const level = SIZES.findLastIndex((size) => size * width <= this.wide && size * height <= high);
    this.setLevel(level);
    this.left = (x + width / 2) * this.size - this.wide / 2;
    this.top = (y + height / 2) * this.size - high / 2 - this.above * this.ratio;
    this.move(0, 0);
    this.part = [x, y, width, height];
  }

  /** The part of the plane on show, as `show` takes it. */
  shown() {
    const high = this.room() * this.ratio, top = this.top + this.above * this.ratio;
    return [this.left, top, this.wide, high].map((it) => Math.round(it / this.size));
  }

  /** Moves by points, not farther than the box can be seen. */
  move(dx, dy) {
    const inside = (at, box, room) => Math.round(Math.min(Math.max(at, 60 - room), box * this.size - 60));
    this.left = inside(this.left + dx, this.pattern.width, this.wide);
    this.top = inside(this.top + dy, this.pattern.height, this.high);
    this.isFitted = false;
    this.part = null;
    this.isStale = true;
  }

  /** Zooms so that what is at the point (px, py) stays there. */
  zoom(steps, px = this.wide / 2, py = this.high / 2) {
    const x = (px + this.left) / this.size, y = (py + this.top) / this.size;
    this.setLevel(this.level + 2 * steps);
    this.left = x * this.size - px;
    this.top = y * this.size - py;
    this.move(0, 0);
  }

  fill(points, left, top, right, bottom, colour) {
    const [x0, x1] = [Math.max(0, left), Math.min(this.wide, right)];
    for (let y = Math.max(0, top); y < Math.min(this.high, bottom) && x0 < x1; y++) {
      points.fill(colour, y * this.wide + x0, y * this.wide + x1);
    }
  }

  /** Fills the square of a cell, or of an electron. */
  square(points, left, top, side, colour) {
    const { wide } = this, right = Math.min(left + side, wide), bottom = Math.min(top + side, this.high);
    for (let y = Math.max(top, 0); y < bottom; y++) {
      for (let x = Math.max(left, 0); x < right; x++) points[y * wide + x] = colour;
    }
  }

  /** The first of the cells in the rows on show, and the first after them. */
  visible() {
    return [this.wires.place(-1, this.cellAt(0, 0)[1]), this.wires.place(-1, this.cellAt(0, this.high)[1] + 1)];
  }

  /** Draws all but the electrons and their trail. */
  drawBase() {
    const { base, theme, pattern, size, left, top } = this, { xs, ys } = this.wires, [first, end] = this.visible();
    const right = Math.ceil(pattern.width * size) - left, bottom = Math.ceil(pattern.height * size) - top;
    base.fill(mixed(theme.outside));
    this.fill(base, -left, -top, right, bottom, mixed(theme.empty));
    if (this.shows.grid && 16 * size >= 6 && !this.gates.length) this.drawGrid(right, bottom);
    if (size < 1) this.drawDensity(first, end);
    else for (let i = first; i < end; i++) this.square(base, this.column(xs[i]), this.row(ys[i]), this.side, this.isLamp[i] ? this.unlit : this.wire);
    this.isStale = false;
  }

  /** Draws the tiles' borders: tiles have 32 by 16 cells. */
  drawGrid(right, bottom) {
    const { base, left, top, pattern } = this, grid = mixed(this.theme.grid);
    for (let x = 0; x <= pattern.width; x += 32) this.fill(base, this.column(x), -top, this.column(x) + 1, bottom, grid);
    for (let y = 0; y <= pattern.height; y += 16) this.fill(base, -left, this.row(y), right, this.row(y) + 1, grid);
  }

  /** Where a point has several cells, its colour tells how many of them are wire. */
  drawDensity(first, end) {
    const { base, wide, high, pointOf } = this, { xs, ys } = this.wires, counts = new Uint16Array(base.length), scale = SHADES * this.size;
    for (let i = first; i < end; i++) {
      const x = this.column(xs[i]), y = this.row(ys[i]);
      pointOf[i] = x >= 0 && x < wide && y >= 0 && y < high ? y * wide + x : -1;
      if (pointOf[i] >= 0) counts[pointOf[i]]++;
    }
    counts.forEach((count, at) => { if (count) base[at] = this.densities[Math.min(SHADES, Math.round(count * scale))]; });
    for (let i = first; i < end; i++) if (this.isLamp[i] && pointOf[i] >= 0) base[pointOf[i]] = this.unlit;
  }

  /** Draws where electrons were within a period: wires fade, and lamps stay lit. */
  drawTrail() {
    const { xs, ys, lit, generation } = this.wires, { trails, points, pointOf, side, isLamp } = this, [first, end] = this.visible();
    const { period } = this.pattern.table, isFar = this.size < 1;
    for (let i = first; i < end; i++) {
      const age = generation - lit[i];
      if (age >= period || age < 0 || lit[i] === 0) continue;
      const colour = isLamp[i] ? this.lit : trails[Math.floor((age * SHADES) / period)];
      if (!isFar) this.square(points, this.column(xs[i]), this.row(ys[i]), side, colour);
      else if (pointOf[i] >= 0) points[pointOf[i]] = colour;
    }
  }

  /** Marks the wire at which the pointer is, and all that carry its signal. */
  drawMarked() {
    const { xs, ys } = this.wires, side = Math.max(this.side, Math.round(2 * this.ratio));
    for (const i of this.marked) this.square(this.points, this.column(xs[i]), this.row(ys[i]), side, this.mark);
  }

  /** Draws tails, then heads; small ones are drawn larger than they are, and the larger the fewer they are. */
  drawElectrons() {
    const { xs, ys, lists, heads, tails } = this.wires, least = heads < 20000 ? Math.round((heads < 500 ? 7 : 5) * this.ratio) : 1;
    const side = Math.max(this.side, least), shift = (side - this.side) >> 1;
    for (const [list, count, colour] of [[lists[1], tails, this.tail], [lists[0], heads, this.head]]) {
      for (let i = 0; i < count; i++) {
        this.square(this.points, this.column(xs[list[i]]) - shift, this.row(ys[list[i]]) - shift, side, colour);
      }
    }
  }

  paint(names) {
    if (this.isStale) this.drawBase();
    this.points.set(this.base);
    if (this.shows.trail) this.drawTrail();
    this.drawMarked();
    this.drawElectrons();
    this.context.putImageData(this.image, 0, 0);
    this.drawNames(names);
  }

  /** Draws names { port, bit }: of inputs west of their cells, of outputs east, and of nets above, where there is room. */
  drawNames(names) {
    const context = this.marks.getContext("2d"), [wide, high] = [this.wide / this.ratio, this.high / this.ratio];
    const [top, bottom] = this.isFitted ? [this.above - 8, high - this.below + 8] : [-high, 2 * high];
    const roomy = Math.max(15, Math.min(19, (16 * this.size) / this.ratio));
    const isNear = ({ at: [x, y] }) => x > -300 && y > -20 && x < wide + 300 && y < high + 20;
    const placed = names.map((it) => ({ ...it, at: this.middle(it.port) })).filter(isNear);
    this.spots = [];
    context.setTransform(this.ratio, 0, 0, this.ratio, 0, 0);
    context.clearRect(0, 0, wide, high);
    context.textBaseline = "middle";
    context.font = `600 ${roomy >= 17 ? 12 : 11}px ${FONT}`;
    for (const kind of ["IN", "OUT", "NET"]) {
      const own = placed.filter((it) => it.port.kind === kind);
      const height = this.isFitted && own.length * roomy > bottom - top ? 14 : roomy;
      if (kind !== "NET") spread(own, height, top, bottom);
      for (const it of own) this.drawName(context, it, height);
    }
    this.drawGateNames(context, wide, high);
  }

  /** Draws gates' names above them, where the cells are so large that these have room: gates stand at least two cells apart. */
  drawGateNames(context, wide, high) {
    const size = this.size / this.ratio;
    if (size < 4) return;
    Object.assign(context, { font: `600 11px ${FONT}`, lineWidth: 3, lineJoin: "round", strokeStyle: this.theme.empty });
    context.textAlign = "center";
    for (const it of this.gates) {
      const x = (it.x * this.size - this.left) / this.ratio + (it.wide * size) / 2, y = (it.y * this.size - this.top) / this.ratio - 7;
      const isSeen = it.high > 1 && x > -60 && y > -20 && x < wide + 60 && y < high + 20;
      if (!isSeen || context.measureText(it.title).width + 4 > (it.wide + 2) * size) continue;
      context.fillStyle = it.copies ? this.theme.soft : this.theme.text;
      context.strokeText(it.title, x, y);
      context.fillText(it.title, x, y);
    }
    context.textAlign = "left";
  }

  /** Draws a name where no other stands: its cell's frame, or a line from its cell, and its plate. */
  drawName(context, { port, bit, at: [x, y], level = y, isAway }, high) {
    const half = Math.max(4, this.size / this.ratio / 2 + 2), gap = isAway ? 30 : half + 4;
    const wide = context.measureText(port.label).width + (bit === null ? 12 : 28);
    const left = { IN: x - gap - wide, OUT: x + gap, NET: x - wide / 2 }[port.kind];
    const top = port.kind === "NET" ? y - half - high - 2 : level - high / 2;
    const isOver = (it) => left < it.left + it.wide && it.left < left + wide && top + 1 < it.top + it.high && it.top + 1 < top + high;
    if (this.spots.some(isOver)) return;
    this.spots.push({ left, top, wide, high, port });
    context.strokeStyle = context.fillStyle = this.theme[port.kind.toLowerCase()];
    context.lineWidth = isAway ? 1 : 1.5;
    context.beginPath();
    if (!isAway) context.rect(x - half, y - half, 2 * half, 2 * half);
    else context.moveTo(port.kind === "IN" ? left + wide : left, level), context.lineTo(x, y);
    context.stroke();
    this.drawPlate(context, { label: port.label, bit, left, top, wide, high });
  }

  /** Draws a name on its ground, and its bit. */
  drawPlate(context, { label, bit, left, top, wide, high }) {
    context.save();
    context.fillStyle = this.theme.panel + "e6";
    context.beginPath();
    context.roundRect(left, top, wide, high - 1, 5);
    context.fill();
    context.restore();
    context.fillText(label, left + 6, top + high / 2);
    context.beginPath();
    context.arc(left + wide - 11, top + high / 2 - 0.5, 4.5, 0, 7);
    if (bit) context.fill();
    else if (bit === 0) context.stroke();
  }

  /** The port whose name is at a point of the page, or the ports whose cells are near it. */
  portsAt(px, py, ports) {
    const isIn = (it) => px >= it.left && px <= it.left + it.wide && py >= it.top && py <= it.top + it.high;
    const spot = this.spots.find(isIn), reach = Math.max(8, this.size / this.ratio);
    if (spot) return [spot.port];
    return ports.filter((it) => this.middle(it).every((at, i) => Math.abs(at - [px, py][i]) <= reach));
  }
}
