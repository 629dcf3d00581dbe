/* ---- The chart: bits of inputs, outputs and nets, cycle by cycle. ---- */

const ROW = 30, AXIS = 26;

function numberText(value, width, format) {
  if (width === 1) return String(value);
  const number = BigInt(value);
  if (format === "hex") return "0x" + number.toString(16);
  if (format === "binary") return number.toString(2).padStart(width, "0");
  return (format === "signed" ? BigInt.asIntN(width, number) : number).toString();
}

/** A row has a kind (IN, OUT or NET), a label, and the lists of bits that it shows, the lowest bit first. */
class Chart {
  constructor(canvas, names) {
    Object.assign(this, { canvas, names, rows: [], format: "decimal", hot: null, isFollowing: true });
    this.context = canvas.getContext("2d");
    this.first = 0; // the cycle at the left end; it may lie between two
    this.wide = 30; // points of a cycle
    this.resize();
  }

  resize() {
    const ratio = window.devicePixelRatio || 1;
    [this.width, this.height] = [this.canvas.clientWidth, this.canvas.clientHeight];
    const [width, height] = [this.width, this.height].map((it) => Math.max(1, Math.round(it * ratio)));
    Object.assign(this.canvas, { width, height });
    this.context.setTransform(ratio, 0, 0, ratio, 0, 0);
  }

  x(t) { return (t - this.first) * this.wide; }
  text(row, value) { return numberText(value, row.bits.length, this.format); }
  knownOf(row) { return row.kind === "IN" ? this.entered : Math.min(...row.bits.map((it) => it.length)); }
  canFlip({ row, t }) { return row?.kind === "IN" && !row.isBus && t >= this.open; }

  /** What is at a point: a row, if it is not the axis, and a cycle. */
  placeAt(px, py) {
    const isAxis = py < AXIS, row = isAxis ? null : this.rows[Math.floor((py - AXIS + this.names.scrollTop) / ROW)];
    return { t: Math.floor(this.first + px / this.wide), row, isAxis };
  }

  value(row, t) {
    const bits = row.bits.map((it) => it.at(t));
    if (bits.length < 31) return bits.reduce((sum, bit, k) => sum | (bit << k), 0);
    return bits.reduce((sum, bit, k) => sum | (BigInt(bit) << BigInt(k)), 0n);
  }

  move(cycles) {
    this.first = Math.max(0, this.first + cycles);
    this.isFollowing = false;
  }

  zoom(steps, px) {
    const t = this.first + px / this.wide;
    this.wide = Math.max(5, Math.min(120, this.wide * 1.2 ** steps));
    this.first = Math.max(0, t - px / this.wide);
  }

  follow(now) {
    const room = this.width / this.wide;
    if (this.isFollowing && now < this.first) this.first = Math.max(0, Math.floor(now - room * 0.15));
    if (this.isFollowing && now > this.first + room * 0.85) this.first = Math.max(0, Math.ceil(now - room * 0.85));
  }

  /**
   * Paints. The time `now` is in cycles; `open` is the first one whose inputs can be changed, `entered` how many have entered, and
   * `end` how many the streams have.
   */
  paint({ now, open, entered, end }) {
    Object.assign(this, { open, entered });
    this.follow(now);
    const { context, width, height, theme } = this;
    const from = Math.max(0, Math.floor(this.first)), to = Math.ceil(this.first + width / this.wide);
    context.clearRect(0, 0, width, height);
    context.font = `12px ${FONT}`;
    context.textBaseline = "middle";
    context.textAlign = "center";
    context.fillStyle = theme.accent + "1c";
    context.fillRect(this.x(open), 0, this.wide, height);
    this.rows.forEach((row, i) => {
      const top = AXIS + i * ROW - this.names.scrollTop;
      if (top > AXIS - ROW && top < height) this.paintRow(row, top, from, to);
    });
    this.paintAxis(from, to);
    context.fillStyle = theme.soft;
    if (end) context.fillRect(this.x(end), 0, 1, height);
    context.fillStyle = theme.accent;
    context.fillRect(this.x(now) - 1, 0, 2, height);
  }

  paintAxis(from, to) {
    const { context, theme, wide } = this, room = String(to).length * 8 + 8;
    const step = [1, 2, 5, 10, 20, 50].find((it) => it * wide >= room) ?? 100;
    context.fillStyle = theme.panel;
    context.fillRect(0, 0, this.width, AXIS - 1);
    context.fillStyle = theme.line;
    context.fillRect(0, AXIS - 1, this.width, 1);
    context.fillStyle = theme.soft;
    for (let t = Math.ceil(from / step) * step; t < to; t += step) context.fillText(t, this.x(t + 0.5), AXIS / 2);
  }

  paintRow(row, top, from, to) {
    const { context, theme, hot } = this, known = this.knownOf(row);
    const paint = row.isBus ? this.paintBus : this.paintBit, middle = top + ROW / 2 - 1.5;
    context.fillStyle = theme.line + "80";
    context.fillRect(0, top + ROW - 1, this.width, 1);
    context.strokeStyle = context.fillStyle = theme[row.kind.toLowerCase()];
    paint.call(this, row, top, from, Math.min(to, known));
    context.globalAlpha = 0.42;
    if (row.kind === "IN") paint.call(this, row, top, Math.max(from, known), to);
    else for (let t = Math.max(from, known); t < Math.min(to, this.entered); t++) context.fillRect(this.x(t + 0.5) - 1.5, middle, 3, 3);
    context.globalAlpha = 1;
    context.lineWidth = 1;
    if (hot?.row === row && this.canFlip(hot)) context.strokeRect(this.x(hot.t) + 1, top + 2, this.wide - 2, ROW - 5);
  }

  paintBit(row, top, from, to) {
    const { context } = this, alpha = context.globalAlpha, level = (t) => top + (this.value(row, t) ? 7 : ROW - 8);
    context.lineWidth = 2;
    context.beginPath();
    for (let t = from; t < to; t++) {
      if (t === from) context.moveTo(this.x(t), level(Math.max(0, t - 1)));
      context.lineTo(this.x(t), level(t));
      context.lineTo(this.x(t + 1), level(t));
      context.globalAlpha = alpha * 0.28;
      context.fillRect(this.x(t), level(t), this.wide, top + ROW - 8 - level(t));
      context.globalAlpha = alpha;
    }
    context.stroke();
  }

  paintBus(row, top, from, to) {
    for (let t = from, end; t < to; t = end) {
      const value = this.value(row, t);
      for (end = t + 1; end < to && this.value(row, end) === value; ) end++;
      this.paintNumber(this.text(row, value), this.x(t), this.x(end), top + 6, top + ROW - 7);
    }
  }

  paintNumber(text, left, right, high, low) {
    const { context } = this, slope = Math.min(5, this.wide / 4), middle = (high + low) / 2;
    const from = Math.max(left, 0), to = Math.min(right, this.width);
    context.lineWidth = 1.5;
    context.beginPath();
    context.moveTo(left, middle);
    for (const [x, y] of [[left + slope, high], [right - slope, high], [right, middle]]) context.lineTo(x, y);
    for (const [x, y] of [[right - slope, low], [left + slope, low]]) context.lineTo(x, y);
    context.closePath();
    context.stroke();
    context.save();
    context.fillStyle = this.theme.text;
    const isRoomy = context.measureText(text).width <= to - from - 4;
    if (to - from > 12) context.fillText(isRoomy ? text : "…", (from + to) / 2, middle + 0.5);
    context.restore();
  }
}

