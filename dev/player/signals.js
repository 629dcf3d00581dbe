/* Names on the plane, and what is under the pointer */

function namesOnPlane() {
  const { machine, context: c } = page, { inputs, outputs, nets } = machine.table;
  const now = Math.max(0, machine.entered(c) - 1), names = new Map();
  const own = machine.pattern.lamps.length && !plane.shows.nets ? inputs : [...inputs, ...outputs]; // names would hide lamps
  for (const port of [...own, ...(plane.shows.nets && plane.size >= 1 ? nets : [])]) {
    const bits = machine.bitsOf(c, port), place = `${port.kind === "OUT"} ${port.x} ${port.y}`;
    if (!names.has(place)) names.set(place, { port, bit: port.kind === "IN" ? bits.at(now) : bits.last() });
  }
  return [...names.values()];
}

function portsNear(px, py) {
  const { inputs, outputs, nets } = page.machine.table;
  return plane.portsAt(px, py, [...inputs, ...outputs, ...nets]);
}

/** What a port is, and its last bit. */
function sayPort(port) {
  const { machine, context: c } = page, { period, latency } = machine.table, bits = machine.bitsOf(c, port);
  const known = port.kind === "IN" ? machine.entered(c) : bits.length, offset = port.kind === "OUT" ? latency : port.offset;
  const bit = known ? `bit ${bits.at(known - 1)} in cycle ${counted(known - 1)}; ` : "";
  const title = `${{ IN: "input", OUT: "output", NET: "net" }[port.kind]} ${port.label}`;
  return [element("b", { textContent: title }), `${bit}cycle t is at generation ${offset + 32 * c} + ${period} t`];
}

/** The lane and the column of a cell, if the pattern has a body of tiles, and its state. */
function sayCell(x, y) {
  const { wires, pattern: { table } } = page.machine, atStart = [...table.inputs, ...table.nets].filter((it) => it.offset === 0);
  const column = Math.floor((x - Math.min(...atStart.map((it) => it.x))) / 32), isBody = column >= 0 && 32 * column < table.latency;
  const state = ["empty", "head", "tail", "wire"][wires.state[wires.find(x, y)] ?? 0];
  const place = page.routed.gates.length ? "" : `lane ${y >> 4}${isBody ? `, column ${column}` : ""} · `;
  return `${place}cell (${x}, ${y}) ${state}`;
}

/** The gate or the wire under the pointer, or near it. */
function partNear(px, py) {
  const [x, y] = plane.cellAt(px * plane.ratio, py * plane.ratio);
  return page.routed.partAt(x, y, Math.ceil((5 * plane.ratio) / plane.size));
}

/** The kind of what a click acts on: a port, or the net of a wire. */
const useOf = ([port], part) => port?.kind ?? (part?.port?.kind === "NET" ? "NET" : "");

/** What is told of ports, or of a gate or a wire. */
function sayTip(ports, part) {
  const [title, line] = part ? page.routed.describe(part) : [];
  const more = ports.length > 4 ? `and ${ports.length - 4} more` : { IN: "Click: switch it", NET: "Click: show it in the chart" }[useOf(ports, part)];
  const told = part ? [element("b", { textContent: title }), line] : ports.slice(0, 4).flatMap(sayPort);
  return [...told, element("div", { className: "soft", textContent: more ?? "" })];
}

/** Shows what is at the pointer. */
function point({ offsetX: px, offsetY: py }) {
  const { width, height } = page.machine.pattern, [x, y] = plane.cellAt(px * plane.ratio, py * plane.ratio);
  const ports = portsNear(px, py), part = ports.length ? null : partNear(px, py), tip = $("tip"), view = $("view");
  $("readout").hidden = !(x >= 0 && y >= 0 && x < width && y < height);
  $("readout").textContent = sayCell(x, y);
  $("plane").style.cursor = /IN|NET/.test(useOf(ports, part)) ? "pointer" : "";
  mark(part ? page.routed.alike(part) : []);
  tip.hidden = !ports.length && !part;
  tip.replaceChildren(...sayTip(ports, part));
  const isLow = py + 24 + tip.offsetHeight > view.clientHeight;
  tip.style.left = `${Math.max(0, Math.min(px + 16, view.clientWidth - tip.offsetWidth - 8))}px`;
  tip.style.top = `${isLow ? Math.max(0, py - 16 - tip.offsetHeight) : py + 20}px`;
}

function mark(cells) {
  page.isDirty ||= cells.length + plane.marked.length > 0;
  plane.marked = cells;
}

/** Takes away what is told at the pointer. */
function leavePlane() {
  $("tip").hidden = $("readout").hidden = true;
  mark([]);
}

/** Switches an input, or shows a net in the chart; a finger, which does not hover, is told what is there. */
function clickPlane(event) {
  const { offsetX: px, offsetY: py } = event, ports = portsNear(px, py), part = ports.length ? null : partNear(px, py), use = useOf(ports, part);
  if (use === "IN") switchInput(ports[0]);
  if (use === "NET") addNet((ports[0] ?? part.port).label);
  if (event.pointerType === "touch") setTimeout(() => point({ offsetX: px, offsetY: py }));
}

/* Rows of signals */

/** Does work on each stream of ports, given with its number and the first cycle that is open. */
function change(ports, work) {
  const { machine, context: c } = page;
  machine.change(c, () => ports.forEach((port, k) => work(machine.bitsOf(c, port), k, machine.open(c))));
  moved();
}

/** Gives the inputs of a row a value from the next cycle on; who does so by hand wants no end of the streams. */
function hold(ports, bitOf) {
  setRepeating(false);
  if (page.isRunning && !page.isAsked && page.goal === endOfStreams()) Object.assign(page, { goal: Infinity, again: 0 });
  change(ports, (stream, k, t) => stream.hold(t, bitOf(k, stream.at(t))));
}

const switchInput = (port) => hold([port], (_, bit) => 1 - bit);

/** The rows of the chart: inputs, outputs and chosen nets, and below an unfolded bus its bits. */
function rowsOfChart() {
  const { machine, context: c } = page, { inputs, outputs } = machine.table;
  return [...rowsOf(inputs), ...rowsOf(outputs), ...page.chosen].flatMap((source) => {
    const [{ kind }] = source.ports, key = `${kind} ${source.name}`;
    const inner = source.isBus && page.unfolded.has(key) ? source.ports.map(rowOf) : [], bitsOf = (it) => machine.bitsOf(c, it);
    return [{ ...source, source }, ...inner].map((row) => ({ ...row, kind, key, bits: row.ports.map(bitsOf) }));
  });
}

/** Makes the rows of the chart, and those of the names beside it. */
function makeRows() {
  const head = element("div", { className: "row head" }, element("span", { className: "name", textContent: "Name" }), "Cycle");
  chart.rows = rowsOfChart();
  $("names").replaceChildren(head, ...chart.rows.map(rowElement));
  $("board").style.height = `${AXIS + Math.max(1, chart.rows.length) * ROW + 1}px`;
  $("numbers").hidden = !chart.rows.some((it) => it.isBus);
  moved();
}

function rowElement(row) {
  const made = element("div", { className: `row ${row.kind.toLowerCase()}${row.source ? "" : " inner"}` });
  if (row.isBus) made.append(foldOf(row));
  made.append(element("span", { className: "name", textContent: row.label, title: row.label }));
  if (row.kind === "NET" && row.source) made.append(removerOf(row));
  made.append(...(row.kind !== "IN" ? lampOf(row) : row.isBus ? [fieldOf(row)] : [switchOf(row)]));
  return made;
}

function removerOf(row) {
  const remove = () => {
    page.chosen = page.chosen.filter((it) => it !== row.source);
    makeRows();
  };
  return element("button", { className: "plain", textContent: "✕", ariaLabel: `Remove ${row.label}`, onclick: remove });
}

function foldOf(row) {
  const fold = () => {
    if (!page.unfolded.delete(row.key)) page.unfolded.add(row.key);
    makeRows();
  };
  const ariaExpanded = String(page.unfolded.has(row.key));
  return element("button", { className: "plain fold", ariaLabel: `Bits of ${row.label}`, ariaExpanded, onclick: fold });
}

function switchOf(row) {
  const onclick = () => switchInput(row.ports[0]);
  const made = element("button", { className: "switch", role: "switch", ariaLabel: row.label, onclick });
  row.update = () => { made.ariaChecked = String(row.bits[0].at(chart.open) === 1); };
  return made;
}

function fieldOf(row) {
  const width = row.bits.length, ariaLabel = `${row.label}, a number of ${width} bits`;
  const made = element("input", { className: "field", ariaLabel, autocomplete: "off" });
  row.update = () => { if (document.activeElement !== made) made.value = chart.text(row, chart.value(row, chart.open)); };
  made.onkeydown = (event) => { if (event.key === "Enter") made.blur(); };
  made.onchange = () => attempt(() => {
    const text = made.value.trim(), bits = text.includes(",") ? null : bitsOfNumbers(text, width);
    page.isDirty = true;
    if (!bits) throw new Fault(`“${text}” is no number of ${width} bits`);
    hold(row.ports, (k) => bits[k][0]);
  });
  return made;
}

function lampOf(row) {
  const lamp = element("span", { className: "lamp", hidden: row.isBus }), text = element("span", { className: "value" });
  row.update = () => {
    const known = chart.knownOf(row), value = known ? chart.value(row, known - 1) : null;
    text.textContent = value === null ? "–" : chart.text(row, value);
    lamp.classList.toggle("on", value === 1);
  };
  return [lamp, text];
}

function setContext(c) {
  page.context = c;
  $("context").value = c;
  makeRows();
}

