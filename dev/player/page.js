/* ---- The page: what is open, the run, the controls. ---- */

const $ = (id) => document.getElementById(id);
const EXAMPLES = JSON.parse($("patterns").textContent);
const FULL_SPEED = 61, FRAME_WORK = 11; // the slider's last step, and the milliseconds of a frame that are for the simulation
const FULL_STEPS = 1e6; // generations of a frame at full speed, at most
const AT_ONCE = 200, WAY_WORK = 80; // milliseconds that a click may take, and those of a frame on a way that takes longer
const REST = 600; // milliseconds between the end of the streams and their next beginning
const isCalm = matchMedia("(prefers-reduced-motion: reduce)").matches;
const plane = new Plane($("plane"), $("marks")), chart = new Chart($("chart"), $("names"));
const page = {
  machine: null, routed: null, name: "", context: 0, trouble: "", isDirty: true, // what is open, and whether it must be painted
  nets: [], chosen: [], unfolded: new Set(), // rows of nets, those that are in the chart, and the buses whose bits are shown
  isRunning: false, isRepeating: false, goal: Infinity, again: 0, // the generation at which it stops; when it begins again
  isAsked: false, arrive: null, // whether that generation was asked for, and what is to be done there if it is far
  rate: 0, debt: 0, then: 0, // generations a second, parts of one that are due, and the time of the last frame
};
const counted = (number) => number.toLocaleString("en");

function element(tag, facts, ...children) {
  const made = Object.assign(document.createElement(tag), facts);
  made.append(...children);
  return made;
}

function tell(text) {
  $("message").hidden = !text;
  $("message").firstElementChild.textContent = text;
}

/** Does what a fault may end, and tells the fault. Returns whether there was none. */
function attempt(work) {
  try {
    tell("");
    work();
    return true;
  } catch (fault) {
    tell(fault instanceof Fault ? fault.message : `The page has a fault: ${fault.stack ?? fault}`);
    return false;
  }
}

/* What is open */

function openPattern(text, { name, title = name, about = "", words = "", unfold = [], nets = [], view }) {
  const machine = new Machine(readPattern(text)), { table } = machine, { lamps } = machine.pattern;
  const routed = new Routed(machine.pattern, machine.wires);
  Object.assign(page, { machine, routed, name, context: 0, nets: rowsOf(table.nets), chosen: [], unfolded: new Set(unfold) });
  describe(machine.pattern, title, about);
  $("examples").value = exampleOf(name) ? name : "";
  $("machines").hidden = table.contexts < 2;
  const contexts = Array.from({ length: table.contexts }, (_, c) => element("option", { value: c, textContent: c }));
  $("context").replaceChildren(...contexts);
  $("adding").hidden = !table.nets.length;
  $("grid").hidden = routed.gates.length > 0; // it stands on no tiles
  $("netlist").replaceChildren(...page.nets.map((it) => element("option", { value: it.label })));
  const rate = table.period * (lamps.length ? 0.8 : 0.25); // lamps show something after many cycles
  $("speed").value = stepOf(Math.max(32, rate, table.latency / 6)); // seconds for a cycle, and for the first result
  pause();
  showLegend();
  leaveRoom();
  plane.open(machine.pattern, machine.wires, routed.gates);
  if (view || lamps.length) plane.show(view ?? lampView(machine.pattern));
  feed(words);
  setRepeating(false);
  for (const net of nets) addNet(net);
}

/** The part of the plane that has the lamps of a computer and what leads to them; where there is little room, the lamps alone. */
function lampView({ lamps, width, height }) {
  const [west, north, east] = plane.room() < 150 ? [20, 20, 20] : [750, 190, width];
  const [left, top, right] = ["left", "top", "right"].map((side) => lamps.map((it) => it[side]));
  const x = Math.max(0, Math.min(...left) - west), y = Math.max(0, Math.min(...top) - north);
  return [x, y, Math.min(width, Math.max(...right) + east) - x, height - y];
}

/** Says what is open. */
function describe({ table, width, height }, title, about) {
  const hasPorts = table.inputs.length + table.outputs.length + table.nets.length > 0;
  const times = hasPorts ? `period ${counted(table.period)} · latency ${counted(table.latency)}` : "no port table: it only runs";
  const facts = `${counted(width)} × ${counted(height)} cells · ${times}`;
  document.title = `${title} – Wireworld player`;
  const line = element("div", { className: "soft", textContent: facts });
  $("about").replaceChildren(element("strong", { textContent: title }), about, line);
  $("plane").setAttribute("aria-label", `Plane of ${title}, ${facts}`);
}

/** Tells the plane how much of it lies under what is above and below. */
function leaveRoom() {
  plane.above = $("above").offsetHeight + 20;
  plane.below = $("below").offsetHeight + 20;
}

const exampleOf = (name) => EXAMPLES.find((it) => it.name === name);

function openExample(name) {
  const example = exampleOf(name);
  if (!example) throw new Fault(`There is no example ${shown(name)}`);
  openPattern(example.rle, example);
}

/** Lets run what was opened: with inputs its streams come again and again. */
function play() {
  setRepeating(page.machine.table.inputs.length > 0);
  if (!isCalm) run();
}

function showExample(name) {
  openExample(name);
  play();
}

function isWords(text) {
  const isPattern = /^[ \t]*(#|x[ \t]*=[ \t]*\d+[ \t]*,[ \t]*y)/m.test(text);
  return !isPattern && /\S/.test(text) && text.trim().split(/\s+/).every((it) => it.includes("=") || /^(--cycles|\d+)$/.test(it));
}

/** Opens bytes: a pattern, or streams for the pattern that is open; and lets it run. Returns whether they are good. */
function openText(text, name) {
  return attempt(() => {
    if (isWords(text)) feed(text);
    else openPattern(text, { name });
    play();
  });
}

/** Opens files: patterns, and then streams. */
async function openFiles(files) {
  const texts = await Promise.all([...files].map(async (it) => ({ name: it.name, text: bytesOf(await it.arrayBuffer()) })));
  texts.sort((a, b) => isWords(a.text) - isWords(b.text)).every(({ text, name }) => openText(text, name));
}

/** Gives the machine streams, and begins again. */
function feed(words, cycles = 0) {
  const read = readWords(words, page.machine.table);
  pause();
  page.machine.feed({ ...read, cycles: cycles || read.cycles });
  chart.first = 0;
  makeRows();
}

function addNet(label) {
  const row = [...page.chosen, ...page.nets, ...page.machine.table.nets.map(rowOf)].find((it) => it.label === label);
  if (!row) throw new Fault("no net has this name", `stream: NoSuchNet ${label}`);
  if (!page.chosen.includes(row)) page.chosen.push(row);
  makeRows();
}

/* The run */

const RATES = [1, 1.25, 1.6, 2, 2.5, 3.2, 4, 5, 6.4, 8]; // and ten times these, and so on

const chosenRate = () => {
  const step = Number($("speed").value);
  return step === FULL_SPEED ? Infinity : RATES[step % 10] * 10 ** Math.floor(step / 10);
};

/** The step of the slider for generations a second. */
const stepOf = (rate) => Math.min(FULL_SPEED - 1, Math.round(10 * Math.log10(Math.max(1, rate))));

function setSpeed(step) {
  $("speed").value = step;
  if (!page.isAsked) page.rate = chosenRate();
  showPace(chosenRate());
}

function showPace(rate) {
  const cycles = rate / page.machine.table.period, perCycle = cycles >= 2 ? `, ${counted(Math.round(cycles))} cycles/s` : "";
  const rounded = counted(rate < 10 ? Math.round(rate * 10) / 10 : Math.round(rate));
  const text = rate === Infinity ? "full speed" : `${rounded} gen/s${perCycle}`;
  $("pace").textContent = text;
  $("speed").setAttribute("aria-valuetext", text);
}

function showRunning(isRunning) {
  page.isRunning = isRunning;
  $("run").querySelector("span").textContent = isRunning ? "Pause" : "Run";
  $("run").querySelector("path").setAttribute("d", isRunning ? "M3 1h4v14H3zM9 1h4v14H9z" : "M3 1v14l11-7z");
  $("clock").setAttribute("aria-live", isRunning ? "off" : "polite");
}

function pause() {
  if (page.arrive) tell("");
  Object.assign(page, { goal: Infinity, again: 0, isAsked: false, arrive: null });
  setSpeed($("speed").value);
  showRunning(false);
}

function start(goal, rate, isAsked = false) {
  const now = performance.now();
  Object.assign(page, { goal, rate, isAsked, arrive: null, again: 0, debt: 0, then: now, since: now, from: page.machine.generation });
  chart.isFollowing = true;
  showRunning(true);
}

/** The generation at which the streams have been answered, or 0 without streams. */
const endOfStreams = ({ machine } = page) => (machine.cycles ? machine.endOf(machine.cycles) : 0);

function setRepeating(isRepeating) {
  page.isRepeating = isRepeating;
  $("repeat").setAttribute("aria-pressed", isRepeating);
}

/** Runs on as the speed says; at the end of the streams it stops once, or begins again. */
function run() {
  const end = endOfStreams();
  if (page.isRepeating && end && page.machine.generation >= end) page.machine.restart();
  start(page.machine.generation < end ? end : Infinity, chosenRate());
}

/** The generation that was asked for and is not reached yet; otherwise that of the machine. */
const asked = () => (page.isAsked ? page.goal : page.machine.generation);

/** Runs to a generation within a second, if the machine is that quick. */
function runTo(goal) {
  if (isCalm || page.arrive) jump(goal);
  else start(goal, Math.max(chosenRate(), (goal - page.machine.generation) / 0.8), true);
}

/** Goes to a generation, and does there what is to be done: at once, or frame by frame with a line, where it is far. */
function jump(generation, arrive = () => {}) {
  const { machine } = page, goal = Math.max(0, Math.min(generation, machine.last)), time = performance.now() + AT_ONCE;
  pause();
  chart.isFollowing = true;
  if (goal < machine.generation) machine.seek(goal, time);
  else machine.run(goal, time);
  moved();
  if (machine.generation === goal || machine.trouble) return arrive();
  start(goal, Infinity, true);
  page.arrive = arrive;
  tell(`On the way to generation ${counted(goal)}. Pause ends it.`);
}

function moved() {
  const { trouble } = page.machine;
  page.isDirty = true;
  if (trouble && page.isRunning) pause();
  if (trouble !== page.trouble) tell(trouble);
  page.trouble = trouble;
}

/** The generations, and parts of one, that become due in a frame. */
function stepsOf(now) {
  if (page.rate < Infinity) return (page.rate * Math.min(100, now - page.then)) / 1000;
  return page.isAsked ? page.goal - page.machine.generation : FULL_STEPS;
}

function advance(now) {
  const { machine } = page;
  if (page.again) {
    if (now > page.again) run();
    return;
  }
  page.debt += stepsOf(now);
  const steps = Math.floor(page.debt), target = Math.min(machine.generation + steps, page.goal);
  machine.run(target, performance.now() + (page.arrive ? WAY_WORK : FRAME_WORK));
  page.debt = machine.generation < target ? 0 : page.debt - steps;
  if (steps) moved();
  if (now - page.since > 400) {
    showPace(((machine.generation - page.from) * 1000) / (now - page.since));
    Object.assign(page, { since: now, from: machine.generation });
  }
  if (page.isRunning && machine.generation >= Math.min(page.goal, machine.last)) arrived(now);
}

/** What comes after a run that was not broken off. */
function arrived(now) {
  const { arrive } = page;
  if (page.isRepeating && !page.isAsked && page.goal === endOfStreams()) page.again = now + REST;
  else pause();
  arrive?.();
}

function frame(now) {
  if (page.isRunning) advance(now);
  if (page.isDirty) paint();
  page.then = now;
  requestAnimationFrame(frame);
}

function paint() {
  const { machine, context: c } = page, open = machine.open(c), entered = machine.entered(c);
  page.isDirty = false;
  plane.paint(namesOnPlane());
  chart.paint({ now: machine.passed(c), open, entered, end: machine.cycles });
  for (const row of chart.rows) row.update();
  $("clock").textContent = `cycle ${counted(Math.max(0, entered - 1))} · generation ${counted(machine.generation)}`;
  $("hint").textContent = machine.table.inputs.length ? `Switches act from cycle ${counted(open)} on` : "No inputs";
}

