/* Texts: streams, bits, links */

const wordsOf = (machine, cycles) => machine.linesOf(machine.table.inputs, cycles);

function editStreams() {
  const { machine } = page, { inputs, contexts } = machine.table;
  pause();
  $("sample").textContent = `${contexts > 1 ? "0:" : ""}${inputs[0]?.label ?? "a"}=0110`;
  $("words").value = wordsOf(machine, Math.min(4096, machine.cycles || Math.max(8, machine.entered(0)))).join("\n");
  $("words").disabled = !inputs.length;
  $("stop").value = machine.cycles || "";
  $("feeding").showModal();
}

/** Shows the bits of the cycles that are known, as words and as lines. */
function showBits() {
  const { machine, chosen } = page, nets = chosen.flatMap((it) => it.ports), ended = (lines) => lines.map((it) => `${it}\n`).join("");
  const cycles = Math.min(machine.shownCycles(), machine.cycles || Infinity);
  const netCycles = Math.min(cycles, ...nets.map((it) => machine.bitsOf(machine.table.contexts - 1, it).length));
  $("entered").textContent = ended(wordsOf(machine, cycles));
  $("lines").textContent = ended([...machine.linesOf(machine.table.outputs, cycles), ...machine.linesOf(nets, netCycles)]);
}

const netsOf = (list) => list.split(",").filter((it) => it).map((it) => it.replace(/%(25|2C)/g, decodeURIComponent));
const netList = (nets) => nets.map((it) => it.label.replace(/[%,]/g, encodeURIComponent)).join(",");

/** The address of the page with what is on show. A pattern of its own goes in if it is short. */
function linkOf() {
  const { machine, name, chosen, context } = page, link = new URLSearchParams(), step = Number($("speed").value);
  const cycles = machine.cycles || Math.min(256, machine.entered(0));
  const bytes = machine.pattern.text, text = bytes.length <= 8192 ? textOf(bytes) : null;
  if (exampleOf(name)) link.set("example", name);
  else if (text !== null) link.set("pattern", text);
  else throw new Fault("A link takes a pattern of at most 8192 bytes, in UTF-8");
  const facts = {
    words: wordsOf(machine, Math.min(cycles, 1024)).join(" "), cycles, nets: netList(chosen), context,
    gen: machine.generation, speed: step === FULL_SPEED ? "full" : chosenRate(), repeat: Number(page.isRepeating), play: Number(page.isRunning),
  };
  for (const key in facts) link.set(key, facts[key]);
  if (!plane.isFitted) link.set("view", plane.shown().join(","));
  return `${location.href.split("#")[0]}#${link}`;
}

async function copy(text, button) {
  const label = [...button.children].find((it) => it.offsetParent) ?? button, before = label.textContent;
  try {
    await navigator.clipboard.writeText(text);
    label.textContent = "Copied";
    setTimeout(() => { label.textContent = before; }, 1200);
  } catch {
    prompt("Copy this text:", text);
  }
}

const LINK_KEYS = ["example", "pattern", "words", "cycles", "nets", "context", "gen", "speed", "repeat", "play", "auto", "view", "theme"];
const NUMBER = /^(\d+(\.\d+)?|\d+e\d+)$/i;

/** The words of a link, with what is wrong with them: a word that is at fault is told, and the others hold. */
class Link {
  constructor(text) {
    this.words = new URLSearchParams(text);
    this.keys = [...new Set(this.words.keys())];
    this.faults = this.keys.filter((it) => !LINK_KEYS.includes(it)).map((it) => `${it.slice(0, 40)} is no word of a link`);
  }

  has(key) { return this.words.has(key); }
  text(key, otherwise = "") { return this.words.get(key) ?? otherwise; }

  /** Notes that a word is not what it should be. */
  refuse(key, wanted) { this.faults.push(`${key}=${this.text(key).slice(0, 40)} is not ${wanted}`); }

  /** A whole number up to `most`; without the word, or at fault, 0. */
  number(key, most) {
    const text = this.text(key, "0"), number = NUMBER.test(text) ? Number(text) : NaN;
    if (Number.isInteger(number) && number <= most) return number;
    this.refuse(key, `a number from 0 to ${counted(most)}`);
    return 0;
  }

  /** The slider's step, or null. */
  speed() {
    const text = this.text("speed"), rate = NUMBER.test(text) ? Number(text) : 0;
    if (text === "full") return FULL_SPEED;
    if (rate >= 1 && rate <= 1e6) return stepOf(rate);
    this.refuse("speed", "a number from 1 to 1,000,000 or full");
    return null;
  }

  /** The part of the plane, or null. */
  view() {
    const view = this.text("view").split(",").map(Number), [, , width, height] = view;
    if (view.length === 4 && view.every(Number.isFinite) && width > 0 && height > 0) return view;
    this.refuse("view", "x,y,width,height");
    return null;
  }

  theme() {
    const name = this.text("theme", "dark");
    if (Object.hasOwn(THEMES, name)) return name;
    this.refuse("theme", Object.keys(THEMES).join(" or "));
    return "dark";
  }

  end() {
    if (this.faults.length) throw new Fault(`The address has faults: ${this.faults.join("; ")}`);
  }
}

/** Opens what a link names, and does what it says. */
function openLink(link) {
  if (link.has("pattern")) openPattern(encoded(link.text("pattern")), { name: "Pattern of the link" });
  else openExample(link.text("example", EXAMPLES[0].name));
  const { machine } = page, words = link.has("words") ? encoded(link.text("words")) : exampleOf(page.name)?.words ?? "";
  if (link.has("words") || link.has("cycles")) feed(words, link.number("cycles", MOST_CYCLES));
  if (link.has("nets")) page.chosen = [];
  for (const net of netsOf(link.text("nets"))) addNet(net);
  if (link.has("speed")) setSpeed(link.speed() ?? $("speed").value);
  const view = link.has("view") && link.view(), [auto, plays] = [link.number("auto", 1), link.number("play", 1)];
  if (view) plane.show(view);
  setContext(link.number("context", machine.table.contexts - 1));
  setRepeating(link.number("repeat", 1) > 0);
  jump(link.number("gen", machine.last), () => {
    if (auto) runThrough(machine);
    else if (plays) run();
  });
}

/** Does what the address says; without a word of it the first example runs. */
function followLink() {
  const link = new Link(location.hash.slice(1));
  delete document.body.dataset.state;
  setTheme(link.theme());
  const isGood = attempt(() => {
    if (link.keys.some((it) => it !== "theme")) openLink(link);
    else showExample(EXAMPLES[0].name);
    link.end();
  });
  if (!isGood) document.body.dataset.state = "refused";
}

/** Runs to the end of the streams without a look, and shows the bits. */
async function runThrough(machine) {
  const end = machine.endOf(machine.cycles || 1), began = performance.now();
  pause();
  while (machine.generation < end && !machine.trouble && page.machine === machine) {
    machine.run(Math.min(end, machine.generation + 1e6), performance.now() + 40);
    await new Promise((done) => setTimeout(done));
  }
  if (page.machine !== machine) return;
  moved();
  showBits();
  const seconds = (performance.now() - began) / 1000;
  Object.assign(document.body.dataset, { state: machine.trouble ? "refused" : "done", seconds });
}

