/* Commands and events */

const COMMANDS = {
  run: () => (page.isRunning ? pause() : run()),
  step: () => jump(page.machine.generation + 1),
  back: () => jump(page.machine.generation - 1),
  cycle: () => runTo(page.machine.nextEntry(page.context, asked())),
  previous: () => jump(page.machine.entryOf(page.context, page.machine.open(page.context) - 1)),
  result: () => runTo(page.machine.nextResult(page.context, asked())),
  restart: () => jump(0),
  repeat: () => setRepeating(!page.isRepeating),
  slower: () => setSpeed(Math.max(0, Number($("speed").value) - 1)),
  faster: () => setSpeed(Math.min(FULL_SPEED, Number($("speed").value) + 1)),
  larger: () => plane.zoom(1),
  smaller: () => plane.zoom(-1),
  fit: () => plane.fit(),
  grid: () => toggle("grid"),
  nets: () => toggle("nets"),
  trail: () => toggle("trail"),
  theme: () => setTheme(document.documentElement.dataset.theme === "light" ? "dark" : "light"),
  link: () => attempt(() => copy(linkOf(), $("link"))),
  open: () => $("opening").showModal(),
  streams: editStreams,
  export: () => { showBits(); $("showing").showModal(); },
  help: () => $("helping").showModal(),
};
const KEYS = {
  " ": "run", ".": "step", ",": "back", n: "cycle", p: "previous", r: "result", Home: "restart", e: "repeat", "[": "slower", "]": "faster",
  "+": "larger", "=": "larger", "-": "smaller", 0: "fit", g: "grid", t: "nets", l: "trail", "?": "help",
};
const ARROWS = { ArrowLeft: [-60, 0], ArrowRight: [60, 0], ArrowUp: [0, -60], ArrowDown: [0, 60] };
const ANSWERS = {
  paste: () => openText(encoded($("text").value), "Pasted pattern"),
  use: () => attempt(() => feed(encoded($("words").value), Math.min(MOST_CYCLES, Math.max(0, Math.floor($("stop").value))))),
  copy: (button) => copy($("lines").textContent, button),
};

function command(name) {
  COMMANDS[name]();
  page.isDirty = true;
}

function toggle(name) {
  plane.shows[name] = !plane.shows[name];
  plane.isStale = true;
  $(name).setAttribute("aria-pressed", plane.shows[name]);
}

function setTheme(name) {
  const theme = THEMES[name];
  document.documentElement.dataset.theme = name;
  for (const kind in theme) document.documentElement.style.setProperty(`--${kind}`, theme[kind]);
  $("theme").firstElementChild.textContent = name === "light" ? "Dark" : "Light";
  $("theme").setAttribute("aria-label", name === "light" ? "Dark" : "Light");
  chart.theme = theme;
  plane.paintWith(theme);
}

/** Shows what the colours are. */
function showLegend() {
  const kinds = { head: "head", tail: "tail", wire: "wire", trail: "trail", ...(page.machine.pattern.lamps.length ? { lit: "lit lamp" } : {}) };
  const entry = ([kind, label]) => element("span", {}, element("i", { style: `background: var(--${kind})` }), label);
  $("legend").replaceChildren(...Object.entries(kinds).map(entry));
}

/** Follows pointers on an element: `drag(dx, dy)`, `pinch(steps, event)`, and `click(event)` if nothing moved. */
function follow(target, { drag, pinch, click }) {
  const held = new Map();
  let isDragged = false;
  target.addEventListener("pointerdown", (event) => {
    held.set(event.pointerId, event);
    isDragged = held.size > 1;
    target.setPointerCapture(event.pointerId);
  });
  target.addEventListener("pointermove", (event) => {
    const before = held.get(event.pointerId), other = [...held.values()].find((it) => it.pointerId !== event.pointerId);
    if (!before) return;
    const dx = event.clientX - before.clientX, dy = event.clientY - before.clientY;
    const gap = (it) => Math.hypot(it.clientX - other.clientX, it.clientY - other.clientY);
    if (other ? Math.abs(gap(event) - gap(before)) < 24 : !isDragged && Math.hypot(dx, dy) < 4) return;
    if (!other) drag(dx, dy);
    else pinch?.(Math.sign(gap(event) - gap(before)), event);
    held.set(event.pointerId, event);
    isDragged = page.isDirty = true;
  });
  target.addEventListener("pointerup", (event) => { if (held.delete(event.pointerId) && !isDragged) click(event); });
  target.addEventListener("pointercancel", (event) => held.delete(event.pointerId));
}

function watchPlane() {
  const canvas = $("plane"), zoom = (steps, event) => plane.zoom(steps, event.offsetX * plane.ratio, event.offsetY * plane.ratio);
  let wheel = 0;
  follow(canvas, { drag: (dx, dy) => plane.move(-dx * plane.ratio, -dy * plane.ratio), pinch: zoom, click: clickPlane });
  canvas.addEventListener("pointermove", (event) => { if (!event.buttons) point(event); });
  canvas.addEventListener("pointerleave", leavePlane);
  canvas.addEventListener("wheel", (event) => {
    event.preventDefault();
    wheel += event.deltaMode ? event.deltaY * 30 : event.deltaY;
    const steps = Math.trunc(wheel / 50);
    wheel -= steps * 50;
    if (steps) zoom(-Math.sign(steps), event);
    page.isDirty = true;
  }, { passive: false });
}

function clickChart(event) {
  const { machine, context: c } = page, place = chart.placeAt(event.offsetX, event.offsetY), goal = machine.entryOf(c, place.t);
  if (place.isAxis && goal <= machine.generation) jump(goal);
  else if (place.isAxis) runTo(goal);
  else if (chart.canFlip(place)) change(place.row.ports, (stream) => stream.flip(place.t));
}

function watchChart() {
  const canvas = $("chart");
  follow(canvas, { drag: (dx) => chart.move(-dx / chart.wide), click: clickChart });
  canvas.addEventListener("pointermove", (event) => {
    chart.hot = chart.placeAt(event.offsetX, event.offsetY);
    canvas.title = chart.hot.isAxis ? "Click: go to this cycle" : chart.canFlip(chart.hot) ? "Click: change this bit" : "";
    canvas.style.cursor = canvas.title ? "pointer" : "default";
    page.isDirty = true;
  });
  canvas.addEventListener("pointerleave", () => { chart.hot = null; page.isDirty = true; });
  canvas.addEventListener("wheel", (event) => {
    event.preventDefault();
    if (event.ctrlKey) chart.zoom(-Math.sign(event.deltaY), event.offsetX);
    else if (event.shiftKey || Math.abs(event.deltaX) > Math.abs(event.deltaY)) chart.move((event.deltaX || event.deltaY) / chart.wide);
    else $("names").scrollTop += event.deltaY;
    page.isDirty = true;
  }, { passive: false });
  $("names").addEventListener("scroll", () => { page.isDirty = true; });
}

function press(event) {
  const { key, target } = event, row = chart.rows.filter((it) => it.kind === "IN" && !it.isBus)[key - 1];
  const isTyped = target.closest("input:not([type=range]), textarea, select, dialog") || (key === " " && target.closest("button"));
  if (event.ctrlKey || event.metaKey || event.altKey || isTyped || (ARROWS[key] && target.closest("input"))) return;
  if (KEYS[key]) command(KEYS[key]);
  else if (ARROWS[key]) plane.move(...ARROWS[key].map((it) => it * plane.ratio));
  else if (row) switchInput(row.ports[0]);
  else return;
  page.isDirty = true;
  event.preventDefault();
}

function watchTexts() {
  for (const dialog of document.querySelectorAll("dialog")) {
    dialog.addEventListener("click", ({ target }) => {
      const value = target.closest("footer button")?.value;
      if (target === dialog || /^(no|paste|use)$/.test(value)) dialog.close();
      ANSWERS[value]?.(target);
    });
  }
  $("file").onchange = () => {
    $("opening").close();
    openFiles($("file").files).finally(() => { $("file").value = ""; });
  };
  document.addEventListener("dragover", (event) => { event.preventDefault(); $("view").classList.add("over"); });
  document.addEventListener("dragleave", (event) => { if (!event.relatedTarget) $("view").classList.remove("over"); });
  document.addEventListener("drop", (event) => {
    event.preventDefault();
    $("view").classList.remove("over");
    if (event.dataTransfer.files.length) openFiles(event.dataTransfer.files);
    else openText(encoded(event.dataTransfer.getData("text/plain")), "Dropped pattern");
  });
  document.addEventListener("paste", (event) => {
    if (!event.target.closest?.("input, textarea")) openText(encoded(event.clipboardData.getData("text/plain")), "Pasted pattern");
  });
}

/** Takes the sizes of what is on the page. */
function measure() {
  leaveRoom();
  plane.resize();
  page.isDirty = true;
}

/** Opens what is chosen; after a click the keys are free again. */
function watchExamples(list) {
  let isClicked = false;
  list.append(...EXAMPLES.map((it) => element("option", { value: it.name, textContent: it.title })));
  list.addEventListener("pointerdown", () => { isClicked = true; });
  list.addEventListener("keydown", () => { isClicked = false; });
  list.addEventListener("change", () => {
    attempt(() => showExample(list.value));
    if (isClicked) list.blur();
  });
}

function watchControls() {
  for (const name in COMMANDS) $(name)?.addEventListener("click", (event) => { command(name); if (event.detail) $(name).blur(); });
  watchExamples($("examples"));
  $("speed").oninput = () => setSpeed($("speed").value);
  $("context").onchange = () => setContext(Number($("context").value));
  $("format").onchange = () => { chart.format = $("format").value; page.isDirty = true; };
  $("net").onchange = () => attempt(() => { if ($("net").value) addNet($("net").value); $("net").value = ""; });
  $("message").lastElementChild.onclick = () => tell("");
}

function begin() {
  watchControls();
  watchPlane();
  watchChart();
  watchTexts();
  document.addEventListener("keydown", press);
  addEventListener("hashchange", followLink);
  addEventListener("error", (event) => tell(`The page has a fault: ${event.message}`));
  for (const it of ["view", "above"]) new ResizeObserver(measure).observe($(it));
  new ResizeObserver(() => { chart.resize(); page.isDirty = true; }).observe($("wave"));
  openExample(EXAMPLES[0].name); // a link may be at fault, and something is always open
  measure();
  followLink();
  requestAnimationFrame(frame);
}

begin();
