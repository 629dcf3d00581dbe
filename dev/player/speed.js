// Prints how fast the simulation of docs/player.html is in Node: a line for each pattern named, with its period and the generations of a
// processor second, all inputs 1. The best of three runs counts.
//
//     node dev/player/speed.js NAME..
"use strict";
const fs = require("fs"), path = require("path");
const page = fs.readFileSync(path.join(__dirname, "../../docs/player.html"), "utf8");
const patterns = JSON.parse(page.split('id="patterns">')[1].split("</script>")[0]);
const script = ["reading", "streams", "wires", "machine"].map((it) => fs.readFileSync(path.join(__dirname, `${it}.js`), "utf8")).join("\n");
const { Machine, readPattern } = new Function(`${script}; return { Machine, readPattern };`)();

/** Generations of a processor second, in a run that takes one after a first half second. */
function rateOf(pattern) {
  const machine = new Machine(readPattern(pattern.rle));
  for (const streams of machine.streams) for (const it of streams) it.hold(0, 1);
  machine.restart();
  const secondsSince = (before) => Object.values(process.cpuUsage(before)).reduce((sum, it) => sum + it) / 1e6;
  const runFor = (seconds) => {
    const from = machine.generation, before = process.cpuUsage();
    while (secondsSince(before) < seconds) machine.run(Infinity, performance.now() + 5);
    return (machine.generation - from) / secondsSince(before);
  };
  runFor(0.5);
  return runFor(1);
}

for (const name of process.argv.slice(2)) {
  const pattern = patterns.find((it) => it.name === name);
  if (!pattern) {
    console.error(`speed: the page has no pattern ${name}`);
    process.exit(2);
  }
  const period = readPattern(pattern.rle).table.period;
  console.log(name, period, Math.round(Math.max(...[1, 2, 3].map(() => rateOf(pattern)))));
}
