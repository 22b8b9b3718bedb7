// `node bench/in_process.mjs`: what printing costs in node's own process, by the addon that bindings/node/build.mjs makes. Its tables
// have the memory of the process after many calls, the time of a small module beside that of starting the program, the time of
// three.js beside that of other printers, by flat jobs and by jobs in JSON, that of its text with a map, by one call beside two, and the
// times of three.js with a map and of small modules, each from tree to text, beside those of Babel.
// Everything is printed pretty and without comments. The packages of the other printers are found as those of tools/estree are, or in the folder that the variable NODE_PATH names;
// what isn't there is left out, and a line says so.
import assert from "node:assert/strict";
import { spawnSync } from "node:child_process";
import { existsSync, readFileSync } from "node:fs";
import { buildJob, mapJob, print, printJob } from "../bindings/node/index.mjs";
import { flatJobOf, jobOf } from "../bindings/node/lib/convert.mjs";
import { packageOrNull } from "../bindings/node/lib/packages.mjs";
import { addon } from "../bindings/node/lib/printer.mjs";
import { parsed } from "../tools/estree/parser.mjs";
import { program, unbuilt } from "../tools/estree/program.mjs";

const SMALL = ["hello.mjs", "modules.js"].map((name) => new URL(`../examples/${name}`, import.meta.url));
const MODULES = ["tools/estree/program.mjs", "examples/planets.js"].map((name) => new URL(`../${name}`, import.meta.url));
const THREE = ["/usr/share/javascript/three/three.module.js", "/usr/share/nodejs/three/build/three.module.js"];
const STARTED_LIMIT = 0.1;
const BABEL = "@babel/generator";
const MAP_LIMIT = 0.75;
const MODULE_LIMIT = 0.7;
const LIMITS = { "flat": 0.75, "flat, with spans": 0.75, "in JSON": 3, "in JSON, with spans": 3 };
const CALLS = [100, 10_000, 100_000];

function milliseconds(work) {
  const start = process.hrtime.bigint();
  work();
  return Number(process.hrtime.bigint() - start) / 1e6;
}

// The processor time of this process.
function processorMilliseconds(work) {
  const start = process.cpuUsage();
  work();
  const { user, system } = process.cpuUsage(start);
  return (user + system) / 1000;
}

// The times of so many runs, the shortest first.
function timesOf(count, work, measure = milliseconds) {
  return Array.from({ length: count }, () => measure(work)).sort((one, other) => one - other);
}

function medianOf(count, work) {
  return timesOf(count, work)[Math.floor(count / 2)];
}

// In processor time, which a machine at work with other things changes less.
function bestOfFive(work) {
  return timesOf(5, work, processorMilliseconds)[0];
}

function show(what, ...figures) {
  const columns = figures.map((figure) => String(figure).padStart(14)).join("");
  process.stdout.write(`${figures.length > 0 ? what.padEnd(48) : what}${columns}\n`);
}

function showRatio(what, ratio, limit) {
  show(what, ratio.toFixed(3), `at most ${limit}`, ratio <= limit ? "held" : "OVER");
}

function bytesOf(job) {
  return Buffer.from(JSON.stringify(job));
}

// ---- a small module

function started(bytes) {
  const { status, stdout, error } = spawnSync(program(), ["print"], { input: bytes });
  if (error) throw error;
  assert.equal(status, 0);
  return stdout.toString("utf8");
}

function compareWithStarting(bytes) {
  assert.equal(printJob(bytes), started(bytes));
  const inside = medianOf(10_000, () => printJob(bytes));
  const outside = medianOf(200, () => started(bytes));
  show("printJob in this process, median", inside.toFixed(3));
  show("starting the program, median", outside.toFixed(3));
  showRatio("in this process, over starting", inside / outside, STARTED_LIMIT);
}

// ---- memory

function showMemory(bytes) {
  let done = 0;
  for (const calls of CALLS) {
    for (; done < calls; done += 1) printJob(bytes);
    show(`after ${calls} calls`, (process.memoryUsage.rss() / 2 ** 20).toFixed(1));
  }
}

// ---- three.js

// Shows the parts of printing a tree by a job in JSON, and gives their sum. With the source, rows have spans.
function printed(title, tree, source) {
  const job = jobOf(tree, { source });
  const bytes = bytesOf(job);
  return shownSum(title, bytes, {
    "converting": bestOfFive(() => jobOf(tree, { source })),
    "writing JSON": bestOfFive(() => bytesOf(job)),
    "reading, checking and printing": bestOfFive(() => printJob(bytes)),
  });
}

// The same by a flat job.
function printedFlat(title, tree, source) {
  const bytes = flatJobOf(tree, { source });
  return shownSum(title, bytes, {
    "converting": bestOfFive(() => flatJobOf(tree, { source })),
    "reading, checking and printing": bestOfFive(() => printJob(bytes)),
  });
}

function shownSum(title, bytes, parts) {
  const sum = Object.values(parts).reduce((one, other) => one + other);
  show(title, sum.toFixed(0), printJob(bytes).length);
  for (const [part, time] of Object.entries(parts)) show(`  ${part}`, time.toFixed(0));
  return sum;
}

// Each of these gives a function that prints the tree, which is parsed already, or null where the package isn't there.
function babelPrinter(source) {
  const parser = packageOrNull("@babel/parser");
  const generator = packageOrNull(BABEL);
  if (parser === null || generator === null) return null;
  const tree = parser.parse(source, { sourceType: "module" });
  return () => generator.default(tree, { comments: false, compact: false }).code;
}

async function minifierPrinter(name, settings, source) {
  const found = packageOrNull(name);
  if (found === null) return null;
  const { ast, error } = await found.minify(source, { compress: false, mangle: false, module: true, ...settings });
  if (error) throw error;
  return () => ast.print_to_string({ beautify: true, comments: false });
}

async function othersOf(source) {
  const onlyTree = { ast: true, code: false };
  return {
    [BABEL]: babelPrinter(source),
    "terser": await minifierPrinter("terser", { format: onlyTree }, source),
    "uglify-js": await minifierPrinter("uglify-js", { output: onlyTree }, source),
  };
}

async function compareWithOthers(source) {
  const tree = parsed(source);
  const sums = {
    "flat": printedFlat("jsgen, flat", tree),
    "flat, with spans": printedFlat("jsgen, flat, with spans", tree, source),
    "in JSON": printed("jsgen, in JSON", tree),
    "in JSON, with spans": printed("jsgen, in JSON, with spans", tree, source),
  };
  const times = {};
  for (const [name, print] of Object.entries(await othersOf(source))) {
    if (print !== null) times[name] = bestOfFive(print);
    if (print === null) show(`${name} is left out: not installed`);
    else show(name, times[name].toFixed(0), print().length);
  }
  if (times[BABEL] === undefined) return;
  for (const [name, sum] of Object.entries(sums)) showRatio(`jsgen ${name}, over ${BABEL}`, sum / times[BABEL], LIMITS[name]);
}

// ---- a source map

function compareCalls(source) {
  const bytes = bytesOf(jobOf(parsed(source), { source, options: { source_map_path: "three.js" } }));
  const { code, map } = buildJob(bytes);
  assert.deepEqual({ code, map }, { code: printJob(bytes), map: mapJob(bytes) });
  show("with a map, by printJob and mapJob", bestOfFive(() => [mapJob(bytes), printJob(bytes)]).toFixed(0), code.length + map.length);
  show("with a map, by buildJob", bestOfFive(() => buildJob(bytes)).toFixed(0), code.length + map.length);
}

// ---- from tree to text by `print`, beside Babel

// Gives two functions that print the source, parsed already, by each; with a map where that is wanted. null where Babel isn't there.
function bothPrinters(source, sourceMap) {
  const parser = packageOrNull("@babel/parser");
  const generator = packageOrNull(BABEL);
  if (parser === null || generator === null) return null;
  const tree = parsed(source);
  const other = parser.parse(source, { sourceType: "module", sourceFilename: "source.js" });
  const settings = { comments: false, compact: false, sourceMaps: sourceMap, sourceFileName: "source.js" };
  const options = sourceMap ? { source_map_path: "source.js" } : {};
  return {
    ours: () => print(tree, { ...(sourceMap ? { source, sourceMap } : {}), options, comments: false }),
    babels: () => generator.default(other, settings, source).map,
  };
}

function compareBoth(title, source, { sourceMap = false, calls = 1, limit }) {
  const both = bothPrinters(source, sourceMap);
  if (both === null) return show(`${title} is left out: ${BABEL} isn't installed`);
  const timeOf = (work) => bestOfFive(() => { for (let call = 0; call < calls; call += 1) work(); }) / calls;
  const times = { ours: timeOf(both.ours), babels: timeOf(both.babels) };
  show(`${title}, jsgen and Babel`, times.ours.toFixed(3), times.babels.toFixed(3));
  showRatio(`${title}, over ${BABEL}`, times.ours / times.babels, limit);
}

if (addon === null) throw new Error("the addon isn't built; `node bindings/node/build.mjs` builds it");
if (unbuilt) throw new Error(unbuilt);
const small = SMALL.map((file) => readFileSync(file, "utf8")).join("");
const bytes = bytesOf(jobOf(parsed(small)));
show("printJob, the memory of the process", "MB");
showMemory(bytes);
show("");
show(`a module of ${small.length} bytes, a job of ${bytes.length}`, "ms");
compareWithStarting(bytes);
show("");
const path = THREE.find((file) => existsSync(file));
if (path === undefined) {
  show("three.js is left out: not installed");
} else {
  show("three.js, best of five, processor time", "ms", "characters");
  const source = readFileSync(path, "utf8");
  await compareWithOthers(source);
  compareCalls(source);
  compareBoth("three.js with a map", source, { sourceMap: true, limit: MAP_LIMIT });
}
for (const file of MODULES) {
  const source = readFileSync(file, "utf8");
  compareBoth(`a module of ${source.length} bytes`, source, { calls: 200, limit: MODULE_LIMIT });
}
