// Jobs whose trees are as deep as a job's length allows or nearly, by the addon of the package bindings/node: the process lives, and they
// print. Their texts are put together here, since the converter goes down a tree by calls.
import assert from "node:assert/strict";
import { spawnSync } from "node:child_process";
import { test } from "node:test";
import { Worker } from "node:worker_threads";

const { buildJob, printJob } = await import("../../../bindings/node/index.mjs");
const { addon } = await import("../../../bindings/node/lib/printer.mjs");
const { TABLE_NUMBER, TYPES } = await import("../../../bindings/node/lib/table.mjs");
const skip = addon === null && "the addon isn't built: node bindings/node/build.mjs";

const LEVELS = 200_000;
const METHODS = 4_000;

// A job of rows: the first, then those of each level by the number of its child and of its own first row, then the statement that holds them.
function jobOfLevels(levels, first, level, statement) {
  const rows = [first];
  for (let count = 0; count < levels; count += 1) rows.push(...level(rows.length - 1, rows.length));
  if (statement) rows.push(`{"type":"ExpressionStatement","expression":${rows.length - 1}}`);
  return `{"options":{"minify":true},"rows":[${rows.join(",")},{"type":"Program","kind":"module","body":[${rows.length - 1}]}]}`;
}

const blocks = (levels) => jobOfLevels(levels, '{"type":"EmptyStatement"}', (child) => [`{"type":"BlockStatement","body":[${child}]}`], false);
const arrays = (levels) => jobOfLevels(levels, '{"type":"ThisExpression"}', (child) => [`{"type":"ArrayExpression","elements":[${child}]}`], true);
const methods = (levels) =>
  jobOfLevels(levels, '{"type":"ThisExpression"}', (child, at) => [
    '{"type":"IdentifierName","name":"a"}',
    '{"type":"FormalParameters"}',
    `{"type":"ReturnStatement","argument":${child}}`,
    `{"type":"FunctionBody","statements":[${at + 2}]}`,
    `{"type":"Function","kind":"expression","params":${at + 1},"body":${at + 3}}`,
    `{"type":"ObjectProperty","kind":"init","key":${at},"value":${at + 4},"method":true}`,
    `{"type":"ObjectExpression","properties":[${at + 5}]}`,
  ], true);

// The first word of a program's kind.
const MODULE = 0;

// A flat job of rows without spans: each is its type and its fields, of which a child is its row, a list its rows, and a word its number.
const NUMBERS = Object.fromEntries(Object.keys(TYPES).map((name, number) => [name, number]));

function flatJob(rows) {
  const words = [];
  const lists = [];
  for (const { type, ...fields } of rows) {
    words.push(NUMBERS[type], 0, 0);
    for (const name of Object.keys(TYPES[type])) words.push(wordOf(fields[name], lists));
  }
  const head = Buffer.from('{"options":{"minify":true}}');
  const numbers = Uint32Array.of(0x4647534a, TABLE_NUMBER, rows.length, words.length, lists.length, 0, 0, head.length);
  return Buffer.concat([numbers, Uint32Array.from(words), Uint32Array.from(lists)].map((part) => Buffer.from(part.buffer)).concat(head));
}

function wordOf(value, lists) {
  if (value === undefined) return 0;
  if (!Array.isArray(value)) return value + 1;
  lists.push(value.length, ...value.map((row) => row + 1));
  return lists.length - value.length;
}

function flatOfLevels(levels, level) {
  const rows = [{ type: "ThisExpression" }];
  for (let count = 0; count < levels; count += 1) rows.push(level(count));
  rows.push({ type: "ExpressionStatement", expression: levels }, { type: "Program", kind: MODULE, body: [levels + 1] });
  return flatJob(rows);
}

for (const [what, level, code] of [
  ["arrays", (child) => ({ type: "ArrayExpression", elements: [child] }), (count) => `${"[".repeat(count)}this${"]".repeat(count)};`],
  ["awaits", (child) => ({ type: "AwaitExpression", argument: child }), (count) => `${"await ".repeat(count)}this;`],
  ["new", (child) => ({ type: "NewExpression", callee: child }), (count) => `${"new(".repeat(count - 1)}new this${"())".repeat(count - 1)};`],
]) {
  test(`${LEVELS} ${what} one in another print of a flat job`, { skip }, () => {
    const job = flatOfLevels(LEVELS, level);
    assert.ok(printJob(job) === code(LEVELS));
  });
}

test(`${LEVELS} blocks one in another print`, { skip }, () => {
  const code = `${"{".repeat(LEVELS)};${"}".repeat(LEVELS)}`;
  assert.equal(printJob(blocks(LEVELS)), code);
  assert.equal(buildJob(blocks(LEVELS)).code, code);
});

test(`${LEVELS} arrays one in another print`, { skip }, () => {
  assert.equal(printJob(arrays(LEVELS)), `${"[".repeat(LEVELS)}this${"]".repeat(LEVELS)};`);
});

test(`${METHODS} methods one in another print, in a worker thread too`, { skip }, async () => {
  const code = printJob(methods(METHODS));
  assert.equal(code.split("{a(){return").length, METHODS + 1);
  const work = `
    const { parentPort, workerData } = require("node:worker_threads");
    import(workerData.index).then(({ printJob }) => parentPort.postMessage(printJob(workerData.job)));`;
  const workerData = { index: new URL("../../../bindings/node/index.mjs", import.meta.url).href, job: methods(METHODS) };
  const printed = await new Promise((done, fail) => new Worker(work, { eval: true, workerData }).on("message", done).on("error", fail));
  assert.equal(printed, code);
});

test("a call whose thread gets no stack throws, and the next one prints", { skip }, () => {
  const work = `
    import(process.argv[1]).then(({ printJob }) => {
      const job = '{"rows":[{"type":"Program","kind":"module"}]}';
      try {
        printJob(job + " ".repeat(30_000_000));
      } catch ({ name, message }) {
        console.log(name + ": " + message + JSON.stringify(printJob(job)));
      }
    });`;
  const index = new URL("../../../bindings/node/index.mjs", import.meta.url).href;
  const { stdout, stderr } = spawnSync("sh", ["-c", 'ulimit -v 4000000; exec "$0" "$@"', process.execPath, "-e", work, index], { encoding: "utf8" });
  assert.equal(stdout, 'JsgenError: no thread can be made that has the stack for this job""\n', stderr);
});
