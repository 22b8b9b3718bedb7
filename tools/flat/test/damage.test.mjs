// What the program says of damaged flat jobs, beside what is said of the JSON that they stand for. FLAT_DAMAGES says how many are drawn.
import assert from "node:assert/strict";
import { spawnSync } from "node:child_process";
import { test } from "node:test";
import { flatJobOf } from "../../../bindings/node/lib/convert.mjs";
import { renaming } from "../../../bindings/node/lib/scopes.mjs";
import { Draw } from "../../faults/draw.mjs";
import { program, unbuilt } from "../../estree/program.mjs";
import { parsed } from "../../estree/parser.mjs";
import { cutOff, drawn, faultOf, jsonOf, withOtherWords } from "../damage.mjs";
import { decoded } from "../decode.mjs";

const DRAWN = Number(process.env.FLAT_DAMAGES ?? 400);
const SOURCES = [
  "/*a*/ class A extends B { #p = 1n; get [k]() { return this.#p; } } // \u{e9}",
  "const { a = 1.5, ...b } = [, \"\\ud800\", `x${1}y`]; for await (const c of /d/g) /*#__PURE__*/ f(a?.b, 4294967296);",
  "#!x\n'use strict'; import d, { \"f\" as e } from \"g\"; label: while (0x10) break label;",
];

function jobs() {
  return SOURCES.map((source, at) => {
    const program = parsed(source, { comments: true });
    const names = at === 1 ? renaming(program) : null;
    return Buffer.from(flatJobOf(program, { source, comments: program.comments, names, options: at === 0 ? { minify: true } : {} }));
  });
}

const said = (input) => {
  const { status, signal, stdout, stderr } = spawnSync(program(), ["print"], { input });
  assert.equal(signal, null, input.toString("hex"));
  return { status, text: stdout.toString(), line: stderr.toString() };
};

function compare(flat) {
  const json = jsonRead(flat);
  const fault = faultOf(json);
  const wanted = fault === null ? said(json) : { status: 3, text: "", line: `not a job: ${fault}\n` };
  assert.deepEqual(said(flat), wanted, `${flat.toString("hex")} as ${json}`);
}

// The JSON that bytes are read as: those that begin otherwise are it themselves.
function jsonRead(bytes) {
  return bytes.subarray(0, 4).toString("latin1") === "JSGF" ? jsonOf(bytes) : bytes;
}

test("the jobs have values of each kind", () => {
  const rows = jobs().flatMap((flat) => decoded(flat).rows);
  const has = (...names) => (is) => rows.some((row) => names.some((name) => row[name] !== undefined && is(row[name])));
  for (const type of ["Comment", "Hashbang", "Directive", "Class", "TemplateLiteral", "ArrayExpression", "BigIntLiteral", "RegExpLiteral"]) {
    assert.ok(rows.some((row) => row.type === type), type);
  }
  assert.ok(has("elements")((items) => items.includes(null)), "a hole");
  assert.ok(has("value")(Array.isArray) && has("value")((value) => typeof value === "string"), "a string by its units, and one as a text");
  assert.ok(has("digits")(Number.isInteger) && has("digits")((digits) => typeof digits === "string"), "digits as a number, and as a text");
  assert.ok(has("symbol")(Number.isInteger) && has("reference")(Number.isInteger), "numbers of names");
  assert.ok(has("pure")((flag) => flag === true) && has("kind")((word) => typeof word === "string"), "a flag and a word");
});

test("jobs as they are", { skip: unbuilt }, () => {
  for (const flat of jobs()) {
    assert.equal(faultOf(jsonOf(flat)), null);
    compare(flat);
  }
});

test("each word is another one", { skip: unbuilt }, () => {
  for (const flat of jobs()) for (const damaged of withOtherWords(flat)) compare(damaged);
});

test("the bytes end early", { skip: unbuilt }, () => {
  for (const flat of jobs()) for (const damaged of cutOff(flat)) compare(damaged);
});

test("drawn damages", { skip: unbuilt }, () => {
  const draw = new Draw(20260101);
  for (const flat of jobs()) for (const damaged of drawn(flat, draw, Math.ceil(DRAWN / SOURCES.length))) compare(damaged);
});
