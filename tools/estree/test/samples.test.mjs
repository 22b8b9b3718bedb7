// The texts that crates/jsgen_oracle/specs gives a reading, and those of RefusedTexts.antt in crates/jsgen_reading_samples/specs, which
// have none, worked out by hand from ECMA-262, beside what acorn says of them: whether it parses them as a module. Where the two differ,
// it is an early error, which is the caller's.
import assert from "node:assert/strict";
import { readFileSync } from "node:fs";
import { test } from "node:test";
import { parsed } from "../parser.mjs";

const EARLY_ERRORS = ["const a;", "super.a;", "continue;"];

// A text that acorn parses, and that no tree stands for: in parentheses the target gives the function no name (13.15.2), whereas the
// tree of acorn is the one without them.
const WITHOUT_TREE = ["(a)=function(){};"];

function samplesOf(name, crate) {
  const specs = readFileSync(new URL(`../../../crates/${crate}/specs/${name}.antt`, import.meta.url), "utf8");
  return [...specs.matchAll(/^ {2}pub \w+ : (IsRead|IsNotRead) \(codes ("(?:[^"\\]|\\.)*")\)/gm)]
    .map(([, kind, text]) => ({ isRead: kind === "IsRead", text: JSON.parse(text) }));
}

function isParsed(text) {
  try {
    parsed(text);
    return true;
  } catch (error) {
    assert.equal(error.name, "SyntaxError");
    return false;
  }
}

test("acorn parses the texts that have a reading, but for early errors", () => {
  const samples = ["Samples", "StatementSamples", "FunctionSamples"].flatMap((name) => samplesOf(name, "jsgen_oracle"));
  assert.equal(samples.length, 90);
  assert.deepEqual(samples.filter(({ isRead }) => !isRead), []);
  assert.deepEqual(samples.map(({ text }) => text).filter((text) => !isParsed(text)), EARLY_ERRORS);
});

test("acorn parses none of the texts that have none, but what no tree stands for", () => {
  const samples = samplesOf("RefusedTexts", "jsgen_reading_samples");
  assert.equal(samples.length, 13);
  assert.deepEqual(samples.filter(({ isRead }) => isRead), []);
  assert.deepEqual(samples.map(({ text }) => text).filter(isParsed), WITHOUT_TREE);
});
