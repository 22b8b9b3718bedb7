// The texts of tests/readings.json, and those that crates/jsgen_reading_samples proves something of.
import { readFileSync } from "node:fs";

const textOf = (path) => readFileSync(new URL(`../../../${path}`, import.meta.url), "utf8");

/**
 * The rows of tests/readings.json, and what their columns have. `families` are rows by what they need, which the grammar hasn't had from its
 * beginning.
 */
export const { columns, cases, families } = JSON.parse(textOf("tests/readings.json"));

/** All rows. */
export const allCases = [...cases, ...Object.values(families).flat()];

const SAMPLE = /^ {2}pub \w+ : (IsRead|IsNotRead) \(codes ("(?:[^"\\]|\\.)*")\)/gm;

function samplesOf(name) {
  const found = textOf(`crates/jsgen_reading_samples/specs/${name}.antt`).matchAll(SAMPLE);
  return [...found].map(([, kind, written]) => [JSON.parse(written), kind === "IsRead" ? "module" : "none"]);
}

const FILES = ["ReadPatterns", "TargetPatterns", "HeadPatterns", "ReadFunctions", "RefusedPatterns", "RefusedFunctions", "RefusedTexts"];

/** The samples of each file: a text, and as what the grammar reads it, `module` or `none`. */
export const samplesByFile = Object.fromEntries(FILES.map((name) => [name, samplesOf(name)]));
