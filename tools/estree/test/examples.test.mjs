// The texts of examples/ are modules that V8 takes.
import assert from "node:assert/strict";
import { readFileSync, readdirSync } from "node:fs";
import { test } from "node:test";
import { isTakenByV8 } from "../programs.mjs";

const EXAMPLES = new URL("../../../examples/", import.meta.url);

for (const name of readdirSync(EXAMPLES).filter((name) => /\.m?js$/.test(name))) {
  test(`V8 takes ${name} as a module`, () => assert.ok(isTakenByV8(readFileSync(new URL(name, EXAMPLES), "utf8"))));
}
