// The programs that are made up.
import assert from "node:assert/strict";
import { test } from "node:test";
import { jobOf } from "../../../bindings/node/lib/convert.mjs";
import { parsed } from "../parser.mjs";
import { randomProgram } from "../random.mjs";

// Parts that some of them have.
const PARTS = [
  "=>", "require(", ".defineProperty(", "exports[", "import.meta", "class ", "static {", "#", ".#", "let {", "let [", "await ", "yield", "} = ", "] = ",
  "async ", "function*", "for await", "`", "${", "import(", "import {", "import *", "export {", "export *", "export default", "export const", "#!",
];

test("programs that are made up are read whole, and have parts of each kind", () => {
  const sources = Array.from({ length: 60 }, (_, at) => randomProgram(at + 1));
  for (const source of sources) assert.ok(jobOf(parsed(source), { source }).rows.length > 0);
  for (const part of PARTS) assert.ok(sources.some((source) => source.includes(part)), part);
});
