// Node's own lexer for the exports of CommonJS modules finds the names in minified text that it finds in the source. It stands
// in node itself; where this node hides it, or the program isn't built, the test is skipped.
import assert from "node:assert/strict";
import { spawnSync } from "node:child_process";
import { test } from "node:test";
import { jobOf } from "../../../bindings/node/lib/convert.mjs";
import { parsed } from "../parser.mjs";
import { program, unbuilt } from "../program.mjs";

const SOURCES = [
  'exports["a"] = 1; module.exports["b"] = 2;',
  'Object.defineProperty(exports, "__esModule", { value: true }); Object.defineProperty(exports, "c", { enumerable: true, value: 1 });',
  'module.exports = require("d");',
];

function lexerOfNode() {
  try {
    const natives = process.binding("natives");
    const module = { exports: {} };
    new Function("module", "exports", natives["internal/deps/cjs-module-lexer/lexer"])(module, module.exports);
    module.exports.initSync?.();
    return module.exports;
  } catch {
    return null;
  }
}

const lexer = lexerOfNode();
const skip = lexer ? unbuilt : "node's lexer isn't there";

test("node's lexer finds the exports of minified text", { skip }, () => {
  for (const source of SOURCES) {
    const job = jobOf(parsed(source), { source, options: { minify: true } });
    const text = spawnSync(program(), ["print"], { input: JSON.stringify(job) }).stdout.toString();
    const found = (code) => [...lexer.parse(code).exports, ...lexer.parse(code).reexports];
    assert.deepEqual(found(text), found(source), text);
    assert.notDeepEqual(found(text.replaceAll('"', "`")), found(source), "backticks hide the names");
  }
});
