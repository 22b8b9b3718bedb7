// Trees that Babel's transformations changed give the jobs of the text that its generator prints of them. They are made by @babel/core and
// @babel/preset-env of Debian's node-babel7; where one isn't there the tests are skipped.
import assert from "node:assert/strict";
import { readFileSync, readdirSync } from "node:fs";
import { test } from "node:test";
import { jobOf } from "../../../bindings/node/lib/convert.mjs";
import { packageOrNull } from "../../../bindings/node/lib/packages.mjs";
import { renaming } from "../../../bindings/node/lib/scopes.mjs";
import { babelTree, isMissing } from "../babel.mjs";
import { CHAINS, SOURCES } from "../babel_sources.mjs";

const LIB = new URL("../../../bindings/node/lib/", import.meta.url);
const core = isMissing ? null : packageOrNull("@babel/core");
const preset = isMissing ? null : packageOrNull("@babel/preset-env");
const skip = isMissing || (!core && "@babel/core isn't there") || (!preset && "@babel/preset-env isn't there");

// The generator leaves out parentheses before `?.`, and those that a class or a tag needs round a chain.
const OTHERWISE = /\)\?\.|new \(a\?|\)`/;
const sources = [...Object.values(SOURCES), ...CHAINS].filter((source) => !OTHERWISE.test(source));
const files = readdirSync(LIB).filter((name) => !name.includes("table")).map((name) => readFileSync(new URL(name, LIB), "utf8"));

function transformed(source, targets) {
  const presets = [[preset, { modules: false, targets, exclude: ["transform-regenerator"] }]];
  return core.transformSync(source, { ast: true, comments: false, configFile: false, babelrc: false, sourceType: "module", presets });
}

for (const targets of ["ie 11", "chrome 60", "chrome 100"]) {
  test(`trees that are made for ${targets}`, { skip }, () => {
    for (const source of [...sources, ...files]) {
      const { ast, code } = transformed(source, targets);
      const wanted = babelTree(code);
      assert.deepEqual(jobOf(ast), jobOf(wanted), source);
      assert.deepEqual(renaming(ast).references, renaming(wanted).references, source);
    }
  });
}
