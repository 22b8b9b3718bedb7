// examples/rollup, by Debian's rollup: the bundle of its two modules, as a user of the package makes it.
import assert from "node:assert/strict";
import { spawnSync } from "node:child_process";
import { cpSync, mkdirSync, mkdtempSync, readFileSync, rmSync, symlinkSync, writeFileSync } from "node:fs";
import { SourceMap } from "node:module";
import { tmpdir } from "node:os";
import { join } from "node:path";
import { after, test } from "node:test";
import { fileURLToPath } from "node:url";
import { folderOf } from "../../../bindings/node/lib/packages.mjs";
import { addon } from "../../../bindings/node/lib/printer.mjs";
import { unbuilt } from "../../estree/program.mjs";

const top = (name) => fileURLToPath(new URL(`../../../${name}`, import.meta.url));
const lacking = ["acorn", "@jridgewell/gen-mapping"].find((name) => folderOf(name) === null);

const skip =
  (addon === null && unbuilt) ||
  (lacking !== undefined && `${lacking} isn't installed`) ||
  (spawnSync("rollup", ["--version"]).status !== 0 && "there is no rollup");

const folder = mkdtempSync(join(tmpdir(), "jsgen-rollup-"));
after(() => rmSync(folder, { recursive: true }));

// The example in a folder of its own, where the package and acorn are installed.
function bundled() {
  cpSync(top("examples/rollup"), folder, { recursive: true });
  mkdirSync(join(folder, "node_modules"));
  symlinkSync(top("bindings/node"), join(folder, "node_modules/jsgen"));
  symlinkSync(folderOf("acorn"), join(folder, "node_modules/acorn"));
  done("rollup", ["--silent", "-c", "rollup.config.mjs"]);
  return { code: readFileSync(join(folder, "bundle.mjs"), "utf8"), map: JSON.parse(readFileSync(join(folder, "bundle.mjs.map"), "utf8")) };
}

function done(command, words) {
  const ran = spawnSync(command, words, { cwd: folder, encoding: "utf8" });
  assert.equal(ran.status, 0, ran.stderr);
  return ran.stdout;
}

// What stands in a source, and in the bundle.
const PLACES = [
  ["area.mjs", "return", "return"],
  ["area.mjs", "radius ** 2", "radius**2"],
  ["main.mjs", "centimetres = 32", "centimetres=32"],
  ["main.mjs", "console", "console"],
];

// Line and column of a text in another, counted from 0.
function placeOf(part, text) {
  const before = text.slice(0, text.indexOf(part)).split("\n");
  return [before.length - 1, before.at(-1).length];
}

test("rollup bundles two modules by the plugin: minified, with the licence and a map to both, and node runs it", { skip }, () => {
  const { code, map } = bundled();
  assert.equal(
    code,
    "/*! area.mjs: do with it what you like. */\n"
      + "function area(radius){return Math.PI*radius**2}const centimetres=32;console.log(`${Math.round(area(centimetres/2))} cm²`);\n"
      + "//# sourceMappingURL=bundle.mjs.map\n",
  );
  assert.equal(done(process.execPath, ["bundle.mjs"]), "804 cm²\n");
  assert.deepEqual([...map.sources].sort(), ["area.mjs", "main.mjs"]);
  for (const [name, written, printed] of PLACES) {
    const entry = new SourceMap(map).findEntry(...placeOf(printed, code));
    const place = placeOf(written, readFileSync(join(folder, name), "utf8"));
    assert.deepEqual([entry.originalSource, entry.originalLine, entry.originalColumn], [name, ...place], printed);
  }
});
