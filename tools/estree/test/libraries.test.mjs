// Minified text of real modules does what their sources do: three.js (Debian's libjs-three) and lodash-es (node-lodash). Where a
// library isn't there, or the program isn't built, its test is skipped.
import assert from "node:assert/strict";
import { spawnSync } from "node:child_process";
import { existsSync, mkdtempSync, readFileSync, readdirSync, rmSync, writeFileSync } from "node:fs";
import { tmpdir } from "node:os";
import { join } from "node:path";
import { after, test } from "node:test";
import { pathToFileURL } from "node:url";
import { jobOf } from "../../../bindings/node/lib/convert.mjs";
import { parsed } from "../parser.mjs";
import { program, unbuilt } from "../program.mjs";

const THREE = "/usr/share/javascript/three/three.module.js";
const LODASH = "/usr/share/nodejs/lodash-es";
const folder = mkdtempSync(join(tmpdir(), "jsgen-"));

after(() => rmSync(folder, { recursive: true }));

function minified(path) {
  const source = readFileSync(path, "utf8");
  const input = JSON.stringify(jobOf(parsed(source), { source, options: { minify: true } }));
  const { status, stdout, stderr } = spawnSync(program(), ["print"], { input, maxBuffer: 2 ** 28 });
  assert.equal(status, 0, stderr.toString());
  return stdout.toString();
}

// Writes the text where node takes it for a module, and imports it.
async function imported(name, text) {
  const path = join(folder, name);
  writeFileSync(path, text);
  return import(pathToFileURL(path));
}

function skip(path) {
  return unbuilt || (!existsSync(path) && `${path} isn't there`);
}

test("three.js is imported from its minified text, and has the exports of its source", { skip: skip(THREE) }, async () => {
  const text = minified(THREE);
  assert.ok(text.length < readFileSync(THREE, "utf8").length);
  const [source, printed] = [await imported("source.mjs", readFileSync(THREE, "utf8")), await imported("printed.mjs", text)];
  assert.deepEqual(Object.keys(printed), Object.keys(source));
  const used = ({ Matrix4, Vector3, Quaternion, SphereGeometry, Color, REVISION }) => {
    const turned = new Vector3(1, 2, 3).applyQuaternion(new Quaternion().setFromAxisAngle(new Vector3(0, 1, 0), 0.5));
    const moved = turned.applyMatrix4(new Matrix4().makeTranslation(4, 5, 6)).toArray();
    return [REVISION, moved, new SphereGeometry(1, 8, 6).vertices.length, new Color("rgb(10, 20, 30)").getHexString()];
  };
  assert.deepEqual(used(printed), used(source));
});

test("lodash-es works from its minified text", { skip: skip(LODASH) }, async () => {
  writeFileSync(join(folder, "package.json"), '{"type":"module"}');
  for (const name of readdirSync(LODASH).filter((file) => file.endsWith(".js"))) writeFileSync(join(folder, name), minified(join(LODASH, name)));
  const { chunk, cloneDeep, groupBy, kebabCase, template, default: lodash } = await import(pathToFileURL(join(folder, "lodash.js")));
  assert.deepEqual(chunk([1, 2, 3, 4, 5], 2), [[1, 2], [3, 4], [5]]);
  assert.deepEqual(groupBy(["one", "two", "three"], "length"), { 3: ["one", "two"], 5: ["three"] });
  assert.equal(kebabCase("Größe der Welt"), "grosse-der-welt");
  assert.equal(template("<% a.forEach((b) => { %>[<%= b %>]<% }) %>")({ a: [1, 2] }), "[1][2]");
  const value = { a: [new Map([[1, new Set("ab")]])] };
  assert.deepEqual(cloneDeep(value), value);
  assert.equal(lodash([3, 1, 2]).sortBy().map((it) => it * 2).sum(), 12);
});
