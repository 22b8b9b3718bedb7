// The jobs that the package bindings/node makes of comments, which a program that stands in for jsgen is given.
import assert from "node:assert/strict";
import { spawnSync } from "node:child_process";
import { chmodSync, mkdtempSync, readFileSync, rmSync, writeFileSync } from "node:fs";
import { tmpdir } from "node:os";
import { join } from "node:path";
import { after, test } from "node:test";
import { fileURLToPath } from "node:url";
import { parsed } from "../../estree/parser.mjs";
import { decoded } from "../../flat/decode.mjs";

const folder = mkdtempSync(join(tmpdir(), "jsgen-"));
after(() => rmSync(folder, { recursive: true }));
const program = join(folder, "program");
writeFileSync(program, `#!/bin/sh\ncat > ${folder}/$1\ncase $1 in print) echo 'a;' ;; legal) echo '0 9' ;; *) exit 2 ;; esac\n`);
chmodSync(program, 0o755);
process.env.JSGEN = program;
const { print } = await import("../../../bindings/node/index.mjs");
const { addon } = await import("../../../bindings/node/lib/printer.mjs");
const skip = addon !== null && "the addon prints, not the program";

const SOURCE = "/*! é */\na; // b";
const given = (word) => decoded(readFileSync(join(folder, word)));

// The options of the job, and how many comments it has.
function jobFor(tree, settings) {
  print(tree, settings);
  const { options = {}, rows } = given("print");
  return [options, rows.at(-1).comments?.length ?? 0];
}

test("comments of a tree stand in its job, where the source is given", { skip }, () => {
  const tree = parsed(SOURCE, { comments: true });
  assert.deepEqual(jobFor(tree, { source: SOURCE }), [{}, 2]);
  assert.deepEqual(jobFor(tree, {}), [{}, 0]);
  assert.deepEqual(jobFor(parsed(SOURCE), { source: SOURCE }), [{}, 0]);
  const file = { type: "File", program: parsed(SOURCE), comments: tree.comments };
  assert.deepEqual(jobFor(file, { source: SOURCE }), [{}, 2]);
  assert.deepEqual(jobFor({ type: "File", program: tree }, { source: SOURCE }), [{}, 2]);
});

test("settings of comments are options of the job", { skip }, () => {
  const tree = parsed(SOURCE, { comments: true });
  const optionsFor = (comments, rest = {}) => jobFor(tree, { source: SOURCE, comments, ...rest })[0];
  assert.deepEqual(optionsFor(true), {});
  assert.deepEqual(optionsFor(false, { minify: true }), { minify: true, normal: false, jsdoc: false, annotation: false, legal: "none" });
  assert.deepEqual(optionsFor({ normal: false, jsdoc: true }), { normal: false, jsdoc: true });
  assert.deepEqual(optionsFor({ annotation: false, legal: "eof" }), { annotation: false, legal: "eof" });
  assert.deepEqual(optionsFor({}, { options: { normal: false } }), { normal: false });
});

test("licences for a file of their own are handed back", { skip }, () => {
  const tree = parsed(SOURCE, { comments: true });
  const settings = { source: SOURCE, comments: { legal: { linked: "b.txt" } } };
  assert.deepEqual(print(tree, settings), { code: "a;\n", map: null, licences: ["/*! é */"] });
  assert.deepEqual(given("legal"), given("print"));
  assert.deepEqual(given("legal").options, { legal: "linked", legal_path: "b.txt" });
  assert.deepEqual(print(tree, { source: SOURCE, comments: { legal: "external" } }).licences, ["/*! é */"]);
  assert.equal("licences" in print(tree, { source: SOURCE }), false);
});

test("the command hands them on, and writes the licences", { skip }, () => {
  const command = (...words) => {
    const bin = fileURLToPath(new URL("../../../bindings/node/bin/jsgen-print.mjs", import.meta.url));
    const ran = spawnSync(process.execPath, [bin, ...words], { input: SOURCE, cwd: folder });
    return [ran.status, ran.stdout.toString(), ran.stderr.toString()];
  };
  assert.deepEqual(command("--no-normal"), [0, "a;\n", ""]);
  assert.deepEqual(given("print").options, { normal: false });
  assert.deepEqual(command("--legal", "linked=b.txt", "-o", "b.js"), [0, "", ""]);
  assert.deepEqual(given("print").options, { legal: "linked", legal_path: "b.txt" });
  assert.equal(readFileSync(join(folder, "b.txt"), "utf8"), "/*! é */\n");
  assert.equal(command("--legal", "b.txt")[0], 2);
});
