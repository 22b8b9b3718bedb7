// What the commands print of comments, by the program where it is built and prints them, and the package bindings/node with them.
import assert from "node:assert/strict";
import { spawnSync } from "node:child_process";
import { existsSync, mkdtempSync, readFileSync, rmSync, writeFileSync } from "node:fs";
import { tmpdir } from "node:os";
import { join } from "node:path";
import { test } from "node:test";
import { fileURLToPath } from "node:url";
import { jobOf } from "../../../bindings/node/lib/convert.mjs";
import { printed } from "../../estree/command.mjs";
import { parsed } from "../../estree/parser.mjs";
import { uncommented, unlicensed } from "./printing.mjs";

const here = (name) => fileURLToPath(new URL(name, import.meta.url));
const COMMANDS = { "print.mjs": here("../../estree/print.mjs"), "jsgen-print": here("../../../bindings/node/bin/jsgen-print.mjs") };
const SOURCE = "/** b */\n/*! c */\n// d\na;\n/* @vite-ignore */\ne; // f\n/*! c */\n";

// The code that a command writes to standard output, and the files that it makes.
function ran(command, words) {
  const folder = mkdtempSync(join(tmpdir(), "jsgen-"));
  try {
    writeFileSync(join(folder, "file.js"), SOURCE);
    const { status, stdout, stderr } = spawnSync(process.execPath, [COMMANDS[command], ...words, "file.js"], { cwd: folder });
    assert.equal(status, 0, stderr.toString());
    const read = (name) => (existsSync(join(folder, name)) ? readFileSync(join(folder, name), "utf8") : null);
    return { out: stdout.toString(), code: read("code/a.js"), licences: read("a.txt") };
  } finally {
    rmSync(folder, { recursive: true });
  }
}

for (const command of Object.keys(COMMANDS)) {
  test(`${command} prints the comments that are wanted`, { skip: uncommented }, () => {
    const out = (...words) => ran(command, words).out;
    assert.equal(out(), "/** b */\n/*! c */\n// d\na;\n/* @vite-ignore */\ne;\n/*! c */\n");
    assert.equal(out("--minify"), "/*! c */\na;\n/* @vite-ignore */\ne;\n/*! c */\n");
    assert.equal(out("--minify", "--jsdoc"), "/** b */\n/*! c */\na;\n/* @vite-ignore */\ne;\n/*! c */\n");
    assert.equal(out("--minify", "--normal", "--jsdoc"), "/** b */\n/*! c */\n// d\na;\n/* @vite-ignore */\ne;\n/*! c */\n");
    assert.equal(out("--minify", "--no-annotations", "--legal", "none"), "a;e;");
    assert.equal(out("--no-comments"), "a;\ne;\n");
    assert.equal(out("--no-comments", "--annotations"), "a;\n/* @vite-ignore */\ne;\n");
    assert.equal(out("--no-comments", "--minify"), "a;e;");
    assert.equal(out("--no-normal"), "/** b */\n/*! c */\na;\n/* @vite-ignore */\ne;\n/*! c */\n");
    assert.equal(out("--no-jsdoc", "--no-annotations"), "/*! c */\n// d\na;\ne;\n/*! c */\n");
    assert.equal(out("--legal", "none"), "/** b */\n// d\na;\n/* @vite-ignore */\ne;\n");
    assert.equal(out("--no-comments", "--legal", "eof"), "a;\ne;\n\n/*! c */\n");
  });

  test(`${command} writes the licences into a file of their own`, { skip: unlicensed }, () => {
    const linked = ran(command, ["--no-comments", "--legal", "linked=a.txt"]);
    assert.deepEqual(linked, { out: "a;\ne;\n\n/*! For license information please see a.txt */", code: null, licences: "/*! c */\n" });
    const external = ran(command, ["--no-comments", "--legal", "external=a.txt"]);
    assert.deepEqual(external, { out: "a;\ne;\n", code: null, licences: "/*! c */\n" });
  });
}

// Sources in which a licence ends the line of the token before it, and what is printed for them, also minified.
const ENDING = [
  ["a; /*! b */\nc", "a;\n/*! b */\nc;\n", "a;\n/*! b */\nc;"],
  ["a; //! b", "a;\n//! b\n", "a;\n//! b\n"],
  ["a; /* b */ /*! c */ // d\n/* e */ f", "a;\n/*! c */\n/* e */ f;\n", "a;\n/*! c */\n/* e */f;"],
  ["{ a; // @license b\n}", "{\n\ta;\n\t// @license b\n}\n", "{a\n// @license b\n}"],
  ["class A { //! b\n}\nc", "class A {}\n//! b\nc;\n", "class A{}\n//! b\nc;"],
  ["const x = y /*! b */\n ? z : w; v", "const x = y ? z : w;\n/*! b */\nv;\n", "const x=y?z:w\n/*! b */\n;v;"],
];

test("a licence that ends a line is printed before what follows, or where its place is gone, further on", { skip: uncommented }, () => {
  for (const [source, ...wanted] of ENDING) {
    const tree = parsed(source, { comments: true });
    const code = (minify) => printed(jobOf(tree, { source, options: { minify }, comments: tree.comments })).code;
    assert.deepEqual([code(false), code(true)], wanted, source);
  }
});

test("what names the map of the source is printed where it is to be kept", { skip: uncommented }, () => {
  const source = "a;\n// b\n//# sourceMappingURL=a.map\n";
  const tree = parsed(source, { comments: true });
  const code = (settings) => printed(jobOf(tree, { source, comments: tree.comments, ...settings })).code;
  assert.equal(code({}), "a;\n// b\n");
  assert.equal(code({ keepSourceMappingUrl: true }), source);
});

test("the package prints the comments of a tree", { skip: uncommented }, async () => {
  const { print } = await import("../../../bindings/node/index.mjs");
  const tree = parsed(SOURCE, { comments: true });
  const code = (settings) => print(tree, { source: SOURCE, ...settings }).code;
  assert.equal(code({}), "/** b */\n/*! c */\n// d\na;\n/* @vite-ignore */\ne;\n/*! c */\n");
  assert.equal(code({ comments: true }), code({}));
  assert.equal(code({ comments: false }), "a;\ne;\n");
  assert.equal(code({ comments: { normal: false, annotation: false } }), "/** b */\n/*! c */\na;\ne;\n/*! c */\n");
  assert.equal(code({ comments: { legal: "eof", jsdoc: false } }), "// d\na;\n/* @vite-ignore */\ne;\n\n/*! c */\n");
  assert.equal(print(tree).code, "a;\ne;\n");
  assert.equal(print({ type: "File", program: { ...tree, comments: undefined }, comments: tree.comments }, { source: SOURCE }).code, code({}));
});

test("the package hands back the licences", { skip: unlicensed }, async () => {
  const { print } = await import("../../../bindings/node/index.mjs");
  const tree = parsed(SOURCE, { comments: true });
  const linked = print(tree, { source: SOURCE, comments: { normal: false, jsdoc: false, annotation: false, legal: { linked: "a.txt" } } });
  assert.deepEqual(linked, { code: "a;\ne;\n\n/*! For license information please see a.txt */", map: null, licences: ["/*! c */"] });
});

test("settings of comments that are wrong are a TypeError", async () => {
  const { print } = await import("../../../bindings/node/index.mjs");
  const tree = parsed("a");
  const message = (comments) => {
    try {
      print(tree, { comments });
    } catch (error) {
      assert.ok(error instanceof TypeError, error.stack);
      return error.message;
    }
    assert.fail("it printed");
  };
  for (const wrong of [null, 1, "none"]) assert.equal(message(wrong), "comments are true, false or an object");
  assert.equal(message({ jsdocs: true }), "unknown setting comments.jsdocs");
  assert.equal(message({ normal: 1 }), "comments.normal is true or false");
  for (const legal of [null, true, "linked", "all", {}, { linked: 1 }]) assert.equal(message({ legal }), 'comments.legal is "none", "inline", "eof", "external" or { linked: PATH }');
});
