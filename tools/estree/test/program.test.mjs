// The program's own words, and the file behind them. Where the program isn't built, the tests are skipped.
import assert from "node:assert/strict";
import { spawnSync } from "node:child_process";
import { readFileSync } from "node:fs";
import { test } from "node:test";
import { fileURLToPath } from "node:url";
import { program, unbuilt } from "../program.mjs";

const here = (name) => fileURLToPath(new URL(`../../../${name}`, import.meta.url));
const read = (name) => readFileSync(here(name), "utf8");

const answersFiles = unbuilt || (said(["--version"]).status === 2 && "the program answers no --version");

function said(words, input = "") {
  const { status, stdout, stderr } = spawnSync(program(), words, { input, cwd: here("") });
  return { status, out: stdout.toString(), err: stderr.toString() };
}

test("the program prints a job from a file, from standard input, and from that for -", { skip: answersFiles }, () => {
  const printed = { status: 0, out: read("examples/first.js"), err: "" };
  assert.deepEqual(said(["print", "examples/first.json"]), printed);
  assert.deepEqual(said(["print", "-"], read("examples/first.json")), printed);
  assert.deepEqual(said(["print"], read("examples/first.json")), printed);
});

test("map, legal and check take a file too", { skip: answersFiles }, () => {
  assert.deepEqual(said(["check", "examples/reserved.json"]), { status: 1, out: "", err: "refused: Name at 0\n" });
  for (const word of ["map", "legal"]) {
    const answer = said([word, "examples/renamed.json"]);
    assert.deepEqual(answer, said([word], read("examples/renamed.json")));
    assert.deepEqual([answer.status, answer.out === ""], [0, false]);
  }
});

test("a file that can't be opened, or is a folder, is a read that failed", { skip: answersFiles }, () => {
  assert.deepEqual(said(["print", "no/such"]), { status: 4, out: "", err: "no file to read: no/such\n" });
  assert.deepEqual(said(["check", "examples"]), { status: 4, out: "", err: "read failed\n" });
});

test("--version tells the version of the package for node and that of jobs; other words are a faulty command line", { skip: answersFiles }, () => {
  const { version } = JSON.parse(read("bindings/node/package.json"));
  assert.deepEqual(said(["--version"]), { status: 0, out: `jsgen ${version}, jobs of format 1\n`, err: "" });
  for (const words of [[], ["prints"], ["print", "a", "b"], ["--version", "a"], ["--help", "print"], ["-", "print"]]) {
    assert.deepEqual(said(words), { status: 2, out: "", err: "usage: jsgen COMMAND\n" }, words.join(" "));
  }
});
