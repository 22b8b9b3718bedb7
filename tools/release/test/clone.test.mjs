// Releases of a small clone of the repository, with a wrapper and a toolchain in place of ./jsgen and rt that build a program and a library
// of a few lines: what RELEASE.txt says of the gate, and what is said where a release can't be made.
import assert from "node:assert/strict";
import { spawnSync } from "node:child_process";
import { chmodSync, copyFileSync, cpSync, existsSync, mkdirSync, mkdtempSync, readFileSync, readdirSync, realpathSync, rmSync, symlinkSync, writeFileSync } from "node:fs";
import { tmpdir } from "node:os";
import { join } from "node:path";
import { after, test } from "node:test";
import { fileURLToPath } from "node:url";
import { packageOrNull } from "../../../bindings/node/lib/packages.mjs";

const top = (name) => fileURLToPath(new URL(`../../../${name}`, import.meta.url));
const isThere = (command) => spawnSync(command, ["--version"]).status === 0;
const absent = ["git", "cc", "ar", "objdump", "npm", "python3"].find((command) => !isThere(command));
const skip =
  (absent !== undefined && `there is no ${absent}`) ||
  (packageOrNull("@jridgewell/gen-mapping") === null && "@jridgewell/gen-mapping isn't installed, which is bundled");

const temporary = realpathSync(mkdtempSync(join(tmpdir(), "jsgen-clone-")));
after(() => rmSync(temporary, { recursive: true, force: true }));
const clone = join(temporary, "clone");
const kit = join(temporary, "kit");
const { JSGEN, JSGEN_LIBRARY, ...others } = process.env;
const env = { ...others, PATH: `${join(temporary, "bin")}:${process.env.PATH}` };

const WRAPPER = `#!/bin/sh
[ ! -e "${temporary}/broken" ] || { echo "jsgen: the program could not be built" >&2; exit 70; }
exec "${clone}/tools/release/lay_out" "${kit}/program" "${kit}/library.a" "$2"
`;
const TOOLCHAIN = `#!/bin/sh
case $1 in
  doc) echo "${kit}/page.md" ;;
  version) echo "a toolchain of a test" ;;
esac
`;
const CALLS = ["print", "map", "legal", "check"].map((name) => `int jsgen_${name}_job(void) { return 6; }`).join("\n");

function done(command, words, settings = {}) {
  const { status, stdout, stderr } = spawnSync(command, words, { cwd: temporary, env, encoding: "utf8", ...settings });
  assert.equal(status, 0, `${command} ${words.join(" ")}: ${stderr}`);
  return stdout;
}

function writeProgram(path, text) {
  writeFileSync(path, text);
  chmodSync(path, 0o755);
}

function git(...words) {
  return done("git", ["-C", clone, "-c", "user.name=a", "-c", "user.email=a@example.invalid", ...words]).trim();
}

function makeClone() {
  const leftOut = /\/(node_modules|build|__pycache__)$|\/bin\/jsgen$|\.tgz$|libjsgen\.so$|bindings\/node\/LICENSE$/;
  for (const part of ["bindings", "tools/bindings", "tools/release", "LICENSE", ".gitignore"]) {
    cpSync(top(part), join(clone, part), { recursive: true, filter: (path) => !leftOut.test(path) });
  }
  writeProgram(join(clone, "jsgen"), WRAPPER);
  git("init", "--quiet");
  git("add", "--all");
  git("commit", "--quiet", "--message", "all");
}

function makeKit() {
  for (const path of [join(kit, "c"), join(temporary, "bin")]) mkdirSync(path, { recursive: true });
  writeProgram(join(temporary, "bin/rt"), TOOLCHAIN);
  done("cc", ["-x", "c", "-o", join(kit, "program"), "-"], { input: "int main(void) { return 0; }\n" });
  done("cc", ["-x", "c", "-fPIC", "-c", "-o", join(kit, "calls.o"), "-"], { input: CALLS });
  done("ar", ["rcs", join(kit, "library.a"), join(kit, "calls.o")]);
  done("ar", ["rcs", join(kit, "c/liblibc_c.a")]);
}

if (!skip) {
  makeKit();
  makeClone();
}

function released(into, changes = {}) {
  return spawnSync(join(clone, "tools/release/release"), [join(temporary, into)], { cwd: temporary, env: { ...env, ...changes }, encoding: "utf8" });
}

// The archive of a release, and the lines of its RELEASE.txt.
function read(into) {
  const { status, stdout, stderr } = released(into);
  assert.equal(status, 0, stderr);
  const archive = stdout.trim();
  const text = done("tar", ["-xzOf", archive, "--wildcards", "*/RELEASE.txt"]);
  return { bytes: readFileSync(archive), lines: text.split("\n"), stderr };
}

// A release that isn't made: its status and its last line; nothing is left in its folder.
function refused(into, changes) {
  const { status, stdout, stderr } = released(into, changes);
  assert.equal(stdout, "");
  const left = existsSync(join(temporary, into)) ? readdirSync(join(temporary, into)) : [];
  assert.deepEqual(left, []);
  return [status, stderr.trimEnd().split("\n").at(-1)];
}

test("a release says its commit, the toolchain, that all is proved, and how the gate ended on that commit; twice it is the same", { skip }, () => {
  const commit = git("rev-parse", "HEAD");
  mkdirSync(join(clone, "out"));
  writeFileSync(join(clone, "out/gate"), `${commit}\n12 passed, 0 failed\n`);
  const { bytes, lines, stderr } = read("first");
  assert.equal(stderr, "");
  const proved = "proofs: each crate of the program and of the library was proved before these were compiled (./jsgen --install)";
  for (const line of [`commit: ${commit}`, "toolchain: a toolchain of a test", "gate: 12 passed, 0 failed", proved]) assert.ok(lines.includes(line), line);
  assert.ok(read("second").bytes.equals(bytes));
  assert.equal(git("status", "--porcelain", "--ignored"), "!! out/");
});

test("a run of the gate on another commit, or before changes, isn't told as one of this", { skip }, () => {
  writeFileSync(join(clone, "out/gate"), `${"0".repeat(40)}\n12 passed, 0 failed\n`);
  assert.ok(read("other").lines.includes("gate: no run of the gate is known for this commit"));
  const commit = git("rev-parse", "HEAD");
  writeFileSync(join(clone, "out/gate"), `${commit}\n12 passed, 0 failed\n`);
  writeFileSync(join(clone, "more"), "");
  try {
    const { lines } = read("changed");
    for (const line of [`commit: ${commit}, with changes that aren't committed`, "gate: no run of the gate is known for these changes"]) assert.ok(lines.includes(line), line);
  } finally {
    rmSync(join(clone, "more"));
  }
});

test("a tool that isn't there, and a step that fails, are one line and status 70, and nothing is left", { skip }, () => {
  const few = join(temporary, "few");
  mkdirSync(few);
  for (const tool of ["bash", "dirname", "readlink", "git", "cc", "ar", "objdump", "node", "python3", "tar", "gzip", "sha256sum"]) {
    symlinkSync(done("sh", ["-c", `command -v ${tool}`]).trim(), join(few, tool));
  }
  copyFileSync(join(temporary, "bin/rt"), join(few, "rt"));
  assert.deepEqual(refused("lacks", { PATH: few }), [70, "jsgen: a release takes npm, which isn't there"]);
  writeFileSync(join(temporary, "broken"), "");
  assert.deepEqual(refused("broken build"), [70, "jsgen: the program could not be built"]);
  rmSync(join(temporary, "broken"));
  writeFileSync(join(clone, "bindings/node/addon.c"), "no C\n");
  assert.deepEqual(refused("broken addon"), [70, "jsgen: the addon could not be compiled"]);
  git("checkout", "--quiet", ".");
});

test("what is given by hand is a program and its library that are there, and a folder can be made", { skip }, () => {
  const [program, library] = [join(kit, "program"), join(kit, "library.a")];
  const both = [2, "jsgen: JSGEN and JSGEN_LIBRARY name a program and its library: set both, or none"];
  assert.deepEqual(refused("a", { JSGEN: program }), both);
  assert.deepEqual(refused("b", { JSGEN_LIBRARY: library }), both);
  assert.deepEqual(refused("c", { JSGEN: "/nothing", JSGEN_LIBRARY: library }), [4, "jsgen: JSGEN names no program that is there: /nothing"]);
  assert.deepEqual(refused("d", { JSGEN: program, JSGEN_LIBRARY: "/nothing" }), [4, "jsgen: JSGEN_LIBRARY names no library that is there: /nothing"]);
  const { status, stderr } = released("kit/program/e");
  assert.deepEqual([status, stderr.trimEnd().split("\n").at(-1)], [5, `jsgen: no folder to write into: ${temporary}/kit/program/e`]);
});

test("node's headers and what is bundled are asked for before anything is built", { skip }, () => {
  const alone = join(temporary, "alone");
  mkdirSync(alone);
  copyFileSync(process.execPath, join(alone, "node"));
  const lacking = join(clone, "tools/release/lacking.mjs");
  assert.equal(done(process.execPath, [lacking]), "");
  const said = done(join(alone, "node"), [lacking], { env: { ...env, NODE_HEADERS: "/nothing" } });
  assert.equal(said, "node's headers, which aren't beside node: the variable NODE_HEADERS names the folder of node_api.h");
  const manifest = join(clone, "bindings/node/package.json");
  const text = readFileSync(manifest, "utf8");
  writeFileSync(manifest, JSON.stringify({ ...JSON.parse(text), dependencies: { "not-there": "1" } }));
  writeFileSync(join(temporary, "broken"), "");
  const line = "jsgen: a release takes the package not-there, which isn't installed: it is bundled into the package for node";
  assert.deepEqual(refused("f"), [70, line]);
  rmSync(join(temporary, "broken"));
  writeFileSync(manifest, text);
});

test("the module for Python has the version of the package for node", () => {
  const { version } = JSON.parse(readFileSync(top("bindings/node/package.json"), "utf8"));
  assert.equal(/^version = "(.*)"$/m.exec(readFileSync(top("bindings/python/pyproject.toml"), "utf8"))[1], version);
});
