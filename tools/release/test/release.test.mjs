// A release, made of the program and the library that are there, and used as one who has the archive alone would: in folders outside the
// repository, without a network and without the variables that name something of it.
import assert from "node:assert/strict";
import { spawnSync } from "node:child_process";
import { createHash } from "node:crypto";
import { copyFileSync, cpSync, existsSync, mkdirSync, mkdtempSync, readFileSync, readdirSync, rmSync, writeFileSync } from "node:fs";
import { tmpdir } from "node:os";
import { join } from "node:path";
import { after, test } from "node:test";
import { fileURLToPath } from "node:url";
import { packageOrNull } from "../../../bindings/node/lib/packages.mjs";
import { libraries, unlinkable } from "../../bindings/library.mjs";
import { program, unbuilt } from "../../estree/program.mjs";

const top = (name) => fileURLToPath(new URL(`../../../${name}`, import.meta.url));
const isThere = (command) => spawnSync(command, ["--version"]).status === 0;
const absent = ["git", "npm", "python3", "objdump"].find((command) => !isThere(command));
const skip =
  unlinkable || unbuilt || (absent !== undefined && `there is no ${absent}`) ||
  (packageOrNull("@jridgewell/gen-mapping") === null && "@jridgewell/gen-mapping isn't installed, which is bundled");

const { version } = JSON.parse(readFileSync(top("bindings/node/package.json"), "utf8"));
const name = `jsgen-${version}-linux-x64`;
const temporary = mkdtempSync(join(tmpdir(), "jsgen-release-"));
after(() => rmSync(temporary, { recursive: true, force: true }));

const NAMED = /^(JSGEN|NODE_PATH|NODE_HEADERS|PYTHON|LD_LIBRARY_PATH)/;
const OUTSIDE = { ...Object.fromEntries(Object.entries(process.env).filter(([key]) => !NAMED.test(key))), PYTHONDONTWRITEBYTECODE: "1" };
const given = () => ({ ...process.env, JSGEN: program(), JSGEN_LIBRARY: libraries()[0] });

function ran(command, words, settings = {}) {
  return spawnSync(command, words, { cwd: temporary, env: OUTSIDE, encoding: "utf8", ...settings });
}

function done(command, words, settings) {
  const { status, stdout, stderr, error } = ran(command, words, settings);
  assert.equal(status, 0, `${command} ${words.join(" ")}: ${error ?? ""}${stderr}`);
  return stdout;
}

function folder(path) {
  mkdirSync(join(temporary, path), { recursive: true });
  return join(temporary, path);
}

// The folder of a release, unpacked.
function unpacked(archive, into) {
  done("tar", ["-xzf", archive, "-C", folder(into)]);
  assert.deepEqual(readdirSync(join(temporary, into)), [name]);
  return join(temporary, into, name);
}

const saysOf = (text, word) => new RegExp(`^${word}: (.*)$`, "m").exec(text)?.[1];
const FIRST = top("examples/first.json");
const FIRST_CODE = readFileSync(top("examples/first.js"), "utf8");
let release;

test("--release makes the folder, and puts one archive into it", { skip }, () => {
  const into = join(temporary, "made/by it");
  assert.equal(done(top("jsgen"), ["--release", into], { env: given() }), `${join(into, `${name}.tar.gz`)}\n`);
  assert.deepEqual(readdirSync(into), [`${name}.tar.gz`]);
  release = unpacked(join(into, `${name}.tar.gz`), "release");
  const files = readdirSync(release, { recursive: true, withFileTypes: true }).filter((entry) => entry.isFile()).map((entry) => entry.name);
  const packages = [`jsgen-${version}.tgz`, `jsgen-${version}-py3-none-linux_x86_64.whl`];
  assert.deepEqual(files.sort(), ["LICENSE", "RELEASE.txt", "jsgen", "jsgen.h", "libjsgen.a", "libjsgen.so", ...packages].sort());
});

test("RELEASE.txt says what the release was made from, and the checksums of its files", { skip }, () => {
  const text = readFileSync(join(release, "RELEASE.txt"), "utf8");
  const lines = [...text.matchAll(/^([0-9a-f]{64}) {2}(.+)$/gm)];
  const files = readdirSync(release, { recursive: true, withFileTypes: true }).filter((entry) => entry.isFile());
  assert.equal(lines.length, files.length - 1);
  for (const [, sum, path] of lines) assert.equal(createHash("sha256").update(readFileSync(join(release, path))).digest("hex"), sum, path);
  done("sha256sum", ["--quiet", "--check", "RELEASE.txt"], { cwd: release });
  assert.ok(text.startsWith(`jsgen ${version} for linux-x64\n`));
  assert.match(saysOf(text, "commit"), new RegExp(`^${done("git", ["-C", top("."), "rev-parse", "HEAD"]).trim()}(, with changes that aren't committed)?$`));
  assert.equal(saysOf(text, "toolchain"), done("rt", ["version"]).trim());
  assert.equal(saysOf(text, "proofs"), "none are known: the program and the library were given by hand (JSGEN, JSGEN_LIBRARY)");
  assert.match(saysOf(text, "needs"), /^glibc 2\.\d+ or newer$/);
});

test("the program prints", { skip }, () => {
  const command = join(release, "bin/jsgen");
  assert.equal(done(command, ["print"], { input: readFileSync(FIRST) }), FIRST_CODE);
  assert.ok(done(command, ["--version"]).startsWith(`jsgen ${version},`));
});

test("a C program is compiled over each of the libraries", { skip }, () => {
  const user = folder("c");
  copyFileSync(top("bindings/c/print_job.c"), join(user, "print_job.c"));
  const libraryFolder = join(release, "lib");
  const kinds = { static: [join(libraryFolder, "libjsgen.a")], shared: [`-L${libraryFolder}`, "-l:libjsgen.so", `-Wl,-rpath,${libraryFolder}`] };
  for (const [kind, words] of Object.entries(kinds)) {
    done("cc", ["-std=c11", "-Wall", "-Werror", "-I", join(release, "include"), "-o", kind, "print_job.c", ...words], { cwd: user });
    assert.equal(done(join(user, kind), [FIRST]), FIRST_CODE, kind);
  }
});

const ACORN = "/usr/share/nodejs/acorn";
const TREE = `
  const at = (start, end, node) => ({ ...node, start, end });
  const long = at(6, 10, { type: "Identifier", name: "long" });
  const declarator = at(6, 14, { type: "VariableDeclarator", id: long, init: at(13, 14, { type: "Literal", value: 1, raw: "1" }) });
  const program = at(0, 15, { type: "Program", sourceType: "module", body: [at(0, 15, { type: "VariableDeclaration", kind: "const", declarations: [declarator] })] });
  const printed = print(program, { source: "const long = 1;", minify: true, sourceMap: true, names: renaming(program) });
  process.stdout.write(JSON.stringify([printed.code, printed.map.names, printed.map.mappings]));`;

// A copy of Debian's acorn without the scripts that build it, which npm would run.
function acornAlone() {
  const copy = join(temporary, "acorn");
  cpSync(ACORN, copy, { recursive: true, dereference: true });
  const { scripts, ...manifest } = JSON.parse(readFileSync(join(copy, "package.json"), "utf8"));
  writeFileSync(join(copy, "package.json"), JSON.stringify(manifest));
  return copy;
}

test("the package for node installs in an empty folder and prints, and its command with acorn beside it", { skip }, () => {
  const user = folder("node");
  const install = ["install", "--offline", "--no-audit", "--no-fund"];
  done("npm", [...install, join(release, `jsgen-${version}.tgz`)], { cwd: user });
  assert.ok(existsSync(join(user, "node_modules/jsgen/build/jsgen.node")));
  writeFileSync(join(user, "a.mjs"), `import { print, renaming } from "jsgen";\n${TREE}`);
  writeFileSync(join(user, "a.cjs"), `const { print, renaming } = require("jsgen");\n${TREE}`);
  for (const file of ["a.mjs", "a.cjs"]) {
    assert.deepEqual(JSON.parse(done(process.execPath, [file], { cwd: user })), ["const a=1;", ["long"], "AAAA,MAAMA,EAAO"]);
  }
  if (!existsSync(ACORN)) return;
  done("npm", [...install, acornAlone()], { cwd: user });
  writeFileSync(join(user, "in.js"), "export const long = [ 1 , 2 ];\n");
  assert.equal(done("node_modules/.bin/jsgen-print", ["--minify", "in.js"], { cwd: user }), "export const long=[1,2];");
});

// Installed by pip, or, where Python has none, unpacked, which is the same for this wheel.
function installedWheel(site) {
  const wheel = join(release, `jsgen-${version}-py3-none-linux_x86_64.whl`);
  if (ran("python3", ["-m", "pip", "--version"]).status !== 0) return done("python3", ["-m", "zipfile", "-e", wheel, site]);
  return done("python3", ["-m", "pip", "install", "--quiet", "--no-index", "--no-deps", "--disable-pip-version-check", "--target", site, wheel]);
}

test("the wheel installs without a network and prints by its own library, whose checksums it records", { skip }, () => {
  const site = folder("python/site");
  installedWheel(site);
  const uses = [
    "import json, sys, jsgen",
    "job = open(sys.argv[1]).read()",
    "print(json.dumps([jsgen.__file__, jsgen.print_job(job), jsgen.print_job(json.loads(job)), jsgen.map_job(job), jsgen.check_job(job)]))",
  ].join("\n");
  const said = JSON.parse(done("python3", ["-c", uses, FIRST], { cwd: join(temporary, "python"), env: { ...OUTSIDE, PYTHONPATH: site } }));
  assert.deepEqual(said, [join(site, "jsgen/__init__.py"), FIRST_CODE, FIRST_CODE, "", null]);
  const files = readdirSync(join(site, "jsgen"));
  for (const file of ["libjsgen.so", "py.typed"]) assert.ok(files.includes(file), file);
  const wheel = folder("python/wheel");
  done("python3", ["-m", "zipfile", "-e", join(release, `jsgen-${version}-py3-none-linux_x86_64.whl`), wheel]);
  const info = join(wheel, `jsgen-${version}.dist-info`);
  const rows = readFileSync(join(info, "RECORD"), "utf8").trim().split("\n").map((line) => line.split(","));
  const paths = readdirSync(wheel, { recursive: true, withFileTypes: true }).filter((entry) => entry.isFile());
  assert.equal(rows.length, paths.length);
  for (const [path, sum, length] of rows.filter(([, recorded]) => recorded !== "")) {
    const content = readFileSync(join(wheel, path));
    assert.deepEqual([sum, Number(length)], [`sha256=${createHash("sha256").update(content).digest("base64url")}`, content.length], path);
  }
  assert.match(readFileSync(join(info, "METADATA"), "utf8"), new RegExp(`^Name: jsgen\nVersion: ${version.replaceAll(".", "\\.")}$`, "m"));
});
