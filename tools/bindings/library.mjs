// The static library and what links it, for tests: the library that the variable JSGEN_LIBRARY names, or else the one that
// `rt lib` built here, where no source is newer than it.
import { spawnSync } from "node:child_process";
import { existsSync, readdirSync, readFileSync, statSync } from "node:fs";
import { dirname, join } from "node:path";
import { fileURLToPath } from "node:url";

const top = (name) => fileURLToPath(new URL(`../../${name}`, import.meta.url));
const BUILT = top("crates/jsgen_c/out/libjsgen_c.a");

// The crates that a crate is made of, with itself, by crates.txt.
function cratesBelow(crate) {
  const lines = readFileSync(top("crates.txt"), "utf8").split("\n").map((line) => line.replace(/#.*/, "").split(":"));
  const uses = new Map(lines.filter(([, below]) => below !== undefined).map(([name, below]) => [name.trim().split(/\s+/)[0], below.trim().split(/\s+/)]));
  const found = new Set();
  const visit = (name) => {
    if (!uses.has(name) || found.has(name)) return;
    found.add(name);
    uses.get(name).forEach(visit);
  };
  visit(crate);
  return [...found];
}

// Whether a file below a folder is newer.
function isNewer(folder, time) {
  if (!existsSync(folder)) return false;
  const files = readdirSync(folder, { recursive: true, withFileTypes: true }).filter((entry) => entry.isFile());
  return files.some((entry) => statSync(join(entry.parentPath ?? entry.path, entry.name)).mtimeMs > time);
}

function isBuilt() {
  if (!existsSync(BUILT)) return false;
  const time = statSync(BUILT).mtimeMs;
  const folders = cratesBelow("jsgen_c").flatMap((crate) => ["src", "specs", "proofs"].map((part) => top(`crates/${crate}/${part}`)));
  return !folders.some((folder) => isNewer(folder, time));
}

const answers = (command, words) => spawnSync(command, words, { encoding: "utf8" });

// What the library stands on, in the toolchain's folder: that of the page that `rt doc` names.
function heapLibrary() {
  const page = answers("rt", ["doc"]).stdout?.split("\n")[0];
  return page ? join(dirname(page), "c/liblibc_c.a") : undefined;
}

const heap = heapLibrary();

/** Why tests of the library are left out: false where they aren't. A library that JSGEN_LIBRARY names and that isn't there is no reason. */
export const unlinkable =
  (process.env.JSGEN_LIBRARY === undefined && !isBuilt() && "the library isn't built; `rt lib` in crates/jsgen_c builds it") ||
  (answers("cc", ["--version"]).status !== 0 && "there is no C compiler, cc") ||
  ((heap === undefined || !existsSync(heap)) && "there is no toolchain, whose liblibc_c.a the library stands on");

/** The static library. */
export function libraryFile() {
  const library = process.env.JSGEN_LIBRARY ?? BUILT;
  if (!existsSync(library)) throw new Error(`JSGEN_LIBRARY names no library that is there: ${library}`);
  return library;
}

/** The files to link, in order: the library, and where its memory comes from. */
export function libraries() {
  return [libraryFile(), heap];
}

/** Compiles a C program, with each warning an error. */
export function compile(source, program, words = []) {
  const strict = ["-std=c11", "-O1", "-Wall", "-Wextra", "-Werror", "-pedantic"];
  const made = answers("cc", [...strict, "-I", top("bindings/c"), ...words, "-o", program, top(source), ...libraries()]);
  if (made.status !== 0) throw new Error(`cc: ${made.stderr}`);
  return program;
}
