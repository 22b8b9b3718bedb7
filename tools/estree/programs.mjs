// The programs that are tried: files below a folder, and which of them are read.
import { spawnSync } from "node:child_process";
import { mkdtempSync, readdirSync, rmSync, statSync, writeFileSync } from "node:fs";
import { tmpdir } from "node:os";
import { join } from "node:path";
import { jobOf, NotRead } from "../../bindings/node/lib/convert.mjs";
import { parsed } from "./parser.mjs";

/** The JavaScript files below a folder, or the file itself. */
export function* filesBelow(path) {
  if (!statSync(path).isDirectory()) return yield path;
  for (const entry of readdirSync(path, { withFileTypes: true })) {
    const inside = join(path, entry.name);
    if (entry.isDirectory()) yield* filesBelow(inside);
    else if (entry.isFile() && /\.[cm]?js$/.test(entry.name)) yield inside;
  }
}

/** Whether the text is a module, all of which is read. */
export function isModule(source) {
  try {
    jobOf(parsed(source), { spans: false });
    return true;
  } catch (error) {
    if (error instanceof SyntaxError || error instanceof NotRead) return false;
    throw error;
  }
}

/** Whether V8 takes a text as a module: acorn can't read a pattern that begins with `=` right behind `for await (..)`. */
export function isTakenByV8(code) {
  const folder = mkdtempSync(join(tmpdir(), "jsgen-"));
  try {
    const file = join(folder, "code.mjs");
    writeFileSync(file, code);
    return spawnSync(process.execPath, ["--check", file]).status === 0;
  } finally {
    rmSync(folder, { recursive: true });
  }
}
