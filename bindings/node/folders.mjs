// Where the package's own files are: beside this module, or, where a bundler has put it into another file, in the installed package.
import { existsSync } from "node:fs";
import { createRequire } from "node:module";
import { dirname, join } from "node:path";
import { fileURLToPath } from "node:url";

// A bundle in CommonJS has no `import.meta.url`.
const file = import.meta.url ? fileURLToPath(import.meta.url) : __filename;

/** Loads a module by its path or its name, as from this file. */
export const load = createRequire(file);

/** The folders in which the package's files may be. */
export const folders = [dirname(file), installed()].filter((folder, at, all) => folder !== null && all.indexOf(folder) === at);

function installed() {
  try {
    return dirname(load.resolve("jsgen/package.json"));
  } catch {
    return null;
  }
}

/** The first of the package's folders that has the file, with its path: null where none has. */
export function fileOfPackage(...path) {
  return folders.map((folder) => join(folder, ...path)).find((path) => existsSync(path)) ?? null;
}
