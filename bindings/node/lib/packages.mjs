// Packages of node that jsgen takes: those that the package brings or that are installed beside it, those installed for the folder of the
// process, and Debian's (`node-NAME`).
import { existsSync } from "node:fs";
import Module, { createRequire } from "node:module";
import { join } from "node:path";
import { folders, load } from "../folders.mjs";

const DEBIAN = "/usr/share/nodejs";
// Debian's packages that bring one of another name.
const BROUGHT = { "@jridgewell/gen-mapping": "node-ampproject-remapping" };

/** The package of this name. Throws an Error that tells how to install it where it isn't there. */
export function packageNamed(name) {
  const found = packageOrNull(name);
  if (found === null) throw new Error(`${name} is not installed: \`npm install ${name}\`, or Debian's package ${BROUGHT[name] ?? `node-${name}`}`);
  return found;
}

/** The package of this name, or null where it isn't there. */
export function packageOrNull(name) {
  const places = [...folders, process.cwd()].map((folder) => () => createRequire(join(folder, "index.js"))(name));
  for (const required of [...places, () => debians(name)]) {
    try {
      return required();
    } catch (error) {
      if (error.code !== "MODULE_NOT_FOUND") throw error;
    }
  }
  return null;
}

/** The folder of the package of this name, in the same order of places: null where it isn't there. */
export function folderOf(name) {
  const places = [...folders, process.cwd()].flatMap((folder) => createRequire(join(folder, "index.js")).resolve.paths(name));
  return [...places, DEBIAN].map((place) => join(place, name)).find((folder) => existsSync(join(folder, "package.json"))) ?? null;
}

// Debian's packages find each other by a folder that only Debian's own node looks into, so it is one of node's while they are loaded.
function debians(name) {
  const before = process.env.NODE_PATH;
  try {
    lookInto(before ? `${before}:${DEBIAN}` : DEBIAN);
    return load(name);
  } finally {
    lookInto(before);
  }
}

function lookInto(paths) {
  if (paths === undefined) delete process.env.NODE_PATH;
  else process.env.NODE_PATH = paths;
  Module._initPaths();
}
