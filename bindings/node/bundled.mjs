// `node bindings/node/bundled.mjs`, which `npm pack` runs: brings what goes into the package besides its own files, the packages that it
// depends on, with theirs, into node_modules, and the licence.
import { cpSync, existsSync, mkdirSync, readFileSync, readdirSync, rmSync } from "node:fs";
import { spawnSync } from "node:child_process";
import { dirname, join } from "node:path";
import { fileURLToPath } from "node:url";
import { folderOf } from "./lib/packages.mjs";

const here = (name) => fileURLToPath(new URL(name, import.meta.url));
const manifest = (folder) => JSON.parse(readFileSync(join(folder, "package.json"), "utf8"));

// The folders of the packages that one depends on, with those that these do, by their names.
function foldersBelow(folder, found = new Map()) {
  for (const name of Object.keys(manifest(folder).dependencies ?? {})) {
    if (found.has(name)) continue;
    const below = folderOf(name);
    if (below === null) throw new Error(`${name} is not installed, so it can't be bundled`);
    found.set(name, below);
    foldersBelow(below, found);
  }
  return found;
}

function bring(name, folder) {
  const target = here(`node_modules/${name}`);
  if (folder === target) return;
  rmSync(target, { recursive: true, force: true });
  mkdirSync(dirname(target), { recursive: true });
  cpSync(folder, target, { recursive: true, dereference: true, filter: (path) => path !== join(folder, "node_modules") });
  const hasLicence = readdirSync(target).some((file) => /^(licen[cs]e|copying)/i.test(file));
  const copyright = hasLicence ? null : debiansCopyright(folder);
  if (copyright !== null) cpSync(copyright, join(target, "LICENSE"), { dereference: true });
}

// Debian keeps the licences of a package in a file elsewhere.
function debiansCopyright(folder) {
  const { status, stdout } = spawnSync("dpkg", ["-S", folder], { encoding: "utf8" });
  if (status !== 0) return null;
  const path = `/usr/share/doc/${stdout.split(":")[0]}/copyright`;
  return existsSync(path) ? path : null;
}

for (const [name, folder] of foldersBelow(here("."))) bring(name, folder);
if (existsSync(here("../../LICENSE"))) cpSync(here("../../LICENSE"), here("LICENSE"));
