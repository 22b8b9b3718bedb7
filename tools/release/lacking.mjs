// What a release lacks of what bindings/node is compiled and packed with, in words: nothing where all is there.
import { existsSync, readFileSync } from "node:fs";
import { dirname, join } from "node:path";
import { fileURLToPath } from "node:url";
import { folderOf } from "../../bindings/node/lib/packages.mjs";

const HEADERS = [process.env.NODE_HEADERS, join(dirname(process.execPath), "../include/node")].filter(Boolean);
const manifest = JSON.parse(readFileSync(fileURLToPath(new URL("../../bindings/node/package.json", import.meta.url)), "utf8"));
const unbundled = Object.keys(manifest.dependencies).find((name) => folderOf(name) === null);

if (!HEADERS.some((folder) => existsSync(join(folder, "node_api.h")))) {
  process.stdout.write("node's headers, which aren't beside node: the variable NODE_HEADERS names the folder of node_api.h");
} else if (unbundled !== undefined) {
  process.stdout.write(`the package ${unbundled}, which isn't installed: it is bundled into the package for node`);
}
