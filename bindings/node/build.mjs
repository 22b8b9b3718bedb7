// `node bindings/node/build.mjs`: compiles the addon over the static library that `rt` has built, by `cc` and node's own headers. Its memory
// comes from arena.c.
import { spawnSync } from "node:child_process";
import { existsSync, mkdirSync } from "node:fs";
import { dirname, join } from "node:path";
import { fileURLToPath } from "node:url";
import { libraryFile } from "../../tools/bindings/library.mjs";

const here = (name) => fileURLToPath(new URL(name, import.meta.url));
const HEADERS = [process.env.NODE_HEADERS, join(dirname(process.execPath), "../include/node")].filter(Boolean);
const headers = HEADERS.find((folder) => existsSync(join(folder, "node_api.h")));
if (!headers) {
  process.stderr.write("node_api.h isn't beside node: the variable NODE_HEADERS names its folder\n");
  process.exit(1);
}
mkdirSync(here("build"), { recursive: true });
const words = ["-O2", "-Wall", "-Wextra", "-Werror", "-fPIC", "-shared", "-pthread", `-I${headers}`, `-I${here("../c")}`, "-o", here("build/jsgen.node"), here("addon.c"), here("arena.c"), libraryFile()];
const { status, error } = spawnSync("cc", words, { stdio: "inherit" });
if (error) throw error;
process.exit(status ?? 1);
