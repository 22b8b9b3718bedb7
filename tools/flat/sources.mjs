// The sources that are tried: those of node's own library, of three.js (Debian's libjs-three), lodash-es (node-lodash) and d3 (node-d3).
import { existsSync, readFileSync, readdirSync } from "node:fs";
import { dirname, join } from "node:path";
import { parsed } from "../estree/parser.mjs";
import { filesBelow } from "../estree/programs.mjs";

const DEBIAN = "/usr/share/nodejs";
const OF_NPM = [join(dirname(process.execPath), "../lib/node_modules/npm"), join(DEBIAN, "npm")];

function below(...folders) {
  const paths = folders.filter((folder) => existsSync(folder)).flatMap((folder) => [...filesBelow(folder)]);
  return paths.map((path) => [path, readFileSync(path, "utf8")]);
}

// The library that node was built with, or, where this node hides it, npm's beside node.
function ofNode() {
  try {
    const found = Object.entries(process.binding("natives")).filter(([, text]) => typeof text === "string");
    if (found.length > 100) return found;
  } catch {
    // it is hidden
  }
  return below(...OF_NPM);
}

function ofD3() {
  const packages = existsSync(DEBIAN) ? readdirSync(DEBIAN).filter((name) => name.startsWith("d3-")) : [];
  return below(...packages.map((name) => join(DEBIAN, name, "src")));
}

/** For each library a function that gives its sources, each with its name: none where it isn't there. */
export const LIBRARIES = {
  "node's own library": ofNode,
  "three.js": () => below("/usr/share/javascript/three/three.module.js"),
  "lodash-es": () => below(join(DEBIAN, "lodash-es")),
  "d3": ofD3,
};

/** The tree of a module with its comments, or null where the text is none. */
export function treeOf(source) {
  try {
    return parsed(source, { comments: true });
  } catch (error) {
    if (error instanceof SyntaxError) return null;
    throw error;
  }
}
