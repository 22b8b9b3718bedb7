// Babel's own trees of real modules give the jobs of ESTree's: node's own library, three.js (Debian's libjs-three), lodash-es (node-lodash), d3
// (node-d3), and what is here. A library that isn't there is skipped, and all of them without Debian's node-babel7.
import assert from "node:assert/strict";
import { readFileSync } from "node:fs";
import { test } from "node:test";
import { fileURLToPath } from "node:url";
import { NotRead, flatJobOf, jobOf } from "../../../bindings/node/lib/convert.mjs";
import { renaming } from "../../../bindings/node/lib/scopes.mjs";
import { LIBRARIES } from "../../flat/sources.mjs";
import { babelTree, estreeTree, isMissing } from "../babel.mjs";
import { filesBelow } from "../programs.mjs";

const FOLDERS = ["examples", "tools", "bindings/node"].map((name) => fileURLToPath(new URL(`../../../${name}`, import.meta.url)));
// Of a library with more sources than these each so many-th is tried.
const MOST = 250;
const ALL = {
  "what is here": () => FOLDERS.flatMap((folder) => [...filesBelow(folder)]).filter((path) => !path.includes("node_modules")).map((path) => [path, readFileSync(path, "utf8")]),
  ...LIBRARIES,
};

// Both trees of a module, or null where Babel's parser takes the text for none.
function treesOf(source) {
  try {
    return [babelTree(source), estreeTree(source)];
  } catch (error) {
    if (error instanceof SyntaxError) return null;
    throw error;
  }
}

function refusalOf(work) {
  try {
    work();
    return null;
  } catch (error) {
    assert.ok(error instanceof NotRead, error.stack);
    return error.message;
  }
}

function assertSame(name, source, [own, estree]) {
  const refused = refusalOf(() => jobOf(estree));
  if (refused !== null) return assert.equal(refusalOf(() => jobOf(own)), refused, name);
  const [names, wanted] = [own, estree].map((tree) => renaming(tree));
  for (const table of ["symbols", "references", "private"]) assert.deepEqual(names[table], wanted[table], name);
  const comments = { source, comments: own.comments };
  for (const [settings, others] of [[{}, {}], [comments, comments], [{ source, names }, { source, names: wanted }]]) {
    assert.ok(flatJobOf(own, settings).equals(flatJobOf(estree, others)), name);
  }
  return assert.equal(JSON.stringify(jobOf(own, comments)), JSON.stringify(jobOf(estree, { source, comments: estree.comments })), name);
}

for (const [library, sourcesOf] of Object.entries(ALL)) {
  const sources = isMissing ? [] : sourcesOf();
  test(`Babel's own trees of ${library}`, { skip: isMissing || (sources.length === 0 && `${library} isn't there`) }, (t) => {
    const step = Math.ceil(sources.length / MOST);
    let modules = 0;
    for (const [name, source] of sources.filter((_, at) => at % step === 0)) {
      const trees = treesOf(source);
      if (trees === null) continue;
      modules += 1;
      assertSame(name, source, trees);
    }
    assert.ok(modules > 0);
    t.diagnostic(`${modules} modules`);
  });
}
