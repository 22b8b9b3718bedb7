// A flat job prints what its job in JSON does: code, the lines of the map, and licences. FLAT_PRINTED says how many modules of a library are
// tried, the first of them.
import assert from "node:assert/strict";
import { spawnSync } from "node:child_process";
import { test } from "node:test";
import { NotRead, flatJobOf, jobOf } from "../../../bindings/node/lib/convert.mjs";
import { renaming } from "../../../bindings/node/lib/scopes.mjs";
import { program, unbuilt } from "../../estree/program.mjs";
import { LIBRARIES, treeOf } from "../sources.mjs";

const MOST = Number(process.env.FLAT_PRINTED ?? 12);
const WORDS = ["print", "map", "legal", "check"];

function settingsOf(source, tree) {
  return [
    { source, names: renaming(tree), options: { minify: true } },
    { source, comments: tree.comments, options: { minify: true, source_map_path: "a.js" } },
    { source, comments: tree.comments, options: { legal: "linked", legal_path: "a.LICENSE", source_map_path: "a.js" } },
  ];
}

function said(word, input) {
  const { status, stdout, stderr } = spawnSync(program(), [word], { input, maxBuffer: 2 ** 30 });
  return { status, text: stdout.toString(), line: stderr.toString() };
}

function compare(name, tree, settings) {
  const flat = flatJobOf(tree, settings);
  const json = JSON.stringify(jobOf(tree, settings));
  for (const word of WORDS) {
    const wanted = said(word, json);
    assert.deepEqual([wanted.status, wanted.line], [0, ""], `${word} of ${name}`);
    assert.deepEqual(said(word, flat), wanted, `${word} of ${name}`);
  }
}

// The modules that are read, with their trees.
function* modulesOf(sources) {
  for (const [name, source] of sources) {
    const tree = treeOf(source);
    if (tree !== null) yield [name, source, tree];
  }
}

function compareAll(name, source, tree) {
  try {
    for (const settings of settingsOf(source, tree)) compare(name, tree, settings);
    return 1;
  } catch (error) {
    if (error instanceof NotRead) return 0;
    throw error;
  }
}

for (const [library, sourcesOf] of Object.entries(LIBRARIES)) {
  const sources = unbuilt ? [] : sourcesOf();
  test(`${library} is printed alike`, { skip: unbuilt || (sources.length === 0 && `${library} isn't there`) }, (t) => {
    let modules = 0;
    for (const [name, source, tree] of modulesOf(sources)) {
      if (modules === MOST) break;
      modules += compareAll(name, source, tree);
    }
    t.diagnostic(`${modules} modules`);
  });
}
