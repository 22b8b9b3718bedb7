// The flat jobs of real modules stand for their jobs in JSON: without more, with comments, spans and options, and with new names. A library
// that isn't there is skipped.
import { test } from "node:test";
import { renaming } from "../../../bindings/node/lib/scopes.mjs";
import { assertSame } from "../compare.mjs";
import { LIBRARIES, treeOf } from "../sources.mjs";

function settingsOf(source, tree) {
  const options = { minify: true, indent_width: 3, legal: "linked", legal_path: "l\u{ef}c.txt", source_map_path: "a.map" };
  return {
    "bare": {},
    "comments": { source, comments: tree.comments, options },
    "names": { source, names: renaming(tree), negative: true, options: { source_map_path: "a.map" } },
  };
}

for (const [library, sourcesOf] of Object.entries(LIBRARIES)) {
  const sources = sourcesOf();
  test(`the flat jobs of ${library}`, { skip: sources.length === 0 && `${library} isn't there` }, (t) => {
    let modules = 0;
    let rows = 0;
    for (const [name, source] of sources) {
      const tree = treeOf(source);
      if (tree === null) continue;
      modules += 1;
      for (const [set, settings] of Object.entries(settingsOf(source, tree))) rows += assertSame(tree, settings, `${name}, ${set}`)?.rows.length ?? 0;
    }
    t.diagnostic(`${modules} modules, ${rows} rows`);
  });
}
