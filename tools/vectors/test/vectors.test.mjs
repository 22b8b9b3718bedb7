// The files of readings, and of texts that have none, are those that tools/vectors/generate writes, and the trees that they have are acorn's.
import assert from "node:assert/strict";
import { spawnSync } from "node:child_process";
import { test } from "node:test";
import { fileURLToPath } from "node:url";
import { packageOrNull } from "../../../bindings/node/lib/packages.mjs";
import { tokenListsOf } from "../../readings/lexer.mjs";
import { treesOf } from "../../readings/parsing.mjs";
import { allCases } from "../../readings/test/texts.mjs";
import { plain, termOfTree, treeByAcorn } from "../trees.mjs";
import { REFUSED } from "../refused.mjs";
import { CHOSEN } from "../write.mjs";

test("the files are as they are written", () => {
  const { status, stderr } = spawnSync(process.execPath, [fileURLToPath(new URL("../generate", import.meta.url)), "--check"], { encoding: "utf8" });
  assert.equal(status, 0, stderr);
});

test("each text has a name of its own in its family, and stands there once", () => {
  const families = Object.entries({ ...CHOSEN, refused: REFUSED });
  const entries = families.flatMap(([family, chosen]) => chosen.map(([name, text]) => ({ name: `${family} ${name}`, text })));
  for (const key of ["name", "text"]) assert.equal(new Set(entries.map((entry) => entry[key])).size, entries.length, key);
});

// The texts that the standard reads, and the grammar too.
const texts = allCases
  .filter(([, reading, , byGrammar]) => reading === "module" && (byGrammar ?? reading) === "module")
  .map(([text]) => text);

// Attributes of imports and options of `import()`, which not every acorn reads.
const HAS_ATTRIBUTES = /\bwith\s*\{|^import\(a[^)]*,/;

// ESTree has one tree for these and for `import "x";`.
const LIKE_OTHERS = ['import {} from "x";', 'import "x" with {};'];

function treeOrNull(text) {
  try {
    return treeByAcorn(text);
  } catch (error) {
    if (error instanceof SyntaxError && HAS_ATTRIBUTES.test(text)) return null;
    throw error;
  }
}

const treeByTable = (text) => plain(tokenListsOf(text).flatMap((tokens) => treesOf("Module", tokens))[0]);

const needed = packageOrNull("acorn") ? {} : { skip: "acorn isn't installed" };

test("the trees of the table are those of acorn", needed, () => {
  assert.ok(texts.length > 350);
  const other = texts.filter((text) => ![null, treeByTable(text)].includes(treeOrNull(text)));
  assert.deepEqual(other.filter((text) => !LIKE_OTHERS.includes(text)), []);
});

test("what counts in a tree is compared", needed, () => {
  for (const [one, text] of [
    ["a+b;", "a-b;"],
    ["(a);", "a;"],
    ["a.b;", "a?.b;"],
    ["async()=>a;", "()=>a;"],
    ["class A{static a(){}}", "class A{a(){}}"],
    ["({a});", "({a:a});"],
  ["a.#b;", "a?.#b;"].map((text) => `class A{#b;c(a){${text}}}`),
  ["a=/b/;", "a=/b/g;"],
  ["a`b`;", "a`\\b`;"],
  ["`b${a}`;", "`\\b${a}`;"],
  ]) {
    assert.notEqual(treeByAcorn(one), treeByTable(text), text);
    assert.equal(treeByAcorn(text), treeByTable(text), text);
  }
});

test("trees are written as terms", () => {
  assert.equal(
    termOfTree(treeByTable("[a];")),
    'tree.program (nothing_of 4) no_trees absent no_trees (more (tree.expression_statement (nothing_of 0) ' +
      '(tree.array (nothing_of 0) (more (tree.identifier_reference (unnumbered (codes "a"))) no_trees))) no_trees)',
  );
});
