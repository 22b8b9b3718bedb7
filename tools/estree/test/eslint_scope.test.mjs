// Each reference has the binding that eslint-scope finds: in lodash-es (Debian's node-lodash), the modules of d3 (node-d3), and
// programs that are made up. Where eslint-scope or a library isn't there, its test is skipped.
import assert from "node:assert/strict";
import { spawnSync } from "node:child_process";
import { existsSync, readFileSync, readdirSync } from "node:fs";
import { delimiter, join } from "node:path";
import { test } from "node:test";
import { fileURLToPath } from "node:url";
import { renaming } from "../../../bindings/node/lib/scopes.mjs";
import { parsed } from "../parser.mjs";
import { filesBelow, isModule } from "../programs.mjs";
import { randomProgram } from "../random.mjs";

const DEBIAN = "/usr/share/nodejs";
const LODASH = join(DEBIAN, "lodash-es");
const NODE_PATH = [process.env.NODE_PATH, DEBIAN].filter((path) => path).join(delimiter);
const withoutEslintScope = resolved([]).status !== 0 && "acorn or eslint-scope isn't installed";

// What resolved.cjs says of texts.
function resolved(texts) {
  const file = fileURLToPath(new URL("resolved.cjs", import.meta.url));
  return spawnSync(process.execPath, [file], { input: JSON.stringify(texts), env: { ...process.env, NODE_PATH }, maxBuffer: 2 ** 28 });
}

// Where each reference starts, in order, and where the names that bind it start.
function ownBindings(text) {
  const { symbols, references, symbolOf, referenceOf } = renaming(parsed(text));
  const starts = symbols.map(() => []);
  for (const [node, symbol] of symbolOf) starts[symbol].push(node.start);
  return sorted([...referenceOf].map(([node, reference]) => [node.start, starts[references[reference]] ?? []]));
}

// In order, each once.
function sorted(references) {
  const once = [...new Map(references.map(([start, starts]) => [start, [...new Set(starts)].sort((one, other) => one - other)]))];
  return once.sort(([one], [other]) => one - other);
}

// How many references are the same.
function compared(texts) {
  const { status, stdout, stderr } = resolved(texts);
  assert.equal(status, 0, stderr.toString());
  const found = JSON.parse(stdout);
  for (const [at, text] of texts.entries()) assert.deepEqual(ownBindings(text), sorted(found[at]), text.slice(0, 200));
  return found.flat().length;
}

function modulesBelow(folders) {
  return folders.flatMap((folder) => [...filesBelow(folder)]).map((file) => readFileSync(file, "utf8")).filter(isModule);
}

test("references of lodash-es", { skip: withoutEslintScope || (!existsSync(LODASH) && `${LODASH} isn't there`) }, () => {
  assert.ok(compared(modulesBelow([LODASH])) > 5000);
});

const sources = existsSync(DEBIAN) ? readdirSync(DEBIAN).filter((name) => name.startsWith("d3-")).map((name) => join(DEBIAN, name, "src")) : [];
const modules = sources.filter(existsSync);

test("references of d3", { skip: withoutEslintScope || (modules.length === 0 && "d3 isn't there") }, () => {
  assert.ok(compared(modulesBelow(modules)) > 5000);
});

test("references of programs that are made up", { skip: withoutEslintScope }, () => {
  // eslint-scope 7 takes the own name of a class in what it extends for one outside, which none of these has.
  assert.ok(compared(Array.from({ length: 100 }, (_, at) => randomProgram(at + 1))) > 2000);
});
