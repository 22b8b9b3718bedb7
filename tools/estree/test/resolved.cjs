// Reads a JSON list of modules and writes, for each, its references by eslint-scope: where each starts, and where the names that
// bind it start. acorn and eslint-scope are found from the folder that this runs in, or by NODE_PATH.
const { readFileSync } = require("node:fs");
const { createRequire } = require("node:module");

const load = createRequire(`${process.cwd()}/`);
const { parse } = load("acorn");
const { analyze } = load("eslint-scope");

function resolved(text) {
  const tree = parse(text, { ecmaVersion: 2022, sourceType: "module", allowHashBang: true, ranges: true });
  const { scopes } = analyze(tree, { ecmaVersion: 2022, sourceType: "module", ignoreEval: true });
  const startsOf = (variable) => variable.identifiers.map(({ start }) => start);
  const bindings = new Set(scopes.flatMap(({ variables }) => variables.flatMap(startsOf)));
  const references = scopes.flatMap((scope) => scope.references).filter(({ identifier }) => !bindings.has(identifier.start));
  return references.map((reference) => [reference.identifier.start, reference.resolved ? startsOf(reference.resolved) : []]);
}

process.stdout.write(JSON.stringify(JSON.parse(readFileSync(0, "utf8")).map(resolved)));
