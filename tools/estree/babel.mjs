// Babel's parser (Debian's node-babel7), for tests: its own trees, and those of its plugin `estree`; and nodes as its tools make them.
import Module from "node:module";
import { delimiter } from "node:path";
import { packageOrNull } from "../../bindings/node/lib/packages.mjs";

const DEBIAN = "/usr/share/nodejs";
const ESTREE = ["estree", { classFeatures: true }];

// Debian's packages look for each other in their folder, which only Debian's own node knows.
process.env.NODE_PATH = [process.env.NODE_PATH, DEBIAN].filter(Boolean).join(delimiter);
Module._initPaths();

const babel = packageOrNull("@babel/parser");

/** Why tests that take Babel's parser are skipped, or false. */
export const isMissing = !babel && "@babel/parser isn't there";

/** Babel's own tree of a module. */
export function babelTree(source, { plugins = [], ...options } = {}) {
  return babel.parse(source, { sourceType: "module", plugins, ...options });
}

/** The ESTree tree of the same module, by Babel's parser. */
export function estreeTree(source, { plugins = [], ...options } = {}) {
  return babel.parse(source, { sourceType: "module", plugins: [ESTREE, ...plugins], ...options });
}

/** A name. */
export function nameOf(name) {
  return { type: "Identifier", name };
}

/** A string as Babel has it. */
export function stringOf(value) {
  return { type: "StringLiteral", value };
}

/** A program as Babel has it. */
export function programOf(body, directives = []) {
  return { type: "Program", body, directives, sourceType: "module", interpreter: null };
}

/** The program of one expression. */
export function moduleOf(expression) {
  return programOf([{ type: "ExpressionStatement", expression }]);
}

/** A declaration of one name. */
export function declarationOf(name, init) {
  return { type: "VariableDeclaration", kind: "let", declarations: [{ type: "VariableDeclarator", id: nameOf(name), init }] };
}

/** The nodes in a value, but for comments. */
export function* nodesIn(value) {
  if (Array.isArray(value)) for (const inside of value) yield* nodesIn(inside);
  else if (typeof value?.type === "string") {
    yield value;
    for (const name of Object.keys(value).filter((key) => !/Comments$/.test(key))) yield* nodesIn(value[name]);
  }
}
