// Reads the clauses of a definition, the reader of tokens in crates/jsgen_one_reading/specs, and runs them.
//
// A file is read line by line: blocks `pub data ..` name constructors, lines `abbrev pub name : type` name functions, and clauses
// `name pattern .. = expression` follow these; lines that are indented go on. What is defined elsewhere stands in PRIMITIVES.
import { readFileSync } from "node:fs";
import { join } from "node:path";
import { fileURLToPath } from "node:url";
import { expressionOf, patternsOf, words } from "./notation.mjs";
import { FIELDS, PRIMITIVES, fieldOf } from "./primitives.mjs";
import { call, functionOf, isTrue, shown, truth, value } from "./values.mjs";

const SPECS = fileURLToPath(new URL("../../crates/jsgen_one_reading/specs", import.meta.url));

/** The folder of the reader's clauses, which the variable READER may name. */
export const folderOfReader = () => process.env.READER ?? SPECS;

// Constructors of what is imported as a whole; those of operators, kinds and trees have a dot in their names.
const CONSTRUCTORS = `true false None Some no_trees more hole absent given done piece group Word Number Quoted Sign Round Square Brace
  Init Get Set Const Let Var Or And Coalesce ∷ []`.split(/\s+/);

/** The definitions of the file Reader.antt in a folder, and of the files beside it that it uses. */
export function readerIn(folder = folderOfReader()) {
  return new Definitions(filesFrom(folder, "Reader", new Set()));
}

/** The definitions of functions in a file, by their names, without those of others that they use. */
export function functionsIn(file, names) {
  const blocks = readFileSync(file, "utf8").split(/\n\s*\n/);
  const lines = names.flatMap((name) => {
    const block = blocks.find((text) => text.split("\n").some((line) => line.startsWith(`abbrev pub ${name} :`)));
    if (block === undefined) throw new Error(`${file} doesn't define ${name}`);
    return [...block.split("\n"), ""];
  });
  return new Definitions([lines], {});
}

// The lines of a file and of those that it uses, which come first.
function filesFrom(folder, name, seen) {
  if (seen.has(name)) return [];
  seen.add(name);
  const lines = readFileSync(join(folder, `${name}.antt`), "utf8").split("\n");
  const used = lines.flatMap((line) => /^use Rattle\.jsgen_one_reading\.specs\.(\w+)/.exec(line)?.[1] ?? []);
  return [...used.flatMap((other) => filesFrom(folder, other, seen)), lines];
}

/** The definitions of files, each given by its lines, behind those that it uses. */
export class Definitions {
  // the constructors of all files so far, and those that the file imports or has: elsewhere the same name may be a variable
  #constructors = new Set();
  #inScope;
  #clauses = new Map();
  #globals = new Map();

  constructor(files, primitives = PRIMITIVES) {
    for (const lines of files) {
      this.#inScope = new Set(CONSTRUCTORS);
      for (const text of this.#collect(lines)) this.#addClause(text);
    }
    for (const [name, clauses] of this.#clauses) this.#define(name, clauses);
    for (const [name, [arity, run]] of Object.entries(primitives)) this.#globals.set(name, arity > 0 ? { function: functionOf(arity, run) } : { constant: run });
  }

  /** The value of a function at arguments. */
  call(name, ...args) {
    return call(this.#global(name), args);
  }

  // Names of constructors and functions are noted; the texts of clauses are given back.
  #collect(lines) {
    const texts = [];
    let inData = false;
    let current = null;
    for (const line of lines) {
      if (line.trim() === "") [inData, current] = [false, null];
      else if (/^\s*--/.test(line)) current = null;
      else if (/^use /.test(line)) this.#noteImport(line);
      else if (/^pub data/.test(line)) inData = true;
      else if (inData) this.#noteConstructors(line);
      else if (/^(abbrev|unfoldable|pub) /.test(line)) this.#noteFunction(line);
      else if (!/^\s/.test(line)) current = texts.push(line) - 1;
      else if (current !== null) texts[current] += ` ${line.trim()}`;
      else throw new Error(`nothing goes on: ${line}`);
    }
    return texts;
  }

  // Punctuators, what begins with a capital letter, as levels do, and constructors of the files before.
  #noteImport(line) {
    const [, file, names] = /^use Rattle\.([\w.]+)\.\{(.*)\}/.exec(line) ?? [];
    const isSigns = file === "jsgen_model.specs.Punctuator";
    const isBefore = file?.startsWith("jsgen_one_reading.specs.");
    for (const name of names?.split(", ") ?? []) {
      if (isSigns || /^[A-Z]/.test(name) || (isBefore && this.#constructors.has(name))) this.#inScope.add(name);
    }
  }

  #noteConstructors(line) {
    for (const name of /^\s+([^:]+) :/.exec(line)?.[1].trim().split(/\s+/) ?? []) {
      this.#constructors.add(name);
      this.#inScope.add(name);
    }
  }

  #noteFunction(line) {
    const name = /(\w+) : /.exec(line)[1];
    this.#clauses.set(name, []);
  }

  #addClause(text) {
    const tokens = words(text);
    const at = equalsIn(tokens);
    const name = tokens[0];
    if (at < 0 || !this.#clauses.has(name)) throw new Error(`no clause: ${text}`);
    const patterns = patternsOf(tokens.slice(1, at), (token) => this.#inScope.has(token) || token.includes("."));
    this.#clauses.get(name).push({ patterns, body: expressionOf(tokens.slice(at + 1)) });
  }

  #define(name, clauses) {
    if (clauses.length === 0) return;
    const compiled = clauses.map(({ patterns, body }) => {
      const scope = [];
      const matches = patterns.map((pattern) => this.#matcher(pattern, scope));
      return { first: patterns[0]?.form, matches, body: this.#compiled(body, scope) };
    });
    const arity = clauses[0].patterns.length;
    const clausesFor = remembered((name) => compiled.filter(({ first }) => first === undefined || first === name));
    const run = (...args) => {
      for (const { matches, body } of clausesFor(args[0]?.name)) {
        const found = [];
        if (areMatched(matches, args, found)) return body(found);
      }
      throw new Error(`no clause of ${name} for ${args.map(shown).join(", ")}`);
    };
    this.#globals.set(name, arity > 0 ? { function: functionOf(arity, run) } : { constant: run });
  }

  // Whether a value has the form of a pattern, whose variables are added to the scope: a value stands in the place of its name.
  #matcher(pattern, scope) {
    if (pattern.variable !== undefined) {
      const slot = scope.push(pattern.variable) - 1;
      return (given, found) => {
        found[slot] = given;
        return true;
      };
    }
    if (pattern.number !== undefined) return (given) => given === pattern.number;
    const parts = pattern.parts.map((part) => this.#matcher(part, scope));
    const hasForm = (given) => given.name === pattern.form && given.parts.length === parts.length;
    return (given, found) => hasForm(given) && areMatched(parts, given.parts, found);
  }

  #compiled(expression, scope) {
    const compiled = (inner) => this.#compiled(inner, scope);
    if (expression.number !== undefined) return () => expression.number;
    if (expression.text !== undefined) return () => expression.text;
    if (expression.name !== undefined) return this.#compiledName(expression.name, scope);
    if (expression.test) {
      const [test, yes, no] = [expression.test, expression.yes, expression.no].map(compiled);
      return (found) => (isTrue(test(found)) ? yes(found) : no(found));
    }
    if (expression.operator) {
      const [left, right] = [compiled(expression.left), compiled(expression.right)];
      const settles = expression.operator === "||";
      return (found) => (isTrue(left(found)) === settles ? truth(settles) : right(found));
    }
    if (expression.bound) return this.#compiledAbstraction(expression, scope);
    const [applied, ...to] = [expression.applied, ...expression.to].map(compiled);
    return (found) => call(applied(found), to.map((argument) => argument(found)));
  }

  #compiledName(name, scope) {
    const slot = scope.lastIndexOf(name);
    if (slot >= 0) return (found) => found[slot];
    const [record, field] = name.split(".");
    const held = scope.lastIndexOf(record);
    if (held >= 0 && FIELDS.includes(field)) return (found) => fieldOf(found[held], field);
    let known;
    return () => (known ??= this.#global(name));
  }

  #compiledAbstraction({ bound, body }, scope) {
    const run = this.#compiled(body, [...scope, ...bound]);
    return (found) => functionOf(bound.length, (...args) => run([...found.slice(0, scope.length), ...args]));
  }

  #global(name) {
    const found = this.#globals.get(name);
    if (!found) return value(name);
    if (found.constant) return found.constant();
    return found.function;
  }
}

function areMatched(matches, values, found) {
  for (let at = 0; at < matches.length; at++) if (!matches[at](values[at], found)) return false;
  return true;
}

// A function that is asked once for each argument.
function remembered(ask) {
  const known = new Map();
  return (given) => {
    if (!known.has(given)) known.set(given, ask(given));
    return known.get(given);
  };
}

// Where the `=` of a clause stands, outside of parentheses.
function equalsIn(tokens) {
  let depth = 0;
  return tokens.findIndex((token) => {
    if (token === "(") depth++;
    if (token === ")") depth--;
    return token === "=" && depth === 0;
  });
}
