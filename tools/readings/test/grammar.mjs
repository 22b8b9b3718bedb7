// The productions as Grammar.antt has them, with the contexts that Premises.antt defines, and what of them the table should say.
import { readFileSync } from "node:fs";
import { words } from "../notation.mjs";
import { flagsOf } from "../productions/rows.mjs";

const textOf = (name) => readFileSync(new URL(`../../../crates/jsgen_model/specs/${name}`, import.meta.url), "utf8");

/** A text in which each production stands on one line: a long one is broken before its conclusion. */
export const unbroken = (text) => text.replace(/\n +→ /g, " → ");

const TEXT = unbroken(textOf("Grammar.antt"));
const PREMISES = textOf("Premises.antt");

// A program is read as a module is: its hashbang, which this family adds, is no token.
const ABOVE_TOKENS = ["ReadsProgram"];

/** The productions of the families `Reads..`: { family, name, premises, conclusion }, the last two as texts. */
export function productionsOfGrammar() {
  const found = [];
  let family = null;
  for (const line of TEXT.split("\n")) {
    const data = /^\s*pub data (\w+) :/.exec(line);
    if (data) family = data[1];
    const [, name, type] = /^\s+(\w+) : (.*)$/.exec(line) ?? [];
    if (!name || !family?.startsWith("Reads") || ABOVE_TOKENS.includes(family)) continue;
    const parts = partsBetween(words(type), "→").filter((part) => !part.startsWith("{"));
    found.push({ family, name, premises: parts.slice(0, -1), conclusion: parts.at(-1) });
  }
  return found;
}

// The texts between a word that stands outside of brackets.
function partsBetween(tokens, word) {
  const parts = [[]];
  let depth = 0;
  for (const token of tokens) {
    if (token === "(") depth++;
    if (token === ")") depth--;
    if (token === word && depth === 0) parts.push([]);
    else parts.at(-1).push(token);
  }
  return parts.map((part) => part.join(" "));
}

/** The arguments of a family in a text, and the family first: those in parentheses without them. */
export function atomsOf(text) {
  const atoms = [];
  let depth = 0;
  for (const token of words(text)) {
    if (token === ")") depth--;
    if (depth > 0) atoms[atoms.length - 1] += ` ${token}`;
    else if (token !== ")") atoms.push(token === "(" ? "" : token);
    if (token === "(") depth++;
  }
  return atoms.map((atom) => atom.trim());
}

// The flags of contexts, by the fields that tell them.
const FIELDS = { in_operator: "in", yield_operand: "yield", await_operand: "await", return_statement: "return" };

// The definitions of contexts, by their names: their arguments, and the flags that they tell, each as an argument's name or `true` or `false`.
const CONTEXTS = new Map(
  [...PREMISES.matchAll(/^(\w+)((?: \w+)*) = record (?:\w+ )?\{ (.*) \}$/gm)].map(([, name, args, fields]) => [
    name,
    { args: args.split(" ").filter(Boolean), told: fields.split("; ").map((field) => field.split(" = ")) },
  ]),
);

// What a context like `in_arrow_body true c` tells: of `c` alone, nothing.
function flagsOfContext(text) {
  const [name, ...given] = text.split(" ");
  const { args, told } = CONTEXTS.get(name) ?? { args: [], told: [] };
  const values = new Map(args.map((arg, at) => [arg, given[at]]));
  const flags = told.flatMap(([field, value]) => {
    const said = values.get(value) ?? value;
    // a field of an argument is as it was there
    return value.includes(".") ? [] : [[FIELDS[field], said === "true" ? true : said === "false" ? false : said]];
  });
  return Object.fromEntries(flags);
}

// The arguments of a family behind its context: flags of the context, and in `<>` what is part of a name of the table.
const ARGUMENTS = {
  Function: "<kind,nameless>", FunctionAs: "<kind,nameless,async,generator>", Arrow: "<async>",
  Pieces: "<tagged>", Method: "<private,kind,computed>", MethodAs: "<private,async,generator,computed>", MemberKey: "<private,computed>",
  Key: "<computed>",
  Class: "<kind,nameless>", FieldAs: "<computed>", Exported: "<source>", AllExported: "<source>",
  Variables: "<kind>", Left: "<before_of>", Cases: "<default>", Case: "last <before,behind>",
  Statement: "last before_else", Item: "last", Statements: "last", Body: "last",
  Declared: "last", Default: "last", Export: "last", ModuleItem: "last", ModuleItems: "last", ModuleBody: "last",
};
// Families that have another name in the table, which is that of a level there.
const RENAMED = { Member: "ClassMember" };
const WITH_CONTEXT = [...TEXT.matchAll(/pub data Reads(\w+) : Allowed →/g)].map(([, name]) => name);

/**
 * What a text like `ReadsStatement c false true a s` reads, and the flags that it tells. Names that `bound` has stand for what it says. A
 * kind has no name before its dot.
 */
export function readBy(text, bound = {}) {
  const [family, ...all] = atomsOf(words(text).map((word) => bound[word] ?? word).join(" "));
  const named = family.slice("Reads".length);
  const isExpression = named === "Expression";
  const hasContext = WITH_CONTEXT.includes(named);
  const flags = hasContext ? flagsOfContext(all[0]) : {};
  const behind = all.slice(hasContext ? 1 : 0);
  if (isExpression) return { name: behind[0], flags };
  const [, listed, chosen] = /^([^<]*)(?:<(.*)>)?$/.exec(ARGUMENTS[named] ?? "");
  const own = listed.split(" ").filter(Boolean);
  for (const [at, flag] of own.entries()) if (/^(true|false)$/.test(behind[at])) flags[flag] = behind[at] === "true";
  const choices = chosen?.split(",").map((_, at) => behind[own.length + at].replace(/^\w+\./, "")) ?? [];
  return { name: (RENAMED[named] ?? named) + (chosen ? `<${choices.join(",")}>` : ""), flags };
}

/** A part with those flags that it has, as a text: `Statement-last+before_else`, `Key<true>+in`. */
export function toldPart({ name, flags }) {
  const own = flagsOf(name).filter((flag) => flags[flag] !== undefined);
  return name + own.map((flag) => (flags[flag] ? "+" : "-") + flag).join("");
}

/** The tokens in a text by their names, that of an operator, a class or the word of a declaration for one; a `_` says: on the same line. */
export function tokensIn(text) {
  const found = [];
  const add = (pattern, nameOf) => {
    for (const match of text.matchAll(pattern)) found.push((match[1] === "false" ? "_" : "") + nameOf(match));
  };
  add(/piece (\w+) \( Sign (\w+) \)/g, ([, , sign]) => sign);
  add(/piece (\w+) \( (?:Sign \( \w+ o \)|\w+_piece o) \)/g, () => "operator");
  add(/piece (\w+) \( Word \( codes "(\w+)" \) \)/g, ([, , word]) => word);
  add(/piece (\w+) \( Word \( declaring kind \) \)/g, () => "declaring");
  add(/piece (\w+) \( Word w \)/g, () => "word");
  add(/piece (\w+) \( Number w \)/g, () => "number");
  add(/piece (\w+) \( Quoted \w \w \)/g, () => "quoted");
  add(/piece (\w+) \( Quoted quotes\.Backtick w \)/g, () => "template");
  add(/piece (\w+) \( Beyond \( (\w+) w(?: flags)? \) \)/g, ([, , special]) => special);
  add(/group (\w+) (Round|Square|Brace)/g, ([, , bracket]) => bracket);
  add(/EndsBy (last)/g, () => "end");
  return found;
}
