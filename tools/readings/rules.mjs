// The productions of the table for an alphabet and a context: what they are made of, ready to be enumerated.
import { flagsOf } from "./productions/rows.mjs";
import {
  BRACKETS, LINE_END, characterOf, cookedOf, isBigInteger, isFreeName, isNumber, isString, isTemplate, isWord, nameOf, specialOf,
} from "./tokens.mjs";
import { maker, pair, textTree, tree } from "./trees.mjs";

// A class of tokens with what a token of it stands for in a tree, which is a text.
const byText = (has, textOf) => ({ has, treeOf: (text) => textTree(textOf(text)) });

const isSpecial = (name) => (text) => specialOf(text)?.name === name;
const partOfSpecial = (text) => specialOf(text).parts[0];

// A piece of a template, by its raw text, or by what that stands for.
const rawPiece = (name) => ({ has: isSpecial(name), treeOf: (text) => tree("raw_piece", textTree(partOfSpecial(text))) });
const cookedPiece = (name) => ({
  has: (text) => isSpecial(name)(text) && cookedOf(partOfSpecial(text)) !== undefined,
  treeOf: (text) => tree("cooked_piece", textTree(cookedOf(partOfSpecial(text)))),
});

// The classes of tokens: a word's text, a string's value, a number's digits. A regular expression stands for two texts.
const CLASSES = {
  name: byText(isWord, nameOf),
  free: byText((text) => isWord(text) && isFreeName(nameOf(text)), nameOf),
  number: byText(isNumber, (text) => text),
  big: byText(isBigInteger, (text) => text.slice(0, -1)),
  string: byText(isString, (text) => text.slice(1, -1)),
  quoted: byText((text) => isString(text) || isTemplate(text), (text) => (isTemplate(text) ? cookedOf(text.slice(1, -1)) : text.slice(1, -1))),
  template: byText(isTemplate, (text) => text.slice(1, -1)),
  private: byText(isSpecial("Private"), (text) => nameOf(partOfSpecial(text))),
  pattern: { has: isSpecial("Pattern"), treeOf: (text) => pair(...specialOf(text).parts.map(textTree)) },
  whole: byText(isSpecial("Whole"), partOfSpecial),
  head: byText(isSpecial("Head"), partOfSpecial),
  cooked_head: cookedPiece("Head"), cooked_middle: cookedPiece("Middle"), cooked_tail: cookedPiece("Tail"),
  raw_middle: rawPiece("Middle"), raw_tail: rawPiece("Tail"),
};

// The grammar has brackets as groups, which tell of no line end before what closes them.
const CLOSING = new Set(Object.values(BRACKETS).map(([, close]) => close));

/** What is read, by a name and the flags of its context: `Statement[+return-last]`. Flags that aren't told are off. */
export function startOf(text) {
  const { name, flags } = partOf(text);
  return { name, context: Object.fromEntries(flagsOf(name).map((flag) => [flag, flags[flag] ?? false])) };
}

// Flags of words, each named as its word.
const WORDS = ["in", "yield", "await", "return"];

/** A context as far as it makes a difference: that a word may stand, only where the alphabet has the word. */
export const narrowed = (context, { tokens }) =>
  Object.fromEntries(Object.entries(context).map(([flag, on]) => [flag, on && (tokens.includes(flag) || !WORDS.includes(flag))]));

/** A name for what is read in a context, by which it is found again. */
export const keyOf = (name, context) => name + flagsOf(name).map((flag) => (context[flag] ? "+" : "-") + flag).join("");

/** An entry { tokens, tree } is what the labels stand for in `found`: two stand for the two trees of a pair. */
export function bind(found, labels, entry) {
  if (labels.length === 1) found[labels[0]] = entry;
  else for (const [at, label] of labels.entries()) found[label] = { tokens: entry.tokens, tree: entry.tree.parts[at] };
}

// `Name<choice>[+flag-flag]`
function partOf(text) {
  const found = /^([A-Z]\w*(?:<[^>]*>)?)(?:\[([^\]]*)\])?$/.exec(text);
  if (!found) throw new Error(`no part: ${text}`);
  const flags = {};
  for (const [, sign, flag] of (found[2] ?? "").matchAll(/([+-])(\w+)/g)) flags[flag] = sign === "+";
  return { name: found[1], flags };
}

// The items of a reading, each one token, one of a class, a part or the end of a statement.
function itemOf(word) {
  if (word === "END") return { end: true };
  const isBehind = word.length > 1 && word[0] === "_";
  const bare = isBehind ? word.slice(1) : word;
  const labelled = /^([a-z][\w,]*):(\S+)$/.exec(bare);
  if (!labelled) return { token: bare, isBehind };
  const labels = labelled[1].split(",");
  const [, , named] = labelled;
  return CLASSES[named] ? { className: named, labels, isBehind } : { part: partOf(named), labels };
}

function parsed(reading) {
  const [, whole, behind] = /^(\S+) =(?: (.*))?$/.exec(reading);
  return { whole: partOf(whole), items: (behind ?? "").split(" ").filter(Boolean).map(itemOf) };
}

/** The rows of a table by what they read: each { production, row, whole, items }. */
export function rowsByName(table) {
  const found = new Map();
  for (const productions of Object.values(table)) {
    for (const [name, rows] of Object.entries(productions)) {
      for (const row of [rows].flat()) {
        const { whole, items } = parsed(row.reading);
        if (!found.has(whole.name)) found.set(whole.name, []);
        found.get(whole.name).push({ production: name, row, whole, items });
      }
    }
  }
  return found;
}

/**
 * The rules by which a row is read in a context, over an alphabet: none where the row doesn't stand there or has a token that the alphabet
 * doesn't have. Items of a rule are { choices, labels } of one token, or { key, name, context, labels } of a part.
 */
export function rulesOf({ production, row, whole, items }, context, alphabet) {
  if (Object.entries(whole.flags).some(([flag, on]) => context[flag] !== on)) return [];
  const bound = Object.fromEntries(Object.entries(row.bound ?? {}).map(([label, name]) => [label, { tree: tree(name) }]));
  const binding = row.premises.flatMap((premise) => premise.binds ?? []);
  const make = maker(row.tree, new Set([...items.flatMap((item) => item.labels ?? []), ...Object.keys(bound), ...binding]));
  return variants(items, context)
    .map((variant) => variant.map((item) => expanded(item, context, alphabet)))
    .filter((variant) => variant.every(({ choices }) => !choices || choices.length > 0))
    .map((variant) => ({ production, items: variant, make, bound, premises: row.premises, view: viewed(row, variant) }));
}

// A statement ends in a semicolon, and also without where it is last.
function variants(items, context) {
  const at = items.findIndex(({ end }) => end);
  if (at < 0) return [items];
  const ended = items.with(at, { token: ";" });
  return context.last ? [ended, items.toSpliced(at, 1)] : [ended];
}

function expanded(item, context, alphabet) {
  if (item.part) return partIn(item, context, alphabet);
  const ofClass = CLASSES[item.className];
  const tokens = alphabet.tokens.filter(ofClass ? ofClass.has : (text) => text === item.token);
  const lines = alphabet.hasLineEnds && !item.isBehind && !CLOSING.has(item.token) ? ["", LINE_END] : [""];
  const choices = tokens.flatMap((text) => lines.map((line) => ({ tokens: line + characterOf(text), tree: ofClass?.treeOf(text) })));
  return { choices, labels: item.labels ?? [] };
}

function partIn({ part: { name, flags }, labels }, context, alphabet) {
  const told = {};
  for (const flag of flagsOf(name)) {
    told[flag] = flags[flag] ?? context[flag];
    if (told[flag] === undefined) throw new Error(`${name}: nothing tells whether ${flag} holds`);
  }
  const inner = narrowed(told, alphabet);
  return { key: keyOf(name, inner), name, context: inner, labels };
}

// What is read as the one part is read, with its tree.
function viewed({ tree: text, premises }, items) {
  const [item] = items;
  return items.length === 1 && premises.length === 0 && item.key && item.labels.length === 1 && item.labels[0] === text ? item : undefined;
}
