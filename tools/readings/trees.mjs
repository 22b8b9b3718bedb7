// Trees of the grammar, each of which exists once: two are the same tree where they are the same object.
import { expressionOf, words } from "./notation.mjs";

const known = new Map();

/** The tree with a constructor of the notation and its parts; `text_of` is a name for one. */
export function tree(name, ...parts) {
  if (name === "text_of") return tree("tree.string_literal", tree("bare", tree("∷", tree("units", ...parts), tree("[]"))));
  let key = name;
  for (const part of parts) key += ` ${part.number}`;
  let found = known.get(key);
  if (!found) {
    found = { number: known.size, name, parts };
    known.set(key, found);
  }
  return found;
}

/** A text in a tree: a name, a number or the value of a string. */
export const textTree = (text) => tree(`"${text}"`);

/** Two trees where a family reads two, as of directives and statements. */
export const pair = (first, second) => tree(",", first, second);

/** The tree that a value of the interpreter is. */
export const treeOf = (value) => (typeof value === "number" ? tree(String(value)) : tree(value.name, ...value.parts.map(treeOf)));

/** A tree as it is written. */
export const written = ({ name, parts }) => (parts.length > 0 ? `(${[name, ...parts.map(written)].join(" ")})` : name);

/** What makes a tree from what the labels of a text stand for; of two texts it makes a pair. `labels` are those that may occur. */
export function maker(text, labels) {
  if (Array.isArray(text)) return makerOfPair(...text.map((part) => maker(part, labels)));
  return made(expressionOf(words(text)), labels);
}

const makerOfPair = (first, second) => (found) => pair(first(found), second(found));

function made(expression, labels) {
  const { name, number, applied, to } = expression;
  if (number !== undefined) return constantly(tree(String(number)));
  if (name !== undefined) return labels.has(name) ? (found) => found[name].tree : constantly(tree(name));
  const parts = to.map((part) => made(part, labels));
  if (parts.every((part) => part.constant)) return constantly(tree(applied.name, ...parts.map((part) => part.constant)));
  return (found) => tree(applied.name, ...parts.map((part) => part(found)));
}

const constantly = (constant) => Object.assign(() => constant, { constant });
