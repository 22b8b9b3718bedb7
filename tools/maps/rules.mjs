// What is wrong with a map, by the rules of README.md.
import { parsed } from "../estree/parser.mjs";
import { Lines, countUpTo, readMap } from "./lines.mjs";
import { Unlike, pairsOf } from "./pairs.mjs";

/** What is wrong: texts that begin with the rule that is broken, in the order of the rules. A rule is looked at where those before it hold. */
export function faultsOf(source, printed, map) {
  const { tokens, faults } = readMap(map);
  if (faults.length > 0) return faults.map((fault) => `form: ${fault}`);
  const [from, to] = [new Lines(printed), new Lines(source)];
  const apart = [...faultsOfOrder(tokens), ...faultsOfRanges(tokens, from, to)];
  return apart.length > 0 ? apart : faultsOfNames(tokens, from, to);
}

// Printed places never fall, and neighbours have other places in the source.
function faultsOfOrder(tokens) {
  const faults = [];
  for (const [at, { said, line, column, sourceLine, sourceColumn }] of tokens.entries()) {
    const before = tokens[at - 1];
    if (!before) continue;
    if (line < before.line || (line === before.line && column < before.column)) faults.push(`order: ${said} stands behind ${before.said}`);
    if (sourceLine === before.sourceLine && sourceColumn === before.sourceColumn) faults.push(`order: ${said} has the place in the source of ${before.said} before it`);
  }
  return faults;
}

// Each place is one of its text. The tokens get their offsets.
function faultsOfRanges(tokens, printed, source) {
  const faults = [];
  for (const token of tokens) {
    token.at = printed.offset(token.line, token.column);
    token.sourceAt = source.offset(token.sourceLine, token.sourceColumn);
    if (token.at === null) faults.push(`range: ${token.said}: no place of the printed text`);
    if (token.sourceAt === null) faults.push(`range: ${token.said}: no place of the source`);
  }
  return faults;
}

// Each printed name has a token, or stands behind one of its place in the source, which leads there; and the token has the source's text
// as its name where that is another than what is printed.
function faultsOfNames(tokens, printed, source) {
  const tree = parsed(source.text);
  const marked = markedBefore(tree);
  const faults = [];
  const offsets = tokens.map(({ at }) => at);
  const named = new Set(tokens.filter(({ name }) => name !== null));
  for (const pair of pairsIn(tree, printed, faults).filter(({ isUnmarked }) => !isUnmarked)) {
    const { start, end } = pair.source;
    const own = source.text.slice(start, end);
    const text = textOf(pair.printed);
    const token = tokens[countUpTo(offsets, pair.printed.start) - 1];
    const told = `${text} at ${printed.told(pair.printed.start)}, which is ${own} at ${source.told(start)} of the source: the token is ${token?.said ?? "none"}`;
    const isThere = token?.at === pair.printed.start;
    const isBehindMark = pair.isSecond || marked.always.has(start);
    if (token?.sourceAt !== start || !(isThere || isBehindMark)) {
      faults.push(`place: ${told}`);
      continue;
    }
    if (isThere) named.delete(token);
    const name = isThere ? token.name : null;
    const mayLack = isBehindMark || (marked.behindSpace.has(start) && isBehindSpace(printed.text, pair.printed));
    if (name !== (own === text ? null : own) && !(name === null && mayLack)) faults.push(`name: ${told}, of the name ${JSON.stringify(name)}`);
  }
  for (const { said } of named) faults.push(`name: ${said}: no name is printed there`);
  return faults;
}

function pairsIn(tree, printed, faults) {
  try {
    return pairsOf(tree, parsed(printed.text));
  } catch (error) {
    if (!(error instanceof Unlike)) throw error;
    faults.push(`shape: ${error.message}`);
    return [];
  }
}

// A name as it is printed, whatever escapes it is written with.
function textOf(node) {
  return node.type === "PrivateIdentifier" ? `#${node.name}` : node.name;
}

// Where nodes begin that have a mark of their own before what they begin with, so that a name there has none: some always, and
// statements that are expressions where they stand behind indentation or a space.
function markedBefore(tree) {
  const marked = { always: new Set(), behindSpace: new Set() };
  const visit = (node) => {
    if (isMarked(node)) marked.always.add(node.start);
    if (node.type === "ExpressionStatement") marked.behindSpace.add(node.start);
    for (const param of node.params ?? []) marked.always.add(param.start);
    for (const child of Object.values(node).flat()) if (typeof child?.type === "string") visit(child);
  };
  visit(tree);
  return marked;
}

function isMarked({ type, value, left }) {
  switch (type) {
    case "AssignmentExpression":
    case "LabeledStatement":
    case "MethodDefinition":
    case "PropertyDefinition":
    case "TaggedTemplateExpression":
    case "UpdateExpression":
      return true;
    case "BinaryExpression":
      return left.type === "PrivateIdentifier";
    case "Property":
      return value.type === "FunctionExpression";
    default:
      return false;
  }
}

function isBehindSpace(text, { start }) {
  return /^[\t ]$/.test(text[start - 1] ?? "");
}
