// A node of Babel's own kind as ESTree has it. What stands in it stays Babel's, and nothing of the tree is changed or copied: where both
// kinds have the same members the node itself is read, and where they differ a view of this one node stands for it.
import { literalOf } from "./literals.mjs";
import { endOf, startOf } from "./refusals.mjs";

const OF = Symbol("the node that a view is of");
const LITERALS = new Set(["StringLiteral", "NumericLiteral", "BooleanLiteral", "NullLiteral", "BigIntLiteral", "RegExpLiteral"]);
// What may stand between the end of a method's key and its parameters, where a key in brackets may be in parentheses too.
const BEFORE_PARAMETERS = /(?:[\s)\]]|\/\*[^]*?\*\/|\/\/.*)*\(/y;
const PARENTHESIS = "(";

/** The node of the tree that a view is of, and any other node itself. */
export function nodeOf(node) {
  return node?.[OF] ?? node;
}

// ---- names and literals, of both kinds

/** Whether a node is a literal. */
export function isLiteral({ type }) {
  return type === "Literal" || LITERALS.has(type);
}

/** Whether a node is a private name. */
export function isPrivateName({ type }) {
  return type === "PrivateIdentifier" || type === "PrivateName";
}

/** The private name without its sign. */
export function privateNameIn(node) {
  return node.type === "PrivateName" ? node.id.name : node.name;
}

/** What a literal of Babel's says, as `literalOf` has it. */
export function literalOfBabel({ type, value, pattern, flags, extra }) {
  switch (type) {
    case "NumericLiteral":
      return numberOf(value, extra);
    case "BigIntLiteral":
      return bigIntOf(value);
    case "RegExpLiteral":
      return { type, pattern, flags };
    default:
      return { type, value };
  }
}

// The text of the source counts where that has the node's value, which may have been changed since.
function numberOf(value, extra) {
  if (typeof value !== "number" || Number.isNaN(value)) return { fault: `the value ${String(value)} of NumericLiteral` };
  return literalOf({ value, raw: Object.is(extra?.rawValue, value) ? extra.raw : undefined });
}

function bigIntOf(value) {
  const literal = /^(string|bigint)$/.test(typeof value) ? literalOf({ bigint: String(value) }) : { fault: "" };
  return literal.fault === undefined ? literal : { fault: "a BigIntLiteral whose value is no whole number" };
}

// ---- chains

/** Whether a program is one of Babel's own, which has its directives apart. */
export function isOfBabel(program) {
  return Array.isArray(program?.directives);
}

/** Whether a member or a call is a link by `?.`. Of a type that is none, Babel's transformations leave the member as it was. */
export function isOptional(node, isBabels) {
  return isBabels && !isLink(node) ? false : node.optional;
}

/** Whether a node is a link of a chain. */
export function isLink({ type }) {
  return type === "OptionalMemberExpression" || type === "OptionalCallExpression";
}

/**
 * The link before a link of the same chain, or null. Before a link that isn't `?.` itself parentheses would end the chain, and Babel has
 * a link of the other types there; before one that is they stand as they are written.
 */
export function linkBefore(node) {
  const before = node.type === "OptionalCallExpression" ? node.callee : node.object;
  const isEnd = !isLink(before) || (node.optional && before.extra?.parenthesized);
  return isEnd ? null : before;
}

/** Whether a link of the chain is `?.`, up to this one. */
export function hasOptionalLink(node) {
  for (let at = node; at !== null; at = linkBefore(at)) if (at.optional) return true;
  return false;
}

// ---- views

/** A call of `import` as an ImportExpression. */
export function importView(node) {
  const [source, options = null] = node.arguments;
  return { type: "ImportExpression", [OF]: node, start: startOf(node), end: endOf(node), source, options };
}

/** A Directive as the statement that ESTree has; its literal holds the text as it is written. */
export function directiveView(node, value) {
  const directive = node.value.value;
  return { type: "ExpressionStatement", [OF]: node, start: startOf(node), end: endOf(node), directive, expression: { type: "Literal", value } };
}

/** An ObjectProperty, or an ObjectMethod with the function that it is, as a Property. */
export function propertyView(node, source) {
  const isMethod = node.type === "ObjectMethod";
  const { key, shorthand, computed } = node;
  return {
    type: "Property", [OF]: node, start: startOf(node), end: endOf(node),
    kind: isMethod && node.kind !== "method" ? node.kind : "init",
    key,
    value: isMethod ? functionView(node, source) : node.value,
    method: isMethod ? node.kind === "method" || node.method : node.method,
    shorthand,
    computed,
  };
}

/** A method of a class as a MethodDefinition. */
export function methodView(node, source) {
  const { kind, key, computed, static: isStatic } = node;
  return {
    type: "MethodDefinition", [OF]: node, start: startOf(node), end: endOf(node),
    kind, key, value: functionView(node, source), computed, static: isStatic,
  };
}

/** A field of a class as a PropertyDefinition. */
export function fieldView(node) {
  const { key, value, computed, static: isStatic } = node;
  return { type: "PropertyDefinition", [OF]: node, start: startOf(node), end: endOf(node), key, value, computed, static: isStatic };
}

/** `export * as a from "b"`, of which Babel says what other exports say. */
export function exportAllView(node) {
  const { specifiers, source, attributes, assertions, exportKind, extra } = node;
  return {
    type: "ExportAllDeclaration", [OF]: node, start: startOf(node), end: endOf(node),
    exported: specifiers[0].exported, source, attributes, assertions, exportKind, extra,
  };
}

// The function that a method is: from its parameters on.
function functionView(node, source) {
  const { params, body, async, generator } = node;
  const start = startOfParameters(node, source);
  return {
    type: "FunctionExpression", [OF]: node, start, end: start === undefined ? undefined : endOf(node),
    id: null, params, body, async, generator,
  };
}

// Where the parameters of a method begin, which Babel doesn't note.
function startOfParameters({ key, body }, source) {
  const end = endOf(key);
  if (source === undefined || end === undefined) return undefined;
  const start = source[end] === PARENTHESIS ? end : parenthesisBehind(end, source);
  return start < startOf(body) ? start : undefined;
}

function parenthesisBehind(end, source) {
  BEFORE_PARAMETERS.lastIndex = end;
  return BEFORE_PARAMETERS.test(source) ? BEFORE_PARAMETERS.lastIndex - 1 : Infinity;
}
