// The normal form of an ESTree tree: what two texts of one meaning have in common. It is written apart from the definitions
// that jsgen is proved against (crates/jsgen_model/specs/Normal.antt), to compare with them.
import { withoutParentheses } from "../../bindings/node/lib/texts.mjs";

const LEFT_OUT = new Set(["type", "start", "end", "loc", "range", "raw", "extra", "sourceType", "comments", "tokens", "directive", "shorthand", "parent"]);

// Where the node of a form begins in its text.
const starts = new WeakMap();

/** The normal form: nested lists of texts, numbers and null. */
export function normal(node) {
  if (Array.isArray(node)) return node.map(normal);
  if (node === null || typeof node !== "object") return node ?? null;
  return placed(formOf(node), node);
}

function placed(form, node) {
  if (!starts.has(form)) starts.set(form, node.start ?? null);
  return form;
}

function formOf(node) {
  switch (node.type) {
    case "ParenthesizedExpression":
      return normal(node.expression);
    case "Literal":
      return literal(node);
    case "TemplateLiteral":
      return node.expressions.length === 0 ? ["string", node.quasis[0].value.cooked] : members(node);
    case "TaggedTemplateExpression":
      return ["tagged", normal(node.tag), node.quasi.quasis.map(rawText), normal(node.quasi.expressions)];
    case "LogicalExpression":
      return ["logical", node.operator, operands(node, (inside) => inside.type === node.type && inside.operator === node.operator)];
    case "SequenceExpression":
      return ["sequence", operands(node, (inside) => inside.type === node.type)];
    case "Property":
      return [...members(node), isProtoShorthand(node)];
    case "ObjectPattern":
      return [node.type, node.properties.map((part) => (part.type === "Property" ? placed(members(part), part) : normal(part)))];
    case "ArrowFunctionExpression":
      return ["arrow", node.async, normal(node.params), normal(node.body)];
    case "IfStatement":
      return ["if", normal(node.test), normal(unbraced(node.consequent)), normal(node.alternate)];
    case "ImportSpecifier":
      return ["imported", textOf(node.imported), normal(node.local)];
    case "ExportSpecifier":
      return ["exported", textOf(node.local), textOf(node.exported)];
    case "ExportAllDeclaration":
      return ["exported from", node.exported ? textOf(node.exported) : null, normal(node.source), normal(node.attributes ?? [])];
    case "ImportAttribute":
      return ["attribute", textOf(node.key), normal(node.value)];
    case "ExpressionStatement":
      return node.directive === undefined ? members(node) : ["directive", withoutParentheses(node.expression).value];
    default:
      return members(node);
  }
}

// What a tag sees of a piece, but that `</script` is printed with a backslash there too (docs/LAYOUT.md).
function rawText(piece) {
  return piece.value.raw.replace(/<\\\/(?=script)/gi, "</");
}

// A name of an import, an export or an attribute, be it written as a name or as a string.
function textOf(node) {
  return node.name ?? node.value;
}

// A node by its type and what its fields hold, by their names.
function members(node) {
  const names = Object.keys(node).filter((name) => !LEFT_OUT.has(name)).sort();
  return [node.type, ...names.map((name) => [name, normal(node[name])])];
}

function literal(node) {
  if (node.regex) return ["regular expression", inAscii(node.regex.pattern), node.regex.flags];
  if (node.bigint !== undefined) return ["big integer", BigInt(node.bigint).toString()];
  if (typeof node.value === "number") return ["number", numberOf(node.raw)];
  return [typeof node.value === "string" ? "string" : "literal", node.value];
}

// A pattern as it is printed in ASCII: each unit past it as an escape, in place of a backslash that escaped the character.
function inAscii(pattern) {
  let text = "";
  let escaped = false;
  for (let at = 0; at < pattern.length; at++) {
    const unit = pattern.charCodeAt(at);
    if (unit > 0x7f && escaped) text = text.slice(0, -1);
    text += unit > 0x7f ? `\\u${unit.toString(16).toUpperCase().padStart(4, "0")}` : pattern[at];
    escaped = pattern[at] === "\\" && !escaped;
  }
  return text;
}

// A number by its text: a job's has no dot at its front or its end.
function numberOf(raw) {
  return raw.replace(/^\./, "0.").replace(/\.$/, "");
}

// The operands of a chain of one operator, or the parts of a sequence, however they were grouped.
function operands(node, isSame) {
  const inside = withoutParentheses(node);
  if (!isSame(inside)) return [normal(inside)];
  return (inside.expressions ?? [inside.left, inside.right]).flatMap((operand) => operands(operand, isSame));
}

// In an object that is no pattern, `{ __proto__ }` is another property than `{ __proto__: __proto__ }`; of other names both are one.
function isProtoShorthand(node) {
  return node.shorthand && node.key.name === "__proto__";
}

/** What stands in braces round one statement that ends in an `if` without `else`, as a consequent. */
export function unbraced(node) {
  const isOne = node.type === "BlockStatement" && node.body.length === 1 && endsOpen(node.body[0]);
  return isOne ? unbraced(node.body[0]) : node;
}

function endsOpen(node) {
  switch (node.type) {
    case "IfStatement":
      return node.alternate ? endsOpen(node.alternate) : true;
    case "ForStatement":
    case "ForInStatement":
    case "ForOfStatement":
    case "WhileStatement":
    case "LabeledStatement":
      return endsOpen(node.body);
    default:
      return false;
  }
}

/**
 * The first difference of two normal forms, or null: `what` says where it is in the forms, and `at` are the offsets in the two
 * texts at which the innermost nodes round it begin.
 */
export function firstDifference(one, other, path = "", at = [0, 0]) {
  const inside = [starts.get(one) ?? at[0], starts.get(other) ?? at[1]];
  const found = { what: `${path}: ${shown(one)} and ${shown(other)}`, at: inside };
  if (!Array.isArray(one) || !Array.isArray(other)) return one === other ? null : found;
  for (let part = 0; part < Math.min(one.length, other.length); part++) {
    const name = typeof one[part]?.[0] === "string" ? one[part][0] : part;
    const deeper = firstDifference(one[part], other[part], `${path}/${name}`, inside);
    if (deeper) return deeper;
  }
  return one.length === other.length ? null : found;
}

/** The same as a text that says where it is in the forms, or null. */
export function difference(one, other) {
  return firstDifference(one, other)?.what ?? null;
}

function shown(form) {
  const text = JSON.stringify(form) ?? "nothing";
  return text.length > 120 ? `${text.slice(0, 120)}..` : text;
}
