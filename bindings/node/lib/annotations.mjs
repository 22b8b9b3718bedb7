// What an annotation before an expression or a statement speaks of.
import { withoutParentheses } from "./texts.mjs";

/** Whether a node is a function. */
export function isFunction(node) {
  return /^(Function(Declaration|Expression)|ArrowFunctionExpression)$/.test(node?.type);
}

/** The call that an expression is, or that its leftmost operand, its test or the first of a sequence is, or null. */
export function callIn(node) {
  switch (node.type) {
    case "CallExpression":
    case "NewExpression":
    case "OptionalCallExpression":
      return node;
    case "ParenthesizedExpression":
    case "ChainExpression":
      return callIn(node.expression);
    case "BinaryExpression":
    case "LogicalExpression":
      return callIn(node.left);
    case "ConditionalExpression":
      return callIn(node.test);
    case "SequenceExpression":
      return node.expressions.length > 0 ? callIn(node.expressions[0]) : null;
    default:
      return null;
  }
}

/** The function that a statement declares, exports, or gives the first of its constants, or null. */
export function functionIn(node) {
  if (!node) return null;
  if (isFunction(node)) return node;
  if (/^Export(Named|Default)Declaration$/.test(node.type)) return functionIn(node.declaration);
  const init = node.type === "VariableDeclaration" && node.kind === "const" && node.declarations[0]?.init;
  return init && isFunction(withoutParentheses(init)) ? withoutParentheses(init) : null;
}
