// Which names patterns and statements bind (scopes.mjs).
import { childrenOf } from "./members.mjs";

/** The names that a pattern binds. */
export function boundIn(pattern) {
  switch (pattern?.type) {
    case "Identifier":
      return [pattern];
    case "ObjectPattern":
      return pattern.properties.flatMap((property) => boundIn(property.value ?? property));
    case "ArrayPattern":
      return pattern.elements.flatMap(boundIn);
    case "AssignmentPattern":
      return boundIn(pattern.left);
    case "RestElement":
      return boundIn(pattern.argument);
    default:
      return [];
  }
}

/** Those that a declaration of variables binds. */
export function namesOf({ declarations }) {
  return declarations.flatMap(({ id }) => boundIn(id));
}

/** The names that a statement declares in the block that it stands in. A default export may declare none. */
export function declaredBy(node) {
  switch (node?.type) {
    case "FunctionDeclaration":
    case "ClassDeclaration":
      return node.id ? [node.id] : [];
    case "ImportDeclaration":
      return node.specifiers.map(({ local }) => local);
    case "ExportNamedDeclaration":
    case "ExportDefaultDeclaration":
      return declaredBy(node.declaration);
    case "VariableDeclaration":
      return node.kind === "var" ? [] : namesOf(node);
    default:
      return [];
  }
}

/** The names that it declares by `var`, in whatever block within it, but in no function and no static block. */
export function variablesIn(node) {
  if (/Function|Method$|StaticBlock/.test(node.type)) return [];
  const own = node.type === "VariableDeclaration" && node.kind === "var" ? namesOf(node) : [];
  return [...own, ...childrenOf(node).flatMap(variablesIn)];
}
