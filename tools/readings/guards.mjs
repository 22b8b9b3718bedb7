// The premises of productions that say more than what is read from which tokens, by the names that they have in Premises.antt. Each is made
// for labels of a production, and looks at what they stand for: `found[label]` with its `tokens` and its `tree`.
import { isFreeName, isOnNewLine, isTemplate, isString, isWord, nameOf, sizeOf, tokenAt } from "./tokens.mjs";

// A premise, by the name of its guard, with the label that it lets stand for something.
const premise = (name, holds, binds) => Object.assign(holds, { guard: name, binds });

/** What a tree is as a simple target: a name or a member, maybe in parentheses; else undefined. */
export function simpleTarget(tree) {
  if (["tree.identifier_reference", "tree.static_member", "tree.computed_member", "tree.private_member"].includes(tree.name)) return tree;
  return tree.name === "tree.parenthesized" ? simpleTarget(tree.parts[1]) : undefined;
}

/** What the first label stands for is a simple target, which is the second. */
export function simple_target(written, bare) {
  const holds = (found) => {
    const target = simpleTarget(found[written].tree);
    found[bare] = { tree: target };
    return target !== undefined;
  };
  return premise("simple_target", holds, bare);
}

const NAMING = ["Assign", "LogicalAnd", "LogicalOr", "LogicalNullish"].map((name) => `assignment_operators.${name}`);

const isReference = (tree) => tree.name === "tree.identifier_reference";

// A function or a class without a name, maybe in parentheses.
function isAnonymousFunction({ name, parts }) {
  if (name === "tree.parenthesized") return isAnonymousFunction(parts[1]);
  if (name === "class_of") return parts[1].name === "absent";
  return name === "tree.arrow_function" || (name === "function_of" && parts[3].name === "absent");
}

/** Whether an assignment by the operator gives a function or a class that is its value the name of its target. */
export const namesFunction = (operator, target, value) => NAMING.includes(operator) && isReference(target) && isAnonymousFunction(value);

/** An assignment names the function that is its value as it would without the parentheses of its target. */
export const names_function = (operator, written, bare, value) =>
  premise("names_function", (found) => {
    const [one, other, given] = [written, bare, value].map((label) => found[label].tree);
    return namesFunction(operator, one, given) === namesFunction(operator, other, given);
  });

/** A line end doesn't stand before the first token, and there is one. */
export const onSameLine = (tokens) => tokens !== "" && !isOnNewLine(tokens, 0);

export const on_same_line = (label) => premise("on_same_line", (found) => onSameLine(found[label].tokens));

export const startsInBrace = (tokens) => tokenAt(tokens, 0) === "{";

/** The body of an arrow function begins with no brace. */
export const starts_in_brace = (label) => premise("starts_in_brace", (found) => !startsInBrace(found[label].tokens));

// The words of a function or a class.
function startsFunctionOrClass(tokens) {
  const [first, second] = [tokenAt(tokens, 0), tokenAt(tokens, 1)];
  if (first === "async") return second === "function" && !isOnNewLine(tokens, 1);
  return first === "function" || first === "class";
}

// A word with which no expression statement begins, and what stands behind it.
const startsDeclaration = (tokens) => startsFunctionOrClass(tokens) || (tokenAt(tokens, 0) === "let" && tokenAt(tokens, 1) === "[");

export const startsStatement = (tokens) => tokens !== "" && !startsInBrace(tokens) && !startsDeclaration(tokens);

/** An expression statement may begin so. */
export const starts_statement = (label) => premise("starts_statement", (found) => startsStatement(found[label].tokens));

export function startsWithDirective(tokens) {
  const first = tokenAt(tokens, 0) ?? "";
  return isString(first) && !isTemplate(first) && (sizeOf(tokens) === 1 || tokenAt(tokens, 1) === ";");
}

/** The first statement is no string alone, which would be a directive. */
export const starts_with_directive = (label) => premise("starts_with_directive", (found) => !startsWithDirective(found[label].tokens));

export function mayPrecedeOf(tokens) {
  const first = tokenAt(tokens, 0);
  return first !== "let" && !(first === "async" && sizeOf(tokens) === 1);
}

/** Before `of` a target doesn't begin with `let`, and isn't `async`. */
export const may_precede_of = (label) => premise("may_precede_of", (found) => mayPrecedeOf(found[label].tokens));

/** The expression of a default export begins with no word of a function or a class. */
export const may_be_exported = (label) => premise("may_be_exported", (found) => !startsFunctionOrClass(found[label].tokens));

function isReferenceAlone(tokens) {
  const first = tokenAt(tokens, 0) ?? "";
  return sizeOf(tokens) === 1 && isWord(first) && isFreeName(nameOf(first));
}

/** What is exported without a source is a reference. */
export const is_reference_alone = (label) => premise("is_reference_alone", (found) => isReferenceAlone(found[label].tokens));
