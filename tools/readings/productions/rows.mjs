// How the tables of productions are written.

/**
 * One production: what is read from which tokens, the tree, and the premises beside. For instance
 *
 *     row("Call = f:Callee ( es:Arguments[+in] )", "tree.call (call_values false) f es")
 *
 * Before ` = ` stands what is read: a level of expressions, or a family of Grammar.antt without its `Reads` (ReadsMember is `ClassMember`, as
 * `Member` is a level). A parameter of a family that isn't a flag of the context is part of its name, as in `Key<true>`. Behind ` = ` stand
 * tokens by their texts, and parts with a label: a level or a family again, or a class of tokens (`free`, `name`, `string`, `number`,
 * `private` and others: rules.mjs). `ds,ss:Body` has two labels, since a body is read as two trees. A `_` in front of a token says that no line
 * end may stand before it. `END` is a semicolon, which may lack where `last` holds (EndsBy of the grammar).
 *
 * Flags are the context: `in`, `yield` and `await` where these operators may stand, `return` where the statement may, `last` at the end of
 * a brace group, and `before_else`. A part has those of the whole but for what its brackets say: `[-last]` is not last. Brackets of the whole
 * say where the production stands: `Statement[+return] = ..` only where `return` may.
 *
 * The tree is the text of Grammar.antt; two texts where two trees are read.
 */
export const row = (reading, tree, ...premises) => ({ reading, tree, premises });

/** The rows for each choice, with what a label stands for in their trees: { text, name, .. } with the name of Grammar.antt. */
export const each = (label, choices, rowOf) =>
  choices.flatMap((choice) => [rowOf(choice)].flat().map((made) => ({ ...made, bound: { ...made.bound, [label]: choice.name } })));

const FLAGS = [{ name: "true" }, { name: "false" }];

/** The rows for a flag that is on and that is off. */
export const both = (label, rowOf) => each(label, FLAGS, ({ name }) => rowOf(name));

/** A flag of a part, on or off as the name says. */
export const flagged = (flag, name) => (name === "true" ? "+" : "-") + flag;

const OPERANDS = ["yield", "await"];
const IN_BODY = ["return", ...OPERANDS];

/** Which flags of the context what is read has. The levels of expressions have `in`, `yield` and `await`. */
export const FLAGS_OF = {
  Function: [], FunctionAs: [], ArrowParameters: [], Label: [],
  Arrow: ["in"],
  Init: OPERANDS, Returned: OPERANDS,
  Statement: [...IN_BODY, "last", "before_else"],
  Item: [...IN_BODY, "last"], Statements: [...IN_BODY, "last"], Body: [...IN_BODY, "last"], Case: [...IN_BODY, "last"],
  Cases: IN_BODY, EndsOfTry: IN_BODY, Handler: IN_BODY, Finalizer: IN_BODY,
  ModuleName: [], Attribute: [], Attributes: [], Source: [], Module: [],
  Specifier: [], Specifiers: [], NamedImports: [], ImportClause: [], Import: [], Exported: [], AllExported: [],
  Declared: ["last"], Default: ["last"], Export: ["last"], ModuleItem: ["last"], ModuleItems: ["last"], ModuleBody: ["last"],
};

export const flagsOf = (name) => FLAGS_OF[name.replace(/<.*/, "")] ?? ["in", ...OPERANDS];

/** The kinds of declarations, with the words that begin them. */
export const KINDS = [{ name: "Const", word: "const" }, { name: "Let", word: "let" }, { name: "Var", word: "var" }];
