// Trees as terms, and the same trees by another parser: acorn's tree of a text, from which the package for node makes a job, whose rows
// are trees of Nodes.antt. What doesn't count there is left out as the grammar leaves it out, by the tables below.
import { readFileSync } from "node:fs";
import { jobOf } from "../../bindings/node/lib/convert.mjs";
import { parsed } from "../estree/parser.mjs";
import { ASSIGNMENT, BINARY, UNARY, UPDATE } from "../readings/productions/operators.mjs";
import { textTree, tree } from "../readings/trees.mjs";
import { codes } from "./source.mjs";

// ---- what both have in common: each tree in one way

const EMPTY = tree("[]");
const cons = (...parts) => parts.reduceRight((rest, part) => tree("∷", part, rest), EMPTY);
const bare = (...values) => tree("bare", cons(...values));
const nothingOf = (count) => tree("nothing_of", tree(String(count)));
const flagOf = (value) => tree(String(value === true));

/** A tree with those abbreviations of the grammar that are shorter, and without others. */
export function plain({ name, parts }) {
  const made = tree(name, ...parts.map(plain));
  if (name === "units_of") return made.parts[0];
  if (name === "is_plain_method") return flagOf(made.parts[0].name === "Init");
  if (name === "method_of") return tree("function_of", tree("kinds.Expression"), ...made.parts.slice(0, 2), tree("absent"), ...made.parts.slice(2));
  const units = name === "tree.string_literal" ? unitsOf(made.parts[0]) : undefined;
  return units ? tree("text_of", units) : made;
}

// The text in `bare (units w ∷ [])`.
const unitsOf = (values) => (values.parts[0].parts[0].name === "units" ? values.parts[0].parts[0].parts[0] : undefined);

// The abbreviations of specs/Reading.antt for trees that have a value and maybe children.
const SHORT = {
  "tree.program": ({ parts: [, , , directives, body] }) => tree("program_of", directives, body),
  "tree.expression_statement": ({ parts: [, expression] }) => tree("statement_of", expression),
  "tree.identifier_reference": ({ parts: [values] }) => tree("reference_of", values.parts[0]),
  "tree.binding_identifier": ({ parts: [values] }) => tree("name_of", values.parts[0]),
  "tree.identifier_name": ({ parts: [values] }) => tree("key_of", values.parts[0]),
};

/** The same tree with these. */
export function shortened({ name, parts }) {
  const made = tree(name, ...parts.map(shortened));
  return SHORT[name] ? SHORT[name](made) : made;
}

/** A tree as a term. */
export function termOfTree({ name, parts }, isArgument = false) {
  if (name[0] === '"') return argument(codes(name.slice(1, -1)), isArgument);
  if (parts.length === 0) return name;
  if (name === "∷") return argument(parts.map((part, at) => termOfTree(part, at === 0 && part.name === "∷")).join(" ∷ "), isArgument);
  return argument([name, ...parts.map((part) => termOfTree(part, true))].join(" "), isArgument);
}

const argument = (term, isArgument) => (isArgument && / /.test(term) ? `(${term})` : term);

// ---- rows as trees

const NODES = new URL("../../crates/jsgen_tree/specs/Nodes.antt", import.meta.url);
const NODE = /^(\w+) a\b.* = node types\.(\w+) a (.*)$/gm;
const SLOT = /\b(one|maybe|many|maybe_many) (\w+)/g;

// The constructors by their types, each with its fields that are children.
const CONSTRUCTORS = new Map(
  [...readFileSync(NODES, "utf8").matchAll(NODE)].map(([, name, type, slots]) => [
    type,
    { name, slots: [...slots.matchAll(SLOT)].map(([, kind, field]) => ({ kind, field: field.replace(/_child$/, "") })) },
  ]),
);

const nameOf = (operators, token) => tree(operators.find((operator) => operator.token === token).name);
const binaryOf = (token) => (token === "**" ? tree("operators.Exponential") : nameOf(BINARY, token));
const LOGICAL = { "||": "Or", "&&": "And", "??": "Coalesce" };
const capital = (word) => word[0].toUpperCase() + word.slice(1);
const methodKind = (kind) => tree(kind === "get" || kind === "set" ? capital(kind) : "Init");
const unnumbered = ({ name }) => tree("unnumbered", textTree(name));
const named = (text) => tree("named", textTree(text));
const OF_VALUES = () => tree("of_values");

// What a row holds beside its children; of types that aren't here, nothing counts.
const VALUES = {
  Program: () => nothingOf(4),
  VariableDeclaration: ({ kind }) => tree("declared_as", tree(capital(kind))),
  VariableDeclarator: () => nothingOf(1),
  BindingIdentifier: unnumbered,
  IdentifierReference: unnumbered,
  IdentifierName: ({ name }) => named(name),
  LabelIdentifier: ({ name }) => named(name),
  BooleanLiteral: ({ value }) => bare(tree("flag", flagOf(value))),
  NumericLiteral: ({ digits, text }) => tree("by_text", textTree(text ?? String(digits))),
  BigIntLiteral: ({ value }) => named(value),
  StringLiteral: ({ value }) => bare(tree("units", textTree(value))),
  Directive: ({ directive }) => bare(tree("units", textTree(directive))),
  BinaryExpression: ({ operator }) => bare(tree("binary_operator", binaryOf(operator))),
  LogicalExpression: ({ operator }) => bare(tree("logical_operator", tree(LOGICAL[operator]))),
  UnaryExpression: ({ operator }) => bare(tree("unary_operator", nameOf(UNARY, operator))),
  UpdateExpression: ({ operator, prefix }) => bare(tree("update_operator", nameOf(UPDATE, operator)), tree("flag", flagOf(prefix))),
  AssignmentExpression: ({ operator }) => bare(tree("assignment_operator", nameOf(ASSIGNMENT, operator))),
  StaticMemberExpression: ({ optional }) => tree("link_values", flagOf(optional)),
  ComputedMemberExpression: ({ optional }) => tree("link_values", flagOf(optional)),
  CallExpression: ({ optional }) => tree("call_values", flagOf(optional)),
  NewExpression: () => nothingOf(1),
  FormalParameter: () => nothingOf(3),
  ObjectProperty: ({ kind, method, shorthand, computed }) =>
    tree("property_values", tree(capital(kind)), ...[method, shorthand, computed].map(flagOf)),
  ArrowFunctionExpression: ({ is_async }) => tree("arrow_values", flagOf(is_async)),
  YieldExpression: ({ delegate }) => bare(tree("flag", flagOf(delegate))),
  ForOfStatement: ({ is_await }) => tree("loop_values", flagOf(is_await)),
  BindingProperty: ({ computed }) => tree("computed_values", flagOf(computed)),
  AssignmentTargetPropertyProperty: ({ computed }) => tree("computed_values", flagOf(computed)),
  MethodDefinition: ({ kind, computed, is_static }) => tree("member_values", methodKind(kind), flagOf(is_static), flagOf(computed)),
  RegExpLiteral: ({ pattern, flags }) => bare(tree("text", textTree(pattern)), tree("text", textTree(flags))),
  PrivateFieldExpression: ({ optional }) => tree("link_values", flagOf(optional)),
  PropertyDefinition: ({ computed, is_static }) => tree("field_values", flagOf(is_static), flagOf(computed)),
  ImportDeclaration: OF_VALUES,
  ImportSpecifier: OF_VALUES,
  ExportNamedDeclaration: OF_VALUES,
  ExportFromDeclaration: OF_VALUES,
  ExportSpecifier: OF_VALUES,
  ExportAllDeclaration: OF_VALUES,
  WithClause: () => bare(tree("with_keyword", tree("with_keywords.With"))),
};

class Rows {
  constructor(rows) {
    this.rows = rows;
  }

  node(at) {
    const row = this.rows[at];
    if (WRITTEN[row.type]) return WRITTEN[row.type](row, this);
    const { name, slots } = CONSTRUCTORS.get(row.type);
    const values = VALUES[row.type]?.(row) ?? nothingOf(0);
    return tree(`tree.${name}`, values, ...slots.map(({ kind, field }) => this[kind](row[field])));
  }

  one(at) {
    return this.node(at);
  }

  maybe(at) {
    return at === undefined ? tree("absent") : tree("given", this.node(at));
  }

  many(list = []) {
    return list.reduceRight((rest, at) => (at === null ? tree("hole", rest) : tree("more", this.node(at), rest)), tree("no_trees"));
  }

  maybe_many(list) {
    return list === undefined ? tree("no_list") : tree("listed", this.many(list));
  }

  // A template behind a tag, whose raw texts count.
  tagged(at) {
    const { quasis, expressions } = this.rows[at];
    const pieces = quasis.map((piece) => tree("raw_piece", textTree(this.rows[piece].raw)));
    return tree("tree.template_literal", nothingOf(0), treesOf(pieces), this.many(expressions));
  }

  // A name of an import or an export by its text.
  text(at) {
    const { name, value } = this.rows[at];
    return tree("text_of", textTree(name ?? value));
  }
}

const treesOf = (pieces) => pieces.reduceRight((rest, piece) => tree("more", piece, rest), tree("no_trees"));

// The types that the grammar has an abbreviation for, or another form.
const WRITTEN = {
  Function({ kind, is_async, generator, id, params, body }, rows) {
    const [parameters, statements] = [rows.rows[params], rows.rows[body]];
    const lists = [rows.many(parameters.items), rows.maybe(parameters.rest), rows.many(statements.directives), rows.many(statements.statements)];
    return tree("function_of", tree(`kinds.${capital(kind)}`), flagOf(is_async), flagOf(generator), rows.maybe(id), ...lists);
  },
  Class({ kind, id, heritage, body }, rows) {
    return tree("class_of", tree(`class_kinds.${capital(kind)}`), rows.maybe(id), rows.maybe(heritage), rows.many(rows.rows[body].body));
  },
  AssignmentTargetPropertyIdentifier({ binding, init }, rows) {
    const key = tree("tree.identifier_name", named(rows.rows[binding].name));
    const target = rows.node(binding);
    const value = init === undefined ? target : tree("tree.target_with_default", nothingOf(0), target, rows.node(init));
    return tree("tree.target_property", tree("computed_values", flagOf(false)), key, value);
  },
  PrivateIdentifier({ name }) {
    return tree("private_name", textTree(name));
  },
  // one without expressions is a string
  TemplateLiteral({ quasis, expressions = [] }, rows) {
    const texts = quasis.map((piece) => textTree(rows.rows[piece].cooked));
    if (expressions.length === 0) return tree("text_of", texts[0]);
    return tree("tree.template_literal", nothingOf(0), treesOf(texts.map((text) => tree("cooked_piece", text))), rows.many(expressions));
  },
  TaggedTemplateExpression({ tag, quasi }, rows) {
    return tree("tree.tagged_template", nothingOf(0), rows.node(tag), rows.tagged(quasi));
  },
  ImportSpecifier({ imported, local }, rows) {
    return tree("tree.import_specifier", OF_VALUES(), rows.text(imported), rows.node(local));
  },
  ExportSpecifier({ local, exported }, rows) {
    return tree("tree.export_specifier", OF_VALUES(), rows.text(local), rows.text(exported));
  },
  ExportAllDeclaration({ exported, source, with_clause }, rows) {
    const name = exported === undefined ? tree("absent") : tree("given", rows.text(exported));
    return tree("tree.export_all_declaration", OF_VALUES(), name, rows.node(source), rows.maybe(with_clause));
  },
};

/** The tree of a text by acorn. Throws a SyntaxError where that reads no module. */
export function treeByAcorn(text) {
  const { rows } = jobOf(parsed(text, { parentheses: true }), { spans: false });
  return plain(new Rows(rows).node(rows.length - 1));
}
