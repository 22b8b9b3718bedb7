// The members of the nodes of a tree, by their types: what the converter reads, and what each of them holds.
import { membersOfBabel } from "./babel_members.mjs";
import { firstLook } from "./looks.mjs";

/** What a member may hold: a node, a list of nodes, or one that has holes too, a text, true or false, or the word `value` alone. */
export const NODE = 1;
export const LIST = 2;
export const HOLES = 3;
export const TEXT = 4;
export const FLAG = 5;
// `importKind` and `exportKind` of trees that may have types
export const VALUE = 6;
// what the converter looks into
const ANY = 7;
/** What parsers and tools note of a node, on which its meaning doesn't depend. */
export const NOTE = 8;

// A member of a type: what it holds, whether it is needed, and the types of the nodes where only some may stand there. Of these `areAllowed`
// says by the number of each type whether it is one of them.
const member = (holds, isNeeded, types = []) => ({ holds, isNeeded, types: types.length > 0 ? types : null, areAllowed: null });
const node = (...types) => member(NODE, true, types);
const maybe = (...types) => member(NODE, false, types);
const list = (...types) => member(LIST, true, types);
const maybeList = (...types) => member(LIST, false, types);
const holes = () => member(HOLES, true);
const text = () => member(TEXT, true);
const maybeText = () => member(TEXT, false);
const flag = () => member(FLAG, true);
const maybeFlag = () => member(FLAG, false);
const ofValues = () => member(VALUE, false);
const any = () => member(ANY, false);

const HOLD_NODES = [NODE, LIST, HOLES];

const NOTES = [
  "type", "start", "end", "loc", "range", "extra", "parent", "tokens", "comments", "leadingComments", "trailingComments", "innerComments", "errors",
  "sourceFile",
  // comments too, as rollup's parser notes them
  "_rollupAnnotations", "_rollupRemoved",
  // what Babel's transformations note of the order and the layout of statements
  "_blockHoist", "_compact",
];

const FUNCTION = { id: maybe("Identifier"), params: list(), body: node("BlockStatement"), async: maybeFlag(), generator: maybeFlag() };
// Babel's transformations make a function of a method by changing its type, and leave what the method had.
const OF_METHOD = Object.fromEntries(["key", "kind", "computed", "static", "method"].map((name) => [name, member(NOTE, false)]));
const CLASS = { id: maybe("Identifier"), superClass: maybe(), body: node("ClassBody") };
const OPERATION = { operator: text(), left: node(), right: node() };
const STRING = ["Literal", "StringLiteral"];
const NAME = ["Identifier", ...STRING];
const DIRECTIVES = { directives: maybeList("Directive") };
const ATTRIBUTES = { attributes: maybeList("ImportAttribute"), assertions: maybeList("ImportAttribute") };
const LOOP_OVER = { left: node(), right: node(), body: node() };

// The members of a type stand in the order of the text.
const TYPES = {
  Program: {
    ...DIRECTIVES, body: list(), sourceType: maybeText(), interpreter: maybe("InterpreterDirective"), hashbang: maybe("Hashbang"),
  },
  InterpreterDirective: { value: text() },
  Hashbang: { value: text() },

  ExpressionStatement: { expression: node(), directive: maybeText() },
  BlockStatement: { ...DIRECTIVES, body: list() },
  EmptyStatement: {},
  DebuggerStatement: {},
  IfStatement: { test: node(), consequent: node(), alternate: maybe() },
  VariableDeclaration: { kind: text(), declarations: list("VariableDeclarator") },
  VariableDeclarator: { id: node(), init: maybe() },
  ReturnStatement: { argument: maybe() },
  ThrowStatement: { argument: node() },
  BreakStatement: { label: maybe("Identifier") },
  ContinueStatement: { label: maybe("Identifier") },
  LabeledStatement: { label: node("Identifier"), body: node() },
  SwitchStatement: { discriminant: node(), cases: list("SwitchCase") },
  SwitchCase: { test: maybe(), consequent: list() },
  TryStatement: { block: node("BlockStatement"), handler: maybe("CatchClause"), finalizer: maybe("BlockStatement") },
  CatchClause: { param: maybe(), body: node("BlockStatement") },
  WhileStatement: { test: node(), body: node() },
  DoWhileStatement: { body: node(), test: node() },
  ForStatement: { init: maybe(), test: maybe(), update: maybe(), body: node() },
  ForInStatement: LOOP_OVER,
  ForOfStatement: { ...LOOP_OVER, await: maybeFlag() },

  ImportDeclaration: {
    specifiers: list("ImportSpecifier", "ImportDefaultSpecifier", "ImportNamespaceSpecifier"), source: node(...STRING), ...ATTRIBUTES,
    importKind: ofValues(),
  },
  ImportSpecifier: { imported: node(...NAME), local: node("Identifier"), importKind: ofValues() },
  ImportDefaultSpecifier: { local: node("Identifier") },
  ImportNamespaceSpecifier: { local: node("Identifier") },
  ImportAttribute: { key: node(...NAME), value: node(...STRING) },
  ExportNamedDeclaration: {
    declaration: maybe(), specifiers: list("ExportSpecifier", "ExportNamespaceSpecifier"), source: maybe(...STRING), ...ATTRIBUTES,
    exportKind: ofValues(),
  },
  ExportSpecifier: { local: node(...NAME), exported: node(...NAME), exportKind: ofValues() },
  ExportAllDeclaration: { exported: maybe(...NAME), source: node(...STRING), ...ATTRIBUTES, exportKind: ofValues() },
  ExportDefaultDeclaration: { declaration: node(), exportKind: ofValues() },

  ObjectPattern: { properties: list("Property", "RestElement", "ObjectProperty") },
  ArrayPattern: { elements: holes() },
  AssignmentPattern: { left: node(), right: node() },
  RestElement: { argument: node() },

  Identifier: { name: text() },
  PrivateIdentifier: { name: text() },
  Literal: { value: any(), raw: maybeText(), regex: any(), bigint: maybeText() },
  ThisExpression: {},
  Super: {},
  MetaProperty: { meta: node("Identifier"), property: node("Identifier") },
  MemberExpression: { object: node(), property: node(), computed: maybeFlag(), optional: maybeFlag() },
  CallExpression: { callee: node(), arguments: list(), optional: maybeFlag() },
  NewExpression: { callee: node(), arguments: list() },
  ParenthesizedExpression: { expression: node() },
  ChainExpression: { expression: node() },
  BinaryExpression: OPERATION,
  LogicalExpression: OPERATION,
  AssignmentExpression: OPERATION,
  UnaryExpression: { operator: text(), prefix: maybeFlag(), argument: node() },
  UpdateExpression: { operator: text(), prefix: flag(), argument: node() },
  AwaitExpression: { argument: node() },
  YieldExpression: { delegate: maybeFlag(), argument: maybe() },
  ConditionalExpression: { test: node(), consequent: node(), alternate: node() },
  SequenceExpression: { expressions: list() },
  ArrayExpression: { elements: holes() },
  ObjectExpression: { properties: list("Property", "SpreadElement", "ObjectProperty", "ObjectMethod") },
  SpreadElement: { argument: node() },
  Property: { kind: text(), key: node(), value: node(), method: maybeFlag(), shorthand: maybeFlag(), computed: maybeFlag() },
  ArrowFunctionExpression: { params: list(), body: node(), async: maybeFlag(), expression: maybeFlag() },
  ImportExpression: { source: node(), options: maybe(), attributes: maybe() },
  TemplateLiteral: { quasis: list("TemplateElement"), expressions: list() },
  TemplateElement: { value: any(), tail: maybeFlag() },
  TaggedTemplateExpression: { tag: node(), quasi: node("TemplateLiteral") },

  FunctionDeclaration: FUNCTION,
  FunctionExpression: { ...FUNCTION, ...OF_METHOD },
  ClassDeclaration: CLASS,
  ClassExpression: CLASS,
  ClassBody: {
    body: list(
      "MethodDefinition", "PropertyDefinition", "StaticBlock", "ClassMethod", "ClassPrivateMethod", "ClassProperty", "ClassPrivateProperty",
    ),
  },
  MethodDefinition: { kind: text(), key: node(), value: node("FunctionExpression"), computed: maybeFlag(), static: maybeFlag() },
  PropertyDefinition: { key: node(), value: maybe(), computed: maybeFlag(), static: maybeFlag() },
  StaticBlock: { body: list() },

  ...membersOfBabel({ node, maybe, list, text, flag, maybeFlag, any }),
};

/** The members of nodes of a type (Members); undefined where the type isn't read. */
export function membersOf(type) {
  return MEMBERS.get(type);
}

/** The members `byName`, the names of those that hold nodes, `children`, the type's `number`, and the look at a node of it, `first`. */
class Members {
  constructor(members, number) {
    this.byName = new Map([...NOTES.map((name) => [name, member(NOTE, false)]), ...Object.entries(members)]);
    this.children = Object.keys(members).filter((name) => HOLD_NODES.includes(members[name].holds));
    this.number = number;
    const needed = Object.keys(members).filter((name) => members[name].isNeeded);
    this.first = firstLook(this.byName, needed);
  }
}

const MEMBERS = new Map(Object.entries(TYPES).map(([type, members], number) => [type, new Members(members, number)]));

for (const { byName } of MEMBERS.values()) for (const member of byName.values()) member.areAllowed = areAllowed(member.types);

// By the numbers of the types, whether a node of that type may stand there; null where any may.
function areAllowed(types) {
  return types && Uint8Array.from(MEMBERS.keys(), (type) => Number(types.includes(type)));
}

/** The nodes that stand in a node, in the order of the text. */
export function childrenOf(node) {
  return MEMBERS.get(node.type).children.flatMap((name) => node[name] ?? []).filter((child) => child !== null);
}

/** What stands in a node or a list, each with how a way goes on to it. */
export function insidesOf(value) {
  if (Array.isArray(value)) return value.map((inside, at) => [`[${at}]`, inside]);
  const { byName } = MEMBERS.get(value.type) ?? { byName: [] };
  return [...byName].filter(([, { holds }]) => holds !== NOTE).map(([name]) => [`.${name}`, value[name]]);
}
