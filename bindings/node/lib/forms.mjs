// The rows that the converter writes: of each type the fields that it gives, in the order in which it gives them to `add` (walk.mjs).
import { rowType } from "./reads.mjs";

/**
 * A row's `type`, its `number` and its `length` in words, and at which of these words its fields stand, `place1` to `place7`, of which `count`
 * are given. `numbers` are those of the words that its first field may hold.
 */
class Form {
  constructor(name, names) {
    this.type = rowType(name);
    this.number = this.type.number;
    this.length = this.type.length;
    this.count = names.length;
    const fields = names.map((field) => this.type.field(field));
    [this.place1, this.place2, this.place3, this.place4, this.place5, this.place6, this.place7] = fields.map(({ place }) => place);
    this.first = names[0];
    this.numbers = fields[0]?.numbers ?? null;
  }

  /** The number of a word of the field. */
  word(name, word) {
    return this.type.field(name).numbers.get(word);
  }
}

const form = (name, ...fields) => new Form(name, fields);

export const PROGRAM = form("Program", "source", "kind", "comments", "hashbang", "directives", "body");
export const HASHBANG = form("Hashbang", "value");
export const COMMENT = form("Comment", "kind", "content", "leading", "attached_to", "preceded_by_newline", "followed_by_newline");
export const DIRECTIVE = form("Directive", "directive");

export const EXPRESSION_STATEMENT = form("ExpressionStatement", "expression");
export const BLOCK = form("BlockStatement", "body");
export const EMPTY = form("EmptyStatement");
export const DEBUGGER = form("DebuggerStatement");
export const IF = form("IfStatement", "test", "consequent", "alternate");
export const DECLARATION = form("VariableDeclaration", "kind", "declarations");
export const DECLARATOR = form("VariableDeclarator", "id", "init");
export const RETURN = form("ReturnStatement", "argument");
export const THROW = form("ThrowStatement", "argument");
export const BREAK = form("BreakStatement", "label");
export const CONTINUE = form("ContinueStatement", "label");
export const LABEL = form("LabelIdentifier", "name");
export const LABELED = form("LabeledStatement", "label", "body");
export const SWITCH = form("SwitchStatement", "discriminant", "cases");
export const CASE = form("SwitchCase", "test", "consequent");
export const TRY = form("TryStatement", "block", "handler", "finalizer");
export const CATCH = form("CatchClause", "param", "body");
export const WHILE = form("WhileStatement", "test", "body");
export const DO_WHILE = form("DoWhileStatement", "body", "test");
export const FOR = form("ForStatement", "init", "test", "update", "body");
export const FOR_IN = form("ForInStatement", "left", "right", "body");
export const FOR_OF = form("ForOfStatement", "is_await", "left", "right", "body");

export const IMPORT = form("ImportDeclaration", "import_kind", "specifiers", "source", "with_clause");
export const IMPORT_SPECIFIER = form("ImportSpecifier", "import_kind", "imported", "local");
export const IMPORT_DEFAULT = form("ImportDefaultSpecifier", "local");
export const IMPORT_NAMESPACE = form("ImportNamespaceSpecifier", "local");
export const WITH = form("WithClause", "keyword", "entries");
export const ATTRIBUTE = form("ImportAttribute", "key", "value");
export const EXPORT_DEFAULT = form("ExportDefaultDeclaration", "declaration");
export const EXPORT_DECLARATION = form("ExportDeclaration", "declaration");
export const EXPORT_NAMED = form("ExportNamedDeclaration", "export_kind", "specifiers");
export const EXPORT_FROM = form("ExportFromDeclaration", "export_kind", "specifiers", "source", "with_clause");
export const EXPORT_ALL = form("ExportAllDeclaration", "export_kind", "exported", "source", "with_clause");
export const EXPORT_SPECIFIER = form("ExportSpecifier", "export_kind", "local", "exported");

export const BINDING = form("BindingIdentifier", "name", "symbol");
export const OBJECT_PATTERN = form("ObjectPattern", "properties", "rest");
export const BINDING_PROPERTY = form("BindingProperty", "key", "value", "computed");
export const BINDING_REST = form("BindingRestElement", "argument");
export const ARRAY_PATTERN = form("ArrayPattern", "elements", "rest");
export const ASSIGNMENT_PATTERN = form("AssignmentPattern", "left", "right");
export const OBJECT_TARGET = form("ObjectAssignmentTarget", "properties", "rest");
export const ARRAY_TARGET = form("ArrayAssignmentTarget", "elements", "rest");
export const TARGET_WITH_DEFAULT = form("AssignmentTargetWithDefault", "binding", "init");
export const TARGET_PROPERTY = form("AssignmentTargetPropertyProperty", "name", "binding", "computed");
export const TARGET_IDENTIFIER = form("AssignmentTargetPropertyIdentifier", "binding", "init");
export const TARGET_REST = form("AssignmentTargetRest", "target");

export const REFERENCE = form("IdentifierReference", "name", "reference");
export const NAME = form("IdentifierName", "name");
export const PRIVATE_NAME = form("PrivateIdentifier", "name");
export const THIS = form("ThisExpression");
export const SUPER = form("Super");
export const NEW_TARGET = form("NewTarget");
export const IMPORT_META = form("ImportMeta");
export const NULL = form("NullLiteral");
export const BOOLEAN = form("BooleanLiteral", "value");
export const STRING = form("StringLiteral", "value");
export const WHOLE_NUMBER = form("NumericLiteral", "kind", "negative", "digits");
export const RAW_NUMBER = form("NumericLiteral", "kind", "text");
export const BIG_INT = form("BigIntLiteral", "value");
export const REG_EXP = form("RegExpLiteral", "pattern", "flags");
export const STATIC_MEMBER = form("StaticMemberExpression", "object", "optional", "property");
export const COMPUTED_MEMBER = form("ComputedMemberExpression", "object", "optional", "expression");
export const PRIVATE_FIELD = form("PrivateFieldExpression", "object", "optional", "field");
export const PRIVATE_IN = form("PrivateInExpression", "left", "right");
export const CALL = form("CallExpression", "callee", "arguments", "optional", "pure");
export const NEW = form("NewExpression", "callee", "arguments", "pure");
export const PARENTHESES = form("ParenthesizedExpression", "expression");
export const CHAIN = form("ChainExpression", "expression");
export const BINARY = form("BinaryExpression", "operator", "left", "right");
export const LOGICAL = form("LogicalExpression", "operator", "left", "right");
export const ASSIGNMENT = form("AssignmentExpression", "operator", "left", "right");
export const UNARY = form("UnaryExpression", "operator", "argument");
export const UPDATE = form("UpdateExpression", "operator", "prefix", "argument");
export const AWAIT = form("AwaitExpression", "argument");
export const YIELD = form("YieldExpression", "delegate", "argument");
export const CONDITIONAL = form("ConditionalExpression", "test", "consequent", "alternate");
export const SEQUENCE = form("SequenceExpression", "expressions");
export const ARRAY = form("ArrayExpression", "elements");
export const SPREAD = form("SpreadElement", "argument");
export const OBJECT = form("ObjectExpression", "properties");
export const PROPERTY = form("ObjectProperty", "kind", "key", "value", "method", "shorthand", "computed");
export const DYNAMIC_IMPORT = form("ImportExpression", "source", "options");
export const TEMPLATE = form("TemplateLiteral", "quasis", "expressions");
export const TEMPLATE_ELEMENT = form("TemplateElement", "raw", "cooked");
export const TAGGED_TEMPLATE = form("TaggedTemplateExpression", "tag", "quasi");

export const ARROW = form("ArrowFunctionExpression", "is_async", "pure", "params", "body");
export const FUNCTION = form("Function", "kind", "id", "is_async", "generator", "pure", "params", "body");
export const FUNCTION_BODY = form("FunctionBody", "directives", "statements");
export const PARAMETERS = form("FormalParameters", "items", "rest");
export const PARAMETER = form("FormalParameter", "pattern", "initializer");
export const REST_PARAMETER = form("FormalParameterRest", "argument");

export const CLASS = form("Class", "kind", "id", "heritage", "body");
export const CLASS_BODY = form("ClassBody", "body");
export const STATIC_BLOCK = form("StaticBlock", "body");
export const METHOD = form("MethodDefinition", "kind", "key", "value", "computed", "is_static");
export const FIELD = form("PropertyDefinition", "key", "computed", "is_static", "value");
