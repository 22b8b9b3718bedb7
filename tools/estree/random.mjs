// Programs that are made up, of all that jsgen reads by now, each fixed by a number.
import { isField, isType, wordsOf } from "../../bindings/node/lib/reads.mjs";

const NAMES = ["a", "b", "total", "$", "_x", "größe", "日本", "of", "async", "get", "undefined"];
const KEYS = [...NAMES, "if", "class", "__proto__", "constructor"];
const PRIVATE = ["a", "b", "x", "if", "static", "get", "größe", "日本", "__proto__"];
const MEMBERS = ["a", "b", "get", "set", "static", "async", "if", "in", "instanceof", "größe", "__proto__", "'a b'", "'get'", "7", "1.5", "2n"];
const STRINGS = ['""', "'it\\'s'", '"a\\nb"', "'</script>'", '"\\u2028 ${x} `"', '"use strict"', "'\\ud800'", '"日本\\0"', '"\\x001"'];
const QUOTED = [...STRINGS, '"default"', `'"'`, `"'\\""`, `'""\\''`];
const WHOLE = ["0", "1", "7", "42", "1000000", "340282366920938463463374607431768211455"];
const RAW = ["1.5", "0x1F", "0b101", "0o17", "1e3", "1E-7", "1_000", "1_000.5e-7", ".5", "5.", "340282366920938463463374607431768211456"];
const PATTERNS = ["/a/", "/[/]\\//g", "/=b/i", "/script>/", "/[</script]/m", "/(?<a>é)\\k<a>/u", "/\\//dgimsuy"];
const PIECES = ["", "", "a", "\\n", "\\`", "\\${", "\\$", "$", "\\u{1F600}", "\\\n", "é日本", "</script>", "<\\/SCRIPT", "\\u2028", "\\\u2028", '"', "'"];
const INVALID_PIECES = ["\\u", "\\x1", "\\01", "\\u{110000}"];
const MODULES = ['"x"', "'./a b.js'", '"é"'];
const EXPORTED = ["a", "default", "if", "größe", '"a b"', "'é'", '"a"'];
const DEPTH = 4;
const NEITHER = { awaits: false, yields: false };

/** A program's text. */
export function randomProgram(seed) {
  const draw = new Draw(seed);
  const hashbang = isField("Program", "hashbang") && draw.below(5) === 0 ? ["#!/usr/bin/env node"] : [];
  const directives = draw.below(6) === 0 ? ['"use strict";', "'a\\\nb';"].slice(0, 1 + draw.below(2)) : [];
  return [...hashbang, ...directives, ...draw.several(1, 26, () => draw.moduleItem(DEPTH))].join("\n");
}

// A regular expression at the start behind `await` or `yield` is one that acorn doesn't always read.
function noPattern(text) {
  return /^\(*\//.test(text) ? "a" : text;
}

class Draw {
  constructor(seed) {
    this.state = (seed * 2654435761 + 97) >>> 0;
    this.declared = 0;
    this.loops = 0; // round what is drawn, up to the next function
    this.functions = 0;
    this.privates = []; // private names of the classes round what is drawn
    this.awaits = isType("AwaitExpression"); // whether `await` may stand there
    this.yields = false;
    this.exports = new Set();
    this.names = []; // those that the module declares and exports
  }

  // A whole number below the limit (a congruential generator of 32 bits, from its upper half).
  below(limit) {
    this.state = (Math.imul(this.state, 1664525) + 1013904223) >>> 0;
    return (this.state >>> 8) % limit;
  }

  of(list) {
    return list[this.below(list.length)];
  }

  several(least, most, make) {
    return Array.from({ length: least + this.below(most - least + 1) }, make);
  }

  // ---- modules

  // What stands at the top of a module.
  moduleItem(depth) {
    if (!isType("ExportDeclaration") || this.below(6) > 0) return this.item(depth);
    return this.of([this.import, this.import, this.exportList, this.exportFrom, this.exportDeclaration, this.exportDefault]).call(this, depth);
  }

  import() {
    const own = () => `n${this.declared++}`;
    const from = this.of(MODULES);
    const first = this.below(3) === 0 ? [own()] : [];
    switch (this.below(5)) {
      case 0:
        return `import ${from};`;
      case 1:
        return `import ${[...first, `* as ${own()}`].join(", ")} from ${from};`;
      case 2:
        return `import ${own()} from ${from};`;
      default:
        return `import ${[...first, this.braces(this.several(0, 3, () => this.of([own(), `${this.of(EXPORTED)} as ${own()}`])))].join(", ")} from ${from};`;
    }
  }

  braces(parts) {
    return `{ ${parts.join(", ")} }`;
  }

  // The name, or where the module exports it already another one.
  exportedName(name) {
    const text = name.replace(/^(["'])(.*)\1$/, "$2");
    const chosen = this.exports.has(text) ? `e${this.declared++}` : name;
    this.exports.add(chosen === name ? text : chosen);
    return chosen;
  }

  exportList() {
    if (this.names.length === 0) return "export {};";
    return `export ${this.braces(this.several(0, 3, () => `${this.of(this.names)} as ${this.exportedName(this.of(EXPORTED))}`))};`;
  }

  exportFrom() {
    const all = () => this.of(["*", `* as ${this.exportedName(this.of(EXPORTED))}`]);
    const list = () => this.braces(this.several(0, 3, () => `${this.of(EXPORTED)} as ${this.exportedName(this.of(EXPORTED))}`));
    return `export ${this.below(2) ? all() : list()} from ${this.of(MODULES)};`;
  }

  exportDeclaration(depth) {
    const name = this.exportedName(`n${this.declared++}`);
    this.names.push(name);
    return `export ${this.of([() => `const ${name} = ${this.assigned(depth)};`, () => this.function(depth, name), () => this.class(depth, name)])()}`;
  }

  exportDefault(depth) {
    if (this.exports.has("default")) return this.item(depth);
    this.exports.add("default");
    const name = this.below(2) ? `n${this.declared++}` : "";
    const makers = [() => this.function(depth, name), () => this.class(depth, name), () => this.begun(this.assigned(depth))];
    return `export default ${this.of(makers)()}`;
  }

  // ---- statements

  item(depth) {
    if (this.below(5) > 0) return this.statement(depth);
    if (isType("Function") && this.below(4) === 0) return this.function(depth - 1, `n${this.declared++}`);
    if (isType("Class") && this.below(4) === 0) return this.class(depth - 1, `n${this.declared++}`);
    return `${this.variables(depth, this.of(wordsOf("VariableDeclaration", "kind")))};`;
  }

  variables(depth, kind) {
    return `${kind} ${this.several(1, 2, () => this.declarator(depth, kind)).join(", ")}`;
  }

  // A pattern has a value.
  declarator(depth, kind) {
    const bound = this.binding(depth);
    const hasValue = kind === "const" || /^[[{]/.test(bound) || this.below(3) > 0;
    return `${bound}${hasValue ? ` = ${this.assigned(depth)}` : ""}`;
  }

  statement(depth) {
    if (depth > 0 && this.below(3) === 0) {
      const makers = this.statements().filter((maker) => maker !== null);
      if (makers.length > 0) return this.of(makers).call(this, depth - 1);
    }
    const kind = depth === 0 ? 9 : this.below(10);
    if (kind === 0) return `{ ${this.several(0, 3, () => this.item(depth - 1)).join(" ")} }`;
    if (kind < 3) return `if (${this.expression(depth)}) ${this.statement(depth - 1)}`;
    if (kind < 5) return `if (${this.expression(depth)}) ${this.block(depth)} else ${this.statement(depth - 1)}`;
    if (kind === 5) return ";";
    return this.begun(this.expression(depth));
  }

  statements() {
    const when = (type, make) => (isType(type) ? make : null);
    return [
      when("WhileStatement", (depth) => this.round(() => `while (${this.expression(depth)}) ${this.statement(depth)}`)),
      when("DoWhileStatement", (depth) => this.round(() => `do ${this.statement(depth)} while (${this.expression(depth)});`)),
      when("ForStatement", (depth) => this.round(() => `for (${this.first(depth)}; ${this.part(depth)}; ${this.part(depth)}) ${this.statement(depth)}`)),
      when("ForInStatement", (depth) => this.round(() => `for (${this.left(depth)} in ${this.expression(depth)}) ${this.statement(depth)}`)),
      when("ForOfStatement", (depth) => this.round(() => `for (${this.left(depth)} of ${this.assigned(depth)}) ${this.statement(depth)}`)),
      this.awaits && isField("ForOfStatement", "is_await")
        ? (depth) => this.round(() => `for await (${this.leftOfAwait(depth)} of ${noPattern(this.assigned(depth))}) ${this.statement(depth)}`)
        : null,
      when("LabeledStatement", (depth) => this.labelled(depth)),
      when("SwitchStatement", (depth) => this.round(() => this.cases(depth))),
      when("TryStatement", (depth) => this.attempt(depth)),
      when("ThrowStatement", (depth) => `throw ${this.expression(depth)};`),
      when("DebuggerStatement", () => "debugger;"),
      this.loops > 0 ? () => "break;" : null,
      this.functions > 0 ? (depth) => (this.below(4) ? `return ${this.expression(depth)};` : "return;") : null,
    ];
  }

  // What may be left by `break`.
  round(make) {
    this.loops++;
    const text = make();
    this.loops--;
    return text;
  }

  // In the first part `in` stands in brackets.
  first(depth) {
    const kinds = wordsOf("VariableDeclaration", "kind");
    switch (this.below(3)) {
      case 0:
        return "";
      case 1:
        return `${this.of(kinds)} ${this.binding(depth - 1)} = (${this.expression(depth)})`;
      default:
        return `(${this.expression(depth)})`;
    }
  }

  part(depth) {
    return this.below(3) ? this.expression(depth) : "";
  }

  leftOfAwait(depth) {
    return this.below(6) ? this.left(depth) : "async";
  }

  left(depth) {
    if (this.below(2)) return `${this.of(wordsOf("VariableDeclaration", "kind"))} ${this.binding(depth - 1)}`;
    const target = this.below(3) ? this.target(depth) : this.targets(depth - 1);
    return /^(async|let)$/.test(target) ? `(${target})` : target;
  }

  labelled(depth) {
    const name = `l${this.declared++}`;
    switch (this.below(3)) {
      case 0:
        return `${name}: while (${this.expression(depth)}) continue ${name};`;
      case 1:
        return `${name}: { ${this.statement(depth)} break ${name}; }`;
      default:
        return `${name}: ${this.statement(depth)}`;
    }
  }

  cases(depth) {
    const tests = this.several(0, 3, () => `case ${this.expression(depth)}:`);
    if (this.below(2)) tests.splice(this.below(tests.length + 1), 0, "default:");
    const bodies = tests.map((test) => `${test} ${this.several(0, 2, () => this.item(depth)).join(" ")}`);
    return `switch (${this.expression(depth)}) { ${bodies.join(" ")} }`;
  }

  attempt(depth) {
    const braces = () => `{ ${this.several(0, 2, () => this.item(depth)).join(" ")} }`;
    const handler = this.below(3) ? ` catch ${this.below(2) ? `(${this.binding(depth - 1)}) ` : ""}${braces()}` : "";
    return `try ${braces()}${handler}${handler === "" || this.below(2) ? ` finally ${braces()}` : ""}`;
  }

  // ---- functions

  function(depth, name) {
    const { before, star, words } = this.kindOfFunction();
    return `${before}function${star} ${name}${this.parameters(depth)} ${this.functionBody(depth, words)}`;
  }

  // Whether a function or a method is async, and whether it is a generator: what stands before it, and what may stand in it.
  kindOfFunction() {
    const awaits = isField("Function", "is_async") && this.below(4) === 0;
    const yields = isField("Function", "generator") && this.below(5) === 0;
    return { before: awaits ? "async " : "", star: yields ? "*" : "", words: { awaits, yields } };
  }

  // Draws where `await` and `yield` may stand so.
  with({ awaits, yields }, make) {
    const outside = { awaits: this.awaits, yields: this.yields };
    Object.assign(this, { awaits: awaits && isType("AwaitExpression"), yields: yields && isType("YieldExpression") });
    const text = make();
    Object.assign(this, outside);
    return text;
  }

  functionBody(depth, words = NEITHER) {
    return this.with(words, () => this.bodyApart(depth));
  }

  bodyApart(depth) {
    return this.apart(this.functions + 1, () => {
      const directives = this.below(6) === 0 ? ['"use asm";', "'a';"].slice(0, 1 + this.below(2)) : [];
      return `{ ${[...directives, ...this.several(0, 3, () => this.item(depth))].join(" ")} }`;
    });
  }

  // Statements that no jump leaves, within so many functions.
  apart(functions, make) {
    const outside = { loops: this.loops, functions: this.functions };
    Object.assign(this, { loops: 0, functions });
    const text = make();
    Object.assign(this, outside);
    return text;
  }

  functionExpression(depth) {
    return `(${this.function(depth, this.below(2) ? `n${this.declared++}` : "")})`;
  }

  parameters(depth) {
    const { items, rest } = this.parameterList(depth);
    return `(${[...items, ...rest].join(", ")})`;
  }

  parameterList(depth) {
    return this.with(NEITHER, () => this.parametersApart(depth));
  }

  parametersApart(depth) {
    const drawn = this.several(0, 3, () => this.of(NAMES)).filter((name, at, all) => all.indexOf(name) === at);
    const names = drawn.map((name) => (this.below(4) ? name : this.binding(depth - 1)));
    const rest = names.length > 0 && this.below(4) === 0 ? [`...${names.pop()}`] : [];
    return { names, items: names.map((name) => (this.below(4) ? name : `${name} = ${this.assigned(depth)}`)), rest };
  }

  // ---- classes

  class(depth, name) {
    const heritage = this.below(4) === 0 ? ` extends ${this.below(2) ? this.of(NAMES) : `(${this.expression(depth)})`}` : "";
    const privates = isType("PrivateIdentifier") ? this.several(0, 3, () => this.of(PRIVATE)) : [];
    const own = privates.filter((privateName, at, all) => all.indexOf(privateName) === at);
    this.privates.push(own);
    const members = own.map((privateName) => this.classElement(depth, `#${privateName}`));
    members.push(...this.several(0, 3, () => this.otherElement(depth)));
    this.privates.pop();
    if (this.below(4) === 0) members.unshift(`constructor${this.parameters(depth)} ${this.functionBody(depth)}`);
    return `class ${name}${heritage} { ${members.join(" ")} }`;
  }

  classExpression(depth) {
    const text = this.class(depth, this.below(2) ? `n${this.declared++}` : "");
    return this.below(2) ? `(${text})` : text;
  }

  otherElement(depth) {
    if (isType("StaticBlock") && this.below(6) === 0) {
      const items = () => `{ ${this.several(0, 2, () => this.item(depth)).join(" ")} }`;
      return `static ${this.with(NEITHER, () => this.apart(0, items))}`;
    }
    return this.classElement(depth, this.below(4) ? this.of(MEMBERS) : `[${this.assigned(depth)}]`);
  }

  // A member by its key. Of a private accessor both halves are of one kind.
  classElement(depth, key) {
    const before = this.below(3) === 0 ? "static " : "";
    const get = () => `${before}get ${key}() ${this.functionBody(depth)}`;
    const set = () => `${before}set ${key}(${this.with(NEITHER, () => this.binding(depth))}) ${this.functionBody(depth)}`;
    switch (this.below(6)) {
      case 0:
        return `${before}${this.method(depth, key)}`;
      case 1:
        return get();
      case 2:
        return this.below(2) ? set() : `${get()} ${set()}`;
      case 3:
        return `${before}${key};`;
      default:
        return `${before}${key} = ${this.with(NEITHER, () => this.assigned(depth))};`;
    }
  }

  method(depth, key) {
    const { before, star, words } = this.kindOfFunction();
    return `${before}${star}${key}${this.parameters(depth)} ${this.functionBody(depth, words)}`;
  }

  // One of the private names that may be used here, or null.
  privateName() {
    const names = this.privates.flat();
    return names.length > 0 ? `#${this.of(names)}` : null;
  }

  // ---- patterns

  // A name that is bound, or a pattern of such names.
  binding(depth) {
    const makers = [isType("ObjectPattern") && this.objectPattern, isType("ArrayPattern") && this.arrayPattern];
    const isName = depth <= 0 || this.below(3) > 0 || !makers.every((maker) => maker);
    return isName ? `n${this.declared++}` : this.of(makers).call(this, depth - 1);
  }

  objectPattern(depth) {
    const properties = this.several(0, 3, () => this.bindingProperty(depth));
    const rest = this.below(4) === 0 ? [`...n${this.declared++}`] : [];
    return `{ ${[...properties, ...rest].join(", ")} }`;
  }

  bindingProperty(depth) {
    const name = `n${this.declared++}`;
    const text = this.of([name, `${name}: ${name}`, `${this.key(depth)}: ${this.binding(depth)}`]);
    return this.withDefault(text, depth);
  }

  arrayPattern(depth) {
    const elements = this.several(0, 3, () => (this.below(5) ? this.withDefault(this.binding(depth), depth) : ""));
    return this.listWithHoles(elements, this.below(4) === 0 ? this.binding(depth) : null);
  }

  withDefault(text, depth) {
    return this.below(3) ? text : `${text} = ${this.assigned(depth)}`;
  }

  // A comma that nothing follows is none, so a hole at the end has one of its own.
  listWithHoles(elements, rest) {
    const text = rest === null ? elements : [...elements, `...${rest}`];
    return `[${text.join(", ")}${text.at(-1) === "" ? "," : ""}]`;
  }

  // An object or an array of targets.
  targets(depth) {
    const makers = [isType("ObjectAssignmentTarget") && this.objectTarget, isType("ArrayAssignmentTarget") && this.arrayTarget];
    return makers.every((maker) => maker) ? this.of(makers).call(this, depth - 1) : this.target(depth);
  }

  objectTarget(depth) {
    const properties = this.several(0, 3, () => this.targetProperty(depth));
    const rest = this.below(4) === 0 ? [`...${this.target(depth)}`] : [];
    return `{ ${[...properties, ...rest].join(", ")} }`;
  }

  targetProperty(depth) {
    const name = this.name();
    const text = this.of([name, name, `${name}: ${name}`, `${this.key(depth)}: ${this.anyTarget(depth)}`]);
    return this.withDefault(text, depth);
  }

  arrayTarget(depth) {
    const elements = this.several(0, 3, () => (this.below(5) ? this.withDefault(this.anyTarget(depth), depth) : ""));
    return this.listWithHoles(elements, this.below(4) === 0 ? this.anyTarget(depth) : null);
  }

  anyTarget(depth) {
    return depth <= 0 || this.below(2) ? this.target(depth) : this.targets(depth - 1);
  }

  // A statement before `else`, whose inner `if` may not take it.
  block(depth) {
    return this.below(2) ? `{ ${this.statement(depth - 1)} }` : this.begun(this.assigned(1));
  }

  // What may not begin a statement stands in parentheses, and so does what would be a directive.
  begun(text) {
    return /^(\{|function\b|class\b|let\b|async\b|import\b|\/=|["'])/.test(text) ? `(${text});` : `${text};`;
  }

  // ---- expressions, each with what it is made of in parentheses by half

  expression(depth) {
    if (!isType("SequenceExpression") || this.below(8) > 0) return this.assigned(depth);
    return this.several(2, 3, () => this.assigned(depth - 1)).join(", ");
  }

  // An expression that may stand between commas.
  assigned(depth) {
    const makers = this.makers().filter((maker) => maker !== null);
    return depth <= 0 ? this.leaf() : this.of(makers).call(this, depth - 1);
  }

  inside(depth) {
    const text = this.expression(depth);
    return this.below(3) && /^[\p{L}$_][\p{L}\w$]*$/u.test(text) ? text : `(${text})`;
  }

  makers() {
    const when = (type, make) => (isType(type) ? make : null);
    return [
      this.leaf, this.leaf, this.binary, this.binary, this.logical, this.member, this.call,
      when("UnaryExpression", this.unary),
      when("UnaryExpression", this.signs),
      when("UpdateExpression", this.update),
      when("NewExpression", this.construction),
      when("ArrayExpression", this.array),
      when("ObjectExpression", this.object),
      when("ConditionalExpression", this.conditional),
      when("AssignmentExpression", this.assignment),
      when("ChainExpression", this.chain),
      when("ArrowFunctionExpression", this.arrow),
      when("Function", this.functionExpression),
      when("Class", this.classExpression),
      when("PrivateInExpression", this.privateIn),
      when("ObjectAssignmentTarget", this.destructuring),
      when("TemplateLiteral", (depth) => this.template(depth, PIECES)),
      when("TaggedTemplateExpression", (depth) => `${this.inside(depth)}${this.template(depth, [...PIECES, ...INVALID_PIECES])}`),
      when("ImportExpression", (depth) => `import(${this.assigned(depth)})`),
      this.awaits ? (depth) => this.halfWrapped(`await ${noPattern(this.inside(depth))}`) : null,
      this.yields ? (depth) => `(${this.yield(depth)})` : null,
      this.quoted,
    ];
  }

  // Of two pieces no `$` ends the one before the `{` of another.
  template(depth, pieces) {
    const texts = this.several(1, 3, () => this.of(pieces));
    const parts = texts.map((text, at) => `${at > 0 ? `\${${this.expression(depth - 1)}}` : ""}${text === "$" ? "\\$" : text}`);
    return `\`${parts.join("")}\``;
  }

  yield(depth) {
    return this.of(["yield", `yield ${noPattern(this.assigned(depth))}`, `yield* ${noPattern(this.assigned(depth))}`]);
  }

  halfWrapped(text) {
    return this.below(2) ? `(${text})` : text;
  }

  // A name of any kind, or that of a constant, which may be one of another block.
  name() {
    return this.declared > 0 && this.below(3) === 0 ? `n${this.below(this.declared)}` : this.of(NAMES);
  }

  leaf() {
    const kinds = [() => this.name(), () => this.name(), () => this.of(STRINGS), () => this.of(WHOLE)];
    if (wordsOf("NumericLiteral", "kind").includes("raw")) kinds.push(() => this.of(RAW));
    if (isType("RegExpLiteral")) kinds.push(() => this.of(PATTERNS));
    if (isType("BigIntLiteral")) kinds.push(() => `${this.of(WHOLE)}n`, () => "0xFn");
    if (isType("ImportMeta")) kinds.push(() => "import.meta");
    for (const [type, word] of [["ThisExpression", "this"], ["NullLiteral", "null"], ["BooleanLiteral", this.of(["true", "false"])]]) {
      if (isType(type)) kinds.push(() => word);
    }
    return this.of(kinds)();
  }

  binary(depth) {
    return `${this.inside(depth)} ${this.of(wordsOf("BinaryExpression", "operator"))} ${this.inside(depth)}`;
  }

  logical(depth) {
    return `${this.inside(depth)} ${this.of(["&&", "||", "??"])} ${this.inside(depth)}`;
  }

  member(depth) {
    const privateName = this.below(2) ? this.privateName() : null;
    if (privateName !== null) return `${this.below(8) ? this.inside(depth) : `${this.of(WHOLE)} `}.${privateName}`;
    if (this.below(8) === 0) return `${this.of(WHOLE)} .${this.of(KEYS)}`;
    return this.below(2) ? `${this.inside(depth)}.${this.of(KEYS)}` : `${this.inside(depth)}[${this.expression(depth)}]`;
  }

  // A name or a member: what may be assigned to.
  target(depth) {
    return this.below(2) ? this.of(NAMES) : this.member(depth);
  }

  listed(depth) {
    const isSpread = isType("SpreadElement") && this.below(6) === 0;
    return `${isSpread ? "..." : ""}${this.assigned(depth)}`;
  }

  call(depth) {
    return `${this.inside(depth)}(${this.several(0, 3, () => this.listed(depth)).join(", ")})`;
  }

  construction(depth) {
    const callee = this.below(2) ? this.of(NAMES) : `(${this.expression(depth)})`;
    return `new ${callee}${this.below(3) ? `(${this.several(0, 2, () => this.listed(depth)).join(", ")})` : ""}`;
  }

  unary(depth) {
    return `${this.of(["+", "-", "!", "~", "typeof ", "void ", "delete a."])}${this.operand(depth)}`;
  }

  // What stands behind a unary sign: after `delete a.` it goes on with a member.
  operand(depth) {
    return this.below(2) ? this.of(NAMES) : `b[${this.expression(depth)}]`;
  }

  // A sign before another sign.
  signs(depth) {
    const inner = this.below(2) && isType("UpdateExpression") ? this.update(depth) : this.unary(depth);
    return `${this.of(["+", "-", "!", "typeof"])} ${inner}`;
  }

  update(depth) {
    const sign = this.of(["++", "--"]);
    return this.below(2) ? `${sign}${this.target(depth)}` : `${this.target(depth)}${sign}`;
  }

  array(depth) {
    return `[${this.several(0, 4, () => (this.below(6) ? this.listed(depth) : "")).join(", ")}]`;
  }

  object(depth) {
    return `({ ${this.several(0, 3, () => this.property(depth)).join(", ")} })`;
  }

  property(depth) {
    switch (this.below(isType("Function") ? 8 : 6)) {
      case 6:
        return this.method(depth, this.key(depth));
      case 7:
        return this.below(2)
          ? `get ${this.key(depth)}() ${this.functionBody(depth)}`
          : `set ${this.key(depth)}(${this.below(4) ? this.of(NAMES) : this.with(NEITHER, () => this.binding(depth))}) ${this.functionBody(depth)}`;
      case 0:
        return this.name();
      case 1:
        return `[${this.assigned(depth)}]: ${this.assigned(depth)}`;
      case 2:
        return `...${this.assigned(depth)}`;
      case 3:
        return `${this.of(["'key'", '"</script>"', ...WHOLE])}: ${this.assigned(depth)}`;
      default:
        return `${this.of(KEYS.filter((key) => key !== "__proto__"))}: ${this.assigned(depth)}`;
    }
  }

  // Of a method or an accessor.
  key(depth) {
    return this.of([() => this.of(KEYS), () => this.of(["'key'", ...WHOLE]), () => `[${this.assigned(depth)}]`])();
  }

  conditional(depth) {
    return `${this.inside(depth)} ? ${this.assigned(depth)} : ${this.assigned(depth)}`;
  }

  assignment(depth) {
    const words = wordsOf("AssignmentExpression", "operator");
    return `${this.target(depth)} ${this.of(words)} ${this.assigned(depth)}`;
  }

  chain(depth) {
    const name = this.privateName() ?? "d";
    const links = this.several(0, 2, () => this.of([".c", "[a]", "(b)", "?.c", "?.[a]", "?.(b)", `.${name}`, `?.${name}`]));
    return `${this.inside(depth)}?.${this.of(["a", "[b]", "()", name])}${links.join("")}`;
  }

  privateIn(depth) {
    const name = this.privateName();
    return name === null ? this.leaf() : `${name} in ${this.inside(depth)}`;
  }

  destructuring(depth) {
    const text = `${this.targets(depth)} = ${this.assigned(depth)}`;
    return this.below(2) ? `(${text})` : text;
  }

  arrow(depth) {
    const { names, items, rest } = this.parameterList(depth);
    const isBare = items.length + rest.length === 1 && items[0] === names[0] && !/^[[{]/.test(items[0]) && this.below(2) === 0;
    const awaits = isField("ArrowFunctionExpression", "is_async") && this.below(4) === 0;
    const body = this.with({ awaits, yields: false }, () => this.arrowBody(depth, { awaits, yields: false }));
    return `${awaits ? "async " : ""}${isBare ? names[0] : `(${[...items, ...rest].join(", ")})`} => ${body}`;
  }

  // Some have an object at their start, which stands in parentheses.
  arrowBody(depth, words) {
    switch (this.below(isType("FunctionBody") ? 10 : 8)) {
      case 8:
      case 9:
        return this.functionBody(depth, words);
      case 0:
        return `(${this.expression(depth)})`;
      case 1:
        return isType("ObjectExpression") ? `${this.object(depth)}${this.of(["", ".a", "[b]", "()", " + a", " ? a : b", ".a = b"])}` : "a";
      default:
        return this.assigned(depth).replace(/^\{.*/s, "($&)");
    }
  }

  // A string in a place where minified text keeps it in plain quotes, or nearly such a place.
  quoted(depth) {
    const string = this.of(QUOTED);
    switch (this.below(4)) {
      case 0:
        return `${this.of(["require", "require", "(require)", "a.require"])}(${string}${this.of(["", "", ", a"])})`;
      case 1:
        return `${this.of(["Object", "Reflect", "(Object)"])}.defineProperty(${this.listed(depth)}, ${string}, ${this.assigned(depth)})`;
      case 2:
        return this.exported(depth, string);
      default:
        return `${this.of(['"default"', "('__esModule')", string])} ${this.of(["==", "!=", "===", "!==", "<"])} ${this.inside(depth)}`;
    }
  }

  exported(depth, string) {
    const member = `${this.of(["exports", "module.exports", "(module.exports)", "this.exports"])}[${string}]`;
    if (!isType("AssignmentExpression") || this.below(4) === 0) return member;
    return `${member} ${this.of(wordsOf("AssignmentExpression", "operator"))} ${this.assigned(depth)}`;
  }
}
