// Which binding each name of a program stands for, in what jsgen reads by now: declarations of the module, of functions and of
// blocks, parameters, what a handler catches, and the own names of functions and classes. Each binding is a symbol, and gets a
// new name. A label is none. A private name is one of the innermost class round it that has a member of that name.
import { isOfBabel, isOptional, isPrivateName, privateNameIn } from "./babel_views.mjs";
import { boundIn, declaredBy, namesOf, variablesIn } from "./declared.mjs";
import { childrenOf } from "./members.mjs";
import { NotRead, causeOf, placeOf, rootOf } from "./refusals.mjs";
import { withoutParentheses } from "./texts.mjs";
import { validate } from "./validate.mjs";

const RESERVED = new Set(
  (
    "arguments await break case catch class const continue debugger default delete do else enum eval export extends false finally "
    + "for function if implements import in instanceof interface let new null package private protected public return static super "
    + "switch this throw true try typeof var void while with yield"
  ).split(" "),
);
const PROTO = "__proto__";

/** Letters of which new names are made: of ASCII, and past it. */
export const LETTERS = [..."abcdefghijklmnopqrstuvwxyz"];
export const SIGNS = ["é", "日本", "größe", "\u{20BB7}", "ñ", "ℵ", "π\u200D1", "_ü"];

/**
 * The tables of a job that print each binding of the program by a new name, which no other binding and no global of it has, and
 * each private name by one that no class round its own has given. `symbols`, `references` and `private` are those of the job;
 * `symbolOf` and `referenceOf` have the numbers of the nodes, and `privateOf` the new names of the private ones; `shorthand` are
 * the references and bindings that are properties too, as in `{ a }`, and `specifiers` those of imports and exports, as in
 * `export { a }`, with how they are written out. A binding that is `__proto__` in an object that is no pattern keeps its name,
 * since of such a property the name is more than a name, and so does what `export` declares. What is bound round a direct
 * `eval`, and the private names of the classes round it, keep their names too, since its code may use any of them. A node that stands
 * in the tree more than once has one name, so what it names in each place gets the same.
 * Throws `NotRead` and `MalformedTree` as `jobOf` does.
 */
export function renaming(program, letters = LETTERS) {
  const areLetters = Array.isArray(letters) && letters.length > 0 && letters.every((letter) => typeof letter === "string" && letter !== "");
  if (!areLetters) throw new TypeError("letters are a list of texts, of one at least");
  const root = rootOf(program);
  try {
    validate(root, (what, node, hint) => {
      throw new NotRead(what, node, placeOf(node, undefined, root), hint);
    });
    return tablesOf(root, letters);
  } catch (error) {
    throw causeOf(error, root);
  }
}

function tablesOf(program, letters) {
  const scopes = new Scopes(letters, isOfBabel(program));
  scopes.body(program.body, null);
  const protos = scopes.protos.map((node) => scopes.symbolBehind(node));
  const exported = scopes.exported.map((node) => scopes.symbolOf.get(node));
  const kept = new Set([...protos, ...exported, ...scopes.seenByEval, ...scopes.alsoGlobal].map((symbol) => scopes.first(symbol)));
  const globals = scopes.references.filter(({ symbol }) => symbol === null).map(({ name }) => name);
  const fresh = freshNames(letters, new Set([...globals, ...[...kept].map((symbol) => scopes.symbols[symbol])]));
  const symbols = [];
  for (const [symbol, name] of scopes.symbols.entries()) {
    const first = scopes.first(symbol);
    symbols.push(kept.has(first) ? name : first < symbol ? symbols[first] : fresh.next().value);
  }
  return {
    symbols,
    references: scopes.references.map(({ symbol }) => symbol),
    private: scopes.privateTables(),
    symbolOf: scopes.symbolOf,
    referenceOf: scopes.referenceOf,
    privateOf: scopes.privateOf,
    shorthand: scopes.shorthand,
    specifiers: scopes.specifiers,
  };
}

/** The source with the new names in it: what the job with these tables is to print, in other words. */
export function renamedSource(source, names) {
  let text = "";
  let at = 0;
  for (const [node, written] of editsOf(names)) {
    text += source.slice(at, node.start) + written;
    at = node.end;
  }
  return text + source.slice(at);
}

/** The nodes in whose place something else stands there, in order, each with that. */
export function editsOf({ symbols, references, symbolOf, referenceOf, privateOf, shorthand, specifiers }) {
  const bindings = [...symbolOf].map(([node, symbol]) => [node, symbols[symbol]]);
  const looked = [...referenceOf].filter(([, reference]) => references[reference] !== null);
  const uses = looked.map(([node, reference]) => [node, symbols[references[reference]]]);
  const privates = [...privateOf].map(([node, name]) => [node, `#${name}`]);
  const inOrder = [...bindings, ...uses, ...privates].sort(([one], [other]) => one.start - other.start);
  return inOrder.map(([node, name]) => [node, writtenOut(node, name, shorthand, specifiers)]);
}

// The new name, beside the old one where that stood for two.
function writtenOut(node, name, shorthand, specifiers) {
  if (name === node.name) return name;
  if (shorthand.has(node)) return `${node.name}: ${name}`;
  switch (specifiers.get(node)) {
    case "import":
      return `${node.name} as ${name}`;
    case "export":
      return `${name} as ${node.name}`;
    default:
      return name;
  }
}

// Names of one letter, of two, and so on, each once.
function* freshNames(letters, taken) {
  for (let number = 0; ; number++) {
    let name = "";
    for (let rest = number; rest >= 0; rest = Math.floor(rest / letters.length) - 1) name = letters[rest % letters.length] + name;
    if (taken.has(name) || RESERVED.has(name)) continue;
    taken.add(name);
    yield name;
  }
}

class Scopes {
  constructor(letters, isBabels) {
    this.letters = letters;
    this.isBabels = isBabels;
    this.symbols = []; // their own names
    this.symbolOf = new Map();
    this.references = []; // each with its name and its symbol, or null
    this.referenceOf = new Map();
    this.classes = []; // the new names of the private ones of each, in the order in which their bodies begin
    this.privateOf = new Map();
    this.shorthand = new Set();
    this.specifiers = new Map(); // names that stand for both names of an import or an export
    this.exported = []; // what `export` declares
    this.protos = [];
    this.seenByEval = new Set(); // symbols
    // symbols that one node stands for: each with a smaller one, and those that such a node stands for beside a global
    this.smaller = new Map();
    this.alsoGlobal = new Set();
  }

  symbolBehind(node) {
    return this.references[this.referenceOf.get(node)].symbol;
  }

  // The first of the symbols that get the same name. All of them have one name before, so none hides another that it didn't hide.
  first(symbol) {
    const smaller = this.smaller.get(symbol);
    return smaller === undefined ? symbol : this.first(smaller);
  }

  unite(one, other) {
    const firsts = [this.first(one), this.first(other)];
    if (firsts[0] !== firsts[1]) this.smaller.set(Math.max(...firsts), Math.min(...firsts));
  }

  bind(node, symbol) {
    if (this.symbolOf.has(node)) this.unite(this.symbolOf.get(node), symbol);
    this.symbolOf.set(node, symbol);
  }

  // A scope in which these nodes are bound: their symbols by their names. A name that is bound twice is one symbol, and so is
  // one that is among the names already.
  scope(nodes, outer, names = new Map()) {
    for (const node of nodes) {
      if (!names.has(node.name)) names.set(node.name, this.symbols.push(node.name) - 1);
      this.bind(node, names.get(node.name));
    }
    return { names, outer };
  }

  // The body of a module, or a static block, where `var` is bound from anywhere in it.
  body(nodes, outer) {
    const scope = this.scope([...nodes.flatMap(variablesIn), ...nodes.flatMap(declaredBy)], outer);
    for (const node of nodes) this.visit(node, scope);
  }

  // Statements, or the head of a loop, with what they declare themselves.
  block(nodes, outer) {
    const scope = this.scope(nodes.flatMap(declaredBy), outer);
    for (const node of nodes) this.visit(node, scope);
    return scope;
  }

  symbolNamed(name, scope) {
    let at = scope;
    while (at && !at.names.has(name)) at = at.outer;
    return at ? at.names.get(name) : null;
  }

  reference(node, scope) {
    const symbol = this.symbolNamed(node.name, scope);
    if (this.referenceOf.has(node)) this.alike(this.symbolBehind(node), symbol);
    this.referenceOf.set(node, this.references.push({ name: node.name, symbol }) - 1);
  }

  // What one node refers to in two places.
  alike(one, other) {
    if (one !== null && other !== null) this.unite(one, other);
    else if (one !== other) this.alsoGlobal.add(one ?? other);
  }

  // Code that a direct `eval` runs names what is bound round the call. What it declares itself nothing else sees, since it is strict.
  directEval(scope) {
    for (let at = scope; at; at = at.outer) for (const symbol of at.names.values()) this.seenByEval.add(symbol);
  }

  visit(node, scope) {
    switch (node?.type) {
      case undefined:
        return null;
      case "Identifier":
        return this.reference(node, scope);
      case "CallExpression":
      case "OptionalCallExpression":
        if (isDirectEval(node, this.isBabels)) this.directEval(scope);
        return this.children(node, scope);
      case "BlockStatement":
        return this.block(node.body, scope);
      case "VariableDeclarator":
        this.pattern(node.id, scope);
        return this.visit(node.init, scope);
      case "FunctionDeclaration":
        return this.function(node, scope);
      case "FunctionExpression":
        return this.function(node, this.scope(node.id ? [node.id] : [], scope));
      case "ArrowFunctionExpression":
        return this.function(node, scope);
      case "ClassDeclaration":
        return this.class(node, scope);
      case "ClassExpression":
        return this.class(node, this.scope(node.id ? [node.id] : [], scope));
      case "StaticBlock":
        return this.body(node.body, scope);
      case "PrivateIdentifier":
      case "PrivateName":
        return this.privateOf.set(node, newPrivateName(privateNameIn(node), scope));
      case "ForStatement":
        return this.loop([node.init], [node.test, node.update, node.body], scope);
      case "ForInStatement":
      case "ForOfStatement":
        return this.loop([node.left], [node.right, node.body], scope);
      case "SwitchStatement":
        this.visit(node.discriminant, scope);
        return this.cases(node.cases, scope);
      case "CatchClause":
        return this.handler(node, this.caught(node, scope));
      case "ImportDeclaration":
        for (const { local, imported } of node.specifiers) if (local.start === imported?.start) this.specifiers.set(local, "import");
        return null;
      case "ExportAllDeclaration":
        return null;
      case "ExportNamedDeclaration":
        return this.exports(node, scope);
      case "LabeledStatement":
        return this.visit(node.body, scope);
      case "BreakStatement":
      case "ContinueStatement":
      case "MetaProperty":
        return null;
      case "ImportExpression":
        this.visit(node.source, scope);
        return this.visit(node.options ?? node.attributes, scope);
      case "MemberExpression":
      case "OptionalMemberExpression":
        this.visit(node.object, scope);
        return this.key(node.property, node, scope);
      case "MethodDefinition":
      case "PropertyDefinition":
      case "ClassProperty":
      case "ClassPrivateProperty":
        this.key(node.key, node, scope);
        return this.visit(node.value, scope);
      case "ObjectMethod":
      case "ClassMethod":
      case "ClassPrivateMethod":
        this.key(node.key, node, scope);
        return this.function(node, this.scope([], scope));
      case "Property":
      case "ObjectProperty":
        this.property(node, scope);
        return this.visit(node.value, scope);
      case "ObjectExpression":
        this.protos.push(...node.properties.filter(({ shorthand, value }) => shorthand && value.name === PROTO).map(({ value }) => value));
        return this.children(node, scope);
      default:
        return this.children(node, scope);
    }
  }

  // What is exported by its name is a reference, but of another module's.
  exports({ declaration, specifiers, source }, scope) {
    if (declaration) {
      this.exported.push(...declaredBy(declaration), ...(declaration.kind === "var" ? namesOf(declaration) : []));
      return this.visit(declaration, scope);
    }
    if (source) return null;
    for (const { local, exported } of specifiers) {
      if (local.start === exported.start) this.specifiers.set(local, "export");
      this.reference(local, scope);
    }
    return null;
  }

  children(node, scope) {
    for (const child of childrenOf(node)) this.visit(child, scope);
  }

  // A name that isn't private is no reference there.
  key(key, { computed }, scope) {
    if (computed || isPrivateName(key)) this.visit(key, scope);
  }

  property({ key, value, computed, shorthand }, scope) {
    if (computed) this.visit(key, scope);
    if (shorthand) this.shorthand.add(value.type === "AssignmentPattern" ? value.left : value);
  }

  // What a pattern holds beside the names that it binds: keys, and what is taken where there is no value.
  pattern(node, scope) {
    switch (node?.type) {
      case "ObjectPattern":
        for (const property of node.properties) this.pattern(property, scope);
        return;
      case "ArrayPattern":
        for (const element of node.elements) this.pattern(element, scope);
        return;
      case "Property":
      case "ObjectProperty":
        this.property(node, scope);
        this.pattern(node.value, scope);
        return;
      case "AssignmentPattern":
        this.pattern(node.left, scope);
        this.visit(node.right, scope);
        return;
      case "RestElement":
        this.pattern(node.argument, scope);
    }
  }

  loop(head, rest, outer) {
    const scope = this.block(head.filter((node) => node), outer);
    for (const node of rest) this.visit(node, scope);
  }

  handler({ param, body }, scope) {
    this.pattern(param, scope);
    this.visit(body, scope);
  }

  // A variable of the same name that the handler's block declares takes its value by the name that is caught, so both are one.
  caught({ param, body }, outer) {
    const isVariable = param?.type === "Identifier" && variablesIn(body).some(({ name }) => name === param.name);
    if (!isVariable) return this.scope(boundIn(param), outer);
    this.bind(param, this.symbolNamed(param.name, outer));
    return outer;
  }

  // All cases are one block.
  cases(nodes, outer) {
    const scope = this.scope(nodes.flatMap((node) => node.consequent).flatMap(declaredBy), outer);
    for (const node of nodes) {
      this.visit(node.test, scope);
      for (const statement of node.consequent) this.visit(statement, scope);
    }
  }

  // What a parameter is where none is given may name any of them, but nothing that the body declares. A variable of the body takes
  // its first value from the parameter of its name. The name of a declaration is bound outside.
  function(node, outer) {
    const scope = this.scope(node.params.flatMap(boundIn), outer);
    if (node.body.type !== "BlockStatement") {
      this.parameters(node, scope);
      return this.visit(node.body, scope);
    }
    const statements = node.body.body;
    const inside = this.scope([...statements.flatMap(variablesIn), ...statements.flatMap(declaredBy)], outer, new Map(scope.names));
    this.parameters(node, scope);
    for (const statement of statements) this.visit(statement, inside);
    return null;
  }

  parameters({ params }, scope) {
    for (const param of params) this.pattern(param, scope);
  }

  // What a class extends has no private names of its own.
  class({ superClass, body }, outer) {
    this.visit(superClass, outer);
    const privates = this.newPrivateNames(body, outer);
    this.classes.push(privates);
    for (const element of body.body) this.visit(element, { names: new Map(), privates, outer });
  }

  newPrivateNames(body, outer) {
    const taken = tablesRound(outer).flatMap((table) => [...table.values()]);
    const fresh = freshNames(this.letters, new Set(taken));
    const names = body.body.filter(({ key }) => key && isPrivateName(key)).map(({ key }) => privateNameIn(key));
    const areKept = names.length > 0 && holdsEval(body, this.isBabels);
    return new Map([...new Set(names)].map((name) => [name, areKept ? name : fresh.next().value]));
  }

  privateTables() {
    return this.classes.map((privates) => Object.fromEntries(privates));
  }
}

// The new names of private ones by the classes round a scope, from the innermost outwards.
function tablesRound(scope) {
  if (!scope) return [];
  return [...(scope.privates ? [scope.privates] : []), ...tablesRound(scope.outer)];
}

function newPrivateName(name, scope) {
  return tablesRound(scope).find((table) => table.has(name))?.get(name) ?? name;
}

// A call of `eval` by its name, which may be in parentheses, and not in an optional call.
function isDirectEval(node, isBabels) {
  return /^(Optional)?CallExpression$/.test(node.type) && !isOptional(node, isBabels) && withoutParentheses(node.callee).name === "eval";
}

function holdsEval(node, isBabels) {
  return isDirectEval(node, isBabels) || childrenOf(node).some((child) => holdsEval(child, isBabels));
}
