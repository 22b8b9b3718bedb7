// The part of the converter for expressions, patterns, functions and classes.
import { isLiteral, isPrivateName, privateNameIn } from "./babel_views.mjs";
import * as forms from "./forms.mjs";
import { literalOf } from "./literals.mjs";
import { isWholeNumber, withoutParentheses } from "./texts.mjs";
import { Walk } from "./walk.mjs";
import { flag } from "./words.mjs";

const DECLARATION = forms.FUNCTION.word("kind", "declaration");
const EXPRESSION = forms.FUNCTION.word("kind", "expression");
const WHOLE = forms.WHOLE_NUMBER.word("kind", "whole");
const RAW = forms.RAW_NUMBER.word("kind", "raw");
const MINUS = forms.UNARY.word("operator", "-");
// The value of a BooleanLiteral, which is given whatever it says.
const FALSE = 1;
const TRUE = 2;

// Whether a property says its key again as its value, which may have been changed since.
function isShorthand({ key, computed, value }) {
  const target = value.type === "AssignmentPattern" ? value.left : value;
  return !computed && key.type === "Identifier" && target.type === "Identifier" && target.name === key.name;
}

// Whether a method is written as the constructor of its class.
function isConstructor({ kind, key, computed, static: isStatic }) {
  return (key.name ?? key.value) === "constructor" && !isPrivateName(key) && !computed && !isStatic && kind !== "get" && kind !== "set";
}

// How many nodes of a list stand before what takes the rest.
function countBeforeRest(nodes) {
  return nodes.at(-1)?.type === "RestElement" ? nodes.length - 1 : nodes.length;
}

export class Expressions extends Walk {
  // ---- patterns

  binding(node) {
    switch (node.type) {
      case "Identifier":
        return this.addName(forms.BINDING, node, "symbolOf", "symbol");
      case "ObjectPattern":
        return this.add(
          forms.OBJECT_PATTERN, node,
          this.beforeRest(node.properties, this.bindingProperty),
          this.rest(node.properties, this.bindingRest),
        );
      case "ArrayPattern":
        return this.add(
          forms.ARRAY_PATTERN, node,
          this.beforeRest(node.elements, this.binding),
          this.rest(node.elements, this.bindingRest),
        );
      case "AssignmentPattern":
        return this.add(forms.ASSIGNMENT_PATTERN, node, this.binding(node.left), this.expression(node.right));
      default:
        return this.misplaced(node, "binding pattern");
    }
  }

  bindingProperty(node) {
    this.onlyInit(node);
    return this.add(forms.BINDING_PROPERTY, node, this.key(node), this.binding(node.value), flag(node.computed));
  }

  onlyInit(node) {
    if (node.kind !== "init" || node.method) this.fail(node, "is a method in a pattern");
  }

  bindingRest(node) {
    return this.add(forms.BINDING_REST, node, this.binding(node.argument));
  }

  // The list of what stands before what takes the rest.
  beforeRest(nodes, convert) {
    const count = countBeforeRest(nodes);
    for (let at = 0; at < count; at += 1) {
      if (nodes[at]?.type === "RestElement") this.fail(nodes[at], "is of type RestElement, and something stands behind it");
    }
    return this.several(nodes, convert, 0, count);
  }

  // What takes the rest, where that stands last.
  rest(nodes, convert) {
    return countBeforeRest(nodes) < nodes.length ? convert.call(this, nodes.at(-1)) : 0;
  }

  // What is assigned to. Parentheses round it are no node.
  target(node) {
    const inside = withoutParentheses(node);
    switch (inside.type) {
      case "Identifier":
      case "MemberExpression":
        return this.expression(inside);
      case "ObjectPattern":
        return this.objectTarget(inside);
      case "ArrayPattern":
        return this.arrayTarget(inside);
      default:
        return this.misplaced(inside, "assignment target");
    }
  }

  objectTarget(node) {
    return this.add(
      forms.OBJECT_TARGET, node,
      this.beforeRest(node.properties, this.targetProperty),
      this.rest(node.properties, this.targetRest),
    );
  }

  arrayTarget(node) {
    return this.add(
      forms.ARRAY_TARGET, node,
      this.beforeRest(node.elements, this.targetOrDefault),
      this.rest(node.elements, this.targetRest),
    );
  }

  targetOrDefault(node) {
    if (node.type !== "AssignmentPattern") return this.target(node);
    return this.add(forms.TARGET_WITH_DEFAULT, node, this.target(node.left), this.expression(node.right));
  }

  targetProperty(node) {
    this.onlyInit(node);
    if (node.shorthand && isShorthand(node)) return this.targetIdentifier(node, node.value);
    return this.add(forms.TARGET_PROPERTY, node, this.key(node), this.targetOrDefault(node.value), flag(node.computed));
  }

  targetIdentifier(node, value) {
    const isDefault = value.type === "AssignmentPattern";
    return this.add(
      forms.TARGET_IDENTIFIER, node,
      this.expression(isDefault ? value.left : value),
      isDefault ? this.expression(value.right) : 0,
    );
  }

  targetRest(node) {
    return this.add(forms.TARGET_REST, node, this.target(node.argument));
  }

  // ---- expressions

  expression(node) {
    if (this.annotations.size > 0) this.annotateExpression(node);
    switch (node.type) {
      case "Identifier":
        return this.addName(forms.REFERENCE, node, "referenceOf", "reference");
      case "Literal":
        return this.literal(node);
      case "ThisExpression":
        return this.add(forms.THIS, node);
      case "Super":
        return this.add(forms.SUPER, node);
      case "MetaProperty":
        return this.add(this.metaForm(node), node);
      case "MemberExpression":
        return this.member(node);
      case "CallExpression":
        return this.call(node);
      case "NewExpression":
        return this.add(
          forms.NEW, node,
          this.expression(node.callee), this.several(node.arguments, this.element), flag(this.pure.has(node)),
        );
      case "ParenthesizedExpression":
        return this.add(forms.PARENTHESES, node, this.expression(node.expression));
      case "ChainExpression":
        return this.add(forms.CHAIN, node, this.expression(node.expression));
      case "BinaryExpression":
        if (node.operator === "in" && isPrivateName(node.left)) return this.privateIn(node);
        return this.operation(forms.BINARY, node, this.expression(node.left), this.expression(node.right));
      case "LogicalExpression":
        return this.operation(forms.LOGICAL, node, this.expression(node.left), this.expression(node.right));
      case "UnaryExpression":
        return this.unary(node);
      case "AwaitExpression":
        return this.add(forms.AWAIT, node, this.expression(node.argument));
      case "YieldExpression":
        return this.add(forms.YIELD, node, flag(node.delegate), this.maybe(node.argument, this.expression));
      case "UpdateExpression":
        return this.operation(forms.UPDATE, node, flag(node.prefix), this.target(node.argument));
      case "ConditionalExpression":
        return this.add(
          forms.CONDITIONAL, node,
          this.expression(node.test),
          this.expression(node.consequent),
          this.expression(node.alternate),
        );
      case "AssignmentExpression":
        return this.operation(forms.ASSIGNMENT, node, this.target(node.left), this.expression(node.right));
      case "SequenceExpression":
        return this.add(forms.SEQUENCE, node, this.several(node.expressions, this.expression));
      case "ArrayExpression":
        return this.add(forms.ARRAY, node, this.several(node.elements, this.element));
      case "ObjectExpression":
        return this.add(forms.OBJECT, node, this.several(node.properties, this.property));
      case "ArrowFunctionExpression":
        return this.arrow(node);
      case "FunctionExpression":
        return this.function(node, EXPRESSION);
      case "ClassExpression":
        return this.class(node, EXPRESSION);
      case "ImportExpression":
        return this.importExpression(node);
      case "TemplateLiteral":
        return this.template(node);
      case "TaggedTemplateExpression":
        return this.add(forms.TAGGED_TEMPLATE, node, this.expression(node.tag), this.template(node.quasi));
      default:
        return this.otherExpression(node);
    }
  }

  otherExpression(node) {
    return this.misplaced(node, "expression");
  }

  // A row whose operator stands before the other fields, and is looked at behind what stands in them.
  operation(form, node, word2, word3) {
    return this.add(form, node, this.word(form, node, node.operator), word2, word3);
  }

  call(node) {
    return this.add(
      forms.CALL, node,
      this.expression(node.callee), this.several(node.arguments, this.element), flag(this.isOptional(node)), flag(this.pure.has(node)),
    );
  }

  // Whether a member or a call is a link by `?.`.
  isOptional(node) {
    return node.optional;
  }

  metaForm({ meta, property }) {
    if (meta.name === "new" && property.name === "target") return forms.NEW_TARGET;
    if (meta.name === "import" && property.name === "meta") return forms.IMPORT_META;
    return this.fail(property, `is ${property.name}, of which ${meta.name} has none`);
  }

  // Babel has the second argument twice.
  importExpression(node) {
    const options = node.options ?? node.attributes;
    if ((node.attributes ?? options) !== options) this.fail(node, "has options and other attributes");
    return this.add(forms.DYNAMIC_IMPORT, node, this.expression(node.source), this.maybe(options, this.expression));
  }

  template(node) {
    return this.add(forms.TEMPLATE, node, this.several(node.quasis, this.piece), this.several(node.expressions, this.expression));
  }

  // A piece of a template: its text as it is written, with plain line ends, and what that stands for.
  piece(node) {
    const { raw, cooked = null } = node.value ?? {};
    if (typeof raw !== "string" || !(cooked === null || typeof cooked === "string")) this.fail(node, "has no texts raw and cooked in its value");
    const form = forms.TEMPLATE_ELEMENT;
    return this.add(form, node, this.text(form, node, "raw", raw), cooked === null ? 0 : this.sink.string(cooked));
  }

  literal(node) {
    const literal = this.said(node);
    const row = this.unsigned(node, literal);
    return literal.isNegative ? this.add(forms.UNARY, node, MINUS, row) : row;
  }

  said(node) {
    const literal = literalOf(node);
    if (literal.fault) this.refuse(literal.fault, node);
    return literal;
  }

  unsigned(node, { type, text, value, pattern, flags }) {
    switch (type) {
      case "NumericLiteral":
        return this.numeric(node, text, false);
      case "BigIntLiteral":
        return this.bigInt(node, text);
      case "StringLiteral":
        return this.add(forms.STRING, node, this.sink.string(value));
      case "BooleanLiteral":
        return this.add(forms.BOOLEAN, node, value ? TRUE : FALSE);
      case "NullLiteral":
        return this.add(forms.NULL, node);
      default:
        return this.add(
          forms.REG_EXP, node, this.text(forms.REG_EXP, node, "pattern", pattern), this.text(forms.REG_EXP, node, "flags", flags),
        );
    }
  }

  numeric(node, text, isNegative) {
    if (isWholeNumber(text)) return this.add(forms.WHOLE_NUMBER, node, WHOLE, flag(isNegative), this.sink.digits(text));
    return this.add(forms.RAW_NUMBER, node, RAW, this.text(forms.RAW_NUMBER, node, "text", text));
  }

  bigInt(node, text) {
    return this.add(forms.BIG_INT, node, this.text(forms.BIG_INT, node, "value", text));
  }

  unary(node) {
    const inside = node.argument;
    if (this.negative && node.operator === "-" && isLiteral(inside)) {
      const { type, text, isNegative } = this.said(inside);
      if (type === "BigIntLiteral" && !isNegative) return this.bigInt(node, `-${text}`);
      if (type === "NumericLiteral" && !isNegative && isWholeNumber(text)) return this.numeric(node, text, true);
    }
    return this.operation(forms.UNARY, node, this.expression(inside));
  }

  member(node) {
    const object = this.expression(node.object);
    const optional = flag(this.isOptional(node));
    const { property } = node;
    if (node.computed) return this.add(forms.COMPUTED_MEMBER, node, object, optional, this.expression(property));
    return property.type !== "Identifier" && isPrivateName(property)
      ? this.add(forms.PRIVATE_FIELD, node, object, optional, this.privateName(property))
      : this.add(forms.STATIC_MEMBER, node, object, optional, this.name(property));
  }

  privateIn(node) {
    return this.add(forms.PRIVATE_IN, node, this.privateName(node.left), this.expression(node.right));
  }

  name(node) {
    if (node.type !== "Identifier") this.misplaced(node, "name");
    return this.ownName(forms.NAME, node);
  }

  privateName(node) {
    return this.ownName(forms.PRIVATE_NAME, node, privateNameIn(node));
  }

  // The key of a property, of a class's member too.
  key({ key, computed }) {
    if (computed) return this.expression(key);
    if (key.type === "Identifier") return this.name(key);
    if (isPrivateName(key)) return this.privateName(key);
    if (!isLiteral(key)) return this.name(key);
    if (this.said(key).isNegative) this.refuse("a negative number as a key", key);
    return this.literal(key);
  }

  // An argument, or an element of an array.
  element(node) {
    if (node.type !== "SpreadElement") return this.expression(node);
    return this.add(forms.SPREAD, node, this.expression(node.argument));
  }

  property(node) {
    if (node.type === "SpreadElement") return this.element(node);
    if (node.method && node.kind !== "init") this.fail(node, `is of kind ${node.kind} and a method`);
    const key = this.key(node);
    const value = this.expression(node.value);
    return this.add(
      forms.PROPERTY, node,
      this.word(forms.PROPERTY, node, node.kind),
      key,
      value,
      flag(node.method),
      flag(node.shorthand),
      flag(node.computed),
    );
  }

  // ---- functions

  arrow(node) {
    return this.add(
      forms.ARROW, node,
      flag(node.async),
      flag(this.pure.has(node)),
      this.parameters(node.params),
      node.body.type === "BlockStatement" ? this.functionBody(node.body) : this.expression(node.body),
    );
  }

  functionDeclaration(node) {
    return this.function(node, DECLARATION);
  }

  function(node, kind) {
    return this.add(
      forms.FUNCTION, node,
      kind,
      this.maybe(node.id, this.binding),
      flag(node.async),
      flag(node.generator),
      flag(this.pure.has(node)),
      this.parameters(node.params),
      this.functionBody(node.body),
    );
  }

  functionBody(node) {
    const nodes = this.bodyOf(node);
    return this.add(forms.FUNCTION_BODY, node, this.directives(nodes), this.statements(nodes));
  }

  // The statements of a body, with the directives among them.
  bodyOf(node) {
    return node.body;
  }

  parameters(nodes) {
    return this.add(forms.PARAMETERS, null, this.beforeRest(nodes, this.parameter), this.rest(nodes, this.restParameter));
  }

  parameter(node) {
    const isDefault = node.type === "AssignmentPattern";
    const pattern = isDefault ? node.left : node;
    return this.add(forms.PARAMETER, node, this.binding(pattern), isDefault ? this.expression(node.right) : 0);
  }

  restParameter(node) {
    return this.add(forms.REST_PARAMETER, node, this.binding(node.argument));
  }

  // ---- classes

  classDeclaration(node) {
    return this.class(node, DECLARATION);
  }

  class(node, kind) {
    return this.add(
      forms.CLASS, node,
      kind,
      this.maybe(node.id, this.binding),
      this.maybe(node.superClass, this.expression),
      this.add(forms.CLASS_BODY, node.body, this.several(node.body.body, this.classElement)),
    );
  }

  classElement(node) {
    switch (node.type) {
      case "StaticBlock":
        return this.add(forms.STATIC_BLOCK, node, this.several(node.body, this.statement));
      case "MethodDefinition":
        if ((node.kind === "constructor") !== isConstructor(node)) this.fail(node, `is of kind ${node.kind}, which its key contradicts`);
        return this.method(node);
      default:
        return this.add(
          forms.FIELD, node,
          this.key(node), flag(node.computed), flag(node.static), this.maybe(node.value, this.expression),
        );
    }
  }

  method(node) {
    const key = this.key(node);
    const value = this.expression(node.value);
    return this.add(forms.METHOD, node, this.word(forms.METHOD, node, node.kind), key, value, flag(node.computed), flag(node.static));
  }
}
