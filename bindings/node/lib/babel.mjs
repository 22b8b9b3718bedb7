// The part of the converter for what Babel has where ESTree has other types.
import {
  directiveView, exportAllView, fieldView, hasOptionalLink, importView, isLink, isLiteral, isOfBabel, isOptional, linkBefore, literalOfBabel, methodView,
  nodeOf, propertyView,
} from "./babel_views.mjs";
import * as forms from "./forms.mjs";
import { stringIn } from "./literals.mjs";
import { Statements } from "./statements.mjs";

/** Goes through trees of ESTree and of Babel's own kind, and through those that have nodes of both. */
export class Trees extends Statements {
  constructor(...given) {
    super(...given);
    // the link that is read next as a part of the chain that is read
    this.link = null;
    this.isBabels = isOfBabel(this.root);
  }

  // ---- what is refused is a node of the tree

  refuse(what, node, hint) {
    return super.refuse(what, nodeOf(node), hint);
  }

  fail(node, what) {
    return super.fail(nodeOf(node), what);
  }

  // ---- directives

  // Babel has directives apart from what stands behind them.
  bodyOf(node) {
    const { body, directives } = node;
    if (!(directives?.length > 0)) return body;
    return [...directives.map((directive) => directiveView(directive, stringIn(directive.value.value))), ...body];
  }

  // ---- expressions

  otherExpression(node) {
    if (isLiteral(node)) return this.literal(node);
    return isLink(node) ? this.chain(node) : super.otherExpression(node);
  }

  said(node) {
    if (node.type === "Literal") return super.said(node);
    const literal = literalOfBabel(node);
    if (literal.fault !== undefined) this.refuse(literal.fault, node);
    return literal;
  }

  isOptional(node) {
    return isOptional(node, this.isBabels);
  }

  // A chain is one node round its links. A link is read before what stands behind it in the chain.
  chain(node) {
    const isInside = this.link === node;
    this.link = linkBefore(node);
    const row = node.type === "OptionalCallExpression" ? this.call(node) : this.member(node);
    return isInside || !hasOptionalLink(node) ? row : this.add(forms.CHAIN, node, row);
  }

  call(node) {
    return node.callee.type === "Import" && node.type === "CallExpression" ? this.importCall(node) : super.call(node);
  }

  importCall(node) {
    const { length } = node.arguments;
    if (length < 1 || length > 2 || this.isOptional(node)) this.fail(node, "is no call of import with one argument or two");
    return this.importExpression(importView(node));
  }

  // ---- properties

  property(node) {
    switch (node.type) {
      case "ObjectProperty":
        this.onlyInit(node);
        return super.property(propertyView(node));
      case "ObjectMethod":
        if (!/^(method|get|set)$/.test(node.kind)) this.refuse(`kind ${node.kind} of ObjectMethod`, node);
        return super.property(propertyView(node, this.source));
      default:
        return super.property(node);
    }
  }

  onlyInit(node) {
    if (node.type !== "ObjectProperty") super.onlyInit(node);
    else if (node.method) this.fail(node, "is a method without a function");
  }

  classElement(node) {
    switch (node.type) {
      case "ClassMethod":
      case "ClassPrivateMethod":
        return super.classElement(methodView(node, this.source));
      case "ClassProperty":
      case "ClassPrivateProperty":
        return super.classElement(fieldView(node));
      default:
        return super.classElement(node);
    }
  }

  // ---- exports

  exported(node) {
    const namespace = node.specifiers?.find(({ type }) => type === "ExportNamespaceSpecifier");
    if (namespace === undefined || node.declaration) return super.exported(node);
    if (node.specifiers.length > 1) this.refuse("an ExportNamespaceSpecifier beside other specifiers", namespace);
    if (!node.source) this.fail(node, "has a namespace without a source");
    return super.exported(exportAllView(node));
  }
}
