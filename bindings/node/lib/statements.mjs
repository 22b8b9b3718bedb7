// The part of the converter for programs, statements, imports and exports.
import { nodeOf } from "./babel_views.mjs";
import { Expressions } from "./expressions.mjs";
import * as forms from "./forms.mjs";
import { stringIn } from "./literals.mjs";
import { endOf, startOf } from "./refusals.mjs";
import { bytesAt } from "./texts.mjs";
import { validate } from "./validate.mjs";
import { flag } from "./words.mjs";

const MODULE = forms.PROGRAM.word("kind", "module");
const WITH = forms.WITH.word("keyword", "with");
// The kind of imports and exports in code without types.
const VALUE = forms.IMPORT.word("import_kind", "value");

function isDirective(node) {
  return node.type === "ExpressionStatement" && typeof node.directive === "string";
}

// How many directives stand at the front of a body.
function countDirectives(nodes) {
  const count = nodes.findIndex((node) => !isDirective(node));
  return count < 0 ? nodes.length : count;
}

export class Statements extends Expressions {
  // ---- programs

  /** Writes the rows of a program, with those of the comments that are printed, and with the source where that is asked for. */
  program(node, comments, hasSource) {
    validate(node, (what, part, hint) => this.refuse(what, part, hint));
    const rows = this.comments(comments);
    const hashbang = this.hashbang(node);
    const nodes = this.bodyOf(node);
    const directives = this.directives(nodes);
    const statements = this.statements(nodes);
    // Comments behind the last token belong to the text's end, where some trees don't end.
    const place = comments.length > 0 ? { start: startOf(node), end: this.source.length } : node;
    const source = hasSource ? this.source?.toWellFormed() : undefined;
    this.add(
      forms.PROGRAM, place,
      source === undefined ? 0 : this.sink.text(source), MODULE, rows, hashbang, directives, statements,
    );
  }

  // The hashbang that the tree says, as Babel's and oxc's do; of other trees the first line of the source, where it begins with `#!`.
  hashbang(node) {
    const said = node.interpreter === undefined ? node.hashbang : node.interpreter;
    if (said === undefined) return this.hashbangOfSource();
    return said === null ? 0 : this.addHashbang(said, said.value);
  }

  hashbangOfSource() {
    const [line, value] = /^#!(.*)/.exec(this.source ?? "") ?? [];
    return line === undefined ? 0 : this.addHashbang({ start: 0, end: line.length }, value);
  }

  addHashbang(node, value) {
    return this.add(forms.HASHBANG, node, this.text(forms.HASHBANG, node, "value", value));
  }

  comments(comments) {
    if (comments.length === 0) return 0;
    const byteAt = this.byteAt ?? bytesAt(this.source);
    const bottom = this.top;
    for (const comment of comments) this.push(this.comment(comment, byteAt));
    return this.listFrom(bottom);
  }

  // Comments have their spans in any case.
  comment({ start, end, comment, kind, content, leading, attached_to, preceded_by_newline, followed_by_newline }, byteAt) {
    if (leading && /^(pure|nosideeffects)$/.test(content)) this.annotations.set(attached_to, content);
    const at = this.openAt(forms.COMMENT, comment, byteAt(start), byteAt(end));
    const kindWord = forms.COMMENT.word("kind", kind);
    const contentWord = forms.COMMENT.word("content", content);
    const attached = this.sink.number("attached_to", byteAt(attached_to));
    return this.fill(forms.COMMENT, at, kindWord, contentWord, flag(leading), attached, flag(preceded_by_newline), flag(followed_by_newline));
  }

  // The directives at the front of a body.
  directives(nodes) {
    return this.several(nodes, this.directive, 0, countDirectives(nodes));
  }

  // The statements of a body behind them.
  statements(nodes) {
    return this.several(nodes, this.statement, countDirectives(nodes));
  }

  directive(node) {
    if (node.expression.value !== stringIn(node.directive)) this.refuse("a directive that isn't what its expression says", node);
    return this.add(forms.DIRECTIVE, node, this.text(forms.DIRECTIVE, node, "directive", node.directive));
  }

  // ---- statements

  statement(node) {
    if (this.annotations.size > 0) this.annotateStatement(node);
    switch (node.type) {
      case "ExpressionStatement":
        if (typeof node.directive === "string") this.refuse("a directive that doesn't stand at the front of a body", node);
        return this.add(forms.EXPRESSION_STATEMENT, node, this.expression(node.expression));
      case "BlockStatement":
        return this.add(forms.BLOCK, node, this.several(this.bodyOf(node), this.statement));
      case "IfStatement":
        return this.add(
          forms.IF, node,
          this.expression(node.test),
          this.statement(node.consequent),
          this.maybe(node.alternate, this.statement),
        );
      case "EmptyStatement":
        return this.add(forms.EMPTY, node);
      case "DebuggerStatement":
        return this.add(forms.DEBUGGER, node);
      case "VariableDeclaration":
        return this.variables(node);
      case "FunctionDeclaration":
        return this.functionDeclaration(node);
      case "ClassDeclaration":
        return this.classDeclaration(node);
      case "ReturnStatement":
        return this.add(forms.RETURN, node, this.maybe(node.argument, this.expression));
      case "ThrowStatement":
        return this.add(forms.THROW, node, this.expression(node.argument));
      case "BreakStatement":
        return this.add(forms.BREAK, node, this.maybe(node.label, this.label));
      case "ContinueStatement":
        return this.add(forms.CONTINUE, node, this.maybe(node.label, this.label));
      case "LabeledStatement":
        return this.add(forms.LABELED, node, this.label(node.label), this.statement(node.body));
      case "SwitchStatement":
        return this.add(forms.SWITCH, node, this.expression(node.discriminant), this.several(node.cases, this.switchCase));
      case "TryStatement":
        return this.add(
          forms.TRY, node,
          this.statement(node.block),
          this.maybe(node.handler, this.handler),
          this.maybe(node.finalizer, this.statement),
        );
      case "ImportDeclaration":
        return this.importDeclaration(node);
      case "ExportNamedDeclaration":
      case "ExportAllDeclaration":
      case "ExportDefaultDeclaration":
        return this.exported(node);
      default:
        return this.loop(node);
    }
  }

  variables(node) {
    const declarations = this.several(node.declarations, this.declarator);
    return this.add(forms.DECLARATION, node, this.word(forms.DECLARATION, node, node.kind), declarations);
  }

  loop(node) {
    switch (node.type) {
      case "WhileStatement":
        return this.add(forms.WHILE, node, this.expression(node.test), this.statement(node.body));
      case "DoWhileStatement":
        return this.add(forms.DO_WHILE, node, this.statement(node.body), this.expression(node.test));
      case "ForStatement":
        return this.add(
          forms.FOR, node,
          this.maybe(node.init, this.declarationOrExpression),
          this.maybe(node.test, this.expression),
          this.maybe(node.update, this.expression),
          this.statement(node.body),
        );
      case "ForInStatement":
        return this.add(forms.FOR_IN, node, this.declarationOrTarget(node.left), this.expression(node.right), this.statement(node.body));
      case "ForOfStatement":
        return this.add(
          forms.FOR_OF, node,
          flag(node.await),
          this.declarationOrTarget(node.left),
          this.expression(node.right),
          this.statement(node.body),
        );
      default:
        return this.misplaced(node, "statement");
    }
  }

  // What stands first in the head of a loop.
  declarationOrExpression(node) {
    return node.type === "VariableDeclaration" ? this.statement(node) : this.expression(node);
  }

  declarationOrTarget(node) {
    return node.type === "VariableDeclaration" ? this.statement(node) : this.target(node);
  }

  switchCase(node) {
    return this.add(forms.CASE, node, this.maybe(node.test, this.expression), this.several(node.consequent, this.statement));
  }

  handler(node) {
    return this.add(forms.CATCH, node, this.maybe(node.param, this.binding), this.statement(node.body));
  }

  label(node) {
    return this.ownName(forms.LABEL, node);
  }

  declarator(node) {
    return this.add(forms.DECLARATOR, node, this.binding(node.id), this.maybe(node.init, this.expression));
  }

  // ---- imports and exports

  importDeclaration(node) {
    return this.add(forms.IMPORT, node, VALUE, this.importSpecifiers(node), this.string(node.source), this.withClause(node));
  }

  // An import with an empty list is told from one without any by the source alone.
  importSpecifiers(node) {
    if (node.specifiers.length > 0) return this.several(node.specifiers, this.importSpecifier);
    return this.isBraceBetween(node, node.source) ? this.listFrom(this.top) : 0;
  }

  importSpecifier(node) {
    const local = this.binding(node.local);
    if (node.type === "ImportDefaultSpecifier") return this.add(forms.IMPORT_DEFAULT, node, local);
    if (node.type === "ImportNamespaceSpecifier") return this.add(forms.IMPORT_NAMESPACE, node, local);
    return this.add(forms.IMPORT_SPECIFIER, node, VALUE, this.moduleName(node.imported), local);
  }

  // The attributes of an import or an export. An empty clause is found in the source alone.
  withClause(node) {
    const { attributes, assertions } = node;
    const written = this.textBetween({ start: endOf(node.source) }, { start: endOf(node) });
    const isAssert = assertions?.length > 0 || node.extra?.deprecatedAssertSyntax || /^\s*assert\s*\{/.test(written);
    if (isAssert) this.refuse(`the keyword assert of ${nodeOf(node).type}`, node);
    const isGiven = attributes?.length > 0 || written.includes("{");
    return isGiven ? this.add(forms.WITH, null, WITH, this.several(attributes ?? [], this.attribute)) : 0;
  }

  attribute(node) {
    return this.add(forms.ATTRIBUTE, node, this.moduleName(node.key), this.string(node.value));
  }

  isBraceBetween(from, to) {
    return this.textBetween(from, to).includes("{");
  }

  // The source from the one start to the other, without comments.
  textBetween(from, to) {
    if (this.source === undefined || startOf(from) === undefined) return "";
    return this.source.slice(startOf(from), startOf(to)).replace(/\/\*[^]*?\*\/|\/\/.*/g, "");
  }

  exported(node) {
    if (node.type === "ExportDefaultDeclaration") return this.add(forms.EXPORT_DEFAULT, node, this.defaultExport(node.declaration));
    if (node.declaration) return this.exportDeclaration(node);
    if (node.type === "ExportAllDeclaration") return this.exportAll(node);
    if (node.source) return this.exportFrom(node);
    if (node.attributes?.length > 0 || node.assertions?.length > 0) this.fail(node, "has attributes without a source");
    return this.add(forms.EXPORT_NAMED, node, VALUE, this.several(node.specifiers, this.specifierOfOwn));
  }

  exportDeclaration(node) {
    const others = [...node.specifiers, ...(node.attributes ?? []), ...(node.assertions ?? [])];
    if (others.length > 0 || node.source) this.fail(node, "has more than its declaration");
    return this.add(forms.EXPORT_DECLARATION, node, this.statement(node.declaration));
  }

  exportAll(node) {
    return this.add(
      forms.EXPORT_ALL, node,
      VALUE, this.maybe(node.exported, this.moduleName), this.string(node.source), this.withClause(node),
    );
  }

  exportFrom(node) {
    return this.add(
      forms.EXPORT_FROM, node,
      VALUE, this.several(node.specifiers, this.specifierFrom), this.string(node.source), this.withClause(node),
    );
  }

  defaultExport(node) {
    return /^(Function|Class)Declaration$/.test(node.type) ? this.statement(node) : this.expression(node);
  }

  specifierFrom(node) {
    return this.exportSpecifier(node, this.moduleName(node.local));
  }

  // Of a module's own names: what is exported is a reference.
  specifierOfOwn(node) {
    return this.exportSpecifier(node, this.expression(node.local));
  }

  exportSpecifier(node, local) {
    return this.add(forms.EXPORT_SPECIFIER, node, VALUE, local, this.moduleName(node.exported));
  }

  // A name of an import, an export or an attribute: as it is written, or a string.
  moduleName(node) {
    return node.type === "Identifier" ? this.name(node) : this.string(node);
  }

  string(node) {
    if (typeof node.value !== "string") this.fail(node, "is no string");
    return this.expression(node);
  }
}
