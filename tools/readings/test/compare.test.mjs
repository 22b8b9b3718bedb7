// The reader accepts the lists that the grammar reads, with the same trees; and where something is taken out of the grammar, they differ.
import assert from "node:assert/strict";
import { test } from "node:test";
import { Acceptance, STARTS, answerTo } from "../accept.mjs";
import { Comparison, isSame } from "../comparison.mjs";
import { readerIn } from "../interpret.mjs";
import { PRODUCTIONS, altered, withoutGuard } from "../productions/table.mjs";
import { row } from "../productions/rows.mjs";
import { PROFILES } from "../profiles.mjs";
import { textsOf, told } from "../tokens.mjs";
import { shown, truth, value } from "../values.mjs";
import { reads } from "./edits.mjs";

const reader = readerIn();

const FUNCTION_BODY = "Body[+return+last]";
const MODULE_BODY = "ModuleBody";
const EXPRESSION = "Expression[+in]";
const OPERANDS = "Expression[+in+yield+await]";

const toldAll = ({ readerOnly, grammarOnly, otherTree }) => [...readerOnly, ...grammarOnly, ...otherTree].map(told);

for (const [name, profile] of Object.entries(PROFILES)) {
  test(`${name}: the reader accepts what the grammar reads`, () => {
    const comparison = new Comparison(reader, profile, PRODUCTIONS);
    for (const start of profile.starts) {
      for (let size = 0; size <= profile.tried.compared; size++) {
        const result = comparison.at(start, size);
        assert.ok(isSame(result), `${start}: ${toldAll(result).slice(0, 8).join("   ")}`);
      }
    }
  });
}

test("bodies begin where the reader's laws begin", () => {
  const directives = (inFunction) => shown(reader.call("directives", truth(inFunction), value("no_trees")));
  assert.equal(shown(STARTS[MODULE_BODY]), directives(false));
  assert.equal(shown(STARTS[FUNCTION_BODY]), directives(true));
});

// The lists are found step by step, without the function `run` that goes through a whole list.
test("the reader's own run gives the answers that are found", () => {
  for (const name of ["targets", "bindings", "heads", "lines", "classes", "imports", "exports", "hidden", "templates", "breaks"]) {
    const profile = PROFILES[name];
    const acceptance = new Acceptance(reader, profile);
    for (const start of profile.starts) {
      for (let size = 0; size <= 4; size++) {
        for (const [tokens, tree] of acceptance.lists(start, size)) {
          assert.equal(answerTo(reader, start, textsOf(tokens)), tree, told(tokens));
        }
      }
    }
  }
  for (const list of ["[ a += a ] = a", "[ ... a , ] = a", "{ ... [ a ] } = a", "{ a = a }", "( [ a ] ) = a", "( a", "a )"]) {
    assert.equal(answerTo(reader, EXPRESSION, list.split(" ")), undefined, list);
  }
});

// What takes the rest of an object, if it could be a pattern
const restOfBinding = row("BindingProperties = ... b:Binding", ["no_trees", "given (tree.binding_rest_element (nothing_of 0) b)"]);
const restOfTarget = row("TargetProperties = ... t:Target", ["no_trees", "given (tree.target_rest (nothing_of 0) t)"]);

// A private name behind `super` and a dot
const privateOfSuper = row("Member = super . v:private", "tree.private_member (link_values false) (tree.super (nothing_of 0)) (private_name v)");

// The operator `in` may stand everywhere.
function inEverywhere(made) {
  return { ...made, reading: made.reading.replace("[+in]", "") };
}

// In the body of any arrow function `await` is an operator.
function awaitsInBody(made) {
  return { ...made, reading: made.reading.replace("-await", "+await") };
}

// What is taken out of the grammar, or made another, what is read, and the smallest list by which grammar and reader differ then.
for (const [table, start, list, hasLineEnds = false] of [
  [withoutGuard("ReadsExpression", "an_assignment_to", "names_function"), EXPRESSION, "( a ) = function ( ) { }"],
  [withoutGuard("ReadsTargetElement", "a_target_with_default", "names_function"), EXPRESSION, "[ ( a ) = a => a ] = a"],
  [withoutGuard("ReadsLeft", "a_target", "may_precede_of"), MODULE_BODY, "for ( async of a ) ;"],
  [withoutGuard("ReadsStatement", "a_throw", "on_same_line"), MODULE_BODY, "throw \\n a ;", true],
  [withoutGuard("ReadsReturned", "a_returned_value", "on_same_line"), FUNCTION_BODY, "return \\n a", true],
  [withoutGuard("ReadsStatement", "an_expression_statement", "starts_statement"), MODULE_BODY, "{ } ;"],
  [altered("ReadsExpression", "an_update_behind", reads(" _", " ")), EXPRESSION, "a \\n ++", true],
  [altered("ReadsArrow", "an_arrow_function", reads("_=>", "=>")), EXPRESSION, "a \\n => a", true],
  [altered("ReadsLabel", "a_label", reads("_v", "v")), FUNCTION_BODY, "break \\n a", true],
  [withoutGuard("ReadsExpression", "an_async_arrow", "on_same_line"), EXPRESSION, "async \\n a => a", true],
  [withoutGuard("ReadsExpression", "a_yield", "on_same_line"), OPERANDS, "yield \\n a", true],
  [altered("ReadsExpression", "a_delegation", reads("_*", "*")), OPERANDS, "yield \\n * a", true],
  [altered("ReadsFunction", "an_async_function", reads("_function", "function")), EXPRESSION, "async \\n function ( ) { }", true],
  [withoutGuard("ReadsMethod", "an_async_method", "on_same_line"), EXPRESSION, "{ async \\n a ( ) { } }", true],
  [altered("ReadsMethod", "an_async_generator_method", reads("_*", "*")), EXPRESSION, "{ async \\n * a ( ) { } }", true],
  [altered("ReadsExpression", "an_await", reads("[+await]", "")), FUNCTION_BODY, "await a"],
  [altered("ReadsStatement", "a_for_await", reads("[+await]", "")), FUNCTION_BODY, "for await ( a of a ) ;"],
  [altered("ReadsStatement", "a_for_await", reads("Left<false>", "Left<true>")), MODULE_BODY, "for await ( async of a ) ;"],
  [altered("ReadsArrow", "an_arrow_function", awaitsInBody), MODULE_BODY, "a => await a ;"],
  [altered("ReadsArrowParameters", "grouped_parameters", reads("-await", "+await")), MODULE_BODY, "( a = await a ) => a ;"],
  [altered("ReadsFieldAs", "a_field_with_value", reads("-await", "+await")), MODULE_BODY, "class a { a = await a }"],
  [altered("ReadsMember", "a_static_block", reads("-await", "+await")), MODULE_BODY, "class a { static { await a } }"],
  [altered("ReadsMember", "a_static_block", reads("-return", "+return")), MODULE_BODY, "class a { static { return } }"],
  [altered("ReadsMembers", "a_first_field", reads(" ;", "")), EXPRESSION, "class { a a }"],
  [altered("ReadsClassTail", "with_heritage", reads("LeftHandSide", "Assignment")), MODULE_BODY, "class a extends a = a { }"],
  [altered("ReadsItem", "a_class_declaration", reads("false", "true")), MODULE_BODY, "class { }"],
  [withoutGuard("ReadsExported", "an_exported_name", "is_reference_alone"), MODULE_BODY, "export { 's' } ;"],
  [withoutGuard("ReadsExported", "an_exported_name_as", "is_reference_alone"), MODULE_BODY, "export { if as if } ;"],
  [altered("ReadsSpecifier", "a_specifier", reads("v:free", "v:name")), MODULE_BODY, "import { if } from 's' ;"],
  [altered("ReadsDefault", "a_default_expression", reads("Assignment", "Expression")), MODULE_BODY, "export default a , a ;"],
  [altered("ReadsDeclared", "a_declared_function", reads("false", "true")), MODULE_BODY, "export function ( ) { }"],
  [altered("ReadsImported", "an_imported_and_a_comma", () => []), EXPRESSION, "import ( a , )"],
  [altered("ReadsExpression", "an_import_call", reads("Call", "Member")), EXPRESSION, "new import ( a )"],
  [altered("ReadsExpression", "a_power", reads("l:Update", "l:Unary")), EXPRESSION, "+ a ** a"],
  [altered("ReadsExpression", "an_operation", inEverywhere), MODULE_BODY, "for ( a in a ; ; ) ;"],
  [altered("ReadsDeclarator", "without_value", reads("v:free", "v:Binding")), MODULE_BODY, "let [ ] ;"],
  [altered("ReadsStatement", "a_return", reads("[+return]", "")), MODULE_BODY, "return ;"],
  [altered("ReadsStatement", "an_if", reads("s:Statement", "s:Item")), MODULE_BODY, "if ( a ) let a ;"],
  [altered("ReadsBindingProperties", "a_binding_rest_property", () => restOfBinding), FUNCTION_BODY, "let { ... [ ] } = a"],
  [altered("ReadsTargetProperties", "a_target_rest_property", () => restOfTarget), EXPRESSION, "{ ... [ ] } = a"],
  [altered("ReadsTargetElements", "a_target_rest", reads("t:Target", "t:TargetElement")), EXPRESSION, "[ ... a = a ] = a"],
  [altered("ReadsMethod", "a_setter", reads("p:Parameter", "p:Binding")), EXPRESSION, "{ set a ( a ) { } }"],
  [altered("ReadsCase", "a_default", reads("<true,false>", "<true,true>")), MODULE_BODY, "switch ( a ) { default : default : }"],
  [altered("ReadsTargetElements", "a_target_elision", () => []), EXPRESSION, "[ , ] = a"],
  [altered("ReadsExpression", "a_private_test", reads("[+in]", "")), MODULE_BODY, "for ( #a in a ; ; ) ;"],
  [altered("ReadsExpression", "a_private_test", reads("t:Shift", "t:Relational")), EXPRESSION, "#a in #a in a"],
  [altered("ReadsExpression", "a_private_member", (made) => [made, privateOfSuper]), EXPRESSION, "super . #a"],
  [altered("ReadsChain", "an_optional_private_member", () => []), EXPRESSION, "a ?. #a"],
  [altered("ReadsProperty", "a_method", reads("<false", "<true")), EXPRESSION, "{ #a ( ) { } }"],
  [altered("ReadsFieldAs", "a_field_alone", reads("<true", "<false")), EXPRESSION, "class { #a }"],
  [altered("ReadsExpression", "a_template", reads("[+in]", "")), MODULE_BODY, "for ( `h${ a in a }t` ; ; ) ;"],
  [altered("ReadsExpression", "a_template", reads("<false>", "<true>")), EXPRESSION, "`h${ a }\\u`"],
  [altered("ReadsTemplate", "a_template_of_parts", reads("<true>", "<false>")), EXPRESSION, "a `h${ a }\\u`"],
  [altered("ReadsPieces", "a_last_piece", reads("Expression", "Assignment")), EXPRESSION, "`h${ a , a }t`"],
  [altered("ReadsExpression", "a_tagged_template_of_call", reads("o:Call", "o:LeftHandSide")), EXPRESSION, "a ?. a `s`"],
  [altered("ReadsExpression", "a_tagged_template", reads("Member = o:Member", "Call = o:Member")), EXPRESSION, "new a `s`"],
  [altered("ReadsExpression", "a_regular_expression", () => []), EXPRESSION, "/b/g"],
  [altered("ReadsExpression", "a_conjunction", (made) => ({ ...made, tree: made.tree.replace("And", "Or") })), EXPRESSION, "a && a"],
]) {
  test(`the reader and another grammar differ by ${list}`, () => {
    const tokens = list.split(" ").filter((token) => token !== "\\n");
    const alphabet = { tokens: [...new Set(tokens)].filter((token) => !/^[)\]}]$/.test(token)), hasLineEnds };
    const comparison = new Comparison(reader, alphabet, table);
    for (let size = 0; size < tokens.length; size++) assert.deepEqual(toldAll(comparison.at(start, size)), []);
    const found = toldAll(comparison.at(start, tokens.length));
    assert.ok(found.includes(list), `${list} is not among ${found.join(", ")}`);
  });
}
