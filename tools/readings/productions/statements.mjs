// The productions of declarations, statements and bodies (Grammar.antt, from "declarations" on), by the names of their constructors.
import { may_precede_of, on_same_line, simple_target, starts_statement, starts_with_directive } from "../guards.mjs";
import { KINDS, both, each, row } from "./rows.mjs";

const ReadsDeclarator = {
  without_value: row("Declarator = v:free", "tree.variable_declarator (nothing_of 1) (tree.binding_identifier (unnumbered v)) absent"),
  with_value: row("Declarator = b:Binding = e:Assignment", "tree.variable_declarator (nothing_of 1) b (given e)"),
};

const ReadsDeclarators = {
  last_declarator: row("Declarators = d:Declarator", "more d no_trees"),
  first_declarator: row("Declarators = d:Declarator , ds:Declarators", "more d ds"),
};

const ReadsVariables = {
  some_variables: each("kind", KINDS, ({ name, word }) =>
    row(`Variables<${name}> = ${word} ds:Declarators`, "tree.variable_declaration (declared_as kind) ds"),
  ),
};

const ReadsStatement = {
  an_expression_statement: row("Statement = e:Expression[+in] END", "tree.expression_statement (nothing_of 0) e", starts_statement("e")),
  an_empty_statement: row("Statement = ;", "tree.empty_statement (nothing_of 0)"),
  a_block: row("Statement = { body:Statements[+last] }", "tree.block (nothing_of 0) body"),
  an_if: row("Statement[-before_else] = if ( t:Expression[+in] ) s:Statement", "tree.if_statement (nothing_of 0) t s absent"),
  an_if_with_else: row(
    "Statement = if ( t:Expression[+in] ) s:Statement[-last+before_else] else u:Statement",
    "tree.if_statement (nothing_of 0) t s (given u)",
  ),
  a_variable_statement: row("Statement = d:Variables<Var>[+in] END", "d"),
  a_for: row(
    "Statement = for ( init:Init ; test:Part[+in] ; update:Part[+in] ) s:Statement",
    "tree.for_statement (nothing_of 0) init test update s",
  ),
  a_for_in: row("Statement = for ( l:Left<false>[+in] in e:Expression[+in] ) s:Statement", "tree.for_in_statement (nothing_of 0) l e s"),
  a_for_of: row(
    "Statement = for ( l:Left<true>[+in] of e:Assignment[+in] ) s:Statement",
    "tree.for_of_statement (loop_values false) l e s",
  ),
  a_for_await: row(
    "Statement[+await] = for await ( l:Left<false>[+in] of e:Assignment[+in] ) s:Statement",
    "tree.for_of_statement (loop_values true) l e s",
  ),
  a_while: row("Statement = while ( t:Expression[+in] ) s:Statement", "tree.while_statement (nothing_of 0) t s"),
  a_do_while: row(
    "Statement = do s:Statement[-last-before_else] while ( t:Expression[+in] ) END",
    "tree.do_while_statement (nothing_of 0) s t",
  ),
  a_labelled_statement: row("Statement = v:free : s:Statement", "tree.labeled_statement (nothing_of 0) (tree.label_identifier (named v)) s"),
  a_continue: row("Statement = continue l:Label END", "tree.continue_statement (nothing_of 0) l"),
  a_break: row("Statement = break l:Label END", "tree.break_statement (nothing_of 0) l"),
  a_throw: row("Statement = throw e:Expression[+in] END", "tree.throw_statement (nothing_of 0) e", on_same_line("e")),
  a_debugger: row("Statement = debugger END", "tree.debugger_statement (nothing_of 0)"),
  a_switch: row("Statement = switch ( e:Expression[+in] ) { cases:Cases<true> }", "tree.switch_statement (nothing_of 0) e cases"),
  a_try: row(
    "Statement = try { body:Statements[+last] } handler,finalizer:EndsOfTry",
    "tree.try_statement (nothing_of 0) (tree.block (nothing_of 0) body) handler finalizer",
  ),
  a_return: row("Statement[+return] = return m:Returned END", "tree.return_statement (nothing_of 0) m"),
};

const ReadsReturned = {
  nothing_returned: row("Returned =", "absent"),
  a_returned_value: row("Returned = e:Expression[+in]", "given e", on_same_line("e")),
};

const ReadsInit = {
  no_init: row("Init =", "absent"),
  first_variables: each("kind", KINDS, ({ name }) => row(`Init = d:Variables<${name}>[-in]`, "given d")),
  first_expression: row("Init = e:Expression[-in]", "given e"),
};

const ReadsPart = {
  nothing_there: row("Part =", "absent"),
  an_expression_there: row("Part = e:Expression", "given e"),
};

const ReadsLeft = {
  a_declared_name: both("before_of", (before) =>
    each("kind", KINDS, ({ word }) =>
      row(
        `Left<${before}> = ${word} b:Binding`,
        "tree.variable_declaration (declared_as kind) (more (tree.variable_declarator (nothing_of 1) b absent) no_trees)",
      ),
    ),
  ),
  a_target: both("before_of", (before) =>
    row(`Left<${before}> = t:LeftHandSide`, "u", simple_target("t", "u"), ...(before === "true" ? [may_precede_of("t")] : [])),
  ),
  a_left_pattern: both("before_of", (before) => row(`Left<${before}> = t:Pattern`, "t")),
};

const ReadsLabel = {
  no_label: row("Label =", "absent"),
  a_label: row("Label = _v:free", "given (tree.label_identifier (named v))"),
};

const ReadsCases = {
  no_case: both("default", (before) => row(`Cases<${before}> =`, "no_trees")),
  last_case: both("default", (before) =>
    both("rest", (behind) => row(`Cases<${before}> = t:Case<${before},${behind}>[+last]`, "more t no_trees")),
  ),
  first_case: both("default", (before) =>
    both("rest", (behind) => row(`Cases<${before}> = t:Case<${before},${behind}>[-last] us:Cases<${behind}>`, "more t us")),
  ),
};

const ReadsCase = {
  a_case: both("default", (before) =>
    row(`Case<${before},${before}> = case t:Expression[+in] : ss:Statements`, "tree.switch_case (nothing_of 0) (given t) ss"),
  ),
  a_default: row("Case<true,false> = default : ss:Statements", "tree.switch_case (nothing_of 0) absent ss"),
};

const ReadsEndsOfTry = {
  a_handler: row("EndsOfTry = h:Handler", ["given h", "absent"]),
  a_finalizer: row("EndsOfTry = f:Finalizer", ["absent", "given f"]),
  a_handler_and_a_finalizer: row("EndsOfTry = h:Handler f:Finalizer", ["given h", "given f"]),
};

const ReadsHandler = {
  a_catch: row("Handler = catch { body:Statements[+last] }", "tree.catch_clause (nothing_of 0) absent (tree.block (nothing_of 0) body)"),
  a_catch_by_name: row(
    "Handler = catch ( b:Binding[+in] ) { body:Statements[+last] }",
    "tree.catch_clause (nothing_of 0) (given b) (tree.block (nothing_of 0) body)",
  ),
};

const ReadsFinalizer = {
  a_finally: row("Finalizer = finally { body:Statements[+last] }", "tree.block (nothing_of 0) body"),
};

const ReadsItem = {
  a_statement: row("Item = s:Statement[-before_else]", "s"),
  a_function_declaration: row("Item = t:Function<Declaration,false>", "t"),
  a_class_declaration: row("Item = t:Class<Declaration,false>[+in]", "t"),
  a_declaration: each("kind", KINDS.filter(({ word }) => word !== "var"), ({ name }) => row(`Item = d:Variables<${name}>[+in] END`, "d")),
};

const ReadsStatements = {
  no_statement: row("Statements =", "no_trees"),
  last_statement: row("Statements = s:Item", "more s no_trees"),
  first_statement: row("Statements = s:Item[-last] ss:Statements", "more s ss"),
};

const ReadsBody = {
  a_directive: row("Body = us:string ; ds,ss:Body", ["more (tree.directive (bare (units us ∷ []))) ds", "ss"]),
  a_last_directive: row("Body[+last] = us:string", ["more (tree.directive (bare (units us ∷ []))) no_trees", "no_trees"]),
  statements: row("Body = ss:Statements", ["no_trees", "ss"], starts_with_directive("ss")),
};

export const STATEMENTS = {
  ReadsDeclarator, ReadsDeclarators, ReadsVariables, ReadsStatement, ReadsReturned, ReadsInit, ReadsPart, ReadsLeft, ReadsLabel,
  ReadsCases, ReadsCase, ReadsEndsOfTry, ReadsHandler, ReadsFinalizer, ReadsItem, ReadsStatements, ReadsBody,
};
