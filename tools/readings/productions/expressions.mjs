// The productions of expressions, functions, objects and classes (Grammar.antt, "expressions"), by the names of their constructors.
import { names_function, on_same_line, simple_target, starts_in_brace } from "../guards.mjs";
import { ASSIGNMENT, BINARY, UNARY, UPDATE, may_operate } from "./operators.mjs";
import { both, each, flagged, row } from "./rows.mjs";

const ReadsExpression = {
  an_assignment: row("Expression = t:Assignment", "t"),
  a_sequence: row("Expression = t:Assignment , us:Parts", "tree.sequence (nothing_of 0) (more t us)"),
  a_conditional: row("Assignment = t:Conditional", "t"),
  an_assignment_to: each("o", ASSIGNMENT, ({ token, name }) =>
    row(
      `Assignment = t:LeftHandSide[+in] ${token} v:Assignment`,
      "tree.assignment (bare (assignment_operator o ∷ [])) u v",
      simple_target("t", "u"),
      names_function(name, "t", "u", "v"),
    ),
  ),
  an_assignment_to_pattern: row(
    "Assignment = t:Pattern[+in] = v:Assignment",
    "tree.assignment (bare (assignment_operator assignment_operators.Assign ∷ [])) t v",
  ),
  a_short_circuit: row("Conditional = t:ShortCircuit", "t"),
  a_logical_or: row("ShortCircuit = t:LogicalOr", "t"),
  a_logical_and: row("LogicalOr = t:LogicalAnd", "t"),
  a_bit_or: row("LogicalAnd = t:BitOr", "t"),
  a_bit_xor: row("BitOr = t:BitXor", "t"),
  a_bit_and: row("BitXor = t:BitAnd", "t"),
  an_equality: row("BitAnd = t:Equality", "t"),
  a_relation: row("Equality = t:Relational", "t"),
  a_shift: row("Relational = t:Shift", "t"),
  an_additive: row("Shift = t:Additive", "t"),
  a_multiplicative: row("Additive = t:Multiplicative", "t"),
  an_exponent: row("Multiplicative = t:Exponent", "t"),
  a_unary: row("Exponent = t:Unary", "t"),
  an_update: row("Unary = t:Update", "t"),
  a_left_hand_side: row("Update = t:LeftHandSide", "t"),
  a_new: row("LeftHandSide = t:New", "t"),
  a_call: row("LeftHandSide = t:Call", "t"),
  a_member: row("New = t:Member", "t"),
  a_primary: row("Member = t:Primary", "t"),
  a_called_member: row("Callee = t:Member", "t"),
  a_called_call: row("Callee = t:Call", "t"),
  a_named_member: row("Member = o:Member . v:name", "tree.static_member (link_values false) o (tree.identifier_name (named v))"),
  a_computed_member: row("Member = o:Member [ e:Expression[+in] ]", "tree.computed_member (link_values false) o e"),
  with_arguments: row("Call = f:Callee ( es:Arguments[+in] )", "tree.call (call_values false) f es"),
  a_named_member_of_call: row("Call = o:Call . v:name", "tree.static_member (link_values false) o (tree.identifier_name (named v))"),
  a_computed_member_of_call: row("Call = o:Call [ e:Expression[+in] ]", "tree.computed_member (link_values false) o e"),
  an_operation: each("o", BINARY, ({ token, level, right }) =>
    row(`${level}${may_operate(token)} = l:${level} ${token} r:${right}`, "tree.binary (bare (binary_operator o ∷ [])) l r"),
  ),
  a_power: row("Exponent = l:Update ** r:Exponent", "tree.binary (bare (binary_operator operators.Exponential ∷ [])) l r"),
  a_conjunction: row("LogicalAnd = l:LogicalAnd && r:BitOr", "tree.logical (bare (logical_operator And ∷ [])) l r"),
  a_disjunction: row("LogicalOr = l:LogicalOr || r:LogicalAnd", "tree.logical (bare (logical_operator Or ∷ [])) l r"),
  a_coalesce: row("ShortCircuit = t:Coalesced", "t"),
  a_coalescing: row("Coalesced = l:CoalesceHead ?? r:BitOr", "tree.logical (bare (logical_operator Coalesce ∷ [])) l r"),
  a_coalesced_head: row("CoalesceHead = t:Coalesced", "t"),
  a_bit_or_head: row("CoalesceHead = t:BitOr", "t"),
  a_choice: row("Conditional = x:ShortCircuit ? y:Assignment[+in] : z:Assignment", "tree.conditional (nothing_of 0) x y z"),
  a_unary_operation: each("o", UNARY, ({ token }) => row(`Unary = ${token} t:Unary`, "tree.unary (bare (unary_operator o ∷ [])) t")),
  an_update_before: each("o", UPDATE, ({ token }) =>
    row(`Update = ${token} t:Unary`, "tree.update (bare (update_operator o ∷ flag true ∷ [])) u", simple_target("t", "u")),
  ),
  an_update_behind: each("o", UPDATE, ({ token }) =>
    row(`Update = t:LeftHandSide _${token}`, "tree.update (bare (update_operator o ∷ flag false ∷ [])) u", simple_target("t", "u")),
  ),
  new_with_arguments: row("Member = new f:Member ( es:Arguments[+in] )", "tree.new_expression (nothing_of 1) f es"),
  new_alone: row("New = new f:New", "tree.new_expression (nothing_of 1) f no_trees"),
  a_named_member_of_super: row(
    "Member = super . v:name",
    "tree.static_member (link_values false) (tree.super (nothing_of 0)) (tree.identifier_name (named v))",
  ),
  a_computed_member_of_super: row(
    "Member = super [ e:Expression[+in] ]",
    "tree.computed_member (link_values false) (tree.super (nothing_of 0)) e",
  ),
  a_call_of_super: row("Call = super ( es:Arguments[+in] )", "tree.call (call_values false) (tree.super (nothing_of 0)) es"),
  a_private_member: row("Member = o:Member . v:private", "tree.private_member (link_values false) o (private_name v)"),
  a_private_member_of_call: row("Call = o:Call . v:private", "tree.private_member (link_values false) o (private_name v)"),
  a_private_test: row("Relational[+in] = v:private in t:Shift", "tree.private_in (nothing_of 0) (private_name v) t"),
  a_regular_expression: row("Primary = w,flags:pattern", "tree.reg_exp_literal (bare (text w ∷ text flags ∷ []))"),
  a_template: row("Primary = v:cooked_head qs,es:Pieces<false>[+in]", "tree.template_literal (nothing_of 0) (more v qs) es"),
  a_tagged_template: row("Member = o:Member q:Template[+in]", "tree.tagged_template (nothing_of 0) o q"),
  a_tagged_template_of_call: row("Call = o:Call q:Template[+in]", "tree.tagged_template (nothing_of 0) o q"),
  an_import_call: row("Call = import ( e,options:Imported[+in] )", "tree.import_call (nothing_of 0) e options"),
  an_import_meta: row("Member = import . meta", "tree.import_meta (nothing_of 0)"),
  a_new_target: row("Member = new . target", "tree.new_target (nothing_of 0)"),
  a_reference: row("Primary = v:free", "tree.identifier_reference (unnumbered v)"),
  a_this: row("Primary = this", "tree.this_expression (nothing_of 0)"),
  a_null: row("Primary = null", "tree.null_literal (nothing_of 0)"),
  a_true: row("Primary = true", "tree.boolean_literal (bare (flag true ∷ []))"),
  a_false: row("Primary = false", "tree.boolean_literal (bare (flag false ∷ []))"),
  a_number: row("Primary = w:number", "tree.numeric_literal (by_text w)"),
  a_big_integer: row("Primary = v:big", "tree.big_int_literal (named v)"),
  a_string: row("Primary = us:quoted", "tree.string_literal (bare (units us ∷ []))"),
  in_parentheses: row("Primary = ( t:Expression[+in] )", "tree.parenthesized (nothing_of 0) t"),
  an_optional_chain: row("LeftHandSide = t:Chain", "tree.chain (nothing_of 0) t"),
  an_array: row("Primary = [ es:Elements[+in] ]", "tree.array (nothing_of 0) es"),
  an_object: row("Primary = { ps:Properties[+in] }", "tree.object_expression (nothing_of 0) ps"),
  a_function: row("Primary = t:Function<Expression,true>", "t"),
  a_class: row("Primary = t:Class<Expression,true>[+in]", "t"),
  an_arrow: row("Assignment = t:Arrow<false>", "t"),
  an_async_arrow: row("Assignment = async t:Arrow<true>", "t", on_same_line("t")),
  an_await: row("Unary[+await] = await t:Unary", "tree.await_expression (nothing_of 0) t"),
  a_yield_alone: row("Assignment[+yield] = yield", "tree.yield_expression (bare (flag false ∷ [])) absent"),
  a_yield: row("Assignment[+yield] = yield t:Assignment", "tree.yield_expression (bare (flag false ∷ [])) (given t)", on_same_line("t")),
  a_delegation: row("Assignment[+yield] = yield _* t:Assignment", "tree.yield_expression (bare (flag true ∷ [])) (given t)"),
};

const ReadsTemplate = {
  a_template_of_a_string: row("Template = w:template", "tree.template_literal (nothing_of 0) (more (raw_piece w) no_trees) no_trees"),
  a_whole_template: row("Template = w:whole", "tree.template_literal (nothing_of 0) (more (raw_piece w) no_trees) no_trees"),
  a_template_of_parts: row("Template = w:head qs,es:Pieces<true>", "tree.template_literal (nothing_of 0) (more (raw_piece w) qs) es"),
};

// The rows of pieces behind a tag, and of others.
const ofPieces = (rowOf) => both("tagged", (tagged) => rowOf(tagged, tagged === "true" ? "raw" : "cooked"));

const ReadsPieces = {
  a_last_piece: ofPieces((tagged, kind) => row(`Pieces<${tagged}> = e:Expression v:${kind}_tail`, ["more v no_trees", "more e no_trees"])),
  a_piece_between: ofPieces((tagged, kind) =>
    row(`Pieces<${tagged}> = e:Expression v:${kind}_middle qs,es:Pieces<${tagged}>`, ["more v qs", "more e es"]),
  ),
};

const ReadsImported = {
  an_imported: row("Imported = e:Assignment", ["e", "absent"]),
  an_imported_and_a_comma: row("Imported = e:Assignment ,", ["e", "absent"]),
  with_options: row("Imported = e:Assignment , f:Assignment", ["e", "given f"]),
  with_options_and_a_comma: row("Imported = e:Assignment , f:Assignment ,", ["e", "given f"]),
};

const FUNCTIONS = [
  { name: "kinds.Expression", kind: "Expression" },
  { name: "kinds.Declaration", kind: "Declaration" },
];

// The rows for each kind of function, whether its name may be omitted or not.
const ofFunctions = (rowOf) => each("kind", FUNCTIONS, ({ kind }) => both("nameless", (nameless) => rowOf(`${kind},${nameless}`)));

const ReadsFunction = {
  a_plain_function: ofFunctions((what) => row(`Function<${what}> = function t:FunctionAs<${what},false,false>`, "t")),
  a_generator: ofFunctions((what) => row(`Function<${what}> = function * t:FunctionAs<${what},false,true>`, "t")),
  an_async_function: ofFunctions((what) => row(`Function<${what}> = async _function t:FunctionAs<${what},true,false>`, "t")),
  an_async_generator: ofFunctions((what) => row(`Function<${what}> = async _function * t:FunctionAs<${what},true,true>`, "t")),
};

// What stands among parameters, and in a body of a function with these words (in_parameters and in_body of the grammar).
const IN_PARAMETERS = "[+in-yield-await]";
const inBody = (async, generator) => `[+return+last${flagged("yield", generator)}${flagged("await", async)}]`;

// The rows for each choice of the words `async` and `*`.
const ofWords = (rowOf) => both("async", (async) => both("generator", (generator) => rowOf(async, generator)));

const ReadsFunctionAs = {
  a_named_function: ofFunctions((what) =>
    ofWords((async, generator) =>
      row(
        `FunctionAs<${what},${async},${generator}> = v:free ( ps,rest:Parameters${IN_PARAMETERS} ) { ds,ss:Body${inBody(async, generator)} }`,
        "function_of kind async generator (given (tree.binding_identifier (unnumbered v))) ps rest ds ss",
      ),
    ),
  ),
  a_nameless_function: each("kind", FUNCTIONS, ({ kind }) =>
    ofWords((async, generator) =>
      row(
        `FunctionAs<${kind},true,${async},${generator}> = ( ps,rest:Parameters${IN_PARAMETERS} ) { ds,ss:Body${inBody(async, generator)} }`,
        "function_of kind async generator absent ps rest ds ss",
      ),
    ),
  ),
};

const ReadsArrow = {
  an_arrow_function: both("async", (async) =>
    row(
      `Arrow<${async}> = ps:ArrowParameters _=> e:Assignment[-yield${flagged("await", async)}]`,
      "tree.arrow_function (arrow_values async) ps e",
      starts_in_brace("e"),
    ),
  ),
  an_arrow_with_body: both("async", (async) =>
    row(
      `Arrow<${async}> = ps:ArrowParameters _=> { ds,ss:Body${inBody(async, "false")} }`,
      "tree.arrow_function (arrow_values async) ps (tree.function_body (nothing_of 0) ds ss)",
    ),
  ),
};

const ReadsArrowParameters = {
  a_parameter_name: row(
    "ArrowParameters = v:free",
    "tree.formal_parameters (nothing_of 0) " +
      "(more (tree.formal_parameter (nothing_of 3) (tree.binding_identifier (unnumbered v)) absent) no_trees) absent",
  ),
  grouped_parameters: row(`ArrowParameters = ( ps,rest:Parameters${IN_PARAMETERS} )`, "tree.formal_parameters (nothing_of 0) ps rest"),
};

const ReadsParameters = {
  no_parameter: row("Parameters =", ["no_trees", "absent"]),
  last_parameter: row("Parameters = p:Parameter", ["more p no_trees", "absent"]),
  first_parameter: row("Parameters = p:Parameter , ps,rest:Parameters", ["more p ps", "rest"]),
  a_rest: row("Parameters = ... b:Binding", ["no_trees", "given (tree.formal_parameter_rest (nothing_of 0) b)"]),
};

const ReadsParameter = {
  a_parameter: row("Parameter = b:Binding", "tree.formal_parameter (nothing_of 3) b absent"),
  with_initializer: row("Parameter = b:Binding = e:Assignment", "tree.formal_parameter (nothing_of 3) b (given e)"),
};

const ReadsParts = {
  last_part: row("Parts = t:Assignment", "more t no_trees"),
  first_part: row("Parts = t:Assignment , us:Parts", "more t us"),
};

const ReadsChain = {
  an_optional_named_member: row("Chain = o:ChainBase ?. v:name", "tree.static_member (link_values true) o (tree.identifier_name (named v))"),
  an_optional_computed_member: row("Chain = o:ChainBase ?. [ e:Expression[+in] ]", "tree.computed_member (link_values true) o e"),
  an_optional_call: row("Chain = f:ChainBase ?. ( es:Arguments[+in] )", "tree.call (call_values true) f es"),
  an_optional_private_member: row("Chain = o:ChainBase ?. v:private", "tree.private_member (link_values true) o (private_name v)"),
  a_further_private_member: row("Chain = o:Chain . v:private", "tree.private_member (link_values false) o (private_name v)"),
  a_further_named_member: row("Chain = o:Chain . v:name", "tree.static_member (link_values false) o (tree.identifier_name (named v))"),
  a_further_computed_member: row("Chain = o:Chain [ e:Expression[+in] ]", "tree.computed_member (link_values false) o e"),
  a_further_call: row("Chain = f:Chain ( es:Arguments[+in] )", "tree.call (call_values false) f es"),
};

const ReadsChainBase = {
  a_first_link: row("ChainBase = t:Callee", "t"),
  a_further_link: row("ChainBase = t:Chain", "t"),
};

const ReadsProperties = {
  no_property: row("Properties =", "no_trees"),
  last_property: row("Properties = t:Property", "more t no_trees"),
  first_property: row("Properties = t:Property , us:Properties", "more t us"),
};

const PROPERTIES = [{ name: "Init" }, { name: "Get" }, { name: "Set" }];

// The rows for each kind of method, whether its key is computed or not.
const ofMethods = (rowOf) => each("kind", PROPERTIES, ({ name }) => both("computed", (computed) => rowOf(`${name},${computed}`)));

const ReadsProperty = {
  a_shorthand: row(
    "Property = v:free",
    "tree.object_property (property_values Init false true false) (tree.identifier_name (named v)) " +
      "(tree.identifier_reference (unnumbered v))",
  ),
  a_property: both("computed", (computed) =>
    row(`Property = k:Key<${computed}> : e:Assignment`, "tree.object_property (property_values Init false false computed) k e"),
  ),
  a_method: ofMethods((what) =>
    row(`Property = k,v:Method<false,${what}>`, "tree.object_property (property_values kind (is_plain_method kind) false computed) k v"),
  ),
  a_spread_property: row("Property = ... e:Assignment", "tree.spread (nothing_of 0) e"),
};

// The rows for a key that may be a private name and for one that may not, and whether it is computed or not.
const ofKeys = (rowOf) => both("private", (hidden) => both("computed", (computed) => rowOf(hidden, computed)));

const ReadsMethod = {
  a_plain_method: ofKeys((hidden, computed) =>
    row(`Method<${hidden},Init,${computed}> = k,v:MethodAs<${hidden},false,false,${computed}>`, ["k", "v"]),
  ),
  a_generator_method: ofKeys((hidden, computed) =>
    row(`Method<${hidden},Init,${computed}> = * k,v:MethodAs<${hidden},false,true,${computed}>`, ["k", "v"]),
  ),
  an_async_method: ofKeys((hidden, computed) =>
    row(`Method<${hidden},Init,${computed}> = async k,v:MethodAs<${hidden},true,false,${computed}>`, ["k", "v"], on_same_line("k")),
  ),
  an_async_generator_method: ofKeys((hidden, computed) =>
    row(`Method<${hidden},Init,${computed}> = async _* k,v:MethodAs<${hidden},true,true,${computed}>`, ["k", "v"]),
  ),
  a_getter: ofKeys((hidden, computed) =>
    row(`Method<${hidden},Get,${computed}> = get k:MemberKey<${hidden},${computed}> ( ) { ds,ss:Body${inBody("false", "false")} }`, [
      "k",
      "method_of false false no_trees absent ds ss",
    ]),
  ),
  a_setter: ofKeys((hidden, computed) =>
    row(
      `Method<${hidden},Set,${computed}> = set k:MemberKey<${hidden},${computed}> ( p:Parameter${IN_PARAMETERS} ) ` +
        `{ ds,ss:Body${inBody("false", "false")} }`,
      ["k", "method_of false false (more p no_trees) absent ds ss"],
    ),
  ),
};

const ReadsMethodAs = {
  a_method_behind_words: ofWords((async, generator) =>
    ofKeys((hidden, computed) =>
      row(
        `MethodAs<${hidden},${async},${generator},${computed}> = k:MemberKey<${hidden},${computed}> ( ps,rest:Parameters${IN_PARAMETERS} ) ` +
          `{ ds,ss:Body${inBody(async, generator)} }`,
        ["k", "method_of async generator ps rest ds ss"],
      ),
    ),
  ),
};

const CLASSES = [
  { name: "class_kinds.Expression", kind: "Expression" },
  { name: "class_kinds.Declaration", kind: "Declaration" },
];

// What stands in the value of a field, and in a static block (in_member of the grammar).
const IN_VALUE = "[+in-yield-await]";
const IN_BLOCK = "[-return-yield-await+last]";

const ReadsClass = {
  a_named_class: each("kind", CLASSES, ({ kind }) =>
    both("nameless", (nameless) =>
      row(
        `Class<${kind},${nameless}> = class v:free heritage,ms:ClassTail`,
        "class_of kind (given (tree.binding_identifier (unnumbered v))) heritage ms",
      ),
    ),
  ),
  a_nameless_class: each("kind", CLASSES, ({ kind }) => row(`Class<${kind},true> = class heritage,ms:ClassTail`, "class_of kind absent heritage ms")),
};

const ReadsClassTail = {
  without_heritage: row("ClassTail = { ms:Members }", ["absent", "ms"]),
  with_heritage: row("ClassTail = extends e:LeftHandSide { ms:Members }", ["given e", "ms"]),
};

const ReadsMembers = {
  no_member: row("Members =", "no_trees"),
  a_semicolon_alone: row("Members = ; ms:Members", "ms"),
  a_last_field: row("Members = t:Field", "more t no_trees"),
  a_first_field: row("Members = t:Field ; ms:Members", "more t ms"),
  a_first_member: row("Members = t:ClassMember ms:Members", "more t ms"),
};

const ReadsMember = {
  a_member_method: ofMethods((what) => row(`ClassMember = k,v:Method<true,${what}>`, "tree.method_definition (member_values kind false computed) k v")),
  a_static_method: ofMethods((what) => row(`ClassMember = static k,v:Method<true,${what}>`, "tree.method_definition (member_values kind true computed) k v")),
  a_static_block: row(`ClassMember = static { ss:Statements${IN_BLOCK} }`, "tree.static_block (nothing_of 0) ss"),
};

const ReadsField = {
  a_field: both("computed", (computed) =>
    row(`Field = k,value:FieldAs<${computed}>`, "tree.property_definition (field_values false computed) k value"),
  ),
  a_static_field: both("computed", (computed) =>
    row(`Field = static k,value:FieldAs<${computed}>`, "tree.property_definition (field_values true computed) k value"),
  ),
};

const ReadsFieldAs = {
  a_field_alone: both("computed", (computed) => row(`FieldAs<${computed}> = k:MemberKey<true,${computed}>`, ["k", "absent"])),
  a_field_with_value: both("computed", (computed) =>
    row(`FieldAs<${computed}> = k:MemberKey<true,${computed}> = e:Assignment${IN_VALUE}`, ["k", "given e"]),
  ),
};

const ReadsMemberKey = {
  a_public_key: ofKeys((hidden, computed) => row(`MemberKey<${hidden},${computed}> = k:Key<${computed}>`, "k")),
  a_private_key: row("MemberKey<true,false> = v:private", "private_name v"),
};

const ReadsKey = {
  a_name_key: row("Key<false> = v:name", "tree.identifier_name (named v)"),
  a_string_key: row("Key<false> = us:string", "tree.string_literal (bare (units us ∷ []))"),
  a_number_key: row("Key<false> = w:number", "tree.numeric_literal (by_text w)"),
  a_big_integer_key: row("Key<false> = v:big", "tree.big_int_literal (named v)"),
  a_computed_key: row("Key<true> = [ e:Assignment[+in] ]", "e"),
};

const ReadsElements = {
  no_element: row("Elements =", "no_trees"),
  last_element: row("Elements = e:Element", "more e no_trees"),
  first_element: row("Elements = e:Element , es:Elements", "more e es"),
  an_elision: row("Elements = , es:Elements", "hole es"),
};

const ReadsArguments = {
  no_argument: row("Arguments =", "no_trees"),
  some_arguments: row("Arguments = es:ArgumentList", "es"),
  with_last_comma: row("Arguments = es:ArgumentList ,", "es"),
};

const ReadsArgumentList = {
  last_argument: row("ArgumentList = e:Element", "more e no_trees"),
  first_argument: row("ArgumentList = e:Element , es:ArgumentList", "more e es"),
};

const ReadsElement = {
  an_element: row("Element = e:Assignment", "e"),
  a_spread: row("Element = ... e:Assignment", "tree.spread (nothing_of 0) e"),
};

export const EXPRESSIONS = {
  ReadsExpression, ReadsTemplate, ReadsPieces, ReadsImported, ReadsFunction, ReadsFunctionAs, ReadsArrow, ReadsArrowParameters, ReadsParameters, ReadsParameter, ReadsParts,
  ReadsChain, ReadsChainBase, ReadsProperties, ReadsProperty, ReadsMethod, ReadsMethodAs, ReadsClass, ReadsClassTail, ReadsMembers,
  ReadsMember, ReadsField, ReadsFieldAs, ReadsMemberKey, ReadsKey, ReadsElements, ReadsArguments, ReadsArgumentList, ReadsElement,
};
