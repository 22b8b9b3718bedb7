// What the files of the crate import: of the names below those that a file has.

const TREE = "Rattle.jsgen_tree.specs";
const MODEL = "Rattle.jsgen_model.specs";
const SYNTAX = "Rattle.jsgen_syntax.specs";
const OWN = "Rattle.jsgen_reading_vectors";

const SIGNS = [
  "plus", "minus", "star", "slash", "percent", "star_star", "equal_equal", "not_equal", "equal_equal_equal", "not_equal_equal", "less", "less_equal",
  "greater", "greater_equal", "shift_left", "shift_right", "shift_right_zero", "bit_and", "bit_or", "bit_xor", "and_and", "or_or", "nullish", "dot",
  "ellipsis", "comma", "semicolon", "colon", "question", "question_dot", "equal", "bang", "tilde", "plus_plus", "minus_minus", "plus_equal",
  "minus_equal", "star_equal", "slash_equal", "percent_equal", "star_star_equal", "shift_left_equal", "shift_right_equal",
  "shift_right_zero_equal", "bit_or_equal", "bit_xor_equal", "bit_and_equal", "or_or_equal", "and_and_equal", "nullish_equal", "arrow",
  "Round", "Square", "Brace",
];

const PRELUDE = ["◌≡◌", "[]", "◌∷◌", "true", "false", "Some", "codes"];

// A module with the names that may be imported from it, or with what it is called.
const IMPORTS = [
  [`${SYNTAX}.Escapes`, ["word_value"]],
  [`${SYNTAX}.Name`, ["is_reserved", "is_strict_reserved", "is_free_name"]],
  [`${SYNTAX}.Strings`, ["string_value"]],
  [`${SYNTAX}.declared.quote.Quote.TheVariants`, ["Single", "Double", "Backtick"]],
  [`${SYNTAX}.declared.operator.BinaryOperator.TheVariants`, "operators"],
  [`${SYNTAX}.declared.operator.LogicalOperator.TheVariants`, ["Or", "And", "Coalesce"]],
  [`${SYNTAX}.declared.operator.UnaryOperator.TheVariants`, "unary_operators"],
  [`${SYNTAX}.declared.operator.UpdateOperator.TheVariants`, "update_operators"],
  [`${SYNTAX}.declared.operator.AssignmentOperator.TheVariants`, "assignment_operators"],
  [`${TREE}.declared.statements.VariableDeclarationKind.TheVariants`, ["Const", "Let", "Var"]],
  [`${TREE}.declared.collections.PropertyKind.TheVariants`, ["Init", "Get", "Set"]],
  [`${TREE}.declared.functions.FunctionKind.TheVariants`, "kinds"],
  [`${TREE}.declared.classes.ClassKind.TheVariants`, "class_kinds"],
  [`${TREE}.declared.modules.WithKeyword.TheVariants`, "with_keywords"],
  [
    `${TREE}.Atom`,
    ["units", "flag", "binary_operator", "logical_operator", "unary_operator", "update_operator", "assignment_operator", "with_keyword", "text"],
  ],
  [`${TREE}.Tree`, ["Tree", "absent", "given", "no_trees", "more", "hole", "no_list", "listed"]],
  [`${TREE}.Places`, ["bare"]],
  [`${TREE}.Nodes`, "tree"],
  [`${MODEL}.Normal`, ["nothing_of", "named", "unnumbered", "link_values", "call_values", "by_text", "declared_as", "property_values"]],
  [`${MODEL}.Numbers`, ["spells_number"]],
  [`${MODEL}.Punctuator`, SIGNS],
  [
    `${MODEL}.Tokens`,
    [
      "Tokens", "done", "piece", "group", "Word", "Number", "Quoted", "Sign", "Beyond", "Private", "Pattern", "Whole", "Head", "Middle", "Tail",
      "longer_stands", "longer_number_stands",
    ],
  ],
  [
    `${MODEL}.Grammar`,
    [
      "Allowed", "Assignment", "LeftHandSide", "Call", "Member", "Primary", "Unary", "ReadsExpression", "function_of", "class_of", "member_values",
      "field_values", "arrow_values", "loop_values", "computed_values", "text_of", "of_values", "private_name", "raw_piece", "cooked_piece",
    ],
  ],
  [`${MODEL}.Grammar`, "grammar"],
];

/** What the files of jsgen_reading_vectors import from that which all of them share. */
export const OF_READING = [`${OWN}.specs.Reading`, ["IsRead", "program_of", "statement_of", "reference_of", "name_of", "key_of"]];

const isIn = (body) => (name) => {
  if (name === "[]") return body.includes("[]");
  if (name.startsWith("◌")) return body.includes(name[1]);
  return new RegExp(`(?<![\\w.])${name}(?![\\w.])`).test(body);
};

function lineOf([module, names], body) {
  if (typeof names === "string") return new RegExp(`(?<![\\w.])${names}\\.`).test(body) ? [`use ${module} as ${names}`] : [];
  const found = names.filter(isIn(body));
  return found.length > 0 ? [`use ${module}.{${found.join(", ")}}`] : [];
}

// A file without its texts and its comments.
const codeOf = (body) => body.replace(/"(?:[^"\\]|\\.)*"/g, "").replace(/^ *--.*/gm, "");

/** The imports of a file of specs by what is behind them. */
export function importsOfSpecs(body) {
  const code = codeOf(body);
  return [["Rattle.std.specs.Prelude", PRELUDE], ...IMPORTS, OF_READING].flatMap((entry) => lineOf(entry, code)).join("\n");
}

/** The imports of a file of proofs; `own` are entries of files of its crate. */
export function importsOfProofs(body, own = [OF_READING]) {
  const code = codeOf(body);
  const first = [
    ["Rattle.std.proofs.Common", [...PRELUDE, "refl"]],
    ["lib.Utf8", ["encode"]],
    ["Rattle.unicode_ident.proofs.Computing", ["unicode_ident"]],
  ];
  return [...first, ...IMPORTS, ...own].flatMap((entry) => lineOf(entry, code)).join("\n");
}
