// Operators, with their tokens, their names in Premises.antt and the levels of operations.

const named = (record, tokens) => Object.entries(tokens).map(([token, name]) => ({ token, name: `${record}.${name}` }));
const ofLevel = (level, right, tokens) => named("operators", tokens).map((operator) => ({ ...operator, level, right }));

/** But for `**`, which groups from the right and has a production of its own. `right` is the level of a right operand. */
export const BINARY = [
  ...ofLevel("BitOr", "BitXor", { "|": "BitwiseOR" }),
  ...ofLevel("BitXor", "BitAnd", { "^": "BitwiseXOR" }),
  ...ofLevel("BitAnd", "Equality", { "&": "BitwiseAnd" }),
  ...ofLevel("Equality", "Relational", { "==": "Equality", "!=": "Inequality", "===": "StrictEquality", "!==": "StrictInequality" }),
  ...ofLevel("Relational", "Shift", { "<": "LessThan", "<=": "LessEqualThan", ">": "GreaterThan", ">=": "GreaterEqualThan" }),
  ...ofLevel("Relational", "Shift", { in: "In", instanceof: "Instanceof" }),
  ...ofLevel("Shift", "Additive", { "<<": "ShiftLeft", ">>": "ShiftRight", ">>>": "ShiftRightZeroFill" }),
  ...ofLevel("Additive", "Multiplicative", { "+": "Addition", "-": "Subtraction" }),
  ...ofLevel("Multiplicative", "Exponent", { "*": "Multiplication", "/": "Division", "%": "Remainder" }),
];

export const UNARY = named("unary_operators", {
  delete: "Delete", void: "Void", typeof: "Typeof", "+": "UnaryPlus", "-": "UnaryNegation", "~": "BitwiseNot", "!": "LogicalNot",
});

export const UPDATE = named("update_operators", { "++": "Increment", "--": "Decrement" });

export const ASSIGNMENT = named("assignment_operators", {
  "=": "Assign", "+=": "Addition", "-=": "Subtraction", "*=": "Multiplication", "/=": "Division", "%=": "Remainder",
  "**=": "Exponential", "<<=": "ShiftLeft", ">>=": "ShiftRight", ">>>=": "ShiftRightZeroFill",
  "|=": "BitwiseOR", "^=": "BitwiseXOR", "&=": "BitwiseAnd", "||=": "LogicalOr", "&&=": "LogicalAnd", "??=": "LogicalNullish",
});

/** `in` stands where it is allowed: the flag that an operation then needs. */
export const may_operate = (token) => (token === "in" ? "[+in]" : "");
