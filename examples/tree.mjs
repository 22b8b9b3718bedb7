import { print } from "../bindings/node/index.mjs";

const number = (value) => ({ type: "Literal", value });
const binary = (left, operator, right) => ({ type: "BinaryExpression", left, operator, right });
const expression = binary(binary(number(1), "+", number(2)), "*", number(3));
const program = { type: "Program", sourceType: "module", body: [{ type: "ExpressionStatement", expression }] };
process.stdout.write(print(program).code);
