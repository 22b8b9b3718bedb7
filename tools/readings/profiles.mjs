// Alphabets: the tokens of which lists are made. A bracket stands for both. `starts` is what is read: an expression, a function's body, a
// module's body. `tried` are the sizes up to which the tests go: of lists of the grammar alone, and beside the reader.
import { ASSIGNMENT, BINARY, UNARY, UPDATE } from "./productions/operators.mjs";

const OPERATORS = new Set([...[BINARY, UNARY, UPDATE, ASSIGNMENT].flat().map(({ token }) => token), "**", "&&", "||", "??"]);

const EXPRESSION = "Expression[+in]";
const FUNCTION_BODY = "Body[+return+last]";
const MODULE_BODY = "ModuleBody";
const ALL = [EXPRESSION, FUNCTION_BODY, MODULE_BODY];
// where `yield` and `await` are operators
const OPERANDS = "Expression[+in+yield+await]";
const GENERATOR_BODY = "Body[+return+yield+await+last]";

function profile(tokens, [read, compared], starts = ALL) {
  return { tokens: tokens.split(" "), tried: { read, compared }, starts, hasLineEnds: false };
}

export const PROFILES = {
  // operators by themselves
  operators: profile("a + ! * ** ++ && || ?? (", [7, 6], [EXPRESSION]),
  // operators among the other expressions
  expressions: profile("a 1 + ! * | < in ** ++ && || ?? ? : , = => . ?. new ( [", [6, 5], [EXPRESSION]),
  // each operator
  signs: profile(["a", ...OPERATORS].join(" "), [5, 4], [EXPRESSION]),
  // members, calls, chains and `new`
  links: profile("a target ++ , = => . ?. new super ... ( [", [7, 5], [EXPRESSION]),
  // objects, arrays, functions and what stands in their bodies
  objects: profile("a get set 1 's' ? : , = => function ... return ; ( [ {", [6, 5]),
  // keys, methods and accessors
  accessors: profile("a get set 1n : , ( [ {", [9, 8], [EXPRESSION]),
  setters: profile("a set , ... ( {", [10, 10], [EXPRESSION]),
  // each statement
  statements: profile(
    "a 's' + ++ ? : , = => function if else var const let for while do break throw switch case default try catch finally return ; ( {",
    [6, 5],
  ),
  // the heads of loops
  heads: profile("a of async in ? : , = => . ; for var let function ( {", [6, 5]),
  // statements that hold statements
  flow: profile("a 's' ? : if else while do break switch case default try catch finally ; ( {", [7, 6]),
  // these by themselves, which are long
  branches: profile("a if else while do ; ( {", [11, 8], [FUNCTION_BODY, MODULE_BODY]),
  cases: profile("a switch case default : break ; ( {", [9, 8], [MODULE_BODY]),
  handlers: profile("a try catch finally ; ( {", [10, 8], [FUNCTION_BODY, MODULE_BODY]),
  // patterns of names
  bindings: profile("a let const , = ... : ; => try catch function ( [ {", [8, 6]),
  // patterns of targets
  targets: profile("a , = ... : . ; function ( [ {", [8, 6], [EXPRESSION, MODULE_BODY]),
  // both in the heads of loops
  loops: profile("a for of in let , = ; . ( [ {", [8, 7], [MODULE_BODY]),
  // what may not stand behind a line end, or only there
  lines: { ...profile("a ++ => : throw return break function async ; ( {", [5, 4]), hasLineEnds: true },
  // `yield` and `await` among operators
  waits: profile("a async await yield + * ** ++ && ?? ? : , = => ... in ( [", [5, 4], [OPERANDS, EXPRESSION]),
  yields: profile("a await yield * , ? : = => ( [", [7, 5], [OPERANDS]),
  // functions with words, declared and not
  marked: profile("a async await yield function * => , = ; ( {", [6, 5], [GENERATOR_BODY, MODULE_BODY, EXPRESSION]),
  generators: profile("a async yield function * => ( {", [9, 7], [EXPRESSION, MODULE_BODY]),
  // arrow functions with `async`, and calls of what is named so
  arrows: profile("a async await of => , = ... . ( {", [7, 6], [EXPRESSION, MODULE_BODY]),
  // methods with words
  methods: profile("a async get set * , : ( [ {", [8, 7], [EXPRESSION]),
  keys: profile("a async yield await * , ( [ {", [8, 7], [OPERANDS]),
  // loops that wait
  awaited: profile("a for await of in async let => = ; ( [", [8, 8], [MODULE_BODY]),
  // these words and line ends
  marks: { ...profile("a async await yield function * => , ; ( {", [5, 4], [GENERATOR_BODY, MODULE_BODY]), hasLineEnds: true },
  // classes and their members
  classes: profile("a class extends ; = . new ( {", [8, 7]),
  members: profile("a class static get set async * ; ( {", [9, 8], [EXPRESSION]),
  fields: profile("a class static async get = * ; [ {", [9, 7], [EXPRESSION]),
  blocks: profile("a class static await return yield ; => ( {", [8, 7], [GENERATOR_BODY]),
  computed: profile("a class extends static in yield await = ; ( [ {", [8, 7], [OPERANDS]),
  // what a class extends
  heritages: profile("a async class extends new ++ ?. ( {", [8, 7], [EXPRESSION]),
  // members and line ends
  ends: { ...profile("a class static get async * = ; {", [6, 6], [EXPRESSION]), hasLineEnds: true },
  // imports and exports
  imports: profile("a 's' import from as , * ; {", [9, 7], [MODULE_BODY]),
  exports: profile("a 's' export from as default with , * ; {", [8, 7], [MODULE_BODY]),
  attributes: profile("a 's' import with , : ; {", [10, 9], [MODULE_BODY]),
  declared: profile("a let var const export = ; ( {", [8, 7], [MODULE_BODY]),
  defaults: profile("a async function class * export default => = ; ( {", [8, 7], [MODULE_BODY]),
  imported: profile("a import meta . ?. new , ... = ; ( [", [7, 6], [EXPRESSION, MODULE_BODY]),
  // modules and line ends
  sources: { ...profile("a 's' import export default from async function * ; ( {", [5, 4], [MODULE_BODY]), hasLineEnds: true },
  // private names: members and tests, in chains, and in heads of loops
  privates: profile("a #a in new super = ++ . ?. ( [", [6, 5], [EXPRESSION]),
  tests: profile("a #a in < << + , ? : => = ( {", [6, 5], [EXPRESSION]),
  testing: profile("a #a for in of let . = ; (", [8, 7], [MODULE_BODY]),
  // and as keys
  hidden: profile("a #a class static get set async * ; ( {", [9, 8], [EXPRESSION]),
  secrets: profile("a #a class static async get = . , : ; {", [7, 7], [EXPRESSION]),
  // templates and tags
  templates: profile("a `h${ }m${ }t` `s` `\\u` . , ( [", [6, 5], [EXPRESSION]),
  tags: profile("a `h${ }t` `s` new super import meta . ?. = ( [", [6, 5], [EXPRESSION]),
  escapes: profile("a `h${ `\\u${ }m${ }\\u${ }t` }\\u` `\\u`", [7, 6], [EXPRESSION]),
  pieces: profile("a `h${ }m${ }t` + => yield await async ? : in ( {", [6, 5], [OPERANDS]),
  quotes: profile("a `h${ }t` `s` function class async => export default = ; ( {", [7, 6], [MODULE_BODY, FUNCTION_BODY]),
  // regular expressions
  slashes: profile("a /b/g / . ++ new `s` in , ; ( [", [6, 5], [EXPRESSION, MODULE_BODY]),
  // these and line ends
  breaks: { ...profile("a #a `h${ }t` `s` /b/g async yield class in = ; {", [5, 4], [GENERATOR_BODY]), hasLineEnds: true },
  // words, numbers and strings where names and values stand, or may not stand
  words: profile("a let this null true false 1n 's' `s` class delete instanceof debugger continue , = : . ; ( [ {", [5, 4]),
};
