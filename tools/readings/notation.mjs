// The notation of definitions: expressions and patterns of clauses, as trees of plain objects.
//
// Of an expression: { name }, { number }, { text }, { applied, to }, { test, yes, no }, { operator, left, right }, { bound, body }.
// Of a pattern: { variable }, { number }, { form, parts }.

export const words = (line) => line.match(/"[^"]*"|[()[\]]|[^\s()[\]"]+/g) ?? [];

class Reader {
  constructor(tokens) {
    this.tokens = tokens;
    this.at = 0;
  }

  get next() {
    return this.tokens[this.at];
  }

  take(wanted) {
    const token = this.tokens[this.at++];
    if (wanted !== undefined && token !== wanted) throw new Error(`${wanted} is wanted in place of ${token}: ${this.tokens.join(" ")}`);
    return token;
  }

  whole(read) {
    const result = read();
    if (this.at < this.tokens.length) throw new Error(`nothing is wanted at ${this.next}: ${this.tokens.join(" ")}`);
    return result;
  }
}

/** The expression that words are. */
export function expressionOf(tokens) {
  const reader = new Reader(tokens);
  return reader.whole(() => expression(reader));
}

function expression(reader) {
  if (reader.next === "if") return condition(reader);
  if (reader.next === "λ") return abstraction(reader);
  return operation(reader, "||", () => operation(reader, "&&", () => cons(reader)));
}

function condition(reader) {
  reader.take("if");
  const test = expression(reader);
  reader.take("then");
  const yes = expression(reader);
  reader.take("else");
  return { test, yes, no: expression(reader) };
}

// `λ x y. body`
function abstraction(reader) {
  reader.take("λ");
  const bound = [];
  while (!bound.at(-1)?.endsWith(".")) bound.push(reader.take());
  return { bound: bound.map((name) => name.replace(/\.$/, "")), body: expression(reader) };
}

function operation(reader, operator, operand) {
  const left = operand();
  if (reader.next !== operator) return left;
  reader.take(operator);
  return { operator, left, right: operation(reader, operator, operand) };
}

function cons(reader) {
  const first = application(reader);
  if (reader.next !== "∷") return first;
  reader.take("∷");
  return { applied: { name: "∷" }, to: [first, cons(reader)] };
}

const ENDS = new Set([undefined, ")", "then", "else", "∷", "&&", "||"]);

function application(reader) {
  const applied = atom(reader);
  const to = [];
  while (!ENDS.has(reader.next)) to.push(reader.next === "λ" || reader.next === "if" ? expression(reader) : atom(reader));
  return to.length > 0 ? { applied, to } : applied;
}

function atom(reader) {
  const token = reader.take();
  if (token === "(") return inParentheses(reader, expression);
  if (token === "[") return emptyList(reader, { name: "[]" });
  if (token[0] === '"') return { text: token.slice(1, -1) };
  return /^\d+$/.test(token) ? { number: Number(token) } : { name: token };
}

function inParentheses(reader, read) {
  const result = read(reader);
  reader.take(")");
  return result;
}

function emptyList(reader, result) {
  reader.take("]");
  return result;
}

/** The patterns before the `=` of a clause; `isConstructor` tells constructors from variables. */
export function patternsOf(tokens, isConstructor) {
  const reader = new Reader(tokens);
  const patterns = [];
  while (reader.next !== undefined) patterns.push(patternAtom(reader, isConstructor));
  return patterns;
}

function pattern(reader, isConstructor) {
  const first = patternAtom(reader, isConstructor);
  while (first.form && ![undefined, ")", "∷"].includes(reader.next)) first.parts.push(patternAtom(reader, isConstructor));
  if (reader.next !== "∷") return first;
  reader.take("∷");
  return { form: "∷", parts: [first, pattern(reader, isConstructor)] };
}

function patternAtom(reader, isConstructor) {
  const token = reader.take();
  if (token === "(") return inParentheses(reader, () => pattern(reader, isConstructor));
  if (token === "[") return emptyList(reader, { form: "[]", parts: [] });
  if (/^\d+$/.test(token)) return { number: Number(token) };
  return isConstructor(token) ? { form: token, parts: [] } : { variable: token };
}
