// Values of the interpreter: { name, parts } with a constructor, numbers, texts, and functions that wait for arguments.

/** A constructor with its parts. A text is a constructor too, with its quotes. */
export const value = (name, ...parts) => ({ name, parts });

const texts = new Map();

export function textValue(text) {
  if (!texts.has(text)) texts.set(text, value(`"${text}"`));
  return texts.get(text);
}

const [TRUE, FALSE] = [value("true"), value("false")];

export const truth = (holds) => (holds ? TRUE : FALSE);
export const isTrue = ({ name }) => name === "true";

export const option = (found) => (found ? value("Some", found) : value("None"));

/** The list of values. */
export const listValue = (...values) => values.reduceRight((rest, first) => value("∷", first, rest), value("[]"));

let functions = 0;

/** A function that runs where it has as many arguments. */
export const functionOf = (arity, run, args = []) => ({ arity, run, args, number: functions++ });

/** What a function, or a constructor, gives for arguments. */
export function call(applied, args) {
  if (applied.run && applied.arity === args.length && applied.args.length === 0) return applied.run(...args);
  let [result, rest] = [applied, args];
  while (rest.length > 0) {
    if (!result.run) return value(result.name, ...result.parts, ...rest);
    const wanted = result.arity - result.args.length;
    const given = result.args.concat(rest.slice(0, wanted));
    result = rest.length < wanted ? functionOf(result.arity, result.run, given) : result.run(...given);
    rest = rest.slice(wanted);
  }
  return result;
}

/** A value as it is written; functions by their numbers, since two may differ in what they hold. */
export function shown(given) {
  if (typeof given !== "object") return String(given);
  if (given.run) return `λ${given.number}`;
  return given.parts.length > 0 ? `(${[given.name, ...given.parts.map(shown)].join(" ")})` : given.name;
}
