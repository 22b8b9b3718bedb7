// What the numbers of an answer say (crates/jsgen_c), in the words of docs/FORMAT.md.
const RULES = { 1: "Place", 2: "Name", 3: "Literal", 4: "Template", 5: "Span", 6: "Comment", 7: "Indent" };
const FAULTS = { 11: "Json", 12: "Float", 13: "Missing", 14: "Wrong", 15: "Child", 16: "Shared", 17: "Memory" };

/** A job that isn't printed. Its message begins with the line that the program says. */
export class JsgenError extends Error {
  constructor(message, { cause, ...details } = {}) {
    super(message, cause === undefined ? undefined : { cause });
    this.name = "JsgenError";
    Object.assign(this, details);
  }
}

/** The error of a status other than 0 and of the numbers beside it. */
export function errorOf({ status, rule, row, field, start }) {
  switch (status) {
    case 1:
      return new JsgenError(`refused: ${RULES[rule]} at ${start}`, { status, rule: RULES[rule], start });
    case 3: {
      const kind = FAULTS[rule];
      const inRow = row === undefined ? " head" : ` row ${row}`;
      const place = kind === "Json" || kind === "Memory" ? "" : kind === "Shared" ? inRow : `${inRow} field ${field}`;
      return new JsgenError(`not a job: ${kind}${place}`, { status, rule: kind, row, field: place.includes("field") ? field : undefined });
    }
    case 6:
      return new JsgenError("out of memory", { status });
    case 7:
      return new JsgenError("input too long", { status });
    default:
      return new JsgenError(`status ${status}`, { status });
  }
}

/** The error of a line of the program. */
export function errorOfLine(status, line) {
  const refused = /^refused: (\w+) at (\d+)$/.exec(line);
  if (refused) return errorOf({ status: 1, rule: numberOf(RULES, refused[1]), start: Number(refused[2]) });
  const fault = /^not a job: (\w+)(?: head| row (\d+))?(?: field (\d+))?$/.exec(line);
  if (fault) return errorOf({ status: 3, rule: numberOf(FAULTS, fault[1]), row: wholeOf(fault[2]), field: wholeOf(fault[3]) });
  return new JsgenError(line || (typeof status === "string" ? `the program was ended by ${status}` : `status ${status}`), { status });
}

function numberOf(words, wanted) {
  return Object.keys(words).find((number) => words[number] === wanted);
}

function wholeOf(text) {
  return text === undefined ? undefined : Number(text);
}
