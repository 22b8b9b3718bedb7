// The second reader of jobs, the generator of damaged jobs, and the command that compares. The last two need the
// program, which `rt ci` or `./jsgen` builds; where it isn't built they are skipped.
import assert from "node:assert/strict";
import { spawnSync } from "node:child_process";
import { mkdtempSync, readdirSync, readFileSync, rmSync, writeFileSync } from "node:fs";
import { tmpdir } from "node:os";
import { join } from "node:path";
import { test } from "node:test";
import { fileURLToPath } from "node:url";
import { program, unbuilt } from "../../estree/program.mjs";
import { DAMAGES } from "../damage.mjs";
import { damagedJob } from "../damaged.mjs";
import { Draw } from "../draw.mjs";
import { firstFault } from "../fault.mjs";
import { readFormat } from "../format.mjs";
import { madeJob } from "../jobs.mjs";
import { NotJson, parseJson } from "../json.mjs";
import { SPOILINGS } from "../spoil.mjs";
import { written } from "../text.mjs";

const here = (name) => fileURLToPath(new URL(name, import.meta.url));
const format = readFormat();

// The jobs of tests/*.txt, each with its status and its line on standard error, as they are written there.
function storedCases() {
  const texts = readdirSync(here("../../../tests")).filter((name) => name.endsWith(".txt"));
  const lines = texts.flatMap((name) => readFileSync(here(`../../../tests/${name}`), "utf8").split("\n"));
  const found = lines.map((line, at) => [/^job: ?(.*)$/.exec(line)?.[1], lines[at + 1]?.trim()]);
  return found.filter(([job]) => job !== undefined && !job.includes("‹"));
}

test("the stored cases have the fault that is told of them", () => {
  const cases = storedCases();
  assert.ok(cases.length > 200);
  for (const [job, wanted] of cases) {
    const fault = firstFault(format, Buffer.from(job));
    if (fault === null) assert.match(wanted, /^[01] \|/, job);
    else assert.equal(`3 | not a job: ${fault}⏎`, wanted, job);
  }
});

// The jobs of docs/FORMAT.md, "When a job is refused", each with its line.
function documentedCases() {
  const rows = readFileSync(here("../../../docs/FORMAT.md"), "utf8").matchAll(/^\| `([^`]+)` \|.*\| `(\{.*)` \|$/gm);
  return [...rows].map(([, line, job]) => [line, job]);
}

test("the documented jobs have the fault that is told of them", () => {
  const cases = documentedCases();
  assert.ok(cases.length > 10);
  for (const [line, job] of cases) {
    const fault = firstFault(format, Buffer.from(job));
    if (fault === null) assert.match(line, /^refused: /, job);
    else assert.equal(`not a job: ${fault}`, line, job);
  }
});

test("the fields of a type are in order, with their sets and words", () => {
  const fields = format.types.get("NumericLiteral");
  assert.deepEqual(fields.map(({ name, number }) => [name, number]), [["kind", 2], ["negative", 3], ["digits", 4], ["text", 5]]);
  const asked = [[null, true], ["whole", false], ["whole", true], ["raw", true]];
  assert.deepEqual(fields.map(({ onlyFor, isNeeded }) => [onlyFor, isNeeded]), asked);
  const [elements] = format.types.get("ArrayExpression");
  assert.ok(elements.isList && elements.hasHoles && elements.types.has("SpreadElement") && elements.types.has("Super"));
  assert.ok(format.types.get("BinaryExpression")[0].words.includes("|"));
  assert.ok(format.types.get("Program").find(({ name }) => name === "jsx").isUnread);
  const specifiers = format.types.get("ImportDeclaration").find(({ name }) => name === "specifiers");
  assert.ok(specifiers.isList && !specifiers.hasHoles && !specifiers.isNeeded);
  assert.ok(format.options.get("minify").kind === "flag" && format.options.get("legal").words.includes("linked"));
  const kindsOf = (...names) => names.map((name) => format.options.get(name).kind);
  assert.deepEqual(kindsOf("indent_char", "indent_width", "initial_indent", "legal_path"), ["word", "whole", "number", "text"]);
  const [name, reference] = format.types.get("IdentifierReference");
  assert.deepEqual([name.isNeeded, reference.isNeeded, reference.kind], [true, false, "number"]);
});

// Why a test is left out: false where the table has all these types.
function unknown(...types) {
  return !types.every((type) => format.types.has(type)) && `the table has no ${types.find((type) => !format.types.has(type))}`;
}

test("sets in sets are gone into, and lists of them have holes", { skip: unknown("ArrayAssignmentTarget", "ObjectPattern") }, () => {
  const typesOf = (type, name) => format.types.get(type).find((field) => field.name === name).types;
  const [elements, rest] = format.types.get("ArrayAssignmentTarget");
  assert.ok(elements.isList && elements.hasHoles && !rest.isList && !rest.isNeeded);
  const members = ["IdentifierReference", "ObjectAssignmentTarget", "AssignmentTargetWithDefault"];
  for (const type of members) assert.ok(elements.types.has(type), type);
  assert.deepEqual([...rest.types], ["AssignmentTargetRest"]);
  const heads = typesOf("ForOfStatement", "left");
  assert.ok(heads.has("VariableDeclaration") && heads.has("ArrayAssignmentTarget") && !heads.has("AssignmentTargetWithDefault"));
  assert.ok(!typesOf("UpdateExpression", "argument").has("ArrayAssignmentTarget"));
  assert.ok(typesOf("FormalParameter", "pattern").has("ObjectPattern"));
});

test("members of a class are of a set of their own", { skip: unknown("ClassBody", "PrivateIdentifier") }, () => {
  const [body] = format.types.get("ClassBody");
  assert.deepEqual([...body.types].sort(), ["MethodDefinition", "PropertyDefinition", "StaticBlock"]);
  const fields = format.types.get("MethodDefinition").filter(({ isUnread }) => !isUnread);
  const numbers = [["kind", 3], ["key", 4], ["value", 5], ["computed", 7], ["is_static", 8]];
  assert.deepEqual(fields.map(({ name, number }) => [name, number]), numbers);
  const keys = fields[1].types;
  assert.ok(keys.has("PrivateIdentifier") && keys.has("IdentifierName") && keys.has("Class"));
});

// Of jobs whose one row is the program.
const HEADS = [
  ['"symbols":[],"references":[],"private":[]', null],
  ['"symbols":null,"references":null,"private":null', null],
  ['"symbols":["a",""],"references":[0,null,4294967295],"private":[{},{"a":"b"}]', null],
  ['"private":[{"a":1,"a":"b"}]', null],
  ['"symbols":["a",null]', "Wrong head field 1"],
  ['"symbols":[["a"]]', "Wrong head field 1"],
  ['"symbols":{"0":"a"}', "Wrong head field 1"],
  ['"symbols":[1,0.5]', "Float head field 1"],
  ['"references":[4294967296]', "Wrong head field 2"],
  ['"references":[-1]', "Wrong head field 2"],
  ['"references":["0"]', "Wrong head field 2"],
  ['"references":["0",-0]', "Float head field 2"],
  ['"private":[null]', "Wrong head field 3"],
  ['"private":[{"a":null}]', "Wrong head field 3"],
  ['"private":{"a":"b"}', "Wrong head field 3"],
  ['"private":[{"a":[{"b":1e0}]}]', "Float head field 3"],
  ['"private":0.5,"references":true,"symbols":["a"]', "Wrong head field 2"],
  ['"options":{"legal":"linked"}', "Wrong head field 0"],
  ['"options":{"legal":"linked","legal_path":null}', "Wrong head field 0"],
  ['"options":{"legal":"linked","legal_path":""}', null],
  ['"options":{"legal":"eof","legal_path":"a.txt","source_map_path":"a.map"}', null],
  ['"options":{"normal":true,"jsdoc":false,"annotation":null}', null],
  ['"options":{"annotation":1}', "Wrong head field 0"],
  ['"options":{"source_map_path":["a"]}', "Wrong head field 0"],
  ['"options":{"other":[0.5],"legal":7}', "Float head field 0"],
];

test("the tables and the options of a head have their faults", () => {
  for (const [members, wanted] of HEADS) {
    const job = `{${members},"rows":[{"type":"Program","kind":"module"}]}`;
    assert.equal(firstFault(format, Buffer.from(job)), wanted, job);
  }
});

test("numbers are whole or floats as serde_json has them", () => {
  const kindOf = (text) => parseJson(Buffer.from(text)).is;
  for (const text of ["0", "-1", "18446744073709551615", "-9223372036854775808"]) assert.equal(kindOf(text), "whole", text);
  const floats = ["-0", "1.0", "1e3", "0E-5", "18446744073709551616", "-9223372036854775809", "1e308", "1e-999"];
  for (const text of floats) assert.equal(kindOf(text), "float", text);
  for (const text of ["1e309", "-1e309", "01", "1.", ".5", "+1", "-", "1e", "NaN"]) assert.throws(() => kindOf(text), NotJson, text);
});

test("of a member that comes twice the last one counts, and nesting stops at 127", () => {
  assert.equal(parseJson(Buffer.from('{"a":0.5,"\\u0061":null}')).members.get("a").is, "null");
  const nested = (depth) => Buffer.from("[".repeat(depth) + "]".repeat(depth));
  assert.equal(parseJson(nested(127)).is, "list");
  assert.throws(() => parseJson(nested(128)), NotJson);
});

test("texts have no surrogate without its partner", () => {
  assert.equal(parseJson(Buffer.from('"\\ud83d\\ude00\\/"')).value, "\u{1F600}/");
  for (const text of ['"\\ud800"', '"\\ude00\\ud83d"', '{"\\ud800":0}', '"\t"', '"\\x41"', '"']) {
    assert.throws(() => parseJson(Buffer.from(text)), NotJson, text);
  }
  for (const bytes of [[0xef, 0xbb, 0xbf, 0x30], [0x22, 0xed, 0xa0, 0x80, 0x22], [0x22, 0xff, 0x22], []]) {
    assert.throws(() => parseJson(Buffer.from(bytes)), NotJson);
  }
});

test("a job that isn't damaged has no fault, and each type comes", () => {
  const types = new Set();
  for (let number = 0; number < 1000; number++) {
    const draw = new Draw(number);
    const job = madeJob(format, draw);
    const text = written(job, draw);
    assert.equal(firstFault(format, Buffer.from(text)), null, text);
    for (const row of job.get("rows")) types.add(row.get("type"));
  }
  assert.deepEqual([...types].sort(), [...format.types.keys()].sort());
});

test("each damage comes, and each kind of fault in each place", () => {
  const damages = new Set();
  const faults = new Set();
  for (let number = 0; number < 3000; number++) {
    const { bytes, names } = damagedJob(format, 1, number);
    names.forEach((name) => damages.add(name));
    faults.add(firstFault(format, bytes)?.replace(/row \d+ field [2-9]/, "field").replace(/row \d+/, "row"));
  }
  assert.deepEqual([...damages].sort(), [...Object.keys(DAMAGES), ...Object.keys(SPOILINGS)].sort());
  const wrong = [0, 1, 2, 3, 4].map((at) => `Wrong head field ${at}`);
  const floats = [0, 1, 2, 3, 4].map((at) => `Float head field ${at}`);
  const head = [...floats, "Missing head field 4", ...wrong];
  const rows = ["Missing", "Float", "Wrong", "Child"].map((kind) => `${kind} field`);
  const fronts = ["Missing row field 0", "Float row field 0", "Wrong row field 0", "Float row field 1", "Wrong row field 1"];
  for (const wanted of [undefined, "Json", "Shared row", ...head, ...rows, ...fronts]) assert.ok(faults.has(wanted), wanted);
});

test("a seed and a number fix a job", () => {
  assert.deepEqual(damagedJob(format, 7, 5), damagedJob(format, 7, 5));
  assert.notDeepEqual(damagedJob(format, 7, 5).bytes, damagedJob(format, 8, 5).bytes);
});

// ---- the command

function compared(...words) {
  const { status, stdout, stderr } = spawnSync(process.execPath, [here("../compare.mjs"), ...words]);
  return { status, out: stdout.toString(), err: stderr.toString() };
}

// Compares with a program that answers by this function of the first fault.
function comparedWith(answer, count) {
  const folder = mkdtempSync(join(tmpdir(), "jsgen-"));
  try {
    const program = join(folder, "program.mjs");
    const imports = ["fault", "format"].map((name) => `import * as ${name} from ${JSON.stringify(here(`../${name}.mjs`))};\n`);
    const main = `const told = (${answer})(fault.firstFault(format.readFormat(), fs.readFileSync(0)));
process.stderr.write(told === null ? "" : told + "\\n");
process.exitCode = told === null ? 0 : 3;\n`;
    writeFileSync(program, `#!${process.execPath}\nimport fs from "node:fs";\n${imports.join("")}${main}`, { mode: 0o755 });
    return compared(String(count), "1", program);
  } finally {
    rmSync(folder, { recursive: true });
  }
}

test("compare finds no difference in a program that tells the first fault, and tells one that doesn't", () => {
  const { status, out } = comparedWith((fault) => fault && `not a job: ${fault}`, 5);
  assert.match(out, /^5 jobs of seed 1 \(.*\): 0 differences\n$/);
  assert.equal(status, 0);
  const other = comparedWith(() => "not a job: Json", 5);
  assert.match(other.out, /^job \d+ \([^\n]*\n {2}wanted: [^\n]*\n {2}told: {3}3, not a job: Json\n/);
  assert.equal(other.status, 1);
});

test("compare writes its usage for other words", () => {
  for (const words of [[], ["1"], ["x", "1"], ["1", "-1"], ["1", "1", "p", "q"], ["--write"]]) {
    const { status, out, err } = compared(...words);
    assert.deepEqual([status, out, err.split(" N SEED")[0]], [2, "", "usage: tools/faults/compare"], words.join(" "));
  }
});

test("the program tells the first fault", { skip: unbuilt }, () => {
  const { status, out } = compared("300", "1", program());
  assert.equal(status, 0, out);
});

test("the program says the documented lines", { skip: unbuilt }, () => {
  for (const [line, job] of documentedCases()) {
    const { stderr } = spawnSync(program(), ["print"], { input: job });
    assert.equal(stderr.toString(), `${line}\n`, job);
  }
});
