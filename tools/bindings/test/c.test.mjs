// The library as C calls it: the program of bindings/c, and each status, buffer and failure by test/probe.c. They need the
// static library and cc; without these they are skipped.
import assert from "node:assert/strict";
import { spawnSync } from "node:child_process";
import { mkdtempSync, readdirSync, readFileSync, rmSync, writeFileSync } from "node:fs";
import { tmpdir } from "node:os";
import { join } from "node:path";
import { after, test } from "node:test";
import { fileURLToPath } from "node:url";
import { compile, unlinkable } from "../library.mjs";

const top = (name) => fileURLToPath(new URL(`../../../${name}`, import.meta.url));
const skip = unlinkable;
const folder = mkdtempSync(join(tmpdir(), "jsgen-c-"));
after(() => rmSync(folder, { recursive: true, force: true }));

const LIMIT = 33_554_432;
const COUNTED = ["malloc", "realloc", "free"].map((name) => `-Wl,--wrap=${name}`);
const first = readFileSync(top("examples/first.json"));
const NUMBERS = ["", "Place", "Name", "Literal", "Template", "Span", "Comment", "Indent", "", "", "", "Json", "Float", "Missing", "Wrong", "Child", "Shared"];

const printer = skip ? "" : compile("bindings/c/print_job.c", join(folder, "print_job"));
const probe = skip ? "" : compile("tools/bindings/test/probe.c", join(folder, "probe"), ["-pthread", ...COUNTED]);

// What the probe says of a job.
function asked(words, job) {
  const said = spawnSync(probe, words.map(String), { input: job, encoding: "utf8", maxBuffer: 1 << 28 });
  assert.equal(said.status, 0, `${words.join(" ")}: ${said.signal} ${said.stderr}`);
  return JSON.parse(said.stdout);
}

const text = (answer) => Buffer.from(answer.text, "hex").toString("utf8");

// The status and the line of the program that numbers stand for.
function line({ status, rule, start, row, field, hasRow }) {
  const name = NUMBERS[rule];
  if (status === 1) return `refused: ${name} at ${start}`;
  if (name === "Json") return "not a job: Json";
  const where = hasRow === 1 ? `row ${row}` : "head";
  return `not a job: ${name} ${where}${name === "Shared" ? "" : ` field ${field}`}`;
}

// A file for the C program.
function file(name, bytes) {
  const path = join(folder, name);
  writeFileSync(path, bytes);
  return path;
}

function printed(path) {
  return spawnSync(printer, [path], { encoding: "utf8", maxBuffer: 1 << 28 });
}

test("the C program prints the examples", { skip }, () => {
  const all = readdirSync(top("examples"));
  const names = all.filter((name) => name.endsWith(".js") && all.includes(`${name}on`));
  assert.ok(names.length > 10);
  for (const name of names) {
    const said = printed(top(`examples/${name}on`));
    assert.equal(said.stderr, "", name);
    assert.equal(said.status, 0, name);
    assert.equal(said.stdout, readFileSync(top(`examples/${name}`), "utf8"), name);
  }
});

test("the C program says what is wrong as the program does", { skip }, () => {
  const wrong = [
    [1, "refused: Place at 3", '{"rows":[{"type":"Super","span":[3,8]},{"type":"ExpressionStatement","expression":0},{"type":"Program","kind":"module","body":[1]}]}'],
    [3, "not a job: Json", ""],
    [3, "not a job: Missing head field 4", "{}"],
    [3, "not a job: Missing row 0 field 2", '{"rows":[{"type":"IdentifierReference"}]}'],
    [7, "input too long", Buffer.alloc(LIMIT + 1, " ")],
  ];
  for (const [status, wanted, job] of wrong) {
    const said = printed(file("wrong.json", job));
    assert.deepEqual([said.status, said.stderr, said.stdout], [status, `${wanted}\n`, ""]);
  }
  assert.equal(printed(join(folder, "nowhere.json")).status, 4);
});

test("a buffer that is exactly large enough takes the text, and one a byte smaller nothing", { skip }, () => {
  const wanted = readFileSync(top("examples/first.js"), "utf8");
  const { length } = Buffer.from(wanted);
  for (const room of [length, length + 1, length + 1000]) {
    const answer = asked(["print", room], first);
    assert.equal(answer.status, 0);
    assert.equal(answer.length, length);
    assert.equal(text(answer), wanted);
    assert.ok(answer.restAsItWas);
  }
  for (const room of [length - 1, 1, 0]) {
    const answer = asked(["print", room], first);
    assert.equal(answer.status, 8);
    assert.equal(answer.length, length);
    assert.ok(answer.restAsItWas);
    assert.deepEqual([answer.rule, answer.start, answer.row, answer.field, answer.hasRow], [0, 0, 0, 0, 0]);
  }
});

// A licence that stands in a file of its own, and a map that is asked for.
const LICENSED =
  '{"options":{"source_map_path":"x.js","legal":"external"},"rows":[{"type":"Comment","kind":"block","content":"legal","leading":true,"attached_to":9,"span":[0,8]},{"type":"IdentifierReference","span":[9,10],"name":"a"},{"type":"ExpressionStatement","span":[9,11],"expression":1},{"type":"Program","span":[0,11],"source":"/*! L */\\na;","kind":"module","comments":[0],"body":[2]}]}';

test("a map and licences come as lines, where they are asked for", { skip }, () => {
  for (const [word, wanted] of [["print", "a;\n"], ["map", "0 0 1 0\n"], ["legal", "0 8\n"]]) {
    const { length } = wanted;
    const answer = asked([word, length], LICENSED);
    assert.deepEqual([answer.status, answer.length, text(answer), answer.restAsItWas, answer.kept], [0, length, wanted, true, 0], word);
    const small = asked([word, length - 1], LICENSED);
    assert.deepEqual([small.status, small.length, small.restAsItWas, small.kept], [8, length, true, 0], word);
    for (let failing = 1; failing <= answer.requests; failing++) {
      const refused = asked([word, 100, failing], LICENSED);
      assert.deepEqual([refused.status, refused.length, refused.restAsItWas, refused.kept], [6, 0, true, 0], `${word}, request ${failing}`);
    }
  }
  for (const word of ["map", "legal"]) {
    const none = asked([word, 0], first);
    assert.deepEqual([none.status, none.length, none.restAsItWas], [0, 0, true], word);
    assert.equal(line(asked([word, 100], "{}")), "not a job: Missing head field 4", word);
    assert.equal(asked([word, 100], TEMPLATE).status, 1, word);
  }
});

test("all texts come one behind the other, with the length of each, or none where a byte is lacking", { skip }, () => {
  const lengths = [3, 8, 4];
  const whole = asked(["build", 15], LICENSED);
  assert.deepEqual([whole.status, whole.lengths, text(whole), whole.restAsItWas, whole.kept], [0, lengths, "a;\n0 0 1 0\n0 8\n", true, 0]);
  assert.deepEqual(text(asked(["build", 1000], LICENSED)), text(whole));
  for (const room of [14, 11, 10, 3, 2, 0]) {
    const small = asked(["build", room], LICENSED);
    assert.deepEqual([small.status, small.lengths, small.restAsItWas, small.kept], [8, lengths, true, 0], `${room} bytes`);
    assert.deepEqual([small.rule, small.start, small.row, small.field, small.hasRow], [0, 0, 0, 0, 0]);
  }
  for (let failing = 1; failing <= whole.requests; failing++) {
    const refused = asked(["build", 100, failing], LICENSED);
    assert.deepEqual([refused.status, refused.lengths, refused.restAsItWas, refused.kept], [6, [0, 0, 0], true, 0], `request ${failing}`);
  }
  const alone = asked(["build", 100], first);
  assert.deepEqual([alone.status, alone.lengths, text(alone)], [0, [17, 0, 0], "const a = 1 + 2;\n"]);
  const empty = asked(["build", 0], '{"rows":[{"type":"Program","kind":"module"}]}');
  assert.deepEqual([empty.status, empty.lengths, empty.restAsItWas], [0, [0, 0, 0], true]);
});

// With a source map and licences apart, where a job has no other wish.
function withMap(job) {
  const { options, ...rest } = JSON.parse(job);
  return JSON.stringify({ options: { legal: "external", ...options, source_map_path: "x.js" }, ...rest });
}

test("a build gives for the jobs of examples/ what three calls give", { skip }, () => {
  const jobs = readdirSync(top("examples")).filter((name) => name.endsWith(".json")).map((name) => readFileSync(top(`examples/${name}`), "utf8"));
  assert.ok(jobs.length > 10);
  let mapped = 0;
  for (const job of jobs.flatMap((given) => [given, withMap(given)])) {
    const parts = ["print", "map", "legal"].map((word) => asked([word, 1_000_000], job));
    const whole = asked(["build", 1_000_000], job);
    assert.deepEqual([whole.status, whole.lengths], [parts[0].status, parts.map(({ length }) => length)]);
    assert.equal(whole.text, parts.map((part) => part.text).join(""));
    assert.equal(whole.restAsItWas, true);
    mapped += whole.lengths[1] > 0;
  }
  assert.ok(mapped > 0);
});

test("an empty text fits an empty buffer", { skip }, () => {
  const answer = asked(["print", 0], '{"rows":[{"type":"Program","kind":"module"}]}');
  assert.deepEqual([answer.status, answer.length, answer.restAsItWas], [0, 0, true]);
});

test("an empty job, and one that isn't UTF-8, are no jobs", { skip }, () => {
  for (const job of [Buffer.alloc(0), Buffer.from([0xff, 0xfe]), Buffer.from('{"rows":[{"type":"\xff"}]}', "latin1")]) {
    for (const words of [["print", 100], ["build", 100], ["check"]]) {
      const answer = asked(words, job);
      assert.equal(answer.status, 3);
      assert.equal(line(answer), "not a job: Json");
      assert.notEqual(answer.restAsItWas, false);
    }
  }
});

test("a job of as many bytes as may be is looked at, and a longer one isn't", { skip }, () => {
  for (const words of [["print", 100], ["build", 100], ["check"]]) {
    assert.equal(line(asked(words, Buffer.alloc(LIMIT, " "))), "not a job: Json");
    const answer = asked(words, Buffer.alloc(LIMIT + 1, " "));
    assert.deepEqual([answer.status, answer.rule, answer.length, answer.requests], [7, 0, 0, 0]);
  }
  const answer = asked(["print", 100], Buffer.concat([first, Buffer.alloc(LIMIT - first.length, " ")]));
  assert.deepEqual([answer.status, text(answer)], [0, readFileSync(top("examples/first.js"), "utf8")]);
});

// The jobs of tests/*.txt, each with its status and its line.
function storedCases() {
  const texts = readdirSync(top("tests")).filter((name) => name.endsWith(".txt"));
  const lines = texts.flatMap((name) => readFileSync(top(`tests/${name}`), "utf8").split("\n"));
  const jobs = lines.map((said, at) => [/^job: ?(.*)$/.exec(said)?.[1], /^(\d) \| ?([^⏎]*)/.exec(lines[at + 1]?.trim())]);
  return jobs.filter(([job]) => job !== undefined && !job.includes("‹")).map(([job, [, status, said]]) => [job, Number(status), said]);
}

// The jobs of docs/FORMAT.md, "When a job is refused", each with its status and its line.
function documentedCases() {
  const rows = readFileSync(top("docs/FORMAT.md"), "utf8").matchAll(/^\| `([^`]+)` \|.*\| `(\{.*)` \|$/gm);
  return [...rows].map(([, said, job]) => [job, said.startsWith("refused") ? 1 : 3, said]);
}

// A template of two pieces with nothing between them.
const TEMPLATE =
  '{"rows":[{"type":"TemplateElement","raw":"a","cooked":"a"},{"type":"TemplateElement","raw":"b","cooked":"b"},{"type":"TemplateLiteral","span":[4,9],"quasis":[0,1]},{"type":"ExpressionStatement","expression":2},{"type":"Program","kind":"module","body":[3]}]}';

test("jobs have the status and the numbers of the line that is told of them", { skip }, () => {
  const rules = new Set();
  for (const [job, status, said] of [...storedCases(), ...documentedCases(), [TEMPLATE, 1, "refused: Template at 4"]]) {
    const answer = asked(["print", 100_000], job);
    assert.equal(answer.status, status, job);
    if (status !== 0) assert.equal(line(answer), said, job);
    assert.equal(answer.restAsItWas, true, job);
    assert.equal(answer.kept, 0, job);
    const { row, field, hasRow, start, rule } = answer;
    const { requests, ...checked } = asked(["check"], job);
    assert.deepEqual(checked, { status, length: 0, row, field, hasRow, start, rule, kept: 0 }, job);
    const whole = asked(["build", 100_000], job);
    assert.deepEqual([whole.status, whole.row, whole.field, whole.hasRow, whole.start, whole.rule], [status, row, field, hasRow, start, rule], job);
    assert.deepEqual([whole.lengths[0], whole.restAsItWas, whole.kept, whole.text.startsWith(answer.text)], [answer.length, true, 0, true], job);
    rules.add(NUMBERS[rule]);
  }
  assert.deepEqual([...rules].sort(), [...new Set(NUMBERS)].sort());
});

test("each request for memory that fails is answered by want of memory, and nothing is kept", { skip }, () => {
  const whole = asked(["print", 100], first);
  assert.ok(whole.requests > 3);
  assert.equal(whole.kept, 0);
  for (let failing = 1; failing <= whole.requests; failing++) {
    const answer = asked(["print", 100, failing], first);
    assert.deepEqual([answer.status, answer.length, answer.rule, answer.restAsItWas, answer.kept], [6, 0, 0, true, 0], `request ${failing}`);
  }
  const checked = asked(["check"], first);
  assert.equal(checked.kept, 0);
  for (let failing = 1; failing <= checked.requests; failing++) {
    const answer = asked(["check", failing], first);
    assert.deepEqual([answer.status, answer.kept], [6, 0], `request ${failing}`);
  }
});

test("eight threads print at once", { skip }, () => {
  const answer = asked(["threads", 8], readFileSync(top("examples/classes.json")));
  assert.equal(answer.same, true);
  assert.equal(text(answer), readFileSync(top("examples/classes.js"), "utf8"));
});

test("after 10,000 calls the process is as large as after 1,000", { skip }, () => {
  const answer = asked(["repeat", 10_000], first);
  assert.equal(answer.kept, 0);
  assert.equal(answer.late, answer.early);
});
