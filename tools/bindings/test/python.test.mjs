// The Python module of bindings/python, over a shared object of the static library; skipped where that or Python isn't there.
import assert from "node:assert/strict";
import { spawnSync } from "node:child_process";
import { copyFileSync, cpSync, existsSync, mkdirSync, mkdtempSync, rmSync, symlinkSync, writeFileSync } from "node:fs";
import { tmpdir } from "node:os";
import { join } from "node:path";
import { after, test } from "node:test";
import { fileURLToPath } from "node:url";
import { libraries, unlinkable } from "../library.mjs";

const top = (name) => fileURLToPath(new URL(`../../../${name}`, import.meta.url));
const skip = unlinkable || (spawnSync("python3", ["--version"]).status !== 0 && "there is no python3");
const folder = mkdtempSync(join(tmpdir(), "jsgen-python-"));
after(() => rmSync(folder, { recursive: true, force: true }));
const shared = join(folder, "libjsgen.so");
if (!skip) {
  const [library, heap] = libraries();
  const made = spawnSync("cc", ["-shared", "-o", shared, "-Wl,--whole-archive", library, "-Wl,--no-whole-archive", heap], { encoding: "utf8" });
  if (made.status !== 0) throw new Error(`cc: ${made.stderr}`);
}

// What a program of these lines prints, which has the module and a function for what a call raises.
function said(...lines) {
  return saidBy({ PYTHONPATH: top("bindings/python"), JSGEN_SHARED: shared }, lines);
}

function saidBy(variables, lines) {
  const raised = ["def raised(call, job):", "    try: call(job)", "    except Exception as error:", "        return [type(error).__name__, str(error), *[getattr(error, it, None) for it in ('status', 'rule', 'start', 'row', 'field')]]"];
  const program = ["import json, sys, threading", "import jsgen", ...raised, ...lines].join("\n");
  const ran = started(variables, program);
  assert.equal(ran.status, 0, ran.stderr);
  return JSON.parse(ran.stdout);
}

function started(variables, program, command = ["python3", "-c"]) {
  const { JSGEN_SHARED, LD_LIBRARY_PATH, ...env } = process.env;
  return spawnSync(command[0], [...command.slice(1), program], { env: { ...env, ...variables, PYTHONDONTWRITEBYTECODE: "1" }, encoding: "utf8", maxBuffer: 1 << 28 });
}

const LICENSED =
  '{"options":{"source_map_path":"x.js","legal":"external"},"rows":[{"type":"Comment","kind":"block","content":"legal","leading":true,"attached_to":9,"span":[0,8]},{"type":"IdentifierReference","span":[9,10],"name":"\u00e9"},{"type":"ExpressionStatement","span":[9,11],"expression":1},{"type":"Program","span":[0,11],"source":"/*! L */\\na;","kind":"module","comments":[0],"body":[2]}]}';

test("a job has its code, the lines of its map and those of its licences", { skip }, () => {
  const job = JSON.stringify(LICENSED);
  assert.deepEqual(said(`job = ${job}`, "print(json.dumps([it(job) for it in (jsgen.print_job, jsgen.map_job, jsgen.legal_job, jsgen.check_job)]))"), ["\u00e9;\n", '0 0 1 0 0\nname "a"\n', "0 8\n", null]);
  assert.deepEqual(said(`job = ${job}`, "built = jsgen.build_job(job)", "print(json.dumps([built, built.code, built.map, built.licences]))"), [["\u00e9;\n", '0 0 1 0 0\nname "a"\n', "0 8\n"], "\u00e9;\n", '0 0 1 0 0\nname "a"\n', "0 8\n"]);
  assert.deepEqual(said(`job = ${job}`, "print(json.dumps([jsgen.print_job(it(job.encode())) for it in (bytes, bytearray, memoryview)]))"), Array(3).fill("\u00e9;\n"));
});

test("what is wrong is raised", { skip }, () => {
  const name = '{"rows":[{"type":"IdentifierReference","span":[5,6],"name":"a b"},{"type":"ExpressionStatement","expression":0},{"type":"Program","kind":"module","body":[1]}]}';
  for (const [job, wanted] of [
    [JSON.stringify(name), ["JsgenError", "refused: Name at 5", 1, "Name", 5, null, null]],
    ["''", ["JsgenError", "not a job: Json", 3, "Json", null, null, null]],
    ["b'\\xff'", ["JsgenError", "not a job: Json", 3, "Json", null, null, null]],
    ["'{}'", ["JsgenError", "not a job: Missing head field 4", 3, "Missing", null, null, 4]],
    ["{}", ["JsgenError", "not a job: Missing head field 4", 3, "Missing", null, null, 4]],
    ["{'rows': [{'type': 'Nothing'}]}", ["JsgenError", "not a job: Wrong row 0 field 0", 3, "Wrong", null, 0, 0]],
    ["{'rows': {1}}", ["TypeError", "Object of type set is not JSON serializable", null, null, null, null, null]],
    [`'{"rows":[{"type":"Nothing"}]}'`, ["JsgenError", "not a job: Wrong row 0 field 0", 3, "Wrong", null, 0, 0]],
    ["' ' * 33554433", ["JsgenError", "input too long", 7, null, null, null, null]],
    ["5", ["TypeError", "a job is a str, bytes or a dict", null, null, null, null, null]],
  ]) {
    const all = said(`print(json.dumps([raised(it, ${job}) for it in (jsgen.print_job, jsgen.map_job, jsgen.legal_job, jsgen.build_job, jsgen.check_job)]))`);
    assert.deepEqual(all, Array(5).fill(wanted));
  }
});

test("a text that is longer than its job comes whole, and threads print at once", { skip }, () => {
  const blocks = Array.from({ length: 200 }, (_, at) => `{"type":"BlockStatement","body":[${at}]}`);
  const job = `{"options":{"indent_char":"space","indent_width":16},"rows":[${['{"type":"EmptyStatement"}', ...blocks].join(",")},{"type":"Program","kind":"module","body":[200]}]}`;
  const lines = ["texts = []", "threads = [threading.Thread(target=lambda: texts.append(jsgen.print_job(job))) for _ in range(8)]", "for it in threads: it.start()", "for it in threads: it.join()"];
  const texts = said(`job = ${JSON.stringify(job)}`, ...lines, "print(json.dumps([len(texts), len(set(texts)), texts[0].count('\\n'), jsgen.build_job(job) == (texts[0], '', '')]))");
  assert.deepEqual(texts, [8, 1, 401, true]);
});

test("a dict is written as JSON, whatever is in its texts", { skip }, () => {
  const row = "{'type': 'StringLiteral', 'value': 'é\\u2028\\0\\\"\\U0001f600'}";
  const job = `{'options': {'minify': True}, 'rows': [{'type': 'ThisExpression'}, ${row}, {'type': 'ArrayExpression', 'elements': [0, 1, None]}, {'type': 'ExpressionStatement', 'expression': 2}, {'type': 'Program', 'kind': 'module', 'body': [3]}]}`;
  const [one, other] = said(`job = ${job}`, "print(json.dumps([jsgen.print_job(job), jsgen.print_job(json.dumps(job))]))");
  assert.equal(one, other);
  assert.match(one, /^\[this,.+é.+,,\];$/u);
});

test("100000 blocks one in another print, whatever stack the calling thread has, and the size of the program's own threads stays", { skip }, () => {
  const levels = 100_000;
  const rows = `[{"type": "EmptyStatement"}, *({"type": "BlockStatement", "body": [at]} for at in range(${levels})), {"type": "Program", "kind": "module", "body": [${levels}]}]`;
  const lines = [
    `job = json.dumps({"options": {"minify": True}, "rows": ${rows}})`,
    "threading.stack_size(262144)",
    "texts = []",
    "thread = threading.Thread(target=lambda: texts.append(jsgen.print_job(job)))",
    "thread.start()",
    "thread.join()",
    `print(json.dumps([[it == "{" * ${levels} + ";" + "}" * ${levels} for it in texts], threading.stack_size()]))`,
  ];
  assert.deepEqual(said(...lines), [[true], 262144]);
});

test("a call whose thread gets no stack raises, and the next one prints", { skip }, () => {
  const program = [
    "import jsgen, json",
    `job = '{"rows":[{"type":"Program","kind":"module"}]}'`,
    "try: jsgen.print_job(job + ' ' * 30_000_000)",
    "except jsgen.JsgenError as error: print(json.dumps([str(error), error.status, jsgen.print_job(job)]))",
  ].join("\n");
  const command = ["sh", "-c", 'ulimit -v 4000000; exec python3 -c "$0"'];
  const { stdout, stderr } = started({ PYTHONPATH: top("bindings/python"), JSGEN_SHARED: shared }, program, command);
  assert.deepEqual(JSON.parse(stdout || "null"), ["no thread can be made that has the stack for this job", 70, ""], stderr);
});

test("an error goes from one process to another", { skip }, () => {
  const lines = ["import pickle", "try: jsgen.print_job('{}')", "except jsgen.JsgenError as error: print(json.dumps([str(pickle.loads(pickle.dumps(error))), pickle.loads(pickle.dumps(error)).__dict__]))"];
  assert.deepEqual(said(...lines), ["not a job: Missing head field 4", { status: 3, rule: "Missing", start: null, row: null, field: 4 }]);
});

test("what the module exports has types", { skip }, () => {
  const lines = ["import typing", "print(json.dumps({it: sorted(typing.get_type_hints(getattr(jsgen, it))) for it in jsgen.__all__ if it != 'JsgenError'}))"];
  const calls = ["build_job", "check_job", "legal_job", "map_job", "print_job"].map((name) => [name, ["job", "return"]]);
  assert.deepEqual(said(...lines), { Built: ["code", "licences", "map"], ...Object.fromEntries(calls) });
  assert.ok(existsSync(top("bindings/python/jsgen/py.typed")));
});

test("the library is the one that JSGEN_SHARED names, else the one beside the module, else the loader's, and one that doesn't load says why", { skip }, () => {
  const site = join(folder, "site");
  const beside = join(site, "jsgen/libjsgen.so");
  mkdirSync(join(site, "jsgen"), { recursive: true });
  copyFileSync(top("bindings/python/jsgen/__init__.py"), join(site, "jsgen/__init__.py"));
  const libraryOf = (variables) => saidBy({ PYTHONPATH: site, ...variables }, ["print(json.dumps(jsgen._library._name))"]);
  const failureOf = (variables) => /^ImportError: .*$/m.exec(started({ PYTHONPATH: site, ...variables }, "import jsgen").stderr)?.[0];
  const asked = "(the variable JSGEN_SHARED, a libjsgen.so beside the module, and the system's loader are asked, in this order)";

  assert.equal(libraryOf({ LD_LIBRARY_PATH: folder }), "libjsgen.so");
  assert.equal(failureOf({}), `ImportError: jsgen: the library libjsgen.so can't be loaded: libjsgen.so: cannot open shared object file: No such file or directory ${asked}`);
  symlinkSync(shared, beside);
  assert.equal(libraryOf({}), beside);
  assert.equal(libraryOf({ JSGEN_SHARED: "" }), beside);
  assert.equal(libraryOf({ JSGEN_SHARED: shared }), shared);
  assert.match(failureOf({ JSGEN_SHARED: "/nothing/a.so" }), /^ImportError: jsgen: the library \/nothing\/a\.so can't be loaded: .*No such file/);
  rmSync(beside);
  writeFileSync(beside, "no library\n");
  assert.match(failureOf({ LD_LIBRARY_PATH: folder }), /^ImportError: jsgen: the library .*site\/jsgen\/libjsgen\.so can't be loaded: .*(file too short|invalid ELF header)/);
  assert.match(failureOf({ JSGEN_SHARED: "libc.so.6" }), /^ImportError: jsgen: the library libc\.so\.6 can't be loaded: .*undefined symbol: jsgen_print_job/);
});

test("pip installs the folder of the module without a network, with the library that is beside it or without", { skip: skip || (spawnSync("python3", ["-m", "pip", "--version"]).status !== 0 && "there is no pip") }, () => {
  const copy = join(folder, "copy");
  cpSync(top("bindings/python"), copy, { recursive: true, filter: (path) => !/__pycache__|libjsgen\.so$/.test(path) });
  for (const [name, variables] of [["pure", { JSGEN_SHARED: shared }], ["whole", {}]]) {
    const site = join(folder, name);
    if (name === "whole") copyFileSync(shared, join(copy, "jsgen/libjsgen.so"));
    const words = ["-m", "pip", "install", "--quiet", "--no-index", "--no-deps", "--disable-pip-version-check", "--target", site, copy];
    const ran = spawnSync("python3", words, { encoding: "utf8" });
    assert.equal(ran.status, 0, ran.stderr);
    assert.equal(saidBy({ PYTHONPATH: site, ...variables }, [`print(json.dumps(jsgen.print_job('{"rows":[{"type":"Program","kind":"module"}]}')))`]), "");
  }
});
