// The package bindings/node, by its addon where that is built (`node bindings/node/build.mjs`), and by the program where that is.
import assert from "node:assert/strict";
import { spawnSync } from "node:child_process";
import { mkdtempSync, readFileSync, rmSync, writeFileSync } from "node:fs";
import { tmpdir } from "node:os";
import { join } from "node:path";
import { test } from "node:test";
import { fileURLToPath } from "node:url";
import { Worker } from "node:worker_threads";
import { flatJobOf, jobOf } from "../../../bindings/node/lib/convert.mjs";
import { packageOrNull } from "../../../bindings/node/lib/packages.mjs";
import { parsed } from "../../estree/parser.mjs";
import { program, unbuilt, unmapped } from "../../estree/program.mjs";

const here = (name) => fileURLToPath(new URL(name, import.meta.url));
if (!unbuilt) process.env.JSGEN = program();
const { JsgenError, buildJob, checkJob, jobOf: jobOfTree, mapJob, print, printJob, renaming } = await import("../../../bindings/node/index.mjs");
const { addon } = await import("../../../bindings/node/lib/printer.mjs");
const skip = addon === null && unbuilt;
const withoutMaps = unmapped || (packageOrNull("@jridgewell/gen-mapping") === null && "@jridgewell/gen-mapping isn't installed");
const withoutAddon = addon === null && "the addon isn't built: node bindings/node/build.mjs";

const SOURCE = 'import { a } from "b";\n\nexport class C extends a {\n  #d = 1;\n}\n';
const FIRST = readFileSync(here("../../../examples/first.json"));

function jobOfSource(source, options) {
  const tree = parsed(source, { comments: true });
  return Buffer.from(JSON.stringify(jobOf(tree, { source, options, comments: tree.comments })));
}

function faultOf(job) {
  try {
    printJob(job);
  } catch (error) {
    assert.ok(error instanceof JsgenError, error.stack);
    const { message, status, rule, start, row, field } = error;
    return { message, status, rule, start, row, field };
  }
  assert.fail("it printed");
}

test("a tree is printed under its settings", { skip }, () => {
  const tree = parsed(SOURCE);
  assert.deepEqual(print(tree), { code: 'import { a } from "b";\nexport class C extends a {\n\t#d = 1;\n}\n', map: null });
  assert.equal(print(tree, { source: SOURCE, minify: true }).code, 'import{a}from"b";export class C extends a{#d=1}');
  assert.equal(print(tree, { indent: 2, singleQuote: true }).code, "import { a } from 'b';\nexport class C extends a {\n  #d = 1;\n}\n");
  assert.equal(print(parsed('x("é")'), { asciiOnly: true }).code, 'x("\\u00E9");\n');
});

test("a job is printed, as a string or as bytes", { skip }, () => {
  assert.equal(printJob(FIRST), "const a = 1 + 2;\n");
  assert.equal(printJob(FIRST.toString()), "const a = 1 + 2;\n");
  assert.equal(printJob('{"rows":[{"type":"Program","kind":"module"}]}'), "");
});

test("a job is checked, and its map is told, as a string or as bytes", { skip }, () => {
  const job = jobOfSource("const a = 1;", { source_map_path: "x.js" });
  for (const given of [job, job.toString(), new Uint8Array(job)]) {
    assert.equal(checkJob(given), undefined);
    assert.equal(mapJob(given), "0 0 0 0\n0 6 0 6\n0 10 0 10\n");
  }
  for (const call of [buildJob, checkJob, mapJob, printJob]) {
    assert.throws(() => call("{"), { name: "JsgenError", message: "not a job: Json", status: 3 });
    assert.throws(() => call({}), { name: "TypeError", message: "a job is a string or a Uint8Array" });
  }
});

test("bytes that other threads may write are taken too", { skip }, () => {
  const shared = new Uint8Array(new SharedArrayBuffer(FIRST.length));
  shared.set(FIRST);
  assert.equal(printJob(shared), "const a = 1 + 2;\n");
});

test("a tree that is too deep for the converter says so", () => {
  let node = { type: "Literal", value: 1 };
  for (let level = 0; level < 100_000; level += 1) node = { type: "UnaryExpression", operator: "!", prefix: true, argument: node };
  const tree = { type: "Program", sourceType: "module", body: [{ type: "ExpressionStatement", expression: node }] };
  for (const call of [print, jobOfTree, renaming]) assert.throws(() => call(tree), { name: "JsgenError", message: /^the tree is nested too deeply for this process's stack/ });
});

const linked = (path) => ({ source: "a", comments: { legal: { linked: path } } });

test("a path of licences is a text", { skip }, () => {
  assert.equal(print(parsed("a"), linked("a.txt")).code, "a;\n");
  assert.throws(() => print(parsed("a"), linked(5)), TypeError);
});

test("a path of licences that no comment can hold breaks the rule of comments at the program", { skip }, () => {
  const program = parsed("a");
  for (const path of ["a*/b", "a\nb"]) assert.throws(() => print(program, linked(path)), { name: "JsgenError", rule: "Comment", node: program });
});

test("faults are told by kind and place", { skip }, () => {
  const rule = (name) => `{"rows":[{"type":"IdentifierReference","span":[5,6],"name":"${name}"},{"type":"ExpressionStatement","expression":0},{"type":"Program","kind":"module","body":[1]}]}`;
  assert.equal(printJob(rule("a")), "a;\n");
  assert.deepEqual(faultOf(rule("a b")), { message: "refused: Name at 5", status: 1, rule: "Name", start: 5, row: undefined, field: undefined });
  for (const [job, message, fields] of [
    ["", "not a job: Json", {}],
    [new Uint8Array([0xff]), "not a job: Json", {}],
    ['{"rows":[{"type":"Nothing"}]}', "not a job: Wrong row 0 field 0", { row: 0, field: 0 }],
    ['{"rows":5}', /^not a job: Wrong head field \d+$/, null],
  ]) {
    const fault = faultOf(job);
    if (message instanceof RegExp) assert.match(fault.message, message);
    else assert.equal(fault.message, message);
    assert.equal(fault.status, 3);
    if (fields) assert.deepEqual({ row: fault.row, field: fault.field }, { row: undefined, field: undefined, ...fields });
  }
  assert.deepEqual(faultOf(new Uint8Array(33_554_433).fill(32)).message, "input too long");
});

test("a text that is longer than its job comes whole", { skip }, () => {
  const rows = Array.from({ length: 400 }, () => '{"type":"EmptyStatement"}');
  const blocks = Array.from({ length: 200 }, (_, at) => `{"type":"BlockStatement","body":[${at === 0 ? 0 : at}]}`);
  const job = `{"options":{"indent_char":"space","indent_width":16},"rows":[${[rows[0], ...blocks].join(",")},{"type":"Program","kind":"module","body":[200]}]}`;
  const code = printJob(job);
  assert.ok(code.length > 2 * job.length);
  assert.deepEqual(buildJob(job), { code, map: "", licences: "" });
  assert.equal(code.trim().split("\n").length, 401);
});

test("wrong arguments are a TypeError", () => {
  for (const call of [() => printJob(), () => printJob(5), () => printJob([1]), () => print(null), () => print("a")]) assert.throws(call, TypeError);
  const tree = parsed("a");
  assert.throws(() => print(tree, { minfy: true }), { name: "TypeError", message: "unknown setting minfy" });
  assert.throws(() => print(tree, { minify: 1 }), { name: "TypeError", message: "minify is true or false" });
  assert.throws(() => print(tree, { indent: -1 }), TypeError);
  assert.throws(() => print(tree, { source: "a", sourceMap: 1 }), { name: "TypeError", message: "sourceMap is true or false" });
  assert.throws(() => print(tree, { sourceMap: true }), { name: "TypeError", message: "sourceMap wants the source" });
});

test("what is wrong with arguments is one line", () => {
  const tree = parsed("// a\nb", { comments: true });
  const wrong = [
    [{ source: null }, "source is a text"],
    [{ source: 1 }, "source is a text"],
    [null, "settings are an object"],
    [1, "settings are an object"],
    [{ options: 1 }, "options are an object"],
    [{ names: {} }, "names are what `renaming` gives of the tree"],
  ];
  for (const [settings, message] of wrong) assert.throws(() => print(tree, settings), { name: "TypeError", message });
  assert.throws(() => print({ ...tree, comments: { 0: {} } }, { source: "// a\nb" }), { name: "TypeError", message: "comments are a list" });
  for (const letters of [[], [""], [1], "ab", null]) {
    assert.throws(() => renaming(tree, letters), { name: "TypeError", message: "letters are a list of texts, of one at least" });
  }
  assert.throws(() => renaming(null), { name: "TypeError", message: "program is no node" });
});

test("a setting that is undefined is none", { skip }, () => {
  const settings = { source: undefined, minify: undefined, indent: undefined, comments: undefined, names: undefined, options: undefined, sourceMap: undefined };
  assert.deepEqual(print(parsed("a"), { ...settings, keepSourceMappingUrl: undefined }), { code: "a;\n", map: null });
  assert.equal(print(parsed("a"), { options: { source_map_path: "b.js" } }).code, "a;\n");
});

test("a map is made where it is asked for", { skip: withoutMaps }, () => {
  const source = "const a = 1 + 2;";
  const settings = { source, minify: true, sourceMap: true };
  const map = { version: 3, sources: ["<source>"], sourcesContent: [source], names: [], mappings: "AAAA,MAAM,EAAI,EAAI" };
  assert.deepEqual(print(parsed(source), settings), { code: "const a=1+2;", map });
  assert.deepEqual(print(parsed(source), { ...settings, options: { source_map_path: "x.js" } }).map, { ...map, sources: ["x.js"] });
  assert.equal(print(parsed(source), { ...settings, sourceMap: false }).map, null);
  assert.throws(() => print({ type: "Program", sourceType: "module", body: [{ type: "ExpressionStatement", expression: { type: "Identifier", name: "if" } }] }, settings), JsgenError);
});

test("the addon gives the lines of a map and of licences", { skip: withoutAddon }, () => {
  const job = jobOfSource("/*! L */\na", { source_map_path: "x.js", legal: "external" });
  assert.deepEqual(addon.printJob(job), { status: 0, text: "a;\n" });
  assert.deepEqual(addon.mapJob(job), { status: 0, text: "0 0 1 0\n" });
  assert.deepEqual(addon.legalJob(job), { status: 0, text: "0 8\n" });
  assert.deepEqual(addon.buildJob(job), { status: 0, code: "a;\n", map: "0 0 1 0\n", licences: "0 8\n" });
  assert.deepEqual(addon.buildJob(Buffer.from("{}")), addon.printJob(Buffer.from("{}")));
});

test("all that is made of a job comes at once, as a string or as bytes", { skip }, () => {
  const job = jobOfSource("/*! L */\na", { source_map_path: "x.js", legal: "external" });
  const source = "/*! L */\na";
  const tree = parsed(source, { comments: true });
  const flat = flatJobOf(tree, { source, comments: tree.comments, options: { source_map_path: "x.js", legal: "external" } });
  for (const given of [job, job.toString(), new Uint8Array(job), flat, new Uint8Array(flat)]) {
    assert.deepEqual(buildJob(given), { code: "a;\n", map: "0 0 1 0\n", licences: "0 8\n" });
  }
  assert.deepEqual(buildJob(FIRST), { code: "const a = 1 + 2;\n", map: "", licences: "" });
  assert.deepEqual(buildJob('{"rows":[{"type":"Program","kind":"module"}]}'), { code: "", map: "", licences: "" });
});

// The calls of the addon that some work makes.
function callsOf(work) {
  const calls = [];
  const own = { ...addon };
  for (const [name, call] of Object.entries(own)) addon[name] = (bytes) => (calls.push(name), call(bytes));
  try {
    work();
  } finally {
    Object.assign(addon, own);
  }
  return calls;
}

test("what is printed with a map, with licences apart or with neither is one call of the addon", { skip: withoutAddon || withoutMaps }, () => {
  const source = "/*! L */\na";
  const tree = parsed(source, { comments: true });
  const comments = { legal: "external" };
  const printed = (settings) => print(tree, { source, ...settings });
  assert.deepEqual(callsOf(() => assert.equal(printed({}).code, "/*! L */\na;\n")), ["printJob"]);
  assert.deepEqual(callsOf(() => assert.deepEqual(printed({ comments }), { code: "a;\n", map: null, licences: ["/*! L */"] })), ["buildJob"]);
  assert.deepEqual(callsOf(() => assert.equal(printed({ sourceMap: true }).map.version, 3)), ["buildJob"]);
  assert.deepEqual(callsOf(() => assert.deepEqual(printed({ comments, sourceMap: true }).licences, ["/*! L */"])), ["buildJob"]);
});

// The jobs of node's own library, with their comments and a path for a map, minified every other one; none where this node hides it.
function jobsOfNode() {
  let natives = {};
  try {
    natives = process.binding("natives");
  } catch {
    return [];
  }
  const jobs = [];
  for (const source of Object.values(natives).filter((text) => typeof text === "string")) {
    try {
      jobs.push(jobOfSource(source, { minify: jobs.length % 2 === 0, legal: "external", source_map_path: "a.js" }));
    } catch {
      // No module.
    }
  }
  return jobs;
}

test("the addon gives for node's own library what the program gives", { skip: withoutAddon || unbuilt }, (t) => {
  const jobs = jobsOfNode();
  for (const job of jobs) {
    for (const word of ["print", "map", "legal"]) {
      const { status, stdout } = spawnSync(program(), [word], { input: job, maxBuffer: 2 ** 30 });
      assert.deepEqual(addon[`${word}Job`](job), { status, text: stdout.toString() });
    }
    const [code, map, licences] = ["print", "map", "legal"].map((word) => addon[`${word}Job`](job).text);
    assert.deepEqual(addon.buildJob(job), { status: 0, code, map, licences });
  }
  t.diagnostic(`${jobs.length} programs`);
});

test("the addon takes nothing but bytes", { skip: withoutAddon }, () => {
  for (const wrong of [undefined, null, "a", 5, {}, [1], new Uint16Array(2), new DataView(new ArrayBuffer(4))]) for (const call of [addon.printJob, addon.buildJob, addon.checkJob]) assert.throws(() => call(wrong), TypeError);
  assert.throws(() => addon.printJob(), TypeError);
  for (const call of [addon.printJob, addon.buildJob, addon.checkJob]) assert.equal(call(new Uint8Array(0)).status, 3);
});

test("eight threads print at once", { skip: withoutAddon }, async () => {
  const work = `
    import { parentPort, workerData } from "node:worker_threads";
    import { printJob } from ${JSON.stringify(new URL("../../../bindings/node/index.mjs", import.meta.url).href)};
    let same = 0;
    for (let turn = 0; turn < 200; turn++) same += printJob(workerData) === "const a = 1 + 2;\\n";
    parentPort.postMessage(same);`;
  const url = new URL(`data:text/javascript,${encodeURIComponent(work)}`);
  const counts = await Promise.all(
    Array.from({ length: 8 }, () => new Promise((done, fail) => new Worker(url, { workerData: FIRST.toString() }).on("message", done).on("error", fail))),
  );
  assert.deepEqual(counts, Array(8).fill(200));
});

test("memory is given back", { skip: withoutAddon }, () => {
  const grown = (turns) => {
    for (let turn = 0; turn < turns; turn++) printJob(FIRST);
    globalThis.gc?.();
    return process.memoryUsage.rss();
  };
  const before = grown(2_000);
  assert.ok(grown(20_000) - before < 32 * 2 ** 20);
});

test("the command prints a file, and says why it doesn't", { skip }, () => {
  const folder = mkdtempSync(join(tmpdir(), "jsgen-node-"));
  try {
    const command = (words, input = "") => {
      const ran = spawnSync(process.execPath, [here("../../../bindings/node/bin/jsgen-print.mjs"), ...words], { input });
      return [ran.status, ran.stdout.toString(), ran.stderr.toString()];
    };
    writeFileSync(join(folder, "a.js"), SOURCE);
    assert.deepEqual(command(["--minify", join(folder, "a.js")]), [0, 'import{a}from"b";export class C extends a{#d=1}', ""]);
    assert.deepEqual(command(["-o", join(folder, "b.js")], "a()"), [0, "", ""]);
    assert.equal(readFileSync(join(folder, "b.js"), "utf8"), "a();\n");
    assert.deepEqual(command([], "a("), [1, "", "<stdin>:1:3: Unexpected token\n  a(\n    ^\n"]);
    assert.match(command(["-o"])[2], /^jsgen-print: Option '-o, --output <value>' argument missing\nusage: jsgen-print /);
  } finally {
    rmSync(folder, { recursive: true });
  }
});

test("the command writes a map beside the code, or in it", { skip: withoutMaps }, () => {
  const folder = mkdtempSync(join(tmpdir(), "jsgen-node-"));
  try {
    const command = (words, input = "") => {
      const ran = spawnSync(process.execPath, [here("../../../bindings/node/bin/jsgen-print.mjs"), "--source-map", ...words], { input, cwd: folder });
      return [ran.status, ran.stdout.toString(), ran.stderr.toString()];
    };
    writeFileSync(join(folder, "a.js"), "a()");
    assert.deepEqual(command(["-o", "b.js", "a.js"]), [0, "", ""]);
    assert.equal(readFileSync(join(folder, "b.js"), "utf8"), "a();\n//# sourceMappingURL=b.js.map\n");
    const map = JSON.parse(readFileSync(join(folder, "b.js.map"), "utf8"));
    assert.deepEqual([map.file, map.sources, map.sourcesContent], ["b.js", ["a.js"], ["a()"]]);
    const [, out] = command(["--minify"], "a()");
    const [, code, base64] = /^(.*)\n\/\/# sourceMappingURL=data:application\/json;charset=utf-8;base64,(\S+)\n$/.exec(out);
    assert.deepEqual([code, JSON.parse(Buffer.from(base64, "base64")).sources], ["a();", ["<stdin>"]]);
  } finally {
    rmSync(folder, { recursive: true });
  }
});
