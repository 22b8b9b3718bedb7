// `jsgen-print`, as print.mjs and as the package's command: its words, what it hands on to the program, what it writes, and what it says of
// faults. A program that stands in for jsgen is asked where the package has no addon.
import assert from "node:assert/strict";
import { spawnSync } from "node:child_process";
import { chmodSync, existsSync, mkdirSync, mkdtempSync, readFileSync, readdirSync, rmSync, writeFileSync } from "node:fs";
import { tmpdir } from "node:os";
import { join } from "node:path";
import { test } from "node:test";
import { fileURLToPath } from "node:url";
import { JsgenError } from "../../../bindings/node/index.mjs";
import { STATUS, faultOf } from "../../../bindings/node/lib/command.mjs";
import { NotRead } from "../../../bindings/node/lib/convert.mjs";
import { excerptAt } from "../../../bindings/node/lib/places.mjs";
import { addon } from "../../../bindings/node/lib/printer.mjs";
import { decoded } from "../../flat/decode.mjs";
import { parsed } from "../parser.mjs";
import { unbuilt } from "../program.mjs";

const here = (name) => fileURLToPath(new URL(name, import.meta.url));
const PRINT = here("../print.mjs");
const skip = addon !== null && "the addon prints, not the program";
const unprinted = addon === null && unbuilt;

function inFolder(files, use) {
  const folder = mkdtempSync(join(tmpdir(), "jsgen-"));
  try {
    for (const [name, text] of Object.entries(files)) {
      mkdirSync(join(folder, name, ".."), { recursive: true });
      writeFileSync(join(folder, name), text);
    }
    const read = (name) => (existsSync(join(folder, name)) ? readFileSync(join(folder, name), "utf8") : null);
    return use(folder, read);
  } finally {
    rmSync(folder, { recursive: true });
  }
}

// What the command makes of the words in a folder.
function ran(folder, words, { input = "", command = PRINT, program = process.env.JSGEN, ...settings } = {}) {
  const env = { ...process.env, ...(program && { JSGEN: program }) };
  const { status, stdout, stderr } = spawnSync(process.execPath, [command, ...words], { input, cwd: folder, env, ...settings });
  return { status, out: stdout?.toString(), err: stderr?.toString() };
}

// The same of words of the shell, in which $PRINT is the command.
function ranByShell(folder, line) {
  const { status, stdout, stderr } = spawnSync("bash", ["-c", line], { cwd: folder, env: { ...process.env, PRINT: `${process.execPath} ${PRINT}` } });
  return { status, out: stdout.toString(), err: stderr.toString() };
}

// Without a program, for what is said before one is asked.
const said = (words, settings) => inFolder({ "a.js": "a", "b.js": "b", "c/d.js": "d" }, (folder) => ran(folder, words, settings));

// What is written for file.js, and the jobs that are given to a program that answers each word with these lines.
function printedBy(answers, source, words) {
  return inFolder({ "file.js": source }, (folder, read) => {
    const cases = Object.entries(answers).map(([word, text]) => `${word}) printf '${text}' ;;`);
    writeFileSync(join(folder, "program"), `#!/bin/sh\ncat > ${folder}/$1\ncase $1 in ${cases.join(" ")} *) echo usage >&2; exit 2 ;; esac\n`);
    chmodSync(join(folder, "program"), 0o755);
    const ends = ran(folder, [...words.map((word) => word.replace("FOLDER", folder)), "file.js"], { program: join(folder, "program") });
    const jobOfWord = (word) => (existsSync(join(folder, word)) ? decoded(readFileSync(join(folder, word))) : null);
    return { ...ends, job: jobOfWord("print"), legal: jobOfWord("legal"), code: read("code.js"), licences: read("code.txt") };
  });
}

test("the package's command is the same", { skip: unprinted }, () => {
  const command = here("../../../bindings/node/bin/jsgen-print.mjs");
  assert.deepEqual(said(["--minify", "a.js"], { command }), { status: 0, out: "a;", err: "" });
  const [{ out }, other] = [said(["--help"], { command }), said(["-h"])];
  assert.equal(out.replace("jsgen-print", "node tools/estree/print.mjs"), other.out);
});

test("--help, -h and --version are answered on standard output", () => {
  const { status, out, err } = said(["--help"]);
  assert.deepEqual([status, err, said(["-h"]).out], [0, "", out]);
  assert.match(out, /^usage: node tools\/estree\/print\.mjs \[OPTION \.\.\] \[FILE \.\.\]\n/);
  const layout = "minify ascii-only single-quote indent rename";
  const comments = "no-comments no-normal no-jsdoc no-annotations normal jsdoc annotations legal";
  for (const option of `output out-dir source-map help version ${layout} ${comments}`.split(" ")) assert.match(out, new RegExp(`--${option}\\b`));
  assert.match(said(["--version"]).out, /^jsgen-print \d+\.\d+\.\d+\n$/);
});

const USAGE = "usage: node tools/estree/print.mjs [OPTION ..] [FILE ..] (--help lists the options)\n";
const LEGAL = "--legal wants none, inline, eof, linked=FILE or external=FILE";
for (const [words, line] of [
  ["--indents a.js", "Unknown option '--indents'"],
  ["-x a.js", "Unknown option '-x'"],
  ["--minify=yes a.js", "Option '--minify' does not take an argument"],
  ["a.js -o", "Option '-o, --output <value>' argument missing"],
  ["-o --minify a.js", "Option '-o' argument is ambiguous."],
  ["-o c.js -o d.js a.js", "Option '-o' is given twice"],
  ["--indent 17 a.js", "--indent wants tab, or a number of spaces up to 16"],
  ["--indent= a.js", "--indent wants tab, or a number of spaces up to 16"],
  ["a.js b.js", "several files want --out-dir DIR"],
  ["-o c.js --out-dir d a.js", "-o and --out-dir are both given"],
  ["--out-dir d", "--out-dir wants files"],
  ["--out-dir d a.js -", "--out-dir wants files"],
  ["--out-dir . a.js c/d.js", "a.js would be written over"],
  ["--out-dir e a.js c/../a.js", "e/a.js would be written over"],
  ["-o a.js a.js", "a.js would be written over"],
  ["--legal external=a.js a.js", "a.js would be written over"],
  ["--source-map --legal external=c.js.map -o c.js a.js", "c.js.map would be written over"],
  ["--normal --no-normal a.js", "--normal and --no-normal are both given"],
  ["--legal linked a.js", LEGAL],
  ["--legal linked= a.js", LEGAL],
  ["--legal all a.js", LEGAL],
  ["--legal eof=a a.js", LEGAL],
]) {
  test(`a faulty command line: ${words}`, () => {
    assert.deepEqual(said(words.split(" ")), { status: 2, out: "", err: `jsgen-print: ${line}\n${USAGE}` });
  });
}

test("comments are handed on, and which of them are wanted", { skip }, () => {
  const optionsOf = (...words) => printedBy({ print: "a;", legal: "" }, "// b\na", words).job.options;
  const { job } = printedBy({ print: "a;" }, "// b\na", []);
  assert.deepEqual(job.rows.at(-1).comments, [0]);
  assert.equal(job.options, undefined);
  const NONE = { normal: false, jsdoc: false, annotation: false };
  assert.deepEqual(optionsOf("--no-comments"), { ...NONE, legal: "none" });
  assert.deepEqual(optionsOf("--no-comments", "--legal", "eof"), { ...NONE, legal: "eof" });
  assert.deepEqual(optionsOf("--no-comments", "--jsdoc"), { normal: false, annotation: false, legal: "none" });
  assert.deepEqual(optionsOf("--no-normal"), { normal: false });
  assert.deepEqual(optionsOf("--no-jsdoc", "--no-annotations"), { jsdoc: false, annotation: false });
  assert.deepEqual(optionsOf("--legal=inline"), { legal: "inline" });
  assert.deepEqual(optionsOf("--legal", "external=a.txt"), { legal: "external" });
  assert.deepEqual(optionsOf("--legal", "linked=FOLDER/a.txt", "-o", "FOLDER/b/../code.js"), { legal: "linked", legal_path: "a.txt" });
  assert.match(optionsOf("--legal", "linked=FOLDER/a.txt").legal_path, /^\/.*\/a\.txt$/);
});

test("minified text leaves normal and JSDoc comments out, unless they are asked for", { skip }, () => {
  const optionsOf = (...words) => printedBy({ print: "a;" }, "a", ["--minify", ...words]).job.options;
  assert.deepEqual(optionsOf(), { minify: true, normal: false, jsdoc: false });
  assert.deepEqual(optionsOf("--jsdoc"), { minify: true, normal: false });
  assert.deepEqual(optionsOf("--normal", "--jsdoc"), { minify: true });
  assert.deepEqual(optionsOf("--no-annotations"), { minify: true, normal: false, jsdoc: false, annotation: false });
});

test("how the text is laid out is handed on", { skip }, () => {
  const optionsOf = (...words) => printedBy({ print: "a;" }, "a", words).job.options;
  assert.deepEqual(optionsOf("--ascii-only", "--single-quote"), { ascii_only: true, single_quote: true });
  assert.deepEqual(optionsOf("--indent", "tab"), { indent_char: "tab" });
  assert.deepEqual(optionsOf("--indent=4"), { indent_char: "space", indent_width: 4 });
});

test("licences are written into a file of their own", { skip }, () => {
  const source = "/*! é */\na; /* @license\n b */";
  const words = ["--legal", "linked=code.txt", "-o", "code.js"];
  const both = printedBy({ print: "a;", legal: "0 9\\n13 30\\n" }, source, words);
  assert.deepEqual([both.status, both.err, both.code, both.licences], [0, "", "a;", "/*! é */\n/* @license\n b */\n"]);
  assert.deepEqual(both.legal, both.job);
  const none = printedBy({ print: "a;", legal: "" }, "a", words);
  assert.deepEqual([none.status, none.code, none.licences], [0, "a;", null]);
});

test("nothing is written where the program ends with a fault, whose status is that of the command", { skip }, () => {
  const wordless = printedBy({ print: "a;" }, "/*! b */ a", ["--legal", "external=code.txt", "-o", "code.js"]);
  assert.deepEqual([wordless.status, wordless.err, wordless.code, wordless.licences], [2, "file.js: usage\n", null, null]);
  const memory = printedBy({ print: "a;'; echo out of memory >&2; exit 6; printf '" }, "a", ["-o", "code.js"]);
  assert.deepEqual([memory.status, memory.err, memory.code], [6, "file.js: out of memory\n", null]);
});

test("a source is printed from a file and from standard input", { skip: unprinted }, () => {
  const source = "const  a = f ( 1+2 , 'b' )";
  inFolder({ "a.js": source, "--minify": "c" }, (folder, read) => {
    const wanted = { status: 0, out: 'const a = f(1 + 2, "b");\n', err: "" };
    assert.deepEqual(ran(folder, ["a.js"]), wanted);
    for (const words of [[], ["-"], ["-o", "-"]]) assert.deepEqual(ran(folder, words, { input: source }), wanted);
    assert.equal(ran(folder, ["--minify", "a.js"]).out, "const a=f(1+2,`b`);");
    assert.equal(ran(folder, ["--", "--minify"]).out, "c;\n");
    assert.deepEqual(ran(folder, ["--output=b.js", "a.js"]), { ...wanted, out: "" });
    assert.equal(read("b.js"), wanted.out);
    assert.deepEqual(ran(folder, ["-"], { input: "\uFEFFa" }), { status: 0, out: "a;\n", err: "" });
  });
});

test("names are printed short", { skip: unprinted }, () => {
  assert.equal(said(["--rename", "-"], { input: "export function f(long) { return long + other; }" }).out, "export function f(a) {\n\treturn a + other;\n}\n");
});

test("several files are printed into a folder, by their paths below the one that they have in common", { skip: unprinted }, () => {
  const files = { "in/a.js": "a", "in/deep/er/b.js": "/*! L */\nb", "in/deep/c.js": "/*! L */\nc" };
  inFolder(files, (folder, read) => {
    assert.deepEqual(ran(folder, ["--out-dir", "new/out", ...Object.keys(files)]), { status: 0, out: "", err: "" });
    assert.deepEqual(["a.js", "deep/er/b.js", "deep/c.js"].map((name) => read(`new/out/${name}`)), ["a;\n", "/*! L */\nb;\n", "/*! L */\nc;\n"]);
    assert.equal(ran(folder, ["--out-dir", "one", "in/deep/c.js"]).status, 0);
    assert.deepEqual(readdirSync(join(folder, "one")), ["c.js"]);
    assert.equal(ran(folder, ["--out-dir", "apart", "--legal", "linked=apart/L.txt", "in/deep/er/b.js", "in/deep/c.js"]).status, 0);
    assert.equal(read("apart/L.txt"), "/*! L */\n");
    assert.match(read("apart/er/b.js"), /see \.\.\/L\.txt \*\/$/);
    assert.match(read("apart/c.js"), /see L\.txt \*\/$/);
  });
});

test("of several files those without a fault are printed, and the status is that of the first fault", { skip: unprinted }, () => {
  inFolder({ "a.js": "a(", "b.js": "b" }, (folder, read) => {
    const { status, err } = ran(folder, ["--out-dir", "out", "no.js", "a.js", "b.js"]);
    assert.deepEqual([status, err], [4, "jsgen-print: can't read no.js: no such file or directory\na.js:1:3: Unexpected token\n  a(\n    ^\n"]);
    assert.deepEqual([read("out/a.js"), read("out/b.js")], [null, "b;\n"]);
  });
});

test("what can't be read is one line and status 4", () => {
  assert.deepEqual(said(["no/such.js"]), { status: 4, out: "", err: "jsgen-print: can't read no/such.js: no such file or directory\n" });
  assert.deepEqual(said(["c"]), { status: 4, out: "", err: "jsgen-print: can't read c: illegal operation on a directory\n" });
  inFolder({}, (folder) => {
    assert.deepEqual(ranByShell(folder, "$PRINT < ."), { status: 4, out: "", err: "jsgen-print: can't read standard input: illegal operation on a directory\n" });
  });
});

test("a file that may not be read is one line and status 4", { skip: process.getuid() === 0 && "root reads all files" }, () => {
  inFolder({ "a.js": "a" }, (folder) => {
    chmodSync(join(folder, "a.js"), 0);
    assert.deepEqual(ran(folder, ["a.js"]), { status: 4, out: "", err: "jsgen-print: can't read a.js: permission denied\n" });
  });
});

test("what can't be written is one line and status 5", { skip: unprinted }, () => {
  const lineFor = (name, why) => ({ status: 5, out: "", err: `jsgen-print: can't write ${name}: ${why}\n` });
  assert.deepEqual(said(["-o", "no/such.js", "a.js"]), lineFor("no/such.js", "no such file or directory"));
  assert.deepEqual(said(["-o", "c", "a.js"]), lineFor("c", "illegal operation on a directory"));
  assert.deepEqual(said(["--out-dir", "b.js", "a.js"]), lineFor("b.js", "file already exists"));
  assert.deepEqual(said(["--out-dir", "b.js/e", "a.js"]), lineFor("b.js/e", "not a directory"));
  inFolder({ "a.js": "a", "long.js": "f(1);\n".repeat(100_000) }, (folder) => {
    const closed = ranByShell(folder, "$PRINT long.js | head -n 1; exit ${PIPESTATUS[0]}");
    assert.deepEqual(closed, { ...lineFor("standard output", "broken pipe"), out: "f(1);\n" });
    const none = ranByShell(folder, "$PRINT long.js | sleep 0; exit ${PIPESTATUS[0]}");
    assert.deepEqual(none, lineFor("standard output", "broken pipe"));
    assert.deepEqual(ranByShell(folder, "$PRINT a.js > /dev/full"), lineFor("standard output", "no space left on device"));
    // A line that can't be written leaves the status as it is.
    assert.equal(ranByShell(folder, "$PRINT no.js 2> /dev/full").status, 4);
  });
});

test("a fault of a source is told by line and column, with the line", () => {
  const fault = (source) => said(["-"], { input: source });
  assert.deepEqual(fault("a;\n\tb c"), { status: 1, out: "", err: "<stdin>:2:4: Unexpected token\n  \tb c\n  \t  ^\n" });
  assert.equal(fault("a\u2028b\r\nc d").err, "<stdin>:3:3: Unexpected token\n  c d\n    ^\n");
  assert.equal(fault("a(").err, "<stdin>:1:3: Unexpected token\n  a(\n    ^\n");
  assert.equal(fault('"\u{20BB7}\x1b" b').err, '<stdin>:1:7: Unexpected token\n  "\u{20BB7}\uFFFD" b\n       ^\n');
  const long = `${"a;".repeat(500)}b c;${"d;".repeat(500)}`;
  const [place, line, caret] = fault(long).err.split("\n");
  assert.equal(place, "<stdin>:1:1003: Unexpected token");
  assert.equal(line, `  …${"a;".repeat(24)}b c;${"d;".repeat(24)}…`);
  assert.equal(caret.length - 1, line.indexOf("c;"));
});

test("an excerpt is as wide at the ends of a long line", () => {
  const text = "0123456789".repeat(20);
  assert.equal(excerptAt(text, { line: 1, column: 1 }), `  ${text.slice(0, 100)}…\n  ^`);
  assert.equal(excerptAt(text, { line: 1, column: 201 }), `  …${text.slice(100)}\n  ${" ".repeat(101)}^`);
  assert.equal(excerptAt("a\n", { line: 2, column: 1 }), "  \n  ^");
});

test("bytes that are no UTF-8 are told by line and column, and not read as others", () => {
  const { status, out, err } = said(["-"], { input: Buffer.concat([Buffer.from('a;\n"é\uFFFD'), Buffer.from([0xc3]), Buffer.from('";')]) });
  assert.deepEqual([status, out, err], [1, "", '<stdin>:2:4: the text is not UTF-8\n  "é\uFFFD\uFFFD";\n     ^\n']);
  assert.match(said(["-"], { input: Buffer.from([0x61, 0xef, 0xbf]) }).err, /^<stdin>:1:2: the text is not UTF-8\n/);
});

test("a source that is nested too deeply for node is one line and status 6", () => {
  assert.deepEqual(said(["-"], { input: "(".repeat(100_000) }), { status: 6, out: "", err: "<stdin>: nested too deeply for the stack of node\n" });
});

test("faults of the converter and of the printer are told by line and column too", () => {
  const source = "a;\nf(b)";
  const argument = parsed(source).body[1].expression.arguments[0];
  const placed = "x.js:2:3: Identifier is not read yet\n  f(b)\n    ^";
  const messageAndStatus = (error) => [faultOf(error, "x.js", source)].map(({ message, status }) => [message, status])[0];
  assert.deepEqual(messageAndStatus(new NotRead("Identifier", argument, " in line 2, column 3")), [placed, STATUS.source]);
  assert.deepEqual(messageAndStatus(new NotRead("Identifier", { range: [5, 6] }, " at 5")), [placed, STATUS.source]);
  assert.deepEqual(messageAndStatus(new NotRead("the option a")), ["x.js: the option a is not read yet", STATUS.source]);
  const refused = new JsgenError("refused: Name at 5", { status: 1, line: 2, column: 3, rule: "Name" });
  assert.deepEqual(messageAndStatus(refused), ["x.js:2:3: refused: Name at 5\n  f(b)\n    ^", 1]);
  assert.deepEqual(messageAndStatus(new JsgenError("input too long", { status: 7 })), ["x.js: input too long", 7]);
  const unbuiltFault = new JsgenError("not built: ..");
  assert.equal(faultOf(unbuiltFault, "x.js", source), unbuiltFault);
});

test("what isn't built or installed is one line and status 70", () => {
  const command = new URL("../../../bindings/node/lib/command.mjs", import.meta.url);
  const saidOf = (error) => {
    const { status, stderr } = spawnSync(process.execPath, ["--input-type=module", "-e", `
      import { run } from ${JSON.stringify(command.href)};
      await run({ name: "x", usage: "", options: {} }, () => { throw ${error}; });`]);
    return [status, stderr.toString()];
  };
  assert.deepEqual(saidOf('Object.assign(new Error("not built: .."), { name: "JsgenError" })'), [70, "x: not built: ..\n"]);
  assert.deepEqual(saidOf('new Error("acorn is not installed")'), [70, "x: acorn is not installed\n"]);
  const [status, line] = saidOf('new TypeError("a")');
  assert.equal(status, 70);
  assert.match(line, /^x: TypeError: a at .*\n$/);
});
