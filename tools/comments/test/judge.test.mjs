// The judge of comments: right texts and wrong ones made by hand, and the program's where it is built and prints comments.
import assert from "node:assert/strict";
import { spawnSync } from "node:child_process";
import { chmodSync, mkdtempSync, rmSync, writeFileSync } from "node:fs";
import { tmpdir } from "node:os";
import { join } from "node:path";
import { test } from "node:test";
import { fileURLToPath } from "node:url";
import { commentsOf } from "../../../bindings/node/lib/comments.mjs";
import { jobOf } from "../../../bindings/node/lib/convert.mjs";
import { difference, normal } from "../../estree/normal.mjs";
import { parsed } from "../../estree/parser.mjs";
import { randomProgram } from "../../estree/random.mjs";
import { commentsKept, isAnnotation } from "../kept.mjs";
import { withComments } from "../random.mjs";
import { judged } from "../rules.mjs";
import { uncommented } from "./printing.mjs";

const here = (name) => fileURLToPath(new URL(name, import.meta.url));
const faults = (source, printed, options) => judged(source, printed, options).faults;

// Sources with what is printed for them.
const RIGHT = [
  ["a;", "a;\n"],
  ["// b\na;", "// b\na;\n"],
  ["// b\na;", "// b\na;", { minify: true }],
  ["a; // b", "a;\n"],
  ["a;\n// b", "a;\n// b\n"],
  ["/* b\n   c */\na;", "/* b\nc */\na;\n"],
  ["{\n  /* b\n     c */\n  a\n}", "{\n\t/* b\n\tc */\n\ta;\n}\n"],
  ["/* b\r\n c */\na;", "/* b\nc */\na;\n"],
  ["/* </script> */ a;", "/* <\\/script> */\na;\n"],
  ["/* <\\/script> */ a;", "/* <\\/script> */\na;\n"],
  // dropped: it stands within an expression
  ["f(/* b */ a);", "f(a);\n"],
  // annotations stand by what they say
  ["/* @__PURE__ */ f();", "/* @__PURE__ */ f();\n"],
  ["a = //#__PURE__\nf();", "a = /* @__PURE__ */ f();\n"],
  ["/* @__PURE__ */ f();", "f();\n", { annotation: false }],
  ["/* @__NO_SIDE_EFFECTS__ */ function f() {}", "/* @__NO_SIDE_EFFECTS__ */\nfunction f() {}\n"],
  ["/* @__PURE__ */ a;", "a;\n"],
  // a licence that ends a line is kept, and what names the map of the source isn't
  ["a; /*! b */\nc;", "a;\n/*! b */\nc;\n"],
  ["a; //! b", "a;\n//! b\n"],
  ["a;\n// b\n//# sourceMappingURL=a.map", "a;\n// b\n"],
  ["#!/bin/node\n// b\na;", "#!/bin/node\n// b\na;\n"],
  // a licence goes on
  ["f(/*! b */ a);", "f(a);\n/*! b */\n"],
  ["f(/*! b */ a);\n// c\nd;", "f(a);\n/*! b */\n// c\nd;\n"],
  // of two comments with one text the later one is printed
  ["f(/* b */ a);\n/* b */ c;", "f(a);\n/* b */ c;\n"],
  ["/* b */ a;\nf(/* b */ a);", "/* b */ a;\nf(a);\n"],
  // licences at the end, each once
  ["/*! b */ a;\n/*! b */ c; /*! d */\n/* e */ f", "a;\nc;\n/* e */ f;\n\n/*! b */\n/*! d */\n", { legal: "eof" }],
  ["/** @license b */ a;", "/** @license b */ a;\n\n/** @license b */\n", { legal: "eof" }],
  ["/*! b */ a;", "a;\n", { legal: "none" }],
  ["/** b */ a; /* c */ d;", "a;\nd;\n", { jsdoc: false, normal: false }],
  ["/* v8 ignore next */ a;", "a;\n", { annotation: false }],
];

test("right texts have no fault", () => {
  for (const [source, printed, options] of RIGHT) assert.deepEqual(faults(source, printed, options), [], source);
});

test("comments that are kept are counted, and those of them that aren't printed", () => {
  const { kept, unprinted } = judged("/* a */ f(/* b */ c, /* d */ e); // g", "/* a */ f(c,e);");
  assert.deepEqual([kept, unprinted], [3, 2]);
});

test("program: it is the source's", () => {
  assert.match(faults("// b\na;", "// b\nc;\n")[0], /^program: .*"a" and "c"$/);
  assert.match(faults("a;\nb;", "// b\na;\n")[0], /^program: /);
});

test("kept: a comment of the text is one of the source's that are kept", () => {
  assert.deepEqual(faults("a; // b", "a;\n// b\n"), ['kept: "// b" is printed, and isn\'t kept']);
  assert.deepEqual(faults("/* b */ a;", "/* c */ /* b */ a;"), ['kept: "/* c */" is printed, and isn\'t kept']);
  assert.deepEqual(faults("/* </script> */ a;", "/* </script> */ a;"), ['kept: "/* </script> */" is printed, and isn\'t kept']);
  assert.deepEqual(faults("/* b */ a;", "/* b */ a;", { normal: false }), ['kept: "/* b */" is printed, and isn\'t kept']);
  const named = "//# sourceMappingURL=a.map";
  assert.deepEqual(faults(`a;\n${named}`, `a;\n${named}\n`), [`kept: "${named}" is printed, and isn't kept`]);
  assert.match(faults("/* b\n c */ a;", "/* b c */ a;")[0], /^kept: "\/\* b c \*\/" /);
});

test("pure: as many calls are as in the source, and no more functions", () => {
  assert.deepEqual(faults("/* @__PURE__ */ f();", "f();"), ["pure: 0 calls are pure in the text, and 1 are to be"]);
  assert.deepEqual(faults("f(/* @__PURE__ */ g());", "/* @__PURE__ */ f(/* @__PURE__ */ g());"), ["pure: 2 calls are pure in the text, and 1 are to be"]);
  assert.deepEqual(faults("/* @__PURE__ */ f();", "/* @__PURE__ */ f();", { annotation: false }), ["pure: 1 calls are pure in the text, and 0 are to be"]);
  assert.match(faults("function f() {}", "/* @__NO_SIDE_EFFECTS__ */ function f() {}")[0], /^pure: 1 functions /);
});

test("once: no comment is printed twice", () => {
  assert.deepEqual(faults("/* b */ a;", "/* b */ /* b */ a;"), ['once: "/* b */" is printed once more']);
  assert.deepEqual(faults("/* b */ a;\n/* b */ c", "/* b */ /* b */ a;/* b */ c;"), ['once: "/* b */" is printed once more']);
});

test("order: comments stand in the order of the source", () => {
  assert.deepEqual(faults("/* b */ a;\n/* c */ d;", "/* c */ a;/* b */ d;"), ['order: "/* b */" is printed out of its turn']);
});

test("order: a licence may be printed behind its turn, and not before it", () => {
  const source = "f(/*! b */ class { /* c */ d; /*! e */ g });\n/* h */ i;";
  const printed = (first, second, third) => `f(class{${first}d;${second}g});${third}/* h */i;`;
  assert.deepEqual(faults(source, printed("/* c */", "/*! e */", "/*! b */")), []);
  assert.deepEqual(faults(source, printed("/* c */", "", "/*! b */ /*! e */")), []);
  assert.deepEqual(faults(source, printed("/*! e */ /* c */", "", "/*! b */")), ['order: "/*! e */" is printed out of its turn']);
  assert.deepEqual(faults(source, printed("/* c */", "/*! e */", "")), ['there: "/*! b */" of line 1 isn\'t printed in its turn']);
});

test("there: comments before members of the program, and licences, are printed", () => {
  assert.deepEqual(faults("a;\n/* b */ c;", "a;c;"), ['there: "/* b */" of line 2 isn\'t printed in its turn']);
  assert.deepEqual(faults("a;\n{ /*! b */ c }", "a;{c}"), ['there: "/*! b */" of line 2 isn\'t printed in its turn']);
  assert.deepEqual(faults("a; /*! b */\nc;", "a;c;"), ['there: "/*! b */" of line 1 isn\'t printed in its turn']);
  assert.deepEqual(faults("a;\n{ /*! b */ c }", "a;{c}", { legal: "none" }), []);
  assert.deepEqual(faults("a;\n{ /* b */ c }", "a;{c}"), []);
  assert.match(faults("/* b */ a;\n/* b */ c;", "a;/* b */ c;")[0], /^there: "\/\* b \*\/" of line /);
});

test("end: the licences stand there, each once", () => {
  assert.deepEqual(faults("/*! b */ a;", "a;", { legal: "eof" }), ['end: "/*! b */" is to stand at the end, where nothing does']);
  assert.deepEqual(faults("/*! b */ a; /*! c */", "a;\n/*! c */\n/*! b */", { legal: "eof" }).slice(0, 1), ['end: "/*! b */" is to stand at the end, where "/*! c */" does']);
  assert.deepEqual(faults("/*! b */ a;", "/*! b */ a;\n/*! b */", { legal: "eof" }), ['kept: "/*! b */" is printed, and isn\'t kept']);
});

test("what has to be printed is attached to a member, or a licence", () => {
  const source = "/* a */ b(/* c */ d, /*! e */ f); // g\n";
  const { kept } = commentsKept(source, parsed(source, { comments: true }));
  assert.deepEqual(kept.map(({ text, isNeeded }) => [text, isNeeded]), [["/* a */", true], ["/* c */", false], ["/*! e */", true]]);
});

test("comments that are put in change no program, and are many", () => {
  let count = 0;
  for (let seed = 1; seed <= 25; seed++) {
    const source = randomProgram(seed);
    const text = withComments(source, seed);
    const tree = parsed(text, { comments: true });
    assert.equal(difference(normal(parsed(source)), normal(tree)), null);
    assert.equal(withComments(source, seed), text);
    count += tree.comments.length;
    jobOf(tree, { source: text, comments: tree.comments });
  }
  assert.ok(count > 2000, `${count}`);
});

// The source without the comments that aren't printed.
function echo(source, tree, printed) {
  let text = "";
  let end = 0;
  for (const { start, end: stop } of commentsOf(source, tree.comments, { keepSourceMappingUrl: true })) {
    const said = source.slice(start, stop);
    text += source.slice(end, start) + (printed.has(start) ? said.replace(/<\/(?=script)/g, "<\\/") : /^\/\/|[\n\u2028]/.test(said) ? "\n" : " ");
    end = stop;
  }
  return text + source.slice(end);
}

test("a printer that echoes has no fault, and one that drops what it has to print has", () => {
  for (let seed = 1; seed <= 15; seed++) {
    const source = withComments(randomProgram(seed), seed);
    const tree = parsed(source, { comments: true });
    const { kept } = commentsKept(source, tree);
    const starts = kept.map(({ start }) => start);
    const needed = kept.filter(({ isNeeded }) => isNeeded);
    const annotations = commentsOf(source, tree.comments).filter(({ content }) => isAnnotation(content)).map(({ start }) => start);
    const echoed = (some) => faults(source, echo(source, tree, new Set([...some, ...annotations])));
    assert.deepEqual(echoed(starts), []);
    assert.deepEqual(echoed(needed.map(({ start }) => start)), []);
    const gone = needed[seed % needed.length];
    assert.match(echoed(needed.filter((one) => one !== gone).map(({ start }) => start)).join(), /^there: /);
  }
});

// The command, with a program that answers so, whatever it is asked.
function ran(source, script) {
  const folder = mkdtempSync(join(tmpdir(), "jsgen-"));
  try {
    const [file, program] = [join(folder, "file.js"), join(folder, "program")];
    writeFileSync(file, source);
    writeFileSync(program, `#!/bin/sh\ncat > ${folder}/job\n${script}\n`);
    chmodSync(program, 0o755);
    const { status, stdout, stderr } = spawnSync(process.execPath, [here("../judge.mjs"), file], { env: { ...process.env, JSGEN: program } });
    return { status, out: stdout.toString(), err: stderr.toString().replaceAll(file, "FILE") };
  } finally {
    rmSync(folder, { recursive: true });
  }
}

test("the command counts texts and comments, and tells what is wrong by file and set", () => {
  const right = ran("/* b */ f(/* c */ a);", "echo '/* b */ f(a);'");
  assert.deepEqual(right, { status: 0, out: "1 programs; 0 files are no modules, or aren't read; 4 texts, 0 bad; 8 comments kept, 4 of them not printed\n", err: "" });
  const wrong = ran("/* b */ a;", "echo 'a;'");
  assert.equal(wrong.status, 1);
  assert.match(wrong.out, / 4 texts, 4 bad; /);
  assert.match(wrong.err, /^FILE: pretty: there: "\/\* b \*\/" of line 1 isn't printed in its turn\nFILE: minified: /);
});

test("the command tells what the program refuses, and what doesn't parse", () => {
  assert.match(ran("a", "echo 'refused: Name at 0' >&2; exit 1").err, /^FILE: pretty: status 1: refused: Name at 0\n/);
  assert.match(ran("a", "echo 'a('").err, /^FILE: pretty: what is printed does not parse: /);
  assert.match(ran("a(", "exit 1").out, /^0 programs; 1 files are no modules, /);
  assert.match(spawnSync(process.execPath, [here("../judge.mjs")]).stderr.toString(), /^a file, or --random, is wanted\nusage: /);
});

test("the program's comments have no fault", { skip: uncommented }, () => {
  const { status, stdout, stderr } = spawnSync(process.execPath, [here("../judge.mjs"), "--random", "20", here("../../estree"), here("..")]);
  assert.equal(status, 0, `${stderr}${stdout}`);
  assert.match(stdout.toString(), / texts, 0 bad; /);
});
