// Licences of real packages (licences.txt, each behind a line with the file that it is from), under each word of the option `legal`.
import assert from "node:assert/strict";
import { spawnSync } from "node:child_process";
import { readFileSync } from "node:fs";
import { test } from "node:test";
import { jobOf } from "../../../bindings/node/lib/convert.mjs";
import { licencesOf } from "../../../bindings/node/lib/licences.mjs";
import { parsed } from "../../estree/parser.mjs";
import { program } from "../../estree/program.mjs";
import { plain } from "../kept.mjs";
import { unlicensed } from "./printing.mjs";

const HEADERS = readFileSync(new URL("licences.txt", import.meta.url), "utf8")
  .split(/^---- (.*)\n/m)
  .slice(1)
  .flatMap((part, at, parts) => (at % 2 === 0 ? [{ file: part, text: parts[at + 1].replace(/\n$/, "") }] : []));

function answered(word, source, options) {
  const tree = parsed(source, { comments: true });
  const job = jobOf(tree, { source, options, comments: tree.comments });
  const { status, stdout, stderr } = spawnSync(program(), [word], { input: JSON.stringify(job) });
  assert.equal(status, 0, stderr.toString());
  return stdout.toString();
}

// The text without its comments, and the comments, without the white space that their lines begin with.
function parts(code) {
  const { comments } = parsed(code, { comments: true });
  const rest = comments.reduceRight((text, { start, end }) => text.slice(0, start) + text.slice(end), code);
  return { rest: rest.trim(), comments: comments.map(({ start, end }) => plain(code.slice(start, end))) };
}

for (const minify of [false, true]) {
  for (const { file, text } of HEADERS) {
    test(`the licence of ${file}${minify ? ", minified" : ""}`, { skip: unlicensed }, () => {
      const source = `${text}\nexport function twice(a) {\n  return 2 * a;\n}\n`;
      const code = answered("print", source, { minify, normal: false, jsdoc: false, annotation: false, legal: "none" });
      const rest = code.trim();
      const where = (options) => {
        const wanted = { minify, normal: false, jsdoc: false, annotation: false, ...options };
        return { ...parts(answered("print", source, wanted)), apart: licencesOf(answered("legal", source, wanted), source) };
      };
      assert.deepEqual(parts(code), { rest, comments: [] });
      assert.deepEqual(where({ legal: "inline" }), { rest, comments: [plain(text)], apart: [] });
      assert.deepEqual(where({ legal: "eof" }), { rest, comments: [plain(text)], apart: [] });
      assert.deepEqual(where({ legal: "external" }), { rest, comments: [], apart: [text] });
      const link = "/*! For license information please see a.txt */";
      assert.deepEqual(where({ legal: "linked", legal_path: "a.txt" }), { rest, comments: [link], apart: [text] });
    });
  }
}

test("the licences of a bundle, whose modules stand in blocks, each once", { skip: unlicensed }, () => {
  const source = [...HEADERS, ...HEADERS].map(({ text }, at) => `{\n  ${text}\n  f(${at});\n}\n`).join("");
  const texts = HEADERS.map(({ text }) => plain(text));
  for (const minify of [false, true]) {
    assert.deepEqual(parts(answered("print", source, { minify, legal: "inline" })).comments, [...texts, ...texts]);
    // A licence in a JSDoc comment stays where it is, where JSDoc comments are printed.
    assert.deepEqual(parts(answered("print", source, { minify, jsdoc: false, legal: "eof" })).comments, texts);
    assert.deepEqual(licencesOf(answered("legal", source, { minify, legal: "external" }), source).map(plain), texts);
  }
});

// All paths of so many signs, of those that end a comment or a line and of some that don't.
function* pathsOf(length) {
  if (length === 0) return yield "";
  for (const path of pathsOf(length - 1)) for (const sign of ["*", "/", "a", "\n", "\r", "\u2028", "\u2029", "\u0085"]) yield path + sign;
}

test("a path is refused where acorn doesn't read what names the file as one comment on one line, and nowhere else", { skip: unlicensed }, () => {
  // what acorn reads of the end of a text that is printed so
  const isOneComment = (text) => {
    try {
      const { comments, body } = parsed(`b;\n${text}`, { comments: true });
      return body.length === 1 && comments.length === 1 && comments[0].end === `b;\n${text}`.length && !/[\n\r\u2028\u2029]/.test(text);
    } catch (error) {
      assert.ok(error instanceof SyntaxError, error.stack);
      return false;
    }
  };
  const isTaken = (path) => {
    const job = { options: { legal: "linked", legal_path: path }, rows: [{ type: "Program", kind: "module" }] };
    const { status, stderr } = spawnSync(program(), ["check"], { input: JSON.stringify(job) });
    assert.equal(stderr.toString(), status === 0 ? "" : "refused: Comment at 0\n");
    return status === 0;
  };
  for (let length = 0; length <= 3; length++) {
    for (const path of pathsOf(length)) {
      assert.equal(isTaken(path), isOneComment(`/*! For license information please see ${path} */`), JSON.stringify(path));
    }
  }
});
