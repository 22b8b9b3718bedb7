// Acorn works as before where it is printed: pretty, minified, with new names, and with its comments. Each of these parses libraries, short
// texts, and texts with errors exactly as acorn's source does, and passes acorn's own tests. Those are in Debian's source package `acorn`;
// the variable ACORN_TESTS names the folder of its sources.
import assert from "node:assert/strict";
import { existsSync, mkdtempSync, readFileSync, readdirSync, realpathSync, rmSync, writeFileSync } from "node:fs";
import Module, { createRequire } from "node:module";
import { tmpdir } from "node:os";
import { join } from "node:path";
import { after, test } from "node:test";
import { pathToFileURL } from "node:url";
import { print, renaming } from "../../../bindings/node/index.mjs";
import { folderOf } from "../../../bindings/node/lib/packages.mjs";
import { addon } from "../../../bindings/node/lib/printer.mjs";
import { parsed } from "../parser.mjs";
import { unbuilt } from "../program.mjs";
import { filesBelow } from "../programs.mjs";

const DEBIAN = "/usr/share/nodejs";
const PATH = join(folderOf("acorn"), "dist/acorn.mjs");
// Texts from this length on aren't cut.
const LONG = 3_000;
const skip = addon === null && unbuilt;

const NO_COMMENTS = { comments: false };
const MINIFIED = { ...NO_COMMENTS, minify: true };
const HOW = {
  pretty: () => NO_COMMENTS,
  minified: () => MINIFIED,
  renamed: (program) => ({ ...MINIFIED, names: renaming(program) }),
  "with comments": () => ({ comments: true }),
};

const folder = mkdtempSync(join(tmpdir(), "jsgen-"));
after(() => rmSync(folder, { recursive: true }));

function codeOf(source, how) {
  const program = parsed(source, { comments: true });
  return print(program, { source, ...how(program) }).code;
}

async function imported(name, code) {
  const path = join(folder, `${name}.mjs`);
  writeFileSync(path, code);
  return import(pathToFileURL(path));
}

// The parsers, by how they were printed; the first is the source itself.
async function parsers() {
  const source = readFileSync(PATH, "utf8");
  const codes = Object.entries(HOW).map(([name, how]) => [name, codeOf(source, how)]);
  const all = [["as it is", source], ...codes];
  assert.equal(new Set(all.map(([, code]) => code)).size, all.length);
  return Promise.all(all.map(async ([name, code]) => [name, await imported(name, code)]));
}

const acorns = skip ? [] : await parsers();

// All that a parser tells of a text: tree, tokens and comments, with all places, or the error.
function outcome(acorn, text, settings) {
  const [tokens, comments] = [[], []];
  const onToken = ({ type, ...token }) => tokens.push({ ...token, label: type.label });
  try {
    const tree = acorn.parse(text, { ecmaVersion: "latest", locations: true, ranges: true, allowHashBang: true, ...settings, onToken, onComment: comments });
    return { tree, tokens, comments };
  } catch ({ name, message, pos, loc, raisedAt }) {
    return { error: { name, message, pos, loc, raisedAt }, tokens, comments };
  }
}

// Whether both hold the same, whatever their prototypes are: each parser has its own.
function isSame(one, other) {
  if (typeof one !== "object" || typeof other !== "object" || one === null || other === null) return Object.is(one, other);
  if (one instanceof RegExp || other instanceof RegExp) return String(one) === String(other);
  const names = Object.keys(one);
  return names.length === Object.keys(other).length && names.every((name) => Object.hasOwn(other, name) && isSame(one[name], other[name]));
}

// Each parser tells of the text what its source tells.
function compare(name, text, settings) {
  const [[, original], ...others] = acorns;
  const expected = outcome(original, text, settings);
  for (const [how, acorn] of others) {
    assert.ok(isSame(outcome(acorn, text, settings), expected), `${name}, parsed by acorn ${how}, with ${JSON.stringify(settings)}`);
  }
  return expected;
}

const MODULE = { sourceType: "module" };
const SCRIPT = { sourceType: "script" };
const SETTINGS = [MODULE, SCRIPT, { ...SCRIPT, ecmaVersion: 5 }, { ...MODULE, ecmaVersion: 2017, preserveParens: true }];

const settingsOf = (source) => (/^(import|export)\b/m.test(source) ? MODULE : SCRIPT);

function filesOf(library) {
  const root = join(DEBIAN, library);
  return existsSync(root) ? [...filesBelow(root)] : [];
}

const D3 = existsSync(DEBIAN) ? readdirSync(DEBIAN).filter((name) => name.startsWith("d3-")).map((name) => `${name}/src`) : [];
const LIBRARIES = ["acorn-walk/dist", "lodash-es", "@babel/parser/lib", ...D3];
const FILES = [PATH, ...LIBRARIES.flatMap(filesOf)];
const READINGS = JSON.parse(readFileSync(new URL("../../../tests/readings.json", import.meta.url), "utf8")).cases.map(([text]) => text);

// Whole numbers below a limit (a congruential generator of 32 bits, from its upper half).
function drawing(seed) {
  let state = seed;
  return (limit) => {
    state = (Math.imul(state, 1664525) + 1013904223) >>> 0;
    return Math.floor((state / 2 ** 32) * limit);
  };
}

// A text that ends early, and one that lacks some characters.
function cutsOf(text, below) {
  const [end, from] = [below(text.length), below(text.length)];
  return [text.slice(0, end), text.slice(0, from) + text.slice(from + 1 + below(3))];
}

test("printed acorn has the exports of its source", { skip }, () => {
  const [[, original], ...others] = acorns;
  for (const [how, acorn] of others) assert.deepEqual(Object.keys(acorn), Object.keys(original), how);
});

test("printed acorn parses libraries as its source does", { skip }, (t) => {
  for (const path of FILES) {
    const source = readFileSync(path, "utf8");
    compare(path, source, settingsOf(source));
  }
  t.diagnostic(`${FILES.length} files`);
});

test("printed acorn parses the texts of tests/readings.json as its source does", { skip }, () => {
  for (const text of READINGS) for (const settings of SETTINGS) compare(JSON.stringify(text), text, settings);
});

test("printed acorn tells errors as its source does", { skip }, (t) => {
  const below = drawing(1);
  let errors = 0;
  const tried = (name, text, settings) => {
    if (compare(name, text, settings).error) errors += 1;
  };
  for (const text of READINGS) {
    for (const cut of cutsOf(text, below)) for (const settings of [MODULE, SCRIPT]) tried(JSON.stringify(cut), cut, settings);
  }
  for (const path of FILES) {
    const source = readFileSync(path, "utf8");
    if (source.length < LONG) for (const cut of cutsOf(source, below)) tried(`${path}, cut`, cut, settingsOf(source));
  }
  assert.ok(errors > 1000, `${errors} errors`);
  t.diagnostic(`${errors} errors`);
});

// ---- acorn's own tests

const TESTS = process.env.ACORN_TESTS ? realpathSync(process.env.ACORN_TESTS) : null;
const reason = skip || (TESTS === null && "ACORN_TESTS names no folder of acorn's sources");

// How many of them there are, and those that fail. They load acorn from beside their folder.
function ownTests(acorn) {
  const own = createRequire(join(TESTS, "test/run.js"));
  const { _load } = Module;
  Module._load = (name, ...others) => (name === "../acorn" ? acorn : _load(name, ...others));
  try {
    const files = readdirSync(join(TESTS, "test")).filter((file) => /^tests.*\.js$/.test(file));
    for (const file of files) own(`./${file}`);
    const failed = [];
    let count = 0;
    own("./driver.js").runTests({ parse: acorn.parse }, (state, code, message) => {
      count += 1;
      if (state !== "ok") failed.push(`${state}: ${code}: ${message}`);
    });
    return { count, failed };
  } finally {
    Module._load = _load;
    for (const path of Object.keys(own.cache)) if (path.startsWith(TESTS)) delete own.cache[path];
  }
}

test("printed acorn passes acorn's own tests", { skip: reason }, (t) => {
  const { version } = JSON.parse(readFileSync(join(TESTS, "acorn/package.json"), "utf8"));
  const [[, original], ...others] = acorns;
  assert.equal(version, original.version);
  const { count, failed } = ownTests(original);
  assert.ok(count > 3000, `${count} tests`);
  assert.deepEqual(failed, []);
  for (const [how, acorn] of others) assert.deepEqual(ownTests(acorn), { count, failed }, how);
  t.diagnostic(`${count} tests`);
});
