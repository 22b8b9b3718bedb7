// What the table and the reader make of texts: those of tests/readings.json and of the samples of crates/jsgen_reading_samples.
import assert from "node:assert/strict";
import { test } from "node:test";
import { answerTo } from "../accept.mjs";
import { readerIn } from "../interpret.mjs";
import { tokenListsOf } from "../lexer.mjs";
import { treesOf } from "../parsing.mjs";
import { cookedOf, specialOf } from "../tokens.mjs";
import { allCases, samplesByFile } from "./texts.mjs";

const reader = readerIn();

for (const [text, ...wanted] of [
  ["a\n.b", "a \n . b"],
  ["\nlet[a=1n]='b'", "\n let [ a = 1n ] = 'b'"],
  ["f(\n)\n", "f ( )"],
  ["a>>>=b?.c??d?.5:e"],
  ["a>>>=b?.c??d?5:e", "a >>>= b ?. c ?? d ? 5 : e"],
  ["$_+ ++__proto__...É", "$_ + ++ __proto__ ... É"],
  ["i\\u0066,\\u{66}\\u{00066}", "i\\u0066 , \\u{66}\\u{00066}"],
  ["\\u0031"],
  ["a\\u{110000}"],
  ["1a"],
  ["1.5"],
  ["01"],
  ["a//b"],
  ["a/*b*/"],
  ["a/b", "a / b"],
  ["a/b/=c", "a / b /= c", "a /b/ = c"],
  ["/[/]\\//g/a", "/ [ /]\\//g / a", "/[/]\\//g / a"],
  ["a=/]/", "a = / ] /", "a = /]/"],
  ["/\n/", "/ \n /"],
  ["/a/i\\u0066", "/ a / i\\u0066"],
  ["#a.#\\u{61}\n#if", "#a . #\\u{61} \n #if"],
  ["#!a b\nc", "\n c"],
  ["#!", ""],
  [" #!a"],
  ["# a"],
  ["#1"],
  ["`a`b", "`a` b"],
  ["`a\n$\\`{`", "`a\n$\\`{`"],
  ["`a${{}}}${b}\n`}", "`a${ { } }}${ b }\n` }"],
  ["`${`${a}`}`", "`${ `${ a }` }`"],
  ["`${a`"],
  ["`a\r`"],
  ["'a\n'"],
]) {
  test(`the tokens of ${JSON.stringify(text)}`, () => assert.deepEqual(tokenListsOf(text).map((tokens) => tokens.join(" ")), wanted));
}

test("the tokens that the grammar has to ask for", () => {
  const parts = (text) => Object.values(specialOf(text) ?? {}).flat();
  for (const text of ["a", "/", "/=", "'#'", "`a`", "`\\$`", "}"]) assert.deepEqual(parts(text), []);
  assert.deepEqual(parts("#a"), ["Private", "a"]);
  assert.deepEqual(parts("/=/"), ["Pattern", "=", ""]);
  assert.deepEqual(parts("/[/]/gi"), ["Pattern", "[/]", "gi"]);
  assert.deepEqual(parts("`\\u`"), ["Whole", "\\u"]);
  assert.deepEqual(parts("`${"), ["Head", ""]);
  assert.deepEqual(parts("}}${"), ["Middle", "}"]);
  assert.deepEqual(parts("}\n`"), ["Tail", "\n"]);
});

for (const [raw, cooked] of [
  ["a\n$", "a\n$"],
  ["\\n\\\\\\`\\${\\q", "\n\\`${q"],
  ["\\x41\\u0042\\u{43}\\u{1f600}\\0", "ABC\u{1f600}\0"],
  ["a\\\nb", "ab"],
  ["\\x4"],
  ["\\u"],
  ["\\u{110000}"],
  ["\\00"],
  ["\\1"],
]) {
  test(`what ${JSON.stringify(raw)} stands for in a template`, () => assert.equal(cookedOf(raw), cooked));
}

const MODULE_BODY = "ModuleBody";

// Each text with what the grammar reads it as.
const byGrammar = (rows) => rows.map(([text, reading, , other = reading]) => [text, other]);

const readings = byGrammar(allCases);

const samples = Object.values(samplesByFile).flat();

// What begins there has no end, or is no name, or a hashbang that isn't at the front.
const WITHOUT_TOKENS = ["class A { # x }", "`${a`;", "`${a}", " #!a\nb;", "\n#!a\nb;", "a;#!b", "#!a\n#!b\nc;", "# !a\nb;"];

test("each text has tokens that are known", () => {
  const texts = [...readings, ...samples].map(([text]) => text);
  assert.deepEqual(texts.filter((text) => tokenListsOf(text).length === 0), WITHOUT_TOKENS);
});

// Each text of which it isn't true what is told of it.
const differences = (told, isRead) => told.filter(([text, reading]) => isRead(tokenListsOf(text)) !== (reading === "module")).map(([text]) => text);

// Of several lists of tokens one is read at most.
test("the table reads each text as the data says, and as one tree", () => {
  const counts = new Set();
  const isReadByTable = (lists) => {
    const count = lists.flatMap((tokens) => treesOf(MODULE_BODY, tokens)).length;
    counts.add(count);
    return count > 0;
  };
  assert.deepEqual(differences([...readings, ...samples], isReadByTable), []);
  assert.deepEqual([...counts].sort(), [0, 1]);
});

const isRead = (lists) => lists.some((tokens) => answerTo(reader, MODULE_BODY, tokens) !== undefined);

test("the reader reads of tests/readings.json what the grammar does", () => {
  assert.deepEqual(differences(readings, isRead), []);
});

for (const [name, samples] of Object.entries(samplesByFile)) {
  test(`the reader reads the samples of ${name}, or doesn't, as is proved of them`, () => {
    assert.deepEqual(differences(samples, isRead), []);
  });
}
