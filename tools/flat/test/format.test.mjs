// The bytes of a flat job: its head, and what stands for a value of the wrong kind (docs/FORMAT.md, "Flat jobs").
import assert from "node:assert/strict";
import { test } from "node:test";
import { flatJobOf } from "../../../bindings/node/lib/convert.mjs";
import { TABLE_NUMBER as WRITTEN, TYPES } from "../../../bindings/node/lib/table.mjs";
import { parsed } from "../../estree/parser.mjs";
import { NoFlatJob, TABLE_NUMBER, decoded } from "../decode.mjs";

const GREATEST = 2 ** 32 - 1;
const HEAD = ["magic", "table", "rowCount", "rowWords", "listWords", "textCount", "heapBytes", "headBytes"];
const NUMBERS = Object.fromEntries(Object.keys(TYPES).map((name, number) => [name, number]));

function flatOf(source, settings) {
  return Buffer.from(flatJobOf(parsed(source), settings));
}

function headOf(flat) {
  return Object.fromEntries(HEAD.map((name, at) => [name, flat.readUInt32LE(4 * at)]));
}

// Where the row of this number begins, by what it is decoded to.
function beginOf(flat, number) {
  const before = decoded(flat).rows.slice(0, number);
  return 32 + 4 * before.reduce((sum, { type }) => sum + 3 + Object.keys(TYPES[type]).length, 0);
}

// The value of a field of the row when its word is another one.
function changed(source, type, name, word) {
  const flat = flatOf(source);
  const number = decoded(flat).rows.findIndex((row) => row.type === type);
  flat.writeUInt32LE(word, beginOf(flat, number) + 4 * (3 + Object.keys(TYPES[type]).indexOf(name)));
  return decoded(flat).rows[number][name];
}

test("the table's number is that of the table", () => assert.equal(WRITTEN, TABLE_NUMBER));

test("the sections of a job", () => {
  const flat = flatOf("[a, \u{e9}]", { source: "[a, \u{e9}]", options: { minify: true } });
  const json = '{"options":{"minify":true}}';
  assert.equal(flat.subarray(0, 4).toString(), "JSGF");
  const rows = [
    ["IdentifierReference", 1, 2, 1, 0],
    ["IdentifierReference", 4, 6, 2, 0],
    ["ArrayExpression", 0, 7, 1],
    ["ExpressionStatement", 0, 7, 3],
    ["Program", 0, 7, 0, 1, 0, 0, 0, 0, 0, 4],
  ];
  const numbers = rows.flatMap(([type, ...rest]) => [NUMBERS[type], ...rest]);
  const lists = [2, 1, 2, 1, 4];
  const texts = [0, 1, 1, 2];
  assert.deepEqual(headOf(flat), {
    magic: 0x4647534a, table: TABLE_NUMBER, rowCount: 5, rowWords: numbers.length, listWords: 5, textCount: 2, heapBytes: 3, headBytes: json.length,
  });
  const words = [...numbers, ...lists, ...texts];
  assert.deepEqual(words.map((_, at) => flat.readUInt32LE(32 + 4 * at)), words);
  assert.equal(flat.subarray(32 + 4 * words.length).toString(), `a\u{e9}${json}`);
});

test("a job is read at any place in memory", () => {
  const flat = flatOf("a");
  assert.deepEqual(decoded(Buffer.concat([Buffer.from("."), flat]).subarray(1)), decoded(flat));
});

test("what isn't whole is no flat job", () => {
  const flat = flatOf("['\u{e9}']");
  const isNone = (bytes) => assert.throws(() => decoded(bytes), NoFlatJob);
  for (let length = 0; length < flat.length; length += 1) isNone(flat.subarray(0, length));
  isNone(Buffer.concat([flat, Buffer.from(" ")]));
  HEAD.forEach((name, at) => {
    if (name === "rowCount") return;
    const other = Buffer.from(flat);
    other.writeUInt32LE((flat.readUInt32LE(4 * at) + 1) % 2 ** 32, 4 * at);
    isNone(other);
  });
  const heap = Buffer.from(flat);
  heap[flat.length - 3] = 0x61;
  isNone(heap);
  for (const json of ["[]", "{ ", "55"]) isNone(Buffer.concat([flat.subarray(0, -2), Buffer.from(json)]));
});

test("a word that says nothing is a value of the wrong kind", () => {
  assert.equal(changed("a", "ExpressionStatement", "expression", GREATEST), GREATEST - 1);
  assert.equal(changed("a", "IdentifierReference", "name", 2), false);
  assert.equal(changed("a", "Program", "body", 3), "");
  assert.equal(changed("a", "Program", "body", GREATEST), "");
  assert.equal(changed("a", "Program", "jsx", 1), "");
  assert.equal(changed("a", "Program", "kind", 2), false);
  assert.equal(changed("true", "BooleanLiteral", "value", 1), false);
  assert.equal(changed("true", "BooleanLiteral", "value", 3), "");
  assert.equal(changed("['a']", "StringLiteral", "value", 4), false);
  assert.equal(changed("['a']", "StringLiteral", "value", 9), false);
  assert.deepEqual(changed("['a']", "StringLiteral", "value", 5), [3]);
  assert.equal(changed("1; a", "NumericLiteral", "digits", 4), "");
  assert.equal(changed("1; a", "NumericLiteral", "digits", 2), "a");
  assert.equal(changed("1", "NumericLiteral", "digits", GREATEST), 2 ** 31 - 1);
  assert.equal(changed("a", "IdentifierReference", "reference", GREATEST), GREATEST - 1);
  assert.equal(changed("[a]", "ArrayExpression", "elements", 4), "");
});

test("a text is of whole characters", () => {
  const source = "['\u{e9}b']";
  const textOf = (from, length) => {
    const flat = flatOf(source);
    const { rowWords, listWords } = headOf(flat);
    flat.writeUInt32LE(from, 32 + 4 * (rowWords + listWords));
    flat.writeUInt32LE(length, 36 + 4 * (rowWords + listWords));
    return decoded(flat).rows[0].value;
  };
  assert.deepEqual([[0, 3], [0, 2], [2, 1], [2, 0], [3, 0]].map((place) => textOf(...place)), ["\u{e9}b", "\u{e9}", "b", "", ""]);
  assert.deepEqual([[0, 1], [1, 1], [1, 2], [1, 0], [0, 4], [4, 0], [GREATEST, 1]].map((place) => textOf(...place)), Array(7).fill(false));
});

test("a row that isn't whole, or of no type, is none, and words behind the last row are passed over", () => {
  const withRows = (count) => {
    const flat = flatOf("a; b");
    flat.writeUInt32LE(count, 8);
    return decoded(flat).rows;
  };
  const rows = withRows(5);
  assert.equal(rows.at(-1).type, "Program");
  assert.deepEqual(withRows(4), rows.slice(0, 4));
  assert.deepEqual(withRows(0), []);
  assert.deepEqual(withRows(GREATEST), [...rows, null]);
  const flat = flatOf("a; b");
  flat.writeUInt32LE(Object.keys(TYPES).length, beginOf(flat, 1));
  assert.deepEqual(decoded(flat).rows, [rows[0], null]);
});

test("whatever a word of a job is changed to, the job stands for JSON or is none", () => {
  const flat = flatOf("let [a, , ...b] = '\\ud800'; f(1, 4294967296, `c${d}`)", { options: { minify: true } });
  const { rowWords, listWords, textCount } = headOf(flat);
  let taken = 0;
  for (let at = 0; at < 32 + 4 * (rowWords + listWords + 2 * textCount); at += 4) {
    const before = flat.readUInt32LE(at);
    for (const word of [0, 1, before - 1, before + 1, GREATEST].filter((word) => word >= 0 && word <= GREATEST)) {
      flat.writeUInt32LE(word, at);
      try {
        JSON.stringify(decoded(flat));
        taken += 1;
      } catch (error) {
        if (!(error instanceof NoFlatJob)) throw error;
        assert.ok(at < 32);
      }
    }
    flat.writeUInt32LE(before, at);
  }
  assert.ok(taken > 500, `${taken}`);
});
