// What follows from the table of types is written as it stands here, and a table whose proofs would outgrow the prover is refused.
import assert from "node:assert/strict";
import { spawnSync } from "node:child_process";
import { cpSync, mkdtempSync, readFileSync, rmSync, writeFileSync } from "node:fs";
import { tmpdir } from "node:os";
import { join } from "node:path";
import { test } from "node:test";
import { fileURLToPath } from "node:url";
import { TABLE_NUMBER } from "../../flat/decode.mjs";

const FOLDER = fileURLToPath(new URL("..", import.meta.url));
// Tells the number of a table that is in a file.
const NUMBER = "import sys; from table import Table; from flat import table_number; print(table_number(Table(sys.argv[1])))";

// How the generator ends on a copy of the repository's tables, after a change of the table, and what it says.
function generated(change) {
  const top = mkdtempSync(join(tmpdir(), "jsgen-nodes-"));
  try {
    const folder = join(top, "tools", "nodes");
    cpSync(FOLDER, folder, { recursive: true });
    const table = join(folder, "table.txt");
    writeFileSync(table, change(readFileSync(table, "utf8")));
    const { status, stderr } = spawnSync(join(folder, "generate"), ["--check"], { encoding: "utf8" });
    return { status, stderr };
  } finally {
    rmSync(top, { recursive: true });
  }
}

test("the files are as they are written", () => {
  const { status, stdout, stderr } = spawnSync(join(FOLDER, "generate"), ["--check"], { encoding: "utf8" });
  assert.equal(status, 0, stdout + stderr);
});

test("a row whose optional children make too many cases is refused, and the child that makes most is named", () => {
  const field = "    value               Function\n";
  const { status, stderr } = generated((table) => {
    assert.equal(table.split(field).length, 2);
    return table.replace(field, `${field}    first               Expression?\n    second              Expression?\n`);
  });
  assert.equal(status, 1);
  assert.match(stderr, /^MethodDefinition: it is opened into 48 cases, and 32 are the most; 4 are those of its child value;/);
});

// The number of the table after a change.
function numberOf(change = (table) => table) {
  const folder = mkdtempSync(join(tmpdir(), "jsgen-nodes-"));
  try {
    const table = join(folder, "table.txt");
    writeFileSync(table, change(readFileSync(join(FOLDER, "table.txt"), "utf8")));
    const { status, stdout, stderr } = spawnSync("python3", ["-B", "-c", NUMBER, table], { cwd: FOLDER, encoding: "utf8" });
    assert.equal(status, 0, stderr);
    return Number(stdout);
  } finally {
    rmSync(folder, { recursive: true });
  }
}

test("the table's number in jsgen_flat, and here, is the one that is worked out from docs/FORMAT.md", () => {
  const source = readFileSync(join(FOLDER, "../../crates/jsgen_flat/src/names.rt"), "utf8");
  assert.deepEqual([...source.matchAll(/^pub const TABLE_NUMBER: u32 = (\d+);$/gm)].map(([, number]) => Number(number)), [TABLE_NUMBER]);
  assert.equal(numberOf(), TABLE_NUMBER);
});

function turned(table, one, other) {
  assert.equal(table.split(`${one}${other}`).length, 2);
  return table.replace(`${one}${other}`, `${other}${one}`);
}

test("the table's number tells its types, fields, sorts and words, and their order", () => {
  const lines = {
    fields: ["    test                Expression\n", "    consequent          Statement\n"],
    words: ["    const               Const\n", "    let                 Let\n"],
    types: [
      "node ThisExpression 13.2.1\n    | The keyword `this`.\n    = ^ m 'this'\n\n",
      "node NullLiteral 12.9.1\n    | The literal `null`.\n    = ^ m 'null'\n\n",
    ],
  };
  const changes = [
    ...Object.values(lines).map(([one, other]) => (table) => turned(table, one, other)),
    (table) => table.replace("\n    declare             unread flag unpromised", "\n    declare             flag unpromised"),
    (table) => table.replace("    consequent          Statement\n", "    consequent          Statement*\n"),
    (table) => table.replace("    consequent          Statement\n", "    then                Statement\n"),
  ];
  const numbers = [numberOf(), ...changes.map(numberOf)];
  assert.equal(new Set(numbers).size, numbers.length, numbers.join(" "));
});
