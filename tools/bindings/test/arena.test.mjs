// The memory of node's addon (bindings/node/arena.c): each allocation of a call is refused in turn, and the next call prints the same. It
// needs the static library and cc.
import assert from "node:assert/strict";
import { spawnSync } from "node:child_process";
import { mkdtempSync, rmSync, writeFileSync } from "node:fs";
import { tmpdir } from "node:os";
import { join } from "node:path";
import { after, test } from "node:test";
import { fileURLToPath } from "node:url";
import { compile, unlinkable } from "../library.mjs";

const skip = unlinkable;
const folder = mkdtempSync(join(tmpdir(), "jsgen-arena-"));
after(() => rmSync(folder, { recursive: true, force: true }));
const WRAPPED = ["malloc", "realloc"].map((name) => `-Wl,--wrap=${name}`);
const arena = fileURLToPath(new URL("../../../bindings/node/arena.c", import.meta.url));

// So many statements `this;`.
function job(statements) {
  const rows = [];
  for (let count = 0; count < statements; count += 1) rows.push('{"type":"ThisExpression"}', `{"type":"ExpressionStatement","expression":${2 * count}}`);
  const body = Array.from({ length: statements }, (_, count) => 2 * count + 1);
  return JSON.stringify({ options: { minify: true } }).slice(0, -1) + `,"rows":[${[...rows, JSON.stringify({ type: "Program", kind: "module", body })]}]}`;
}

test("each allocation is refused in turn", { skip }, () => {
  const refused = compile("tools/bindings/test/refused.c", join(folder, "refused"), [arena, ...WRAPPED]);
  const paths = [1, 100, 20_000].map((statements) => {
    const path = join(folder, `${statements}.json`);
    writeFileSync(path, job(statements));
    return path;
  });
  const { status, stdout, stderr } = spawnSync(refused, paths, { encoding: "utf8" });
  assert.equal(status, 0, `${stdout}${stderr}`);
  const counts = stdout.trim().split("\n").map(Number);
  assert.equal(counts.length, paths.length);
  assert.ok(counts[0] >= 1 && counts.every((count) => count < 400), stdout);
});
