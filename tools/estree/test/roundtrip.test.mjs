// What is printed for node's own library, and for 300 programs that are made up, is parsed by acorn as the same programs, under
// each set of options (roundtrip.mjs). The library is what node itself was built with, which it has by `process.binding`; where
// this node hides it, the one of npm beside node. Needs the program, which `rt ci` or `./jsgen` builds.
import assert from "node:assert/strict";
import { spawn } from "node:child_process";
import { cpSync, existsSync, mkdirSync, mkdtempSync, rmSync, writeFileSync } from "node:fs";
import { availableParallelism, tmpdir } from "node:os";
import { dirname, join } from "node:path";
import { test } from "node:test";
import { fileURLToPath } from "node:url";
import { program, unbuilt } from "../program.mjs";

const ROUNDTRIP = fileURLToPath(new URL("../roundtrip.mjs", import.meta.url));
const RANDOM = 300;
const PROCESSES = availableParallelism();
const OF_NPM = [join(dirname(process.execPath), "../lib/node_modules/npm"), "/usr/share/nodejs/npm"];

// The texts of node's own library by their names, or null.
function sourcesOfNode() {
  try {
    const found = Object.entries(process.binding("natives")).filter(([, text]) => typeof text === "string");
    return found.length > 100 ? found : null;
  } catch {
    return null;
  }
}

// Runs the round trip in a folder; what it says on standard error tells what failed.
function tripIn(folder, words) {
  return new Promise((done, fail) => {
    const child = spawn(process.execPath, [ROUNDTRIP, ...words], { cwd: folder, env: { ...process.env, JSGEN: program() } });
    let out = "";
    let err = "";
    child.stdout.on("data", (data) => (out += data));
    child.stderr.on("data", (data) => (err += data));
    child.on("error", fail);
    child.on("close", (status) => done({ status, out, err }));
  });
}

// Of several round trips side by side; gives how many programs were tried.
async function allCameBack(t, what, trips) {
  const ended = await Promise.all(trips);
  assert.ok(ended.every(({ status }) => status === 0), ended.map(({ out, err }) => `${err}${out}`).join(""));
  const counts = ended.map(({ out }) => /^(\d+) programs; .*; (\d+) runs, 0 bad; /.exec(out).slice(1).map(Number));
  const [programs, runs] = [0, 1].map((at) => counts.reduce((sum, count) => sum + count[at], 0));
  t.diagnostic(`${what}: ${programs} programs, ${runs} runs`);
  return programs;
}

// Spreads the texts over folders, so that each has about as much.
function spread(sources, folders) {
  const sizes = folders.map(() => 0);
  for (const [name, text] of [...sources].sort(([, one], [, other]) => other.length - one.length)) {
    const least = sizes.indexOf(Math.min(...sizes));
    const file = join(folders[least], `${name}.js`);
    mkdirSync(dirname(file), { recursive: true });
    writeFileSync(file, text);
    sizes[least] += text.length;
  }
}

async function withFolders(use) {
  const top = mkdtempSync(join(tmpdir(), "jsgen-"));
  const folders = Array.from({ length: PROCESSES }, (_, at) => join(top, String(at)));
  try {
    for (const folder of folders) mkdirSync(folder);
    return await use(folders);
  } finally {
    rmSync(top, { recursive: true });
  }
}

test("node's own library comes back", { skip: unbuilt }, async (t) => {
  await withFolders(async (folders) => {
    const sources = sourcesOfNode();
    const npm = OF_NPM.find((folder) => existsSync(folder));
    if (sources) spread(sources, folders);
    else if (npm) cpSync(npm, folders[0], { recursive: true });
    else assert.fail("neither node's own library nor npm's is there");
    const what = sources ? `the library of node ${process.version}, ${sources.length} files` : `npm, ${npm}`;
    const programs = await allCameBack(t, what, folders.map((folder) => tripIn(folder, ["."])));
    assert.ok(programs > 100, `${programs} programs`);
  });
});

test("programs that are made up come back", { skip: unbuilt }, async (t) => {
  const share = Math.ceil(RANDOM / PROCESSES);
  const seeds = Array.from({ length: PROCESSES }, (_, at) => 1 + at * share).filter((seed) => seed <= RANDOM);
  const trips = seeds.map((seed) => tripIn(".", ["--random", String(Math.min(share, RANDOM + 1 - seed)), "--seed", String(seed)]));
  assert.equal(await allCameBack(t, `seeds 1 to ${RANDOM}`, trips), RANDOM);
});
