// What README and docs/EVENING.md show: each example does what it says, each link leads to something, and neither grows too long.
import assert from "node:assert/strict";
import { spawnSync } from "node:child_process";
import { existsSync, mkdirSync, mkdtempSync, readFileSync, rmSync, symlinkSync, writeFileSync } from "node:fs";
import { tmpdir } from "node:os";
import { dirname, join, resolve } from "node:path";
import { test } from "node:test";
import { fileURLToPath } from "node:url";
import { folderOf } from "../../../bindings/node/lib/packages.mjs";
import { program, unbuilt } from "../program.mjs";

const TOP = fileURLToPath(new URL("../../../", import.meta.url));
const read = (name) => readFileSync(join(TOP, name), "utf8");

const README = read("README.md");
const EVENING = read("docs/EVENING.md");
const DOCUMENTS = ["README.md", "docs/EVENING.md", "examples/README.md", "bindings/node/README.md", "tools/estree/README.md"];
const WIDTH = 120;

const wordsOf = (text) => text.split(/\s+/).filter((word) => word !== "").length;
const wrapped = (line) => Math.max(1, Math.ceil(line.length / WIDTH));

// The blocks of code of one language.
function blocksOf(text, language) {
  return [...text.matchAll(/^```(\w+)\n(.*?)^```$/gms)].filter(([, of]) => of === language).map(([, , block]) => block);
}

// The commands of a text, each with what it is shown to print.
function shownIn(text) {
  return blocksOf(text, "console").flatMap((block) =>
    block.split(/^\$ /m).slice(1).map((part) => {
      const end = part.indexOf("\n");
      return { command: part.slice(0, end), output: part.slice(end + 1) };
    }));
}

// The links to files and headings, but for those into the network.
function linksOf(text) {
  const prose = text.replace(/^```.*?^```$/gms, "");
  return [...prose.matchAll(/\[([^\]]*)\]\(([^)#]*)(?:#([^)]*))?\)/g)].map(([, words, path, anchor]) => ({ words, path, anchor })).filter(({ path }) => !/^https?:/.test(path));
}

function headingsOf(text) {
  return [...text.matchAll(/^#+ (.*)$/gm)].map(([, heading]) => heading.toLowerCase().replace(/[^\w -]/g, "").replaceAll(" ", "-"));
}

test("README has three screens, and the first has one example and the commands", () => {
  assert.ok(wordsOf(README) <= 1500, `${wordsOf(README)} words`);
  const first = README.slice(0, README.indexOf("\n## "));
  const lines = first.split("\n").reduce((sum, line) => sum + wrapped(line), 0);
  assert.ok(lines <= 40, `${lines} lines of ${WIDTH} characters`);
  for (const shown of ["./jsgen --unproved print", "| `./jsgen print", "npm install jsgen-VERSION.tgz", ".ci/run", "rattle-kit-13f logic dac8208d650f15bf", "x86-64", "node 20.19"]) {
    assert.ok(first.includes(shown), shown);
  }
});

test("docs/EVENING.md takes no more than 900 words", () => assert.ok(wordsOf(EVENING) <= 900, `${wordsOf(EVENING)} words`));

for (const document of DOCUMENTS) {
  test(`the links of ${document} lead to files, and to headings and lines that are there`, () => {
    for (const { words, path, anchor } of linksOf(read(document))) {
      const file = path === "" ? join(TOP, document) : resolve(TOP, dirname(document), path);
      assert.ok(existsSync(file), path);
      const line = /^L(\d+)$/.exec(anchor ?? "")?.[1];
      if (line !== undefined) assert.ok(readFileSync(file, "utf8").split("\n")[line - 1].includes(words.replaceAll("`", "")), `${words} in ${path}, line ${line}`);
      else if (anchor !== undefined) assert.ok(headingsOf(readFileSync(file, "utf8")).includes(anchor), `${path}#${anchor}`);
    }
  });
}

test("docs/EVENING.md says how many lines each file has", () => {
  const said = [...EVENING.matchAll(/^\| \[[^\]]*\]\(\.\.\/([^)#]*)\) \| (\d+) \|/gm)];
  assert.equal(said.length, 7);
  for (const [, path, lines] of said) assert.equal(Number(lines), read(path).split("\n").length - 1, path);
});

// What a command of README prints. `./jsgen` builds the program where it has to and hands over the file, which its own tests show.
function printedBy(command) {
  const [, file] = /^\.\/jsgen (?:--unproved )?print (\S+)$/.exec(command) ?? [];
  const [, words] = /^node (.*)$/.exec(command) ?? [];
  if (file === undefined && words === undefined) throw new Error(`no command of README that a test knows: ${command}`);
  const ran = file === undefined ? spawnSync(process.execPath, words.split(" "), { cwd: TOP }) : spawnSync(program(), ["print"], { input: read(file) });
  assert.equal(ran.status, 0, ran.stderr.toString());
  return ran.stdout.toString();
}

const lacking = ["acorn", "@jridgewell/gen-mapping"].find((name) => folderOf(name) === null);
const skip = unbuilt || (lacking !== undefined && `${lacking} isn't installed`);
const shown = shownIn(README);
const isFile = ({ command }) => command.startsWith("cat ");

test("README shows the files as they are", () => {
  const files = shown.filter(isFile);
  assert.ok(files.length > 0);
  for (const { command, output } of files) assert.equal(output, read(command.slice("cat ".length)), command);
});

test("README's commands print what it says", { skip }, () => {
  const commands = shown.filter((example) => !isFile(example));
  assert.ok(commands.length >= 3);
  for (const { command, output } of commands) assert.equal(`${printedBy(command).replace(/\n$/, "")}\n`, output, command);
});

// The file of JavaScript in a folder where the package and acorn are installed.
function ranInstalled(code) {
  const folder = mkdtempSync(join(tmpdir(), "jsgen-readme-"));
  try {
    mkdirSync(join(folder, "node_modules"));
    symlinkSync(join(TOP, "bindings/node"), join(folder, "node_modules/jsgen"));
    symlinkSync(folderOf("acorn"), join(folder, "node_modules/acorn"));
    writeFileSync(join(folder, "a.mjs"), code);
    const ran = spawnSync(process.execPath, ["a.mjs"], { cwd: folder });
    assert.equal(ran.status, 0, ran.stderr.toString());
    return ran.stdout.toString();
  } finally {
    rmSync(folder, { recursive: true });
  }
}

test("README's JavaScript prints what stands behind it", { skip }, () => {
  const blocks = blocksOf(README, "js");
  assert.equal(blocks.length, 1);
  for (const block of blocks) {
    const outputs = [...block.matchAll(/console\.log\(.*\); \/\/ (.*)$/gm)].map(([, output]) => `${output}\n`);
    assert.equal(outputs.length, 1);
    assert.equal(ranInstalled(block), outputs.join(""));
  }
});

test("README's Rattle stands in jsgen_uses", () => {
  const blocks = blocksOf(README, "rust");
  assert.equal(blocks.length, 1);
  // Between the two stands its contract.
  const end = blocks[0].indexOf(" {\n");
  const source = read("crates/jsgen_uses/src/log.rt");
  for (const part of [blocks[0].slice(0, end), blocks[0].slice(end + 1)]) assert.ok(source.includes(part), part);
});
