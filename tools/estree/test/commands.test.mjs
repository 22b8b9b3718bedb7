// The commands. Those that print need the program, which `rt ci` or `./jsgen` builds; where it isn't built they are skipped.
import assert from "node:assert/strict";
import { spawnSync } from "node:child_process";
import { chmodSync, mkdtempSync, rmSync, writeFileSync } from "node:fs";
import { tmpdir } from "node:os";
import { join } from "node:path";
import { test } from "node:test";
import { fileURLToPath } from "node:url";
import { decoded } from "../../flat/decode.mjs";
import { unbuilt } from "../program.mjs";

const here = (name) => fileURLToPath(new URL(name, import.meta.url));

function ran(command, words, input = "", program = process.env.JSGEN) {
  const env = { ...process.env, ...(program && { JSGEN: program }) };
  const child = spawnSync(process.execPath, [here(`../${command}.mjs`), ...words], { input, env });
  return { status: child.status, out: child.stdout.toString(), err: child.stderr.toString() };
}

// The bytes that `job` writes.
function bytesOfJob(words, tree) {
  return spawnSync(process.execPath, [here("../job.mjs"), ...words], { input: JSON.stringify(tree) }).stdout;
}

function withFile(source, use) {
  const folder = mkdtempSync(join(tmpdir(), "jsgen-"));
  try {
    const file = join(folder, "file.js");
    writeFileSync(file, source);
    return use(file, folder);
  } finally {
    rmSync(folder, { recursive: true });
  }
}

test("job writes the job of a tree", () => {
  const tree = { type: "Program", sourceType: "module", body: [{ type: "EmptyStatement" }] };
  const { status, out } = ran("job", ["--minify"], JSON.stringify(tree));
  assert.equal(status, 0);
  assert.deepEqual(JSON.parse(out), {
    options: { minify: true },
    rows: [{ type: "EmptyStatement" }, { type: "Program", kind: "module", body: [0] }],
  });
});

test("job --flat writes the flat job of the same tree", () => {
  const body = [{ type: "ExpressionStatement", expression: { type: "Literal", value: "\u{e9}\ud800" } }];
  for (const tree of [{ type: "Program", sourceType: "module", body }, { type: "Program", sourceType: "module", body: [] }]) {
    for (const words of [[], ["--minify", "--ascii-only", "--single-quote"]]) {
      const flat = bytesOfJob([...words, "--flat"], tree);
      assert.equal(flat.subarray(0, 4).toString("latin1"), "JSGF");
      assert.deepEqual(decoded(flat), JSON.parse(bytesOfJob(words, tree)));
    }
  }
  const refused = ran("job", ["--flat"], '{"type":"Program","body":[null]}');
  assert.deepEqual(refused, { status: 1, out: "", err: "<stdin>: program.body[0] is no node\n" });
});

test("what is wrong with words and input is one line, and the usage behind that of words", () => {
  const usage = "usage: node job.mjs [--minify] [--ascii-only] [--single-quote] [--flat] < TREE.json\n";
  assert.deepEqual(ran("job", ["--indent"]), { status: 2, out: "", err: `Unknown option '--indent'\n${usage}` });
  assert.deepEqual(ran("job", ["a"]), { status: 2, out: "", err: `unknown word a\n${usage}` });
  assert.deepEqual(ran("job", ["--help"]), { status: 0, out: usage, err: "" });
  assert.deepEqual(ran("job", [], "null"), { status: 1, out: "", err: "<stdin>: program is no node\n" });
  assert.match(ran("job", [], "{").err, /^<stdin>: .* in JSON .*\n$/);
  assert.match(ran("roundtrip", ["--random", "x"]).err, /^--random wants a whole number\nusage: node roundtrip\.mjs /);
  assert.match(ran("roundtrip", []).err, /^a directory, or --random, is wanted\nusage: /);
});

test("where the program isn't there nothing is built, and that is said", () => {
  for (const command of ["roundtrip", "../maps/judge", "../comments/judge"]) {
    assert.deepEqual(ran(command, ["--random", "1"], "", "/no/such"), { status: 70, out: "", err: "not built: JSGEN names no program that is there: /no/such\n" });
  }
});

test("the program gets as much stack as there may be", () => {
  withFile("", (file, folder) => {
    const program = join(folder, "program");
    writeFileSync(program, "#!/bin/sh\ncat > /dev/null\nulimit -S -s\nulimit -H -s\n");
    chmodSync(program, 0o755);
    const call = `import { printed } from ${JSON.stringify(new URL("../command.mjs", import.meta.url).href)}; process.stdout.write(printed({}).code);`;
    const env = { ...process.env, JSGEN: program, CALL: call };
    const { stdout } = spawnSync("sh", ["-c", `ulimit -S -s 4096; exec "${process.execPath}" --input-type=module -e "$CALL"`], { env });
    const [soft, hard] = stdout.toString().split("\n");
    assert.equal(soft, hard);
    assert.notEqual(soft, "4096");
  });
});

test("roundtrip prints a file and counts", { skip: unbuilt }, () => {
  withFile("function f() { return a + b * 3 }\nclass B { c() { d(e[1]) } }\n", (file, folder) => {
    const { status, out } = ran("roundtrip", [folder, "--random", "3"]);
    assert.equal(status, 0);
    assert.match(out, /^4 programs; /);
    assert.match(out, / 0 bad; /);
  });
});

// Of a program that prints this text whatever it is asked.
function tripOf(source, printed) {
  return withFile(source, (file, folder) => {
    const program = join(folder, "program");
    writeFileSync(program, `#!/bin/sh\ncat > ${folder}/job\ncat <<'END'\n${printed}\nEND\n`);
    chmodSync(program, 0o755);
    return { ...ran("roundtrip", [file], "", program), file };
  });
}

test("roundtrip tells file, line and what differs", () => {
  const source = "f();\ng(1);\n";
  const other = tripOf(source, "f();\ng(\n  2);");
  assert.equal(other.status, 1);
  assert.ok(other.err.includes(`${other.file}:2: pretty: `), other.err);
  assert.match(other.err, /\/arguments\/.*: "1" and "2"\n {2}printed: "f\(\);\\ng\(\\n {2}2\);\\n"/);
  const unparsed = tripOf(source, "f();\ng(;");
  assert.ok(unparsed.err.includes(`${unparsed.file}:1: pretty: what is printed does not parse: `), unparsed.err);
  assert.match(unparsed.out, /^1 programs; .* 17 bad; /);
});
