// The package bindings/node as it is packed and installed: in an empty folder, without a network.
import assert from "node:assert/strict";
import { spawnSync } from "node:child_process";
import { copyFileSync, cpSync, existsSync, mkdirSync, mkdtempSync, readFileSync, readdirSync, rmSync, writeFileSync } from "node:fs";
import { tmpdir } from "node:os";
import { dirname, join, relative, resolve } from "node:path";
import { after, test } from "node:test";
import { fileURLToPath } from "node:url";
import { packageOrNull } from "../../../bindings/node/lib/packages.mjs";
import { addon } from "../../../bindings/node/lib/printer.mjs";
import { program, unbuilt } from "../../estree/program.mjs";

const top = (name) => fileURLToPath(new URL(`../../../${name}`, import.meta.url));
const isThere = (command) => spawnSync(command, ["--version"]).status === 0;

const temporary = mkdtempSync(join(tmpdir(), "jsgen-package-"));
after(() => rmSync(temporary, { recursive: true }));

const skip =
  (!isThere("npm") && "there is no npm") ||
  (packageOrNull("@jridgewell/gen-mapping") === null && "@jridgewell/gen-mapping isn't installed, which is bundled");
const withoutAddon = skip || (addon === null && "the addon isn't built: node bindings/node/build.mjs");
const withoutProgram = skip || unbuilt;

const SOURCE = "const long = 1;";
const TREE = `
  const at = (start, end, node) => ({ ...node, start, end });
  const long = at(6, 10, { type: "Identifier", name: "long" });
  const declarator = at(6, 14, { type: "VariableDeclarator", id: long, init: at(13, 14, { type: "Literal", value: 1, raw: "1" }) });
  const program = at(0, 15, { type: "Program", sourceType: "module", body: [at(0, 15, { type: "VariableDeclaration", kind: "const", declarations: [declarator] })] });
  const printed = print(program, { source: ${JSON.stringify(SOURCE)}, minify: true, sourceMap: true, names: renaming(program) });
  process.stdout.write(JSON.stringify([printed.code, printed.map.names, printed.map.mappings, print(program).code]));`;
const PRINTED = ["const a=1;", ["long"], "AAAA,MAAMA,EAAO", "const long = 1;\n"];

// The package with its addon or without it, packed and installed in a folder of its own; `own` puts something into the installed package.
function installed(name, hasAddon) {
  const folder = join(temporary, name);
  const copy = join(folder, "copy/bindings/node");
  const leftOut = /\/(node_modules|build)$|\/bin\/jsgen$|\/LICENSE$|\.tgz$/;
  cpSync(top("bindings/node"), copy, { recursive: true, filter: (path) => !leftOut.test(path.slice(top("bindings/node").length)) });
  copyFileSync(top("LICENSE"), join(folder, "copy/LICENSE"));
  if (hasAddon) cpSync(top("bindings/node/build"), join(copy, "build"), { recursive: true });
  done("npm", ["pack", "--pack-destination", folder], copy);
  const user = join(folder, "user");
  mkdirSync(user);
  const [packed] = readdirSync(folder).filter((file) => file.endsWith(".tgz"));
  done("npm", ["install", "--offline", "--no-audit", "--no-fund", join(folder, packed)], user);
  writeFileSync(join(user, "a.mjs"), `import { print, renaming } from "jsgen";\n${TREE}`);
  writeFileSync(join(user, "a.cjs"), `const { print, renaming } = require("jsgen");\n${TREE}`);
  return user;
}

function done(command, words, cwd) {
  const ran = spawnSync(command, words, { cwd, encoding: "utf8" });
  assert.equal(ran.status, 0, ran.stderr);
  return ran.stdout;
}

// What a file in the folder writes, in an environment without JSGEN, or with this one.
function ran(user, file, program) {
  const { JSGEN, ...env } = process.env;
  const { status, stdout, stderr } = spawnSync(process.execPath, [file], { cwd: user, env: program ? { ...env, JSGEN: program } : env, encoding: "utf8" });
  return { status, out: stdout === "" ? null : JSON.parse(stdout), message: /^JsgenError: (.*)$/m.exec(stderr)?.[1] };
}

const PRINTS = { status: 0, out: PRINTED, message: undefined };

test("with its addon the package installs in an empty folder and prints, by a module and by require", { skip: withoutAddon }, () => {
  const user = installed("addon", true);
  assert.deepEqual(ran(user, "a.mjs"), PRINTS);
  assert.deepEqual(ran(user, "a.cjs"), PRINTS);
});

test("a bundle of a file that imports it prints", { skip: withoutAddon || (!isThere("esbuild") && "there is no esbuild") }, () => {
  const user = join(temporary, "addon/user");
  for (const format of ["esm", "cjs"]) {
    const file = `out/bundle.${format === "esm" ? "mjs" : "cjs"}`;
    done("esbuild", ["--bundle", "--platform=node", `--format=${format}`, "--log-level=error", `--outfile=${file}`, "a.mjs"], user);
    assert.deepEqual(ran(user, file), PRINTS);
  }
});

test("without its addon it prints by the program that JSGEN names, or by its own, and else says what to do and builds nothing", { skip: withoutProgram }, () => {
  const user = installed("program", false);
  const before = readdirSync(temporary, { recursive: true }).length;
  const { status, out, message } = ran(user, "a.mjs");
  assert.deepEqual([status, out], [1, null]);
  assert.match(message, /^not built: .*`node bindings\/node\/build\.mjs`.*install a release.*`\.\/jsgen --install DIR`/);
  assert.equal(readdirSync(temporary, { recursive: true }).length, before);
  assert.deepEqual(ran(user, "a.mjs", program()), PRINTS);
  assert.match(ran(user, "a.mjs", "/nothing/jsgen").message, /^the program can't be run: \/nothing\/jsgen isn't there/);
  copyFileSync(program(), join(user, "node_modules/jsgen/bin/jsgen"));
  assert.deepEqual(ran(user, "a.cjs"), PRINTS);
});

test("an addon that doesn't load says why, whatever program is there", { skip: withoutProgram }, () => {
  const user = existsSync(join(temporary, "program/user")) ? join(temporary, "program/user") : installed("program", false);
  mkdirSync(join(user, "node_modules/jsgen/build"));
  writeFileSync(join(user, "node_modules/jsgen/build/jsgen.node"), "no library\n");
  const { status, message } = ran(user, "a.mjs", program());
  assert.equal(status, 1);
  assert.match(message, /^the addon doesn't load: .*jsgen\.node: (file too short|invalid ELF header)/);
});

test("no module of the package reaches above its folder", () => {
  const folder = top("bindings/node");
  const modules = ["", "lib", "bin"].flatMap((part) => readdirSync(join(folder, part)).filter((file) => /\.mjs$/.test(file)).map((file) => join(folder, part, file)));
  const packed = modules.filter((file) => !/\/(build|bundled)\.mjs$/.test(file));
  for (const file of packed) {
    const text = readFileSync(file, "utf8");
    const paths = [...text.matchAll(/(?:from |import\(|new URL\()"(\.[^"]*)"/g)].map(([, path]) => resolve(dirname(file), path));
    assert.deepEqual(paths.filter((path) => relative(folder, path).startsWith("..")), [], file);
  }
});

test("in the package are its licence, those of what it bundles, and the declarations of what it exports", { skip: withoutAddon }, async () => {
  const folder = join(temporary, "addon/user/node_modules/jsgen");
  assert.equal(readFileSync(join(folder, "LICENSE"), "utf8"), readFileSync(top("LICENSE"), "utf8"));
  const manifest = JSON.parse(readFileSync(join(folder, "package.json"), "utf8"));
  for (const name of Object.keys(manifest.dependencies)) {
    const files = readdirSync(join(folder, "node_modules", name));
    assert.ok(files.some((file) => /^(licen[cs]e|copying)/i.test(file)), name);
  }
  const declared = readFileSync(join(folder, "index.d.ts"), "utf8");
  const names = [...declared.matchAll(/^export (?:function|class) (\w+)/gm)].map(([, name]) => name);
  assert.deepEqual(names.sort(), Object.keys(await import("../../../bindings/node/index.mjs")).sort());
});

test("the declarations hold of a use of them", { skip: skip || (!isThere("tsc") && "there is no tsc") }, () => {
  const user = existsSync(join(temporary, "addon/user")) ? join(temporary, "addon/user") : installed("types", false);
  const good = `
    import { JsgenError, NotRead, buildJob, checkJob, jobOf, mapJob, print, printJob, renaming } from "jsgen";
    const { code, map, licences } = print({}, { source: "", minify: true, names: renaming({}), comments: { legal: { linked: "a" } } });
    const texts: string[] = [code, map?.mappings ?? "", ...(licences ?? []), printJob(""), mapJob(new Uint8Array(0))];
    const built: string[] = [buildJob("").code, buildJob("").map, buildJob("").licences];
    const nothing: void = checkJob(JSON.stringify(jobOf({}, { source: "", options: { minify: true } })));
    const at = (error: JsgenError): number | undefined => error.line ?? error.column;
    const node = (error: NotRead): object | undefined => error.node;`;
  const check = (text) => {
    writeFileSync(join(user, "use.mts"), text);
    const ran = spawnSync("tsc", ["--noEmit", "--strict", "--target", "es2022", "--module", "nodenext", "--moduleResolution", "nodenext", "use.mts"], { cwd: user, encoding: "utf8" });
    return [ran.status === 0, ran.stdout];
  };
  assert.deepEqual(check(good), [true, ""]);
  assert.match(check('import { print } from "jsgen";\nprint({}, { minfy: true });')[1], /minfy/);
});
