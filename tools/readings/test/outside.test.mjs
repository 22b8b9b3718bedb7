// The texts of tests/readings.json, and those that crates/jsgen_reading_samples proves something of, beside what two parsers say of them:
// acorn and V8 each read a text as a module, or don't, as ECMA-262 does. Neither knows of the grammar, so where that reads something else
// it is the data that says so and why.
import assert from "node:assert/strict";
import { spawnSync } from "node:child_process";
import { test } from "node:test";
import { packageOrNull } from "../../../bindings/node/lib/packages.mjs";
import { parsed, parserVersion } from "../../estree/parser.mjs";
import { allCases, columns, samplesByFile } from "./texts.mjs";

// Texts that the grammar doesn't read, as no tree stands for them: in parentheses the target gives the function no name (13.15.2, 13.15.5.4).
const WITHOUT_TREE = ["(a)=function(){};", "[(a)=function(){}]=b;", "[(a)=()=>b]=c;"];

const samples = Object.values(samplesByFile)
  .flat()
  .map(([text, byGrammar]) => [text, WITHOUT_TREE.includes(text) ? "module" : byGrammar]);

// What acorn reads by mistake: an object with a name with a default is nothing but a pattern (13.2.5.1), so no member of it is taken.
const MISTAKES_OF_ACORN = ["[{a = 1}.b] = c;", "[{a=b}.c]=d;"];

// Attributes of imports and options of `import()`: an acorn that doesn't read the first of these reads none of them.
const WITH_ATTRIBUTES = [
  'import "x" with {};',
  'import "x"\nwith {a: "b"};',
  'import "x" with {if: "b"};',
  `import a from "x" with {type: "json", "k": 'v',};`,
  'export {} from "x" with {a: "b"};',
  'export * as default from "x" with {a: "b"};',
  "import(a, b);",
  "import(a,);",
  "import(a, b,);",
  "import(a = b, (c, d));",
];

// What V8 reads by mistake: a call is no target of strict code (13.15.1), and no word with an escape is `await` (12.7.2).
const MISTAKES_OF_V8 = ["for (async() of a);", "for aw\\u0061it (a of b);"];

// And what both read by mistake: the parameter of a setter is one, and no list of them that may end in a comma (15.4).
const MISTAKES_OF_BOTH = ["({set a([b],){}});"];

// what a child process runs, which alone has the flag for modules from texts: "" for a text that is compiled, or V8's message
const COMPILE = `
  const { SourceTextModule } = require("node:vm");
  const answer = (text) => {
    try {
      new SourceTextModule(text);
      return "";
    } catch (error) {
      if (error.name !== "SyntaxError") throw error;
      return error.message;
    }
  };
  console.log(JSON.stringify(JSON.parse(require("node:fs").readFileSync(0, "utf8")).map(answer)));
`;

function messagesOfV8(texts) {
  const child = spawnSync(process.execPath, ["--experimental-vm-modules", "--no-warnings", "-e", COMPILE], { input: JSON.stringify(texts), encoding: "utf8" });
  assert.equal(child.status, 0, child.stderr);
  return JSON.parse(child.stdout);
}

function messageOfAcorn(text) {
  try {
    parsed(text);
    return "";
  } catch (error) {
    assert.equal(error.name, "SyntaxError");
    return error.message;
  }
}

const messagesOfAcorn = (texts) => texts.map(messageOfAcorn);

// The texts of which a parser doesn't say what is told of them, each with its message.
function differences(told, messagesOf) {
  const messages = messagesOf(told.map(([text]) => text));
  return told.map(([text, reading], at) => ({ text, reading, message: messages[at] })).filter(({ reading, message }) => (message === "") !== (reading === "module"));
}

const textsOf = (differing) => differing.map(({ text }) => text);

test("each case is a text, a reading, a hazard, and maybe another reading with a reason", () => {
  assert.equal(columns.length, 5);
  assert.equal(new Set(allCases.map(([text]) => text)).size, allCases.length, "a text stands twice");
  for (const row of allCases) {
    const [text, reading, hazard, byGrammar, reason] = row;
    assert.ok(row.every((cell) => typeof cell === "string" && cell !== ""), text);
    assert.ok([3, 5].includes(row.length), text);
    assert.ok(["module", "none"].includes(reading), text);
    if (row.length === 5) assert.ok(["module", "none"].includes(byGrammar) && byGrammar !== reading && reason !== hazard, text);
  }
});

test("each sample is found", () => {
  const counts = Object.entries(samplesByFile).map(([name, found]) => [name, found.length]);
  assert.deepEqual(Object.fromEntries(counts), {
    ReadPatterns: 32, TargetPatterns: 24, HeadPatterns: 12, ReadFunctions: 7, RefusedPatterns: 50, RefusedFunctions: 5, RefusedTexts: 13,
  });
});

test("acorn reads what the data says", { skip: packageOrNull("acorn") === null && "acorn is not installed" }, (t) => {
  const isOlder = messageOfAcorn(WITH_ATTRIBUTES[0]) !== "";
  if (isOlder) t.diagnostic(`acorn ${parserVersion()} reads no attributes of imports`);
  const told = [...allCases, ...samples].filter(([text]) => !(isOlder && WITH_ATTRIBUTES.includes(text)));
  assert.deepEqual(textsOf(differences(told, messagesOfAcorn)), [...MISTAKES_OF_ACORN, ...MISTAKES_OF_BOTH]);
});

test("V8 reads what the data says", () => {
  assert.deepEqual(textsOf(differences([...allCases, ...samples], messagesOfV8)), [...MISTAKES_OF_V8, ...MISTAKES_OF_BOTH]);
});
