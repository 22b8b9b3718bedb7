// The files of crates/jsgen_reading_vectors, and those of crates/jsgen_reading_samples about texts that aren't read.
import { existsSync, mkdirSync, readFileSync, readdirSync, rmSync, writeFileSync } from "node:fs";
import { dirname } from "node:path";
import { fileURLToPath } from "node:url";
import { tokenListsOf } from "../readings/lexer.mjs";
import { derivationsOf } from "../readings/parsing.mjs";
import { isBigInteger, isNumber, isString, isTemplate, specialOf } from "../readings/tokens.mjs";
import { termOf } from "./derivation.mjs";
import { OF_READING, importsOfProofs, importsOfSpecs } from "./imports.mjs";
import { LEVELS, levelLemmas } from "./levels.mjs";
import { nameLemmas, namesOfLemmas } from "./names.mjs";
import { filesOfRefused } from "./refused.mjs";
import { Source, codes } from "./source.mjs";
import { plain, shortened, termOfTree } from "./trees.mjs";

const TOP = fileURLToPath(new URL("../../", import.meta.url));
const CRATE = "crates/jsgen_reading_vectors";
const OWN = "Rattle.jsgen_reading_vectors";

/** The texts that are proved, by the families that their files are named after: each [name, text, what is said of it]. */
export const CHOSEN = JSON.parse(readFileSync(new URL("chosen.json", import.meta.url), "utf8"));

const READINGS = JSON.parse(readFileSync(new URL("../../tests/readings.json", import.meta.url), "utf8"));

// The texts that it says are read, or aren't, by the standard and by the grammar.
const textsRead = (wanted) => {
  const rows = [...READINGS.cases, ...Object.values(READINGS.families).flat()];
  return new Set(rows.filter(([, reading, , byGrammar]) => reading === wanted && (byGrammar ?? reading) === wanted).map(([text]) => text));
};

const read = textsRead("module");

const markOf = (name) => `Generated from tools/vectors/${name}; edit that and run tools/vectors/generate.`;
const MARK = markOf("chosen.json");

const moduleOf = (family) => `Vectors${family[0].toUpperCase()}${family.slice(1)}`;
const functionOf = (family) => `${family}_vectors`;

/** A text with its tree and what proves that it is read so. */
class Vector {
  constructor([name, text, said]) {
    if (!read.has(text)) throw new Error(`tests/readings.json doesn't say that ${JSON.stringify(text)} is read`);
    const found = tokenListsOf(text).flatMap((tokens) => derivationsOf("Module", tokens).map((derivation) => ({ tokens, derivation })));
    if (found.length !== 1) throw new Error(`the table reads ${JSON.stringify(text)} as ${found.length} trees`);
    const [{ tokens, derivation }] = found;
    this.name = name;
    this.text = text;
    this.said = said;
    this.source = new Source(text, tokens);
    this.derivation = derivation;
    this.tree = plain(this.derivation.tree);
  }

  get type() {
    return `IsRead (${codes(this.text)}) (${termOfTree(shortened(this.tree))})`;
  }

  get specLines() {
    return `  -- ${this.said}\n  pub ${this.name} : ${this.type}\n`;
  }

  get #unfolded() {
    const { tokens } = this.source;
    const ofNames = /grammar\.an_exported_name/.test(this.reading) ? ["is_reserved", "is_strict_reserved", "encode"] : [];
    const ofStrings = tokens.some(hasValue) ? ["string_value"] : [];
    const ofNumbers = tokens.some((token) => isNumber(token) || isBigInteger(token)) ? ["longer_number_stands", "spells_number"] : [];
    return ["unicode_ident", "longer_stands", "word_value", ...ofNames, ...ofStrings, ...ofNumbers].join(" ");
  }

  get proofLines() {
    this.reading = termOf(this.source, this.derivation);
    const terms = [this.source.term(0, this.source.tokens.length), this.source.proof(), this.reading];
    return `pub ${this.name} : ${this.type}\nunfolding ${this.#unfolded}\n${this.name} = (\n${terms.map((term) => `  ${term},\n`).join("")})\n`;
  }
}

// Whether it is asked what a token stands for, as a string or as a piece of a template.
const hasValue = (token) => isString(token) || isTemplate(token) || !["Private", "Pattern", undefined].includes(specialOf(token)?.name);

const withImports = (head, imports, body) => `-- ${MARK}\n-- ${head}\n${imports}\n\n${body}`;

function* filesOf(family, chosen) {
  const vectors = chosen.map((entry) => new Vector(entry));
  const [module, name] = [moduleOf(family), functionOf(family)];
  const record = `pub record ${module} : Type 0 where\n${vectors.map((vector) => vector.specLines).join("")}`;
  yield [`${CRATE}/specs/${module}.antt`, withImports(`What texts are read as by ECMA-262: ${family}.`, importsOfSpecs(record), record)];
  const proofs = vectors.map((vector) => vector.proofLines).join("\n");
  const own = [
    OF_READING,
    [`${OWN}.proofs.Written`, ["word", "sign"]],
    [`${OWN}.proofs.Levels`, Object.keys(LEVELS)],
    [`${OWN}.proofs.Names`, namesOfLemmas()],
  ];
  yield [`${CRATE}/proofs/${module}.antt`, withImports(`That they are read so: ${family}.`, importsOfProofs(proofs, own), proofs)];
  const names = vectors.map((vector) => vector.name);
  const answer = `pub returns : goal.returns\nreturns c = record { ${names.map((each) => `${each} = ${each}`).join("; ")} }\n`;
  const uses = `use ${OWN}.proofs.${module}.{${names.join(", ")}}\nuse ${OWN}.proofs.${name}.Goals as goal`;
  yield [`${CRATE}/proofs/${name}/Answers.antt`, `-- ${MARK}\n${uses}\n\n${answer}`];
}

function libraryOf(families) {
  const uses = families.map((family) => `ghost use ${OWN}.specs.${moduleOf(family)}.{${moduleOf(family)}};\n`);
  const functions = families.map((family) => {
    const said = `/// The grammar reads the texts of ${family} as ECMA-262 does.\n`;
    return `${said}pub fn ${functionOf(family)}()\n    ensures { ${moduleOf(family)} }\n{}\n`;
  });
  const head = `// ${MARK}\n//! What the grammar reads texts as that hang on one of its rules. Nothing here runs.\n#![tactic(auto)]\n`;
  return `${head}\n${uses.join("")}\n${functions.join("\n")}`;
}

const modulesOf = (...names) => `-- ${MARK}\n${names.map((name) => `pub mod ${name}\n`).join("")}`;

/** The files by their paths. */
export function files() {
  const families = Object.keys(CHOSEN);
  const found = new Map(families.flatMap((family) => [...filesOf(family, CHOSEN[family])]));
  found.set(`${CRATE}/src/lib.rt`, libraryOf(families));
  found.set(`${CRATE}/specs/Lib.antt`, modulesOf("Reading", ...families.map(moduleOf)));
  found.set(`${CRATE}/proofs/Lib.antt`, modulesOf("Written", "Levels", "Names", ...families.map(moduleOf)));
  const levels = levelLemmas().join("\n");
  found.set(`${CRATE}/proofs/Levels.antt`, withImports("Expressions on several levels.", importsOfProofs(levels), levels));
  const names = nameLemmas().join("\n");
  found.set(`${CRATE}/proofs/Names.antt`, withImports("Words and names.", importsOfProofs(names), names));
  for (const [path, text] of filesOfRefused(markOf("refused.json"), textsRead("none"))) found.set(path, text);
  return found;
}

// The files of the crate that are there and have the mark, but aren't among these.
function leftOver(found) {
  return ["src", "specs", "proofs"]
    .flatMap((folder) => readdirSync(`${TOP}${CRATE}/${folder}`, { recursive: true }).map((path) => `${CRATE}/${folder}/${path}`))
    .filter((path) => /\.(antt|rt)$/.test(path) && !found.has(path) && readFileSync(TOP + path, "utf8").includes(MARK));
}

const isAsWritten = (path, text) => existsSync(TOP + path) && readFileSync(TOP + path, "utf8") === text;

export function main(flags) {
  const found = files();
  const wrong = [...found].filter(([path, text]) => !isAsWritten(path, text)).map(([path]) => path);
  if (flags.includes("--check")) {
    for (const path of [...wrong, ...leftOver(found)]) console.error(`${path} is not what tools/vectors/generate writes`);
    process.exitCode = wrong.length + leftOver(found).length > 0 ? 1 : 0;
    return;
  }
  for (const path of wrong) {
    mkdirSync(dirname(TOP + path), { recursive: true });
    writeFileSync(TOP + path, found.get(path));
  }
  for (const path of leftOver(found)) rmSync(TOP + path);
}
