// The files of crates/jsgen_reading_samples about texts that aren't read: of the tokens of each the reader of jsgen_one_reading answers
// that they are no module.
import { readFileSync } from "node:fs";
import { tokensOfText } from "../readings/lexer.mjs";
import { isBigInteger, isNumber, isString } from "../readings/tokens.mjs";
import { importsOfProofs } from "./imports.mjs";
import { Source, codes } from "./source.mjs";

const CRATE = "crates/jsgen_reading_samples";
const OWN = "Rattle.jsgen_reading_samples";
const MODULE = "RefusedVectors";

// With these a private name begins, a regular expression, a comment or a template, and of a template what stands in it.
const BARRED = /[#/`$]/;

/** The texts: each [name, text, what is said of it]. */
export const REFUSED = JSON.parse(readFileSync(new URL("refused.json", import.meta.url), "utf8"));

function unfolded({ tokens }) {
  const ofStrings = tokens.some(isString) ? ["string_value"] : [];
  const ofNumbers = tokens.some((token) => isNumber(token) || isBigInteger(token)) ? ["longer_number_stands", "spells_number"] : [];
  return ["unicode_ident", "longer_stands", "word_value", "is_reserved", "is_strict_reserved", "encode", ...ofStrings, ...ofNumbers].join(" ");
}

function proofOf([name, text]) {
  const source = new Source(text, tokensOfText(text));
  const type = `IsNotRead (${codes(text)})`;
  const term = `refused (${codes(text)}) ${source.argument(0, source.tokens.length)} ${source.proof()} refl refl`;
  return `pub ${name} : ${type}\nunfolding ${unfolded(source)}\n${name} = ${term}\n`;
}

/** The files by their paths. `notRead` are the texts that tests/readings.json says aren't read, neither by the standard nor by the grammar. */
export function* filesOfRefused(mark, notRead) {
  for (const [, text] of REFUSED) {
    if (!notRead.has(text)) throw new Error(`tests/readings.json doesn't say that ${JSON.stringify(text)} isn't read`);
    if (BARRED.test(text)) throw new Error(`${JSON.stringify(text)} has a character with which a token of another kind begins`);
  }
  const fields = REFUSED.map(([name, text, said]) => `  -- ${said}\n  pub ${name} : IsNotRead (${codes(text)})\n`);
  const uses = `use Rattle.std.specs.Prelude.{codes}\nuse ${OWN}.specs.RefusedPatterns.{IsNotRead}`;
  const head = "Texts with async functions, generators, classes, imports and exports that ECMA-262 doesn't read as a module.";
  yield [`${CRATE}/specs/${MODULE}.antt`, `-- ${mark}\n-- ${head}\n${uses}\n\npub record ${MODULE} : Type 0 where\n${fields.join("")}`];
  const proofs = REFUSED.map(proofOf).join("\n");
  const imports = importsOfProofs(proofs, [
    [`${OWN}.specs.RefusedPatterns`, ["IsNotRead"]],
    [`${OWN}.proofs.Written`, ["word", "sign"]],
    [`${OWN}.proofs.Refused`, ["refused"]],
  ]);
  const why = "That they aren't: of their tokens the reader answers that they are no module.";
  yield [`${CRATE}/proofs/${MODULE}.antt`, `-- ${mark}\n-- ${why}\n${imports}\n\n${proofs}`];
  const names = REFUSED.map(([name]) => name);
  const answer = `pub returns : goal.returns\nreturns c = record { ${names.map((each) => `${each} = ${each}`).join("; ")} }\n`;
  const goals = `use ${OWN}.proofs.${MODULE}.{${names.join(", ")}}\nuse ${OWN}.proofs.refused_vectors.Goals as goal`;
  yield [`${CRATE}/proofs/refused_vectors/Answers.antt`, `-- ${mark}\n${goals}\n\n${answer}`];
}
