// Levels of expressions that an expression is on one after another, each by itself: one lemma for some of them.
import { atomsOf, constructorOf } from "./grammar.mjs";

const TO_UNARY = [
  "a_conditional", "a_short_circuit", "a_logical_or", "a_logical_and", "a_bit_or", "a_bit_xor", "a_bit_and", "an_equality", "a_relation", "a_shift",
  "an_additive", "a_multiplicative", "an_exponent", "a_unary",
];
const TO_LEFT = [...TO_UNARY, "an_update", "a_left_hand_side"];
const TO_MEMBER = ["a_new", "a_member"];

/** The constructors that each lemma stands for, the outermost first; a longer one before one that it begins with. */
export const LEVELS = {
  primary_value: [...TO_LEFT, ...TO_MEMBER, "a_primary"],
  member_value: [...TO_LEFT, ...TO_MEMBER],
  call_value: [...TO_LEFT, "a_call"],
  left_value: TO_LEFT,
  unary_value: TO_UNARY,
  primary_left: [...TO_MEMBER, "a_primary"],
  member_left: TO_MEMBER,
  left_unary: ["an_update", "a_left_hand_side"],
};

/** The lemma that a derivation begins with, and the derivation that is given to it; else nothing. */
export function lemmaAlong(derivation) {
  for (const [lemma, constructors] of Object.entries(LEVELS)) {
    const inside = insideOf(derivation, constructors);
    if (inside) return { lemma, inside };
  }
  return {};
}

function insideOf(derivation, constructors) {
  let at = derivation;
  for (const name of constructors) {
    if (at.production !== name) return undefined;
    at = at.items[0].part;
  }
  return at;
}

const levelIn = (text) => atomsOf(text)[2];

/** The lemmas. */
export function levelLemmas() {
  return Object.entries(LEVELS).map(([lemma, constructors]) => {
    const outer = levelIn(constructorOf(constructors[0]).conclusion);
    const inner = levelIn(constructorOf(constructors.at(-1)).premises[0]);
    const type = `{c : Allowed} {ts : Tokens} {t : Tree} → ReadsExpression c ${inner} ts t → ReadsExpression c ${outer} ts t`;
    const body = constructors.reduceRight((term, name, at) => `grammar.${name} ${at === constructors.length - 1 ? term : `(${term})`}`, "r");
    return `pub ${lemma} : ${type}\n${lemma} r = ${body}\n`;
  });
}
