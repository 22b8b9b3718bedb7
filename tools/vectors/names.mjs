// The lemmas about names: what a word's value is, and that a name is free.
import { nameOf } from "../readings/tokens.mjs";
import { asArgument } from "./source.mjs";

const asName = (word) => word.replaceAll("\\", "_").replace(/[^\w]/g, (sign) => `_${sign.codePointAt(0).toString(16)}_`);

const values = new Map();
const frees = new Map();

/** The name of the lemma about the value of a word. */
export function valueLemma(word) {
  const name = `value_${asName(word)}`;
  values.set(name, word);
  return name;
}

/** The name of the lemma that a name is free. */
export function freeLemma(free) {
  const name = `free_${asName(free)}`;
  frees.set(name, free);
  return name;
}

const sorted = (map) => [...map].sort(([one], [other]) => (one < other ? -1 : 1));

/** The lemmas that were named. */
export function nameLemmas() {
  const ofValues = sorted(values).map(([lemma, word]) => {
    const type = `word_value ${asArgument(word)} ≡ Some ${asArgument(nameOf(word))}`;
    return `pub ${lemma} : ${type}\nunfolding word_value\n${lemma} = refl\n`;
  });
  const ofFree = sorted(frees).map(([lemma, name]) => {
    const type = `is_free_name ${asArgument(name)} ≡ true`;
    return `pub ${lemma} : ${type}\nunfolding unicode_ident is_reserved is_strict_reserved encode\n${lemma} = refl\n`;
  });
  return [...ofValues, ...ofFree];
}

/** The names of these lemmas. */
export const namesOfLemmas = () => [...values.keys(), ...frees.keys()].sort();
