// All productions of Grammar.antt, family by family.
import { EXPRESSIONS } from "./expressions.mjs";
import { MODULES } from "./modules.mjs";
import { PATTERNS } from "./patterns.mjs";
import { STATEMENTS } from "./statements.mjs";

export const PRODUCTIONS = { ...EXPRESSIONS, ...PATTERNS, ...STATEMENTS, ...MODULES };

/** The table with the rows of one production made anew, by a function that gives one row or several for each. */
export const altered = (family, name, alter, table = PRODUCTIONS) => ({
  ...table,
  [family]: { ...table[family], [name]: [table[family][name]].flat().flatMap(alter) },
});

/** The table without the premises of a guard, in one production. */
export const withoutGuard = (family, name, guard, table = PRODUCTIONS) =>
  altered(family, name, (row) => ({ ...row, premises: row.premises.filter((premise) => premise.guard !== guard) }), table);
