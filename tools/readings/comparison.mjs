// What the reader accepts beside what the grammar reads.
import { Acceptance } from "./accept.mjs";
import { Readings } from "./readings.mjs";

/**
 * The lists of a size over an alphabet by which reader and grammar differ, for one start: { grammar, reader } how many lists they have,
 * { readerOnly, grammarOnly } lists that one of them has, and { otherTree } those with two trees.
 */
export class Comparison {
  #readings;
  #acceptance;

  constructor(reader, alphabet, table) {
    this.#readings = new Readings(alphabet, table);
    this.#acceptance = new Acceptance(reader, alphabet);
  }

  at(start, size) {
    const read = this.#readings.lists(start, size);
    const accepted = this.#acceptance.lists(start, size);
    return {
      grammar: read.size,
      reader: accepted.size,
      readerOnly: [...accepted.keys()].filter((tokens) => !read.has(tokens)),
      grammarOnly: [...read.keys()].filter((tokens) => !accepted.has(tokens)),
      otherTree: [...read].filter(([tokens, tree]) => accepted.has(tokens) && accepted.get(tokens) !== tree).map(([tokens]) => tokens),
    };
  }
}

/** Whether nothing differs. */
export const isSame = ({ readerOnly, grammarOnly, otherTree }) => readerOnly.length + grammarOnly.length + otherTree.length === 0;
