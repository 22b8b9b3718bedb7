// Words of 32 bits, of which the rows of a job are made whatever its form.

/** The word of a flag: 0 where it says nothing. */
export function flag(value) {
  return value ? 2 : 0;
}

/** Words in order, which grow by doubling; those behind the last are 0. */
export class Words {
  constructor(room) {
    this.words = new Uint32Array(room);
    this.length = 0;
  }

  // Makes room for so many more, and gives the place of the first of them.
  take(count) {
    const at = this.length;
    this.length += count;
    if (this.length > this.words.length) this.grow();
    return at;
  }

  grow() {
    const words = new Uint32Array(Math.max(2 * this.words.length, this.length));
    words.set(this.words);
    this.words = words;
  }
}

/** Rows as a flat job has them (docs/FORMAT.md, "A row"). */
export class Rows extends Words {
  constructor(room) {
    super(room);
    this.count = 0;
  }

  /** Begins a row, all of whose fields are absent, and gives the place of its first word. */
  open({ number, length }, node, start, end) {
    const at = this.take(length);
    const { words } = this;
    words[at] = number;
    words[at + 1] = start;
    words[at + 2] = end;
    this.count += 1;
    return at;
  }
}
