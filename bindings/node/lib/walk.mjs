// What the parts of the converter have in common: how a row is written, and how a tree is refused.
import { callIn, functionIn, isFunction } from "./annotations.mjs";
import { MalformedTree, NotRead, endOf, placeOf, startOf, wayTo } from "./refusals.mjs";
import { bytesAt, withoutParentheses } from "./texts.mjs";

/**
 * Goes through a tree, and writes what it finds into a sink, which is the Rows of a job (JsonRows, FlatRows), row by row. Each part of the
 * converter gives the word by which the row that it wrote is named where its parent has it. What a field holds that is no flag, no row and no
 * word of its own is put into the sink by a function that has the name of the field's sort in docs/FORMAT.md and gives the field's word: `text`,
 * `string`, `digits`, `number` and `list`, which takes the part of a stack where the words of its rows stand, and 0 for a hole.
 */
export class Walk {
  constructor(sink, root, { source, spans, negative, names }) {
    this.sink = sink;
    this.root = root;
    this.source = source;
    this.negative = negative;
    this.names = names;
    this.byteAt = spans && source !== undefined ? bytesAt(source) : null;
    // the rows of lists that aren't at their ends yet
    this.stack = [];
    this.top = 0;
    // annotations that are still to be met, by the offsets of what they stand before, and the nodes that they speak of
    this.annotations = new Map();
    this.pure = new Set();
  }

  // ---- what is refused

  refuse(what, node, hint) {
    throw new NotRead(what, node, placeOf(node, this.source, this.root), hint);
  }

  // For a node that may not stand where it does.
  fail(node, what) {
    throw new MalformedTree(`${wayTo(this.root, node)} ${what}`);
  }

  misplaced(node, what) {
    this.fail(node, `is of type ${node.type}, which is no ${what}`);
  }

  // ---- rows

  /**
   * Adds a row with the words of its form's fields (forms.mjs), 0 for what is absent, and gives the word that names it. These are parameters,
   * and no list, since this is called for each row of a large tree.
   */
  add(form, node, word1, word2, word3, word4, word5, word6, word7) {
    return this.fill(form, this.open(form, node), word1, word2, word3, word4, word5, word6, word7);
  }

  // The fields of the row that begins there.
  fill(form, at, word1, word2, word3, word4, word5, word6, word7) {
    const { words } = this.sink;
    switch (form.count) {
      case 7:
        words[at + form.place7] = word7;
      // falls through: the fields before it
      case 6:
        words[at + form.place6] = word6;
      // falls through
      case 5:
        words[at + form.place5] = word5;
      // falls through
      case 4:
        words[at + form.place4] = word4;
      // falls through
      case 3:
        words[at + form.place3] = word3;
      // falls through
      case 2:
        words[at + form.place2] = word2;
      // falls through
      case 1:
        words[at + form.place1] = word1;
      // falls through
      default:
        return this.sink.count;
    }
  }

  // Begins the row of a node, and gives its place.
  open(form, node) {
    if (this.byteAt === null) return this.sink.open(form, node, 0, 0);
    const start = startOf(node);
    const end = endOf(node);
    return start >= 0 && end > start ? this.openAt(form, node, this.byteAt(start), this.byteAt(end)) : this.sink.open(form, node, 0, 0);
  }

  // The same by offsets in bytes.
  openAt(form, node, start, end) {
    if (start >>> 0 !== start || end >>> 0 !== end) this.fail(node, "begins or ends at no place of the source");
    return this.sink.open(form, node, start, end);
  }

  // ---- what the fields of a row hold. What is wrong with the place of its node is told before what is wrong with them.

  // A text, which has no surrogate without its partner.
  text(form, node, name, text) {
    if (!text.isWellFormed()) this.refuseHalf(form, node, name);
    return this.sink.text(text);
  }

  refuseHalf(form, node, name) {
    this.open(form, node);
    this.refuse(`half a surrogate pair in the ${name} of ${form.type.name}`, node);
  }

  /** The word of a form's first field, which is one of those that the field may hold. */
  word(form, node, word) {
    return form.numbers.get(word) ?? this.refuseWord(form, node, word);
  }

  refuseWord(form, node, word) {
    this.open(form, node);
    if (!word.isWellFormed()) this.refuseHalf(form, node, form.first);
    this.refuse(`${form.first} ${word} of ${form.type.name}`, node);
  }

  // ---- lists, and what may be absent

  /** The list of what stands in a part of a list of nodes, each converted; absent where that is empty. */
  several(nodes, convert, from = 0, to = nodes.length) {
    if (from >= to) return 0;
    const bottom = this.top;
    for (let at = from; at < to; at += 1) this.push(nodes[at] === null ? 0 : convert.call(this, nodes[at]));
    return this.listFrom(bottom);
  }

  push(word) {
    this.stack[this.top] = word;
    this.top += 1;
  }

  // The list of the rows on the stack from there on, which are taken off.
  listFrom(bottom) {
    const list = this.sink.list(this.stack, bottom, this.top);
    this.top = bottom;
    return list;
  }

  maybe(node, convert) {
    return node ? convert.call(this, node) : 0;
  }

  // ---- names

  // A name that is printed as it is.
  ownName(form, node, name = node.name) {
    return this.add(form, node, this.text(form, node, "name", name));
  }

  // A name that is in the tables of new names, where there are any: in `table` by its number, which the field of that name holds.
  addName(form, node, table, name) {
    if (this.names === null) return this.add(form, node, this.text(form, node, "name", node.name), 0);
    const number = this.names[table].get(node);
    if (number === undefined) this.fail(node, "isn't in the tables of new names, which are of another tree, or of this one before it was changed");
    return this.add(form, node, this.text(form, node, "name", node.name), this.number(form, node, name, number));
  }

  number(form, node, name, number) {
    if (number === null || number === false) return 0;
    try {
      return this.sink.number(name, number);
    } catch (error) {
      this.open(form, node);
      throw error;
    }
  }

  // ---- annotations

  // What the annotation before a node says; it is met then, whatever it says of the node.
  meet(node) {
    const start = startOf(node);
    const content = this.annotations.get(start);
    this.annotations.delete(start);
    return content;
  }

  // Before an expression stands an annotation of the call that it is or begins with, or of the function that it is.
  annotateExpression(node) {
    const content = this.meet(node);
    if (content === undefined) return;
    const inside = withoutParentheses(node);
    const meant = content === "pure" ? callIn(node) : isFunction(inside) ? inside : null;
    if (meant) this.pure.add(meant);
  }

  // Before a statement one of the function that it declares, exports, or gives a constant.
  annotateStatement(node) {
    const declared = functionIn(node);
    if (declared && this.annotations.get(startOf(node)) === "nosideeffects") this.pure.add(declared);
  }
}
