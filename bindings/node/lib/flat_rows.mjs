// The rows of a flat job (docs/FORMAT.md, "Flat jobs"), of what a walk through a tree finds (walk.mjs): numbers go into words of 32 bits and
// texts into one heap, as they come.
import { TABLE_NUMBER } from "./table.mjs";
import { unitsOf } from "./texts.mjs";
import { Rows, Words } from "./words.mjs";

const MAGIC = 0x4647534a;
const HEAD_WORDS = 8;
// The last word, of which no number is told.
const MOST_WORD = 2 ** 32 - 1;
// Below it digits are a number, and from it on a text.
const DIGITS_LIMIT = 2 ** 31;
// How much room there is at first: words of rows by the length of the source, if that is known, and of the rest a part of these.
const LEAST_ROOM = 2 ** 9;
const MOST_ROOM = 2 ** 22;
// Texts are encoded together, as soon as they have so many units.
const PIECE = 2 ** 14;
// The most bytes that a unit of UTF-16 takes in UTF-8.
const BYTES_A_UNIT = 3;
const IS_SWAPPED = new Uint8Array(Uint32Array.of(1).buffer)[0] === 0;

function roomFor(length) {
  let room = LEAST_ROOM;
  if (typeof length !== "number") return room;
  while (room < length && room < MOST_ROOM) room *= 2;
  return room;
}

/**
 * The texts: each with its place in the heap and its length, and the heap. What was added last stands in `piece`, of which the places are
 * counted as if it were ASCII until it is encoded.
 */
class Texts {
  constructor(room) {
    this.places = new Words(room / 4);
    this.heap = Buffer.allocUnsafe(room);
    this.end = 0;
    this.piece = "";
    // the first text of the piece
    this.first = 0;
  }

  /** Adds a text, and gives its number. */
  add(text) {
    const at = this.places.take(2);
    const { words } = this.places;
    words[at] = this.end + this.piece.length;
    words[at + 1] = text.length;
    this.piece += text;
    if (this.piece.length > PIECE) this.encode();
    return at / 2;
  }

  encode() {
    const most = BYTES_A_UNIT * this.piece.length;
    if (this.end + most > this.heap.length) this.grow(most);
    const written = this.heap.write(this.piece, this.end);
    if (written !== this.piece.length) this.correct();
    this.end += written;
    this.piece = "";
    this.first = this.places.length / 2;
  }

  grow(most) {
    const heap = Buffer.allocUnsafe(Math.max(2 * this.heap.length, this.end + most));
    this.heap.copy(heap, 0, 0, this.end);
    this.heap = heap;
  }

  // The places of texts in a piece that isn't ASCII.
  correct() {
    const { words, length } = this.places;
    let units = 0;
    let place = this.end;
    for (let at = 2 * this.first; at < length; at += 2) {
      const text = this.piece.slice(units, units + words[at + 1]);
      units += text.length;
      words[at] = place;
      words[at + 1] = Buffer.byteLength(text);
      place += words[at + 1];
    }
  }
}

/** A number that no word of a flat job can say: only tables of names that `renaming` didn't make have one. In JSON it is a fault of the job. */
export class NoWord extends TypeError {}

/** The sections of a flat job, of which it is the rows itself. `length` is about that of the source, or anything where it isn't known. */
export class FlatRows extends Rows {
  constructor(length) {
    const room = roomFor(length);
    super(room);
    this.lists = new Words(room / 8);
    this.texts = new Texts(room);
  }

  text(text) {
    return this.texts.add(text) + 1;
  }

  string(text) {
    return text.isWellFormed() ? 2 * (this.texts.add(text) + 1) : 2 * this.unitsList(unitsOf(text)) + 1;
  }

  // The place of a list of units.
  unitsList(units) {
    const place = this.lists.take(1 + units.length);
    this.lists.words[place] = units.length;
    this.lists.words.set(units, place + 1);
    return place;
  }

  digits(text) {
    const value = Number(text);
    return value < DIGITS_LIMIT ? 2 * value + 1 : 2 * (this.texts.add(text) + 1);
  }

  number(name, number) {
    if (number >>> 0 !== number || number === MOST_WORD) throw new NoWord(`the ${name} ${number} is no whole number below ${MOST_WORD}`);
    return number + 1;
  }

  list(stack, from, to) {
    const place = this.lists.take(1 + to - from);
    const { words } = this.lists;
    words[place] = to - from;
    for (let at = from; at < to; at += 1) words[place + 1 + at - from] = stack[at];
    return place + 1;
  }

  /** The bytes of the job that has these rows and the other members of its head. */
  job(head) {
    this.texts.encode();
    const { lists, texts } = this;
    const json = Buffer.from(JSON.stringify(head));
    const numbers = [MAGIC, TABLE_NUMBER, this.count, this.length, lists.length, texts.places.length / 2, texts.end, json.length];
    const words = HEAD_WORDS + this.length + lists.length + texts.places.length;
    const bytes = Buffer.allocUnsafeSlow(4 * words + texts.end + json.length);
    const written = new Uint32Array(bytes.buffer, bytes.byteOffset, words);
    let at = 0;
    for (const part of [numbers, ...[this, lists, texts.places].map((section) => section.words.subarray(0, section.length))]) {
      written.set(part, at);
      at += part.length;
    }
    if (IS_SWAPPED) bytes.subarray(0, 4 * words).swap32();
    texts.heap.copy(bytes, 4 * words, 0, texts.end);
    json.copy(bytes, 4 * words + texts.end);
    return bytes;
  }
}
