// Damages of a job's bytes, once they are written, each kind by its name.

const BYTES = [...'{}[],:"\\ 0-+.eEx/n\t\n\u0000\u001f\u007f'].map((sign) => sign.charCodeAt(0)).concat(0x80, 0xc0, 0xff);
const BETWEEN = [",", ":", "null", "/* */", "//x\n", "\u00a0", "\u000b", "\f", "\ufeff", "\u2028", "\u0000", " \t\r\n"];
const BEHIND = [" ", "\r\n\t", "1", "{}", ",", "]", "}", "\u0000", "\u00a0", "null", "\ufeff"];
const NO_UTF8 = [[0xc0, 0x80], [0xed, 0xa0, 0x80], [0xf4, 0x90, 0x80, 0x80], [0xe2, 0x28, 0xa1], [0x80], [0xff], [0xe2, 0x82]];
const UTF8 = [[0xef, 0xbf, 0xbf], [0xf4, 0x8f, 0xbf, 0xbf], [0xed, 0x9f, 0xbf], [0xee, 0x80, 0x80], [0xc2, 0x80], [0x7f]];
const CONTROLS = [[0x00], [0x09], [0x0a], [0x0d], [0x1f]];

export const SPOILINGS = {
  "cut short": (bytes, draw) => bytes.subarray(0, draw.below(bytes.length + 1)),
  "byte left out": (bytes, draw) => replaced(bytes, draw.below(bytes.length), 1, []),
  "byte changed": (bytes, draw) => replaced(bytes, draw.below(bytes.length), 1, [draw.of(BYTES)]),
  "byte added": (bytes, draw) => replaced(bytes, draw.below(bytes.length + 1), 0, [draw.of(BYTES)]),
  "piece left out": (bytes, draw) => replaced(bytes, draw.below(bytes.length), draw.below(24), []),
  "between values": (bytes, draw) => replaced(bytes, place(bytes, draw, "{}[]:,") + draw.below(2), 0, Buffer.from(draw.of(BETWEEN))),
  "before a bracket": (bytes, draw) => replaced(bytes, place(bytes, draw, "]}"), 0, Buffer.from(draw.of([",", ":", "[", "}"]))),
  "in a string": (bytes, draw) => replaced(bytes, place(bytes, draw, '"') + 1, 0, draw.of(draw.of([NO_UTF8, UTF8, CONTROLS]))),
  "mark of byte order": (bytes) => replaced(bytes, 0, 0, [0xef, 0xbb, 0xbf]),
  "something behind": (bytes, draw) => Buffer.concat([bytes, Buffer.from(draw.of(BEHIND))]),
  "no object": (bytes, draw) => Buffer.from(draw.of([`[${bytes}]`, `${bytes}${bytes}`, "", " ", "null", "7", "0.5", '"rows"', "[]"])),
};

function replaced(bytes, at, count, others) {
  return Buffer.concat([bytes.subarray(0, at), Buffer.from(others), bytes.subarray(at + count)]);
}

// Where one of the signs stands, or the front.
function place(bytes, draw, signs) {
  const found = [...bytes.keys()].filter((at) => signs.includes(String.fromCharCode(bytes[at])));
  return found.length > 0 ? draw.of(found) : 0;
}
