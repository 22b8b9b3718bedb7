// Damaged flat jobs, and what is to be said of them: what the second reader of tools/faults says of the JSON that they stand for.
import { firstFault } from "../faults/fault.mjs";
import { readFormat } from "../faults/format.mjs";
import { NotJson, parseJson } from "../faults/json.mjs";
import { NoFlatJob, decoded } from "./decode.mjs";

const FORMAT = readFormat();
const GREATEST = 2 ** 32 - 1;
const HEAD_BYTES = 32;

/** The bytes of the JSON that a flat job stands for, or null where it is none. */
export function jsonOf(flat) {
  try {
    const { rows } = decoded(flat, readHead);
    const head = flat.subarray(flat.length - flat.readUInt32LE(HEAD_BYTES - 4)).toString().trimEnd().slice(0, -1);
    const comma = /^\s*\{\s*$/.test(head) ? "" : ",";
    return Buffer.from(`${head}${comma}"rows":${JSON.stringify(rows)}}`);
  } catch (error) {
    if (error instanceof NoFlatJob) return null;
    throw error;
  }
}

/** The first fault of a flat job, as the program says it, or null where it is read. */
export function faultOf(json) {
  return json === null ? "Json" : firstFault(FORMAT, json);
}

// What serde_json takes, and node's own reader may not.
function readHead(text) {
  try {
    return text !== undefined && parseJson(Buffer.from(text)).is === "object" ? {} : undefined;
  } catch (error) {
    if (error instanceof NotJson) return undefined;
    throw error;
  }
}

/** The job with each of its words in turn 0, one more, and the greatest. */
export function* withOtherWords(flat) {
  const sections = [12, 16, 20].map((at) => flat.readUInt32LE(at));
  const words = HEAD_BYTES / 4 + sections[0] + sections[1] + 2 * sections[2];
  for (let at = 0; at < 4 * words; at += 4) {
    const word = flat.readUInt32LE(at);
    for (const other of [0, (word + 1) % 2 ** 32, GREATEST]) {
      if (other !== word) yield withWord(flat, at, other);
    }
  }
}

function withWord(flat, at, word) {
  const changed = Buffer.from(flat);
  changed.writeUInt32LE(word, at);
  return changed;
}

/** The job cut off at each byte. */
export function* cutOff(flat) {
  for (let length = 0; length < flat.length; length += 1) yield flat.subarray(0, length);
}

/** So many damages: some bytes are others, some words are others, or bytes are left out or come twice. `draw` is a Draw of tools/faults. */
export function* drawn(flat, draw, count) {
  for (let damage = 0; damage < count; damage += 1) yield draw.of([otherBytes, otherWords, otherLength])(Buffer.from(flat), draw);
}

function otherBytes(flat, draw) {
  for (let left = 1 + draw.below(3); left > 0; left -= 1) flat[draw.below(flat.length)] = draw.below(256);
  return flat;
}

function otherWords(flat, draw) {
  for (let left = 1 + draw.below(3); left > 0; left -= 1) {
    const at = HEAD_BYTES + 4 * draw.below((flat.length - HEAD_BYTES) >> 2);
    flat.writeUInt32LE(draw.once(3) ? draw.below(2 ** 32) : draw.below(40), at);
  }
  return flat;
}

function otherLength(flat, draw) {
  const [from, to] = [draw.below(flat.length), draw.below(flat.length)];
  return Buffer.concat([flat.subarray(0, from), flat.subarray(to)]);
}
