// Texts of literals, and offsets in bytes.

const GREATEST_WHOLE = 2n ** 128n - 1n;
const NOT_ASCII = /[^\x00-\x7f]/g;
// From how few units on for each part that is counted in bytes by itself a text has a table of all its offsets.
const UNITS_A_PART = 32;
const GREATEST_LENGTH = String(GREATEST_WHOLE).length;

/** A number's text as a job has it: it begins with a digit and doesn't end in a dot. */
export function numberText(raw) {
  const text = raw.startsWith(".") ? `0${raw}` : raw;
  return text.endsWith(".") ? text.slice(0, -1) : text;
}

/** Whether the text is a whole number by its digits, of 128 bits at most. */
export function isWholeNumber(text) {
  return /^(0|[1-9][0-9]{0,38})$/.test(text) && (text.length < GREATEST_LENGTH || BigInt(text) <= GREATEST_WHOLE);
}

/** A string as a job has it: the text, or its units of UTF-16 where a surrogate has no partner. */
export function unitsOf(text) {
  return /\p{Surrogate}/u.test(text) ? Array.from({ length: text.length }, (_, at) => text.charCodeAt(at)) : text;
}

/** A function from an offset in UTF-16 units of the text to one in bytes of UTF-8; undefined where the text has no such offset, if it isn't ASCII. */
export function bytesAt(text) {
  const parts = partsOf(text);
  if (parts === null) return bytesByTable(text);
  const { places, leads } = parts;
  if (leads.length === 1) return (offset) => offset;
  // the part in which the last offset was: the next one is mostly in the same
  let from = 0;
  let to = 0;
  let lead = 0;
  return (offset) => {
    if (offset >= from && offset < to) return offset + lead;
    if (!(offset >= 0 && offset <= text.length)) return undefined;
    const part = partOf(places, offset);
    from = places[part];
    to = places[part + 1];
    lead = leads[part];
    return offset + lead;
  };
}

// The parts of a text in which offsets in bytes are greater than those in units by the same lead: part i begins at places[i], and has leads[i].
// Null where there are so many that a table of all offsets is better.
function partsOf(text) {
  const most = text.length / UNITS_A_PART;
  const places = [0];
  const leads = [0];
  let lead = 0;
  for (let at = notAsciiFrom(text, 0); at >= 0; at = notAsciiFrom(text, at + 1)) {
    if (leads.length > most) return null;
    lead += text.charCodeAt(at) < 0x800 ? 1 : 2;
    if (isPairAt(text, at)) {
      // The second unit of a pair has the offset of the first, and both of them have four bytes.
      at += 1;
      places.push(at);
      leads.push(lead - 3);
    }
    places.push(at + 1);
    leads.push(lead);
  }
  places.push(text.length + 1);
  return { places, leads };
}

// Where the first unit from there on stands that isn't ASCII, or -1.
function notAsciiFrom(text, from) {
  if (text.charCodeAt(from) > 0x7f) return from;
  NOT_ASCII.lastIndex = from;
  return NOT_ASCII.test(text) ? NOT_ASCII.lastIndex - 1 : -1;
}

// The number of the last of the places that isn't behind the offset.
function partOf(places, offset) {
  let [part, behind] = [0, places.length - 1];
  while (behind - part > 1) {
    const middle = (part + behind) >>> 1;
    if (places[middle] <= offset) part = middle;
    else behind = middle;
  }
  return part;
}

function bytesByTable(text) {
  const bytes = new Uint32Array(text.length + 1);
  let length = 0;
  for (let at = 0; at < text.length; at += 1) {
    bytes[at] = length;
    const unit = text.charCodeAt(at);
    if (unit < 0x80) length += 1;
    else if (unit < 0x800) length += 2;
    else if (isPairAt(text, at)) {
      at += 1;
      bytes[at] = length;
      length += 4;
    } else length += 3;
  }
  bytes[text.length] = length;
  return (offset) => bytes[offset];
}

function isPairAt(text, at) {
  return text.codePointAt(at) > 0xffff;
}

/** What stands within parentheses. */
export function withoutParentheses(node) {
  return node.type === "ParenthesizedExpression" ? withoutParentheses(node.expression) : node;
}
