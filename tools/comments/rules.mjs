// What is wrong with the comments of a printed text, by the rules of README.md.
import { commentsOf } from "../../bindings/node/lib/comments.mjs";
import { jobOf } from "../../bindings/node/lib/convert.mjs";
import { difference, normal } from "../estree/normal.mjs";
import { parsed } from "../estree/parser.mjs";
import { commentsKept, isAnnotation, plain } from "./kept.mjs";

/**
 * The faults of a text that is printed for a source under these options: texts that begin with the rule that is broken. With how many
 * comments are kept, and how many of them aren't printed. Throws a SyntaxError where the printed text doesn't parse.
 */
export function judged(source, printed, options = {}) {
  const tree = parsed(source, { comments: true });
  const other = parsed(printed, { comments: true });
  const { kept, licences } = commentsKept(source, tree, options);
  const rows = commentsOf(printed, other.comments, { keepSourceMappingUrl: true });
  const texts = rows.filter(({ content }) => !isAnnotation(content)).map(({ start, end }) => plain(printed.slice(start, end)));
  const count = Math.max(0, texts.length - licences.length);
  const [inside, ending] = [texts.slice(0, count), texts.slice(count)];
  const found = difference(normal(tree), normal(other));
  const faults = found
    ? [`program: ${found}`]
    : [...faultsOfEnd(licences, ending), ...faultsOfTexts(source, kept, inside), ...faultsOfPure(source, tree, printed, other, options)];
  return { faults, kept: kept.length, unprinted: Math.max(0, kept.length - inside.length) };
}

// As many calls are pure in the text as in the source, and no more functions; none where annotations aren't printed.
function faultsOfPure(source, tree, printed, other, { annotation = true }) {
  const had = pureIn(source, tree);
  const has = pureIn(printed, other);
  const wanted = annotation ? had.calls : 0;
  const faults = has.calls === wanted ? [] : [`pure: ${has.calls} calls are pure in the text, and ${wanted} are to be`];
  if (has.functions > (annotation ? had.functions : 0)) faults.push(`pure: ${has.functions} functions have no side effects in the text, and ${had.functions} in the source`);
  return faults;
}

function pureIn(source, tree) {
  const pure = jobOf(tree, { source, comments: tree.comments }).rows.filter((row) => row.pure);
  const functions = pure.filter(({ type }) => /Function/.test(type)).length;
  return { functions, calls: pure.length - functions };
}

// At the end stand the licences, each once.
function faultsOfEnd(licences, ending) {
  const at = licences.findIndex((licence, number) => ending[number] !== licence);
  return at < 0 ? [] : [`end: ${shown(licences[at])} is to stand at the end, where ${shown(ending[at])} does`];
}

// Each comment is one that is kept, at most once, in order; and those that have to be are there. A rule is looked at where those before
// it hold. What goes on may stand behind its turn, not before it.
function faultsOfTexts(source, kept, texts) {
  const strange = strangeOf(kept, texts);
  if (strange.length > 0) return strange;
  const going = new Set(kept.filter(({ goesOn }) => goesOn).map(({ text }) => text));
  const staying = [kept.filter(({ goesOn }) => !goesOn), texts.filter((text) => !going.has(text))];
  const moved = firstMoved(...staying) ?? firstEarly(kept, texts, going);
  if (moved !== undefined) return [`order: ${shown(moved)} is printed out of its turn`];
  const missing = firstMissing(...staying) ?? firstGone(kept, texts);
  return missing ? [`there: ${shown(missing.text)} of line ${lineOf(source, missing.start)} isn't printed in its turn`] : [];
}

function strangeOf(kept, texts) {
  const left = new Map();
  for (const { text } of kept) left.set(text, (left.get(text) ?? 0) + 1);
  const faults = [];
  for (const text of texts) {
    if (!left.has(text)) faults.push(`kept: ${shown(text)} is printed, and isn't kept`);
    else if (left.get(text) === 0) faults.push(`once: ${shown(text)} is printed once more`);
    else left.set(text, left.get(text) - 1);
  }
  return faults;
}

// The first text that stands behind none of those that are kept in which the ones before it were found.
function firstMoved(kept, texts) {
  let count = 0;
  for (const { text } of kept) if (text === texts[count]) count++;
  return texts[count];
}

// The first text that goes on and stands before one that doesn't, behind which it stands in the source; of texts that are there once.
function firstEarly(kept, texts, going) {
  const places = new Map();
  for (const [at, { text }] of kept.entries()) places.set(text, places.has(text) ? null : at);
  let least = Infinity;
  return texts.findLast((text) => {
    const at = places.get(text);
    if (at === null) return false;
    if (going.has(text)) return at > least;
    least = Math.min(least, at);
    return false;
  });
}

// The first that has to be there, of which there are too few.
function firstGone(kept, texts) {
  const count = new Map();
  for (const text of texts) count.set(text, (count.get(text) ?? 0) + 1);
  return kept.find(({ text, isNeeded, goesOn }) => {
    if (!isNeeded || !goesOn) return false;
    count.set(text, (count.get(text) ?? 0) - 1);
    return count.get(text) < 0;
  });
}

// Of two comments with one text either may be the one that is printed: the numbers of texts that may stand behind the comments so far.
function firstMissing(kept, texts) {
  let passed = new Set([0]);
  for (const one of kept) {
    const next = new Set();
    for (const count of passed) {
      if (texts[count] === one.text) next.add(count + 1);
      if (!one.isNeeded) next.add(count);
    }
    if (next.size === 0) return one;
    passed = next;
  }
  return passed.has(texts.length) ? undefined : kept.findLast(({ isNeeded }) => isNeeded);
}

function lineOf(text, offset) {
  return text.slice(0, offset).split(/\r\n|[\n\r\u2028\u2029]/).length;
}

function shown(text) {
  const told = JSON.stringify(text) ?? "nothing";
  return told.length > 120 ? `${told.slice(0, 120)}..` : told;
}
