// From a tree of ESTree (acorn, espree, meriyah) or of Babel's own kind to a job of jsgen (docs/FORMAT.md).
import { Trees } from "./babel.mjs";
import { nodeOf } from "./babel_views.mjs";
import { commentsOf } from "./comments.mjs";
import { FlatRows } from "./flat_rows.mjs";
import { JsonRows } from "./json_rows.mjs";
import { isOption } from "./reads.mjs";
import { MalformedTree, NotRead, causeOf, endOf, rootOf, startOf } from "./refusals.mjs";

export { MalformedTree, NotRead };

/**
 * The job that prints a program. `program` is the node `Program` of a module, or Babel's `File` of one. Of the members of the second
 * argument, all of which may be left out, `source` is the text that the program was parsed from, by which spans are counted in bytes;
 * `options` are the options of the job; `spans: false` leaves spans out; `negative: true` takes `-1` for a negative
 * number in place of an operation on 1; `comments` are the comments of the source in order, as acorn's `onComment` lists them,
 * and are left out where they aren't given; `keepSourceMappingUrl: true` prints the one among them that names the source map
 * of the source; and `names` are the tables by which names are printed, as `renaming` (./scopes.mjs) makes them of this tree.
 * The source is put into the job where something asks for it: comments, or the option `source_map_path`. Throws `NotRead`
 * where the program has what jsgen doesn't read yet, and `MalformedTree`, a TypeError, where it is no tree.
 */
export function jobOf(program, settings) {
  return jobAndSink(program, settings).job;
}

/** The same job, and beside it `nodes`: for each row the node or the comment that it stands for, or null where it stands for none. */
export function jobAndNodes(program, settings) {
  const { job, sink } = jobAndSink(program, settings);
  return { job, nodes: sink.nodes.map(nodeOf) };
}

function jobAndSink(program, settings) {
  const sink = new JsonRows();
  const head = converted(program, settings, sink);
  return { job: { ...head, rows: sink.rows() }, sink };
}

/** The bytes of the same job in its flat form (docs/FORMAT.md, "Flat jobs"). It takes and refuses the same, and throws the same. */
export function flatJobOf(program, settings) {
  const sink = new FlatRows(endOf(rootOf(program)));
  const head = converted(program, settings, sink);
  return sink.job(head);
}

// Writes the rows of a program into the sink, and gives the other members of its job.
function converted(program, settings = {}, sink) {
  const { source, options = {}, spans = true, negative = false, comments = [], keepSourceMappingUrl = false, names = null } = settings;
  for (const name of Object.keys(options)) {
    if (!isOption(name)) throw new NotRead(`the option ${name}`);
  }
  if (source !== undefined && typeof source !== "string") throw new TypeError("source is a text");
  if (!Array.isArray(comments)) throw new TypeError("comments are a list");
  if (names !== null && !isRenaming(names)) throw new TypeError("names are what `renaming` gives of the tree");
  const root = rootOf(program);
  const printed = printedComments(comments, source, keepSourceMappingUrl);
  const walk = new Trees(sink, root, { source, spans, negative, names });
  try {
    walk.program(root, printed, printed.length > 0 || (options.source_map_path ?? null) !== null);
  } catch (error) {
    throw causeOf(error, root);
  }
  const tables = names ? { symbols: names.symbols, references: names.references, private: names.private } : {};
  return { ...(Object.keys(options).length > 0 ? { options } : {}), ...tables };
}

function isRenaming({ symbols, references, private: privates, symbolOf, referenceOf }) {
  return [symbols, references, privates].every(Array.isArray) && [symbolOf, referenceOf].every((numbers) => numbers instanceof Map);
}

// What the rows of the comments that are printed hold, each with the comment itself.
function printedComments(comments, source, keepSourceMappingUrl) {
  if (comments.length === 0) return [];
  const at = new Map(comments.map((comment) => [startOf(comment), comment]));
  const fields = commentsOf(source, placesOf(comments, source), { keepSourceMappingUrl });
  return fields.map((row) => ({ ...row, comment: at.get(row.start) }));
}

// Where the comments stand, which have to be in order.
function placesOf(comments, source) {
  if (source === undefined) throw new TypeError("comments are given without the source that they stand in");
  const places = comments.map((comment) => ({ start: startOf(comment), end: endOf(comment) }));
  const wrong = places.findIndex(({ start, end }, at) => !(start >= (places[at - 1]?.end ?? 0) && start < end && end <= source.length));
  if (wrong >= 0) throw new TypeError(`comment ${wrong} has no place in the source behind the comments before it`);
  return places;
}
