// The comments of a source that are to be printed, and what the text of one is compared by.
import { commentsOf, isLegal } from "../../bindings/node/lib/comments.mjs";

const LINE_ENDS = /\r\n|[\n\r\u2028\u2029]/;
const WHITE = /^[\s\u0085]+/;
const DEFAULTS = { normal: true, jsdoc: true, annotation: true, legal: "inline" };

/** Whether comments that say this are annotations of calls and functions, which stand in the text by what the tree says. */
export function isAnnotation(content) {
  return content === "pure" || content === "nosideeffects";
}

/** A comment's text without the white space that its lines begin with. */
export function plain(text) {
  return text.split(LINE_ENDS).map((line) => line.replace(WHITE, "")).join("\n");
}

// The same, with the backslash that stands before the `/` of a `</script` where it is printed.
function written(text) {
  return plain(text).replace(/<\/(?=script)/gi, "<\\/");
}

/**
 * The comments of a tree, which has them in its member `comments`, by what these options want. `kept` are those that are kept, in
 * order, each with its text, its offset, whether it has to be printed, and whether it goes on to be printed where its place is gone;
 * `licences` are the texts of those that stand at the end.
 */
export function commentsKept(source, tree, options = {}) {
  const wanted = { ...DEFAULTS, ...options };
  const all = commentsOf(source, tree.comments).map((row) => {
    const holdsLicence = isLegal(row.content);
    return { ...row, text: written(source.slice(row.start, row.end)), holdsLicence, goesOn: holdsLicence || row.content === "coveragefile" };
  });
  const members = new Set(tree.body.map(({ start }) => start));
  const kept = all
    .filter(({ leading, content }) => leading && isWanted(content, wanted))
    .map((one) => ({ ...one, isNeeded: members.has(one.attached_to) || (one.holdsLicence && wanted.legal === "inline") }));
  const licences = wanted.legal === "eof" ? all.filter(({ holdsLicence }) => holdsLicence).map(({ text }) => text) : [];
  return { kept, licences: [...new Set(licences)] };
}

function isWanted(content, { normal, jsdoc, annotation, legal }) {
  switch (content) {
    case "normal":
      return normal;
    case "jsdoc":
      return jsdoc;
    case "legal":
      return legal === "inline";
    case "jsdoclegal":
      return jsdoc || legal === "inline";
    case "pure":
    case "nosideeffects":
      return false;
    default:
      return annotation;
  }
}
