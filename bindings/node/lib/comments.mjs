// The comments of a source as a job has them: how each is written, what it says, and what it belongs to.

const LINE_END = /[\n\r\u2028\u2029]/;
// Behind these tokens a comment that ends the line still belongs to what follows: `=`, but none of the operators that end in it, and `(`.
const OPENS = /(?:^|[^!%&*+\-/<=>?^|])=$|\($/;
const OWN_LINE = { preceded_by_newline: true, followed_by_newline: true };
const CONTENTS = [
  ["pure", /^\s*[@#]__PURE__/],
  ["nosideeffects", /^\s*[@#]__NO_SIDE_EFFECTS__/],
  ["propertykey", /^\s*[@#]__KEY__/],
  ["webpack", /^\s*webpack[A-Z]/],
  ["vite", /^\s*@vite/],
  ["coveragefile", /^\s*(v8|c8|istanbul) ignore file\b/],
  ["coverage", /^\s*((v8|c8|istanbul) ignore\b|node:coverage\b)/],
];

// What ECMA-426 takes for the URL of a source map, behind the comment's first two characters.
const SOURCE_MAPPING_URL = /^[@#]\s*sourceMappingURL=\S*\s*$/;

/**
 * What the row of each comment holds, and its place, `start` and `end`. The comments that are given are in order and have their
 * places; the offset of what one belongs to, `attached_to`, is one in the text too: that of the next token, or the text's end. A
 * comment is leading, but where it ends the line of the token before it, or stands before another one that does; one that holds a
 * licence is leading there too, and stands on a line of its own. A comment is preceded by a line end where one stands anywhere
 * between that token and it, or where no token does. The hashbang, which acorn lists, is no comment. The comment that names the
 * source map of the text is left out, unless it is to be kept.
 */
export function commentsOf(source, comments, { keepSourceMappingUrl = false } = {}) {
  const sweep = new Sweep();
  let end = 0;
  for (const comment of comments) {
    if (isHashbang(source, comment)) continue;
    sweep.gap(source.slice(end, comment.start), end);
    sweep.comment(source.slice(comment.start, comment.end), comment);
    end = comment.end;
  }
  sweep.gap(source.slice(end), end);
  sweep.token(source.length);
  return keepSourceMappingUrl ? sweep.rows : sweep.rows.filter((row) => !namesSourceMap(source.slice(row.start, row.end)));
}

function isHashbang(source, { start }) {
  return start === 0 && source.startsWith("#!");
}

function namesSourceMap(text) {
  return SOURCE_MAPPING_URL.test(text.startsWith("/*") ? text.slice(2, -2) : text.slice(2));
}

// Goes through a text once, from its start: its comments, and what stands between them.
class Sweep {
  constructor() {
    this.rows = [];
    // those behind the last token
    this.waiting = [];
    this.isLineEnded = true;
    this.isOpen = false;
  }

  comment(text, { start, end }) {
    const kind = kindOf(text);
    const isLine = kind !== "block" && kind !== "multiline";
    const content = contentOf(text, kind);
    const row = { start, end, kind, content, leading: true, attached_to: 0, preceded_by_newline: this.isLineEnded, followed_by_newline: isLine };
    this.rows.push(row);
    this.waiting.push(row);
    if (!isLine) return;
    if (!this.isOpen) this.endLine();
    this.isLineEnded = true;
  }

  // A text between two comments, which begins at the offset.
  gap(text, offset) {
    const first = text.length - text.trimStart().length;
    this.white(text.slice(0, first));
    if (first === text.length) return;
    this.token(offset + first);
    const last = text.trimEnd().length;
    this.isOpen = OPENS.test(text.slice(Math.max(first, last - 2), last));
    this.white(text.slice(last));
  }

  white(text) {
    if (!LINE_END.test(text)) return;
    if (this.waiting.length > 0) this.waiting.at(-1).followed_by_newline = true;
    this.endLine();
  }

  // A line ends: what stands on that of the last token doesn't lead, but a licence, which gets a line of its own.
  endLine() {
    if (!this.isLineEnded) for (const row of this.waiting) Object.assign(row, isLegal(row.content) ? OWN_LINE : { leading: false });
    this.isLineEnded = true;
  }

  token(offset) {
    for (const row of this.waiting) row.attached_to = offset;
    this.waiting = [];
    this.isLineEnded = false;
  }
}

/** Whether a comment with this content holds a licence. */
export function isLegal(content) {
  return content === "legal" || content === "jsdoclegal";
}

function kindOf(text) {
  if (text.startsWith("//")) return "line";
  if (text.startsWith("<!--")) return "htmlopen";
  if (text.startsWith("-->")) return "htmlclose";
  return LINE_END.test(text) ? "multiline" : "block";
}

function contentOf(text, kind) {
  const isBlock = kind === "block" || kind === "multiline";
  const said = isBlock ? text.slice(2, -2) : text.slice(kind === "line" ? 2 : text.startsWith("<") ? 4 : 3);
  const hasLicence = /@(license|preserve)/.test(said);
  if (said.startsWith("!")) return "legal";
  if (isBlock && /^\*+[^*]/.test(said)) return hasLicence ? "jsdoclegal" : "jsdoc";
  return CONTENTS.find(([, form]) => form.test(said))?.[0] ?? (hasLicence ? "legal" : "normal");
}
