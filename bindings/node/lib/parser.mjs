// The parser `acorn`: the one that is installed for this folder or for node, or Debian's (packages.mjs).
import { packageNamed } from "./packages.mjs";

// The first version that reads the attributes of imports.
const WITH_ATTRIBUTES = [8, 14];

let acorn = null;

/**
 * The ESTree tree of a module's text. `parentheses: true` keeps parentheses as nodes, and `comments: true` puts the comments,
 * and the hashbang, which acorn lists among them, into the program's member `comments`. Throws a SyntaxError of acorn's, which says
 * where acorn is older than the syntax.
 */
export function parsed(text, { parentheses = false, comments = false } = {}) {
  acorn ??= packageNamed("acorn");
  const seen = [];
  const options = { ecmaVersion: "latest", sourceType: "module", allowHashBang: true, preserveParens: parentheses, onComment: comments ? seen : null };
  const program = parsedBy(acorn, text, options);
  if (comments) program.comments = seen;
  return program;
}

function parsedBy(parser, text, options) {
  try {
    return parser.parse(text, options);
  } catch (error) {
    const isAttributes = /^with\s*\{/.test(text.slice(error.pos)) && /["']\s*$/.test(text.slice(0, error.pos));
    if (error instanceof SyntaxError && isAttributes && isBefore(parser.version, WITH_ATTRIBUTES)) {
      error.message += `: this acorn, ${parser.version}, is older than the syntax, which ${WITH_ATTRIBUTES.join(".")} reads`;
    }
    throw error;
  }
}

function isBefore(version, [major, minor]) {
  const [ofMajor, ofMinor] = version.split(".").map(Number);
  return ofMajor < major || (ofMajor === major && ofMinor < minor);
}

/** The version of the parser. */
export function parserVersion() {
  acorn ??= packageNamed("acorn");
  return acorn.version;
}
