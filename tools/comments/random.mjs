// Comments put into a program between its tokens, fixed by a number.
import { difference, normal } from "../estree/normal.mjs";
import { packageNamed } from "../../bindings/node/lib/packages.mjs";
import { parsed } from "../estree/parser.mjs";

const BLOCKS = [
  "/* TEXT */", "/* TEXT */", "/** TEXT */", "/*! TEXT */", "/** @license TEXT */", "/* TEXT </script> */", "/**/", "/* é日本 TEXT */",
  "/* @__PURE__ */", "/* #__NO_SIDE_EFFECTS__ */", "/* @__KEY__ */", "/* webpackChunkName: 'TEXT' */", "/* @vite-ignore */",
  "/* v8 ignore next */", "/* c8 ignore file TEXT */",
];
const LINES = ["// TEXT", "//! TEXT", "// @preserve TEXT", "//# sourceMappingURL=TEXT", "//", "/*\n\t * TEXT\r\n    */", "/**\n * @license TEXT\n */", "/* a\u2028 b TEXT */"];
const PIECES = new Set(["template", "invalidTemplate"]);
// Behind these tokens a line may end.
const OPEN = new Set(["#!", "{", "(", "[", ",", ";", "=", "${"]);

/** The text with comments, which parses as the same program. */
export function withComments(source, seed) {
  let state = (seed * 2654435761 + 89) >>> 0;
  const below = (limit) => {
    state = (Math.imul(state, 1664525) + 1013904223) >>> 0;
    return (state >>> 8) % limit;
  };
  let number = 0;
  const comment = (forms) => forms[below(forms.length)].replace("TEXT", `c${number++ % 40}`);
  const between = (gap, mayEnd) => {
    if (below(6) > 0) return gap;
    const drawn = Array.from({ length: 1 + below(3) }, () => (mayEnd && below(2) === 0 ? `${comment(LINES)}\n` : comment(BLOCKS)));
    return `${gap} ${drawn.join(" ")} `;
  };
  let text = "";
  let end = 0;
  for (const { start, stop, isWithin, mayEnd } of tokensOf(source)) {
    const gap = source.slice(end, start);
    text += (isWithin ? gap : between(gap, mayEnd || gap.includes("\n"))) + source.slice(start, stop);
    end = stop;
  }
  text += between(source.slice(end), true);
  return isSame(source, text) ? text : source;
}

// The tokens of a module, and of each whether it stands right behind what belongs to it, as the pieces of a template do, and whether a
// line may end before it.
function tokensOf(source) {
  const hashbang = { label: "#!", start: 0, stop: /^#!.*/.exec(source)?.[0].length ?? 0 };
  const found = [hashbang];
  const onToken = ({ type, start, end }) => found.push({ label: type.label, start, stop: end });
  packageNamed("acorn").parse(source, { ecmaVersion: "latest", sourceType: "module", allowHashBang: true, onToken });
  return found
    .filter(({ label }) => label !== "eof")
    .map((token, at) => {
      const before = found[at - 1]?.label;
      return { ...token, isWithin: before === undefined || PIECES.has(token.label) || PIECES.has(before), mayEnd: OPEN.has(before) };
    });
}

function isSame(source, text) {
  try {
    return difference(normal(parsed(source)), normal(parsed(text))) === null;
  } catch (error) {
    if (!(error instanceof SyntaxError)) throw error;
    return false;
  }
}
