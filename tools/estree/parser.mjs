// The parser `acorn`, by the package for node.
export { parsed, parserVersion } from "../../bindings/node/lib/parser.mjs";
