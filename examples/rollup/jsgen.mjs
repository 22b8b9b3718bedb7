// A plugin of rollup: each chunk is printed by jsgen, minified, with its licences and annotations and with a source map.
import { parse } from "acorn";
import { print } from "jsgen";

export const jsgen = () => ({
  name: "jsgen",
  renderChunk(source) {
    const comments = [];
    const program = parse(source, { ecmaVersion: "latest", sourceType: "module", onComment: comments });
    const printed = { minify: true, sourceMap: true, comments: { normal: false, jsdoc: false } };
    return print({ ...program, comments }, { source, ...printed });
  },
});
