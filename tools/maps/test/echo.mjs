// A printer for tests of the judge: it prints the source as it stands, with new names where tables have them, and marks each name.
import { parsed } from "../../estree/parser.mjs";
import { editsOf } from "../../../bindings/node/lib/scopes.mjs";
import { Lines } from "../lines.mjs";

/** What is printed, and the tokens of its map, each with the offsets `at` and `sourceAt` and a `name` or null. */
export function echo(source, names) {
  const written = new Map(names ? editsOf(names).map(([node, text]) => [node.start, text]) : []);
  const tokens = [];
  let code = "";
  let end = 0;
  for (const node of namesIn(parsed(source))) {
    const own = source.slice(node.start, node.end);
    const text = written.get(node.start) ?? own;
    code += source.slice(end, node.start);
    // of two names, `{ a: b }`, the first has the mark
    const printed = /^\S*?(?=:? )/.exec(text)?.[0] ?? text;
    const isOwn = printed === own && !own.includes("\\");
    tokens.push({ at: code.length, sourceAt: node.start, name: isOwn ? null : own });
    code += text;
    end = node.end;
  }
  return { code: code + source.slice(end), tokens };
}

// The nodes of names by where they begin, one where two begin.
function namesIn(tree) {
  const found = new Map();
  const visit = (node) => {
    if (node.type.endsWith("Identifier")) found.set(node.start, node);
    if (node.type === "MetaProperty") return visit(node.meta);
    for (const child of Object.values(node).flat()) if (typeof child?.type === "string") visit(child);
  };
  visit(tree);
  return [...found.values()].sort((one, other) => one.start - other.start);
}

/** The lines of a map of such tokens. */
export function linesOf(source, code, tokens) {
  const [from, to] = [new Lines(code), new Lines(source)];
  const names = [...new Set(tokens.map(({ name }) => name).filter((name) => name !== null))];
  const numbers = new Map(names.map((name, number) => [name, number]));
  const lines = tokens.map(({ at, sourceAt, name }) => [...from.place(at), ...to.place(sourceAt), ...(name === null ? [] : [numbers.get(name)])].join(" "));
  return [...lines, ...names.map((name) => `name ${JSON.stringify(name)}`)].map((line) => `${line}\n`).join("");
}
