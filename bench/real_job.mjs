// `node bench/real_job.mjs [minify] [FILE]`: a job of a real program, the file or the largest of node's own library that is a
// module. Which file that is goes to standard error. The parser is the acorn that node has in it.
import { readFileSync } from "node:fs";
import { jobOf } from "../bindings/node/lib/convert.mjs";

const library = process.binding("natives");
const acorn = {};
new Function("exports", "module", library["internal/deps/acorn/acorn/dist/acorn"])(acorn, { exports: acorn });

function parsed(text) {
  return acorn.parse(text, { ecmaVersion: "latest", sourceType: "module", allowHashBang: true });
}

function isModule(text) {
  try {
    return Boolean(parsed(text));
  } catch (error) {
    if (error instanceof SyntaxError) return false;
    throw error;
  }
}

function largest() {
  const files = Object.entries(library).filter(([, text]) => typeof text === "string");
  files.sort(([, one], [, other]) => other.length - one.length);
  const [name, text] = files.find(([, text]) => isModule(text));
  return { name, text };
}

const words = process.argv.slice(2).filter((word) => word !== "minify");
const { name, text } = words.length > 0 ? { name: words[0], text: readFileSync(words[0], "utf8") } : largest();
const options = process.argv.includes("minify") ? { minify: true } : {};
process.stderr.write(`${name}, ${text.length} characters\n`);
process.stdout.write(`${JSON.stringify(jobOf(parsed(text), { source: text, options }))}\n`);
