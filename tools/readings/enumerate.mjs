// `node tools/readings/enumerate.mjs PROFILE SIZE`: every list of tokens over the alphabet of a profile (profiles.mjs) that the grammar
// reads, up to a size, where each bracket counts as a token: how many there are, and which of them have two trees. The exit status is 1
// where one has.
import { profileAndSize } from "./command.mjs";
import { Readings } from "./readings.mjs";
import { told } from "./tokens.mjs";
import { written } from "./trees.mjs";

const { name, profile, size } = profileAndSize("enumerate.mjs");
const readings = new Readings(profile);
for (let at = 0; at <= size; at++) {
  const began = Date.now();
  for (const start of profile.starts) {
    const count = readings.lists(start, at).size;
    const double = readings.twoTrees.length;
    process.stdout.write(`${name}, size ${at}, ${start}: ${count} lists, ${double} of two trees, ${Date.now() - began} ms\n`);
  }
}
for (const { what, tokens, trees } of readings.twoTrees.slice(0, 10)) {
  process.stdout.write(`two trees: ${told(tokens)} as ${what}\n${trees.map((tree) => `  ${written(tree)}\n`).join("")}`);
}
process.exitCode = readings.twoTrees.length > 0 ? 1 : 0;
