// `node tools/readings/compare.mjs PROFILE SIZE`: the lists over the alphabet of a profile (profiles.mjs) that the reader accepts, beside
// those that the grammar reads, with their trees, up to a size. The variable READER names the folder with Reader.antt, else it is that of
// this repository. The exit status is 1 where the two differ.
import { profileAndSize } from "./command.mjs";
import { Comparison, isSame } from "./comparison.mjs";
import { readerIn } from "./interpret.mjs";
import { told } from "./tokens.mjs";

const { name, profile, size } = profileAndSize("compare.mjs");
const comparison = new Comparison(readerIn(), profile);
const differ = { readerOnly: "the reader alone", grammarOnly: "the grammar alone", otherTree: "another tree" };
for (let at = 0; at <= size; at++) {
  for (const start of profile.starts) {
    const began = Date.now();
    const result = comparison.at(start, at);
    process.stdout.write(`${name}, size ${at}, ${start}: grammar ${result.grammar}, reader ${result.reader}, ${Date.now() - began} ms\n`);
    for (const [key, saying] of Object.entries(differ)) {
      const lists = result[key].map(told);
      if (lists.length > 0) process.stdout.write(`  ${saying} (${lists.length}): ${lists.slice(0, 8).join("   ")}\n`);
    }
    if (!isSame(result)) process.exitCode = 1;
  }
}
