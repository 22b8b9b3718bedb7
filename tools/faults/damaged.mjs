// Damaged jobs, each fixed by a seed and its number.
import { DAMAGES } from "./damage.mjs";
import { Draw } from "./draw.mjs";
import { madeJob } from "./jobs.mjs";
import { SPOILINGS } from "./spoil.mjs";
import { written } from "./text.mjs";

/** The bytes of a job that is damaged in up to three places, and the names of the damages. */
export function damagedJob(format, seed, number) {
  const draw = new Draw(Math.imul(seed + 1, 0x9e3779b1) ^ Math.imul(number + 1, 0x85ebca6b));
  const job = { format, head: madeJob(format, draw) };
  const names = [];
  const wanted = draw.once(12) ? 0 : 1 + draw.below(3);
  while (names.length < wanted) {
    const name = draw.of(Object.keys(DAMAGES));
    if (DAMAGES[name](job, draw) !== false) names.push(name);
  }
  let bytes = Buffer.from(written(job.head, draw));
  if (wanted > 0 && draw.once(8)) {
    const name = draw.of(Object.keys(SPOILINGS));
    bytes = SPOILINGS[name](bytes, draw);
    names[names.length - 1] = name;
  }
  return { bytes, names };
}
