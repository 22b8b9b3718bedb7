// What the judges of maps and of comments have in common: they try the modules of files and folders, and programs that are made up.
import { readFileSync } from "node:fs";
import { Refused, seedsOf } from "./command.mjs";
import { filesBelow, isModule, isTakenByV8 } from "./programs.mjs";
import { randomProgram } from "./random.mjs";

const SHOWN = 10;

/** What was tried, and what of it is bad: the first ten are told on standard error. */
export class Tally {
  constructor() {
    this.programs = this.passed = this.tried = this.bad = this.unread = 0;
  }

  fail(place, set, what) {
    this.bad++;
    if (this.bad <= SHOWN) process.stderr.write(`${place}: ${set}: ${what}\n`);
  }

  /** Fails where `judge` gives a fault of a text. One that acorn can't read and V8 takes is counted alone. */
  judge(place, set, code, judge) {
    try {
      const fault = judge();
      if (fault) this.fail(place, set, fault);
    } catch (error) {
      if (!(error instanceof SyntaxError)) throw error;
      if (isTakenByV8(code)) this.unread++;
      else this.fail(place, set, `what is printed does not parse: ${error.message}`);
    }
  }

  /** A line of the counts, where what is tried has this name, and `more` stands behind it. */
  summary(name, more = "") {
    const unread = this.unread > 0 ? `; ${this.unread} texts that V8 takes and acorn can't read` : "";
    return `${this.programs} programs; ${this.passed} files are no modules, or aren't read; ${this.tried} ${name}, ${this.bad} bad${more}${unread}`;
  }
}

/**
 * Hands the source of each module below the paths to `tryProgram`, with its place, and those of as many programs as `--random` says,
 * which `made` makes by their numbers. The values are those of the options RANDOM (command.mjs).
 */
export function tryAll(values, paths, tally, tryProgram, made = randomProgram) {
  const seeds = seedsOf(values);
  if (seeds.length === 0 && paths.length === 0) throw new Refused("a file, or --random, is wanted");
  const tryOne = (place, source) => {
    tally.programs++;
    tryProgram(place, source);
  };
  for (const path of paths.flatMap((path) => [...filesBelow(path)])) {
    const source = readFileSync(path, "utf8");
    if (isModule(source)) tryOne(path, source);
    else tally.passed++;
  }
  for (const seed of seeds) tryOne(`random ${seed}`, made(seed));
}
