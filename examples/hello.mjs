/*! hello.mjs: do with it what you like. */
import { readFile } from "node:fs/promises";

class Greeter {
  #mark;

  constructor({ mark = "!" } = {}) {
    this.#mark = mark;
  }

  greet(who) {
    return `Hello, ${who}${this.#mark}`;
  }
}

/** Greets whoever is named in a file. */
export async function greetAll(path, options) {
  const greeter = new Greeter(options);
  const [first, ...others] = (await readFile(path, "utf8")).split(", ");
  return [first, ...others.filter((name) => name !== "")].map((name) => greeter.greet(name));
}
