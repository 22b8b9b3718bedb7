// Why a tree isn't converted, and where.
import { insidesOf } from "./members.mjs";
import { placeAt } from "./places.mjs";

/** A part of a program that jsgen doesn't read yet. `node` is the node of the tree, `place` where that is, and `hint` what to do then. */
export class NotRead extends Error {
  constructor(what, node, place = "", hint = "") {
    super(`${what}${place} is not read yet${hint && `: ${hint}`}`);
    this.name = "NotRead";
    this.node = node;
  }
}

/** A tree that is none: a member that is missing, or that holds what it can't. */
export class MalformedTree extends TypeError {}

/** The program itself, of Babel's `File` too. */
export function rootOf(program) {
  return program?.type === "File" ? program.program : program;
}

/** The offset at which a node begins in its source, or undefined. */
export function startOf(node) {
  return node?.start ?? node?.range?.[0];
}

/** The offset at which it ends. */
export function endOf(node) {
  return node?.end ?? node?.range?.[1];
}

/** Where a node is: in which line of the source, at which offset where that isn't given, or by which way where it has none. */
export function placeOf(node, source, root) {
  const start = startOf(node);
  const way = start === undefined ? wayTo(root, node) : "";
  if (start === undefined) return way === "" ? "" : ` at ${way}`;
  if (source === undefined) return ` at ${start}`;
  const { line, column } = placeAt(source, start);
  return ` in line ${line}, column ${column}`;
}

/** The same error, or why the stack didn't suffice. */
export function causeOf(error, root) {
  if (!(error instanceof RangeError && /call stack/.test(error.message))) return error;
  const way = wayToCycle(root);
  if (way !== "") return new MalformedTree(`${way} stands within itself`);
  return new RangeError("the tree is nested too deeply for the stack of this process, which `node --stack-size` raises");
}

/** The way from the program to a node of it, as `program.body[0]`; empty where it isn't there. */
export function wayTo(program, wanted) {
  const seen = new Set();
  const queue = [[program, "program"]];
  for (const [value, way] of queue) {
    if (value === wanted) return way;
    if (seen.has(value)) continue;
    seen.add(value);
    for (const [name, inside] of insidesOf(value)) if (isObject(inside)) queue.push([inside, `${way}${name}`]);
  }
  return "";
}

// The way to a node that stands within itself, or empty where none does.
function wayToCycle(program) {
  const onWay = new Set();
  const done = new Set();
  // Each node that is gone into, and behind what stands in it that it is left.
  const stack = [program];
  while (stack.length > 0) {
    const value = stack.pop();
    if (value instanceof Left) {
      onWay.delete(value.node);
      done.add(value.node);
    } else if (onWay.has(value)) {
      return wayTo(program, value);
    } else if (!done.has(value)) {
      onWay.add(value);
      stack.push(new Left(value));
      for (const [, inside] of insidesOf(value)) if (isObject(inside)) stack.push(inside);
    }
  }
  return "";
}

class Left {
  constructor(node) {
    this.node = node;
  }
}

function isObject(value) {
  return typeof value === "object" && value !== null;
}
