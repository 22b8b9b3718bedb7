// A tree is validated before it is converted: what isn't in the list of members is refused, since what nobody reads would be lost.
import { FLAG, HOLES, LIST, NODE, NOTE, TEXT, VALUE, membersOf } from "./members.mjs";
import { MalformedTree, wayTo } from "./refusals.mjs";

const { hasOwnProperty } = Object.prototype;
const SCRIPT = 'ask the parser for sourceType: "module", since the default of acorn and espree is a script';

/**
 * Validates a program. `refuse(what, node, hint)` is called for a type or a member that isn't read, and throws. Throws a
 * MalformedTree where a member is missing or holds what it can't, which names it by the way from the program to it.
 */
export function validate(program, refuse) {
  if (!isNode(program)) throw new MalformedTree(`program${faultOf(program)}`);
  const { sourceType } = program;
  if (typeof sourceType === "string" && sourceType !== "module") refuse(sourceType === "script" ? "a script" : `sourceType ${sourceType} of Program`, program, SCRIPT);
  if (membersOf(program.type) !== undefined && program.type !== "Program") throw new MalformedTree(`program is of type ${program.type}, not Program`);
  new Validator(program, refuse).node(program, membersOf(program.type));
}

// Why a value is no node.
function faultOf(value) {
  return typeof value === "object" && value !== null && !Array.isArray(value) ? ".type is no text" : " is no node";
}

function isNode(value) {
  return typeof value === "object" && value !== null && typeof value.type === "string";
}

// Whether a member says something; what is absent, none, empty or false is left out by some parsers and given by others.
function isGiven(value) {
  return value !== undefined && value !== null && value !== false && !(Array.isArray(value) && value.length === 0);
}

class Validator {
  constructor(program, refuse) {
    this.program = program;
    this.refuse = refuse;
  }

  // It is called for each node of a large tree, with the members of its type. A loop over the names itself is the fastest way to the values;
  // names that a node inherits come last in it.
  node(node, members) {
    if (members === undefined) this.refuse(node.type, node, "");
    let look = members.first;
    for (const name in node) {
      if (!hasOwnProperty.call(node, name)) break;
      look = look.after(name);
      const { holds } = look;
      if (holds === NOTE) continue;
      const value = node[name];
      if (holds === NODE && isNode(value)) this.child(node, name, value, look.member);
      else if (holds === LIST && Array.isArray(value)) this.list(node, name, value, look.member);
      else if (!(holds === TEXT ? typeof value === "string" : holds === FLAG && typeof value === "boolean")) this.other(node, name, value, look.member);
    }
    if (look.missing.length > 0) this.missing(node, members, look.missing);
  }

  missing(node, { byName }, names) {
    for (const name of names) if (!Object.hasOwn(node, name)) this.other(node, name, node[name], byName.get(name));
  }

  // What isn't as most are: it is absent, or unknown, or of a kind that is rare, or it is refused.
  other(node, name, value, member) {
    if (member === null) return this.unknown(node, name, value);
    if (!member.isNeeded && (value === undefined || value === null)) return;
    switch (member.holds) {
      case NODE:
        if (!isNode(value)) this.fail(node, `.${name}${faultOf(value)}`);
        return this.child(node, name, value, member);
      case LIST:
      case HOLES:
        if (!Array.isArray(value)) this.fail(node, `.${name} is no list`);
        return this.list(node, name, value, member);
      case TEXT:
        if (typeof value !== "string") this.fail(node, `.${name} is no text`);
        return;
      case FLAG:
        if (typeof value !== "boolean") this.fail(node, `.${name} is neither true nor false`);
        return;
      case VALUE:
        if (value !== "value") this.refuse(`${name} ${String(value)} of ${node.type}`, node, "");
    }
  }

  unknown(node, name, value) {
    if (!isGiven(value)) return;
    this.refuse(`${name} of ${node.type}`, node, "");
  }

  child(node, name, value, { areAllowed }) {
    const members = membersOf(value.type);
    if (areAllowed !== null) this.allowed(node, name, value, members, areAllowed);
    this.node(value, members);
  }

  list(node, name, values, member) {
    for (let at = 0; at < values.length; at += 1) {
      const value = values[at];
      if (value === null && member.holds === HOLES) continue;
      if (!isNode(value)) this.fail(node, `.${name}[${at}]${faultOf(value)}`);
      this.child(node, name, value, member);
    }
  }

  // Types that nothing is known of are told as such.
  allowed(node, name, value, members, areAllowed) {
    if (members !== undefined && areAllowed[members.number] === 0) this.fail(value, ` is of type ${value.type}, which can't be the ${name} of ${node.type}`);
  }

  fail(node, what) {
    throw new MalformedTree(`${wayTo(this.program, node)}${what}`);
  }
}
