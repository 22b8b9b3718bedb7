// The names of a source's tree beside those of the tree of what was printed for it. Both are trees of acorn's, without parentheses.
// The two have one shape but for the printer's normal form, of which this knows what moves names: a property or a specifier of one
// name or of two, the grouping of chains and sequences, and braces round a consequent.
import { unbraced } from "../estree/normal.mjs";

/** Two trees that aren't of one shape. */
export class Unlike extends Error {}

/**
 * The pairs of names, each with the `source` node and the `printed` one. `isUnmarked` tells that the printed name has no mark of its
 * own: both names of a target that is renamed, a key of an attribute, and what stands behind the dot of `new.target` and
 * `import.meta`. `isSecond` tells that another name of the same source node is printed before it, so that its mark is left out.
 * Throws `Unlike`.
 */
export function pairsOf(sourceTree, printedTree) {
  const pairs = [];
  new Walk(pairs).node(sourceTree, printedTree, {});
  return pairs.sort((one, other) => one.printed.start - other.printed.start);
}

class Walk {
  constructor(pairs) {
    this.pairs = pairs;
  }

  pair(source, printed, { isUnmarked = false, isSecond = false }) {
    this.pairs.push({ source, printed, isUnmarked, isSecond });
  }

  // `told` says what the place of a node tells of it: `isTarget` of a pattern that is assigned to, and what a pair is told.
  node(source, printed, told) {
    if (!source !== !printed) throw new Unlike(`${typeOf(source)} and ${typeOf(printed)}`);
    if (!source) return;
    const [one, other] = [leafOf(source), leafOf(printed)];
    if (one.type !== other.type) throw new Unlike(`${one.type} at ${source.start} and ${other.type} at ${printed.start}`);
    switch (one.type) {
      case "Identifier":
      case "PrivateIdentifier":
        return this.pair(one, other, told);
      case "MetaProperty":
        this.pair(one.meta, other.meta, told);
        return this.pair(one.property, other.property, { isUnmarked: true });
      case "LogicalExpression":
      case "SequenceExpression":
        return this.list(operands(one, one), operands(other, other), {});
      case "IfStatement":
        this.node(one.test, other.test, {});
        this.node(unbraced(one.consequent), unbraced(other.consequent), {});
        return this.node(one.alternate, other.alternate, {});
      case "Property":
        return this.property(one, other, told);
      case "ImportSpecifier":
        return this.specifier(one, other, "imported", "local");
      case "ExportSpecifier":
        return this.specifier(one, other, "local", "exported");
      case "ImportAttribute":
        return this.node(one.key, other.key, { isUnmarked: true });
      case "AssignmentExpression":
      case "ForInStatement":
      case "ForOfStatement":
        return this.fields(one, other, (name) => ({ isTarget: name === "left" }));
      // what a pattern holds is a target as the pattern is, but for a key and a default
      case "ObjectPattern":
      case "ArrayPattern":
      case "RestElement":
        return this.fields(one, other, () => told);
      case "AssignmentPattern":
        return this.fields(one, other, (name) => (name === "left" ? told : {}));
      default:
        return this.fields(one, other, () => ({}));
    }
  }

  list(sources, printeds, told) {
    if (sources.length !== printeds.length) throw new Unlike(`${sources.length} and ${printeds.length} nodes, from ${startOf(sources)} and ${startOf(printeds)}`);
    sources.forEach((source, at) => this.node(source, printeds[at], told));
  }

  fields(source, printed, tellOf) {
    for (const name of Object.keys(source)) {
      const [one, other] = [source[name], printed[name]];
      if (Array.isArray(one) && Array.isArray(other)) this.list(one, other, tellOf(name));
      else if (isNode(one) || isNode(other)) this.node(one, other, tellOf(name));
    }
  }

  // A name that is key and value in one has one place. In a target that is written out for its new name, neither has a mark.
  property(source, printed, told) {
    const { isTarget = false } = told;
    const isWrittenOut = source.shorthand && !printed.shorthand;
    const own = isWrittenOut && isTarget ? { isUnmarked: true } : {};
    if (!printed.shorthand) this.node(source.key, printed.key, own);
    if (!isWrittenOut) return this.node(source.value, printed.value, { isTarget });
    const bound = isTarget ? own : { isSecond: true };
    if (source.value.type !== "AssignmentPattern") return this.node(source.value, printed.value, bound);
    this.node(source.value.left, printed.value.left, bound);
    return this.node(source.value.right, printed.value.right, {});
  }

  // Of two names, the first is printed first. One that stands for both is the first, but for a string that is imported.
  specifier(source, printed, first, second) {
    if (isOneName(printed)) {
      const isString = source[first].type === "Literal" && printed[first].type === "Identifier";
      return this.node(isString ? source[second] : source[first], printed[first], {});
    }
    this.node(source[first], printed[first], {});
    return this.node(source[second], printed[second], { isSecond: isOneName(source) });
  }
}

function isNode(value) {
  return typeof value?.type === "string";
}

function typeOf(node) {
  return node ? `${node.type} at ${node.start}` : "nothing";
}

function startOf(nodes) {
  return nodes.find((node) => node)?.start ?? "nowhere";
}

// A template without expressions is a string.
function leafOf(node) {
  return node.type === "TemplateLiteral" && node.expressions.length === 0 ? { type: "Literal" } : node;
}

function isOneName(specifier) {
  const { local, imported, exported } = specifier;
  return local.start === (imported ?? exported).start;
}

// The operands of a chain of one operator, or the parts of a sequence, however they are grouped.
function operands(node, round) {
  if (node.type !== round.type || node.operator !== round.operator) return [node];
  return (node.expressions ?? [node.left, node.right]).flatMap((operand) => operands(operand, round));
}
