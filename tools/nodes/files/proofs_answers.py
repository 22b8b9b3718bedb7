"""The answers of `Node`'s functions that ask each set: an answer a set."""

import layout
from table import snake


def write(table):
    return {
        "proofs/span/NodeGetSpan/+node_span/Answers.antt":
            answers(table, "span.NodeGetSpan.+node_span", "returns-in-{s.name}", "{name}_spans"),
        "proofs/node_type/NodeHasType/+node_type/Answers.antt":
            answers(table, "node_type.NodeHasType.+node_type", "returns-in-{s.name}", "plain_{name}"),
    }


def answers(table, function, goal, lemma):
    parts, lemmas = [], []
    for s in table.nesting():
        g, name = goal.format(s=s), snake(s.name)
        lemmas.append(lemma.format(name=name))
        parts.append(f"pub {g} : goal.{g}\n{g} t c = search (rules, {lemmas[-1]})")
    homes = [("Rattle.std.proofs.Common", ["rules"]), ("Rattle.jsgen_tree.proofs.Knot", lemmas)]
    aliases = [(f"Rattle.jsgen_tree.proofs.{function}.Goals", "goal")]
    return layout.antt("Each set's own lemma.", homes, aliases, "\n\n".join(parts))
