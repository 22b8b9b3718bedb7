"""jsgen_asked's proofs/Members.antt: whether the members of a set that nests are expressions and nothing else, where the set itself says it."""

import layout
from files.proofs_cases import aliases, variant
from names import DECLARED, SPECS, TREE, row_names, sets_in_antt
from table import snake


def write(table):
    parts = [lemma(table, s, a) for s in table.nesting() if (a := answer(table, s))]
    homes = [("Rattle.std.proofs.Common", ["◌≡◌", "true", "false", "refl", "ap", "◌∙◌"]),
             (f"{SPECS}.Inside", ["is_only_expression"]),
             (f"{SPECS}.Plain", ["node_plain"]),
             ("Rattle.jsgen_tree.proofs.Knot", ["plain_" + snake(s.name) for s in table.nesting()]),
             (f"{DECLARED}.nodes.Node", ["Node"])] + TREE + row_names(table) + sets_in_antt(table)
    every = [(f"{DECLARED}.nodes.Node.TheVariants", "nodes")] + aliases(table)
    return {"crates/jsgen_asked/proofs/Members.antt": layout.antt("The types of the members of a set.", homes, every, "\n\n".join(parts))}


def answer(table, s):
    """What `is_only_expression` says of all members; None where they differ, or are not all seen."""
    if any(m in table.sets for m in s.members):
        return None
    said = {m in table.sets["Expression"].members and m not in table.types_in("Declaration") for m in s.members}
    return {True: "true", False: "false"}[said.pop()] if len(said) == 1 else None


def lemma(table, s, a):
    generic = table.generic(s.name)
    name, of = snake(s.name), s.name + (" Node" if generic else "")
    row = f"{s.plain} h n" if generic else f"{s.plain} n"
    clauses = "".join(f"\nof_{name} h {variant(s, m)} = refl" for m in s.members)
    said = f"{name}_is_{'one' if a == 'true' else 'none'}"
    return f"""of_{name} : (h : Node → Tree) (n : {of}) → is_only_expression (type_of ({row})) ≡ {a}{clauses}

pub {said} : (n : {of}) → is_only_expression (type_of (node_plain (nodes.{s.name} n))) ≡ {a}
{said} n = ap (λ t. is_only_expression (type_of t)) (plain_{name} n) ∙ of_{name} node_plain n"""
