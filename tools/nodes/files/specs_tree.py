"""specs/Atom.antt: the kinds of values; specs/Nodes.antt: each type's row, as a pattern."""

import layout
from names import TREE, TYPES, words_in_antt


def write(table):
    return {"specs/Atom.antt": kinds(table), "specs/Nodes.antt": patterns(table)}


def kinds(table):
    words = "".join(f"  {w.short} : {w.name} → Atom\n" for w in table.words.values())
    body = f"""pub data Atom : Type 0 where
  -- of a field that is absent
  no_value : Atom
  text : List ℕ → Atom
  -- a string's value, by its units of UTF-16
  units : List ℕ → Atom
  digits : ℕ → Atom
  number : ℕ → Atom
  flag : Bool → Atom
{words}"""
    homes = [("Rattle.std.specs.Prelude", ["ℕ", "List", "Bool"])] + words_in_antt(table)
    return layout.antt("A value that a node holds itself.", homes, [], body)


SLOTS = {"": ("one", "Tree"), "?": ("maybe", "Maybe"), "*": ("many", "Trees"), "?*": ("many", "Trees"), "*?": ("maybe_many", "MaybeTrees")}


def patterns(table):
    body = "\n\n".join(pattern(table, n) for n in table.nodes.values())
    return layout.antt("The row of each type of node, as a pattern.", TREE, TYPES, body)


def pattern(table, n):
    names, slots, kinds = "a", "no_slots", "Atoms"
    children = table.children(n)
    rows = {m.short for m in table.nodes.values()}
    called = {f.name: f.name + "_child" if f.name in rows else f.name for f in children}
    for f in children:
        names += f" {called[f.name]}"
        kinds += f" → {SLOTS[f.many][1]}"
    for f in reversed(children):
        rest = slots if slots == "no_slots" else f"({slots})"
        slots = f"{SLOTS[f.many][0]} {called[f.name]} {rest}"
    slots = slots if slots == "no_slots" else f"({slots})"
    return f"pattern abbrev pub {n.short} : {kinds} → Tree\n{n.short} {names} = node types.{n.name} a {slots}"
