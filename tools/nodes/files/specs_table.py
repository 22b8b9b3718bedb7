"""specs/Fields.antt: the words and the fields of each type; specs/Sets.antt: which types a set has."""

import layout
from files.src_types import is_other
from names import SPECS, TYPES, atoms, types_in_antt, variants_of_words
from table import snake


def write(table):
    return {"specs/Fields.antt": fields(table), "specs/RowFields.antt": row_fields(table), "specs/Sets.antt": sets(table)}


def listed(items):
    return " ∷ ".join(items + ["[]"])


def fields(table):
    parts = ["-- ---- words"]
    for w in table.words.values():
        words = [f'means (codes "{word}") (atoms.{w.short} {w.alias}.{variant})' for word, variant in w.words]
        parts.append(f"abbrev pub {w.short}_words : List Word\n{w.short}_words = {listed(words)}")
    parts.append("-- ---- fields: one list for each type, in the order of their numbers, from 2 on")
    clauses = "".join(f"\nfields types.{n.name} = {listed([row(table, f) for f in n.in_format()])}" for n in table.nodes.values())
    parts.append(f"abbrev pub fields : NodeType → List Field{clauses}")
    homes = [("Rattle.std.specs.Prelude", ["List", "[]", "◌∷◌", "codes", "false"]),
             (f"{SPECS}.Table", ["Word", "means", "Field", "needs", "needs_for", "may_have", "has_by_default", "may_be_set_for", "not_yet"])]
    homes += types_in_antt(table)
    aliases = TYPES + [(f"{SPECS}.Table", "sorts"), (f"{SPECS}.Atom", "atoms")] + variants_of_words(table)
    return layout.antt("For each type of node its fields in their order.", homes, aliases, "\n\n".join(parts))


def row_fields(table):
    """The lists by themselves, under names of their own."""
    parts = [f"abbrev pub {snake(n)}_fields : List Field\n{snake(n)}_fields = fields types.{n}" for n in table.nodes]
    homes = [("Rattle.std.specs.Prelude", ["List"]), (f"{SPECS}.Table", ["Field"]), (f"{SPECS}.Fields", ["fields"])]
    return layout.antt("The fields of each type by themselves.", homes, [TYPES[0]], "\n\n".join(parts))


def row(table, f):
    name = f'(codes "{f.name}")'
    if f.unread:
        return f"not_yet {name} {sort(table, f)}"
    if f.only_for and f.kind == "flag":
        return f'may_be_set_for (codes "{f.only_for}") {name} {sort(table, f)}'
    if f.only_for:
        return f'needs_for (codes "{f.only_for}") {name} {sort(table, f)}'
    if f.default is not None or f.kind == "flag" and not f.needed:
        default = "(atoms.text [])" if f.kind == "text" else f"(atoms.flag {f.default or 'false'})"
        return f"has_by_default {default} {name} {sort(table, f)}"
    return f"{'needs' if f.required else 'may_have'} {name} {sort(table, f)}"


SORTS = {"": "child", "?": "child", "*": "children", "?*": "children_or_holes", "*?": "maybe_children"}


def sort(table, f):
    if f.kind in table.words:
        return f"(sorts.word {table.words[f.kind].short}_words)"
    if table.is_value(f):
        return f"sorts.{f.kind}"
    if f.unread:
        return "sorts.unread_child"
    return f"(sorts.{SORTS[f.many]} sets.{f.kind})"


def sets(table):
    parts = []
    names = list(dict.fromkeys(list(table.sets) + table.child_sets()))
    for name in names:
        if not is_other(table, name):
            test = "is_" + snake(name)
            clauses = "".join(f"{test} types.{t} = true\n" for t in own_types(table, name))
            parts.append(f"abbrev pub {test} : NodeType → Bool\n{clauses}{test} type = {others(table, name)}")
    clauses = "".join(f"\nin_set sets.{s} t = {tested(table, s)} t" for s in table.child_sets())
    clauses += "".join(f"\nin_set sets.{p} t = {tested(table, s)} t" for p, s in table.places.items())
    parts.append(f"abbrev pub in_set : NodeSet → NodeType → Bool{clauses}")
    homes = [("Rattle.std.specs.Prelude", ["Bool", "true", "false", "◌||◌"])] + types_in_antt(table)
    return layout.antt("The types in each set.", homes, TYPES, "\n\n".join(parts))


def tested(table, name):
    return tested(table, table.sets[name].members[0]) if is_other(table, name) else "is_" + snake(name)


def inner_sets(table, name):
    """The sets in a set, and none in that of one type alone."""
    return [m for m in table.sets[name].members if m in table.sets] if name in table.sets else []


def own_types(table, name):
    """The types of a set that aren't of a set within it."""
    inner = {t for s in inner_sets(table, name) for t in table.types_in(s)}
    return [t for t in table.types_in(name) if t not in inner]


def others(table, name):
    """What is asked of the other types: whether they are of a set within it."""
    return " || ".join(f"{tested(table, s)} type" for s in inner_sets(table, name)) or "false"
