"""specs/Values.antt: the values of a node by field; specs/Law.antt and its proof: each is that of the field it names."""

import layout
from names import SPECS, TREE, TYPES, atoms, variants_of_words, words_in_antt
from table import VALUES, snake

HELD = {"text": ("List ℕ", "[]"), "units": ("List ℕ", "[]"), "digits": ("ℕ", "0"), "number": ("ℕ", "0"), "flag": ("Bool", "false")}

# Kinds of values that may be absent: what is held where there is one.
MAYBE = {"number": "ℕ", "units": "List ℕ"}


def write(table):
    return {"specs/Values.antt": values(table), "specs/Law.antt": law(table),
            "proofs/laws/fields_are_named/Answers.antt": proof(table)}


def kinds(table):
    """Each kind of value that a named field has: its name, what it holds, and what stands for a value of another kind."""
    used = {f.kind for n in table.nodes.values() for f in table.values(n) if is_read(n, f)}
    every = [(k, *HELD[k]) for k in VALUES if k in used]
    return every + [(w.short, w.name, f"{w.alias}.{w.words[0][1]}") for w in table.words.values() if w.name in used]


def is_read(n, f):
    """Whether the field's value has its kind: those of a field that is written by hand have, also where they aren't read yet."""
    return not f.unread or f.name in {it.name for outer in n.fields for it in outer.parts or []}


def is_whole(n, f):
    """Whether the value is given as it stands, since it may be of two kinds, or isn't read yet. A flag that isn't read yet is
    one that isn't set."""
    return bool(f.other) or not is_read(n, f) and f.kind != "flag"


def kind_of(table, f):
    return table.words[f.kind].short if f.kind in table.words else f.kind


def if_given(kind):
    return f"as_{kind}_if_given"


def one(held):
    """The type, as an argument of another."""
    return f"({held})" if " " in held else held


def reader(n, f):
    return f"{snake(n.name)}_{f.name}"


def values(table):
    held = {k: h for k, h, _ in kinds(table)}
    parts = ["-- ---- kinds of values; where the value is of another kind, any"]
    parts += [f"abbrev pub as_{k} : Atom → {h}\nas_{k} ({k} x) = x\nas_{k} v = {other}" for k, h, other in kinds(table)]
    parts += [f"abbrev pub {if_given(k)} : Atom → Option {one(h)}\n{if_given(k)} ({k} x) = Some x\n{if_given(k)} v = None" for k, h in MAYBE.items()]
    parts += ["-- ---- fields, by the type of the node and the field's name"]
    for n in table.nodes.values():
        for f in table.values(n):
            k, at = kind_of(table, f), f"value_at {table.values(n).index(f)} a.values"
            result, body = ("Atom", at) if is_whole(n, f) else (held[k], f"as_{k} ({at})")
            result, body = (f"Option {one(MAYBE[k])}", f"{if_given(k)} ({at})") if f.many and is_read(n, f) else (result, body)
            doc = f"-- the field's {f.kind}, or the {f.other} that it was read as\n" if f.other else ""
            doc = doc if is_read(n, f) else "-- not read yet\n"
            parts.append(f"{doc}abbrev pub {reader(n, f)} : Atoms → {result}\n{reader(n, f)} a = {body}")
    homes = [("Rattle.std.specs.Prelude", ["ℕ", "List", "[]", "Bool", "false", "Option", "Some", "None"])] + words_in_antt(table) + atoms(table) + TREE
    homes += [(f"{SPECS}.Places", ["value_at"])]
    about = "The values of a node, by the field that holds them. Each reads the place that its field has in the table of " \
            "fields (specs/Fields.antt): `FieldsAreNamed` says so."
    return layout.antt(about, homes, variants_of_words(table), "\n\n".join(parts))


def law(table):
    lines = ""
    for n in table.nodes.values():
        facts = []
        for f in table.values(n):
            value = f'value_named (codes "{f.name}") (fields types.{n.name}) a.values'
            taken = if_given(f.kind) if f.many else f"as_{kind_of(table, f)}"
            facts.append(f"{reader(n, f)} a ≡ {value if is_whole(n, f) else f'{taken} ({value})'}")
        if facts:
            said = facts[0] if len(facts) == 1 else " × ".join(f"({fact})" for fact in facts)
            lines += f"  pub {snake(n.name)} : (a : Atoms) → {said}\n"
    body = f"-- each value is that of the field of its name\npub record FieldsAreNamed : Type 0 where\n{lines}"
    readers = [reader(n, f) for n in table.nodes.values() for f in table.values(n)]
    homes = [("Rattle.std.specs.Prelude", ["◌≡◌", "codes"]), (f"{SPECS}.Tree", ["Atoms"])]
    homes += [(f"{SPECS}.Table", ["value_named"]), (f"{SPECS}.Fields", ["fields"]),
              (f"{SPECS}.Values", [f"as_{k}" for k, _, _ in kinds(table)] + [if_given(k) for k in MAYBE] + readers)]
    return layout.antt("What is promised of the names of fields.", homes, TYPES, body)


def proof(table):
    lines = ""
    for n in table.nodes.values():
        count = len(table.values(n))
        if count:
            lines += f"  {snake(n.name)} = λ a. {'refl' if count == 1 else '(' + ', '.join(['refl'] * count) + ')'};\n"
    body = f"pub returns : goal.returns\nreturns c = record {{\n{lines}}}"
    homes = [("Rattle.std.proofs.Common", ["refl"])]
    aliases = [("Rattle.jsgen_tree.proofs.laws.fields_are_named.Goals", "goal")]
    return layout.antt("Each by its place in the table.", homes, aliases, body)
