"""What the table says of a node's meaning, between marks in the definitions of jsgen_model: of which types and flags no reading is
promised, and which are core and not plain (Plain.antt), and the normal form of a row (Normal.antt), where no clause by hand gives it.
Of each row whose normal form it gives, between marks in proofs of jsgen_row_laws: that its normal form is its own
(Normals.antt), and that it is the same without tables (Unrenamed.antt)."""

import re

import layout
from files.specs_values import kind_of, reader
from files.spelled import variable
from names import REPOSITORY

SPECS = REPOSITORY / "crates" / "jsgen_model" / "specs"
LAWS = REPOSITORY / "crates" / "jsgen_row_laws" / "proofs"


def write(table):
    return {"crates/jsgen_model/specs/Plain.antt": plain(table), "crates/jsgen_model/specs/Normal.antt": normal(table),
            "crates/jsgen_row_laws/proofs/Normals.antt": law(table, "Normals.antt", "normal_again", True),
            "crates/jsgen_row_laws/proofs/Unrenamed.antt": law(table, "Unrenamed.antt", "unrenamed", False)}


def by_default(table, text, function):
    """The types without a clause of the function by hand."""
    there = set(re.findall(rf"(?m)^ *{function} \(tree\.(\w+)", layout.by_hand(text)))
    return [n for n in table.nodes.values() if n.short not in there]


def row(table, n):
    return f"(tree.{n.short} a{''.join(f' {variable(f)}' for f in table.children(n))})"


# ---- Plain.antt

def plain(table):
    text = (SPECS / "Plain.antt").read_text()
    nodes = table.nodes.values()
    types = [f"is_core_type types.{n.name} = false" for n in nodes if n.promise == "unpromised"]
    flags = [f"has_core_flags types.{n.name} a = {' && '.join(f'not ({reader(n, f)} a)' for f in flags_of(table, n, 'unpromised'))}" for n in nodes if flags_of(table, n, "unpromised")]
    core_types = [f"is_core_alone types.{n.name} = true" for n in nodes if n.promise == "core"]
    core_flags = [f"sets_core_flag types.{n.name} a = {' || '.join(f'{reader(n, f)} a' for f in flags_of(table, n, 'core'))}" for n in nodes if flags_of(table, n, "core")]
    for name, clauses in (("types", types), ("flags", flags), ("core_types", core_types), ("core_flags", core_flags)):
        text = layout.region(text, name, "\n".join(clauses))
    return text


def flags_of(table, n, promise):
    return [f for f in table.values(n) if f.promise == promise]


# ---- Normal.antt

def normal(table):
    text = (SPECS / "Normal.antt").read_text()
    clauses = [f"  normal {row(table, n)} = tree.{n.short} {values(table, n)}{''.join(' ' + child(f) for f in table.children(n))}"
               for n in by_default(table, text, "normal")]
    return layout.region(text, "clauses", "\n".join(clauses))


def values(table, n, again=()):
    held = table.values(n)
    if all(f.dropped for f in held):
        return f"(nothing_of {len(held)})"
    return f"(bare ({' ∷ '.join([value(table, n, f, again) for f in held] + ['[]'])}))"


def value(table, n, f, again=()):
    if f.dropped:
        return "no_value"
    if f.name in again:
        return f"if_set ({again[f.name]} i)"
    return f"{'if_set' if f.promise != 'plain' else kind_of(table, f)} ({reader(n, f)} a)"


PARTS = {"": "", "?": "_maybe", "*": "_trees", "?*": "_trees", "*?": "_maybe_trees"}


def child(f):
    return f"(normal{PARTS[f.many]} {variable(f)})"


# ---- Normals.antt and Unrenamed.antt

def law(table, name, function, flags):
    """Of each row without a normal form by hand, that both its sides are one: by its flags, where these may change, and its parts."""
    text = (LAWS / name).read_text()
    rows = by_default(table, (SPECS / "Normal.antt").read_text(), "normal")
    return layout.region(text, "rows", "\n".join(f"  {function} {row(table, n)} = {sides(table, n, function, flags)}" for n in rows))


def sides(table, n, function, flags):
    stem = function.removesuffix("_again")
    ending = function[len(stem):]
    held = [f for f in table.values(n) if flags and f.promise != "plain" and not f.dropped]
    again = {f.name: f"s{i}" for i, f in enumerate(held)}
    parts = [(f, f"e{i}") for i, f in enumerate(table.children(n))]
    lets = [f"let {again[f.name]} = flag_again ({reader(n, f)} a) in " for f in held]
    lets += [f"let {e} = {stem}{PARTS[f.many]}{ending} {variable(f)} in " for f, e in parts]
    if not lets:
        return "refl"
    return f"{''.join(lets)}λ i. tree.{n.short} {values(table, n, again)}{''.join(f' ({e} i)' for _, e in parts)}"
