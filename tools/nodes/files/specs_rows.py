"""specs/Rows.antt: the plain data of each struct and set, from that of what nests."""

import layout
from names import SPECS, TREE, atoms, nodes_in_antt, patterns, plain_of, sets_in_antt, variants_of_sets, wrappers_in_antt
from table import snake


def write(table):
    parts = ["-- ---- children that nest"] + [wrapper(s.name) for s in table.nesting()]
    parts += ["-- ---- structs, and sets that don't nest"] + in_order(table)
    parts += ["-- ---- sets that nest"] + [set_plain(table, s) for s in table.nesting()]
    homes = [("Rattle.std.specs.Prelude", ["[]", "◌∷◌", "map", "option_map"]),
             ("Rattle.jsgen_syntax.specs.Units", ["js_units"]), (f"{SPECS}.Characters", ["characters", "number_if_given", "units_if_given", "numeric_values"])]
    homes += TREE + atoms(table) + patterns(table)
    homes += wrappers_in_antt(table) + nodes_in_antt(table) + sets_in_antt(table)
    body = "\n\n".join(parts)
    about = "The plain data of each struct and set, from that of what nests."
    return {"specs/Rows.antt": layout.antt(about, homes, variants_of_sets(table), body)}


def in_order(table):
    """Each row after those that it cites."""
    done, parts = set(), []

    def visit(name):
        if name in done or (name in table.sets and table.sets[name].nests):
            return
        done.add(name)
        if name in table.sets:
            for m in table.sets[name].members:
                visit(m)
            parts.append(set_plain(table, table.sets[name]))
        else:
            for f in table.children(table.nodes[name]):
                visit(f.kind)
            parts.append(struct(table, table.nodes[name]))

    for name in list(table.nodes) + list(table.sets):
        visit(name)
    return parts


def typed(table, name, of):
    """The type of a definition on the struct or set, and its first argument."""
    if table.generic(name):
        return f"{{N : Type 0}} → (N → Tree) → {of} N → Tree", " plain"
    return f"{of} → Tree", ""


def wrapper(s):
    name = "in_" + snake(s)
    return f"abbrev pub {name} : {{N : Type 0}} → (N → Tree) → {s}Node N → Tree\n{name} plain n = plain n.node"


def set_plain(table, s):
    name = s.plain if s.nests else "in_" + snake(s.name)
    of, plain = typed(table, s.name, s.name)
    clauses = ""
    for m in s.members:
        row, takes = plain_of(table, m)
        clauses += f"\n{name}{plain} ({snake(s.name)}.{m} b) = {row}{' plain' if takes else ''} b.value"
    return f"abbrev pub {name} : {of}{clauses}"


def struct(table, n):
    of, plain = typed(table, n.name, n.name)
    held = "".join(" " + slot(table, f) for f in table.children(n))
    return f"""abbrev pub {n.row} : {of}
{n.row}{plain} n = {n.short} (record {{ span = n.span; values = {values(table, n)} }}){held}"""


def values(table, n):
    """One value for each field that holds one; those of a field by hand have a definition of their own."""
    held = {f.name: f for f in n.in_rust() if not f.parts}
    whole = [f for f in n.in_rust() if f.parts]
    if whole:
        return f"{snake(whole[0].kind).removesuffix('_value')}_values n.{whole[0].rust}"
    text = "[]"
    for f in reversed(table.values(n)):
        text = f"{value(table, f) if f.name in held else 'no_value'} ∷ {text}"
    return text


def value(table, f):
    here = f"n.{f.rust}"
    if f.many:
        return f"{f.kind}_if_given {here}"
    form = {"text": f"text (characters {here})", "units": f"units (js_units {here})"}
    short = table.words[f.kind].short if f.kind in table.words else f.kind
    return form.get(f.kind, f"{short} {here}")


def slot(table, f):
    row, takes = plain_of(table, f.kind)
    here = f"n.{f.rust}"
    each = f"({row} plain)" if takes else row
    if f.many == "*":
        return f"(trees (map {each} {here}.items))"
    if f.many == "?*":
        return f"(holed (map (option_map {each}) {here}.items))"
    if f.many == "*?":
        return f"(optional_list (option_map (λ v. map {each} v.items) {here}))"
    if f.kind in table.nodes:
        here += ".value"
    if f.many == "?":
        if f.kind in table.nodes:
            each = f"(λ b. {row}{' plain' if takes else ''} b.value)"
            here = f"n.{f.rust}"
        return f"(optional (option_map {each} {here}))"
    return f"({row}{' plain' if takes else ''} {here})"
