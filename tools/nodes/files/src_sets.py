"""src/sets.rt: an enum for each set."""

import layout
from names import nodes_in_rust, wrappers_in_rust


def write(table):
    parts = [enum(table, s) for s in table.sets.values()]
    about = "Sets: what may stand in one place. A set within a set is one variant of the inner one's name."
    homes = nodes_in_rust(table) + wrappers_in_rust(table)
    return {"src/sets.rt": layout.rust(about, [], [], homes, "\n\n".join(parts))}


def enum(table, s):
    doc = f"/// {s.doc}\n" if s.doc else ""
    generic = "<N = Node>" if table.generic(s.name) else ""
    variants = "".join(f"    {m}(Box<{held(table, m)}>),\n" for m in s.members)
    return f"{doc}#[derive(Drop)]\npub enum {s.name}{generic} {{\n{variants}}}"


def held(table, member):
    if member in table.sets:
        return f"{member}Node<N>"
    return member + ("<N>" if table.generic(member) else "")
