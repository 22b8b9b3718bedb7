"""The library: src/impls.rt, where each type and set has `Gen` or `GenExpr`."""

import layout
from files.alone import NEVER, at_level


def write(table):
    names = [name for name in list(table.nodes) + list(table.sets) if name not in NEVER]
    body = "\n\n".join(f"impl {'GenExpr' if at_level(name) else 'Gen'} for {name} {{}}" for name in names)
    homes = [("crate::gens", ["Gen", "GenExpr"]), ("jsgen_tree", names)]
    return {"crates/jsgen/src/impls.rt": layout.rust("What is printed by itself has `Gen`, and what is printed at a level `GenExpr`.", [], [], homes, body)}
