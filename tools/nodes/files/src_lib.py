"""src/lib.rt: the modules, and the names that the crate passes on."""

import layout
from names import nodes_in_rust

HEAD = """//! The tree of a program, owned by boxes and lists, the options of printing it and the tables of its names. A field
//! bears the name that a job gives it, but `value` of a number, which stands for several.
//!
//! `Node` is the one type that leads back to itself. A child that nests stands in a wrapper that says its
//! set, as `ExpressionNode`, and is made by `into()` from a member of that set.
#![tactic(auto)]
"""

# What stands in files that are written by hand.
BY_HAND = {"kinds": [], "laws": ["equality_is_by_value", "fields_are_named", "operators_are_named"], "names": ["is_proto"], "numbers": ["NumericValue", "behind_minus"], "parentheses": ["Bare"],
           "options": ["CodegenOptions", "CommentOptions", "LegalComment"],
           "scoping": ["PrivateMappings", "Scoping", "Tables"]}


def write(table):
    passed = dict(BY_HAND)
    passed |= {module.removeprefix("crate::"): names for module, names in nodes_in_rust(table)}
    passed["nodes"] = ["Node"] + [s.name + "Node" for s in table.nesting()]
    passed["sets"] = list(table.sets)
    passed["span"] = ["GetSpan"]
    passed["type_spans"] = []
    passed["types"] = ["NodeSet", "NodeType"]
    passed["node_type"] = ["HasType"]
    mods = "".join(f"mod {m};\n" for m in sorted(passed))
    # so many names stand on a line each in the layout of rt fmt
    uses = "".join(f"pub use {m}::{name};\n" for m, names in sorted(passed.items()) for name in sorted(names))
    return {"src/lib.rt": layout.RUST + HEAD + "\n" + mods + "\n" + uses}
