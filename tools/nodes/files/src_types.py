"""src/types.rt: the enums of types and of sets, and which types are in which."""

import layout
from table import snake


def write(table):
    about = "The types of nodes, and the sets that a field's child may be of."
    types = "".join(f"    {n},\n" for n in table.nodes)
    sets = "".join(f"    {s},\n" for s in table.child_sets() + list(table.places))
    arms = "".join(f"            NodeSet::{s} => {test(table, s)},\n" for s in table.child_sets())
    arms += "".join(f"            NodeSet::{p} => {test(table, s)},\n" for p, s in table.places.items())
    large = [s for s in table.sets if len(table.types_in(s)) > 1 and not is_other(table, s)]
    body = f"""/// The type of a node.
#[derive(Clone, Copy, Debug, PartialEq, Eq)]
pub enum NodeType {{
{types}}}

/// What the child of a field may be: a member of a set, or a node of one type.
#[derive(Clone, Copy, Debug, PartialEq, Eq)]
pub enum NodeSet {{
{sets}}}

impl NodeType {{
    /// Whether nodes of this type are in the set.
    pub fn is_in(self, set: NodeSet) -> bool
        ensures {{ result ≡ in_set set self }}
    {{
        match set {{
{arms}        }}
    }}
{"".join(is_function(table, s) for s in large)}}}"""
    ghosts = [("Rattle.std.specs.Prelude", ["◌≡◌"]),
              ("Rattle.jsgen_tree.specs.Sets", ["in_set"] + ["is_" + snake(s) for s in table.sets])]
    return {"src/types.rt": layout.rust(about, ghosts, [], [], body)}


def is_other(table, name):
    """Whether a set has one member, which is a set."""
    return name in table.sets and len(table.sets[name].members) == 1 and table.sets[name].members[0] in table.sets


def test(table, name):
    if is_other(table, name):
        return test(table, table.sets[name].members[0])
    types = table.types_in(name)
    return f"matches!(&self, NodeType::{types[0]})" if len(types) == 1 else f"self.is_{snake(name)}()"


def is_function(table, name):
    """A set within a set is asked by its own function."""
    own = [m for m in table.sets[name].members if m not in table.sets]
    inner = [f"self.is_{snake(m)}()" for m in table.sets[name].members if m in table.sets]
    types = "\n                | ".join("NodeType::" + t for t in own)
    test = " || ".join(([f"""matches!(
            &self,
            {types}
        )"""] if own else []) + inner)
    return f"""
    /// Whether nodes of this type are in `{name}`.
    pub fn is_{snake(name)}(self) -> bool
        ensures {{ result ≡ is_{snake(name)} self }}
    {{
        {test}
    }}
"""
