"""src/node_type.rt: `node_type()` of each set, whatever nests in it, and of `Node`: a function that names `Node` is dear."""

import layout
from names import sets_in_rust
from table import snake


def write(table):
    parts = [of_set(table, s) for s in table.sets.values()] + [of_node(table)]
    plains = [s.plain for s in table.nesting()] + ["in_" + snake(s) for s in table.sets]
    ghosts = [("Rattle.std.specs.Prelude", ["◌≡◌"]), ("Rattle.jsgen_tree.specs.Tree", ["type_of"]),
              ("Rattle.jsgen_tree.specs.Rows", plains), ("Rattle.jsgen_tree.specs.Plain", ["node_plain"])]
    homes = [("crate::nodes", ["Node"])] + sets_in_rust(table) + [("crate::types", ["NodeType"])]
    return {"src/node_type.rt": layout.rust("The type of a member of each set.", ghosts, [], homes, "\n\n".join(parts))}


def plain(table, s):
    """The plain data of `self`, from that of what nests."""
    name = s.plain if s.nests else "in_" + snake(s.name)
    return f"{name} N.plain self.now" if table.generic(s.name) else f"{name} self.now"


def of_set(table, s):
    arms = ""
    for m in s.members:
        arms += f"            {s.name}::{m}(node) => node.get().node_type(),\n" if m in table.sets else \
                f"            {s.name}::{m}(_) => NodeType::{m},\n"
    head = f"impl<N: HasType> {s.name}<N>" if table.generic(s.name) else f"impl {s.name}"
    return f"""{head} {{
    /// The type of the node.
    pub fn node_type(&self) -> NodeType
        ensures {{ result ≡ type_of ({plain(table, s)}) }}
    {{
        match self {{
{arms}        }}
    }}
}}"""


def of_node(table):
    arms = "".join(f"            Node::{s.name}(node) => node.node_type(),\n" for s in table.nesting())
    return f"""/// What nests in a set and has a type: `Node` alone.
pub trait HasType {{
    ghost use Rattle.jsgen_tree.specs.Tree.{{Tree}};

    ghost plain: {{ Self → Tree }};

    /// The type of the node.
    fn node_type(&self) -> NodeType
        ensures {{ result ≡ type_of (plain self.now) }};
}}

impl HasType for Node {{
    ghost plain = {{ λ n. node_plain n }};

    #[cycle(node_type)]
    fn node_type(&self) -> NodeType {{
        match self {{
{arms}        }}
    }}
}}

impl Node {{
    /// The type of the node.
    pub fn node_type(&self) -> NodeType
        ensures {{ result ≡ type_of (node_plain self.now) }}
    {{
        HasType::node_type(self)
    }}
}}"""
