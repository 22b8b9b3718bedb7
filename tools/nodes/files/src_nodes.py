"""src/nodes.rt: the one recursive type, and a wrapper for each set that nests."""

import layout
from names import DECLARED, sets_in_rust
from table import snake, spoken


def write(table):
    sets = [s.name for s in table.nesting()]
    variants = "".join(f"    {s}({s}),\n" for s in sets)
    body = f"""/// A node at a place where trees nest. It has a variant for each set that children nest through.
pub enum Node {{
{variants}}}

""" + "\n\n".join([wrapper(s) for s in sets] + [letting_go(sets)] + [conversion(s) for s in sets] + [getter(s) for s in sets])
    about = "Where trees nest: the one recursive type, and the wrappers that say a child's set."
    ghosts = [("Rattle.std.specs.Prelude", ["◌≡◌"])]
    aliases = [(f"{DECLARED}.nodes.Node.TheVariants", "nodes")]
    return {"src/nodes.rt": layout.rust(about, ghosts, aliases, sets_in_rust(table), body)}


def wrapper(s):
    return f"""/// A child that is {spoken(s)}. It is made from one, and from nothing else.
#[derive(Drop)]
pub struct {s}Node<N = Node> {{
    node: N,
}}"""


def letting_go(sets):
    arms = "".join(f"            Node::{s}(member) => let_go_of_{snake(s)}(member),\n" for s in sets)
    ends = "".join(f"""

fn let_go_of_{snake(s)}<N: Drop>(member: {s}<N>) {{
    let _ = member;
}}""" for s in sets)
    return f"""// Written out, so that it is proved here alone: a derived one is proved again, for all types, in each crate that lets go of a tree.
// Each set is let go of by a function over any `N`: of members at `Node` itself the proof is one for each way that types stand in one another.
impl Drop for Node {{
    #[cycle(node)]
    fn drop(self) {{
        match self {{
{arms}        }}
    }}
}}{ends}"""


def conversion(s):
    return f"""impl From<{s}> for {s}Node {{
    ghost from_gives = {{ λ x y. y.node ≡ nodes.{s} x }};

    fn from(member: {s}) -> {s}Node {{
        {s}Node {{
            node: Node::{s}(member),
        }}
    }}
}}"""


def getter(s):
    return f"""impl<N> {s}Node<N> {{
    /// The node inside.
    pub fn get(&self) -> &N
        ensures {{ result.now ≡ self.now.node }}
    {{
        &self.node
    }}
}}"""
