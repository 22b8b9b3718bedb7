"""src/span.rt: `GetSpan`, and that of each set; src/type_spans.rt: that of each type."""

import layout
from names import nodes_in_rust, sets_in_rust, wrappers_in_rust
from table import snake

TRAIT = """/// Where a node stands in its source; a set's is its member's.
pub trait GetSpan {
    ghost use Rattle.jsgen_syntax.specs.declared.span.Span.{Span};

    ghost own_span: { Self → Span };

    fn span(&self) -> Span
        ensures { result ≡ own_span self.now };
}"""


def write(table):
    parts = [TRAIT] + [of_set(table, s) for s in table.sets.values()] + [of_node_itself(table)]
    types = [of_node(table, n) for n in table.nodes]
    ghosts = [("Rattle.std.specs.Prelude", ["◌≡◌"]), ("Rattle.jsgen_tree.specs.Tree", ["span_of"]),
              ("Rattle.jsgen_tree.specs.Plain", ["node_plain"]),
              ("Rattle.jsgen_tree.specs.Spans", [snake(s) + "_span" for s in table.sets])]
    homes = nodes_in_rust(table) + [("crate::nodes", ["Node"])] + sets_in_rust(table) + [("jsgen_syntax", ["Span"])]
    there = homes + [("crate::span", ["GetSpan"])]
    return {"src/span.rt": layout.rust("The span of each node: a set's is its member's.", ghosts, [], homes, "\n\n".join(parts)),
            "src/type_spans.rt": layout.rust("The span of each type of node.", ghosts, [], there, "\n\n".join(types))}


def of_node(table, name):
    head = f"impl<N> GetSpan for {name}<N>" if table.generic(name) else f"impl GetSpan for {name}"
    return f"""{head} {{
    ghost own_span = {{ λ n. n.span }};

    fn span(&self) -> Span {{
        self.span
    }}
}}"""


def of_set(table, s):
    inner = any(m in table.sets for m in s.members)
    head = f"impl GetSpan for {s.name}"
    if table.generic(s.name):
        head = f"impl{'<N: GetSpan>' if inner else '<N>'} GetSpan for {s.name}<N>"
    arms = ""
    for m in s.members:
        got = "node.get().span()" if m in table.sets else "node.span"
        arms += f"            {s.name}::{m}(node) => {got},\n"
    return f"""{head} {{
    ghost own_span = {{ λ n. {snake(s.name)}_span{' N.own_span' if inner else ''} n }};

    fn span(&self) -> Span {{
        match self {{
{arms}        }}
    }}
}}"""


def of_node_itself(table):
    arms = "".join(f"            Node::{s.name}(node) => node.span(),\n" for s in table.nesting())
    return f"""impl GetSpan for Node {{
    ghost own_span = {{ λ n. span_of (node_plain n) }};

    #[cycle(node_span)]
    fn span(&self) -> Span {{
        match self {{
{arms}        }}
    }}
}}"""
