"""proofs/Programs.antt of the crate of definitions: a node of Rust is formed where its children are, set by set. What is
particular to a type is proved by hand, in FormedRows.antt."""

import layout
from files.proofs_cases import CASES, aliases, is_inner_set, lemma_names, needs_steps, opened, to_open, variant
from names import DECLARED, MODEL, SPECS, TREE, row_names, sets_in_antt
from table import snake

# The types of which more is asked than their children: what is shown of the node itself.
OWN = {"NumericLiteral": "number_is_formed {}.span {}.value {}.fits", "StringLiteral": "string_is_formed {}.value", "RegExpLiteral": "text_is_formed {}.pattern", "TemplateElement": "text_is_formed {}.raw"}


def write(table):
    clauses = [of_set(table, s) for s in table.nesting()]
    layer = "".join(f"\n  layer_is_formed (opened.{s.name} n) = {snake(s.name)}_is_formed n" for s in table.nesting())
    leaves = "".join(of_leaves(table, s) + "\n\n" for s in table.sets.values() if not s.nests and not table.generic(s.name))
    body = leaves + "module _ {A : Type 0} (f : A → Node) (h : (a : A) → IsFormed (node_plain (f a))) where\n" + "\n\n".join(clauses) + f"""

  pub layer_is_formed : (y : Node-F A) → IsFormed (layer (map-Node Node Tree node_plain (map-Node A Node f y))){layer}"""
    homes = [("Rattle.std.proofs.Common", ["refl"]), ("Rattle.std.proofs.lemmas.Bool", ["and_from"]), (f"{SPECS}.Plain", ["node_plain", "layer"]), (CASES, lemma_names(table)),
             (f"{DECLARED}.nodes.Node", ["Node", "Node-F", "map-Node"])] + TREE + row_names(table) + sets_in_antt(table)
    homes += [("Rattle.jsgen_tree.proofs.Layers", ["with_hole"]), (f"{MODEL}.proofs.FormedRows", ["IsFormed", "no_hole", "all_formed", "no_hole_changed", "all_changed", "all_changed_or_holes", "if_given_formed", "no_hole_if_listed", "all_formed_if_listed", "number_is_formed", "string_is_formed", "text_is_formed"])]
    every = [(f"{DECLARED}.nodes.Node.TheOpen", "opened")] + aliases(table)
    about = "A node of Rust is formed where its children are."
    return {"crates/jsgen_model/proofs/Programs.antt": layout.antt(about, homes, every, body)}


def of_leaves(table, s):
    """Why each member of a set is formed, in which nothing nests."""
    name, of = f"{snake(s.name)}_is_formed", s.name
    clauses = "".join(f"\n{name} {variant(s, m)} = {row(table, table.nodes[m], 'b.value', 'n', {})}" for m in s.members)
    return f"{name} : (n : {of}) → IsFormed (in_{snake(s.name)} n){clauses}"


def of_set(table, s):
    name, of = f"{snake(s.name)}_is_formed", s.name + (" A" if table.generic(s.name) else "")
    clauses = "".join(f"\n  {name} {variant(s, m)} = {member(table, s, m)}" for m in s.members)
    return f"  {name} : (n : {of}) → {goal(s, 'n')}{clauses}"


def goal(s, n):
    return f"IsFormed (layer (map-Node Node Tree node_plain (map-Node A Node f (opened.{s.name} {n}))))"


def member(table, s, name):
    if name in table.sets:
        return "h b.value.node"
    n = table.nodes[name]
    if not to_open(table, n):
        return row(table, n, "b.value", "n", {})
    motive = f"(λ n. {goal(s, f'({snake(s.name)}s.{name} (record b {{ value = n }}))')})"
    return f"{each(table, n, motive)} b.value"


def each(table, n, motive="_"):
    """Why each struct of the type is formed."""
    return opened(table, n, "n", False, motive, {}, lambda there: f"(λ n. {row(table, n, 'n', 'n', there)})")


def row(table, n, at, name, there):
    """Why the node at this place is formed, where all optional children are opened: itself, and each child."""
    proof = "tt"
    for f in reversed(table.children(n)):
        proof = f"({child(table, f, f'{at}.{f.rust}', f'{name}_{f.rust}', there)}, {proof})"
    return f"({itself(table, n, at)}, {proof})"


def itself(table, n, at):
    if n.name in OWN:
        return OWN[n.name].replace("{}", at)
    lists = [whole_list(table, f, at) for f in table.children(n) if f.many in ("*", "*?")]
    if len(lists) > 2:
        raise SystemExit(f"{n.name}: that a type with three lists is formed has no proof yet")
    return f"and_from _ _ ({lists[1]}) ({lists[0]})" if len(lists) == 2 else lists[0] if lists else "refl"


def whole_list(table, f, at):
    """Why a list has no hole."""
    if f.many == "*?":
        return f"no_hole_if_listed _ {at}.{f.rust}"
    return f"no_hole_changed _ _ _ {at}.{f.rust}.items" if needs_steps(table, f) else f"no_hole _ {at}.{f.rust}.items"


def leaf(table, kind, at, name):
    """Why a child at this place is formed, in which nothing nests."""
    return row(table, table.nodes[kind], at, name, {}) if kind in table.nodes else f"{snake(kind)}_is_formed {at}"


def child(table, f, at, name, there):
    if f.many == "*" and not needs_steps(table, f):
        return f"all_formed _ (λ d. {leaf(table, f.kind, 'd', name)}) {at}.items"
    if f.many == "*?" and not needs_steps(table, f):
        return f"all_formed_if_listed _ (λ d. {leaf(table, f.kind, 'd', name)}) {at}"
    if f.many == "*?":
        raise SystemExit(f"{f.name}: a list that may be absent, of what nests, has no form yet")
    if f.many == "*":
        return f"all_changed _ _ _ {one_of_many(table, f.kind)} {at}.items"
    if f.many == "?*":
        return f"all_changed_or_holes _ _ _ (with_hole _ tt {one_of_many(table, f.kind)}) {at}.items"
    if f.many == "?" and not needs_steps(table, f):
        return f"if_given_formed _ (λ b. {leaf(table, f.kind, 'b.value' if f.kind in table.nodes else 'b', name)}) {at}"
    if f.many == "?" and not there[name]:
        return "tt"
    if is_inner_set(table, f.kind):
        if name not in there:
            return leaf(table, f.kind, at, name)
        here, member = there[name]
        return in_box(table, member, here, name, there)
    here = there.get(name) or at
    return row(table, table.nodes[f.kind], f"{here}.value", name, there) if f.kind in table.nodes else f"h {here}.node"


def in_box(table, name, box, child="n", there={}):
    """Why the member of a set in this box is formed, where what is optional in it is opened."""
    if name in table.sets:
        return f"h {box}.value.node"
    return row(table, table.nodes[name], f"{box}.value", child, there)


def each_box(table, name):
    """Why each member of a set is formed, in its box."""
    if name in table.sets or not to_open(table, table.nodes[name]):
        return f"(λ b. {in_box(table, name, 'b')})"
    n = table.nodes[name]
    return opened(table, n, "n", True, "_", {}, lambda there: f"(λ n. {row(table, n, 'n.value', 'n', there)})")


def one_of_many(table, kind):
    if kind in table.nodes:
        return each(table, table.nodes[kind])
    s = table.sets[kind]
    if s.nests:
        return "(λ n. h n.node)"
    inside = "".join(f" {each_box(table, m)}" for m in s.members)
    return f"(with_{snake(kind)} _{inside})"
