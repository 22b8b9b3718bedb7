"""proofs/Knot.antt: the plain data of the recursive type is, set by set, that of what it holds; and so are spans.
The lemmas of lists and of rows that it uses are in proofs/Layers.antt, by hand."""

import layout
from files.proofs_cases import CASES, aliases, is_inner_set, lemma_names, needs_steps, opened, to_open, variant
from files.specs_tree import SLOTS
from names import DECLARED, SPECS, TREE, row_names, sets_in_antt
from table import snake


def write(table):
    parts = ["""pub plain_out : (n : Node) → node_plain n ≡ layer (map-Node Node Tree node_plain (out-Node n))
unfolding node_plain
plain_out n = fold_out-Node Tree layer n"""]
    parts += ["-- ---- a layer of each set over what its children give"]
    parts += [natural(table, s) for s in table.nesting() if table.generic(s.name)]
    parts += [plain(table, s) for s in table.nesting()]
    parts += ["-- ---- spans"] + [spans(table, s) for s in table.nesting()]
    homes = [("Rattle.std.proofs.Common", ["◌≡◌", "refl", "sym", "ap", "◌∙◌"]), (CASES, lemma_names(table)),
             (f"{SPECS}.Plain", ["node_plain", "layer"]),
             (f"{SPECS}.Spans", [snake(s) + "_span" for s in table.sets])] + TREE + row_names(table)
    homes += [("Rattle.jsgen_tree.proofs.Layers",
               ["map_after", "with_hole", "same_slots", "same_one", "same_maybe", "same_many"]),
              (f"{DECLARED}.nodes.Node", ["Node", "out-Node", "map-Node", "fold_out-Node"]),
              (f"{DECLARED}.nodes.Node.TheVariants", ["outs-" + s.name for s in table.nesting()])]
    homes += sets_in_antt(table)
    every = [(f"{DECLARED}.nodes.Node.TheVariants", "nodes"), (f"{DECLARED}.nodes.Node.TheOpen", "opened")]
    about = "The plain data of the recursive type is, set by set, that of what it holds."
    return {"proofs/Knot.antt": layout.antt(about, homes, every + aliases(table), "\n\n".join(parts))}


def natural(table, s):
    name = "natural_" + snake(s.name)
    clauses = "".join(f"\n{name} h {variant(s, m)} = {natural_member(table, s, m)}" for m in s.members)
    return f"{name} : (h : Node → Tree) (n : {s.name} Node) → {equation(s, 'n')}{clauses}"


def equation(s, n):
    return f"layer (map-Node Node Tree h (opened.{s.name} {n})) ≡ {s.plain} h {n}"


def natural_member(table, s, m):
    of = equation(s, f"({snake(s.name)}s.{m} (record b {{ value = n }}))")
    return same(table, m, "b.value", f"(λ n. {of})")


def same_each(table, n, motive="_"):
    """Why each struct's row over what a layer's children give is its row."""
    return opened(table, n, "n", False, motive, {}, lambda there: f"(λ n. {same_slots(table, n, 'n', 'n', there)})")


def same(table, name, at, motive):
    if name in table.sets:
        return "refl"
    n = table.nodes[name]
    return f"{same_each(table, n, motive)} {at}" if to_open(table, n) else same_slots(table, n, at, "n", {})


def same_slots(table, n, at, name, there):
    """The same child by child, where all optional children are opened."""
    proofs = [(f, same_child(table, f, f"{at}.{f.rust}", f"{name}_{f.rust}", there)) for f in table.children(n)]
    if all(p == "refl" for _, p in proofs):
        return "refl"
    slots = "refl"
    for f, p in reversed(proofs):
        p, slots = p if p == "refl" else f"({p})", slots if slots == "refl" else f"({slots})"
        slots = f"same_{SLOTS[f.many][0]} {p} {slots}"
    return f"same_slots ({slots})"


def same_child(table, f, at, name, there):
    if not needs_steps(table, f):
        return "refl"
    if f.many == "*":
        return f"ap trees (map_after _ _ _ {same_member(table, f.kind)} {at}.items)"
    if f.many == "?*":
        return f"ap holed (map_after _ _ _ (with_hole _ refl {same_member(table, f.kind)}) {at}.items)"
    if f.many == "?" and not there[name]:
        return "refl"
    if is_inner_set(table, f.kind):
        child, member = there[name]
        proof = "refl" if member in table.sets else same_slots(table, table.nodes[member], child + ".value", child, there)
        return f"ap (λ t. given t) ({proof})" if f.many == "?" and proof != "refl" else proof
    if f.kind in table.nodes:
        proof = same_slots(table, table.nodes[f.kind], there.get(name, at) + ".value", name, there)
        return f"ap (λ t. given t) ({proof})" if f.many == "?" and proof != "refl" else proof
    return "refl"


def of_box(table, name):
    """The same for a member of a set, in its box."""
    if name in table.sets:
        return "(λ b. refl)"
    n = table.nodes[name]
    return opened(table, n, "n", True, "_", {}, lambda there: f"(λ n. {same_slots(table, n, 'n.value', 'n', there)})")

def same_member(table, name):
    """The same for each member of a list."""
    if name in table.nodes:
        return same_each(table, table.nodes[name])
    s = table.sets[name]
    if s.nests:
        return "(λ n. refl)"
    members = "".join(f" {of_box(table, m)}" for m in s.members)
    return f"(with_{snake(name)} _{members})"


def plain(table, s):
    name, of = "plain_" + snake(s.name), s.name + (" Node" if table.generic(s.name) else "")
    result = f"{s.plain} node_plain n" if table.generic(s.name) else f"{s.plain} n"
    last = f" ∙ natural_{snake(s.name)} node_plain n" if table.generic(s.name) else ""
    return f"""pub {name} : (n : {of}) → node_plain (nodes.{s.name} n) ≡ {result}
{name} n = plain_out (nodes.{s.name} n) ∙ ap (λ o. layer (map-Node Node Tree node_plain o)) (outs-{s.name} n){last}"""


def spans(table, s):
    generic, inner = table.generic(s.name), any(m in table.sets for m in s.members)
    name, of = snake(s.name), s.name + (" Node" if generic else "")
    clauses = "".join(f"\nof_{name} h {variant(s, m)} = refl" for m in s.members)
    span = f"{name}_span" + (" (λ n. span_of ({} n))" if inner else "")
    row = f"{s.plain} h n" if generic else f"{s.plain} n"
    return f"""of_{name} : (h : Node → Tree) (n : {of}) → {span.format('h')} n ≡ span_of ({row}){clauses}

pub {name}_spans : (n : {of}) → {span.format('node_plain')} n ≡ span_of (node_plain (nodes.{s.name} n))
{name}_spans n = of_{name} node_plain n ∙ ap span_of (sym (plain_{name} n))"""
