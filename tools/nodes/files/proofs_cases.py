"""proofs/Cases.antt: a member of a set that doesn't nest by its type, and a struct with an optional child and without."""

import math

import layout
from names import DECLARED, nodes_in_antt, sets_in_antt, wrappers_in_antt
from table import snake

CASES = "Rattle.jsgen_tree.proofs.Cases"


def aliases(table):
    """Here the sets' variants go by the plural, beside the definitions on a set, which have the singular."""
    return [(f"{DECLARED}.sets.{s}.TheVariants", snake(s) + "s") for s in table.sets]


def variant(s, m):
    return f"({snake(s.name)}s.{m} b)"


def write(table):
    parts = ["-- ---- a member of a set that doesn't nest, by its type"] + [by_type(table, s) for s in sets_by_type(table)]
    parts += ["-- ---- a struct with an optional child, and without it"] + openings(table)
    homes = [("Rattle.std.specs.declared.alloc.Global", ["Global"]), ("Rattle.std.proofs.Common", ["Box", "None", "Some"])]
    homes += sets_in_antt(table) + wrappers_in_antt(table) + nodes_in_antt(table)
    about = "A member of a set that doesn't nest by its type, and a struct with an optional child and without it."
    return {"proofs/Cases.antt": layout.antt(about, homes, aliases(table), "\n\n".join(parts))}


def sets_by_type(table):
    return [s for s in table.sets.values() if not s.nests and table.generic(s.name)]


def lemma_names(table):
    """The names of the lemmas here."""
    return [lemma.split()[1] for lemma in [by_type(table, s) for s in sets_by_type(table)] + openings(table)]


def by_type(table, s):
    name = "with_" + snake(s.name)
    steps, names, clauses = "", "", ""
    for m in s.members:
        steps += f"((b : {box_of(table, m)}) → P ({snake(s.name)}s.{m} b)) → "
        names += f" of_{snake(m)}"
    for m in s.members:
        clauses += f"\n{name} P{names} {variant(s, m)} = of_{snake(m)} b"
    return f"pub {name} : {{N : Type 0}} (P : {s.name} N → Type 0) → {steps}(n : {s.name} N) → P n{clauses}"


# The recursive type's map gives nothing of a struct before it has seen each optional child that it looks into, and which
# member a child of a set that doesn't nest is. So a struct is opened first: with each such child and without it, by the
# members of each such set, down through the structs that it holds.

def to_open(table, n):
    return [f for f in table.children(n) if needs_steps(table, f) and (
        f.many == "?" or f.many == "" and (is_inner_set(table, f.kind) or f.kind in table.nodes and to_open(table, table.nodes[f.kind])))]


# So the cases of a struct are as many as those of its children, multiplied; a child of a set that nests has one.
MOST_CASES = 32


def cases(table, n):
    """How many cases the struct is opened into."""
    return math.prod(cases_of_child(table, f) for f in to_open(table, n))


def cases_of_child(table, f):
    kinds = table.sets[f.kind].members if is_inner_set(table, f.kind) else [f.kind]
    return sum(cases(table, table.nodes[k]) if k in table.nodes else 1 for k in kinds) + (f.many == "?")


def refuse_many_cases(table):
    """A row that has more is refused, since the lemma of its set has a line for all of them, and the prover reads it whole."""
    for n in table.nodes.values():
        if cases(table, n) > MOST_CASES:
            f = max(to_open(table, n), key=lambda f: cases_of_child(table, f))
            raise SystemExit(f"{n.name}: it is opened into {cases(table, n)} cases, and {MOST_CASES} are the most; {cases_of_child(table, f)} "
                             f"are those of its child {f.name}; a set that nests, {f.kind} or one of {f.kind} alone, has one")


def is_inner_set(table, kind):
    """Whether it is a set that doesn't nest."""
    return kind in table.sets and not table.sets[kind].nests


def box_of(table, m):
    """The type of what a variant holds."""
    held = f"{m}Node" if m in table.sets else m
    takes = " N" if m in table.sets or table.generic(m) else ""
    return f"Box ({held}{takes}) Global" if takes else f"Box {held} Global"


def needs_steps(table, f):
    """Whether anything in the child nests."""
    return table.generic(f.kind) or (f.kind in table.sets and table.sets[f.kind].nests)


def opening(table, n, f, boxed):
    """The lemma that opens a struct at one child, or a box with the struct."""
    child = f"{f.kind}Node N" if f.kind in table.sets else f"Box ({f.kind} N) Global"
    name, of = f"{snake(n.name)}_by_{f.rust}", f"{n.name} N"
    with_child, n_child = "record n {{ {} = {} }}".format(f.rust, "{}"), f"n.{f.rust}"
    if boxed:
        name, of, n_child = f"boxed_{name}", f"Box ({of}) Global", f"n.value.{f.rust}"
        with_child = f"record n {{ value = record n.value {{ {f.rust} = {{}} }} }}"

    def case(text):
        return f"P ({with_child.replace('{}', text)})"

    if is_inner_set(table, f.kind):
        members = table.sets[f.kind].members
        there = "(Some {})" if f.many == "?" else "{}"
        steps = "".join(f"((b : {box_of(table, m)}) (n : {of}) → {case(there.format(variant(table.sets[f.kind], m)))}) → " for m in members)
        names = "".join(f" of_{snake(m)}" for m in members)
        cases = " | ".join(f"{variant(table.sets[f.kind], m)[1:-1]} ↦ of_{snake(m)} b n" for m in members)
        if f.many == "?":
            steps, names = f"((n : {of}) → {case('None')}) → {steps}", f" none{names}"
            cases = f"None ↦ none n | Some c ↦ elim c as (λ o. {case('(Some o)')}) [ {cases} ]"
        return f"""pub {name} : {{N : Type 0}} (P : {of} → Type 0) → {steps}(n : {of}) → P n
{name} P{names} n = elim {n_child} as (λ o. {case('o')}) [ {cases} ]"""
    if f.many == "":
        return f"""pub {name} : {{N : Type 0}} (P : {of} → Type 0) → ((c : {child}) (n : {of}) → {case('c')}) → (n : {of}) → P n
{name} P all n = all {n_child} n"""
    return f"""pub {name} : {{N : Type 0}} (P : {of} → Type 0) → ((n : {of}) → {case('None')}) → ((c : {child}) (n : {of}) → {case('Some c')}) → (n : {of}) → P n
{name} P none some n = elim {n_child} as (λ o. {case('o')}) [ None ↦ none n | Some c ↦ some c n ]"""


def openings(table):
    held = {f.kind for n in table.nodes.values() for f in to_open(table, n)}
    held |= {m for s in sets_by_type(table) for m in s.members}
    return [opening(table, n, f, boxed) for n in table.nodes.values() for f in to_open(table, n)
            for boxed in [False, True] if not boxed or n.name in held]


def opened(table, n, name, boxed, motive, there, then):
    """What is so of each struct, from what `then` says in each case. `there` has the opened children by name, with
    None for one that isn't there, and with its type for a member of a set."""
    fields = to_open(table, n)

    def step(i, there):
        if i == len(fields):
            return then(there)
        f, child = fields[i], f"{name}_{fields[i].rust}"
        by = f"{'boxed_' if boxed else ''}{snake(n.name)}_by_{f.rust} {'_' if i else motive}"

        def each(there):
            return f"(λ {child}. {step(i + 1, there | {child: child})})"

        def of_member(m):
            def then(there):
                return f"(λ {child}. {step(i + 1, there | {child: (child, m)})})"

            if m in table.nodes and to_open(table, table.nodes[m]):
                return " " + opened(table, table.nodes[m], child, True, "_", there, then)
            return f" {then(there)}"

        if is_inner_set(table, f.kind):
            none = f" {step(i + 1, there | {child: None})}" if f.many == "?" else ""
            return f"({by}{none}{''.join(of_member(m) for m in table.sets[f.kind].members)})"

        given = opened(table, table.nodes[f.kind], child, True, "_", there, each) if f.kind in table.nodes else each(there)
        return f"({by} {step(i + 1, there | {child: None})} {given})" if f.many == "?" else f"({by} {given})"

    return step(0, there)
