"""The crate of print functions: src/sets.rt, where a set prints as its member does (a set of two that doesn't nest is chosen from where
it is printed); and, of a set whose members stand in several files of the table, specs/Parts.antt and proofs/Parts.antt: in which part
of the choice each member is, and their answers."""

import re

import layout
from files.proofs_cases import aliases, variant
from files.rows_functions import parts as parts_of_rows
from files.spelled import BY_HAND_BELOW, crates, spelled
from names import MODEL, REPOSITORY, row_names, sets_in_antt
from table import SPELLED, snake

CRATE = REPOSITORY / "crates" / "jsgen_nodes"
SPECS = "Rattle.jsgen_nodes.specs.Parts"
PROOFS = "Rattle.jsgen_nodes.proofs"

# The sets that print otherwise than their members do elsewhere.
OF_THEIR_OWN = ("PropertyKey", "ChainElement", "ForStatementLeft", "ModuleExportName", "ImportDeclarationSpecifier", "ExportDefaultDeclarationKind")

# The types of a file of a crate below that are printed here, since functions and classes stand in them; and the sets that a crate
# below prints by hand.
ABOVE = ("ExportDefaultDeclaration",)
OTHERS = {"jsgen_modules": ["print_module_export_name"]}


def write(table):
    ghosts = [("Rattle.std.specs.Prelude", ["◌≡◌", "true", "nat_le"])] + row_names(table)
    ghosts += [("Rattle.jsgen_printer.specs.Steps", ["Lays"]),
               (f"{MODEL}.specs.Spell", ["spell"]), (SPECS, [f"{snake(s.name)}_part" for s in divided(table)])]
    homes = print_functions(table, "crate") + [("crate", ["InClass", "Inside", "PrintNode"]), ("jsgen_place", ["Place"]), ("jsgen_printer", ["Printer"]),
                                 ("jsgen_tree", list(table.sets))]
    functions = [function(table, s, at) for s in table.nesting() for at in range(len(parts(table, s)))]
    body = "\n\n".join(functions + [choice(table, s) for s in chosen(table)])
    files = {"crates/jsgen_nodes/src/sets.rt": layout.rust("A set prints as its member does.", ghosts, [], homes, body)}
    if divided(table):
        files |= {"crates/jsgen_nodes/specs/Parts.antt": specs(table), "crates/jsgen_nodes/proofs/Parts.antt": proofs(table)}
    for s in divided(table):
        for at in range(len(parts(table, s))):
            files[f"crates/jsgen_nodes/proofs/sets/{function_name(table, s, at)}/Answers.antt"] = answers(table, s, at)
    for s in chosen(table) + [s for s in table.nesting() if s not in divided(table)]:
        files[f"crates/jsgen_nodes/proofs/sets/print_{snake(s.name)}/Answers.antt"] = choice_answers(table, s)
    return files


def print_functions(table, at):
    """The print functions of types: those that are written by hand, by the file in which they stand, and those of the crates below."""
    files = [p for p in sorted((CRATE / "src").glob("*.rt")) if p.name not in ("sets.rt", "lib.rt")]
    by_hand = [(f"{at}::{p.stem}", re.findall(r"pub fn (print_\w+)", p.read_text())) for p in files]
    below = [(crate, [f"print_{snake(n.name)}" for n in spelled(table, crate)]) for crate in crates(table)]
    here = {name for _, names in by_hand for name in names}
    below += [(crate, [name for n in table.nodes.values() if n.file == file and (name := f"print_{snake(n.name)}") not in here] + OTHERS.get(crate, []))
              for file, crate in table.print_crates.items() if is_by_hand(table, crate)]
    return by_hand + below + [("jsgen_inside", [f"print_{snake(name)}" for name in BY_HAND_BELOW])]


def turbofish(table, name):
    """How what nests in a type that is printed in a crate below is printed."""
    if name in table.sets["ClassElement"].members:
        return "::<_, InClass>"
    return "::<_, Inside>" if name in table.nodes and is_below(table, table.nodes[name]) and table.generic(name) else ""


def is_by_hand(table, crate):
    """Whether a crate below has rows that are written by hand: one that the table names, with no row that has a spelling."""
    return crate != SPELLED and not spelled(table, crate)


def is_below(table, n):
    """Whether a type is printed in a crate below: by its spelling, or by hand."""
    return n.spelling or is_by_hand(table, table.print_crates[n.file]) and n.name not in ABOVE


# ---- the parts of a choice

def parts(table, s):
    """The parts in which a set's member is chosen: their names and members. Sets within the set come first; each other part is a
    file of the table, or some of its types."""
    inner = [m for m in s.members if m in table.sets]
    own = [(name, [n.name for n in nodes if n.name in s.members]) for name, _, nodes in parts_of_rows(table)]
    return [(name, members) for name, members in [("sets", inner)] + own if members]


def divided(table):
    return [s for s in table.nesting() if len(parts(table, s)) > 1]


def function_name(table, s, at):
    return f"print_{snake(s.name)}" + (f"_in_{parts(table, s)[at][0]}" if at else "")


def plain_of(table, s):
    return f"{s.plain} N.plain" if table.generic(s.name) else s.plain


def function(table, s, at):
    generic, every = table.generic(s.name), parts(table, s)
    arms = "".join(f"        {s.name}::{m}(node) => {printed(table, m)},\n" for m in every[at][1])
    if at + 1 < len(every):
        arms += f"        _ => {function_name(table, s, at + 1)}(node, p, place),\n"
    elif at:
        arms += "        _ => unreachable!(),\n"
    requires = f"    requires {{ nat_le {at} ({snake(s.name)}_part node.now) ≡ true }}\n" if at else ""
    return f"""{'' if at else 'pub '}fn {function_name(table, s, at)}{'<N: PrintNode>' if generic else ''}(
    node: &{s.name}{'<N>' if generic else ''},
    p: &mut Printer<'_>,
    place: Place,
)
{requires}    ensures {{ Lays p.old p.new (spell ({plain_of(table, s)} node.now) place) }}
{{
    match node {{
{arms}    }}
}}"""


def chosen(table):
    """The sets that don't nest of more than two types, each of which prints as it does elsewhere."""
    return [s for s in table.sets.values() if not s.nests and len(s.members) > 2 and s.name not in OF_THEIR_OWN]


def choice(table, s):
    arms = "".join(f"        {s.name}::{m}(node) => {printed(table, m)},\n" for m in s.members)
    return f"""pub fn print_{snake(s.name)}<N: PrintNode>(
    node: &{s.name}<N>,
    p: &mut Printer<'_>,
    place: Place,
)
    ensures {{ Lays p.old p.new (spell (in_{snake(s.name)} N.plain node.now) place) }}
{{
    match node {{
{arms}    }}
}}"""


def printed(table, member):
    return "node.get().print(p, place)" if member in table.sets else f"print_{snake(member)}{turbofish(table, member)}(node, p, place)"


# ---- specs/Parts.antt

def specs(table):
    each = []
    for s in divided(table):
        name, typed = f"{snake(s.name)}_part", f"{{N : Type 0}} → {s.name} N" if table.generic(s.name) else s.name
        clauses = "".join(f"\n{name} ({snake(s.name)}.{m} b) = {at}" for at, (_, members) in enumerate(parts(table, s)) for m in members)
        each.append(f"abbrev pub {name} : {typed} → ℕ{clauses}")
    homes = [("Rattle.std.specs.Prelude", ["ℕ"])] + sets_in_antt(table)
    own = [(f"Rattle.jsgen_tree.specs.declared.sets.{s.name}.TheVariants", snake(s.name)) for s in table.nesting()]
    return layout.antt("In which part of the choice within its set a member is.", homes, own, "\n\n".join(each))


# ---- proofs

def is_not(s, m):
    return f"IsNot n {snake(s.name)}s.{m}"


def proofs(table):
    each = [lemma(table, s, at) for s in divided(table) for at in range(len(parts(table, s)))]
    homes = [("Rattle.std.proofs.Common", ["◌≡◌", "true", "false", "refl", "nat_le"]), (f"{PROOFS}.IsNot", ["IsNot"]),
             (SPECS, [f"{snake(s.name)}_part" for s in divided(table)])] + sets_in_antt(table)
    about = "A member that is in no earlier part of the choice, and of no type of this one, is in a later part."
    return layout.antt(about, homes, aliases(table), "\n\n".join(each))


def lemma(table, s, at):
    """What is in none of the parts up to this one is in a later one, or nowhere."""
    every, name, generic = parts(table, s), snake(s.name), table.generic(s.name)
    last = at + 1 == len(every)
    members, own = [m for _, ms in every[:at] for m in ms], every[at][1]
    names = [f"no_{i}" for i in range(len(own))]
    head = f"{'{N : Type 0} ' if generic else ''}(n : {s.name}{' N' if generic else ''})"
    premise = [f"nat_le {at} ({name}_part n) ≡ true"] if at else []
    said = "⊥" if last else f"nat_le {at + 1} ({name}_part n) ≡ true"
    typed = " → ".join([head] + premise + [is_not(s, m) for m in own] + [said])
    label, given = f"{name}_past_{at}", (["later"] if at else []) + names
    clauses = [f"{label} {variant(s, m)} {' '.join(given)} = let no : false ≡ true = later in cc" for m in members]
    clauses += [f"{label} {variant(s, m)} {' '.join(given)} = absurd (no_{i} b refl)" for i, m in enumerate(own)]
    if not last:
        clauses += [f"{label} n {' '.join(given)} = refl"]
    return f"pub {label} : {typed}\n" + "\n".join(clauses)


def answers(table, s, at):
    every, name = parts(table, s), function_name(table, s, at)
    facts = " ".join((["c.requires"] if at else []) + [f"c.in_default.not-{m}" for m in every[at][1]])
    is_alone = at + 1 == len(every) and len(every[at][1]) == 1
    each, given = members_answers(table, s, every[at][1], is_alone), "g c" if table.generic(s.name) else "c"
    if at + 1 < len(every):
        goal, later = f"{function_name(table, s, at + 1)}-requires", function_name(table, s, at + 1)
        each.append(f"pub returns-in_default : goal.returns-in_default\nreturns-in_default {given} = c.{later}.ensures")
    else:
        goal = "unreachable-requires"
    each.append(f"pub {goal} : goal.{goal}\n{goal} {given} = {snake(s.name)}_past_{at} c.args.node.now {facts}")
    homes = [(f"{PROOFS}.Parts", [f"{snake(s.name)}_past_{at}"])]
    about = "What this part prints is printed as it is elsewhere, and what it doesn't is in a later one."
    return layout.antt(about, homes, [(f"{PROOFS}.sets.{name}.Goals", "goal")], "\n\n".join(each))


def choice_answers(table, s):
    about, home = "What it prints is printed as it is elsewhere.", f"{PROOFS}.sets.print_{snake(s.name)}.Goals"
    return layout.antt(about, [], [(home, "goal")], "\n\n".join(members_answers(table, s, s.members)))


def members_answers(table, s, members, is_alone=False):
    """An answer a member; that of a last part with one member has no name of its own."""
    each, given = [], "g c" if table.generic(s.name) else "c"
    for m in members:
        deref = "deref" if m == members[0] else f"deref-in-{m}"
        goal = "returns" if is_alone else f"returns-in-{m}"
        called = f"(c.get.ensures, c.{deref}.ensures) at c.print" if m in table.sets else f"c.{deref}.ensures at c.print_{snake(m)}"
        each.append(f"pub {goal} : goal.{goal}\n{goal} {given} = rw c.in-{m}.is (rw {called}.ensures)")
    return each
