"""jsgen_kept's proofs/Sets.antt and proofs/OneType.antt: which of the sets that children are of hold the rows that are kept by their set."""

import layout
from files.rows_kept import held, inner, kept, large, outer, own
from files.specs_table import tested
from names import DECLARED, KEPT, SPECS, TREE, TYPES, row_names, sets_in_antt, types_in_antt
from table import snake


def write(table):
    parts = ["-- ---- what is so of each type of a set is so of each row of it"]
    parts += [each_row(table, s) for s in large(table)]
    parts += ["-- ---- set by set"]
    of_sets = ["is_program"] + [t for t in tests(table) if is_of_set(table, t)]
    of_types = [t for t in tests(table) if t not in of_sets]
    parts += [lemma(table, s, test) for test in of_sets for s in large(table) if alike(table, s, test)]
    parts += [program_alone(table), "-- ---- which rows a place takes"]
    parts += [rules(table, test) for test in of_sets]
    others = [lemma(table, s, test) for test in of_types for s in large(table) if alike(table, s, test)]
    others += ["-- ---- which rows a place takes"] + [rules(table, test) for test in of_types]
    homes = [("Rattle.std.proofs.Common", ["◌≡◌", "Bool", "true", "false", "refl"])] + TREE + types_in_antt(table)
    homes += [(f"{SPECS}.Sets", [t for t in tests(table) if t != "is_program"])] + row_names(table)
    homes += [(f"{KEPT}.specs.Kept", ["is_program"])] + sets_in_antt(table)
    homes += [(f"{KEPT}.specs.Others", ["is_" + snake(kept(table, s)) for s in outer(table)])]
    homes += [(f"{KEPT}.specs.declared.others.{kept(table, s)}", [kept(table, s)]) for s in outer(table)]
    aliases = TYPES + [(f"{DECLARED}.sets.{s.name}.TheVariants", snake(s.name) + "s") for s in large(table)]
    about = "Which of the sets that children are of hold the rows that are kept by their set."
    each = [(f"{KEPT}.proofs.Sets", ["of_" + snake(s.name) for s in large(table)])]
    about_types = "Which of the single types that children are of the rows are that are kept by their set."
    return {"crates/jsgen_kept/proofs/Sets.antt": layout.antt(about, homes, aliases, "\n\n".join(parts)),
            "crates/jsgen_kept/proofs/OneType.antt": layout.antt(about_types, homes + each, aliases, "\n\n".join(others))}


def tests(table):
    """What is asked of a type: whether it is a program, and whether it is of a set that children are of."""
    return ["is_program"] + list(dict.fromkeys(tested(table, s) for s in table.child_sets()))


def is_of_set(table, test):
    """Whether the test is that of a set."""
    return any(tested(table, s) == test for s in table.child_sets() if s in table.sets)


def rules_home(table, name):
    """The file of the rules for a place."""
    return "Sets" if is_of_set(table, tested(table, name)) else "OneType"


def types_of_test(table, test):
    if test == "is_program":
        return ["Program"]
    return table.types_in(next(s for s in table.child_sets() if tested(table, s) == test))


def rules_of(table, name):
    """The rules for a place that takes children of the set or type."""
    return "takes_" + tested(table, name).removeprefix("is_") + "s"


def bound(table, s, of):
    """The arguments that stand for what nests, their names, and the type of a row or of a member."""
    if not table.generic(s.name):
        return "", "", of
    return "{N : Type 0} (plain : N → Tree) ", " plain", of + " N"


def type_of(table, s, member):
    return f"type_of ({s.plain}{' plain' if table.generic(s.name) else ''} {member})"


def each_row(table, s):
    of, plain, member = bound(table, s, s.name)
    name, variants = "of_" + snake(s.name), snake(s.name) + "s"
    facts = "".join(f"f types.{m} ≡ b → " for m in own(table, s))
    names = "".join(f" h{i}" for i in range(len(own(table, s))))
    other = f"is_{snake(kept(table, s))} r ≡ true → " if inner(table, s) else ""
    o = " o" if other else ""
    clauses = "".join(f"\n{name}{plain} f b{names} ({variants}.{m} r){o} = cc" for m in inner(table, s))
    clauses += "".join(f"\n{name}{plain} f b{names} ({variants}.{m} r){o} = h{i}" for i, m in enumerate(own(table, s)))
    said = f"{facts}(r : {member}) → {other}f ({type_of(table, s, 'r')}) ≡ b"
    return f"pub {name} : {of}(f : NodeType → Bool) (b : Bool) → {said}{clauses}"


def answers(table, s, test):
    """What the test says of the types of a set."""
    return {m in types_of_test(table, test) for m in own(table, s)}


def alike(table, s, test):
    return len(answers(table, s, test)) == 1


def answer(table, s, test):
    return True in answers(table, s, test)


def named(table, s, test):
    said = "each_{}_is_{}" if answer(table, s, test) else "no_{}_is_{}"
    return said.format(snake(s.name), with_article(test.removeprefix("is_")))


def with_article(words):
    return ("an_" if words[0] in "aeiou" else "a_") + words


def lemma(table, s, test):
    of, plain, row = bound(table, s, kept(table, s))
    name, b = named(table, s, test), "true" if answer(table, s, test) else "false"
    member = held(table, s, "r")
    given = f"{plain} {test} {b}{' refl' * len(own(table, s))} {member}{' r.other' if inner(table, s) else ''}"
    said = f"(r : {row}) → {test} ({type_of(table, s, member)}) ≡ {b}"
    return f"pub {name} : {of}{said}\n{name}{plain} r = of_{snake(s.name)}{given}"


def program_alone(table):
    clauses = "".join(f"\nprogram_type types.{n} h = {'refl' if n == 'Program' else 'cc'}" for n in table.nodes)
    return f"pub program_type : (t : NodeType) → is_program t ≡ true → t ≡ types.Program{clauses}"


def rules(table, test):
    names = ", ".join(named(table, s, test) for s in large(table) if alike(table, s, test))
    return f"pub ruleset takes_{test.removeprefix('is_')}s = ({names})"
