"""Proofs of the families of rows: the answers of a row's function, which name what its calls ensure, field by field."""

import re

import layout
from files.rows_functions import by_hand, calls, parts
from files.rows_kept import set_of
from names import READER, row_names
from table import snake


def write(table):
    return {f"crates/{table.row_crates[file]}/proofs/{part}/read_{snake(n.name)}/Answers.antt": answers(table, part, file, n)
            for part, file, nodes in parts(table) for n in nodes if not by_hand(n) and n.fields}


def suffixes(names):
    """What the name of each step ends in: nothing at first, and then the call's name, with a number where it came before."""
    every = []
    for i, name in enumerate(names):
        before = names[1:i].count(name)
        every.append("" if i == 0 else f"-{name}" + (f"-{before + 1}" if before else ""))
    return every


def answers(table, part, file, n):
    function = f"Rattle.{table.row_crates[file]}.proofs.{part}.read_{snake(n.name)}"
    every = [call.replace("::<N, R>", "") for _, call in calls(table, n)]
    each, facts, read = [], [], []
    for call, end in zip(every, suffixes([call.split("(")[0] for call in every])):
        ok, err = f"c.in-Ok{end}.ensures", f"c.in-Err{end}.ensures told"
        if call.startswith("neither_given"):
            either = f"refused_of_two {of_two(call)} ({err}) (λ e. rw e) (λ e f. rw (e, f))"
            each.append(answer(f"returns-in-Err{end}", f"λ told. rw ({', '.join(facts)}) ({either})" if facts else f"λ told. {either}"))
            both = [f"{lemma} {of_two(call)} {ok}" for lemma in ("first_of_two", "second_of_two")]
            facts += both
            read += [passed(f"({fact})") for fact in both]
            continue
        facts.append(ok)
        if "(alloc, kept, " in call:
            each.append(answer(f"returns-in-Err{end}", "λ told. " + refused(read, f"refused _ ({err})")))
            read.append(ok)
        else:
            each.append(answer(f"returns-in-Err{end}", "λ told. " + refused(read, f"refused _ (refused _ ({err}))")))
            read.append(passed(ok))
    each.append(answer("returns-in-Ok-boxed", last(table, n, whole(read))))
    each.append("pub returns-in-Err-boxed : goal.returns-in-Err-boxed\n"
                "returns-in-Err-boxed g c = λ told. let h = c.in-Err-boxed.ensures told in cc h")
    homes = [("Rattle.std.proofs.Common", ["refl"]), ("Rattle.std.specs.Prelude", ["codes"]), (f"{READER}.specs.Given", ["row_data"]),
             (f"{READER}.specs.Reads", ["read_node"]), (f"{READER}.specs.Values", ["at", "field", "not_given"])]
    homes += [(f"{READER}.proofs.FieldSteps", ["refused", "passed", "gives_by"])]
    homes += [(f"{READER}.proofs.Gives", ["first_of_two", "second_of_two", "refused_of_two", "gives_row", "gives_node"])] + row_names(table)
    return layout.antt("What each call ensures, field by field.", homes, [(f"{function}.Goals", "goal")], "\n\n".join(each))


def passed(fact):
    """A field that is not read for children gives what it holds."""
    return f"(passed _ {fact} refl)"


def of_two(call):
    """The two fields that the call refuses."""
    number, names = int(re.findall(r"\d+", call)[0]), re.findall(r'"(\w+)"', call)
    return " ".join(f'(not_given (at c.args.number {i}) (field (codes "{name}") (row_data c.args.row.now)))'
                    for i, name in enumerate(names, number))


def refused(read, term):
    """The row is refused after the fields that are read, where the next is."""
    for ok in reversed(read):
        term = f"passed _ {ok} (refused _ ({term}))"
    return f"refused _ ({term})"


def whole(read):
    """All fields are read."""
    term = "refl"
    for ok in reversed(read):
        term = f"(passed _ {ok} {'refl' if term == 'refl' else f'(passed _ {term} refl)'})"
    return term


def answer(goal, said):
    return f"pub {goal} : goal.{goal}\nunfolding read_node\n{goal} g c = {said}"


def last(table, n, fields):
    s, row = set_of(table, n.name), n.row
    row = f"({row} g.N.HasType.plain)" if table.generic(n.name) else row
    if not s:
        made = f"c.row_of_{snake(n.name)}"
        return f"passed _ {fields} (gives_node g.R.Typed.plain {made}.result _ {row} _ _ c.in-Ok-boxed.ensures {made}.ensures)"
    return f"gives_by _ _ _ (passed _ {fields} refl) (gives_row _ _ _ {row} _ _ c.in-Ok-boxed.ensures c.row_of_{snake(s.name)}.ensures)"
