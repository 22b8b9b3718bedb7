"""jsgen_check's check functions: what is found of a row, its first fault or its height, from its span, its own rules and
its children, each at its place, and the number that the next class behind it has. What a row's own rules are stands by hand in crates/jsgen_check/src/rules.rt and
its folder, for each type that has `rules` in the table."""

import layout
import children
from children import plain, plural, typed
from names import SPECS, row_names
from table import snake

CHECK = "crates/jsgen_check"
PROOFS = "Rattle.jsgen_check.proofs"
VERDICT = "Rattle.jsgen_check.specs.Verdict"
AROUND = "around: &Surroundings<'_>, classes: Option<&Classes<'_>>, next: &mut usize"
HERE = "(surroundings_plain around.now classes.entry)"
STEPS = ["no_rules", "of_row", "then_one", "then_maybe", "then_many", "then_maybe_many", "none_behind", "all_checked", "begun", "turn", "turn_copied", "turns_end", "begun_or_holes", "turn_or_hole", "turns_or_holes_end"]
# What surrounds these children differs, by these functions of crates/jsgen_check/src/surroundings.rt: by their fields, each with
# the name that it has in the row's function.
WITHIN = {
    "Function": {"params": ("outside", "within_nothing()"), "body": ("within", "within_function(node.is_async, node.generator)")},
    "ArrowFunctionExpression": {"params": ("outside", "within_nothing()"), "body": ("within", "within_arrow(node.is_async)")},
    "FunctionBody": {"directives": ("within", "within_braces()"), "statements": ("within", "within_braces()")},
    "PropertyDefinition": {"value": ("outside", "within_nothing()")},
    "StaticBlock": {"body": ("outside", "within_nothing()")},
}
BY_HAND = {"Program": "program", "ClassBody": "bodies"}  # the files of the rows that stand by hand
OF_KINDS = ["Function"]  # a child of such a type alone is checked by a function by hand, since its place asks for one of its kinds
RESULT = "Result<u64, TreeFault>"
LISTS_THAT_ARE_TYPES = ["FormalParameter"]  # the plural of its name is the name of another type


# A list or a child that may be absent is asked for by its set, or by the name of its place: what a set is asked here, a place is
# asked by its set.
def kinds_of(table, many):
    return list(dict.fromkeys(f.place or f.kind for n in table.nodes.values() for f in table.children(n) if f.many == many))


def nests(table, kind):
    return children.nests(table, table.places.get(kind, kind))


def child_type(table, kind):
    return children.child_type(table, table.places.get(kind, kind))


def each(table, kind, *of):
    return children.each(table, table.places.get(kind, kind), *of)


def write(table):
    files = {}
    for file, about in table.files.items():
        nodes = [n for n in table.nodes.values() if n.file == file and n.name not in BY_HAND]
        files[f"{CHECK}/src/{file}.rt"] = rust(table, about, "\n\n".join(of_row(table, n) for n in nodes))
        for n in nodes:
            files[f"{CHECK}/proofs/{file}/{check(n.name)}/Answers.antt"] = row_answers(table, n)
    lists, optional = kinds_of(table, "*"), kinds_of(table, "?")
    places = {f.kind for n in table.nodes.values() for f in table.children(n)}
    inner = [s for s in table.sets.values() if not s.nests and s.name in places]
    holed = kinds_of(table, "?*")
    optional += [k for k in holed if k not in optional]
    listed = kinds_of(table, "*?")
    lists += [k for k in listed if k not in lists]
    of_lists = [of_list(table, k) for k in lists] + [of_holed_list(table, k) for k in holed] + [of_list_if_given(table, k) for k in listed]
    files[f"{CHECK}/src/lists.rt"] = rust(table, "Lists of children.", "\n\n".join(of_lists))
    single = [of_optional(table, k) for k in optional] + [of_inner_set(table, s) for s in inner]
    files[f"{CHECK}/src/children.rt"] = rust(table, "Children that may be absent, and sets that don't nest.", "\n\n".join(single))
    for k in lists:
        files[f"{CHECK}/proofs/lists/{check_all(k)}/Invariants.antt"] = invariant(table, k)
        files[f"{CHECK}/proofs/lists/{check_all(k)}/Answers.antt"] = list_answers(table, k)
    for k in holed:
        files[f"{CHECK}/proofs/lists/{check_all_or_holes(k)}/Invariants.antt"] = holed_invariant(table, k)
        files[f"{CHECK}/proofs/lists/{check_all_or_holes(k)}/Answers.antt"] = holed_answers(table, k)
    for k in optional:
        if k in table.nodes:
            files[f"{CHECK}/proofs/children/{check_optional(k)}/Answers.antt"] = optional_answers(table, k)
    for s in inner:
        if any(m in table.nodes for m in s.members):
            files[f"{CHECK}/proofs/children/{check(s.name)}/Answers.antt"] = inner_answers(table, s)
    sets = "\n\n".join(of_set(table, s) for s in table.nesting())
    files[f"{CHECK}/src/sets.rt"] = rust(table, "A member of a set is checked as its own type is.", sets)
    return files


def rust(table, about, body):
    ghosts = [("Rattle.std.specs.Prelude", ["◌≡◌", "map", "option_map"]), (f"{SPECS}.Tree", ["optional", "optional_list", "trees", "holed"])]
    ghosts += row_names(table)
    ghosts += [("Rattle.jsgen_model.specs.Resolved", ["after", "after_maybe", "after_trees", "after_maybe_trees"])]
    ghosts += [(VERDICT, ["surroundings_plain", "tree_verdict", "child_verdict", "maybe_verdict", "children_verdict", "maybe_children_verdict", "SameNumber"])]
    tree = list(table.nodes) + list(table.sets) + [s.name + "Node" for s in table.nesting()] + ["NodeSet"]
    checks = {f"crate::{f}": [check(n.name) for n in table.nodes.values() if n.file == f and n.name not in BY_HAND] for f in table.files}
    checks["crate::bodies"] = [check("ClassBody")]
    checks["crate::lists"] = [check_all(k) for k in kinds_of(table, "*")]
    checks["crate::lists"] += [check_all_or_holes(k) for k in kinds_of(table, "?*")]
    checks["crate::lists"] += [check_if_given(k) for k in kinds_of(table, "*?")]
    checks["crate::children"] = [check_optional(k) for k in dict.fromkeys(kinds_of(table, "?") + kinds_of(table, "?*"))]
    checks["crate::children"] += [check(s.name) for s in table.sets.values() if not s.nests]
    checks["crate::rules"] = [rules(n) for n in table.nodes.values() if n.rules]
    here = [(m, [n for n in ns if f"fn {n}(" not in body and f"fn {n}<" not in body]) for m, ns in checks.items()]
    homes = here + [("crate::kinds", [f"check_{snake(kind)}_expression" for kind in OF_KINDS]), ("crate", ["CheckNode", "Surroundings", "check_child"]), ("crate::heights", ["check_node", "higher"]),
                    ("jsgen_model", ["TreeFault"]), ("jsgen_rules", ["Classes"]), ("jsgen_tree", tree)]
    aliases = [(f"{SPECS}.declared.types.NodeSet.TheVariants", "sets")]
    return layout.rust(about, ghosts, aliases, homes, body)


# ---- names

def check(name):
    return "check_" + snake(name)


def rules(n):
    return f"check_{snake(n.name)}_rules"


def check_all(kind):
    return f"check_each_{snake(kind)}" if kind in LISTS_THAT_ARE_TYPES else f"check_{plural(kind)}"


def check_all_or_holes(kind):
    return f"check_{plural(kind)}_or_holes"


def check_if_given(kind):
    return f"check_optional_{plural(kind)}"


def check_optional(kind):
    return "check_optional_" + snake(kind)


# ---- what a check promises

def promise(verdict, set_name, after, what):
    """What is found, and the number that the next class behind has."""
    asked = f" sets.{set_name}" if set_name else ""
    return f"""    ensures found {{ result ≡ {verdict} {HERE} next.old{asked} {what} }}
    ensures number {{ SameNumber {HERE} next.new ({after} {what} next.old) }}"""


# ---- rows

def calls(table, n):
    """The checks of a row's children: the field, the call, the fact of the call that gives its argument, whether the
    child is of a type, so that it is surely of its set, and the step that takes it."""
    found = []
    for f in table.children(n):
        here = f"node.{f.rust}"
        asked = f.place or f.kind
        within = WITHIN.get(n.name, {}).get(f.name)
        around = f"&{within[0]}" if within else "around"
        if f.many == "*":
            found.append((f.rust, f"{check_all(asked)}(&{here}, {around}, classes, next)", "deref.value", None, "then_many"))
        elif f.many == "?*":
            found.append((f.rust, f"{check_all_or_holes(asked)}(&{here}, {around}, classes, next)", "deref.value", None, "then_many"))
        elif f.many == "*?":
            found.append((f.rust, f"{check_if_given(asked)}(&{here}, {around}, classes, next)", None, None, "then_maybe_many"))
        elif f.many == "?":
            found.append((f.rust, f"{check_optional(asked)}(&{here}, {around}, classes, next)", None, None, "then_maybe"))
        elif nests(table, f.kind):
            found.append((f.rust, f"check_child({here}.get(), NodeSet::{asked}, {around}, classes, next)", "get", None, "then_one"))
        else:
            of_type = f.kind if f.kind in table.nodes and f.kind not in OF_KINDS else None
            call = f"check_{snake(f.kind)}_expression" if f.kind in OF_KINDS else check(f.kind)
            found.append((f.rust, f"{call}(&{here}, {around}, classes, next)", "deref" if f.kind in table.nodes else None, of_type, "then_one"))
    return found


def surroundings(n):
    """What surrounds children, by the name that it has: the function that gives it."""
    return dict(WITHIN.get(n.name, {}).values())


def highest(names):
    """What is found of children, each under the name of its field."""
    return names[0] if len(names) == 1 else f"higher({names[0]}, {highest(names[1:])})"


def of_row(table, n):
    of, parameter = typed(table, n.name)
    below = calls(table, n)
    body = f"    let rules = {rules(n)}(node, around, classes);\n" if n.rules else ""
    body += "".join(f"    let {name} = around.{call};\n" for name, call in surroundings(n).items())
    body += "".join(f"    let {name} = {call};\n" for name, call, *_ in below) or "    let _ = next;\n"
    own = "rules" if n.rules else "Ok(())"
    children = highest([name for name, *_ in below]) if below else "Ok(0)"
    # (one function that has all of them has a frame for all of them at each level of a nested tree)
    own_frame = "#[inline(never)]\n" if table.children(n) else ""
    return f"""{own_frame}pub fn {check(n.name)}{parameter}(node: &{of}, {AROUND}) -> {RESULT}
{promise("tree_verdict", None, "after", f"({plain(table, n.name)} node.now)")}
{{
{body}    check_node(around, classes, node.span, {own}, {children})
}}"""


def numbered(name, at):
    """The name that the call at this place among those of its name has in a proof."""
    return name if at == 0 else f"{name}-{at + 1}"


def is_silent(table, kind):
    """Whether it is a type without children, or of such children alone: the number behind such a node is the one before it, and has
    nothing of the node in it."""
    return kind in table.nodes and all(not f.many and is_silent(table, f.kind) for f in table.children(table.nodes[kind]))


def rewritten(facts, clause):
    """The clause by these facts."""
    return f"(rw ({', '.join(facts)}) at {clause})" if facts else clause


def row_answers(table, n):
    below, counts, said = calls(table, n), {}, []
    for field, (name, call, fact, of_type, step) in zip(table.children(n), below):
        ensures = f"c.{call[:call.index('(')]}-{name}.ensures"
        facts = []
        if fact:
            given, _, clause = fact.partition(".")
            facts.append(f"c.{numbered(given, counts.get(given, 0))}.ensures{clause and '.' + clause}")
            counts[given] = counts.get(given, 0) + 1
        within = WITHIN.get(n.name, {}).get(field.name)
        if within:
            facts.append(f"c.{within[1][:within[1].index('(')]}-{within[0]}.ensures c.args.classes")
        found = rewritten(facts, f"{ensures}.found")
        number = rewritten(facts[1:] if not field.many and is_silent(table, field.kind) else facts, f"{ensures}.number")
        if of_type:
            found = f"({found} ∙ sym (of_right_set _ _ sets.{of_type} _ refl))"
        said.append((step, found, number))

    def children(at):
        if at == len(below):
            return "all_checked"
        step, found, number = said[at]
        last = at == len(below) - 1
        parts = "(none_behind _)" if last else f"c.{numbered('higher', len(below) - 2 - at)}.ensures"
        rest = children(at + 1)
        return f"{step} refl {parts} {found} {number} {rest if last else f'({rest})'}"

    own = f"c.{rules(n)}-rules.ensures" if n.rules else "no_rules"
    chain = f"({children(0)})" if below else children(0)
    body = f"""pub returns : goal.returns
returns {'g ' if table.generic(n.name) else ''}c =
    let row = of_row (surroundings_plain c.args.around.now c.args.classes) c.args.next.now ({plain(table, n.name, "g.N.CheckNode.plain")} c.args.node.now) c.check_node.ensures {own} {chain} in
    record {{ found = row.found; number = row.number }}"""
    homes = [("Rattle.std.proofs.Common", ["◌≡◌", "refl", "sym", "◌∙◌"])] + row_names(table)
    homes += [(VERDICT, ["surroundings_plain"]), (f"{PROOFS}.Verdicts", ["of_right_set"]), (f"{PROOFS}.Steps", STEPS)]
    aliases = [(f"{SPECS}.declared.types.NodeSet.TheVariants", "sets"),
               (f"{PROOFS}.{n.file}.{check(n.name)}.Goals", "goal")]
    return layout.antt("What is found of a row, from its parts.", homes, aliases, body)


# ---- children

def of_list(table, kind):
    of, parameter = child_type(table, kind)
    call = f"{check(kind)}(node, around, classes, next)"
    if nests(table, kind):
        call = f"check_child(node.get(), NodeSet::{kind}, around, classes, next)"
    return f"""pub fn {check_all(kind)}{parameter}(nodes: &[{of}], {AROUND}) -> {RESULT}
{promise("children_verdict", kind, "after_trees", f"(trees (map {each(table, kind)} nodes.now))")}
{{
    let mut below = Ok(0);
    for node in nodes {{
        let found = {call};
        below = higher(below, found);
    }}
    below
}}"""


def of_holed_list(table, kind):
    of, parameter = child_type(table, kind)
    return f"""pub fn {check_all_or_holes(kind)}{parameter}(nodes: &[Option<{of}>], {AROUND}) -> {RESULT}
{promise("children_verdict", kind, "after_trees", f"(holed (map (option_map {each(table, kind)}) nodes.now))")}
{{
    let mut below = Ok(0);
    for node in nodes {{
        let found = {check_optional(kind)}(node, around, classes, next);
        below = higher(below, found);
    }}
    below
}}"""


def of_optional(table, kind):
    of, parameter = child_type(table, kind)
    call = f"check_child(node.get(), NodeSet::{kind}, around, classes, next)" if nests(table, kind) else f"{check(kind)}(node, around, classes, next)"
    row = each(table, kind)
    if kind in table.nodes:
        of, row = f"Box<{of}>", f"(λ b. {plain(table, kind)} b.value)"
    return f"""pub fn {check_optional(kind)}{parameter}(node: &Option<{of}>, {AROUND}) -> {RESULT}
{promise("maybe_verdict", kind, "after_maybe", f"(optional (option_map {row} node.now))")}
{{
    match node {{
        Some(node) => {call},
        None => Ok(0),
    }}
}}"""


def of_list_if_given(table, kind):
    of, parameter = child_type(table, kind)
    return f"""pub fn {check_if_given(kind)}{parameter}(nodes: &Option<Vec<{of}>>, {AROUND}) -> {RESULT}
{promise("maybe_children_verdict", kind, "after_maybe_trees", f"(optional_list (option_map (λ v. map {each(table, kind)} v.items) nodes.now))")}
{{
    match nodes {{
        Some(nodes) => {check_all(kind)}(nodes, around, classes, next),
        None => Ok(0),
    }}
}}"""


def of_inner_set(table, s):
    of, parameter = typed(table, s.name)
    arms = ""
    for m in s.members:
        call = f"check_child(node.get(), NodeSet::{s.name}, around, classes, next)" if m in table.sets else f"{check(m)}(node, around, classes, next)"
        arms += f"        {s.name}::{m}(node) => {call},\n"
    return f"""pub fn {check(s.name)}{parameter}(node: &{of}, {AROUND}) -> {RESULT}
{promise("child_verdict", s.name, "after", f"({plain(table, s.name)} node.now)")}
{{
    match node {{
{arms}    }}
}}"""


def invariant(table, kind):
    generic = child_type(table, kind)[1] != ""
    row = each(table, kind, "g.N.CheckNode.plain")
    body = f"""-- what is found so far, and of the nodes left, is what is found of all of them
abbrev pub invariant-loop-node : goal.invariant-loop-node
invariant-loop-node {"g " if generic else ""}l = Left (surroundings_plain l.around l.classes) sets.{kind} {row} l.nodes l.fn.next l.below l.next l.node-index"""
    homes = row_names(table) + [(VERDICT, ["surroundings_plain"]), (f"{PROOFS}.Steps", ["Left"])]
    aliases = [(f"{SPECS}.declared.types.NodeSet.TheVariants", "sets"),
               (f"{PROOFS}.lists.{check_all(kind)}.Given", "goal")]
    return layout.antt("What holds in the loop.", homes, aliases, body)


def list_answers(table, kind):
    g = "g " if child_type(table, kind)[1] else ""
    ensures = "c.check_child-found.ensures" if nests(table, kind) else f"c.{check(kind)}-found.ensures"
    found, number = f"{ensures}.found", f"{ensures}.number"
    if nests(table, kind):
        found, number = (f"(rw c.get.ensures at {text})" for text in (found, number))
    elif kind in table.nodes:
        found = f"({found} ∙ sym (of_right_set _ _ sets.{kind} _ refl))"
    row = each(table, kind, "g.N.CheckNode.plain")
    every = f"(surroundings_plain c.args.around.now c.args.classes) sets.{kind} {row} c.args.nodes.now c.loop-node.node-index"
    numbers = "c.args.next.now c.loop-node.next"
    item = "c.node-item.result c.loop-node-test.true c.node-item.is"
    step = f"turn c.loop-node.below {numbers} _ {every} {item}"
    if kind in table.nodes and table.nodes[kind].is_copy:  # the proof has no name for such an item
        step = f"turn_copied c.loop-node.below {numbers} _ {every} _ c.loop-node-test.true"
    body = f"""pub loop-node-init : goal.loop-node-init
loop-node-init {g}c = begun _ _ _ _ _

pub loop-node-preserved : goal.loop-node-preserved
loop-node-preserved {g}c = {step} c.loop-node.invariant c.higher-below.ensures {found} {number}

pub returns : goal.returns
returns {g}c =
    let all = turns_end {numbers} {every} c.loop-node-test.false c.loop-node.invariant in
    record {{ found = all.0; number = all.1 }}"""
    homes = [("Rattle.std.proofs.Common", ["◌≡◌", "refl", "sym", "◌∙◌"])] + row_names(table)
    homes += [(VERDICT, ["surroundings_plain"]), (f"{PROOFS}.Verdicts", ["of_right_set"]), (f"{PROOFS}.Steps", STEPS)]
    aliases = [(f"{SPECS}.declared.types.NodeSet.TheVariants", "sets"),
               (f"{PROOFS}.lists.{check_all(kind)}.Goals", "goal")]
    return layout.antt("The loop, turn by turn.", homes, aliases, body)


def holed_invariant(table, kind):
    generic = child_type(table, kind)[1] != ""
    row = each(table, kind, "g.N.CheckNode.plain")
    body = f"""-- what is found so far, and of the nodes left, is what is found of all of them
abbrev pub invariant-loop-node : goal.invariant-loop-node
invariant-loop-node {"g " if generic else ""}l = LeftOrHoles (surroundings_plain l.around l.classes) sets.{kind} {row} l.nodes l.fn.next l.below l.next l.node-index"""
    homes = row_names(table) + [(VERDICT, ["surroundings_plain"]), (f"{PROOFS}.Steps", ["LeftOrHoles"])]
    aliases = [(f"{SPECS}.declared.types.NodeSet.TheVariants", "sets"),
               (f"{PROOFS}.lists.{check_all_or_holes(kind)}.Given", "goal")]
    return layout.antt("What holds in the loop.", homes, aliases, body)


def holed_answers(table, kind):
    g = "g " if child_type(table, kind)[1] else ""
    row = each(table, kind, "g.N.CheckNode.plain")
    every = f"(surroundings_plain c.args.around.now c.args.classes) sets.{kind} {row} c.args.nodes.now c.loop-node.node-index"
    numbers = "c.args.next.now c.loop-node.next"
    item = "c.node-item.result c.loop-node-test.true c.node-item.is"
    ensures = f"c.{check_optional(kind)}-found.ensures"
    body = f"""pub loop-node-init : goal.loop-node-init
loop-node-init {g}c = begun_or_holes _ _ _ _ _

pub loop-node-preserved : goal.loop-node-preserved
loop-node-preserved {g}c = turn_or_hole c.loop-node.below {numbers} _ {every} {item} c.loop-node.invariant c.higher-below.ensures {ensures}.found {ensures}.number

pub returns : goal.returns
returns {g}c =
    let all = turns_or_holes_end {numbers} {every} c.loop-node-test.false c.loop-node.invariant in
    record {{ found = all.0; number = all.1 }}"""
    homes = row_names(table) + [(VERDICT, ["surroundings_plain"]), (f"{PROOFS}.Steps", STEPS)]
    aliases = [(f"{SPECS}.declared.types.NodeSet.TheVariants", "sets"),
               (f"{PROOFS}.lists.{check_all_or_holes(kind)}.Goals", "goal")]
    return layout.antt("The loop, turn by turn.", homes, aliases, body)


def optional_answers(table, kind):
    """A child of one type is surely of the set that is this type."""
    g = "g " if child_type(table, kind)[1] else ""
    ensures = f"c.{check(kind)}.ensures"
    found = f"(rw c.deref.ensures at {ensures}.found) ∙ sym (of_right_set _ _ sets.{kind} _ refl)"
    number = rewritten([] if is_silent(table, kind) else ["c.deref.ensures"], f"{ensures}.number")
    body = f"pub returns-in-Some : goal.returns-in-Some\nreturns-in-Some {g}c = record {{ found = rw c.in-Some.is ({found}); number = rw c.in-Some.is {number} }}"
    homes = [("Rattle.std.proofs.Common", ["◌≡◌", "refl", "sym", "◌∙◌"]), (f"{PROOFS}.Verdicts", ["of_right_set"])]
    aliases = [(f"{SPECS}.declared.types.NodeSet.TheVariants", "sets"), (f"{PROOFS}.children.{check_optional(kind)}.Goals", "goal")]
    return layout.antt("A child of one type is of its set.", homes, aliases, body)


def inner_answers(table, s):
    """A member of one type is surely of the set."""
    g = "g " if table.generic(s.name) else ""
    parts = []
    for m in s.members:
        goal = f"returns-in-{m}"
        if m in table.nodes:
            # the first is known by no arm
            deref = "deref" if m == s.members[0] else f"deref-in-{m}"
            ensures = f"c.{check(m)}.ensures"
            found = f"(rw c.{deref}.ensures at {ensures}.found) ∙ sym (of_right_set _ _ sets.{s.name} _ refl)"
            number = rewritten([] if is_silent(table, m) else [f"c.{deref}.ensures"], f"{ensures}.number")
            parts.append(f"pub {goal} : goal.{goal}\n{goal} {g}c = record {{ found = rw c.in-{m}.is ({found}); number = rw c.in-{m}.is {number} }}")
    homes = [("Rattle.std.proofs.Common", ["◌≡◌", "refl", "sym", "◌∙◌"]), (f"{PROOFS}.Verdicts", ["of_right_set"])]
    aliases = [(f"{SPECS}.declared.types.NodeSet.TheVariants", "sets"), (f"{PROOFS}.children.{check(s.name)}.Goals", "goal")]
    return layout.antt("A member of one type is of the set.", homes, aliases, "\n\n".join(parts))


# ---- sets

def of_set(table, s):
    of, parameter = typed(table, s.name)
    arms = ""
    for m in s.members:
        call = "node.get().check(around, classes, next)" if m in table.sets else f"{check(m)}(node, around, classes, next)"
        arms += f"        {s.name}::{m}(node) => {call},\n"
    return f"""#[inline(never)]
pub fn {check(s.name)}_set{parameter}(node: &{of}, {AROUND}) -> {RESULT}
{promise("tree_verdict", None, "after", f"({s.plain}{' N.plain' if parameter else ''} node.now)")}
{{
    match node {{
{arms}    }}
}}"""
