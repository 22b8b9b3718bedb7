"""jsgen_kept's src/child_sets.rt, src/child_nodes.rt, src/child_types.rt, src/members.rt and src/asked.rt: what is made of a row at a place for children of each set; and
jsgen_fields' src/set_fields.rt and src/list_fields.rt: the readers of fields that hold them."""

import layout
from files import rows_kept
from files.rows_kept import groups, held, holds, inner, kept, large, outer, own, parameter, plain_of_set
from files.rows_sets import rules_home, rules_of
from names import KEPT, READER, SPECS, TYPES, plain_of, row_names
from table import snake

CHILD = """ensures {{ IfOk result (λ child. option_map {plain} child
            ≡ (if in_set sets.{set} (type_of {row}) then Some {row} else None)) }}"""


def write(table):
    of_sets = impls(table, "a member of the set that the place is for, which doesn't nest", [(name, boxed) for name, boxed in places(table) if name in table.sets and not table.sets[name].nests])
    of_nodes = impls(table, "a member of the set that the place is for, which nests", [(name, boxed) for name, boxed in places(table) if name in table.sets and table.sets[name].nests])
    of_types = impls(table, "a node of the type that the place is for", [(name, boxed) for name, boxed in places(table) if name in table.nodes])
    return {"crates/jsgen_kept/src/child_sets.rt": of_sets, "crates/jsgen_kept/src/child_nodes.rt": of_nodes, "crates/jsgen_kept/src/child_types.rt": of_types, "crates/jsgen_kept/src/members.rt": members(table),
            "crates/jsgen_fields/src/set_fields.rt": readers(table, False), "crates/jsgen_fields/src/list_fields.rt": readers(table, True), "crates/jsgen_kept/src/kept.rt": rows(table),
            "crates/jsgen_kept/src/asked.rt": asked(table)}


def places(table):
    """Each set or type that children are of, and whether it stands there in a box."""
    every = {}
    for n in table.nodes.values():
        for f in table.children(n):
            every[f.kind, f.kind in table.nodes and not f.is_list] = None
    return list(every)


def child_type(table, name, boxed):
    held = name + ("<N>" if table.generic(name) else "")
    if name in table.sets and table.sets[name].nests:
        return f"{name}Node<N>"
    return f"Box<{held}>" if boxed else held


def child_plain(table, name, boxed):
    """The plain data of a child, as a function."""
    row, takes = plain_of(table, name)
    takes = " N.plain" if takes else ""
    return f"(λ b. {row}{takes} b.value)" if boxed else f"({row}{takes})" if takes else row


def plain_at(table, name, boxed, child):
    row, takes = plain_of(table, name)
    return f"{row}{' N.plain' if takes else ''} {child}{'.value' if boxed else ''}"


# ---- src/child_sets.rt

PRELUDE = ["◌≡◌", "IfOk", "Some", "None", "option_map", "if◌then◌else◌"]


def ghosts_of(table):
    return [("Rattle.std.specs.Prelude", PRELUDE), (f"{SPECS}.Tree", ["type_of"]), (f"{SPECS}.Sets", ["in_set"])] \
        + row_names(table) + [(f"{KEPT}.specs.Kept", ["row_plain", "any_row_plain"])]


def file_of(table, about, homes, body):
    tree = list(table.nodes) + list(table.sets) + list(table.words) + [s.name + "Node" for s in table.nesting()] + ["HasType", "NodeSet"]
    homes = homes + [("crate::asked", ["Child"] + [holds(s) for s in table.nesting()]), ("crate::kept", ["Row"]), ("jsgen_tree", tree),
                     ("crate::others", [kept(table, s) for s in outer(table)]), ("std::alloc", ["AllocError", "Global"])]
    return layout.rust(about, ghosts_of(table), TYPES, homes, body)


def members_within(table):
    """The functions for a member of a set within a set, and the sets that they are for."""
    return [(name, g) for name, _ in places(table) for g in large(table) if is_within(table, name, g)]


def impls(table, what, some):
    body = "\n\n".join(impl(table, name, boxed) for name, boxed in some)
    about = f"What is made of a row where it is a child: {what}."
    functions = [within(name, g) for name, g in members_within(table)]
    functions += [part(name, g, boxed) for name, boxed in places(table) for g in large(table) if has_part(table, name, g)]
    functions += [of_kind(name, m) for name, _ in places(table) for m in of_two_kinds(table, name)]
    return file_of(table, about, [("crate::members", functions)], body)


def rows(table):
    return rows_kept.rust(table, ghosts_of(table))


def asked(table):
    return rows_kept.asked(table, ghosts_of(table))


def members(table):
    bodies = ["// ---- a member of a set within the set, which stands in a box of its own"]
    bodies += [one_within(table, name, g) for name, g in members_within(table)]
    bodies += ["// ---- a member of a set by itself, or of a set within it"]
    bodies += [one_of_kind(table, name, m) for name, _ in places(table) for m in of_two_kinds(table, name)]
    bodies += ["// ---- a place that takes some types of a set"]
    bodies += [f for name, boxed in places(table) for f in parts(table, name, boxed)]
    return file_of(table, "The members of sets that are made of a member of another.", [], "\n\n".join(bodies))


def contract(table, name, boxed, row):
    return CHILD.format(plain=child_plain(table, name, boxed), set=name, row=f"(row_plain N.plain {row})")


def asked_of_node(table, *code):
    """The bounds of a node for which the code makes wrappers, itself or by a function of members.rt."""
    code = "".join(code)
    wrapped = [s for s in table.nesting() if f"N::{snake(s.name)}_node(" in code or f" {snake(s.name)}_of_" in code]
    return " + ".join([holds(s) for s in wrapped] or ["HasType"])


def asked_by(table, fields):
    """The bounds of a node for the fields that hold children."""
    return asked_of_node(table, *[made(table, f.kind, f.kind in table.nodes and not f.is_list) for f in fields])


def impl(table, name, boxed):
    of, arms = child_type(table, name, boxed), made(table, name, boxed)
    unused = "" if "alloc" in arms else "        let _ = alloc;\n"
    return f"""impl<N: {asked_of_node(table, arms)} + Drop> Child<N> for {of} {{
    ghost plain = {{ λ n. {plain_at(table, name, boxed, "n")} }};

    ghost of_set = {{ sets.{name} }};

    fn set() -> NodeSet {{
        NodeSet::{name}
    }}

    #[tactic(auto, using(crate::proofs::{rules_home(table, name)}::{rules_of(table, name)}))]
    fn from_row(alloc: Global, row: Row<N>) -> Result<Option<{of}>, AllocError>
        {contract(table, name, boxed, "row")}
    {{
{unused}        match row {{
{arms}            rest => {{
                rest.let_go();
                Ok(None)
            }}
        }}
    }}
}}"""


def made(table, name, boxed):
    """The arms of the rows that are of the set."""
    arms = ""
    for g in groups(table):
        if isinstance(g, str):
            outer = name in table.sets and g not in table.sets[name].members and holder(table, name, g)
            if name in table.sets and g in of_two_kinds(table, name):
                arms += f"            Row::{g}(row) => {of_kind(name, g)}(alloc, row),\n"
            elif outer:
                direct = f"N::{snake(outer.name)}_node({outer.name}::{g}(row))"
                arms += f"            Row::{g}(row) => {within(name, outer)}(alloc, {direct}),\n"
            elif g in table.types_in(name):
                arms += f"            Row::{g}(row) => Ok(Some({member(table, name, g, boxed)})),\n"
        elif g.name == name:
            direct = held(table, g, "Box::into_inner(row)")
            arms += f"            Row::{name}(row) => Ok(Some(N::{snake(name)}_node({direct}))),\n"
        elif is_within(table, name, g):
            direct = held(table, g, "Box::into_inner(row)")
            arms += f"            Row::{g.name}(row) => {within(name, g)}(alloc, N::{snake(g.name)}_node({direct})),\n"
        elif some(table, name, g):
            arms += f"            Row::{g.name}(row) => Ok({part(name, g, boxed)}(Box::into_inner(row))),\n"
    return arms


def holder(table, name, g):
    """The set within the set that has the type as a member."""
    return next((table.sets[m] for m in table.sets[name].members if m in table.sets and g in table.sets[m].members), None)


def of_two_kinds(table, name):
    """The types of a set that are also in a set within it: a row of the type is the set's own member where it is a declaration."""
    return [m for m in table.sets[name].members if m in table.nodes and holder(table, name, m)] if name in table.sets else []


def of_kind(name, m):
    return f"{snake(name)}_of_{snake(m)}"


def one_of_kind(table, name, m):
    """A row of a type that is in the set by itself and in a set within it: by its kind."""
    of, outer = child_type(table, name, False), holder(table, name, m)
    kind = next(f.kind for f in table.nodes[m].fields if f.name == "kind")
    other = f"N::{snake(outer.name)}_node({outer.name}::{m}(row))"
    return f"""pub fn {of_kind(name, m)}<N: {asked_of_node(table, other)} + Drop>(
    alloc: Global,
    row: Box<{m}<N>>,
) -> Result<Option<{of}>, AllocError>
    ensures {{ IfOk result (λ child. option_map {child_plain(table, name, False)} child ≡ Some ({table.nodes[m].row} N.plain row.value)) }}
{{
    match row.kind {{
        {kind}::Declaration => Ok(Some({name}::{m}(row))),
        {kind}::Expression => {within(name, outer)}(alloc, {other}),
    }}
}}"""


def is_within(table, name, g):
    """Whether the set of rows is a member of the set."""
    return name in table.sets and g.name in table.sets[name].members


def member(table, name, m, boxed):
    """A row of the type as a child of the set, or as the type's own."""
    if name in table.nodes:
        return "row" if boxed else "Box::into_inner(row)"
    s = table.sets[name]
    if m not in s.members:
        raise SystemExit(f"{name}: {m} in a set within it has no form in the reader yet")
    return f"N::{snake(name)}_node({name}::{m}(row))" if s.nests else f"{name}::{m}(row)"


# ---- a member of a set within the set, which stands in a box of its own

def within(name, g):
    return f"{snake(name)}_of_{snake(g.name)}"


def one_within(table, name, g):
    m, of = snake(g.name), child_type(table, name, False)
    made = f"{name}::{g.name}({m})"
    made = f"N::{snake(name)}_node({made})" if table.sets[name].nests else made
    return f"""pub fn {within(name, g)}<N: {asked_of_node(table, made)} + Drop>(
    alloc: Global,
    {m}: {g.name}Node<N>,
) -> Result<Option<{of}>, AllocError>
    ensures {{ IfOk result (λ child. option_map {child_plain(table, name, False)} child ≡ Some (in_{m} N.plain {m})) }}
{{
    let {m} = Box::new(alloc, {m})?;
    Ok(Some({made}))
}}"""


# ---- a place that takes some types of a set that rows are kept by

def some(table, name, g):
    return [m for m in own(table, g) if m in table.types_in(name)]


def part(name, g, boxed):
    return f"{snake(name)}_of_{snake(g.name)}" + ("_in_box" if boxed else "")


def parts(table, name, boxed):
    """The functions that a place has for such sets."""
    return [one_part(table, name, g, boxed) for g in large(table) if has_part(table, name, g)]


def has_part(table, name, g):
    return g.name != name and not is_within(table, name, g) and some(table, name, g)


REST = """        rest => {
            drop(rest);
            None
        }
"""


def one_part(table, name, g, boxed):
    of, plain = child_type(table, name, boxed), child_plain(table, name, boxed)
    row_type = kept(table, g) + parameter(table, g.name)
    arms = "".join(f"        {g.name}::{m}(row) => Some({member(table, name, m, boxed)}),\n" for m in some(table, name, g))
    rest = REST if len(some(table, name, g)) < len(g.members) else ""
    row = f"({plain_of_set(table, g)} {held(table, g, 'row')})"
    taken = f"    let {snake(g.name)} = row.{snake(g.name)};\n" if inner(table, g) else ""
    nests = f"<N: {asked_of_node(table, arms)} + Drop>" if "<N>" in row_type + of else ""
    return f"""pub fn {part(name, g, boxed)}{nests}(row: {row_type}) -> Option<{of}>
    ensures {{ option_map {plain} result
        ≡ (if in_set sets.{name} (type_of {row}) then Some {row} else None) }}
{{
{taken}    match {snake(g.name) if taken else "row"} {{
{arms}{rest}    }}
}}"""


# ---- src/set_fields.rt

FORMS = {
    "": ("needed_{}", "needed_child", "{}", "λ c. a_child ({})", "true needed (child sets.{})"),
    "?": ("optional_{}", "optional_child", "Option<{}>", "λ o. a_maybe (optional (option_map {} o))",
          "false may_be_absent (child sets.{})"),
    "*": ("{}_list", "children", "Vec<{}>", "λ v. a_list (trees (map {} v.items))", "false may_be_absent (many sets.{})"),
    "*?": ("optional_{}_list", "optional_children", "Option<Vec<{}>>",
           "λ o. a_maybe_list (optional_list (option_map (λ v. map {} v.items) o))", "false may_be_absent (maybe_many sets.{})"),
    "?*": ("{}_or_hole_list", "children_or_holes", "Vec<Option<{}>>", "λ v. a_list (holed (map (option_map {}) v.items))",
           "false may_be_absent (many_or_holes sets.{})"),
}


def reader_of(f):
    return FORMS[f.many][0].format(snake(f.kind))


def readers(table, of_lists):
    fields = {reader_of(f): f for n in table.nodes.values() for f in table.children(n) if f.is_list == of_lists}
    body = "\n\n".join(reader(table, f) for f in fields.values())
    ghosts = [("Rattle.std.specs.Prelude", ["true", "false", "map", "option_map"]),
              (f"{READER}.specs.Given", ["row_data"]), (f"{SPECS}.Tree", ["optional", "optional_list", "trees", "holed"])]
    ghosts += [(f"{SPECS}.Table", ["needed", "may_be_absent", "child", "children as many", "children_or_holes as many_or_holes", "maybe_children as maybe_many"])] + row_names(table)
    ghosts += [(f"{READER}.specs.Values", ["at", "field as value_under"]), (f"{READER}.specs.Meaning", ["a_child", "a_maybe", "a_list", "a_maybe_list"]),
               (f"{READER}.specs.Reads", ["Gives", "read_children"]), ("Rattle.jsgen_pool.specs.Pool", ["entries"])]
    tree = list(table.nodes) + list(table.sets) + [s.name + "Node" for s in table.nesting()]
    homes = [("crate", ["InputFault"]), ("crate::fields", ["needed_child", "optional_child", "children", "optional_children", "children_or_holes"]),
             ("jsgen_kept::asked", ["RowOf"] + [holds(s) for s in table.nesting()]), ("jsgen_pool", ["Kept"]), ("jsgen_tree", ["HasType"] + tree)]
    homes += [("crate::given", ["GivenRow"]), ("std::alloc", ["Global"])]
    about = f"Fields that hold {'lists of' if of_lists else 'single'} children, by set: a row that calls one of these passes no impl of `Child`, which would be " \
            "proved at each call."
    return layout.rust(about, ghosts, TYPES, homes, body)


def reader(table, f):
    name, inner, result, gives, field = FORMS[f.many]
    boxed = f.kind in table.nodes and not f.is_list
    of = result.format(child_type(table, f.kind, boxed))
    plain = plain_at(table, f.kind, boxed, "c") if f.many == "" else child_plain(table, f.kind, boxed)
    return f"""pub fn {name.format(snake(f.kind))}<N: {asked_by(table, [f])} + Drop, R: RowOf<N> + Drop>(
    alloc: Global,
    kept: &mut Vec<Kept<R>>,
    number: usize,
    field: usize,
    row: &GivenRow<'_>,
    name: &str,
) -> Result<{of}, InputFault>
    ensures {{ Gives ({gives.format(plain)}) result (entries R.plain kept.new.items)
        (read_children (at number field) {field.format(f.kind)} (value_under name.now (row_data row.now)) (entries R.plain kept.old.items)) }}
{{
    {inner}::<N, R, _>(alloc, kept, number, field, row, name)
}}"""
