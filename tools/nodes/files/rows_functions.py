"""A function for each type of row, in parts: a file of the table, or several where it has many types. Each is a file of the crate that
the table names; the choice among them is in crates/jsgen_rows/src/rows.rt, and which types are in which part in
crates/jsgen_fields/specs/Parts.antt."""

import layout
from files.rows_children import asked_by, reader_of
from files.rows_kept import holds, inner, kept, made_of, set_of
from names import READER, SPECS, TYPES, types_in_antt
from table import snake

MOST = 25       # functions in a part


def write(table):
    files = {f"crates/{table.row_crates[file]}/src/{name}.rt": one_file(table, name, table.files[file], nodes)
             for name, file, nodes in parts(table)}
    roots = {f"crates/{crate}/src/lib.rt": root(table, crate) for crate in table.row_crates.values()}
    return files | roots | {"crates/jsgen_rows/src/rows.rt": choice(table), "crates/jsgen_fields/specs/Parts.antt": specs(table)}


def by_hand(n):
    """Whether the type has a field of a form of its own; the file literals.rt of its crate has its function."""
    return any(f.parts for f in n.fields)


def parts(table):
    """The parts: their names, the table's file, and the types."""
    every = []
    for file in table.files:
        nodes = [n for n in table.nodes.values() if n.file == file]
        for i in range(0, len(nodes), MOST):
            every.append((file + (f"_{i // MOST + 1}" if i else ""), file, nodes[i:i + MOST]))
    return every


def tested(table):
    """The parts that are asked for; what is in none of them is in the last."""
    return [(name, nodes) for name, _, nodes in parts(table)[:-1]]


def specs(table):
    each = []
    for name, nodes in tested(table):
        clauses = "".join(f"is_in_{name} types.{n.name} = true\n" for n in nodes)
        each.append(f"abbrev pub is_in_{name} : NodeType → Bool\n{clauses}is_in_{name} other = false")
    homes = [("Rattle.std.specs.Prelude", ["Bool", "true", "false"])] + types_in_antt(None)
    return layout.antt("Which types are read in which part; what is in none of these is read in the last.", homes, TYPES,
                       "\n\n".join(each))


def about(text):
    return f"Rows of a job: {text[0].lower()}{text[1:]}"


def root(table, crate):
    """The lib.rt of a crate of rows."""
    within = [(name, nodes) for name, file, nodes in parts(table) if table.row_crates[file] == crate]
    mods = [f"pub mod {name};" for name, _ in within] + (["mod literals;"] if any(by_hand(n) for _, nodes in within for n in nodes) else [])
    mods = "\n".join(sorted(mods, key=lambda mod: mod.split("mod ")[1]))
    return layout.RUST + f"//! Rows of a job, by the files of the table of nodes.\n#![tactic(auto)]\n\n{mods}\n"


def ghosts_of(nodes):
    return [("Rattle.std.specs.Prelude", ["◌≡◌", "true", "false"]), (f"{READER}.specs.Given", ["row_data"]),
            (f"{SPECS}.RowFields", [snake(n.name) + "_fields" for n in nodes]),
            (f"{READER}.specs.Reads", ["Gives", "read_node", "read_typed"]), ("Rattle.jsgen_pool.specs.Pool", ["entries"])]


def one_file(table, name, text, every):
    nodes = [n for n in every if not by_hand(n)]
    sets = list({s.name: s for n in nodes if (s := set_of(table, n.name))}.values())
    values = ["needed_text", "optional_text", "needed_digits", "needed_number", "optional_number", "needed_flag", "optional_flag", "field_not_given", "neither_given"]
    homes = [("crate::literals", [f"read_{snake(n.name)}" for n in every if by_hand(n)]),
             ("jsgen_fields::set_fields", [reader_of(f) for n in nodes for f in table.children(n) if not f.is_list]),
             ("jsgen_fields::list_fields", [reader_of(f) for n in nodes for f in table.children(n) if f.is_list]),
             ("jsgen_fields::fields", ["boxed"]), ("jsgen_fields::strings", ["needed_units", "optional_units"]), ("jsgen_fields::values", values),
             ("jsgen_fields::words", [f"needed_{w.short}" for w in table.words.values()]),
             ("jsgen_kept::asked", ["ReadNode", "RowOf"] + [holds(s) for s in table.nesting()]),
             ("jsgen_fields::set_rows", [f"row_of_{snake(s.name)}" for s in sets]),
             ("jsgen_kept::kept", [f"row_of_{snake(n.name)}" for n in nodes]),
             ("jsgen_kept::others", [kept(table, s) for s in sets if inner(table, s)]),
             ("jsgen_fields", ["InputFault"]), ("jsgen_pool", ["Kept"]), ("jsgen_syntax", ["Span"]),
             ("jsgen_tree", list(dict.fromkeys(["HasType", "NodeType"] + [n.name for n in nodes] + [s.name for s in sets]))),
             ("jsgen_fields::given", ["GivenRow"]), ("std::alloc", ["Global"])]
    homes = [(module, list(dict.fromkeys(names))) for module, names in homes]
    body = "\n\n".join([function(table, n) for n in nodes] + [of_part(table, name, every)])
    ghosts = ghosts_of(nodes) + [(f"{READER}.specs.Parts", [f"is_in_{part}" for part, _ in tested(table)])]
    return layout.rust(about(text), ghosts, TYPES, homes, body)


def function(table, n):
    lines = "".join(f"    let _ = {name};\n" for name in unused(table, n)) + fields(table, n)
    held = "".join(f", {f.rust}" for f in n.in_rust())
    return f"""#[tactic(auto, unfolding(jsgen_fields::specs::Reads::read_node))]
fn read_{snake(n.name)}<N: {asked_by(table, table.children(n))} + Drop, R: RowOf<N> + Drop>(
    alloc: Global,
    kept: &mut Vec<Kept<R>>,
    number: usize,
    span: Span,
    row: &GivenRow<'_>,
) -> Result<R, InputFault>
    ensures {{ Gives R.plain result (entries R.plain kept.new.items)
        (read_node number types.{n.name} {snake(n.name)}_fields span (row_data row.now) (entries R.plain kept.old.items)) }}
{{
{lines}    let node = {n.name} {{ span{held} }};
    match boxed(alloc, node) {{
        Ok(node) => {as_row(table, n)},
        Err(fault) => Err(fault),
    }}
}}"""


def unused(table, n):
    return [] if table.children(n) else ["kept"] if n.fields else ["kept", "number", "row"]


def as_row(table, n):
    s = set_of(table, n.name)
    return f"row_of_{snake(s.name)}::<N, R>(alloc, {made_of(table, s, f'{s.name}::{n.name}(node)')})" if s else f"Ok(row_of_{snake(n.name)}::<N, R>(node))"


def fields(table, n):
    return "".join(read(name, call) if name else refused(call) for name, call in calls(table, n))


def calls(table, n):
    """The variable and the call of each field, in their order; two in a row that aren't read yet are one call."""
    every, pending = [], None
    for number, f in list(enumerate(n.in_format(), 2)) + [(None, None)]:
        if pending and f and f.unread:
            every.append((None, f"neither_given(number, {pending[0]}, row, \"{pending[1].name}\", \"{f.name}\")"))
            pending = None
            continue
        if pending:
            every.append((None, f"field_not_given(number, {pending[0]}, row, \"{pending[1].name}\")"))
        pending = (number, f) if f and f.unread else None
        if f and not f.unread:
            every.append((f.rust, call(table, n, f, number)))
    return every


def refused(call):
    return f"    match {call} {{\n        Ok(()) => {{}}\n        Err(fault) => return Err(fault),\n    }}\n"


def read(name, call):
    return f"    let {name} = match {call} {{\n        Ok({name}) => {name},\n        Err(fault) => return Err(fault),\n    }};\n"


def call(table, n, f, number):
    field = f"number, {number}, row, \"{f.name}\""
    if table.is_child(f):
        return f"{reader_of(f)}::<N, R>(alloc, kept, {field})"
    if f.kind in table.words and f.required:
        return f"needed_{table.words[f.kind].short}({field})"
    form = {("text", None): f"needed_text(alloc, {field})", ("text", '""'): f"optional_text(alloc, {field})",
            ("units", None): f"{'optional' if f.many else 'needed'}_units(alloc, {field})", ("digits", None): f"needed_digits({field})",
            ("number", None): f"{'optional' if f.many else 'needed'}_number({field})",
            ("flag", None): f"{'needed' if f.needed else 'optional'}_flag({field})"}.get((f.kind, f.default))
    if not form:
        raise SystemExit(f"{n.name}.{f.name}: a value {f.kind} with this default has no form in the reader yet")
    return form


# ---- the choice

HEAD = """<N: ReadNode + Drop, R: RowOf<N> + Drop>(
    alloc: Global,
    kept: &mut Vec<Kept<R>>,
    node_type: NodeType,
    number: usize,
    span: Span,
    row: &GivenRow<'_>,
) -> Result<R, InputFault>
"""

GIVES = """    ensures { Gives R.plain result (entries R.plain kept.new.items)
        (read_typed number node_type span (row_data row.now) (entries R.plain kept.old.items)) }
"""

TYPED = "(alloc, kept, node_type, number, span, row)"


def of_part(table, name, nodes):
    """The choice within a part."""
    others = [part for part, _ in tested(table)]
    asked = {f"in_{name}": f"is_in_{name} node_type ≡ true"} if name in others else \
        {f"not_in_{part}": f"is_in_{part} node_type ≡ false" for part in others}
    requires = "".join(f"    requires {fact + ' ' if len(asked) > 1 else ''}{{ {said} }}\n" for fact, said in asked.items())
    arms = "".join(f"        NodeType::{n.name} => read_{snake(n.name)}::<N, R>(alloc, kept, number, span, row),\n" for n in nodes)
    rest = "        _ => unreachable!(),\n" if asked else ""
    return f"/// The row of a type of this part.\npub fn read_in_{name}{HEAD}{requires}{GIVES}{{\n    match node_type {{\n{arms}{rest}    }}\n}}"


def test(name, nodes):
    types = "\n            | ".join(f"NodeType::{n.name}" for n in nodes)
    return f"""fn is_in_{name}(node_type: NodeType) -> bool
    ensures {{ result ≡ is_in_{name} node_type }}
{{
    matches!(
        &node_type,
        {types}
    )
}}"""


def choice(table):
    asked = "".join(f"    if is_in_{name}(node_type) {{\n        return read_in_{name}::<N, R>{TYPED};\n    }}\n" for name, _ in tested(table))
    last = parts(table)[-1][0]
    whole = f"/// The row of a type.\npub fn read_typed{HEAD}{GIVES}{{\n{asked}    read_in_{last}::<N, R>{TYPED}\n}}"
    body = "\n\n".join([test(name, nodes) for name, nodes in tested(table)] + [whole])
    homes = [(f"{table.row_crates[file]}::{name}", [f"read_in_{name}"]) for name, file, _ in parts(table)]
    homes += [("jsgen_kept::asked", ["ReadNode", "RowOf"]), ("jsgen_fields", ["InputFault"]), ("jsgen_pool", ["Kept"]),
              ("jsgen_syntax", ["Span"]), ("jsgen_tree", ["NodeType"]), ("jsgen_fields::given", ["GivenRow"]), ("std::alloc", ["Global"])]
    ghosts = ghosts_of([]) + [(f"{READER}.specs.Parts", [f"is_in_{name}" for name, _ in tested(table)])]
    return layout.rust("The rows of a job, by their types.", ghosts, [], homes, body)
