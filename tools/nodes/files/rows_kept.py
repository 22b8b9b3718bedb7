"""jsgen_kept's src/kept.rt and specs/Kept.antt: the rows that were read, by the set that they are children of; and src/others.rt and specs/Others.antt: the members of a set whose rows are kept by it, where others are
kept elsewhere. What the reader asks of a node where trees nest stands in src/asked.rt. jsgen_fields' src/set_rows.rt: the rows of members of sets, which may want memory."""

from functools import cache

import layout
from names import KEPT, READER, SPECS, TYPES, row_names, sets_in_antt, types_in_antt, variants_of_sets
from table import snake, spoken

# ---- how each type is kept, for all files of the reader

@cache
def set_of(table, name):
    """The set that a type's rows are kept by: the one that nests and has it; None where there is none, or more than one."""
    sets = [s for s in table.nesting() if name in s.members]
    return sets[0] if len(sets) == 1 else None


@cache
def groups(table):
    """What a row may be, in the order of the types: a set, or the name of a type that is in none."""
    every = {}
    for name in table.nodes:
        s = set_of(table, name)
        every[s.name if s else name] = s or name
    return list(every.values())


def large(table):
    return [g for g in groups(table) if not isinstance(g, str)]


@cache
def own(table, s):
    """The types of a set whose rows are kept by it."""
    return [m for m in s.members if m in table.nodes and set_of(table, m)]


@cache
def inner(table, s):
    """The members of a set whose rows are kept elsewhere: the sets within it, and types that are in another set too."""
    return [m for m in s.members if m not in own(table, s)]


def outer(table):
    """The sets of rows with such members."""
    return [s for s in large(table) if inner(table, s)]


def kept(table, s):
    """What holds a set's rows: the set, or where some of its rows are kept elsewhere a member that isn't one of those."""
    return "Other" + s.name if inner(table, s) else s.name


def held(table, s, row):
    """The member of the set that a row of it holds."""
    return f"{row}.{snake(s.name)}" if inner(table, s) else row


def made_of(table, s, member):
    """A member as a row is made of it."""
    return f"{kept(table, s)} {{ {snake(s.name)}: {member} }}" if inner(table, s) else member


def parameter(table, name):
    return "<N>" if table.generic(name) else ""


def plain_of_set(table, s):
    return s.plain + (" N.plain" if table.generic(s.name) else "")


# ---- src/kept.rt

def write(table):
    return {"crates/jsgen_kept/specs/Kept.antt": specs(table),
            "crates/jsgen_fields/src/set_rows.rt": set_rows(table),
            "crates/jsgen_kept/src/others.rt": others(table), "crates/jsgen_kept/specs/Others.antt": others_specs(table)}


def rust(table, ghosts):
    """src/kept.rt. rows_children.py has what is made of a row at each place."""
    parts = [rows_enum(table), LET_GO, ANY_ROW, typed(table), AS_CHILD, into_program(), "// ---- rows of nodes"]
    parts += [row_of(table, g) for g in groups(table)]
    plains = [s.plain for s in table.nesting()] + ["program_row"]
    ghosts = [(m, ns + plains if m.endswith("specs.Rows") else ns + ["is_program"] if m.endswith("specs.Kept") else ns) for m, ns in ghosts]
    homes = [("crate::asked", ["Child", "RowOf"]), ("jsgen_pool", ["Typed"])] + homes_of(table)
    about = "The rows that were read, by the set that they are children of."
    return layout.rust(about, ghosts, TYPES, homes, "\n\n".join(parts))


LET_GO = """impl<N: Drop> Row<N> {
    /// Lets go of the row, by a call that asks nothing of its types where it is made.
    pub fn let_go(self) {
        drop(self);
    }
}"""


ANY_ROW = """/// A row as it is kept. Its `drop` is written out, so that it is proved here alone: a derived one is proved again, for all types,
/// in each crate that lets go of a row.
pub struct AnyRow<N = Node> {
    row: Row<N>,
}

impl<N: Drop> Drop for AnyRow<N> {
    fn drop(self) {
        let AnyRow { row } = self;
        row.let_go();
    }
}"""


AS_CHILD = """impl<N: HasType + Drop> RowOf<N> for AnyRow<N> {
    fn into_child<C: Child<N>>(self, alloc: Global) -> Result<Option<C>, AllocError>
        ensures { IfOk result (λ child. option_map C.plain child
            ≡ (if in_set C.of_set (type_of (any_row_plain N.plain self)) then Some (any_row_plain N.plain self) else None)) }
    {
        let AnyRow { row } = self;
        C::from_row(alloc, row)
    }

    fn of_row(row: Row<N>) -> AnyRow<N>
        ensures { any_row_plain N.plain result ≡ row_plain N.plain row }
    {
        AnyRow { row }
    }
}"""


def homes_of(table):
    tree = list(table.nodes) + list(table.sets) + [s.name + "Node" for s in table.nesting()] + ["HasType", "Node", "NodeSet", "NodeType"]
    return [("crate::others", [kept(table, s) for s in outer(table)]), ("jsgen_tree", tree),
            ("std::alloc", ["AllocError", "Global"])]


CHILD = """/// What a place for children takes: a set of types, and what is made of a row of one of them.
pub trait Child<N: HasType>: Sized {
    ghost use Rattle.jsgen_tree.specs.Tree.{Tree};
    ghost use Rattle.jsgen_tree.specs.declared.types.NodeSet.{NodeSet};

    ghost plain: { Self → Tree };

    ghost of_set: { NodeSet };

    fn set() -> NodeSet
        ensures { result ≡ of_set };

    /// The child that a row is, where it is of the set.
    fn from_row(alloc: Global, row: Row<N>) -> Result<Option<Self>, AllocError>
        ensures { IfOk result (λ child. option_map plain child
            ≡ (if in_set of_set (type_of (row_plain N.plain row)) then Some (row_plain N.plain row) else None)) };
}"""


def asked(table, ghosts):
    """src/asked.rt"""
    plains = [s.plain for s in table.nesting()] + ["in_" + snake(s.name) for s in table.nesting()]
    ghosts = [(m, ns + plains if m.endswith("specs.Rows") else ns) for m, ns in ghosts] + [(f"{SPECS}.Plain", ["node_plain"])]
    about = "What the reader asks of a node where trees nest, of a child, and of a row."
    homes = [("jsgen_pool", ["Typed"]), ("crate::kept", ["Row"])] + homes_of(table)
    return layout.rust(about, ghosts, TYPES, homes, "\n\n".join([holds_set(table, s) for s in table.nesting()] + [read_node(table), CHILD, ROW]))


ROW = """/// What the reader asks of a row: the child that it is at a place, and to be made of one. Only `AnyRow` implements it; the reader is
/// generic in it, since a proof of what has to do with `Row` itself looks at all types.
pub trait RowOf<N: HasType>: Typed + Sized {
    fn into_child<C: Child<N>>(self, alloc: Global) -> Result<Option<C>, AllocError>
        ensures { IfOk result (λ child. option_map C.plain child
            ≡ (if in_set C.of_set (type_of (Self.plain self)) then Some (Self.plain self) else None)) };

    fn of_row(row: Row<N>) -> Self
        ensures { Self.plain result ≡ row_plain N.plain row };
}"""


def rows_enum(table):
    variants = ""
    for g in groups(table):
        name, of = (g, g) if isinstance(g, str) else (g.name, kept(table, g))
        variants += f"    {name}(Box<{of}{parameter(table, name)}>),\n"
    return f"""/// A row that was read, by the set that it is a child of. Sets are in boxes, so that a row is small whatever
/// they have.
#[derive(Drop)]
pub enum Row<N = Node> {{
{variants}}}"""


def holds(s):
    """The trait of a node that may be a member of the set."""
    return "Holds" + s.name


def of_set(table, s):
    """The set's type for the node {}, and its plain data."""
    return (s.name + "<{}>", s.plain + " {}") if table.generic(s.name) else (s.name, s.plain)


def method(head, fact, body="", using=""):
    """A call of a trait, or of its impl where it has a body."""
    body = f"\n    {{\n        {body}\n    }}" if body else ";"
    return f"{using}    {head}\n        ensures {{ {fact} }}{body}\n"


def wrapped(table, s, body="", using=""):
    """The call that makes the set's wrapper of a member."""
    name, (member, plain) = snake(s.name), of_set(table, s)
    call = method(f"fn {name}_node({name}: {member}) -> {s.name}Node<{{}}>", f"in_{name} [] result ≡ {plain.replace('{}', '[]')} {name}", "BODY" if body else "", using)
    return call.replace("BODY", body)


def asked_of(call):
    return call.replace("{}", "Self").replace("[]", "Self.plain")


def of_node(call):
    return call.replace("<{}>", "").replace("[]", "node_plain")


def holds_set(table, s):
    """The trait of a set that nests, and that `Node` has it."""
    name = snake(s.name)
    using = f"    #[tactic(auto, using(jsgen_tree::proofs::Knot::plain_{name}))]\n"
    return f"""/// A node that may be {spoken(s.name)}.
pub trait {holds(s)}: HasType + Sized {{
{asked_of(wrapped(table, s))}}}

impl {holds(s)} for Node {{
{of_node(wrapped(table, s, f"{name}.into()", using))}}}"""


def read_node(table):
    every = " + ".join(holds(s) for s in table.nesting())
    return f"""/// What the reader asks of a node where trees nest. Only `Node` implements it.
pub trait ReadNode: {every} {{}}

impl ReadNode for Node {{}}"""


def typed(table):
    arms = ""
    for g in groups(table):
        if isinstance(g, str):
            arms += f"            Row::{g}(_) => NodeType::{g},\n"
        else:
            arms += f"            Row::{g.name}(row) => {held(table, g, '(**row)')}.node_type(),\n"
    return f"""impl<N: HasType> Typed for AnyRow<N> {{
    ghost plain = {{ λ row. any_row_plain N.plain row }};

    fn node_type(&self) -> NodeType {{
        match &self.row {{
{arms}        }}
    }}
}}"""


def into_program():
    return """impl<N: HasType + Drop> AnyRow<N> {
    #[tactic(auto, using(crate::proofs::Sets::takes_programs))]
    pub fn into_program(self) -> Option<Program<N>>
        ensures { option_map (program_row N.plain) result
            ≡ (if is_program (type_of (any_row_plain N.plain self)) then Some (any_row_plain N.plain self) else None) }
    {
        let AnyRow { row } = self;
        match row {
            Row::Program(program) => Some(Box::into_inner(program)),
            rest => {
                rest.let_go();
                None
            }
        }
    }
}"""


def row_of(table, g):
    """What makes a row of a node of the type, or of a member of the set."""
    if isinstance(g, str):
        name, of = snake(g), f"Box<{g}{parameter(table, g)}>"
        row = f"{table.nodes[g].row}{' N.plain' if table.generic(g) else ''} {name}.value"
        return f"""pub fn row_of_{name}<N: HasType + Drop, R: RowOf<N>>({name}: {of}) -> R
    ensures {{ R.plain result ≡ {row} }}
{{
    R::of_row(Row::{g}({name}))
}}"""
    name, of = snake(g.name), kept(table, g) + parameter(table, g.name)
    given = "other" if inner(table, g) else name
    return f"""pub fn row_of_{name}<N: HasType + Drop, R: RowOf<N>>(alloc: Global, {given}: {of}) -> Result<R, AllocError>
    ensures {{ IfOk result (λ row. R.plain row ≡ {plain_of_set(table, g)} {held(table, g, given)}) }}
{{
    let {given} = Box::new(alloc, {given})?;
    Ok(R::of_row(Row::{g.name}({given})))
}}"""


# ---- jsgen_fields' src/set_rows.rt

def set_rows(table):
    """What makes a row of a member of a set, and answers want of memory as the reader does."""
    ghosts = [("Rattle.std.specs.Prelude", ["Ok"])] + row_names(table) + [(f"{READER}.specs.Values", ["Same"])]
    homes = [("crate", ["InputFault"]), ("jsgen_kept", ["kept"]), ("jsgen_kept::asked", ["RowOf"]), ("jsgen_kept::others", [kept(table, s) for s in outer(table)]),
             ("jsgen_tree", ["HasType"] + list(table.sets)), ("std::alloc", ["Global"])]
    about = "The rows of members of sets, each in a box; want of memory for one is a fault of the reader."
    return layout.rust(about, ghosts, [], homes, "\n\n".join(set_row(table, s) for s in large(table)))


def set_row(table, s):
    name, of = snake(s.name), kept(table, s) + parameter(table, s.name)
    given = "other" if inner(table, s) else name
    return f"""pub fn row_of_{name}<N: HasType + Drop, R: RowOf<N>>(alloc: Global, {given}: {of}) -> Result<R, InputFault>
    ensures {{ Same R.plain result (Ok ({plain_of_set(table, s)} {held(table, s, given)})) }}
{{
    Ok(kept::row_of_{name}::<N, R>(alloc, {given})?)
}}"""


# ---- src/others.rt and specs/Others.antt

def others(table):
    body = "\n\n".join(other(table, s) for s in outer(table))
    ghosts = [("Rattle.std.specs.Prelude", ["◌≡◌", "true"]),
              (f"{KEPT}.specs.Others", ["is_" + snake(kept(table, s)) for s in outer(table)])]
    homes = [("jsgen_tree", ["Node"] + list(table.sets))]
    return layout.rust("The members of a set whose rows are kept by it.", ghosts, [], homes, body)


def other(table, s):
    name = snake(s.name)
    return f"""/// {spoken(s.name).capitalize()} that is no {" and no ".join(snake(m).replace("_", " ") for m in inner(table, s))}.
#[derive(Drop)]
pub struct {kept(table, s)}<N = Node> {{
    pub {name}: {s.name}<N>,
    pub ghost other: {{ is_{snake(kept(table, s))} {name} ≡ true }},
}}"""


def others_specs(table):
    parts = []
    for s in outer(table):
        name = "is_" + snake(kept(table, s))
        clauses = "".join(f"\n{name} ({snake(s.name)}.{m} b) = false" for m in inner(table, s))
        parts.append(f"abbrev pub {name} : {{N : Type 0}} → {s.name} N → Bool{clauses}\n{name} s = true")
    homes = [("Rattle.std.specs.Prelude", ["Bool", "true", "false"])] + sets_in_antt(table)
    return layout.antt("Which members of a set have rows that are kept by it.", homes, variants_of_sets(table), "\n\n".join(parts))


# ---- specs/Kept.antt

def specs(table):
    parts = [row_plain(table), """abbrev pub any_row_plain : {N : Type 0} → (N → Tree) → AnyRow N → Tree
any_row_plain plain any = row_plain plain any.row

abbrev pub entry : {N : Type 0} → (N → Tree) → Kept (AnyRow N) → Entry
entry plain k = pool.entry (any_row_plain plain) k

abbrev pub entries : {N : Type 0} → (N → Tree) → List (Kept (AnyRow N)) → List Entry
entries plain ks = pool.entries (any_row_plain plain) ks""",
             "abbrev pub is_program : NodeType → Bool\nis_program types.Program = true\nis_program other = false"]
    homes = [("Rattle.std.specs.Prelude", ["List", "Bool", "true", "false"]), (f"{SPECS}.Tree", ["Tree"])] + types_in_antt(table) + row_names(table)
    homes += [("Rattle.jsgen_pool.specs.Pool", ["Entry"]), ("Rattle.jsgen_pool.specs.declared.Kept", ["Kept"])]
    homes += [(f"{KEPT}.specs.declared.kept.Row", ["Row"]), (f"{KEPT}.specs.declared.kept.AnyRow", ["AnyRow"])]
    aliases = TYPES + [("Rattle.jsgen_pool.specs.Pool", "pool"), (f"{KEPT}.specs.declared.kept.Row.TheVariants", "rows")]
    return layout.antt("The plain data of what the reader keeps.", homes, aliases, "\n\n".join(parts))


def row_plain(table):
    clauses = ""
    for g in groups(table):
        name, plain = (g, table.nodes[g].row) if isinstance(g, str) else (g.name, g.plain)
        row = "b.value" if isinstance(g, str) else held(table, g, "b.value")
        clauses += f"\nrow_plain plain (rows.{name} b) = {plain}{' plain' if table.generic(name) else ''} {row}"
    return f"abbrev pub row_plain : {{N : Type 0}} → (N → Tree) → Row N → Tree{clauses}"
