"""crates/jsgen_flat: the table of types as a reader of flat jobs has it (docs/FORMAT.md, "Flat jobs"): the types by their numbers, the names
of their fields and how a word of each is read, and the table's number."""

import layout
from flat import sort, table_number, words
from names import SPECS, TYPES, types_in_antt
from table import snake

CRATE = "crates/jsgen_flat"
READ_AS = {"child": "Child", "list": "List", "text": "Text", "string": "Units", "digits": "Digits", "number": "Number", "flag": "Flag",
           "unread": "Unread"}


def write(table):
    return rust(table) | {f"{CRATE}/specs/Names.antt": specs(table), f"{CRATE}/proofs/FieldNames.antt": proofs(table)}


def specs(table):
    names = "".join(f'\ntype_name types.{n} = codes "{n}"' for n in table.nodes)
    parts = [f"abbrev pub type_name : NodeType → List ℕ{names}",
             "-- the types by their numbers\nabbrev pub node_types : List NodeType\nnode_types = "
             + " ∷ ".join([f"types.{n}" for n in table.nodes] + ["[]"]),
             "-- FNV-1a of 32 bits of the types, their fields, and how each is read: docs/FORMAT.md says of which text\n"
             f"abbrev pub table_number : ℕ\ntable_number = {table_number(table)}"]
    homes = [("Rattle.std.specs.Prelude", ["ℕ", "List", "[]", "◌∷◌", "codes"])] + types_in_antt(None)
    return layout.antt("The types of nodes by their numbers, with their names, and the number of their table.", homes, TYPES, "\n\n".join(parts))


def proofs(table):
    """No type has two fields with one name, nor one with the name of what stands beside the fields."""
    clauses = "".join(f"\napart types.{node} = refl" for node in table.nodes)
    parts = [f"pub apart : (type : NodeType) → are_apart (map shaped (fields type)) ≡ true{clauses}"]
    for name in ("type", "span"):
        law = f"no_field_{name}"
        clauses = "".join(f"\n{law} p n types.{node} = refl" for node in table.nodes)
        parts.append(f"pub {law} : (p : Sections) (n : ℕ) (type : NodeType) → given_by p (codes \"{name}\") n (map shaped (fields type)) ≡ None{clauses}")
    homes = [("Rattle.std.proofs.Common", ["◌≡◌", "ℕ", "codes", "map", "None", "true", "refl"]), (f"{SPECS}.Fields", ["fields"]),
             ("Rattle.jsgen_flat.specs.Flat", ["Sections", "shaped"]), ("Rattle.jsgen_flat.specs.Views", ["given_by"]),
             ("Rattle.jsgen_flat.proofs.Placed", ["are_apart"])] + types_in_antt(None)
    return layout.antt("No two fields of a row have one name, and none is named as what stands beside the fields.", homes, TYPES, "\n\n".join(parts))


def read_as(table, f):
    """How a word of the field is read."""
    spellings = ", ".join(f'"{word}"' for word in words(table, f))
    return f"FlatSort::Word(&[{spellings}])" if sort(table, f) == "word" else f"FlatSort::{READ_AS[sort(table, f)]}"


def rust(table):
    """src/names.rt, the types by their numbers; src/fields.rt, the fields of each; and these themselves by the files of the table."""
    files = {f"{CRATE}/src/fields/{name}.rt": fields_in(table, about, nodes) for name, about, nodes in parts(table)}
    return files | {f"{CRATE}/src/names.rt": type_names(table), f"{CRATE}/src/fields.rt": fields(table)}


def type_names(table):
    names = "".join(f"        NodeType::{n} => \"{n}\",\n" for n in table.nodes)
    types = "".join(f"    NodeType::{n},\n" for n in table.nodes)
    parts = [HAND.format(number=table_number(table)), f"""/// The name of a type.
pub fn type_name(node_type: NodeType) -> &'static str
    ensures {{ result.now ≡ type_name node_type }}
{{
    match node_type {{
{names}    }}
}}""", f"static NODE_TYPES: [NodeType; {len(table.nodes)}] = [\n{types}];", """fn type_among(types: &[NodeType], number: u32) -> Option<NodeType>
    ensures { result ≡ slice_get types.now number }
{
    match types.get(number as usize) {
        Some(node_type) => Some(*node_type),
        None => None,
    }
}

/// The type of this number, counted from 0.
pub fn type_numbered(number: u32) -> Option<NodeType>
    ensures { result ≡ slice_get node_types number }
{
    type_among(&NODE_TYPES, number)
}"""]
    ghosts = [("Rattle.std.specs.Prelude", ["◌≡◌", "slice_get"]),
              ("Rattle.jsgen_flat.specs.Names", ["type_name", "node_types", "table_number"])]
    return layout.rust("The types by their numbers, with their names, and how a word of a field is read.", ghosts, [],
                       [("jsgen_tree", ["NodeType"])], "\n\n".join(parts))


def parts(table):
    """The files of the table: a name, what the table says of them, and their types."""
    for file, about in table.files.items():
        nodes = [n for n in table.nodes.values() if n.file == file and n.in_format()]
        if nodes:
            yield file, about, nodes


def constant(n):
    return snake(n.name).upper()


def fields_in(table, about, nodes):
    statics = []
    for n in nodes:
        rows = "".join(f"    FlatField {{ name: \"{f.name}\", sort: {read_as(table, f)} }},\n" for f in n.in_format())
        statics.append(f"pub static {constant(n)}: [FlatField; {len(n.in_format())}] = [\n{rows}];")
    return layout.rust(f"Fields of rows: {about[0].lower()}{about[1:]}", [], [], [("crate::names", ["FlatField", "FlatSort"])],
                       "\n\n".join(statics))


def fields(table):
    mods = "\n".join(f"mod {name};" for name in sorted(name for name, _, _ in parts(table)))
    arms = "".join(f"        NodeType::{n.name} => &{constant(n) if n.in_format() else '[]'},\n" for n in table.nodes.values())
    body = f"""{mods}

/// The fields of a type, in their order.
pub fn fields_of(node_type: NodeType) -> &'static [FlatField]
    ensures {{ map field_plain result.now ≡ map shaped (fields node_type) }}
{{
    match node_type {{
{arms}    }}
}}"""
    ghosts = [("Rattle.std.specs.Prelude", ["◌≡◌", "map"]), (f"{SPECS}.Fields", ["fields"]),
              ("Rattle.jsgen_flat.specs.Flat", ["shaped"]), ("Rattle.jsgen_flat.specs.Views", ["field_plain"])]
    homes = [("crate::names", ["FlatField"]), ("jsgen_tree", ["NodeType"])]
    homes += [(f"crate::fields::{name}", [constant(n) for n in nodes]) for name, _, nodes in parts(table)]
    return layout.rust("The fields of each type, in the order in which a flat job has their words.", ghosts, [], homes, body)


HAND = """/// The number of the table, by which a flat job says that it was written for these types, fields and words.
pub const TABLE_NUMBER: u32 = {number};

/// How a word of a field is read.
#[derive(Clone, Copy)]
pub enum FlatSort {{
    Child,
    List,
    Text,
    Units,
    Digits,
    Number,
    Flag,
    /// One of these words, by its number from 1 on.
    Word(&'static [&'static str]),
    /// It isn't read yet.
    Unread,
}}

#[derive(Clone, Copy)]
pub struct FlatField {{
    pub name: &'static str,
    pub sort: FlatSort,
}}"""
