"""The reader's specs/Names.antt and src/names.rt: the types by their names, in tables, and a search. A long table is
slow to prove, so there may be several."""

import layout
from names import READER, TYPES, types_in_antt

MOST = 50


def write(table):
    tables = in_tables(list(table.nodes))
    invariant = {"crates/jsgen_fields/proofs/names/first_named/Invariants.antt": left()}
    return {"crates/jsgen_fields/specs/Names.antt": specs(tables), "crates/jsgen_fields/src/names.rt": rust(tables),
            "crates/jsgen_fields/proofs/TypeNames.antt": laws(table, tables)} | invariant


def in_tables(types):
    """The types of each table, by its name."""
    tables = [types[i:i + MOST] for i in range(0, len(types), MOST)]
    return {f"type_names{f'_{i}' if i > 1 else ''}": some for i, some in enumerate(tables, 1)}


def specs(tables):
    parts = ["""abbrev pub or_else : {A : Type 0} → Option A → Option A → Option A
or_else None o = o
or_else (Some a) o = Some a""", """-- the type whose name the text is
abbrev pub first_named : List (List ℕ × NodeType) → List ℕ → Option NodeType
first_named [] s = None
first_named (n ∷ ns) s = if bytes_eq s n.0 then Some n.1 else first_named ns s"""]
    for name, types in tables.items():
        rows = " ∷ ".join([f'(codes "{t}", types.{t})' for t in types] + ["[]"])
        parts.append(f"abbrev pub {name} : List (List ℕ × NodeType)\n{name} = {rows}")
    if len(tables) > 1:
        parts += [f"unfoldable pub in_{t} : List ℕ → Option NodeType\nin_{t} s = first_named {t} s" for t in tables]
    whole = "abbrev" if len(tables) > 1 else "unfoldable"
    parts.append(f"-- the type that a name names\n{whole} pub type_named : List ℕ → Option NodeType\ntype_named s = {either(list(tables))}")
    homes = [("Rattle.std.specs.Prelude", ["ℕ", "List", "[]", "◌∷◌", "codes", "Option", "Some", "None", "if◌then◌else◌"]),
             ("Rattle.std.specs.Str", ["bytes_eq"])] + types_in_antt(None)
    return layout.antt("The types of nodes by their names.", homes, TYPES, "\n\n".join(parts))


def laws(table, tables):
    """Each type is named by its name, and so is that of a row of a flat job."""
    clauses = "".join(f"\nby_name types.{n} = refl" for n in table.nodes)
    unfolded = " ".join([f"in_{t}" for t in tables] if len(tables) > 1 else ["type_named"])
    body = f"""by_name : (type : NodeType) → type_named (type_name type) ≡ Some type
unfolding {unfolded}{clauses}

named : (k : ℕ) (r : FlatRow) (o : Option Data) → o ≡ Some (string (type_name r.node_type)) → after (field_in (at k 0) true (present o)) (type_given (at k 0)) ≡ Ok r.node_type
named k r o e = rw (e, by_name r.node_type) refl

-- a row of a flat job has its type
pub typed : (k : ℕ) (r : FlatRow) → type_of k (flat_row_data r) ≡ Ok r.node_type
unfolding row_data
typed k r = named k r (get (codes "type") (flat_row_data r)) (flat_typed r)"""
    homes = [("Rattle.std.proofs.Common", ["◌≡◌", "ℕ", "codes", "Option", "Some", "Ok", "true", "refl"]),
             ("Rattle.serde_json.specs.Data", ["Data", "string"]), ("Rattle.serde_json.specs.Find", ["get"]),
             ("Rattle.jsgen_flat.specs.Names", ["type_name"]), ("Rattle.jsgen_flat.specs.Flat", ["row_data"]),
             ("Rattle.jsgen_flat.specs.Views", ["flat_row_data"]), ("Rattle.jsgen_flat.specs.declared.rows.FlatRow", ["FlatRow"]),
             ("Rattle.jsgen_flat.proofs.Views", ["typed as flat_typed"]), (f"{READER}.specs.Names", ["type_named"] + [f"in_{t}" for t in tables]),
             (f"{READER}.specs.Values", ["after", "at", "field_in", "present", "type_given", "type_of"])] + types_in_antt(None)
    return layout.antt("The type of a row of a flat job.", homes, TYPES, body)


def either(tables):
    if len(tables) == 1:
        return f"first_named {tables[0]} s"
    text = f"in_{tables[-1]} s"
    for t in reversed(tables[:-1]):
        text = f"or_else (in_{t} s) ({text})"
    return text


def rust(tables):
    parts = []
    for name, types in tables.items():
        rows = "".join(f'    ("{t}", NodeType::{t}),\n' for t in types)
        parts.append(f"const {name.upper()}: [(&str, NodeType); {len(types)}] = [\n{rows}];")
    parts += ["""fn first_named(names: &[(&str, NodeType)], name: &str) -> Option<NodeType>
    ensures { result ≡ first_named (map (λ n. (n.0.now, n.1)) names.now) name.now }
{
    for named in names {
        if name == named.0 {
            return Some(named.1);
        }
    }
    None
}""", by_name(list(tables))]
    ghosts = [("Rattle.std.specs.Prelude", ["◌≡◌", "map"]), (f"{READER}.specs.Names", ["first_named", "type_named"] + [f"in_{t}" for t in tables])]
    return layout.rust("The names of types.", ghosts, [], [("jsgen_tree", ["NodeType"])], "\n\n".join(parts))


def by_name(tables):
    if len(tables) == 1:
        return search("/// The type that a name names.\n", "pub fn type_by_name", "type_named", tables[0])
    tried = "".join(f"    if let Some(found) = in_{t}(name) {{\n        return Some(found);\n    }}\n" for t in tables[:-1])
    return "\n\n".join([search("", f"fn in_{t}", f"in_{t}", t) for t in tables] + [f"""/// The type that a name names.
pub fn type_by_name(name: &str) -> Option<NodeType>
    ensures {{ result ≡ type_named name.now }}
{{
{tried}    in_{tables[-1]}(name)
}}"""])


def search(doc, head, definition, table):
    return f"""{doc}#[tactic(auto, unfolding(crate::specs::Names::{definition}))]
{head}(name: &str) -> Option<NodeType>
    ensures {{ result ≡ {definition} name.now }}
{{
    first_named(&{table.upper()}, name)
}}"""


def left():
    whole = "first_named (map (λ n. (n.0.now, n.1)) {}) l.name"
    body = f"""-- the names left give the whole
abbrev pub invariant-loop-named : goal.invariant-loop-named
invariant-loop-named l = {whole.format("(drop l.named-index l.names)")} ≡ {whole.format("l.names")}"""
    homes = [("Rattle.std.proofs.Common", ["◌≡◌", "map", "drop"]), (f"{READER}.specs.Names", ["first_named"])]
    aliases = [(f"{READER}.proofs.names.first_named.Given", "goal")]
    return layout.antt("A search through a table of names.", homes, aliases, body)
