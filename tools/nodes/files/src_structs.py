"""src/statements.rt, src/expressions.rt: a struct for each type, an enum for each kind of words."""

import layout
from names import nodes_in_rust, sets_in_rust, wrappers_in_rust
from table import VALUES


def write(table):
    return {f"src/{file}.rt": one_file(table, file) for file in table.files}


def one_file(table, file):
    parts = [words_enum(w) for w in table.words.values() if w.file == file and not w.home]
    parts += [struct(table, n) for n in table.nodes.values() if n.file == file]
    elsewhere = [(m, names) for m, names in nodes_in_rust(table) if m != f"crate::{file}"]
    homes = elsewhere + wrappers_in_rust(table) + sets_in_rust(table)
    homes += [("crate::numbers", ["NumericValue"])]
    syntax = [w.name for w in table.words.values() if (w.home or "").startswith("jsgen_syntax.")]
    homes += [("jsgen_syntax", syntax + ["JsStr", "Span"])]
    spellings = [w.spelling for w in table.words.values()]
    ghosts = [("Rattle.std.specs.Prelude", ["◌≡◌", "IsTrue"]), ("Rattle.jsgen_tree.specs.Words", spellings),
              ("Rattle.jsgen_tree.specs.Width", ["is_wide"])]
    return layout.rust(table.files[file], ghosts, [], homes, "\n\n".join(parts))


def words_enum(w):
    variants = "".join(f"    {v},\n" for _, v in w.words)
    arms = "".join(f'            {w.name}::{v} => "{word}",\n' for word, v in w.words)
    return f"""/// {w.doc}
#[derive(Clone, Copy, Debug, PartialEq, Eq)]
pub enum {w.name} {{
{variants}}}

impl {w.name} {{
    /// The spelling.
    pub fn as_str(self) -> &'static str
        ensures {{ result.now ≡ {w.spelling} self }}
    {{
        match self {{
{arms}        }}
    }}
}}"""


def struct(table, n):
    generic = "<N = Node>" if table.generic(n.name) else ""
    doc = f"{n.doc.rstrip('.')} (ECMA-262, {n.section.replace('-', ' to ')})."
    fields = "    pub span: Span,\n"
    for f in n.in_rust():
        fields += f"    /// {f.doc}\n" if f.doc else ""
        fields += f"    pub {f.rust}: {rust_type(table, f)},\n"
    fields += "".join(f"    {ghost},\n" for ghost in n.ghosts)
    derived = "#[derive(Clone, Copy, Debug, PartialEq, Eq)]\n" if n.is_copy else ""
    of = f"/// {doc}\n{derived}pub struct {n.name}{generic} {{\n{fields}}}"
    return of if n.is_copy else of + "\n\n" + letting_go(table, n)


def letting_go(table, n):
    """Written out, so that it is proved in jsgen_tree alone: a derived one is proved again in each crate that lets go of such a struct."""
    names = ", ".join(f"{name}: _" for name in ["span"] + [f.rust for f in n.in_rust()])
    head = f"impl<N: Drop> Drop for {n.name}<N>" if table.generic(n.name) else f"impl Drop for {n.name}"
    return f"{head} {{\n    fn drop(self) {{\n        let {n.name} {{ {names} }} = self;\n    }}\n}}"


def rust_type(table, f):
    if not table.is_child(f):
        one = VALUES.get(f.kind, f.kind)
        return f"Option<{one}>" if f.many else one
    parameter = "<N>" if table.generic(f.kind) else ""
    if f.kind in table.sets:
        one = f"{f.kind}Node<N>" if table.sets[f.kind].nests else f.kind + parameter
    elif f.is_list:
        one = f.kind + parameter
    else:
        one = f"Box<{f.kind}{parameter}>"
    return {"": one, "?": f"Option<{one}>", "*": f"Vec<{one}>", "?*": f"Vec<Option<{one}>>", "*?": f"Option<Vec<{one}>>"}[f.many]
