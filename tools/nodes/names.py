"""Where the names of jsgen_tree and of the crates of the reader stand."""

from pathlib import Path

from table import VALUES, snake

REPOSITORY = Path(__file__).resolve().parents[2]
CRATE = REPOSITORY / "crates" / "jsgen_tree"
SPECS = "Rattle.jsgen_tree.specs"
DECLARED = SPECS + ".declared"
MODEL = "Rattle.jsgen_model"
KEPT = "Rattle.jsgen_kept"
READER = "Rattle.jsgen_fields"


def nodes_in_rust(table):
    """The structs of each file, and the enums of words."""
    every = list(table.nodes.values()) + [w for w in table.words.values() if not w.home]
    return [(f"crate::{file}", [x.name for x in every if x.file == file]) for file in table.files]


def sets_in_rust(table):
    return [("crate::sets", list(table.sets))]


def wrappers_in_rust(table):
    return [("crate::nodes", ["Node"] + [s.name + "Node" for s in table.nesting()])]


def nodes_in_antt(table):
    return [(f"{DECLARED}.{n.file}.{n.name}", [n.name]) for n in table.nodes.values()]


def sets_in_antt(table):
    return [(f"{DECLARED}.sets.{s}", [s]) for s in table.sets]


def wrappers_in_antt(table):
    return [(f"{DECLARED}.nodes.{s.name}Node", [s.name + "Node"]) for s in table.nesting()]


def variants_of_sets(table):
    """Each set's variants under its name in snake case, as `expression.CallExpression`."""
    return [(f"{DECLARED}.sets.{s}.TheVariants", snake(s)) for s in table.sets]


def types_in_antt(table):
    return [(f"{DECLARED}.types.NodeType", ["NodeType"]), (f"{DECLARED}.types.NodeSet", ["NodeSet"])]


TYPES = [(f"{DECLARED}.types.NodeType.TheVariants", "types"), (f"{DECLARED}.types.NodeSet.TheVariants", "sets")]


def home_of_words(words):
    return "Rattle." + words.home if words.home else f"{DECLARED}.{words.file}"


def words_in_antt(table):
    return [(home_of_words(w) if is_data(w) else f"{home_of_words(w)}.{w.name}", [w.name]) for w in table.words.values()]


def variants_of_words(table):
    return [(home_of_words(w) if is_data(w) else f"{home_of_words(w)}.{w.name}.TheVariants", w.alias)
            for w in table.words.values()]


def is_data(words):
    """Whether the words are a definition of antt alone, with no enum in Rust."""
    return words.home is not None and ".declared." not in words.home


# The plain data of trees: the names of each module that other definitions take from it.
TREE = [(f"{SPECS}.Tree", ["Tree", "Trees", "Maybe", "MaybeTrees", "Slots", "Atoms", "node", "no_slots", "one", "maybe", "many",
                           "maybe_many", "absent", "given", "no_trees", "more", "hole", "no_list", "listed", "optional", "optional_list",
                           "trees", "holed", "type_of", "atoms_of", "span_of"])]


def atoms(table):
    """The kinds of values."""
    kinds = ["Atom", "no_value"] + list(VALUES) + [w.short for w in table.words.values()]
    return [(f"{SPECS}.Atom", kinds)]


def patterns(table):
    return [(f"{SPECS}.Nodes", [n.short for n in table.nodes.values()])]


def plain_of(table, name):
    """The definition that gives the plain data of a child of the set or type, and whether it takes `plain`."""
    if name in table.nodes:
        return table.nodes[name].row, table.generic(name)
    s = table.sets[name]
    return "in_" + snake(name), s.nests or table.generic(name)


def row_names(table):
    rows = [f"in_{snake(s)}" for s in table.sets] + [n.row for n in table.nodes.values()]
    return [(f"{SPECS}.Rows", rows + [s.plain for s in table.nesting()])]
