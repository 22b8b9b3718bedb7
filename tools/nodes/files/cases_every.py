"""The program of the tests: src/every/, where each node is printed by itself, and then what is in it; what nests in it waits
(src/every.rt there). A function for each set, in a file for each set that nests and one for the others; and one for each type that is a child or in
several sets. A function that names a node is proved over all types, so what is in a type of one set alone stands in the set's."""

import re

import layout
from files.alone import NEVER, at_level
from table import snake

CASES = "crates/jsgen_cases/src/every"


# Where the sets that nest have their functions; others, and `Node`, have theirs in sets.rt, and types in types.rt.
FILES = {"Expression": "expressions", "AssignmentTarget": "patterns", "BindingPattern": "patterns", "Statement": "statements",
         "Declaration": "statements", "ClassElement": "classes"}


def write(table):
    return {f"{CASES}/{file}.rt": rust(table, about(file), file, parts) for file, parts in files(table).items()}


def about(file):
    return "A node printed by itself, and what is in it." if file == "types" else "A member of a set, printed as one and as its own type, and what is in it."


def files(table):
    """The functions of each file, by the names of their sets and types."""
    given = {"types": {n.name: of_type(table, n) for n in table.nodes.values() if stands_alone(table, n.name)}}
    for s in table.sets.values():
        if is_child(table, s):
            given.setdefault(FILES.get(s.name, "sets"), {})[s.name] = of_set(table, s)
    given["sets"]["Node"] = of_node(table)
    return given


def rust(table, about, file, parts):
    here = [(f"crate::every::{other}", [every(name) for name in names]) for other, names in files(table).items() if other != file]
    body = "\n\n".join(parts.values())
    # names in quotes are only printed
    said = re.sub(r'"\w+"', "", body)
    tree = [name for name in list(table.nodes) + list(table.sets) + ["Node"] if re.search(rf"(?<![\w.:]){name}\b", said)]
    return layout.rust(about, [], [], here + [("crate::every", ["Every"]), ("jsgen_syntax", ["Memory"]), ("jsgen_tree", tree)], body)


def every(name):
    return f"every_{snake(name)}"


def nests(table, name):
    return name in table.sets and table.sets[name].nests


def has_function(table, name):
    """Whether a type has a function: whether it has children of which there is something to print."""
    return bool(calls(table, table.nodes[name]))


def stands_alone(table, name):
    """Whether a type with something to print in it has a function of its own: whether it is a child, or in several sets, or in none."""
    kinds = [f.kind for n in table.nodes.values() for f in table.children(n)]
    holders = [s for s in table.sets.values() if name in s.members and is_child(table, s)]
    return has_function(table, name) and (name in kinds or len(holders) != 1)


def is_child(table, s):
    """Whether a child or a member of another set is of the set."""
    kinds = [f.kind for n in table.nodes.values() for f in table.children(n)] + [m for o in table.sets.values() for m in o.members]
    return s.name in kinds


def signature(name):
    return f"pub fn {every(name)}<'a>(node: &'a {name}, found: &mut Every<'a>) -> Result<(), Memory> {{\n"


def itself(name, at="node"):
    """The call that prints it by itself; nothing where there is none."""
    return "" if name in NEVER else f'found.{"at_level" if at_level(name) else "alone"}("{name}", {at})'


def one(table, kind, at, lent, exact):
    """The call that prints a child and what is in it, or by which it waits; nothing where no call prints any of it. The child is `at`,
    `lent` a reference to it or to its box, and `exact` one to itself."""
    if nests(table, kind):
        return f"found.wait({at}.get())"
    if kind in table.sets or has_function(table, kind):
        return f"{every(kind)}({lent}, found)"
    return itself(kind, exact)


def call(table, f):
    """What is done with a field's child or children; nothing where no call prints any of them."""
    at, is_boxed = f"node.{f.rust}", f.kind in table.nodes and not f.is_list
    if not f.many:
        return one(table, f.kind, at, f"&{at}", f"&*{at}")
    inner = one(table, f.kind, "child", "child", "&**child" if is_boxed else "child")
    if not inner:
        return ""
    some = f"if let Some(child) = %s {{\n{inner}?;\n}}\n"
    each = f"for child in %s {{\n{inner}?;\n}}\n"
    return {"?": some % f"&{at}",
            "*": each % f"&{at}",
            "?*": f"for child in &{at} {{\n{some % 'child'}}}\n",
            "*?": f"if let Some(children) = &{at} {{\n{each % 'children'}}}\n"}[f.many]


def calls(table, n):
    return [made for f in table.children(n) if (made := call(table, f))]


def body(calls):
    """The calls one after another; the last one gives the result, where it gives one."""
    *first, last = calls
    lines = [c if c.endswith("}\n") else c + "?;\n" for c in first]
    return "".join(lines) + (last + "Ok(())\n" if last.endswith("}\n") else last + "\n")


def inside(table, n):
    own = [itself(n.name)] if itself(n.name) else []
    return body(own + calls(table, n))


def of_type(table, n):
    return signature(n.name) + inside(table, n) + "}"


def of_set(table, s):
    own = itself(s.name) + "?;\n" if itself(s.name) else ""
    arms = "".join(f"{s.name}::{m}(node) => {arm(table, m)},\n" for m in s.members)
    return f"{signature(s.name)}{own}match node {{\n{arms}}}\n}}"


def arm(table, m):
    """A member, in its box: by its own function, or where it has none by what that would do."""
    if m in table.nodes and has_function(table, m) and not stands_alone(table, m):
        return f"{{\nlet node = &**node;\n{inside(table, table.nodes[m])}}}"
    return one(table, m, "node", "node", "&**node")


def of_node(table):
    arms = "".join(f"Node::{s.name}(node) => {every(s.name)}(node, found),\n" for s in table.nesting())
    return f"{signature('Node')}match node {{\n{arms}}}\n}}"
