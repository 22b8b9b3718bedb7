"""What the crates that go over trees ask of the table: the kinds of children, their types in Rust, and what gives their
plain data."""

from names import plain_of
from table import snake


def kinds_of(table, many):
    """The sets and types of the children that are lists or optional, in the order of their first use."""
    return list(dict.fromkeys(f.kind for n in table.nodes.values() for f in table.children(n) if f.many == many))


def nests(table, kind):
    return kind in table.sets and table.sets[kind].nests


def plural(name):
    name = snake(name)
    return f"{name[:-1] + 'ie' if name.endswith('y') and name[-2] not in 'aeiou' else name + 'e' if name.endswith('s') else name}s"


def typed(table, name):
    """A struct or set in Rust, and the parameter of a function over it."""
    return (f"{name}<N>", "<N: CheckNode>") if table.generic(name) else (name, "")


def child_type(table, kind):
    """The type of a child in Rust, and the parameter of a function over it."""
    return (f"{kind}Node<N>", "<N: CheckNode>") if nests(table, kind) else typed(table, kind)


def plain(table, kind, of="N.plain"):
    """The function that gives a child's plain data."""
    row, takes = plain_of(table, kind)
    return f"{row} {of}" if takes else row


def each(table, kind, of="N.plain"):
    """The same as an argument."""
    row = plain(table, kind, of)
    return f"({row})" if " " in row else row
