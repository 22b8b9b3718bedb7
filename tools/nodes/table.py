"""Reads table.txt into lists of nodes, sets and words. The head of table.txt says how it is written."""

import re
from dataclasses import dataclass, field
from functools import cache
from pathlib import Path

SPELLED = "jsgen_spelled"  # where rows with a spelling are printed, if the table says nothing else of their file

# What may stand of a type or a flag that isn't plain: a reading is proved of it and it is core, or none is promised.
PROMISES = ("core", "unpromised")

VALUES = {"text": "String", "units": "JsStr", "digits": "u128", "number": "u32", "flag": "bool"}


@cache
def snake(name):
    return re.sub(r"(?<=[a-z0-9])(?=[A-Z])", "_", name).lower()


def spoken(name):
    """The name in words, with its article."""
    words = snake(name).replace("_", " ")
    return ("an " if words[0] in "aeiou" else "a ") + words


@dataclass(eq=False)
class Field:
    name: str
    rust: str
    kind: str           # a value, or the name of words, a set or a type
    many: str           # "" one, "?" one or none, "*" a list, "?*" a list with holes, "*?" a list or none
    default: str        # None where it has none
    only_for: str       # the word of `kind` for which it is required; None where it is one for all
    unread: bool
    doc: str
    other: str = None   # another kind of value that a tree may hold there
    parts: list = None  # the fields of the format that a field by hand stands for
    needed: bool = False  # of a flag, that it is required
    place: str = None   # the place that it is, where the rules speak of it by a name
    dropped: bool = False       # whether its value doesn't count in the normal form
    promise: str = "plain"      # of a flag, of which word a node that has it set may be: plain, core, or no word at all (unpromised)

    @property
    def is_list(self):
        return self.many in ("*", "?*", "*?")

    @property
    def required(self):
        return self.needed or self.many == "" and self.kind != "flag" and self.default is None


@dataclass(eq=False)
class Node:
    name: str
    section: str
    short: str
    file: str
    doc: str = ""
    fields: list = field(default_factory=list)
    ghosts: list = field(default_factory=list)
    rules: bool = False  # whether it has rules of its own, which are checked by hand
    spelling: str = ""  # how it is spelled, in the notation of notation.py; empty where that is written by hand
    promise: str = "plain"      # of which word it is: plain, core, or no word at all (unpromised)
    is_copy: bool = False   # whether its struct holds nothing that is owned, and is copied

    @property
    def row(self):
        return snake(self.name) + "_row"

    def in_rust(self):
        return [f for f in self.fields if not f.unread]

    def in_format(self):
        return [g for f in self.fields for g in (f.parts or [f])]


@dataclass(eq=False)
class Words:
    name: str
    short: str
    spelling: str
    home: str           # the module that it stands in, where it isn't written here
    file: str
    doc: str = ""
    words: list = field(default_factory=list)

    @property
    def alias(self):
        return self.short + "s"


@dataclass(eq=False)
class Set:
    name: str
    nests: bool
    doc: str = ""
    members: list = field(default_factory=list)

    @property
    def plain(self):
        return snake(self.name) + "_plain"


class Table:
    def __init__(self, path):
        self.files, self.row_crates, self.print_crates = {}, {}, {}
        self.nodes, self.words, self.sets = {}, {}, {}
        self.places = {}    # the set of each place that has a name
        self.read(path)
        self.check()

    def read(self, path):
        file = at = outer = None
        for number, line in enumerate(Path(path).read_text().splitlines(), 1):
            indent, line = len(line) - len(line.lstrip()), line.strip()
            if not line or line.startswith("# ") or line == "#":
                continue
            try:
                if indent == 0:
                    head, *rest = line.split()
                    if head == "file":
                        of_file, _, text = line[5:].partition(": ")
                        of_file, _, printed_in = of_file.partition(" by ")
                        file, crate = of_file.split(" in ")
                        self.files[file], self.row_crates[file] = text, crate
                        self.print_crates[file] = printed_in or SPELLED
                    elif head in ("node", "words", "set") and rest[0] in {**self.nodes, **self.words, **self.sets}:
                        raise ValueError("the name comes twice")
                    elif head == "node":
                        name, section, *short = rest
                        at = self.nodes[name] = Node(name, section, (short or [snake(name)])[0], file)
                    elif head == "words":
                        name, short, spelling, *home = rest
                        at = self.words[name] = Words(name, short, spelling, home[1] if home else None, file)
                    elif head == "place":
                        self.places[rest[0]] = rest[1]
                        at = None
                    elif head == "set":
                        at = self.sets[rest[0]] = Set(rest[0], rest[1:] == ["nests"])
                    else:
                        raise ValueError("neither file, node, words nor set")
                elif line.startswith("| ") and not (isinstance(at, Words) and len(line.split()) == 2):
                    if at.doc:
                        raise ValueError("a second sentence")
                    at.doc = line[2:]
                elif isinstance(at, Words):
                    word, variant = line.split()
                    at.words.append((word, variant))
                elif isinstance(at, Set):
                    at.members += line.split()
                elif line.startswith("= ") and isinstance(at, Node):
                    at.spelling = (at.spelling + " " + line[2:]).strip()
                elif line == "rules":
                    at.rules = True
                elif line == "copied":
                    at.is_copy = True
                elif line in PROMISES:
                    at.promise = line
                elif line.startswith("ghost "):
                    at.ghosts.append(line)
                elif indent > 4:
                    outer.parts.append(read_field(line))
                else:
                    outer = read_field(line)
                    at.fields.append(outer)
            except (ValueError, AttributeError) as error:
                raise SystemExit(f"{path}:{number}: {line}: {error}")

    def check(self):
        for n in self.nodes.values():
            once(n.name, [f.name for f in n.in_format()])
            for f in n.in_format():
                # a child of a type that isn't read yet may stand in no table
                known = f.kind in VALUES or f.kind in self.words or self.is_child(f) or f.unread and f.kind[0].isupper()
                if not known:
                    raise SystemExit(f"{n.name}.{f.name}: no words, set or type {f.kind}")
                kinds = [g for g in n.in_format() if g.name == "kind" and g.kind in self.words]
                if f.only_for and f.only_for not in [w for g in kinds for w, _ in self.words[g.kind].words]:
                    raise SystemExit(f"{n.name}.{f.name}: the type has no field kind with the word {f.only_for}")
                if f.only_for and not self.is_value(f):
                    raise SystemExit(f"{n.name}.{f.name}: a child for rows of one kind has no form yet")
                if f.place and self.places.get(f.place) != f.kind:
                    raise SystemExit(f"{n.name}.{f.name}: no place {f.place} for {f.kind}")
                if not f.unread and f.many and not self.is_child(f) and f.kind + f.many not in ("number?", "units?"):
                    raise SystemExit(f"{n.name}.{f.name}: a value {f.kind}{f.many} has no form yet")
        for w in self.words.values():
            once(w.name, [word for word, _ in w.words])
            once(w.name, [variant for _, variant in w.words])
        for s in self.sets.values():
            once(s.name, s.members)
            for m in s.members:
                if m not in self.nodes and not (m in self.sets and self.sets[m].nests):
                    raise SystemExit(f"set {s.name}: {m} is neither a type nor a set that nests")

    # ---- what follows; each answer is kept, and nobody may change it

    def is_child(self, f):
        return f.kind in self.sets or f.kind in self.nodes

    def is_value(self, f):
        return f.kind in VALUES or f.kind in self.words

    @cache
    def values(self, node):
        """The fields of the format that hold a value of the node, read or not, in their order."""
        return [f for f in node.in_format() if self.is_value(f)]

    @cache
    def children(self, node):
        return [f for f in node.in_rust() if self.is_child(f)]

    @cache
    def nesting(self):
        return [s for s in self.sets.values() if s.nests]

    @cache
    def generic(self, name):
        """Whether the type or set has the parameter N: whether anything in it nests."""
        if name in self.sets:
            return any(m in self.sets or self.generic(m) for m in self.sets[name].members)
        kinds = [f.kind for f in self.children(self.nodes[name])]
        return any(self.sets[k].nests if k in self.sets and self.sets[k].nests else self.generic(k) for k in kinds)

    @cache
    def types_in(self, name):
        """The types in a set, those of the sets in it among them; of a type, itself."""
        if name in self.nodes:
            return [name]
        return list(dict.fromkeys(t for m in self.sets[name].members for t in self.types_in(m)))

    @cache
    def child_sets(self):
        """The sets and types that children are of, in the order of their first use."""
        return list(dict.fromkeys(f.kind for n in self.nodes.values() for f in self.children(n)))


def once(name, names):
    for twice in {it for it in names if names.count(it) > 1}:
        raise SystemExit(f"{name}: {twice} comes twice")


def read_field(line):
    line, _, doc = line.partition(" | ")
    line, _, default = line.strip().partition(" = ")
    line, _, only_for = line.strip().partition(" for ")
    line, _, place = line.strip().partition(" at ")
    name, *rest = line.split()
    rust, parts = name, None
    if rest[0] == "as":
        rust, rest = rest[1], rest[2:]
    if rest[0] == "by":
        rest, parts = rest[1:], []
    unread = rest[0] == "unread"
    kind, *marks = rest[1:] if unread else rest
    if set(marks) - {"dropped", *PROMISES}:
        raise ValueError("a mark of a field is none of dropped, core and unpromised")
    kind, _, other = kind.partition("/")
    needed = kind == "flag!"
    kind = kind.removesuffix("!") if needed else kind
    bare = kind.rstrip("?*")
    return Field(name, rust, bare, kind[len(bare):], default or None, only_for.strip() or None, unread, doc.strip(),
                 other or None, parts, needed, place.strip() or None, "dropped" in marks, next((mark for mark in marks if mark in PROMISES), "plain"))
