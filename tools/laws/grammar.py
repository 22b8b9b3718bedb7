"""What Grammar.antt, Premises.antt and Nodes.antt have: families with their productions, trees that are abbreviated, and rows."""

import re
from dataclasses import dataclass

from terms import head, replaced, term


@dataclass
class Production:
    name: str
    hidden: list  # the names of what stands in braces
    given: list  # and of what stands in parentheses
    premises: list
    indices: tuple


@dataclass
class Family:
    name: str
    kinds: list  # the type of each index
    productions: list
    mutual: bool


def unbroken(text):
    """The text with each production on one line: a long one is broken before its conclusion."""
    return re.sub(r"\n +→ ", " → ", text)


def families(text):
    """The families of productions, in their order."""
    found = []
    for line in unbroken(text).split("\n"):
        begins = re.match(r"( *)pub data (Reads\w+) : (.*) → Type 0 where$", line)
        if begins:
            indent, name, kinds = begins.groups()
            found.append(Family(name, kinds.split(" → "), [], bool(indent)))
        elif found and re.match(rf"{'    ' if found[-1].mutual else '  '}\w+ : ", line):
            found[-1].productions.append(production(line.strip()))
    return found


def production(line):
    name, rest = line.split(" : ", 1)
    parts = cut(rest)
    hidden, given, premises = [], [], []
    for part in parts[:-1]:
        bound = re.findall(r"([({])([^:(){}]*) : [^(){}]*[)}]", part) if re.match(r"^[({][^(){}]* : ", part) else []
        for bracket, names in bound:
            (hidden if bracket == "{" else given).extend(names.split())
        if not bound:
            premises.append(term(part))
    return Production(name, hidden, given, premises, term(parts[-1])[1:])


def cut(text):
    """The parts between the arrows that stand outside brackets."""
    parts, depth = [""], 0
    for sign in text:
        depth += (sign in "({") - (sign in ")}")
        if sign == "→" and depth == 0:
            parts.append("")
        else:
            parts[-1] += sign
    return [part.strip() for part in parts]


def rows(text):
    """The row of each type of node: its parameters and what it is."""
    return {f"tree.{name}": (given.split(), term(body)) for name, given, body in re.findall(r"(?m)^(\w+)((?: \w+)*) = (node types\..*)$", text)}


def abbreviated(text):
    """Each other tree that the premises of the grammar have a name for."""
    found = re.findall(r"(?m)^abbrev pub (\w+) : (?:.* → )?Tree\n\1((?: \w+)*) = (.*)$", text)
    return {name: (given.split(), term(body)) for name, given, body in found}


def expanded(found, names):
    """The term without these names."""
    if isinstance(found, str):
        return found
    if head(found) in names:
        given, body = names[head(found)]
        return expanded(replaced(body, dict(zip(given, found[1:]))), names)
    return tuple(expanded(part, names) for part in found)
