"""Terms of antt: a name is a string; what is applied to others stands before them in a tuple, and so does an operator before its two
sides, of which the right one goes on as far as the term does."""

import re

OPERATORS = ("⧺", "≡", "∷", "++", "&&", "||")


def words(text):
    return re.findall(r'"[^"]*"|[()]|[^\s()]+', text)


def term(text):
    """The term that the text is."""
    there = words(text)
    found, at = expression(there, 0)
    if at < len(there):
        raise SystemExit(f"no term: {text}")
    return found


def expression(there, at):
    parts = []
    while at < len(there) and there[at] != ")" and there[at] not in OPERATORS:
        if there[at] == "(":
            part, at = expression(there, at + 1)
        else:
            part = there[at]
        parts.append(part)
        at += 1
    left = parts[0] if len(parts) == 1 else tuple(parts)
    if at < len(there) and there[at] in OPERATORS:
        right, end = expression(there, at + 1)
        return (there[at], left, right), end
    return left, at


def head(found):
    return found if isinstance(found, str) else found[0]


def shown(found, within=False):
    """The text of a term; within another one it stands in parentheses."""
    if isinstance(found, str):
        return found
    if found[0] in OPERATORS:
        text = f"{shown(found[1], True)} {found[0]} {shown(found[2], True)}"
    else:
        text = " ".join(shown(part, True) for part in found)
    return f"({text})" if within else text


def replaced(found, values):
    """The term with its names replaced by those of the values that there are."""
    if isinstance(found, str):
        return values.get(found, found)
    return tuple(replaced(part, values) for part in found)
