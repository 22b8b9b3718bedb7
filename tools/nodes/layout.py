"""How files of Rattle and antt begin: the line that says they are generated, and the `use` lines of the names
that stand in them."""

import re

RUST = "// Generated from tools/nodes/table.txt; edit that and run tools/nodes/generate.\n"
ANTT = "-- Generated from tools/nodes/table.txt; edit that and run tools/nodes/generate.\n"


def used(body, homes):
    """Each module of the homes, with those of its names that stand in the body outside comments. A name may be `a as b`."""
    text = re.sub(r"(?m)^\s*(--|//).*$", "", body)
    there = set(re.findall(r"(?<![\w.:])[^\W\d][\w-]*|\[\]", text)) | {f"◌{sign}◌" for sign in re.findall(r"[≡∷∙⨾⊕]", text)}
    there |= {"if◌then◌else◌"} if re.search(r"\bif .* then ", text) else set()
    for module, names in homes:
        names = [n for n in names if n.split(" as ")[-1] in there]
        if names:
            yield module, names


MOST_GROUPED = 100  # where a file uses more names, `rt fmt` gives each a line of its own


def ordered(names):
    """Names as `rt fmt` has them: an underline comes before all letters."""
    return sorted(names, key=lambda name: name.replace("_", " "))


def use_lines(homes, word="use"):
    """The lines that bring these names of each module into a file of Rattle."""
    if sum(len(names) for _, names in homes) > MOST_GROUPED:
        return [f"{word} {module}::{name};" for module, names in homes for name in ordered(names)]
    lines = [f"{word} {module}::{{{', '.join(ordered(names))}}};" for module, names in homes]
    return [re.sub(r"\{(\w+)\}", r"\1", line) for line in lines]


def antt(about, homes, aliases, body):
    lines = [ANTT + f"-- {about}"]
    lines += [f"use {m}.{{{', '.join(ns)}}}" for m, ns in used(body, homes)]
    lines += [f"use {m} as {a}" for m, a in aliases if re.search(rf"(?<![\w.]){a}\.", body)]
    return "\n".join(lines) + "\n\n" + body.strip() + "\n"


def rust(about, ghosts, aliases, homes, body):
    lines = [RUST + f"// {about}"]
    lines += [f"ghost use {m}.{{{', '.join(ns)}}};" for m, ns in used(body, ghosts)]
    lines += [f"ghost use {m} as {a};" for m, a in aliases if re.search(rf"(?<![\w.]){a}\.", body)]
    uses = sorted(use_lines(list(used(body, homes))))
    return "\n".join(lines + [""] + uses) + "\n\n" + body.strip() + "\n"


def region(text, name, body):
    """The text of a file that is written by hand, with this between the two marks of the name."""
    first, last = f"-- generated from tools/nodes/table.txt: {name}\n", f"-- end of what is generated: {name}\n"
    before, there, rest = text.partition(first)
    _, ends, after = rest.partition(last)
    if not there or not ends:
        raise SystemExit(f"no place for what is generated: {name}")
    indent = " " * (len(before) - len(before.rstrip(" ")))
    return before + first + (body + "\n" if body else "") + indent + last + after


def by_hand(text):
    """The text without what stands between marks."""
    return re.sub(r"(?s)-- generated from.*?-- end of what is generated: \w+\n", "", text)
