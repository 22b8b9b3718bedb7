"""docs/FORMAT.md, between its two lines of comment: the fields of each type, the sets, and the table's number."""

from children import plural as plural_in_snake_case
from flat import table_number
from names import REPOSITORY
from table import snake

FIRST, LAST = "<!-- Generated from tools/nodes/table.txt by tools/nodes/generate -->", "<!-- to here -->"
VALUES = {"text": "a text", "units": "a string", "digits": "the value", "number": "a whole number below 2^32",
          "flag": "a flag"}


def write(table):
    page = (REPOSITORY / "docs/FORMAT.md").read_text()
    before, _, rest = page.partition(FIRST)
    _, _, after = rest.partition(LAST)
    types = "".join(f"- `{n.name}`: {'; '.join(fields(table, n)) or 'none'}\n" for n in table.nodes.values())
    sets = " ".join(f"{plural(s).capitalize()} are {members(table, s)}." for s in table.sets)
    number = f"The number of this table, which flat jobs have in their head (below), is {table_number(table)}."
    text = f"{FIRST}\n\n{types}\n{sets}\n\n{number}\n\n{LAST}"
    return {"docs/FORMAT.md": before + text + after}


def fields(table, n):
    """What is said of each field; fields in a row that aren't read yet together."""
    said, unread = [], []
    for f in n.in_format() + [None]:
        if f and f.unread:
            unread.append(f"`{f.name}`")
            continue
        if unread:
            said.append(f"{', '.join(unread)} not read yet")
            unread = []
        if f:
            said.append(f"`{f.name}` {value(table, f)}" + (f" ({note(f.doc)})" if f.doc else ""))
    return said


def note(doc):
    """The sentences of a field's doc, as a remark."""
    return "; ".join(part[0].lower() + part[1:] for part in doc.rstrip(".").split(". "))


def value(table, f):
    if f.kind in table.words:
        words = [f"`{w}`" for w, _ in table.words[f.kind].words]
        return f"the word {words[0]}" if len(words) == 1 else f"one of {' '.join(words)}"
    if f.needed:
        return "`true` or `false`"
    if f.kind in VALUES:
        return VALUES[f.kind] + (", or absent" if f.many == "?" else "") + (", empty where it is absent" if f.default == '""' else "") \
            + (f", {'true only' if f.kind == 'flag' else 'needed'} where `kind` is `{f.only_for}`" if f.only_for else "")
    if f.is_list:
        holes = {"?*": ", with `null` in the place of one that is left out", "*?": ", or absent"}.get(f.many, "")
        return f"a list of {plural(f.kind) if f.kind in table.sets else f'`{f.kind}`'}{holes}"
    name = f"`{f.kind}`" if f.kind in table.nodes else snake(f.kind).replace("_", " ")
    return f"{'an' if f.kind[0] in 'AEIOU' else 'a'} {name}{', or absent' if f.many == '?' else ''}"


def plural(name):
    return plural_in_snake_case(name).replace("_", " ")


def members(table, name):
    names = [plural(m) if m in table.sets else f"`{m}`" for m in table.sets[name].members]
    return " and ".join([", ".join(names[:-1])] * (len(names) > 1) + names[-1:])
