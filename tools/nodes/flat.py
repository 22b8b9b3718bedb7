"""What flat jobs (docs/FORMAT.md) have by the table: the sort of each field, and the number that tells one table from another."""

OFFSET, PRIME = 2166136261, 16777619  # of FNV-1a, of 32 bits
SORTS = {"text": "text", "units": "string", "digits": "digits", "number": "number", "flag": "flag"}


def sort(table, f):
    """The word by which docs/FORMAT.md tells how a field is held."""
    if f.unread:
        return "unread"
    if f.kind in table.words:
        return "word"
    return SORTS.get(f.kind, "list" if f.is_list else "child")


def words(table, f):
    """The words that a field may hold; none where it holds no word."""
    return [word for word, _ in table.words[f.kind].words] if sort(table, f) == "word" else []


def table_text(table):
    """The text of which the table's number is taken: a line for each type, and one for each of its fields."""
    lines = []
    for n in table.nodes.values():
        lines.append(n.name)
        lines += [" ".join(["", f.name, sort(table, f), *words(table, f)]) for f in n.in_format()]
    return "".join(f"{line}\n" for line in lines)


def table_number(table):
    """The number of 32 bits that FNV-1a gives of that text."""
    number = OFFSET
    for byte in table_text(table).encode():
        number = (number ^ byte) * PRIME % 2**32
    return number
