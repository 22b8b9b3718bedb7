"""bindings/node/lib/table.mjs: what of the format of jobs is read, for the package for node."""

import json

from files.docs_schema import OPTIONS
from flat import sort, table_number, words

HEAD = """\
// Generated from tools/nodes/table.txt; edit that and run tools/nodes/generate.
// What of the format of jobs (docs/FORMAT.md) is read by now.

/**
 * For each type of row, in the order of their numbers, its fields, in the order of theirs: the words that it may hold, or its sort, which is
 * `unread` where it isn't read yet.
 */
export const TYPES = {
"""
NUMBER = """\
/** The table's number, which flat jobs have in their head. */
export const TABLE_NUMBER = """


def write(table):
    types = "".join(f"  {n.name}: {fields(table, n)},\n" for n in table.nodes.values())
    options = "".join(f"  {json.dumps(name)},\n" for name in OPTIONS)
    tail = f"}};\n\n{NUMBER}{table_number(table)};\n\n/** The options. */\nexport const OPTIONS = [\n{options}];\n"
    return {"bindings/node/lib/table.mjs": HEAD + types + tail}


def fields(table, n):
    said = [f"{f.name}: {holds(table, f)}" for f in n.in_format()]
    return f"{{ {', '.join(said)} }}" if said else "{}"


def holds(table, f):
    """The words of the field, or its sort."""
    return json.dumps(words(table, f) or sort(table, f))
