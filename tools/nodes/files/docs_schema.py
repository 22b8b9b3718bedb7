"""docs/job.schema.json: a JSON Schema (draft 2020-12) of jobs. What it can't say stands in docs/FORMAT.md: which rows a
child may name, and that the last row is the program."""

import json

VALUES = {
    "text": {"type": "string"},
    "units": {"anyOf": [{"type": "string"}, {"type": "array", "items": {"type": "integer", "minimum": 0, "maximum": 65535}}]},
    "digits": {"anyOf": [{"type": "integer", "minimum": 0, "maximum": 2**64 - 1}, {"type": "string", "pattern": "^(0|[1-9][0-9]{0,38})$"}]},
    "number": {"type": "integer", "minimum": 0, "maximum": 4294967295},
    "flag": {"type": "boolean"},
}
OPTIONS = {
    "single_quote": VALUES["flag"],
    "minify": VALUES["flag"],
    "ascii_only": VALUES["flag"],
    "indent_char": {"enum": ["tab", "space"]},
    "indent_width": {"type": "integer", "minimum": 0, "maximum": 2**64 - 1},
    "initial_indent": VALUES["number"],
    "normal": VALUES["flag"],
    "jsdoc": VALUES["flag"],
    "annotation": VALUES["flag"],
    "legal": {"enum": ["none", "inline", "eof", "linked", "external"]},
    "legal_path": VALUES["text"],
    "source_map_path": VALUES["text"],
}
# Legal comments that are linked stand at a path.
LINKED = {
    "if": {"required": ["legal"], "properties": {"legal": {"const": "linked"}}},
    "then": {"required": ["legal_path"], "properties": {"legal_path": VALUES["text"]}},
}
ROW = {"$ref": "#/$defs/row number"}


def write(table):
    options = {name: or_null(value) for name, value in OPTIONS.items()}
    schema = {
        "$schema": "https://json-schema.org/draft/2020-12/schema",
        "$comment": "Generated from tools/nodes/table.txt; edit that and run tools/nodes/generate.",
        "title": "A job of jsgen",
        "type": "object",
        "required": ["rows"],
        "properties": {
            "options": or_null({"type": "object", "properties": options} | LINKED),
            "symbols": or_null(listed(VALUES["text"])),
            "references": or_null(listed(or_null(VALUES["number"]))),
            "private": or_null(listed({"type": "object", "additionalProperties": VALUES["text"]})),
            "rows": {"type": "array", "minItems": 1, "items": {"$ref": "#/$defs/row"}},
        },
        "$defs": {"row number": {"type": "integer", "minimum": 0}, "row": any_row(table)}
        | {n.name: row(table, n) for n in table.nodes.values()},
    }
    return {"docs/job.schema.json": json.dumps(schema, indent=1, ensure_ascii=False) + "\n"}


def listed(schema):
    return {"type": "array", "items": schema}


def or_null(schema):
    """A member whose value is null counts as absent."""
    return {"anyOf": [schema, {"type": "null"}]}


def any_row(table):
    span = {"type": "array", "items": VALUES["number"], "minItems": 2, "maxItems": 2}
    by_type = [{"if": {"properties": {"type": {"const": n}}}, "then": {"$ref": f"#/$defs/{n}"}} for n in table.nodes]
    return {
        "type": "object",
        "required": ["type"],
        "properties": {"type": {"enum": list(table.nodes)}, "span": or_null(span)},
        "allOf": by_type,
    }


def row(table, n):
    """The fields of a type, and what more is asked of those that are for one kind of rows."""
    required = [f.name for f in n.in_format() if not f.unread and f.required and not f.only_for]
    properties = {f.name: field(table, f) for f in n.in_format()}
    kinds = [of_kind(table, n, w) for w in dict.fromkeys(f.only_for for f in n.in_format() if f.only_for)]
    return {"description": f"{n.doc} ECMA-262, {n.section}."} | ({"required": required} if required else {}) \
        | {"properties": properties} | ({"allOf": kinds} if kinds else {})


def of_kind(table, n, word):
    """What is asked where `kind` is this word, and where it is another."""
    here = [f for f in n.in_format() if f.only_for == word]
    needed = {f.name: value(table, f) for f in here if f.kind != "flag"}
    unset = {f.name: or_null({"const": False}) for f in here if f.kind == "flag"}
    return {"if": {"properties": {"kind": {"const": word}}}, "then": {"required": list(needed), "properties": needed}} \
        | ({"else": {"properties": unset}} if unset else {})


def field(table, f):
    if f.unread:
        return {"type": "null"}
    schema = value(table, f) if table.is_value(f) else {"type": "array", "items": or_null(ROW) if f.many == "?*" else ROW} if f.is_list else ROW
    return schema if f.required and not f.only_for else or_null(schema)


def value(table, f):
    return {"enum": [word for word, _ in table.words[f.kind].words]} if f.kind in table.words else VALUES[f.kind]
