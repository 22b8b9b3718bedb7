"""specs/Words.antt, specs/Spans.antt, specs/Plain.antt: how words are spelled, the span of a set's member, the
plain data of the recursive type."""

import layout
from names import DECLARED, SPECS, TREE, nodes_in_antt, row_names, sets_in_antt, variants_of_sets, variants_of_words, words_in_antt
from table import snake


def write(table):
    return {"specs/Words.antt": words(table), "specs/Spans.antt": spans(table), "specs/Plain.antt": plain(table)}


def words(table):
    parts = []
    for w in table.words.values():
        if not w.home:
            clauses = "".join(f'\n{w.spelling} {w.alias}.{variant} = codes "{word}"' for word, variant in w.words)
            parts.append(f"abbrev pub {w.spelling} : {w.name} → List ℕ{clauses}")
    homes = [("Rattle.std.specs.Prelude", ["ℕ", "List", "codes"])] + words_in_antt(table)
    return layout.antt("The spelling of the words that nodes hold.", homes, variants_of_words(table), "\n\n".join(parts))


def spans(table):
    parts = []
    for s in table.sets.values():
        name, inner = snake(s.name) + "_span", any(m in table.sets for m in s.members)
        of = f"{{N : Type 0}} → {'(N → Span) → ' if inner else ''}{s.name} N" if table.generic(s.name) else s.name
        clauses = "".join(f"\n{name}{' own' if inner else ''} ({snake(s.name)}.{m} b) = "
                          + ("own b.value.node" if m in table.sets else "b.value.span") for m in s.members)
        parts.append(f"abbrev pub {name} : {of} → Span{clauses}")
    homes = [("Rattle.jsgen_syntax.specs.declared.span.Span", ["Span"])] + sets_in_antt(table)
    return layout.antt("The span of a member of a set is the member's own.", homes, variants_of_sets(table), "\n\n".join(parts))


def plain(table):
    clauses = ""
    for s in table.nesting():
        clauses += f"\nlayer (layers.{s.name} b) = {s.plain}{' (λ t. t)' if table.generic(s.name) else ''} b"
    body = f"""-- one layer, whose children are plain data already
abbrev pub layer : Node-F Tree → Tree{clauses}

unfoldable pub node_plain : Node → Tree
node_plain = fold-Node Tree layer

-- the plain data of a program
abbrev pub program_plain : Program Node → Tree
program_plain p = program_row node_plain p"""
    homes = TREE + row_names(table) + nodes_in_antt(table)
    homes += [(f"{DECLARED}.nodes.Node", ["Node", "Node-F", "fold-Node"])]
    aliases = [(f"{DECLARED}.nodes.Node.TheOpen", "layers")]
    return layout.antt("The plain data of the recursive type.", homes, aliases, body)
