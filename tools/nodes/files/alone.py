"""The crate jsgen_alone: a file of it for each part of the table, and one for sets, in which each type and set is printed by itself, or
at a level, which is said by its name; and the answers of those that have children, which a search finds too late."""

import layout
from files.nodes_sets import chosen, print_functions, printed, turbofish
from files.rows_functions import parts as parts_of_rows
from names import SPECS, TYPES, row_names, types_in_antt
from table import snake

# What is printed at a level: the types and sets whose names end so, but some, and these.
ENDING, BUT = "Expression", ("ThisExpression", "ArrayExpression")
LEVELLED = ("NumericLiteral", "BigIntLiteral", "SimpleAssignmentTarget")

# What no call prints by itself.
NEVER = ("Declaration", "Comment", "TemplateElement", "ArrowFunctionBody", "ChainElement", "ImportSpecifier",
         "ImportDefaultSpecifier", "ImportNamespaceSpecifier", "ImportDeclarationSpecifier", "ImportAttributeKey")

# What is printed as it stands among statements: what has a name that ends so, and these.
STATEMENTS, OTHER_STATEMENTS = "Statement", ("Program", "Directive", "SwitchCase")

# What is printed as a member of a list, at the level Comma and with nothing forbidden, whatever the context is.
MEMBERS = ("Argument", "ArrayExpressionElement", "ObjectPropertyKind", "ObjectProperty", "PropertyKey", "AssignmentTarget",
           "AssignmentTargetMaybeDefault")

# How it is printed: the word of specs/Alone.antt, its place in Rust, and the call that gives that.
PLACES = {"by_itself": ("Place::at_level(Precedence::Lowest, context)", "at_level"),
          "list_member": ("Place::in_brackets(Precedence::Comma)", "in_brackets"),
          "statement": ("Place::among_statements()", "among_statements"),
          "loop_init": ("Place::loop_head()", "loop_head")}

# What is printed in a way of its own.
OWN = {"ForStatementInit": "loop_init", "ForStatementLeft": "loop_left", "PropertyKey": "key", "SwitchCase": "switch_case",
       "ClassElement": "class_member", "ModuleExportName": "export_name", "ExportDefaultDeclarationKind": "default_export"}

# What is printed by itself by a function of another form; and what has no children but a label.
OTHERWISE = ("PropertyKey", "ForStatementLeft", "SwitchCase", "ClassElement", "ModuleExportName", "ExportDefaultDeclarationKind")
LABELLED = ("ContinueStatement", "BreakStatement")


def at_level(name):
    return name in LEVELLED or name.endswith(ENDING) and name not in BUT


def how(name):
    """How it is printed by itself."""
    if name in OWN:
        return OWN[name]
    if name.endswith(STATEMENTS) or name in OTHER_STATEMENTS:
        return "statement"
    return "list_member" if name in MEMBERS else "by_itself"


def place(name):
    """Its place, as a key of PLACES."""
    return {"switch_case": "statement", "key": "list_member"}.get(how(name), how(name) if how(name) in PLACES else "by_itself")


def write(table):
    files = {name: [n.name for n in nodes] for name, _, nodes in parts_of_rows(table)}
    files["sets"] = list(table.sets)
    given = {"crates/jsgen_alone/specs/Alone.antt": specs(table)}
    for name, types in files.items():
        given[f"crates/jsgen_alone/src/{name}.rt"] = of_file(table, [t for t in types if t not in NEVER])
        for t in types:
            if has_answers(table, t):
                given[f"crates/jsgen_alone/proofs/{name}/{t}PrintAlone/print_alone/Answers.antt"] = answers(table, name, t)
    return given


# ---- specs/Alone.antt

ALONE = """-- as what holds it prints it, with nothing round it
pub data How : Type 0 where
  -- at the lowest level, in the context that is given
  by_itself : How
  -- as a member of a list, and as a statement among statements, whatever the context is
  list_member : How
  statement : How
  -- as what stands first in the head of a loop, and as what gives it values
  loop_init : How
  loop_left : How
  -- as the key of a property, as a case, as a member of a class, as a name of an import or export, and behind `export default`
  key : How
  switch_case : How
  class_member : How
  export_name : How
  default_export : How

-- the items of a tree that is printed so
abbrev pub alone : How → Tree → Context → Items
alone by_itself t context = spell t (at_level Lowest context)
alone list_member t context = spell t (in_brackets Comma)
alone statement t context = spell t among_statements
alone loop_init t context = spell t loop_head
alone loop_left t context = spell t (left_place (type_of t))
alone key t context = key_text t (spell t (in_brackets Comma))
alone switch_case t context = due_semicolon ⊕ spell t among_statements
alone class_member t context = spell t (at_level Lowest context) ⊕ element_end (type_of t)
alone export_name t context = spell t plainly
alone default_export t context = default_items (is_declared t) (spell t within_statement) (spell t (in_brackets Comma))"""


def specs(table):
    """How each type and each set is printed by itself. What is printed at a level isn't in it."""
    types = clauses("of_type", "types", [n for n in table.nodes if not at_level(n) and n not in NEVER])
    sets = clauses("of_set", "sets", [s for s in table.sets if not at_level(s) and s not in NEVER])
    parts = [ALONE, "-- ---- by type, and by the set of which it is a member", f"abbrev pub of_type : NodeType → How\n{types}of_type type = by_itself",
             f"abbrev pub of_set : NodeSet → How\n{sets}of_set set = by_itself"]
    homes = types_in_antt(table) + [(f"{SPECS}.Tree", ["Tree", "type_of"]), ("Rattle.jsgen_place.specs.declared.place.Context", ["Context"])]
    homes += ITEMS
    return layout.antt("What is printed of a node by itself.", homes, TYPES, "\n\n".join(parts))


def clauses(name, alias, every):
    return "".join(f"{name} {alias}.{x} = {how(x)}\n" for x in every if how(x) != "by_itself")


ITEMS = [("Rattle.jsgen_syntax.specs.declared.precedence.Precedence.TheVariants", ["Lowest", "Comma"]),
         ("Rattle.jsgen_place.specs.Place", ["at_level", "in_brackets", "among_statements", "within_statement", "loop_head", "plainly"]),
         ("Rattle.jsgen_model.specs.Items", ["Items", "◌⊕◌", "due_semicolon"]),
         ("Rattle.jsgen_model.specs.Spell", ["spell", "key_text", "left_place", "element_end", "default_items", "is_declared"])]


# ---- answers

def has_answers(table, name):
    """What has children is given its answers; nothing of what is printed at a level, or by a function of another form."""
    return not at_level(name) and name not in NEVER + OTHERWISE and (table.generic(name) or name in LABELLED)


def answers(table, file, name):
    """It is printed by itself as it is at its place."""
    home = f"Rattle.jsgen_alone.proofs.{file}.{name}PrintAlone.print_alone.Goals"
    called, given = PLACES[place(name)][1], "g c" if table.generic(name) else "c"
    if not is_chosen_here(table, name):
        each = [answer("returns", given, printed_there(f"print_{snake(name)}", f"{row(table, name)} c.args.self.now", called))]
    else:
        each = [answer(f"returns-in-{m}", given, member(table, m, at, called)) for at, m in enumerate(table.sets[name].members)]
    homes = row_names(table) + [("Rattle.jsgen_alone.proofs.Placed", ["placed_as"])]
    return layout.antt("It is printed by itself as it is at its place.", homes, [(home, "goal")], "\n\n".join(each))


def answer(goal, given, term):
    return f"pub {goal} : goal.{goal}\n{goal} {given} = {term}"


def printed_there(function, tree, called):
    return f"placed_as ({tree}) c.{called}.ensures c.{function}.ensures"


def member(table, m, at, called):
    deref = "deref" if at == 0 else f"deref-in-{m}"
    if m in table.sets:
        return f"rw c.in-{m}.is (rw (c.get.ensures, c.{deref}.ensures, c.{called}-place.ensures) at c.print.ensures)"
    there = printed_there(f"print_{snake(m)}", f"{row(table, m)} c.{deref}.result.now", f"{called}-place")
    return f"rw (c.in-{m}.is, ← c.{deref}.ensures) ({there})"


def row(table, name):
    return plain(table, name).replace("N.plain", "g.N.PrintNode.plain")


def is_chosen_here(table, name):
    """Whether the member of a set is chosen where it is printed by itself, and not in jsgen_nodes."""
    return name in table.sets and not table.sets[name].nests and table.sets[name] not in chosen(table) and name not in OTHERWISE


# ---- the trait's impls

def of_file(table, types):
    ghosts = row_names(table) + [("Rattle.jsgen_alone.specs.Alone", ["by_itself", "of_type", "of_set"])]
    homes = print_functions(table, "jsgen_nodes")
    homes += [("jsgen_nodes::sets", [f"print_{snake(s.name)}" for s in table.nesting() + chosen(table)]),
              ("crate", ["PrintAlone", "PrintAtLevel"]), ("jsgen_nodes", ["InClass", "Inside", "PrintNode"]),
              ("jsgen_place", ["Context", "Place"]), ("jsgen_printer", ["Printer"]),
              ("jsgen_syntax", ["Precedence"]), ("jsgen_tree", list(table.nodes) + list(table.sets))]
    body = "\n\n".join(of_type(table, t) for t in types)
    return layout.rust("What is printed by itself, or at a level.", ghosts, TYPES, homes, body)


def head(table, trait, name):
    parameter = "<N: PrintNode>" if table.generic(name) else ""
    return f"impl{parameter} {trait} for {name}{'<N>' if parameter else ''}"


def plain(table, name):
    row = table.nodes[name].row if name in table.nodes else table.sets[name].plain if table.sets[name].nests else f"in_{snake(name)}"
    return f"{row} N.plain" if table.generic(name) else row


def of_type(table, name):
    if at_level(name):
        return f"""{head(table, 'PrintAtLevel', name)} {{
    ghost plain = {{ {plain(table, name)} }};

    fn print_at(&self, p: &mut Printer<'_>, place: Place) {{
        {body(table, name, 'place')}
    }}
}}"""
    at = PLACES[place(name)][0]
    unused = "" if "context" in at and name not in OTHERWISE else "        let _ = context;\n"
    return f"""{head(table, 'PrintAlone', name)} {{
    ghost plain = {{ {plain(table, name)} }};

    ghost how = {{ {asked_how(table, name)} }};

    fn print_alone(
        &self,
        p: &mut Printer<'_>,
        context: Context,
    ) {{
{unused}        {body(table, name, at)}
    }}
}}"""


def asked_how(table, name):
    """How it is printed, by its type or set; a set of which nothing has children isn't told apart from others."""
    if name in table.nodes:
        return f"of_type types.{name}"
    return f"of_set sets.{name}" if name in table.child_sets() else "by_itself"


def body(table, name, at):
    if name == "PropertyKey":
        return f"print_key_text(self, p, {at});"
    if name == "ForStatementLeft":
        return "print_left(self, p);"
    if name == "SwitchCase":
        return f"p.print_due_semicolon();\n        print_switch_case(self, p, {at});"
    if name == "ClassElement":
        return f"print_ended_element(self, p, {at});"
    if name == "ModuleExportName":
        return "print_module_export_name(self, p);"
    if name == "ExportDefaultDeclarationKind":
        return "print_export_default_declaration_kind(self, p);"
    if not is_chosen_here(table, name):
        return f"print_{snake(name)}{turbofish(table, name)}(self, p, {at});"
    arms = "".join(f"            {name}::{m}(node) => {printed(table, m)},\n" for m in table.sets[name].members)
    binding = "" if at == "place" else f"let place = {at};\n        "
    return f"{binding}match self {{\n{arms}        }}"

