"""The rows that have a spelling in the table: their clauses of `spell` (in jsgen_model/specs/Spell.antt, between marks), and in the crate
that the table names for their file their print functions, the answers of these, and how the members of their lists are printed."""

import re
from dataclasses import dataclass, field

import layout
from children import nests
from names import REPOSITORY, SPECS, row_names, words_in_antt, variants_of_words
from notation import read
from table import snake

MODEL = "Rattle.jsgen_model.specs"
PLACES = "Rattle.jsgen_place.specs.Place"
SPELL = REPOSITORY / "crates" / "jsgen_model" / "specs" / "Spell.antt"
LEVELS = "Rattle.jsgen_syntax.specs.declared.precedence.Precedence.TheVariants"
STEPS = {"statement_begins": "begin_statement", "due_semicolon": "print_due_semicolon", "apart": "print_space_apart"}
COMMENTS = {"all_of_them": "print_comments", "with_key_annotation": "print_key_comments"}
BEFORE = {"before_it": "CommentsBefore::All", "annotation_before_it": "CommentsBefore::ForTools"}

# What may be there or not, by what stands before it: the definition that spells it, and the function that prints it.
GIVEN = {(): ("spell_if_given", "print_if_given"), ("soft_space",): ("spell_apart", "print_apart"),
         ("soft_space", "equal", "soft_space"): ("spell_value", "print_value")}

# The names by which the print functions of types stand in jsgen_inside, where they are written by hand.
BY_HAND_BELOW = ("IdentifierReference", "BindingIdentifier")

WIDTH = 150     # of a line of a clause

# Names that a pattern's variable can't have, since an item or a definition has it.
TAKEN = ("name", "word", "number", "string", "operator", "literal", "punctuator", "mark", "comments", "place", "a")


def spelled(table, crate=None):
    return [n for n in table.nodes.values() if n.spelling and crate in (None, table.print_crates[n.file])]


def crates(table):
    return list(dict.fromkeys(table.print_crates[n.file] for n in spelled(table)))


def chained(terms, sign):
    """The terms, each joined to all that follow it, where the sign doesn't associate to the right."""
    first, *others = terms
    if not others:
        return first
    rest = chained(others, sign)
    return f"{first} {sign} {rest if len(others) == 1 else '(' + rest + ')'}"


def atom(term):
    """The term as an argument."""
    if re.fullmatch(r"[^\s()]+", term) or is_bracketed(term):
        return term
    return f"({term})"


def is_bracketed(term):
    """Whether one pair of parentheses stands round the whole of it."""
    depth = 0
    for at, c in enumerate(term):
        depth += (c == "(") - (c == ")")
        if depth == 0:
            return c == ")" and at == len(term) - 1
    return False


def form(inner):
    """How what may be there or not is spelled and printed: what stands before the child, which is the last part."""
    before = tuple(part[1] for part in inner[:-1])
    if inner[-1][0] != "child" or before not in GIVEN:
        raise SystemExit(f"[{inner[-1][1].name}: ..] has no form yet for what stands beside the child")
    return GIVEN[before]


# ---- clauses of `spell`

def variable(f):
    return f"the_{f.name}" if f.name in TAKEN else f.name


class Clause:
    """A row's spelling as items."""

    def __init__(self, n):
        self.n, self.place = n, "place"

    def text(self, parts):
        return " ⊕ ".join(self.item(part) for part in parts)

    def item(self, part):
        return getattr(self, "item_" + part[0])(*part[1:])

    def value(self, f):
        return f"({snake(self.n.name)}_{f.name} a)"

    def spot(self, level, mark):
        """A child's place."""
        if mark == "=":
            return self.place
        below = f"(child {level} {self.place})"
        return {"": f"(in_brackets {level})", "+": below, "%": f"(with_calls {below})"}[mark]

    def item_word(self, text):
        return f'word (codes "{text}")'

    def item_marked_word(self, text):
        return f'marked_word a.span (codes "{text}")'

    def item_field_word(self, f):
        return f"word ({self.word(f)} {self.value(f)})"

    def word(self, f):
        return TABLE.words[f.kind].spelling

    def item_sign(self, name):
        return f"punctuator {name}"

    def item_plain(self, name):
        return name

    def item_mark(self):
        return "mark a.span"

    def item_marked_indentation(self):
        return "marked_indentation false a.span"

    def item_linked(self, f):
        return f"(spell {variable(f)} {self.place} ⊕ link_mark (span_if (is_at_link {self.place}) (span_of {variable(f)})))"

    def item_end_mark(self):
        return "end_mark a.span"

    def item_comments(self, manner):
        return f"comments {manner} a.span.start"

    def item_before(self, manner, f):
        return f"before_expression {manner} {variable(f)}"

    def item_name(self, f):
        return f"name a.span (as_written {self.value(f)})"

    def item_pattern(self, pattern, flags):
        return f"regular_expression {self.value(pattern)} {self.value(flags)}"

    def item_unary_sign(self, f):
        return f"marked a.span (unary_sign {self.value(f)})"

    def item_unary_space(self, f):
        return f"behind_unary {self.value(f)}"

    def item_group(self, bracket, inner):
        return f"brackets {bracket} {atom(self.text(inner))}"

    def item_child(self, f, level, mark):
        return f"spell {variable(f)} {self.spot(level, mark)}"

    def item_list(self, f, level, mark):
        return f"spell_list {variable(f)} {self.spot(level, mark)}"

    def item_given(self, f, inner):
        return f"{form(inner)[0]} {variable(f)} {self.spot(*inner[-1][2:])}"

    def item_flag(self, f, inner):
        return f"items_if {self.value(f)} {atom(self.text(inner))}"

    def item_body(self, f):
        return f"body_items (shape {variable(f)}) (spell {variable(f)} within_statement) (spell {variable(f)} among_statements)"

    def item_wrap(self, level, inner):
        test = f"(wraps {level} {self.place})"
        self.place = f"(within {test} {self.place})"
        return f"wrapped {test} {atom(self.text(inner))}"

    def item_enclose(self, level, inner):
        return f"wrapped (wraps {level} {self.place}) {atom(self.text(inner))}"

    def item_line(self, inner):
        return f"as_statement {self.place}.in_list a.span.start {atom(self.text(inner))}"


def clause(table, n):
    held = "".join(f" {variable(f)}" for f in table.children(n))
    head, items = f"  spell (tree.{n.short} a{held}) place =", Clause(n).text(read(table, n))
    return f"{head} {items}" if len(head + items) < WIDTH else f"{head}\n{broken('      ' + items)}"


def broken(line):
    """Items in lines of some length, broken before a sign that joins them."""
    found = []
    while len(line) > WIDTH:
        at = line.rfind(" ⊕ ", 0, WIDTH)
        at = at if at > 0 else line.find(" ⊕ ")
        if at < 0:
            break
        found.append(line[:at])
        line = "      " + line[at + 1:]
    return "\n".join(found + [line])


def spell_file(table):
    text = SPELL.read_text()
    clauses = "\n".join(clause(table, n) for n in spelled(table))
    outside = layout.by_hand(text)
    already = set(re.findall(r"[\w◌⊕]+", "\n".join(line for line in outside.splitlines() if line.startswith("use "))))
    values = [f"{snake(n.name)}_{f.name}" for n in spelled(table) for f in table.values(n)]
    items = ["marked_word", "apart", "comments", "all_of_them", "with_key_annotation", "mark", "end_mark", "regular_expression", "hard_space", "soft_line"]
    homes = [(f"{SPECS}.Values", [v for v in values if v not in already]), (f"{MODEL}.Items", [v for v in items if v not in already])]
    imports = "\n".join(f"use {module}.{{{', '.join(names)}}}" for module, names in layout.used(clauses, homes))
    return layout.region(layout.region(text, "names", imports + "\n"), "clauses", clauses)    # the empty line is how `rt fmt` lays it out


# ---- print functions

@dataclass
class Body:
    """The statements of a print function, and the term that says what they lay out."""

    table: object
    n: object
    place: str = "place"
    lines: list = field(default_factory=list)
    counts: dict = field(default_factory=dict)

    def call(self, function, line=None, variable=None):
        """A call, and the name of what its contract says."""
        called = f"{function}-{variable}" if variable else function
        self.counts[called] = at = self.counts.get(called, 0) + 1
        if line:
            self.lines.append(line)
        return f"c.{called}" + (f"-{at}" if at > 1 else "")

    def step(self, function, *given):
        return self.call(function, f"p.{function}({', '.join(given)});") + ".ensures"

    def term(self, parts):
        return chained([getattr(self, "step_" + part[0])(*part[1:]) for part in parts], "⨾")

    def generic(self, kind):
        return nests(self.table, kind) or self.table.generic(kind)

    # ---- where a child stands

    def spot(self, level, mark):
        """The place in Rust, and the facts that say it, the last first."""
        if mark == "=":
            return self.place, []
        if mark == "":
            return f"Place::in_brackets(Precedence::{level})", [self.call("in_brackets")]
        below, facts = f"{self.place}.child(Precedence::{level})", [self.call("child")]
        if mark == "%":
            below, facts = below + ".with_calls()", [self.call("with_calls")] + facts
        return below, facts

    def said(self, facts, term):
        equal = [fact if fact.endswith(".value") else f"{fact}.ensures" for fact in facts]
        if not equal:
            return f"{term}.ensures"
        return f"(rw {equal[0] if len(equal) == 1 else '(' + ', '.join(equal) + ')'} at {term}.ensures)"

    def strategy(self, kind):
        if nests(self.table, kind):
            return "Nested<L>"
        return "Rows<L>" if self.table.generic(kind) else "Leaves"

    # ---- steps

    def step_word(self, text):
        return self.step("print_word", f'"{text}"')

    def step_marked_word(self, text):
        return self.step("print_marked_word", "node.span", f'"{text}"')

    def step_field_word(self, f):
        said = self.call("as_str")
        self.step("print_word", f"node.{f.rust}.as_str()")
        return f"(rw {said}.ensures at c.print_word.ensures)"

    def step_sign(self, name):
        return self.step(f"print_{name}")

    def step_plain(self, name):
        said = self.step(STEPS.get(name, f"print_{name}"))
        return said + ".lays" if name == "statement_begins" else said

    def step_mark(self):
        return self.step("print_mark", "node.span")

    def step_marked_indentation(self):
        return self.step("print_marked_indentation", "false, node.span")

    def step_linked(self, f):
        got = self.call("get")
        return self.said([got], self.call("print_at_link", f"print_at_link::<_, L>(node.{f.rust}.get(), p, {self.place});"))

    def step_end_mark(self):
        return self.step("print_end_mark", "node.span")

    def step_comments(self, manner):
        return self.step(COMMENTS[manner], "node.span.start")

    def step_before(self, manner, f):
        got = self.call("get")
        return self.said([got], self.call("print_comments_before", f"L::print_comments_before(node.{f.rust}.get(), {BEFORE[manner]}, p);"))

    def step_name(self, f):
        return self.step("print_name", "node.span", f"node.{f.rust}.as_str()")

    def step_pattern(self, pattern, flags):
        said = [self.call("as_str"), self.call("as_str")]
        printed = self.step("print_regular_expression", f"node.{pattern.rust}.as_str()", f"node.{flags.rust}.as_str()")
        return f"(rw ({said[0]}.ensures.value, {said[1]}.ensures.value) at {printed})"

    def step_unary_sign(self, f):
        return self.step("print_marked_unary_operator", "node.span", f"node.{f.rust}")

    def step_unary_space(self, f):
        return self.step("print_behind_unary", f"node.{f.rust}")

    def step_group(self, bracket, inner):
        opened = self.step("print_opening", f"Bracket::{bracket}")
        inside = self.term(inner)
        closed = self.step("print_closing", f"Bracket::{bracket}")
        return f"in_brackets_laid {bracket} {opened} {atom(inside)} {closed}"

    def step_child(self, f, level, mark):
        if nests(self.table, f.kind):
            got = self.call("get")
            place, facts = self.spot(level, mark)
            return self.said(facts + [got], self.call("print", f"L::print(node.{f.rust}.get(), p, {place});"))
        if f.kind in self.table.sets or not is_printed_below(self.table, f.kind):
            raise SystemExit(f"{self.n.name}.{f.name}: {f.kind} is printed by hand, where no crate below reaches it")
        got = self.call("deref")
        place, facts = self.spot(level, mark)
        turbofish = "::<_, L>" if self.table.generic(f.kind) else ""
        function = f"print_{snake(f.kind)}"
        facts = facts if depends_on_place(self.table, f.kind) else []
        return self.said(facts + [got], self.call(function, f"{function}{turbofish}(&node.{f.rust}, p, {place});"))

    def step_list(self, f, level, mark):
        got = self.call("deref") + ".ensures.value"
        place, facts = self.spot(level, mark)
        call = f"print_list::<_, {self.strategy(f.kind)}>(&node.{f.rust}, p, {place});"
        return self.said([got] + facts, self.call("print_list", call))

    def step_given(self, f, inner):
        function = form(inner)[1]
        place, facts = self.spot(*inner[-1][2:])
        return self.said(facts, self.call(function, f"{function}::<_, {self.strategy(f.kind)}>(&node.{f.rust}, p, {place});"))

    def step_flag(self, f, inner):
        if [part[0] for part in inner] != ["sign"]:
            raise SystemExit(f"[{f.name}: ..] has no form yet for what is no sign")
        return self.step(f"print_{inner[0][1]}_if", f"node.{f.rust}")

    def step_body(self, f):
        got = self.call("get")
        return self.said([got], self.call("print_body", f"print_body::<_, L>(node.{f.rust}.get(), p);"))

    def step_wrap(self, level, inner, within=True):
        self.lines.append(f"let wrap = place.wraps(Precedence::{level});")
        facts = [self.call("wraps", variable="wrap")]
        opened = self.step("print_opening_if", "wrap")
        if within:
            self.lines.append("let within = place.within(wrap);")
            facts, self.place = [self.call("within", variable="within")] + facts, "within"
        inside = self.term(inner)
        closed = self.step("print_closing_if", "wrap")
        return self.said(facts, "it").replace("it.ensures", f"(wrapped_laid {facts[-1]}.result {opened} {atom(inside)} {closed})")

    def step_enclose(self, level, inner):
        return self.step_wrap(level, inner, within=False)

    def step_line(self, inner):
        opened = self.step("begin_line_if", "place.in_list", "node.span.start")
        inside = self.term(inner)
        closed = self.step("print_statement_end_if", "place.in_list")
        return chained([opened, atom(inside), closed], "⨾")


def is_printed_below(table, kind):
    return kind in BY_HAND_BELOW or kind in table.nodes and bool(table.nodes[kind].spelling)


def depends_on_place(table, kind):
    """Whether the items of the type, which is printed below, depend on where it stands."""
    if kind in BY_HAND_BELOW:
        return False
    body = Body(table, table.nodes[kind])
    body.term(read(table, table.nodes[kind]))
    return any(re.search(r"\bplace\b", line) for line in body.lines)


def function(table, n, body):
    takes = table.generic(n.name)
    unused = [name for name in ("node", "place") if not any(re.search(rf"\b{name}\b", line) for line in body.lines)]
    lines = [f"let _ = {name};" for name in unused] + body.lines
    inside = "\n".join("    " + line for line in lines)
    return f"""pub fn print_{snake(n.name)}{'<N, L: PrintInside<N>>' if takes else ''}(
    node: &{n.name}{'<N>' if takes else ''},
    p: &mut Printer<'_>,
    place: Place,
)
    ensures {{ Lays p.old p.new (spell ({n.row}{' L.plain' if takes else ''} node.now) place) }}
{{
{inside}
}}"""


def answers(table, n, body, term):
    given = "g c" if table.generic(n.name) else "c"
    each = []
    for f in [part[1] for part in read_flat(table, n) if part[0] == "field_word"]:
        each.append(f"pub print_word-requires : goal.print_word-requires\nprint_word-requires {given} = rw c.as_str.ensures ({table.words[f.kind].spelling}_is_ascii c.args.node.now.{f.rust})")
    each.append(f"pub returns : goal.returns\nreturns {given} = {term}")
    return "\n\n".join(each)


def read_flat(table, n):
    def flat(parts):
        for part in parts:
            yield part
            for inner in part:
                if isinstance(inner, list):
                    yield from flat(inner)
    return list(flat(read(table, n)))


# ---- how the members of lists, and what may be there or not, are printed

def members(table, crate):
    """The types printed in this crate that stand in a list or may be absent, each with whether it stands in a box."""
    found = {}
    for n in spelled(table, crate):
        for part in read_flat(table, n):
            if part[0] in ("list", "given") and part[1].kind in table.nodes:
                found[part[1].kind, part[0] == "given"] = True
    return list(found)


def member(table, kind, boxed):
    takes = table.generic(kind)
    of = f"{kind}<N>" if takes else kind
    row = f"{table.nodes[kind].row}{' L.plain' if takes else ''}"
    return f"""impl{'<N, L: PrintInside<N>>' if takes else ''} PrintMember<{f'Box<{of}>' if boxed else of}> for {'Rows<L>' if takes else 'Leaves'} {{
    ghost plain = {{ {f'λ b. {row} b.value' if boxed else row} }};

    fn print_member(node: &{f'Box<{of}>' if boxed else of}, p: &mut Printer<'_>, place: Place) {{
        print_{snake(kind)}{'::<_, L>' if takes else ''}(node, p, place);
    }}
}}"""


def members_file(table, crate):
    each = members(table, crate)
    structs = []
    if any(table.generic(kind) for kind, _ in each):
        structs.append("/// Rows in which others nest.\npub struct Rows<L> {\n    inside: L,\n}")
    if any(not table.generic(kind) for kind, _ in each):
        structs.append("/// Rows in which none nests.\npub struct Leaves;")
    body = "\n\n".join(structs + [member(table, kind, boxed) for kind, boxed in each])
    homes = functions_by_file(table, crate) + [("jsgen_inside", ["PrintInside"]), ("jsgen_lists", ["PrintMember"]), ("jsgen_place", ["Place"]),
                                               ("jsgen_printer", ["Printer"]), ("jsgen_tree", list(table.nodes))]
    return layout.rust("How the members of lists, and what may be there or not, are printed.", row_names(table), [], homes, body)


# ---- files

def functions_by_file(table, crate):
    return [(f"crate::{file}", [f"print_{snake(n.name)}" for n in spelled(table, crate) if n.file == file]) for file in table.files]


def module(table, crate, file):
    """The print functions of a file of the table, and their answers by function."""
    functions, found = [], {}
    for n in spelled(table, crate):
        if n.file == file:
            body = Body(table, n)
            term = body.term(read(table, n))
            functions.append(function(table, n, body))
            if [part[0] for part in read(table, n)] != ["name"]:    # of a name a search finds it
                found[f"print_{snake(n.name)}"] = answers(table, n, body, term)
    return functions, found


def ascii_words(table, crate):
    words = dict.fromkeys(part[1].kind for n in spelled(table, crate) for part in read_flat(table, n) if part[0] == "field_word")
    each = []
    for w in (table.words[name] for name in words):
        clauses = "".join(f"\n{w.spelling}_is_ascii {w.alias}.{variant} = refl" for _, variant in w.words)
        each.append(f"pub {w.spelling}_is_ascii : (w : {w.name}) → IsTrue (is_ascii ({w.spelling} w)){clauses}")
    homes = [("Rattle.std.proofs.Common", ["IsTrue", "refl"])] + words_in_antt(table)
    homes += [(f"{SPECS}.Words", [w.spelling for w in table.words.values()]), ("Rattle.jsgen_printer.specs.Printer", ["is_ascii"])]
    return layout.antt("The words that rows print are ASCII.", homes, variants_of_words(table), "\n\n".join(each)) if each else None


def write(table):
    global TABLE
    TABLE = table
    files = {"crates/jsgen_model/specs/Spell.antt": spell_file(table)}
    for crate in crates(table):
        at, mods = f"crates/{crate}", ["members"] if members(table, crate) else []
        words = ascii_words(table, crate)
        if words:
            files |= {f"{at}/proofs/Words.antt": words, f"{at}/proofs/Lib.antt": layout.ANTT + "mod Words\n"}
        if mods:
            files[f"{at}/src/members.rt"] = members_file(table, crate)
        for file in table.files:
            functions, found = module(table, crate, file)
            if not functions:
                continue
            mods.append(file)
            ghosts = row_names(table) + [(f"{MODEL}.Spell", ["spell"]), ("Rattle.jsgen_printer.specs.Steps", ["Lays"])]
            homes = [h for h in functions_by_file(table, crate) if h[0] != f"crate::{file}"]
            homes += [("crate::members", ["Rows", "Leaves"]), ("jsgen_inside", ["PrintInside", "Nested", "print_at_link", "print_body", "print_identifier_reference", "print_binding_identifier"]),
                      ("jsgen_lists", ["print_list"] + [f for _, f in GIVEN.values()]), ("jsgen_place", ["Place"]),
                      ("jsgen_printer", ["Bracket", "CommentsBefore", "Printer"]), ("jsgen_syntax", ["Precedence"]), ("jsgen_tree", list(table.nodes))]
            files[f"{at}/src/{file}.rt"] = layout.rust(f"Rows by their spelling: {table.files[file][0].lower()}{table.files[file][1:]}", ghosts, [], homes, "\n\n".join(functions))
            for name, text in found.items():
                files[f"{at}/proofs/{file}/{name}/Answers.antt"] = answer_file(table, crate, file, name, text)
        files[f"{at}/src/lib.rt"] = root(table, crate, sorted(mods))
    return files


def answer_file(table, crate, file, name, text):
    homes = [("Rattle.jsgen_model.specs.Punctuator", ["Round", "Square", "Brace"]),
             ("Rattle.jsgen_printer.proofs.Sequence", ["◌⨾◌", "in_brackets_laid", "wrapped_laid"]),
             (f"Rattle.{crate}.proofs.Words", [f"{w.spelling}_is_ascii" for w in table.words.values()])]
    return layout.antt("The steps in a row.", homes, [(f"Rattle.{crate}.proofs.{file}.{name}.Goals", "goal")], text)


def root(table, crate, mods):
    exports = [(module.removeprefix("crate::"), sorted(names)) for module, names in functions_by_file(table, crate) if names]
    lines = [f"pub use {module}::{names[0] if len(names) == 1 else '{' + ', '.join(names) + '}'};" for module, names in sorted(exports)]
    if "members" in mods:
        lines.append("pub use members::{" + ", ".join(s for s in ("Leaves", "Rows") if any((s == "Rows") == table.generic(kind) for kind, _ in members(table, crate))) + "};")
    body = "\n".join(f"mod {m};" for m in mods) + "\n\n" + "\n".join(sorted(lines))
    return layout.RUST + f"//! Rows of the table of nodes, printed by their spelling.\n#![tactic(auto)]\n\n{body}\n"
