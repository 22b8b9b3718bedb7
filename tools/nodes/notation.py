"""The notation in which table.txt says how a row is spelled, and what it is read into.

    'x'              a word where `^` stands before it, a sign where x is one, else these characters as they stand
    '(' .. ')'       brackets round what stands between; so '[' and '{'
    _ ~ NL TAB       a soft space, a hard space, a soft line end, indentation
    DOT              the dot of a member
    END SEMI         the end of a statement, and a semicolon that is due
    BEGIN            the expression of an expression statement begins here
    m M              the mark of the span's start, and of its end; `^ m 'x'` is a word with its mark, and `^ m f` a child with the row's
    TABM             indentation, and where there may be any the mark of the span's start behind it
    LINK f           a child at the row's own place, with the mark behind it where that is the place of the object of a link
    C K              the comments that belong to the span's start; where one of them is a property-key annotation
    COMMENTS f       the comments before a child; TOOLS f those for tools alone
    HEAD             C TAB ^ m
    NAME f           a name as it is written, with its mark
    WORD f           the word of a field of words
    PATTERN f g      a regular expression by its pattern and its flags
    UNARY f          an operator before its operand, with the mark of the span's start
    f                a child at the level Lowest, with what is forbidden here forbidden there; f@L+ the same at the level L;
                     f@L at the level L, with nothing forbidden; f@L% where calls may stand; f@= at the row's own place
    LIST f           children with a comma and a soft space between, each as a child f would stand there
    BODY f           a statement as a body
    [f: ..]          where the flag f is set, a sign; or where there is a child f, which stands once in it
    P[L: ..]         the row in parentheses, where the level of its place is at least L, and within them `in` may stand
    P[L! ..]         the same, but what is forbidden outside stays forbidden within
    LINE[..]         the row, among statements with indentation before it and the end of a statement behind it
"""

import re

SIGNS = {";": "semicolon", ",": "comma", ":": "colon", "?": "question", "=": "equal", "=>": "arrow", "...": "ellipsis",
         "?.": "question_dot", "*": "star"}
BRACKETS = {"(": ("Round", ")"), "[": ("Square", "]"), "{": ("Brace", "}")}
PLAIN = {"_": "soft_space", "~": "hard_space", "NL": "soft_line", "TAB": "indentation", "END": "statement_end",
         "SEMI": "due_semicolon", "DOT": "member_dot", "BEGIN": "statement_begins"}
TOKEN = re.compile(r"'([^']*)'|([A-Za-z_][A-Za-z_0-9]*(?:@(?:=|[A-Z][a-z]*[+%]?))?)|([\[\]:~^!])|(\S)")


class Refused(Exception):
    pass


def tokens(text):
    found = []
    for m in TOKEN.finditer(text):
        if m.group(4):
            raise Refused(f"{m.group(4)} is no part of a spelling")
        found.append(("text", m.group(1)) if m.group(1) is not None else ("", m.group(2) or m.group(3)))
    return found


class Reader:
    """Reads a spelling into a list of parts, each a tuple whose first says what it is."""

    def __init__(self, table, node):
        self.table = table
        self.fields = {f.name: f for f in node.fields}
        self.left = tokens(node.spelling)

    def take(self, wanted=None):
        if not self.left:
            raise Refused("it ends too early")
        kind, text = self.left.pop(0)
        if wanted and (kind, text) != ("", wanted):
            raise Refused(f"{wanted} should stand where {text} is")
        return kind, text

    def next_is(self, text):
        return self.left[:1] == [("", text)]

    def field(self, name, kinds=None):
        f = self.fields.get(name)
        if not f or f.unread or kinds and f.kind not in kinds:
            raise Refused(f"there is no such field {name}")
        return f

    def until(self, ends):
        parts = []
        while not ends():
            parts += self.part()
        return parts

    def whole(self):
        return self.until(lambda: not self.left)

    def inside(self):
        """What stands up to the closing bracket of the notation."""
        inner = self.until(lambda: self.next_is("]"))
        self.take("]")
        return inner

    def part(self):
        kind, text = self.take()
        if kind == "text":
            return [self.text(text)]
        method = getattr(self, "read_" + READ.get(text, text), None)
        if method and text not in self.fields:
            return method()
        if text in PLAIN:
            return [("plain", PLAIN[text])]
        return [("child", *self.child(text))]

    def text(self, text):
        if text in BRACKETS:
            name, closing = BRACKETS[text]
            inner = self.until(lambda: self.left[:1] == [("text", closing)])
            self.take()
            return ("group", name, inner)
        return ("sign", SIGNS[text]) if text in SIGNS else ("literal", text)

    def child(self, text):
        """A child and its place: its field, the level, and how the row's place matters."""
        name, _, level = text.partition("@")
        f = self.field(name)
        if not self.table.is_child(f):
            raise Refused(f"{name} is no child")
        if level == "=":
            return f, None, "="
        mark = level[-1:] if level[-1:] in ("+", "%") else "" if level else "+"
        return f, level.rstrip("+%") or "Lowest", mark

    def read_apart(self):
        marked = self.next_is("m")
        if marked:
            self.take()
        if marked and self.left[0][0] == "" and self.left[0][1] != "WORD":
            return [("plain", "apart"), ("mark",)]
        kind, text = self.take()
        if (kind, text) == ("", "WORD"):
            return [("mark",)] * marked + self.read_WORD()
        if kind != "text":
            raise Refused(f"a word should stand where {text} is")
        return [("marked_word" if marked else "word", text)]

    def read_m(self):
        return [("mark",)]

    def read_M(self):
        return [("end_mark",)]

    def read_C(self):
        return [("comments", "all_of_them")]

    def read_K(self):
        return [("comments", "with_key_annotation")]

    def read_COMMENTS(self):
        return [("before", "before_it", self.field(self.take()[1], ["Expression"]))]

    def read_TOOLS(self):
        return [("before", "annotation_before_it", self.field(self.take()[1], ["Expression"]))]

    def read_HEAD(self):
        return [("comments", "all_of_them"), ("plain", "indentation"), ("marked_word", self.take()[1])]

    def read_TABM(self):
        return [("marked_indentation",)]

    def read_LINK(self):
        return [("linked", self.field(self.take()[1], ["Expression"]))]

    def read_NAME(self):
        return [("name", self.field(self.take()[1], ["text"]))]

    def read_PATTERN(self):
        return [("pattern", self.field(self.take()[1], ["text"]), self.field(self.take()[1], ["text"]))]

    def read_WORD(self):
        return [("field_word", self.field(self.take()[1], self.table.words))]

    def read_UNARY(self):
        f = self.field(self.take()[1], ["UnaryOperator"])
        return [("unary_sign", f), ("unary_space", f)]

    def read_LIST(self):
        return [("list", *self.child(self.take()[1]))]

    def read_BODY(self):
        return [("body", self.field(self.take()[1], ["Statement"]))]

    def read_choice(self):
        name = self.take()[1]
        self.take(":")
        inner, f = self.inside(), self.field(name)
        if f.kind == "flag":
            return [("flag", f, inner)]
        children = [part for part in inner if part[0] == "child"]
        if f.many == "?" and self.table.is_child(f) and [part[1] for part in children] == [f]:
            return [("given", f, inner)]
        raise Refused(f"{name} is neither a flag nor a child that may be absent and stands once in it")

    def read_P(self):
        self.take("[")
        level, (_, sign) = self.take()[1], self.take()
        if sign not in (":", "!"):
            raise Refused(f"a colon should stand where {sign} is")
        return [("wrap" if sign == ":" else "enclose", level, self.inside())]

    def read_LINE(self):
        self.take("[")
        return [("line", self.inside())]


READ = {"^": "apart", "[": "choice"}


def read(table, node):
    try:
        parts = Reader(table, node).whole()
    except Refused as error:
        raise SystemExit(f"{node.name}: {node.spelling}: {error}")
    if len(parts) > 1 and any(part[0] in ("wrap", "enclose", "line") for part in parts):
        raise SystemExit(f"{node.name}: {node.spelling}: something stands beside the whole")
    return parts
