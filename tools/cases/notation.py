"""Reads the short notation of a program (tests/README.md tells what it is) as the rows of a job."""

import json
import re
import sys
from pathlib import Path

sys.path.append(str(Path(__file__).resolve().parents[1] / "nodes"))

from table import Table  # noqa: E402

TABLE = Table(Path(__file__).resolve().parents[1] / "nodes" / "table.txt")
ASSIGNMENT = {word for word, _ in TABLE.words["AssignmentOperator"].words}
DECLARING = {word for word, _ in TABLE.words["VariableDeclarationKind"].words}
LOGICAL = ("&&", "||", "??")
DECLARED = ("Statement", "Declaration", "ExportDefaultDeclarationKind")     # where a function is a declaration
SIGN = re.compile(
    r"""\s*(?:
    (?P<string>"(?:[^"\\]|\\.)*")
  | (?P<number>0x[0-9a-fA-F]+|\d+)
  | (?P<word>[^\W\d]\w*)
  | (?P<arrow>=>|\.\.\.)
  | (?P<operator>>>>=|>>>|===|!==|\*\*=|<<=|>>=|&&=|\|\|=|\?\?=|[-+*/%|^&]=|\*\*|<<|>>|<=|>=|==|!=|&&|\|\||\?\?|[-+*/%|^&<>])
  | (?P<sign>[(){}\[\].,;=?:@])
  | (?P<end>$)
)""",
    re.X,
)


class NotProgram(Exception):
    """The text is no program in the notation."""


class Child:
    """A node whose row isn't written yet."""

    def __init__(self, node_type, **fields):
        self.node_type, self.fields = node_type, fields


class Reader:
    def __init__(self, text):
        self.text, self.at = text, 0
        self.take()

    # ---- signs

    def take(self):
        """Goes to the next sign, and gives the one that stood here."""
        taken = getattr(self, "value", None)
        found = SIGN.match(self.text, self.at)
        if not found:
            raise NotProgram(f"no sign at {self.text[self.at:]!r}")
        self.at, self.kind = found.end(), found.lastgroup
        self.value = found.group(self.kind)
        return taken

    def is_here(self, value):
        return self.value == value and self.kind != "string"

    def expect(self, value):
        if not self.is_here(value):
            raise NotProgram(f"{value!r} is missing before {self.text[self.at - len(self.value):]!r}")
        self.take()

    def several(self, end, read):
        """What stands up to the sign `end`, with commas between."""
        found = []
        while not self.is_here(end):
            found.append(read())
            if not self.is_here(end):
                self.expect(",")
        self.take()
        return found

    # ---- statements

    def program(self):
        directives, body = [], []
        while self.kind != "end":
            statement = self.statement()
            if statement.node_type == "Program":
                return statement
            (directives if statement.node_type == "Directive" else body).append(statement)
        return Child("Program", kind="module", directives=directives, body=body)

    def braced(self):
        """The statements in braces."""
        self.expect("{")
        body = []
        while not self.is_here("}"):
            body.append(self.statement())
        self.take()
        return body

    def statement(self):
        if self.is_here(";"):
            self.take()
            return Child("EmptyStatement")
        if self.is_here("{"):
            return Child("BlockStatement", body=self.braced())
        if self.begins_declaration():
            return self.declaration(self.take())
        if self.is_here("function"):
            return self.function("declaration")
        if self.is_here("return"):
            return self.result()
        node = self.expression()
        if self.is_here(";"):
            self.take()
            return Child("ExpressionStatement", expression=node)
        return node

    def begins_declaration(self):
        """Whether a word that declares stands here, and a name behind it."""
        behind = SIGN.match(self.text, self.at)
        return self.kind == "word" and self.value in DECLARING and behind is not None and behind["word"] is not None

    def declaration(self, kind):
        return Child("VariableDeclaration", kind=kind, declarations=self.several(";", self.declarator))

    def declarator(self):
        fields = {"id": self.pattern()}
        if self.is_here("="):
            self.take()
            fields["init"] = self.expression()
        return Child("VariableDeclarator", **fields)

    def result(self):
        self.take()
        argument = {} if self.is_here(";") else {"argument": self.expression()}
        self.expect(";")
        return Child("ReturnStatement", **argument)

    # ---- functions

    def function(self, kind):
        self.take()
        name = {} if self.is_here("(") else {"id": self.binding()}
        self.expect("(")
        params = self.parameters()
        return Child("Function", kind=kind, **name, params=params, body=self.function_body())

    def parameters(self):
        items = self.several(")", self.parameter)
        rest = {"rest": items.pop()} if items and items[-1].node_type == "FormalParameterRest" else {}
        return Child("FormalParameters", items=items, **rest)

    def function_body(self):
        body = self.braced()
        directives = [it for it in body if it.node_type == "Directive"]
        return Child("FunctionBody", directives=directives, statements=body[len(directives):])

    # ---- names

    def pattern(self):
        """A name that is bound, or a pattern by its type."""
        return self.by_type(self.take()) if self.is_before("(") else self.binding()

    def is_before(self, sign):
        return self.text[self.at:].lstrip().startswith(sign)

    def binding(self):
        return Child("BindingIdentifier", name=self.take(), **self.number("symbol"))

    def number(self, field):
        """The number of a name, which may stand behind it, as the field that it is."""
        if not self.is_here("@"):
            return {}
        self.take()
        return {field: int(self.take())}

    # ---- expressions

    def expression(self):
        node = self.primary()
        while True:
            if self.is_here("."):
                self.take()
                name = Child("IdentifierName", name=self.take())
                node = Child("StaticMemberExpression", object=node, property=name)
            elif self.is_here("["):
                self.take()
                node = Child("ComputedMemberExpression", object=node, expression=self.expression())
                self.expect("]")
            elif self.is_here("("):
                self.take()
                node = Child("CallExpression", callee=node, arguments=self.several(")", self.expression), pure=False)
            else:
                return node

    def primary(self):
        if self.is_here("("):
            return self.operation()
        if self.is_here("function"):
            return self.function("expression")
        kind, value = self.kind, self.take()
        if kind == "string":
            return Child("StringLiteral", value=json.loads(value))
        if kind == "number":
            return Child("NumericLiteral", kind="whole", digits=value)
        if kind != "word":
            raise NotProgram(f"no expression begins with {value!r}")
        if value[0].isupper() and self.is_here("("):
            return self.by_type(value)
        return Child("IdentifierReference", name=value, **self.number("reference"))

    def operation(self):
        self.take()
        if self.is_here("(") and self.begins_arrow():
            return self.arrow()
        left = self.expression()
        if self.is_here("?"):
            return self.choice(left)
        if self.is_here(","):
            self.take()
            return Child("SequenceExpression", expressions=[left, *self.several(")", self.expression)])
        operator = self.take()
        if operator in ASSIGNMENT:
            right = self.expression()
            self.expect(")")
            return Child("AssignmentExpression", operator=operator, left=left, right=right)
        right = self.expression()
        self.expect(")")
        node_type = "LogicalExpression" if operator in LOGICAL else "BinaryExpression"
        return Child(node_type, operator=operator, left=left, right=right)

    def choice(self, test):
        self.take()
        consequent = self.expression()
        self.expect(":")
        alternate = self.expression()
        self.expect(")")
        return Child("ConditionalExpression", test=test, consequent=consequent, alternate=alternate)

    # ---- arrows

    def begins_arrow(self):
        """Whether `=>` stands behind the parentheses that begin here."""
        at, depth = self.at, 1
        while depth > 0:
            found = SIGN.match(self.text, at)
            if not found or found["end"] is not None:
                return False
            at, depth = found.end(), depth + {"(": 1, ")": -1}.get(found["sign"], 0)
        behind = SIGN.match(self.text, at)
        return behind is not None and behind["arrow"] == "=>"

    def arrow(self):
        self.take()
        params = self.parameters()
        self.expect("=>")
        body = self.function_body() if self.is_here("{") else self.expression()
        self.expect(")")
        return Child("ArrowFunctionExpression", params=params, body=body)

    def parameter(self):
        is_rest = self.is_here("...")
        if is_rest:
            self.take()
        pattern = self.pattern()
        if is_rest:
            return Child("FormalParameterRest", argument=pattern)
        if not self.is_here("="):
            return Child("FormalParameter", pattern=pattern)
        self.take()
        return Child("FormalParameter", pattern=pattern, initializer=self.expression())

    # ---- a node by its type, with its fields in their order or by their names

    def by_type(self, node_type):
        if node_type not in TABLE.nodes:
            raise NotProgram(f"there is no type {node_type}")
        fields = [field for field in TABLE.nodes[node_type].in_format() if not field.unread]
        self.expect("(")
        in_order = iter(fields)
        return Child(node_type, **dict(self.several(")", lambda: self.field(fields, in_order))))

    def field(self, fields, in_order):
        """A field's name and what it holds: the field that is named, or else the next one, but a flag where no flag stands here. The
        span is always named."""
        by_name = {field.name: field for field in fields}
        is_named = self.is_before("=")
        if is_named and self.value == "span":
            self.take()
            self.take()
            self.expect("[")
            return "span", self.several("]", lambda: int(self.take()))
        if is_named and self.value in by_name:
            field = by_name[self.take()]
            self.take()
        else:
            field = next((it for it in in_order if it.kind != "flag" or self.value in ("true", "false")), None)
        if field is None:
            raise NotProgram(f"there is no field for {self.value!r}")
        return field.name, self.held(field)

    def held(self, field):
        is_value = TABLE.is_value(field)
        if not is_value and self.is_here("["):
            self.take()
            return self.several("]", lambda: self.child(field))
        if not is_value:
            return self.child(field)
        if self.is_here("["):
            self.take()
            return self.several("]", lambda: int(self.take(), 0))
        kind, value = self.kind, self.take()
        if kind == "string":
            return json.loads(value)
        if field.kind == "number":
            return int(value)
        return {"true": True, "false": False}.get(value, value)

    def child(self, field):
        """None where it is left out; else a word alone is a name of the field's kind, and a function is a declaration where a
        statement may stand or what is exported, and an expression elsewhere."""
        if self.is_here("null"):
            self.take()
            return None
        if self.kind == "word" and not self.is_before("("):
            if field.kind in ("BindingPattern", "BindingIdentifier"):
                return self.binding()
            if field.kind in ("IdentifierName", "LabelIdentifier", "PrivateIdentifier"):
                return Child(field.kind, name=self.take())
        is_function = self.is_here("function") and field.kind not in DECLARED
        return self.expression() if is_function else self.statement()


# ---- jobs


def rows_of(child, rows):
    """Appends the rows of the node and of all below it, and gives its own number. Its children are named from the last
    to the first, since a row may name its fields in any order."""
    values, children = {}, {}
    for name, value in child.fields.items():
        if isinstance(value, Child):
            children[name] = rows_of(value, rows)
        elif isinstance(value, list) and all(one is None or isinstance(one, Child) for one in value):
            children[name] = [None if one is None else rows_of(one, rows) for one in value]
        else:
            values[name] = value
    rows.append({"type": child.node_type, **values, **dict(reversed(children.items()))})
    return len(rows) - 1


def job_of(program, head):
    """The job that prints the program under this head: its options and its tables."""
    rows = []
    rows_of(Reader(program).program(), rows)
    return json.dumps({**head, "rows": rows}, ensure_ascii=False, separators=(",", ":"))
