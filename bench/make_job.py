"""Writes a job: `make_job.py SIZE [renamed|nested|sum|logical|choices|list|classes|patterns|deep|commented|grouped|templates|pattern|ascii|wide|escapes] [minify]
[uncommented]`.

SIZE is in megabytes. By itself the job holds declarations and statements, blocks and `if` of mixed expressions, a third of
which are literals, unary operations, updates, `new`, and arrays and objects up to six deep, and a fifth of the others
conditionals, sequences, assignments, optional chains and arrow functions. With `renamed` it is the same, with another name for
every reference and every binding by the tables of the job: each binding is a symbol of its own, and each reference has an entry.
With `nested` it holds blocks and `if` a thousand deep and sums nested a thousand to the left and to the right, as often as fill
it. With `sum` it holds 20,000 `+` nested to the left, with `logical` 20,000 `&&` nested to the right, and with `choices` 20,000
conditionals, each the alternate of the one before, as often as fill it; with `list`, one array of 12,500 numbers a megabyte.
With `classes` it holds classes of fields, methods, accessors and static blocks, half of whose members have private names, which
the job's tables rename; with `patterns`, declarations of patterns up to six deep and assignments to such; and with `deep`, in
text whose indentation has no width, classes 10,000 deep, each in a field of the one round it, as often as fill it: each has a
private name of its own and uses that of the next one outwards. With `templates` it is one template of 12,500 pieces a megabyte,
and with `pattern` one regular expression whose pattern has half the job's bytes.
With `commented` it holds short statements with a comment in front of each, and the source that they stand in; with `grouped` a
thousand comments in front of each; with `uncommented` besides, the options let none of them be printed.
With `ascii`, `wide` and `escapes` it is one string as long as the job: of ASCII, of characters of one to four bytes, and
with a quote or another character that needs an escape at every tenth place.
"""
import random
import sys

NAMES = ["a", "total", "index", "lengthOfList", "$", "_private", "größe", "x1"]
TEXTS = ["", "use strict", "it's", 'say \\"so\\"', "`a` and 'b'", "a\\\\b", "${a}", "</script>"]
BINARY = ["+", "-", "*", "/", "%", "**", "==", "!==", "<", ">=", "<<", ">>>", "&", "|", "^", "in", "instanceof"]
LOGICAL = ["&&", "||"]
UNARY = ["+", "-", "!", "~", "typeof", "void"]
ASSIGNMENT = ["=", "+=", "-=", "**=", ">>>=", "&&=", "??="]
RAW = ["1.5", "0.25", "0xff", "1e21", "1_000.5e-7", "3.141592653589793"]
PRIVATE = ["count", "name", "größe", "items", "if", "x"]
DEPTH = 1000
CLASSES = 10000
CHAIN = 20000
NUMBERS = 12500
PIECES = 12500
STRINGS = {
    "ascii": ("abcdefghij klmnop,.", None),
    "wide": ("abcde é日本ß\U0001F600xyz", None),
    "escapes": ("abcdefgh ", ['\\"', "'", "`", "\\n", "\\\\", "\\t", "\\u0000", "</script"]),
}


class Names:
    """The tables by which names are printed."""

    def __init__(self):
        self.symbols = ["renamed%d" % at for at in range(len(NAMES))]
        self.references = []

    def reference(self, name):
        self.references.append(NAMES.index(name))
        return ',"reference":%d' % (len(self.references) - 1)

    def symbol(self):
        self.symbols.append("s%d" % len(self.symbols))
        return ',"symbol":%d' % (len(self.symbols) - 1)

    def head(self):
        symbols = ",".join('"%s"' % name for name in self.symbols)
        return '"symbols":[%s],"references":[%s],' % (symbols, ",".join(map(str, self.references)))


class OwnNames:
    """No tables: names are printed as they are."""

    def reference(self, name):
        return ""

    def symbol(self):
        return ""

    def head(self):
        return ""


class Rows:
    def __init__(self, names):
        self.rows = []
        self.size = 0
        self.names = names
        self.tables = []
        self.comments = []
        self.parts = []
        self.length = 0

    def add(self, text):
        self.rows.append(text)
        self.size += len(text) + 2
        return len(self.rows) - 1

    def name(self, name):
        start = len(self.rows)
        words = start, start + 3, name, self.names.reference(name)
        return self.add('{"type":"IdentifierReference","span":[%d,%d],"name":"%s"%s}' % words)

    def binding(self, name):
        return self.add('{"type":"BindingIdentifier","name":"%s"%s}' % (name, self.names.symbol()))

    def short_name(self):
        return self.add('{"type":"IdentifierReference","name":"a"}')

    def own_name(self, name):
        return self.add('{"type":"IdentifierName","name":"%s"}' % name)

    def private_name(self, name):
        return self.add('{"type":"PrivateIdentifier","name":"%s"}' % name)

    def this_private(self, name):
        this, field = self.add('{"type":"ThisExpression"}'), self.private_name(name)
        return self.add('{"type":"PrivateFieldExpression","object":%d,"field":%d}' % (this, field))

    def of(self, kind, **fields):
        """A row of this type with these fields: numbers and lists of them."""
        given = "".join(',"%s":%s' % (name, str(value).replace("None", "null")) for name, value in fields.items())
        return self.add('{"type":"%s"%s}' % (kind, given))

    def head(self):
        """The tables; that of private names is by the classes in the order of their bodies."""
        private = ",".join("{%s}" % ",".join('"%s":"%s"' % pair for pair in table.items()) for table in self.tables)
        return self.names.head() + ('"private":[%s],' % private if self.tables else "")

    def binary(self, operator, left, right):
        return self.add('{"type":"BinaryExpression","operator":"%s","left":%d,"right":%d}' % (operator, left, right))

    def statement(self, expression):
        return self.add('{"type":"ExpressionStatement","expression":%d}' % expression)

    def block(self, body):
        return self.add('{"type":"BlockStatement","body":[%s]}' % ",".join(map(str, body)))

    def choice(self, test, consequent, alternate=None):
        last = "" if alternate is None else ',"alternate":%d' % alternate
        return self.add('{"type":"IfStatement","test":%d,"consequent":%d%s}' % (test, consequent, last))


def word(rows, draw):
    kind = draw.random()
    if kind < 0.3:
        return rows.add('{"type":"ThisExpression"}')
    if kind < 0.6:
        return rows.add('{"type":"NullLiteral"}')
    return rows.add('{"type":"BooleanLiteral","value":%s}' % draw.choice(["true", "false"]))


def number(rows, draw):
    kind = draw.random()
    if kind < 0.2:
        return rows.add('{"type":"NumericLiteral","kind":"raw","text":"%s"}' % draw.choice(RAW))
    if kind < 0.3:
        return rows.add('{"type":"BigIntLiteral","value":"%d"}' % draw.randrange(10 ** draw.randrange(1, 30)))
    if kind < 0.4:
        return rows.add('{"type":"NumericLiteral","kind":"whole","negative":true,"digits":%d}' % draw.randrange(1, 100))
    return whole(rows, draw)


def whole(rows, draw):
    return rows.add('{"type":"NumericLiteral","kind":"whole","digits":%d}' % draw.randrange(10 ** draw.randrange(1, 12)))


def prop(rows, depth, draw):
    name = rows.add('{"type":"IdentifierName","name":"%s"}' % draw.choice(NAMES))
    value = collection(rows, depth, draw)
    return rows.add('{"type":"ObjectProperty","kind":"init","key":%d,"value":%d}' % (name, value))


def collection(rows, depth, draw):
    """An array or an object of others, so many deep."""
    if depth == 0 or draw.random() < 0.3:
        return draw.choice([word, number, leaf])(rows, draw)
    if draw.random() < 0.5:
        elements = [collection(rows, depth - 1, draw) for _ in range(draw.randrange(4))]
        return rows.add('{"type":"ArrayExpression","elements":[%s]}' % ",".join(map(str, elements)))
    properties = [prop(rows, depth - 1, draw) for _ in range(draw.randrange(4))]
    return rows.add('{"type":"ObjectExpression","properties":[%s]}' % ",".join(map(str, properties)))


def other(rows, depth, draw):
    """A literal, an operation of one operand, a construction, or a collection."""
    kind = draw.random()
    if kind < 0.25:
        return word(rows, draw)
    if kind < 0.5:
        argument = expression(rows, depth - 1, draw)
        return rows.add('{"type":"UnaryExpression","operator":"%s","argument":%d}' % (draw.choice(UNARY), argument))
    if kind < 0.65:
        target, prefix = rows.name(draw.choice(NAMES)), draw.choice(["true", "false"])
        return rows.add('{"type":"UpdateExpression","operator":"++","prefix":%s,"argument":%d}' % (prefix, target))
    if kind < 0.8:
        callee, given = expression(rows, depth - 1, draw), leaf(rows, draw)
        return rows.add('{"type":"NewExpression","callee":%d,"arguments":[%d]}' % (callee, given))
    return collection(rows, 6, draw)


def leaf(rows, draw):
    kind = draw.random()
    if kind < 0.5:
        return rows.name(draw.choice(NAMES))
    if kind < 0.75:
        return number(rows, draw)
    return rows.add('{"type":"StringLiteral","value":"%s"}' % draw.choice(TEXTS))


def parameter(rows, draw):
    """A name, and a value in one of four."""
    name = rows.binding("given%d" % len(rows.rows))
    value = ',"initializer":%d' % leaf(rows, draw) if draw.random() < 0.25 else ""
    return rows.add('{"type":"FormalParameter","pattern":%d%s}' % (name, value))


def arrow(rows, depth, draw):
    items = [parameter(rows, draw) for _ in range(draw.randrange(4))]
    rest = ""
    if draw.random() < 0.25:
        name = rows.binding("others%d" % len(rows.rows))
        rest = ',"rest":%d' % rows.add('{"type":"FormalParameterRest","argument":%d}' % name)
    params = rows.add('{"type":"FormalParameters","items":[%s]%s}' % (",".join(map(str, items)), rest))
    body = expression(rows, depth - 1, draw)
    return rows.add('{"type":"ArrowFunctionExpression","params":%d,"body":%d}' % (params, body))


def two_or_three(rows, depth, draw):
    """A sequence, an assignment, a conditional, a chain, or an arrow function."""
    kind = draw.random()
    if kind > 0.8:
        return arrow(rows, depth, draw)
    first = expression(rows, depth - 1, draw)
    if kind < 0.15:
        return rows.add('{"type":"SequenceExpression","expressions":[%d,%d]}' % (first, expression(rows, depth - 1, draw)))
    if kind < 0.4:
        words = draw.choice(ASSIGNMENT), rows.name(draw.choice(NAMES)), first
        return rows.add('{"type":"AssignmentExpression","operator":"%s","left":%d,"right":%d}' % words)
    if kind < 0.6:
        consequent, alternate = expression(rows, depth - 1, draw), leaf(rows, draw)
        return rows.add('{"type":"ConditionalExpression","test":%d,"consequent":%d,"alternate":%d}' % (first, consequent, alternate))
    name = rows.add('{"type":"IdentifierName","name":"%s"}' % draw.choice(NAMES))
    link = rows.add('{"type":"StaticMemberExpression","object":%d,"optional":true,"property":%d}' % (first, name))
    call = rows.add('{"type":"CallExpression","callee":%d,"arguments":[%d]}' % (link, leaf(rows, draw)))
    return rows.add('{"type":"ChainExpression","expression":%d}' % call)


def expression(rows, depth, draw):
    if depth == 0 or draw.random() < 0.2:
        return leaf(rows, draw)
    if draw.random() < 1 / 3:
        return other(rows, depth, draw)
    if draw.random() < 1 / 5:
        return two_or_three(rows, depth, draw)
    kind = draw.random()
    first = expression(rows, depth - 1, draw)
    if kind < 0.1:
        return rows.add('{"type":"ParenthesizedExpression","expression":%d}' % first)
    if kind < 0.2:
        name = rows.add('{"type":"IdentifierName","name":"%s"}' % draw.choice(NAMES))
        return rows.add('{"type":"StaticMemberExpression","object":%d,"property":%d}' % (first, name))
    second = expression(rows, depth - 1, draw)
    if kind < 0.25:
        return rows.add('{"type":"ComputedMemberExpression","object":%d,"expression":%d}' % (first, second))
    if kind < 0.35:
        return rows.add('{"type":"CallExpression","callee":%d,"arguments":[%d]}' % (first, second))
    if kind < 0.5:
        operator = draw.choice(LOGICAL)
        return rows.add('{"type":"LogicalExpression","operator":"%s","left":%d,"right":%d}' % (operator, first, second))
    return rows.binary(draw.choice(BINARY), first, second)


def simple(rows, draw):
    return rows.statement(expression(rows, 4, draw))


def declaration(rows, draw):
    value = expression(rows, 4, draw)
    name = rows.binding("value%d" % len(rows.rows))
    declarator = rows.add('{"type":"VariableDeclarator","id":%d,"init":%d}' % (name, value))
    return rows.add('{"type":"VariableDeclaration","kind":"const","declarations":[%d]}' % declarator)


def nested_statement(rows, depth, draw):
    kind = draw.random()
    if depth == 0 or kind < 0.4:
        return simple(rows, draw)
    if kind < 0.45:
        return rows.add('{"type":"EmptyStatement"}')
    if kind < 0.7:
        return rows.block([statement(rows, depth - 1, draw) for _ in range(draw.randrange(4))])
    test = expression(rows, 2, draw)
    consequent = nested_statement(rows, depth - 1, draw)
    if kind < 0.85:
        return rows.choice(test, consequent)
    return rows.choice(test, consequent, nested_statement(rows, depth - 1, draw))


def statement(rows, depth, draw):
    if draw.random() < 0.3:
        return declaration(rows, draw)
    return nested_statement(rows, depth, draw)


def function(rows, params, body):
    params = rows.of("FormalParameters", items=params)
    return rows.add('{"type":"Function","kind":"expression","params":%d,"body":%d}' % (params, rows.of("FunctionBody", statements=body)))


def method(rows, kind, key, names, draw):
    """A method or an accessor, which returns a value or gives it to a member."""
    params = []
    if kind == "set":
        params = [rows.of("FormalParameter", pattern=rows.binding("given%d" % len(rows.rows)))]
    elif kind == "method":
        params = [parameter(rows, draw) for _ in range(draw.randrange(3))]
    value = rows.this_private(draw.choice(names)) if draw.random() < 0.5 else expression(rows, 2, draw)
    if kind == "set":
        target = rows.this_private(draw.choice(names))
        body = rows.statement(rows.add('{"type":"AssignmentExpression","operator":"=","left":%d,"right":%d}' % (target, value)))
    else:
        body = rows.of("ReturnStatement", argument=value)
    return rows.add('{"type":"MethodDefinition","kind":"%s","key":%d,"value":%d}' % (kind, key, function(rows, params, [body])))


def member(rows, key, names, draw):
    kind = draw.random()
    if kind < 0.4:
        return rows.of("PropertyDefinition", key=key, value=expression(rows, 3, draw))
    return method(rows, draw.choice(["method", "method", "get", "set"]), key, names, draw)


def one_class(rows, draw):
    names = draw.sample(PRIVATE, draw.randrange(1, 4))
    rows.tables.append({name: "p%d" % at for at, name in enumerate(names)})
    body = [member(rows, rows.private_name(name), names, draw) for name in names]
    body += [member(rows, rows.own_name(draw.choice(NAMES)), names, draw) for _ in names]
    test = rows.of("PrivateInExpression", left=rows.private_name(names[0]), right=leaf(rows, draw))
    body.append(rows.of("StaticBlock", body=[rows.statement(test)]))
    name, body = rows.binding("Class%d" % len(rows.rows)), rows.of("ClassBody", body=body)
    return rows.add('{"type":"Class","kind":"declaration","id":%d,"body":%d}' % (name, body))


def deep_classes(rows):
    """The innermost class first, so each is numbered by how many stand round it."""
    inner, first = rows.this_private("n%d" % (CLASSES - 1)), len(rows.tables)
    for depth in reversed(range(CLASSES)):
        own = rows.of("PropertyDefinition", key=rows.private_name("n%d" % depth), value=rows.this_private("n%d" % max(depth - 1, 0)))
        field = rows.of("PropertyDefinition", key=rows.own_name("a"), value=inner)
        inner = rows.add('{"type":"Class","kind":"expression","body":%d}' % rows.of("ClassBody", body=[own, field]))
    rows.tables[first:] = [{"n%d" % depth: "p%d" % depth} for depth in range(CLASSES)]
    return rows.statement(inner)


# The types of patterns that are bound and of targets, each with the fields of a property, of a default and of the rest.
BOUND = (
    "ObjectPattern", "ArrayPattern",
    ("BindingProperty", "key", "value"), ("AssignmentPattern", "left", "right"), ("BindingRestElement", "argument"),
)
TARGETS = (
    "ObjectAssignmentTarget", "ArrayAssignmentTarget", ("AssignmentTargetPropertyProperty", "name", "binding"),
    ("AssignmentTargetWithDefault", "binding", "init"), ("AssignmentTargetRest", "target"),
)


def pattern(rows, types, depth, draw):
    """A name, or an object or an array of such, so many deep."""
    in_object, in_array, (prop_type, key, value), (default, left, right), (rest, taken) = types

    def name():
        return rows.binding("bound%d" % len(rows.rows)) if types is BOUND else rows.name(draw.choice(NAMES))

    def part():
        inside = pattern(rows, types, depth - 1, draw)
        return rows.of(default, **{left: inside, right: leaf(rows, draw)}) if draw.random() < 0.25 else inside

    if depth == 0 or draw.random() < 0.2:
        return name()
    last = {"rest": rows.of(rest, **{taken: name()})} if draw.random() < 0.125 else {}
    if draw.random() < 0.5:
        elements = [part() if draw.random() < 0.9 else None for _ in range(draw.randrange(1, 4))]
        return rows.of(in_array, elements=elements, **last)
    properties = [rows.of(prop_type, **{key: rows.own_name(draw.choice(NAMES)), value: part()}) for _ in range(draw.randrange(1, 4))]
    return rows.of(in_object, properties=properties, **last)


def destructuring(rows, draw):
    if draw.random() < 0.5:
        target, value = pattern(rows, TARGETS, 6, draw), expression(rows, 2, draw)
        return rows.statement(rows.add('{"type":"AssignmentExpression","operator":"=","left":%d,"right":%d}' % (target, value)))
    declarator = rows.of("VariableDeclarator", id=pattern(rows, BOUND, 6, draw), init=expression(rows, 2, draw))
    return rows.add('{"type":"VariableDeclaration","kind":"const","declarations":[%d]}' % declarator)


def deep_blocks(rows):
    inner = rows.statement(rows.name("a"))
    for _ in range(DEPTH // 2):
        inner = rows.choice(rows.name("a"), rows.block([inner]))
    return inner


def deep_sum(rows, to_the_left):
    inner = rows.name("a")
    for _ in range(DEPTH):
        other = rows.name("b")
        inner = rows.binary("+", inner, other) if to_the_left else rows.binary("+", other, inner)
    return rows.statement(inner)


def long_sum(rows):
    inner = rows.short_name()
    for _ in range(CHAIN):
        inner = rows.binary("+", inner, rows.short_name())
    return rows.statement(inner)


def long_logical(rows):
    inner = rows.short_name()
    for _ in range(CHAIN):
        inner = rows.add('{"type":"LogicalExpression","operator":"&&","left":%d,"right":%d}' % (rows.short_name(), inner))
    return rows.statement(inner)


def long_choices(rows):
    inner = rows.short_name()
    for _ in range(CHAIN):
        parts = rows.short_name(), rows.short_name(), inner
        inner = rows.add('{"type":"ConditionalExpression","test":%d,"consequent":%d,"alternate":%d}' % parts)
    return rows.statement(inner)


CHAINS = {"sum": long_sum, "logical": long_logical, "choices": long_choices, "deep": deep_classes}
DRAWN = {"classes": one_class, "patterns": destructuring}


def long_list(rows, count, draw):
    numbers = [whole(rows, draw) for _ in range(count)]
    return rows.statement(rows.add('{"type":"ArrayExpression","elements":[%s]}' % ",".join(map(str, numbers))))


def long_string(kind, wanted, draw):
    letters, escapes = STRINGS[kind]
    part = "".join(draw.choice(escapes) if escapes and i % 10 == 9 else draw.choice(letters) for i in range(1000))
    return part * (wanted // len(part.encode()))


def string_statement(rows, kind, wanted, draw):
    callee = rows.name("f")
    string = rows.add('{"type":"StringLiteral","value":"%s"}' % long_string(kind, wanted, draw))
    return rows.statement(rows.add('{"type":"CallExpression","callee":%d,"arguments":[%d]}' % (callee, string)))


# One template whose pieces have some eighty characters each, with a name between two of them.
def template_statement(rows, megabytes):
    text = "a piece of text, \\\\n $ \\\\` and </script> too, as templates have it here and there "
    cooked = text.replace("\\\\n", "\\n").replace("\\\\`", "`")
    count = megabytes * PIECES
    quasis = [rows.add('{"type":"TemplateElement","raw":"%s","cooked":"%s"}' % (text, cooked)) for _ in range(count)]
    names = [rows.short_name() for _ in range(count - 1)]
    fields = ",".join(map(str, quasis)), ",".join(map(str, names))
    return rows.statement(rows.add('{"type":"TemplateLiteral","quasis":[%s],"expressions":[%s]}' % fields))


# One pattern of half so many bytes as a job of this size has.
def pattern_statement(rows, megabytes):
    pattern = "[a-z/]\\\\/x*" * (megabytes * 500000 // 12)
    return rows.statement(rows.add('{"type":"RegExpLiteral","pattern":"%s","flags":"gu"}' % pattern))


# A comment in front of each statement, and a thousand in front of each.
COMMENTS = {"commented": 1, "grouped": 1000}
COMMENT = "// what the next line does, in some words"


def commented_statement(rows, count):
    at = rows.length
    name = at + count * (len(COMMENT) + 1)
    fields = '"kind":"line","content":"normal","leading":true,"attached_to":%d,"preceded_by_newline":true,"followed_by_newline":true' % name
    for start in range(at, name, len(COMMENT) + 1):
        rows.comments.append(rows.add('{"type":"Comment","span":[%d,%d],%s}' % (start, start + len(COMMENT), fields)))
    rows.parts.append((COMMENT + "\n") * count + "abc;\n")
    rows.length = name + len("abc;\n")
    expression = rows.add('{"type":"IdentifierReference","span":[%d,%d],"name":"abc"}' % (name, name + 3))
    return rows.add('{"type":"ExpressionStatement","span":[%d,%d],"expression":%d}' % (name, name + 4, expression))


ALONE = {"templates": template_statement, "pattern": pattern_statement}


def body_of(rows, kind, megabytes, draw):
    wanted, body = megabytes * 1000000, []
    if kind in ALONE:
        return [ALONE[kind](rows, megabytes)]
    if kind in STRINGS:
        return [string_statement(rows, kind, wanted, draw)]
    if kind == "list":
        return [long_list(rows, megabytes * NUMBERS, draw)]
    while rows.size < wanted:
        if kind in CHAINS:
            body.append(CHAINS[kind](rows))
        elif kind in DRAWN:
            body.append(DRAWN[kind](rows, draw))
        elif kind in COMMENTS:
            body.append(commented_statement(rows, COMMENTS[kind]))
        elif kind == "nested":
            body += [deep_blocks(rows), deep_sum(rows, True), deep_sum(rows, False)]
        else:
            body.append(statement(rows, 4, draw))
    return body


def main():
    words = sys.argv[2:]
    kind = next((it for it in words if it in ("renamed", "nested", *CHAINS, "list", *DRAWN, *COMMENTS, *ALONE, *STRINGS)), "mixed")
    rows = Rows(Names() if kind == "renamed" else OwnNames())
    body = body_of(rows, kind, int(sys.argv[1]), random.Random(1))
    numbers = ",".join(map(str, body)), ",".join(map(str, rows.comments)), "".join(rows.parts).replace("\n", "\\n")
    rows.add('{"type":"Program","kind":"module","body":[%s],"comments":[%s],"source":"%s"}' % numbers)
    given = ['"minify":true'] * ("minify" in words) + ['"indent_width":0'] * (kind == "deep") + ['"normal":false'] * ("uncommented" in words)
    options = '"options":{%s},' % ",".join(given) if given else ""
    sys.stdout.write("{%s%s\"rows\":[" % (options, rows.head()) + ",\n".join(rows.rows) + "]}\n")


main()
