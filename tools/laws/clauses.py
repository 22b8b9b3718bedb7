"""The lemma of a family, a clause a production: what is read as a tree of which Free holds has plain tokens.

The tokens of a production are put together of tokens that are plain by themselves and of variables. What a variable stands for a
premise tells: it is read by a family, it is other tokens, or it is these but for a semicolon."""

import re

from grammar import expanded
from terms import head, shown

# What is asked of an index of this kind.
FREE = {"Tree": "Free", "Trees": "FreeTrees", "Maybe": "FreeMaybe"}

# A template behind its tag, and the pieces of one: Free holds of no tree that they stand in. A program, which may have a hashbang,
# that isn't among the tokens: what is said of it stands in Plainness.antt.
LEFT_OUT = ("ReadsTemplate", "ReadsPieces", "ReadsProgram")

# The types of which Free doesn't hold, and those of which it says something of their own (Free.antt).
REFUSED = ("types.PrivateIdentifier", "types.Hashbang", "types.RegExpLiteral", "types.TaggedTemplateExpression")
TEMPLATE = "types.TemplateLiteral"
PROGRAM = "types.Program"

# Names of indices, by their kind.
INDICES = {"Allowed": "c", "Level": "level", "Tokens": "ts", "Tree": "t", "Trees": "us", "Maybe": "m", "Bool": "b", "List ℕ": "w"}


def lemma_of(family):
    return "plain_" + re.sub(r"(?<!^)(?=[A-Z])", "_", family.removeprefix("Reads")).lower()


def place_of_tokens(family):
    return family.kinds.index("Tokens")


def places_of_trees(family):
    return [at for at, kind in enumerate(family.kinds) if kind in FREE]


def named(kinds):
    """A name for each index."""
    names = []
    for kind in kinds:
        name = INDICES.get(kind, "kind")
        names.append(name + (str(1 + sum(k == kind for k in kinds[: len(names)])) if kinds.count(kind) > 1 else ""))
    return names


def lemma(family, by_name, names):
    """The signature of a family's lemma, and its clauses."""
    indices = named(family.kinds)
    bound = " ".join(f"{{{name} : {kind}}}" for name, kind in zip(indices, family.kinds))
    asked = [f"{FREE[family.kinds[at]]} {indices[at]}" for at in places_of_trees(family)]
    says = [f"{family.name} {' '.join(indices)}", *asked, f"are_plain {indices[place_of_tokens(family)]} ≡ true"]
    clauses = [Clause(family, production, by_name, names).line() for production in family.productions]
    return [f"pub {lemma_of(family.name)} : {bound} → {' → '.join(says)}", *clauses]


class Clause:
    def __init__(self, family, production, by_name, names):
        self.family, self.production, self.by_name, self.names = family, production, by_name, names
        self.trees = {f"h{n}": production.indices[at] for n, at in enumerate(places_of_trees(family), 1)}
        # where it is said that Free holds of a variable; `refused` is where it can't hold, and `template` where it is said of a template,
        # with its first piece
        self.said = {}
        self.refused = self.template = None
        for name, found in self.trees.items():
            self.look(expanded(found, names), name)
        self.open = []

    def line(self):
        production = self.production
        text = self.reason()
        used = set(re.findall(r"\w+", text))
        hidden = [f"{{{name} = {name}}}" for name in production.hidden if name in used]
        premises = [f"r{n}" for n in range(1, len(production.premises) + 1)]
        given = [name if name in used else "_" for name in [*production.given, *premises]]
        there = " ".join([f"grammar.{production.name}", *hidden, *given])
        asked = "".join(f" {name if name in used else '_'}" for name in self.trees)
        return f"{lemma_of(self.family.name)} {f'({there})' if hidden or given else there}{asked} = {text}"

    def reason(self):
        if self.refused:
            return f"absurd {self.refused}"
        if self.template:
            [pieces] = [n for n, premise in enumerate(self.production.premises, 1) if head(premise) == "ReadsPieces"]
            where, first = self.template
            return f"absurd (no_pieces {shown(first, True)} r{pieces} {where})"
        return self.plain(self.production.indices[place_of_tokens(self.family)])

    # ---- what is said of trees

    def look(self, found, where):
        """Goes through a tree, its children or a list, of which Free holds by the term `where`."""
        first = head(found)
        if first == "node":
            _, kind, _, children = found
            if kind in REFUSED:
                self.refused = where
            elif kind == TEMPLATE:
                self.template = (where, children[1][1])
            elif kind == PROGRAM:
                self.look_in_program(children, where)
            else:
                self.look(children, where)
        elif first in ("one", "maybe", "many", "maybe_many", "more"):
            self.look(found[1], f"{where}.0")
            self.look(found[2], f"{where}.1")
        elif first in ("given", "listed", "hole"):
            self.look(found[1], where)
        elif isinstance(found, str):
            self.said.setdefault(found, where)
        else:
            raise SystemExit(f"{self.production.name}: no tree: {shown(found)}")

    def look_in_program(self, children, where):
        _, _, (_, hashbang, (_, directives, (_, body, _))) = children
        self.look(hashbang, f"{where}.0")
        self.look(directives, f"{where}.1")
        self.look(body, f"{where}.2")

    def free(self, found):
        """Why Free holds of a tree, a list or what may be one."""
        found = expanded(found, self.names)
        if head(found) == "given":
            return self.free(found[1])
        if found in ("absent", "no_trees"):
            return "tt"
        if found in self.said:
            return self.said[found]
        for n, premise in enumerate(self.production.premises, 1):
            if head(premise) == "≡" and premise[1] == ("simple_target", found):
                target = premise[2][1]
                return f"(target_free {found} {target} r{n} {self.free(target)})"
        raise SystemExit(f"{self.production.name}: nothing says that Free holds of {shown(found)}")

    # ---- why tokens are plain

    def plain(self, tokens):
        first = head(tokens)
        if tokens == "done":
            return "refl"
        if isinstance(tokens, str):
            return self.plain_variable(tokens)
        if first == "⧺":
            return f"plain_then {shown(tokens[1], True)} {shown(tokens[2], True)} {inner(self.plain(tokens[1]))} {inner(self.plain(tokens[2]))}"
        if first == "group":
            inside, behind = tokens[3:]
            return f"and_from (are_plain {shown(inside, True)}) (are_plain {shown(behind, True)}) {inner(self.plain(inside))} {inner(self.plain(behind))}"
        if first == "piece":
            return self.plain_piece(tokens[2], tokens[3])
        raise SystemExit(f"{self.production.name}: no tokens: {shown(tokens)}")

    def plain_piece(self, piece, behind):
        reason = self.plain(behind)
        if head(piece) in ("Word", "Number", "Quoted", "Sign"):
            return reason
        if head(piece) in ("operator_piece", "unary_piece"):
            return f"and_from (is_plain_piece {shown(piece, True)}) (are_plain {shown(behind, True)}) ({head(piece)[:-6]}_plain {shown(piece[1], True)}) {inner(reason)}"
        raise SystemExit(f"{self.production.name}: no plain token: {shown(piece)}")

    def plain_variable(self, name):
        if name in self.open:
            raise SystemExit(f"{self.production.name}: {name} stands for itself")
        self.open.append(name)
        reason = self.first_reason(name)
        self.open.pop()
        return reason

    def first_reason(self, name):
        for n, premise in enumerate(self.production.premises, 1):
            first = head(premise)
            family = self.by_name.get(first)
            if family and premise[1 + place_of_tokens(family)] == name:
                return " ".join([lemma_of(first), f"r{n}", *(self.free(premise[1 + at]) for at in places_of_trees(family))])
            if first == "≡" and premise[1] == name and head(premise[2]) in ("⧺", "piece", "group"):
                return f"subst (λ tokens. are_plain tokens ≡ true) (sym r{n}) {inner(self.plain(premise[2]))}"
            if first == "EndsBy" and premise[2] == name:
                return f"plain_end r{n} {inner(self.plain(premise[3]))}"
        raise SystemExit(f"{self.production.name}: nothing says what {name} stands for")


def inner(text):
    return text if re.fullmatch(r"[\w.]+", text) else f"({text})"
