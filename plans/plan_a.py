"""Plan A and Plan B of document 01, read from their definition, crates/table/specs/PlanA.antt.

words("plan_a") is Plan A's table, words("plan_a", {"revision": 1, "offset_2": 576}) the same with other numbers of PlanNumbers, and rows(..) its records one by one.
"""

import re
from pathlib import Path

DEFINITION = Path(__file__).resolve().parent.parent / "crates" / "table" / "specs" / "PlanA.antt"


class Text:
    """What stands after the = of a definition, read from left to right: numbers, names, sums, fields, applications, records and lists."""

    def __init__(self, text, scope):
        self.tokens = re.findall(r"\.?[\w-]+|[(){};=+∷]|\[\]", text)
        self.scope = scope

    def next_is(self, *tokens):
        return bool(self.tokens) and self.tokens[0] in tokens

    def take(self, token=None):
        taken = self.tokens.pop(0)
        if token not in (None, taken):
            raise SyntaxError(f"{DEFINITION}: '{taken}' where '{token}' is expected")
        return taken

    def list(self):
        items = [self.sum()]
        while self.next_is("∷"):
            self.take()
            if self.next_is("[]"):
                self.take()
                return items
            items.append(self.sum())
        return items[0]

    def sum(self):
        value = self.applied()
        while self.next_is("+"):
            self.take()
            value += self.applied()
        return value

    def applied(self):
        value, given = self.atom(), []
        while self.tokens and (self.tokens[0][0] in ".(" or re.match(r"\w", self.tokens[0])):
            if self.tokens[0][0] == ".":
                value = value[self.take()[1:]]
            else:
                given.append(self.atom())
        return value(*given) if given else value

    def atom(self):
        token = self.take()
        if token == "(":
            value = self.list()
            self.take(")")
            return value
        if token == "record":
            return self.record()
        return int(token) if token.isdigit() else self.scope[token]

    def record(self):
        fields = {}
        self.take("{")
        while not self.next_is("}"):
            name = self.take()
            self.take("=")
            fields[name] = self.sum()
            if self.next_is(";"):
                self.take()
        self.take("}")
        return fields


class Definitions(dict):
    """The definitions of the file, by their names, each read when it is asked for."""

    def __init__(self):
        super().__init__()
        found = re.findall(r"^abbrev pub \w+ : .*\n(\w+)((?: \w+)*) =(.*\n(?:    .*\n)*)", DEFINITION.read_text(), re.M)
        self.known = {name: (names.split(), body) for name, names, body in found}

    def __missing__(self, name):
        names, body = self.known[name]
        read = lambda *given: Text(body, Given(self, zip(names, given))).list()
        return read if names else read()


class Given(dict):
    """What the names of a definition stand for, and all definitions."""

    def __init__(self, definitions, given):
        super().__init__(given)
        self.definitions = definitions

    def __missing__(self, name):
        return self.definitions[name]


def rows(name, numbers=None):
    """Gives the records of a plan: what stands in a line of plan_with is one."""
    definitions = Definitions()
    definitions["plan_with"] = lambda n: n
    n = {**definitions[name], **(numbers or {})}
    lines = definitions.known["plan_with"][1].strip().split("\n")
    return [Text(line.replace("[]", "").rstrip(" ∷") + " ∷ []", {"n": n}).list() for line in lines]


def words(name, numbers=None):
    return sum(rows(name, numbers), [])


def encoded(word):
    """Gives a number's bytes: seven bits each, the lowest first."""
    head = []
    while word > 127:
        head.append(word % 128 + 128)
        word //= 128
    return bytes([*head, word])


def file(name, numbers=None):
    return b"".join(map(encoded, words(name, numbers)))
