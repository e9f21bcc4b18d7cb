"""The mutants of a crate: one small change each. Calls, branches and their order stay, so that the proof still fits the code."""

import re
from collections import namedtuple

from source import closing, parts, spelled

# place: function or constant; at, old, new: the text that is replaced; line and column count from 1
Mutant = namedtuple("Mutant", "crate file place kind at old new line column")

# No change that is none of a number that is never negative: `x != 0` is `x > 0`, and `i < n` is `i != n` while i goes up to n.
COMPARED = {
    "<": ("<=", ">=", "=="),
    "<=": ("<", ">"),
    ">": (">=", "<="),
    ">=": (">", "<"),
    "==": ("!=", ">="),
    "!=": ("==", "<"),
}
COMPUTED = {
    "+": "-*",
    "-": "+",
    "*": "+",
    "/": "*%",
    "%": "/",
    "+=": ("-=",),
    "-=": ("+=",),
    "*=": ("+=",),
    "/=": ("*=",),
    "%=": ("/=",),
}
JOINED = {"&&": ("||",), "||": ("&&",)}
SIGNS = (("comparison", COMPARED), ("arithmetic", COMPUTED), ("logic", JOINED))
ASSIGNED = ("=", "+=", "-=", "*=", "/=", "%=")


def identity(m):
    return f"{m.crate}/{m.file}:{m.line}:{m.column}:{m.place}:{' '.join(m.old.split())} -> {' '.join(m.new.split())}"


def numbers_near(text):
    digits = re.match(r"[\d_]+", text).group()
    value, suffix = int(digits.replace("_", "")), text[len(digits) :]
    near = [value + 1] + ([value - 1] if value > 0 else [])
    return [f"{n}{suffix}" for n in near]


def next_alike(pairs, name):
    """The next name, going round, of the same type among (name, type); none where no other has it."""
    types = dict(pairs)
    alike = [n for n, t in pairs if t == types.get(name)]
    if len(alike) < 2:
        return None
    return alike[(alike.index(name) + 1) % len(alike)]


class Names:
    """What is declared in the repository: functions, records, enumerations and constants by name; a crate's own come first."""

    def __init__(self, sources):  # {crate: [Source]}
        self.sources = sources

    def _all(self, crate):
        yield from self.sources[crate]
        for other, files in self.sources.items():
            if other != crate:
                yield from files

    def parameters(self, crate, function):
        for s in self._all(crate):
            for f in s.functions:
                if f.name == function:
                    return [t for _, t in f.params]
        return None

    def record(self, crate, name):
        return next((s.records[name] for s in self._all(crate) if name in s.records), None)

    def field_alike(self, crate, field):
        for s in self._all(crate):
            for fields in s.records.values():
                other = next_alike(fields, field) if field in dict(fields) else None
                if other:
                    return other
        return None

    def enum(self, crate, name):
        return next((s.enums[name] for s in self._all(crate) if name in s.enums), None)

    def constants(self, crate, name):
        for s in self._all(crate):
            pairs = [(c.name, c.type) for c in s.constants]
            if name in dict(pairs):
                return pairs
        return None


class Changes:
    def __init__(self, crate, source, names):
        self.crate, self.source, self.names = crate, source, names
        self.found = []
        for f in source.functions:
            self.place, self.body = f.name, f.body
            self.values(f.body)
            self.signs()
            self.branches()
            self.swaps()
            self.uses(f.params)
        for c in source.constants:
            self.place, self.body = c.name, c.value
            self.values(c.value)

    def add(self, kind, at, old, new):
        before = self.source.text[:at]
        line = before.count("\n") + 1
        column = at - (before.rfind("\n") + 1) + 1
        self.found.append(Mutant(self.crate, self.source.path, self.place, kind, at, old, new, line, column))

    def span(self, tokens):
        return self.source.text[tokens[0].at : tokens[-1].at + len(tokens[-1].text)]

    def exchange(self, kind, a, b):
        """Two pieces of the text for each other."""
        first, second = self.span(a), self.span(b)
        if first == second:
            return
        start, end = a[0].at, b[-1].at + len(b[-1].text)
        between = self.source.text[a[-1].at + len(a[-1].text) : b[0].at]
        self.add(kind, start, self.source.text[start:end], second + between + first)

    def values(self, tokens):
        for i, t in enumerate(tokens):
            if t.kind == "number":
                # a length in an array's type or value is part of its type
                if i >= 1 and tokens[i - 1].text == ";" and i + 1 < len(tokens) and tokens[i + 1].text == "]":
                    continue
                for new in numbers_near(t.text):
                    self.add("constant", t.at, t.text, new)
            elif t.kind == "char" and len(t.text) == 4 and t.text[2].isalnum():
                self.add("constant", t.at, t.text, f"b'{chr(ord(t.text[2]) + 1)}'")
            elif t.text in ("true", "false"):
                self.add("constant", t.at, t.text, "false" if t.text == "true" else "true")

    def signs(self):
        for before, t in zip(self.body, self.body[1:]):
            if before.kind not in ("name", "number") and before.text not in (")", "]"):
                continue
            if before.text in ("return", "if", "while", "match", "in", "else"):
                continue
            for kind, table in SIGNS:
                for new in table.get(t.text, ()):
                    self.add(kind, t.at, t.text, new)

    def branches(self):
        """Conditions that are no comparison."""
        for i, t in enumerate(self.body):
            if t.text not in ("if", "while"):
                continue
            end = next(j for j in range(i, len(self.body)) if self.body[j].text == "{")
            condition = self.body[i + 1 : end]
            if any(c.text in COMPARED or c.text in JOINED for c in condition):
                continue
            if condition[0].text == "!":
                self.add("branch", condition[0].at, "!", "")
            else:
                self.add("branch", condition[0].at, condition[0].text, "!" + condition[0].text)

    def swaps(self):
        """Neighbouring arguments, and neighbouring fields of a record's value, of equal type."""
        for i, t in enumerate(self.body[:-1]):
            if t.kind != "name":
                continue
            opening = self.body[i + 1].text
            if opening == "(":
                inside = parts(self.body[i + 2 : closing(self.body, i + 1)])
                types = self.names.parameters(self.crate, t.text)
                if types and len(types) == len(inside):
                    for k in range(len(inside) - 1):
                        if types[k] == types[k + 1]:
                            self.exchange("swap", inside[k], inside[k + 1])
            elif opening == "{":
                fields = self.names.record(self.crate, t.text)
                if not fields:
                    continue
                inside = parts(self.body[i + 2 : closing(self.body, i + 1)])
                values = [(p[0].text, p[2:]) for p in inside if len(p) > 2]
                types = dict(fields)
                for (a, x), (b, y) in zip(values, values[1:]):
                    if types.get(a) == types.get(b):
                        self.exchange("swap", x, y)

    def uses(self, params):
        """A name where another of its type would do: parameters, fields, variants, constants."""
        last = len(self.body) - 1
        for i, t in enumerate(self.body):
            if t.kind != "name":
                continue
            before = self.body[i - 1].text if i else ""
            after = self.body[i + 1].text if i < last else ""
            if after in ASSIGNED or after in (":", "(") or before in ("let", "mut"):
                if not (before == "::" and after == "("):
                    continue
            if before == ".":
                new = self.names.field_alike(self.crate, t.text)
                if new:
                    self.add("name", t.at, t.text, new)
            elif before == "::":
                self.variant(i, t)
            elif after != "::" and dict(params).get(t.text):
                new = next_alike(params, t.text)
                if new:
                    self.add("name", t.at, t.text, new)

    def variant(self, i, t):
        owner = self.body[i - 2].text
        for pairs in (self.names.enum(self.crate, owner), self.names.constants(self.crate, t.text)):
            new = next_alike(pairs, t.text) if pairs and t.text in dict(pairs) else None
            if new:
                self.add("name", t.at, t.text, new)


def mutants(crate, sources):
    """All mutants of a crate, in the order of its files."""
    names = Names(sources)
    return [m for s in sources[crate] for m in Changes(crate, s, names).found]
