"""The code of a crate as tokens: functions with their bodies, constants, records and enumerations. Contracts are passed over."""

import re
from collections import namedtuple

Token = namedtuple("Token", "kind text at")
Function = namedtuple("Function", "name params result body")  # params: (name, type); body: tokens between the braces
Constant = namedtuple("Constant", "name type public value")  # value: its tokens
Source = namedtuple("Source", "path text tokens functions constants records enums")

TOKEN = re.compile(
    r"""(?P<blank>\s+|//[^\n]*)
      | (?P<string>b?"(?:[^"\\]|\\.)*")
      | (?P<char>b?'(?:[^'\\]|\\.)[^']*'(?!\w))
      | (?P<life>'\w+)
      | (?P<number>\d[\d_]*(?:[iu](?:8|16|32|64|size))?)
      | (?P<name>[^\W\d]\w*)
      | (?P<mark><=|>=|==|!=|&&|\|\||->|=>|::|\.\.|\+=|-=|\*=|/=|%=|.)""",
    re.VERBOSE | re.DOTALL,
)
CLOSING = {"(": ")", "[": "]", "{": "}"}


def tokens_of(text):
    return [Token(m.lastgroup, m.group(), m.start()) for m in TOKEN.finditer(text) if m.lastgroup != "blank"]


def closing(tokens, i):
    """The index of the bracket that closes the one at i."""
    opening, depth = tokens[i].text, 0
    for j in range(i, len(tokens)):
        if tokens[j].text == opening:
            depth += 1
        elif tokens[j].text == CLOSING[opening]:
            depth -= 1
            if depth == 0:
                return j
    raise ValueError("a bracket is not closed")


def parts(tokens):
    """The tokens between commas that stand in no bracket."""
    found, start, depth = [], 0, 0
    for i, t in enumerate(tokens):
        if t.text in "([{":
            depth += 1
        elif t.text in ")]}":
            depth -= 1
        elif t.text == "," and depth == 0:
            found.append(tokens[start:i])
            start = i + 1
    found.append(tokens[start:])
    return [p for p in found if p]


def spelled(tokens):
    return " ".join(t.text for t in tokens)


def named(tokens):
    """(name, type) of a parameter or a field."""
    words = [t for t in tokens if t.text not in ("pub", "mut")]
    return words[0].text, spelled(words[2:])


def function_at(tokens, i):
    """The function whose word `fn` is at i, and the index after it."""
    name = tokens[i + 1].text
    j = i + 2
    while tokens[j].text != "(":
        j += 1
    end = closing(tokens, j)
    params = [named(p) for p in parts(tokens[j + 1 : end])]
    j = end + 1
    result = ""
    if tokens[j].text == "->":
        start = j + 1
        while tokens[j].text not in ("{", "requires", "ensures"):
            j += 1
        result = spelled(tokens[start:j])
    while tokens[j].text in ("requires", "ensures"):
        while tokens[j].text != "{":
            j += 1
        j = closing(tokens, j) + 1
    end = closing(tokens, j)
    return Function(name, params, result, tokens[j + 1 : end]), end + 1


def read(path, text):
    tokens = tokens_of(text)
    functions, constants, records, enums = [], [], {}, {}
    i = 0
    while i < len(tokens):
        word = tokens[i].text
        if word == "ghost":
            while tokens[i].text != ";":
                i += 1
        elif word == "fn":
            function, i = function_at(tokens, i)
            functions.append(function)
            continue
        elif word == "const":
            end = next(j for j in range(i, len(tokens)) if tokens[j].text == ";")
            sign = next(j for j in range(i, end) if tokens[j].text == "=")
            public = i > 0 and tokens[i - 1].text == "pub"
            constants.append(Constant(tokens[i + 1].text, spelled(tokens[i + 3 : sign]), public, tokens[sign + 1 : end]))
            i = end
        elif word in ("struct", "enum"):
            end = closing(tokens, i + 2)
            inside = parts(tokens[i + 3 : end])
            if word == "struct":
                records[tokens[i + 1].text] = [named(p) for p in inside]
            else:
                enums[tokens[i + 1].text] = [(p[0].text, spelled(p[1:])) for p in inside]
            i = end
        i += 1
    return Source(path, text, tokens, functions, constants, records, enums)
