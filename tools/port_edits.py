#!/usr/bin/env python3
"""Brings the must-fail edits of an older Rattle to today's spelling, once, for the port: at the top of the repository,

    python3 tools/port_edits.py [NAME..]

Each edit of LANDED (or of LATER, where it is newer) whose old texts do not each stand once in today's files is written anew: the line that it
changes is turned to today's spelling before and after the change, the difference of the two is made in the line of today's file that is most like
it, and what stood there and what comes there are the new pair. What it cannot bring over so is printed, with the lines, for a hand. An edit whose
old texts each stand once is left alone, so an edit that a hand has brought over stays; its words that are not today's are printed.
`--list` only says of each edit whether its old texts stand once."""
import difflib
import glob
import os
import re
import subprocess
import sys

HERE = os.path.dirname(os.path.abspath(__file__))
LANDED = "2ea0ee5a"
LATER = "421ec87c"

# words of the library that the older Rattle spelled otherwise
WORDS = {"getD": "get_or", "sumBy": "sum_by", "vec-len": "length", "valueOr": "value_or"}
OPERATOR = re.compile(r"^_(\S+)_$")
TOKEN = re.compile(r"λ|[A-Za-z_][A-Za-z0-9_'′₀-₉-]*|_[^\sA-Za-z0-9(){}\[\],;.]+_|[0-9]+|[(){}\[\],;.⌜⌝:·]|[^\sA-Za-z0-9(){}\[\],;.⌜⌝:·]+|\s+")
ATOM = re.compile(r"^([A-Za-z0-9_'₀-₉⊥∞θτ-]+|\))$")


def read_table():
    with open(os.path.join(HERE, "respell_names.tsv"), encoding="utf-8") as lines:
        table = dict(line.rstrip("\n").split("\t") for line in lines if "\t" in line)
    return {**table, **WORDS}


TABLE = read_table()


def words_of_today():
    """The words of today's code and definitions."""
    found = set()
    for kind in ("src/*.rt", "specs/*.antt"):
        for path in glob.glob(os.path.join(os.path.dirname(HERE), "crates", "*", kind)):
            with open(path, encoding="utf-8") as text:
                found.update(re.findall(r"[A-Za-z_][A-Za-z0-9_'₀-₉-]*", text.read()))
    return found


TODAY = words_of_today()


def snake(name):
    return re.sub(r"(?<=[a-z0-9₀-₉])([A-Z])", lambda m: "_" + m.group(1).lower(), name.replace("-", "_"))


def tokens(text):
    return TOKEN.findall(text)


def solid(text):
    """The tokens that are no blanks."""
    return [t for t in tokens(text) if not t.isspace()]


def word(token):
    """A word in today's spelling."""
    op = OPERATOR.match(token)
    if op and not re.match(r"^\w", op.group(1)):
        return f"◌{op.group(1)}◌"
    token = token.replace("′", "'")
    if token not in TABLE and re.match(r"[a-z]", token) and token not in TODAY and snake(token) in TODAY:
        return snake(token)
    return TABLE.get(token, token)


def closing_to_open(text, end):
    """The place of the bracket that the one at `end` closes, or None."""
    depth = 0
    for at in range(end, -1, -1):
        depth += {")": 1, "(": -1}.get(text[at], 0)
        if depth == 0:
            return at
    return None


def tight(text):
    """Projections 'f x .field' as '(f x).field' and 'x .field' as 'x.field'; a bracket around one alone goes."""
    while True:
        m = re.search(r"(?<=[^\s(]) \.([A-Za-z0-9_][A-Za-z0-9_'-]*)", text)
        if not m:
            break
        # the atoms of the application that stands before
        at = m.start()
        start = at
        atoms = 0
        while True:
            before = text[:start].rstrip(" ")
            if not before or (atoms and len(text[:start]) == len(before)):
                break
            if before.endswith(")"):
                opened = closing_to_open(before, len(before) - 1)
                if opened is None:
                    break
                begin = opened
            else:
                w = re.search(r"[A-Za-z0-9_'.₀-₉θτ⊥-]+$", before)
                if not w or before[w.start() : w.end()].endswith(".") or re.match(r"^-+$", w.group(0)) or w.group(0) in ("let", "in", "where", "ensures", "requires", "unless"):
                    break
                begin = w.start()
                # a projection of what is in brackets, written tight already
                while begin and w.group(0).startswith(".") and before[begin - 1] == ")":
                    opened = closing_to_open(before, begin - 1)
                    if opened is None:
                        break
                    begin = opened
                    w = re.match(r"\(", "(")
                    break
            start = begin
            atoms += 1
        whole = text[start:at]
        if atoms > 1:
            whole = f"({whole})"
        text = text[:start] + whole + "." + m.group(1) + text[m.end() :]
    # '(x.f)' as an argument, '(now x)', and a bracket around one path
    text = re.sub(r"(?<![A-Za-z0-9_'₀-₉.)])\(([A-Za-z][A-Za-z0-9_'-]*(?:\.[A-Za-z0-9_'-]+)+)\)(?!\.)", r"\1", text)
    # '((f x).g)' as an argument
    at = 0
    while (at := text.find("((", at)) >= 0:
        inner = open_to_closing(text, at + 1)
        m = inner is not None and re.match(r"(?:\.[A-Za-z0-9_'-]+)+\)(?!\.)", text[inner + 1 :])
        if m and (at == 0 or text[at - 1] in " ("):
            text = text[:at] + text[at + 1 : inner + m.end()] + text[inner + 1 + m.end() :]
        else:
            at += 1
    return text


def open_to_closing(text, start):
    """The place of the bracket that closes the one at `start`, or None."""
    depth = 0
    for at in range(start, len(text)):
        depth += {"(": 1, ")": -1}.get(text[at], 0)
        if depth == 0:
            return at
    return None


def turned(text):
    """A line of the older Rattle in today's spelling."""
    text = re.sub(r"\bensures( [A-Za-z0-9_-]+)? \{ λ ([A-Za-z_]\w*)\. ⌜ ", lambda m: f"ensures{m.group(1) or ''} {{ \0{m.group(2)}\0", text)
    bound = re.search("\0(\\w+)\0", text)
    text = re.sub("\0(\\w+)\0", "", text)
    if bound and bound.group(1) != "_":
        text = re.sub(rf"(?<![\w.-]){bound.group(1)}(?![\w-])", "result", text)
    text = text.replace("⌜ ", "").replace(" ⌝", "")
    text = re.sub(r"\(now \(([a-z_]\w*) \.entry\)\)", r"\1.old", text)
    text = re.sub(r"\(now \(([a-z_]\w*) \.exit\)\)", r"\1.new", text)
    text = re.sub(r"\bnow \(([a-z_]\w*) \.entry\)", r"\1.old", text)
    text = re.sub(r"\bnow \(([a-z_]\w*) \.exit\)", r"\1.new", text)
    text = re.sub(r"\(now ([a-z_]\w*)\)", r"\1.now", text)
    text = text.replace("Rattle·", "Rattle.")
    text = "".join(word(t) for t in tokens(text))
    return tight(text)


def shown(commit, path):
    got = subprocess.run(["git", "show", f"{commit}:{path}"], cwd=os.path.dirname(HERE), capture_output=True, text=True, check=False)
    return got.stdout if got.returncode == 0 else None


def pairs_of(text):
    """The comment lines of an edit, and its pairs (file, old, new)."""
    notes, pairs, file, old = [], [], None, None
    for line in text.split("\n"):
        if line.startswith("file: "):
            file = line[6:]
        elif line.startswith("old: "):
            old = line[5:]
        elif line.startswith("new:"):
            pairs.append((file, old, line[4:].removeprefix(" ")))
        elif line.strip():
            notes.append(line)
    return notes, pairs


def applied(crate, pairs):
    """The changed texts of the files, or which pair stands not exactly once."""
    texts = {}
    for number, (file, old, new) in enumerate(pairs):
        path = os.path.join("crates", crate, file)
        if file not in texts:
            if not os.path.isfile(path):
                return None, number
            with open(path, encoding="utf-8") as text:
                texts[file] = text.read()
        if texts[file].count(old) != 1:
            return None, number
        texts[file] = texts[file].replace(old, new)
    return texts, None


def difference(a, b):
    """Where two lists differ: the ends of what they begin and end with alike."""
    first = 0
    while first < min(len(a), len(b)) and a[first] == b[first]:
        first += 1
    last = 0
    while last < min(len(a), len(b)) - first and a[-1 - last] == b[-1 - last]:
        last += 1
    return first, len(a) - last, len(b) - last


def places(text):
    """The tokens that are no blanks, each with its place."""
    return [(m.group(0), m.start(), m.end()) for m in TOKEN.finditer(text) if not m.group(0).isspace()]


def likest(line, lines, was_at, was_of):
    """The number of the line most like `line`, and how like it is; among those as like the one nearest to its place."""
    mine = solid(line)
    best = (0, 0, None)
    for number, other in enumerate(lines):
        theirs = solid(other)
        m = difflib.SequenceMatcher(None, mine, theirs, autojunk=False)
        if m.quick_ratio() < 0.3:
            continue
        rank = (round(m.ratio(), 3), -abs(number / len(lines) - was_at / was_of))
        if rank > best[:2]:
            best = (*rank, number)
    return best[2], best[0]


def spaced(text):
    return re.sub(r" +", " ", text)


def brought(text, base, old, new):
    """The pair (old, new) of `base`, for today's `text`: the new pair, or None and why."""
    if base.count(old) != 1:
        return None, "its old text is not in the landed file once"
    lines = base.split("\n")
    before = base[: base.index(old)]
    at = before.count("\n")
    column = len(before) - (before.rfind("\n") + 1)
    line = lines[at]
    changed = line[:column] + new + line[column + len(old) :]
    was, will = turned(line), turned(changed)
    a, b = places(was), places(will)
    first, ends, ends_new = difference([t for t, _, _ in a], [t for t, _, _ in b])
    today = text.split("\n")
    number, like = likest(was, today, at, len(lines))
    if number is None or like < 0.6:
        return None, f"no line is like it ({like})"
    target = today[number]
    t = places(target)
    if today.count(target) > 1:
        return None, "its line stands more than once"
    mine, theirs = [x for x, _, _ in a], [x for x, _, _ in t]
    # where the changed tokens stand in it: the place whose neighbours are the most like
    ranks = []
    for begin in range(len(theirs) - (ends - first) + 1):
        if theirs[begin : begin + ends - first] == mine[first:ends]:
            end = begin + ends - first
            left = 0
            while left < min(first, begin) and mine[first - 1 - left] == theirs[begin - 1 - left]:
                left += 1
            right = 0
            while right < min(len(mine) - ends, len(theirs) - end) and mine[ends + right] == theirs[end + right]:
                right += 1
            ranks.append((left + right, min(left, right), begin, left, right))
    ranks.sort(reverse=True)
    if not ranks or first + len(mine) - ends > 1 > ranks[0][0] or len(ranks) > 1 and ranks[0][:2] == ranks[1][:2]:
        return None, f"the place of the change is not found in: {target.strip()}"
    begin, alike_left, alike_right = ranks[0][2:]
    end = begin + ends - first
    # what comes there, with the blanks that it is written with
    left = t[begin - 1][2] if begin else 0
    right = t[end][1] if end < len(t) else len(target)
    come = will[b[first - 1][2] if first else 0 : b[ends_new][1] if ends_new < len(b) else len(will)]
    if not alike_left and begin < len(t):
        come = target[left : t[begin][1]] + come.lstrip()
    if not alike_right and end:
        come = come.rstrip() + target[t[end - 1][2] : right]
    after = (target[:left] + come + target[right:]).rstrip()
    if "now" in [x for x, _, _ in t] and ".old" in come and ".old" not in target:
        after = after.replace(".old", ".now")
    if solid(after).count("(") - solid(after).count(")") - solid(target).count("(") + solid(target).count(")") != solid(changed).count("(") - solid(changed).count(")") - solid(line).count("(") + solid(line).count(")"):
        return None, f"brackets: {after.strip()}"
    # the part that the old text had, else the whole line
    x, y, z = difference(list(target), list(after))
    span = places(line)
    inside = [k for k, (_, s, e) in enumerate(span) if s >= column and e <= column + len(old)]
    head = target[:x].rfind(" ") + 1
    tail_old = target.find(" ", y)
    tail_old = len(target) if tail_old < 0 else tail_old
    tail_new = z + tail_old - y
    del inside
    # widened by words until it stands once
    while text.count(target[head:tail_old]) != 1 or tail_old - head < 24:
        grew = False
        if head > 0 and target[:head].strip():
            head = target[: head - 1].rfind(" ") + 1
            grew = True
        if tail_old < len(target):
            step = target.find(" ", tail_old + 1)
            step = len(target) if step < 0 else step
            tail_new += step - tail_old
            tail_old = step
            grew = True
        if not grew:
            break
    if text.count(target[head:tail_old]) != 1:
        return None, "it is not made to stand once"
    return (target[head:tail_old], after[head:tail_new]), None


def main():
    listing = "--list" in sys.argv
    names = [x for x in sys.argv[1:] if not x.startswith("-")]
    done = left = stood = 0
    for path in sorted(glob.glob("crates/*/must-fail/*.edit")):
        crate = path.split(os.sep)[1]
        if names and crate not in names:
            continue
        with open(path, encoding="utf-8") as text:
            own = text.read()
        _, now = pairs_of(own)
        _, fails = applied(crate, now)
        if fails is None and not any(file.endswith(".antt") and old == turned(old) and new != turned(new) for file, old, new in now):
            stood += 1
            continue
        if listing:
            print(path, now[fails])
            left += 1
            continue
        base = LANDED if shown(LANDED, path) is not None else LATER
        notes, pairs = pairs_of(shown(base, path))
        result, why = [], []
        texts = {}
        for file, old, new in pairs:
            source = os.path.join("crates", crate, file)
            if file not in texts:
                with open(source, encoding="utf-8") as text:
                    texts[file] = text.read()
            if texts[file].count(old) == 1:
                pair = (old, turned(new) if file.endswith(".antt") else new)
            else:
                pair, reason = brought(texts[file], shown(base, source) or "", old, new)
                if pair is None:
                    why.append((file, old, new, reason))
                    continue
            texts[file] = texts[file].replace(*pair)
            result.append((file, *pair))
        if why:
            left += 1
            print(f"== {path}")
            for file, old, new, reason in why:
                print(f"  {file}: {reason}\n  OLD {old}\n  NEW {new}")
            continue
        done += 1
        out = list(notes)
        file = None
        for name, old, new in result:
            if name != file:
                out.append(f"file: {name}")
                file = name
            out += [f"old: {old}", f"new: {new}" if new else "new:"]
        with open(path, "w", encoding="utf-8") as text:
            text.write("\n".join(out) + "\n")
    print(f"{done} brought over, {left} left, {stood} stood")


main()
