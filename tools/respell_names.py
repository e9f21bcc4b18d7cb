#!/usr/bin/env python3
"""Spells the repository's own definitions, lemmas, fields and constructors of .antt files in snake case: run once, at the top of the
repository, right after port.py. Types and modules keep their camel case, and so do names of libraries and the names that the prover makes
for a proof. A respell_names.tsv beside it is followed. Where two names fall together, the one that is not the definition gets '_law' after it; respell_names.tsv has every name."""
import collections
import os
import re
import sys

TOKEN = re.compile(r"--[^\n]*|\"(?:[^\"\\]|\\.)*\"|[^\s(){}\[\],;.⟦⟧«»⌜⌝:@\\\"]+|.|\n")
TABLE = os.path.join(os.path.dirname(os.path.abspath(__file__)), "respell_names.tsv")
COMMENT = re.compile(r"--[^\n]*")
USE = re.compile(r"^(?:ghost )?use ([^\s{]+?)\.\{([^}]*)\}", re.M)
USE_ONE = re.compile(r"^(?:ghost )?use (Rattle\.[^\s{};]+)(?: as ([^\s;]+))?;?$", re.M)


def snake(name):
    name = name.replace("-", "_")
    return re.sub(r"(?<=[a-z0-9₀-₉])([A-Z])", lambda m: "_" + m.group(1).lower(), name)


def files(suffixes):
    for folder, dirs, names in os.walk("crates"):
        dirs[:] = sorted(d for d in dirs if d != "out")
        for name in sorted(names):
            if name.endswith(suffixes):
                yield os.path.join(folder, name)


def read(path):
    with open(path, encoding="utf-8") as text:
        return text.read()


def of_function(path):
    """Is it a file of the proof of one function?"""
    parts = path.split(os.sep)
    return len(parts) > 4 and parts[2] == "proofs"


def own_library(module, crates):
    part = module.split(".")
    return part[0] == "Rattle" and len(part) > 1 and part[1] in crates


def respellable(name):
    return bool(re.match(r"[a-z]", name)) and snake(name) != name and bool(re.match(r"^[A-Za-z0-9'₀-₉_-]+$", name))


def declared(text):
    """The names that a file declares, at the top and in its blocks, each with whether it is a definition; fields and constructors too."""
    found = {}
    block = None
    for line in text.split("\n"):
        line = COMMENT.sub("", line)
        m = re.match(r"^( *)((?:(?:pub|abbrev|unfoldable) )*)(\S+)((?: [^\s:]+)*) :(?: |$)", line)
        if m and not re.match(r"(let|λ|use|open|module)$", m.group(3)):
            names = [m.group(3)] + m.group(4).split()
            for name in names:
                if re.match(r"^[A-Za-z0-9'₀-₉_-]+$", name):
                    found[name] = found.get(name, False) or "abbrev" in m.group(2) or "unfoldable" in m.group(2)
    return found


def main():
    crates = {c for c in os.listdir("crates") if os.path.isdir(os.path.join("crates", c))}
    every = list(files((".antt",)))
    is_def = collections.defaultdict(bool)
    where = collections.defaultdict(set)
    for path in every:
        if of_function(path):
            continue
        for name, definition in declared(read(path)).items():
            is_def[name] |= definition
            where[name].add(path)
    by = collections.defaultdict(list)
    for name in where:
        if re.match(r"[a-z]", name):
            by[snake(name)].append(name)
    new = {}
    for to, names in sorted(by.items()):
        if len(names) == 1:
            if respellable(names[0]):
                new[names[0]] = to
            continue
        # the definition keeps the plain name, and the older spelling in camel case comes before one with dashes
        rank = sorted(names, key=lambda n: (not re.search("[a-z0-9][A-Z]", n), not is_def[n], "-" in n, n))
        new[rank[0]] = to
        for k, name in enumerate(rank[1:]):
            new[name] = to + "_law" + ("" if k == 0 else "_" + str(k + 1))
    if os.path.exists(TABLE):
        # a table that is there says the names, so that an earlier state gets the same ones
        new = dict(line.split("\t") for line in read(TABLE).split("\n") if line)
    taken = collections.Counter(new.values())
    fall = [n for n, c in taken.items() if c > 1] + [t for o, t in new.items() if t != o and t in where and t not in new]
    if fall:
        print("names fall together:", fall)
        sys.exit(1)

    def turn(path, text, code=False, edit_of=None):
        """Renames in a text; in a file of one function's proof and in code only what it imports, and fields."""
        base = text if edit_of is None else edit_of
        foreign = set()
        imported = set()
        for module, names in USE.findall(base):
            listed = {n.split(" as ")[-1].strip() for n in names.replace("\n", " ").split(",")}
            (imported if own_library(module, crates) else foreign).update(listed)
        narrow = code or of_function(path)
        out = []
        before = ""
        in_use = None
        for m in TOKEN.finditer(text):
            t = m.group(0)
            if t.startswith("--") or t.startswith('"'):
                out.append(t)
                continue
            n = new.get(t)
            if n and n != t:
                if before == ".":
                    out.append("\0" + t + "\0" + n + "\0")
                elif t in foreign and t not in imported:
                    out.append(t)
                elif not narrow or t in imported:
                    out.append(n)
                elif t in fields and re.match(r"\s*=\s", text[m.end():m.end() + 4]) and re.search(r"[{;]\s*$", text[max(0, m.start() - 60) : m.start()]):
                    out.append(n)
                else:
                    out.append(t)
            else:
                out.append(t)
            if t.strip() or t == "\n":
                before = t
            else:
                before = " "
        s = "".join(out)
        # what follows a dot is a name of a module's or a field
        def field(m):
            old, to = m.group(1), m.group(2)
            if narrow and old not in fields:
                return old
            return to

        return re.sub("\0([^\0]+)\0([^\0]+)\0", field, s)

    # fields of records of specs and of lemma files
    fields = set()
    for path in every:
        if of_function(path):
            continue
        depth = None
        for line in read(path).split("\n"):
            line = COMMENT.sub("", line)
            if not line.strip():
                continue
            ind = len(line) - len(line.lstrip())
            if re.match(r"^\s*((pub|abbrev|unfoldable) )*record\b", line):
                depth = ind
                continue
            if depth is not None and ind <= depth:
                depth = None
            if depth is not None:
                m = re.match(r"^\s*(?:pub )?((?:[A-Za-z0-9'₀-₉_-]+ ?)+) :", line)
                if m:
                    fields.update(m.group(1).split())
    changed = 0
    for path in every:
        text = read(path)
        s = turn(path, text)
        if s != text:
            with open(path, "w", encoding="utf-8") as f:
                f.write(s)
            changed += 1
    for path in files((".rt",)):
        text = read(path)
        ghost = set()
        for module, names in re.findall(r"ghost use ([^\s{]+?)\.\{([^}]*)\}", text):
            if own_library(module, crates):
                ghost.update(n.strip() for n in names.replace("\n", " ").split(","))
        ren = {n: new[n] for n in ghost if n in new and new[n] != n}
        out = []
        # contracts and ghost items only: lines of clauses, and ghost use items
        item = None
        for line in text.split("\n"):
            lead = line.strip()
            if item is None and re.match(r"^(pub )?ghost |^(requires|ensures|ghost)\b", lead):
                item = ""
            if item is not None:
                item += line
                line = re.sub(r"[A-Za-z0-9'₀-₉_-]+", lambda m: ren.get(m.group(0), m.group(0)) if line[max(0, m.start() - 1) : m.start()] != "." else (new.get(m.group(0), m.group(0)) if m.group(0) in fields else m.group(0)), line)
                if item.count("{") == item.count("}") and "{" in item:
                    item = None
            out.append(line)
        s = "\n".join(out)
        if s != text:
            with open(path, "w", encoding="utf-8") as f:
                f.write(s)
            changed += 1
    with open(TABLE, "w", encoding="utf-8") as f:
        for old in sorted(new):
            if new[old] != old:
                f.write(f"{old}\t{new[old]}\n")
    print(changed, "files,", sum(1 for o in new if new[o] != o), "names; two names for one:", sum(1 for t in new.values() if "_law" in t))


main()
