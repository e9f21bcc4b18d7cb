#!/usr/bin/env python3
"""Spells the names of definitions and laws in the pages as respell_names.py spelled them in .antt files: run once, at the top of the repository. Only
what stands between backticks is changed. Where a row of docs/PROVED.md names a file before a name, the name is one that this file declares; elsewhere
it is one that some .antt file declares. What is found in neither way is printed and stays."""
import glob
import os
import re

HERE = os.path.dirname(os.path.abspath(__file__))
NAME = re.compile(r"(?<![A-Za-z0-9'₀-₉_-])[A-Za-z][A-Za-z0-9'₀-₉_-]*")
PAGES = ["README.md", *sorted(glob.glob("docs/*.md")), *sorted(glob.glob("docs/requests/*.md"))]
# Words of the pages that are no names of definitions.
WORDS = {"must-fail", "pkg-config"}


def snake(name):
    return re.sub(r"(?<=[a-z0-9₀-₉])([A-Z])", lambda m: "_" + m.group(1).lower(), name.replace("-", "_"))


def declared(path):
    found = set()
    with open(path, encoding="utf-8") as text:
        for line in text:
            line = re.sub(r"--.*", "", line).strip()
            line = re.sub(r"^((pub|abbrev|unfoldable) )+", "", line)
            m = re.match(r"(?:record|data) (\S+)", line) or re.match(r"([^\s:]+(?: [^\s:]+)*) :(?: |$)", line)
            if m:
                found.update(m.group(1).split())
    return found


def is_old(name):
    return name not in WORDS and bool(re.match(r"[a-z]", name)) and (name in NEW or snake(name) != name)


def main():
    every = {path: declared(path) for path in glob.glob("crates/*/specs/*.antt") + glob.glob("crates/*/proofs/*.antt")}
    anywhere = set().union(*every.values())

    def turned(name, names, page):
        if not is_old(name):
            return name
        fits = [it for it in (NEW.get(name), snake(name), snake(name) + "_law") if it in names]
        if not fits:
            print(f"{page}: {name}")
        return fits[0] if fits else name

    for page in PAGES:
        with open(page, encoding="utf-8") as text:
            was = text.read()
        lines, is_code = [], False
        for line in was.split("\n"):
            if line.startswith("```"):
                is_code = not is_code
            if is_code:
                lines.append(line)
                continue
            names, is_row = None, page.endswith("PROVED.md") and line.startswith("|")
            cells = line.split("|") if is_row else [line]
            for k, cell in enumerate(cells):
                names = None

                def inside(m):
                    nonlocal names
                    text = m.group(1)
                    if re.search(r"\S/\S", text) and " " not in text:
                        names = every.get(text, set())
                        is_code_file = not text.endswith(".antt")
                        names = None if is_code_file and k == 3 else names
                        inside.is_code_file = is_code_file
                        return m.group(0)
                    if k == 3 and is_row and inside.is_code_file:
                        return m.group(0)
                    of = names if names and k == 3 and is_row else anywhere
                    return "`" + NAME.sub(lambda it: turned(it.group(0), of, page), text) + "`"

                inside.is_code_file = False
                cells[k] = re.sub(r"`([^`]+)`", inside, cell)
            lines.append("|".join(cells))
        now = "\n".join(lines)
        if now != was:
            with open(page, "w", encoding="utf-8") as text:
                text.write(now)


with open(os.path.join(HERE, "respell_names.tsv"), encoding="utf-8") as rows:
    NEW = dict(row.rstrip("\n").split("\t") for row in rows)
main()
