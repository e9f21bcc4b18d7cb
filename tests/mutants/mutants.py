"""How strong the contracts are: changes the code of every crate, one small change at a time, and has the prover judge each.

    mutants.py list [--crate NAME]...              the mutants, in the order in which they are tried
    mutants.py run [--crate NAME]... [--count N]   tries N of each crate, prints each verdict and killed / tried
    mutants.py report                              the table and the survivors of the results so far, for docs/MUTANTS.md
"""

import argparse
import concurrent.futures
import glob
import hashlib
import os
import re
import shutil
import sys
import threading
from collections import Counter

import changes
import source
from judge import Room

ROOT = os.path.dirname(os.path.dirname(os.path.dirname(os.path.abspath(__file__))))
KILLED = ("killed", "users", "output")
TRIED = KILLED + ("survived", "undecided")


def crates():
    """The crates and what each depends on, as crates.txt lists them."""
    with open(os.path.join(ROOT, "crates.txt"), encoding="utf-8") as f:
        lines = [line.split("#")[0] for line in f]
    return {line.split()[0].rstrip(":"): line.split(":")[1].split() for line in lines if ":" in line}


def sources(names):
    found = {}
    for crate in names:
        folder = os.path.join(ROOT, "crates", crate, "src")
        found[crate] = []
        for path in sorted(glob.glob(os.path.join(folder, "**", "*.rt"), recursive=True)):
            with open(path, encoding="utf-8") as f:
                found[crate].append(source.read(os.path.relpath(path, folder), f.read()))
    return found


def digest(*words):
    return hashlib.sha256("\n".join(words).encode()).hexdigest()


def stamp(crate):
    """Stands for the files of a crate: a result holds for them alone."""
    folder = os.path.join(ROOT, "crates", crate)
    sums = []
    for part in ("src", "specs", "proofs"):
        for path in sorted(glob.glob(os.path.join(folder, part, "**", "*"), recursive=True)):
            if os.path.isfile(path):
                with open(path, "rb") as f:
                    sums.append(os.path.relpath(path, folder) + hashlib.sha256(f.read()).hexdigest())
    return digest(*sums)[:12]


def ordered(found, seed):
    """By chance that the seed fixes: one mutant of each function, then a second of each, and so on."""
    places = {}
    for m in found:
        places.setdefault((m.file, m.place), []).append(m)
    ranked = []
    for place, ms in places.items():
        ms.sort(key=lambda m: digest(seed, changes.identity(m)))
        ranked += [(turn, digest(seed, *place), m) for turn, m in enumerate(ms)]
    ranked.sort(key=lambda r: r[:2])
    return [m for _, _, m in ranked]


def changed_text(m, text):
    assert text.startswith(m.old, m.at)
    return text[: m.at] + m.new + text[m.at + len(m.old) :]


def changed_line(m, text):
    """The line of the change as it is after it; a change over several lines gives all of them, in one."""
    new = changed_text(m, text)
    start = new.rfind("\n", 0, m.at) + 1
    end = new.find("\n", m.at + len(m.new))
    return " ".join(new[start:end].split())


def key(m, text):
    return f"{m.crate}::{m.place} # {changed_line(m, text)}"


class Results:
    """One line for each mutant tried: stamp of its crate, crate, verdict, seconds, identity, key, why."""

    def __init__(self, path):
        self.path, self.lock, self.rows = path, threading.Lock(), {}
        if os.path.exists(path):
            with open(path, encoding="utf-8") as f:
                for line in f:
                    row = line.rstrip("\n").split("\t")
                    self.rows[row[0], row[4]] = row

    def add(self, row):
        with self.lock:
            self.rows[row[0], row[4]] = row
            with open(self.path, "a", encoding="utf-8") as f:
                f.write("\t".join(row) + "\n")

    def of(self, crate):
        mark = stamp(crate)
        return [row for (of, _), row in self.rows.items() if of == mark and row[1] == crate]


def is_program(crate, all_sources):
    return any(s.path == "main.rt" for s in all_sources[crate])


def users_of(m, crate_deps, all_sources):
    """Crates that judge what no contract speaks of: those that name a public constant, and the programs of a library that has no other
    users."""
    above = [c for c, deps in crate_deps.items() if m.crate in deps]
    if above and all(is_program(c, all_sources) for c in above):
        return above
    public = [c for s in all_sources[m.crate] if s.path == m.file for c in s.constants if c.name == m.place and c.public]
    if not public:
        return []
    word = re.compile(rf"\b{m.place}\b")
    return [c for c in above if any(word.search(s.text) for s in all_sources[c])]


def try_crate(crate, options, crate_deps, all_sources, results, rooms):
    order = [m for m in ordered(changes.mutants(crate, all_sources), options.seed) if options.only in changes.identity(m)]
    if not order:
        return
    done = {row[4]: row[2] for row in results.of(crate)}
    texts = {s.path: s.text for s in all_sources[crate]}
    mark, tried, room = stamp(crate), 0, None
    for m in order:
        if tried >= options.count:
            break
        name = changes.identity(m)
        if name not in done:
            if room is None:
                room = rooms()
                base = room.ready(crate)
                print(f"{crate}: proved without a change ({base.seconds:.0f} s)", flush=True)
            j = room.judge(crate, m.file, changed_text(m, texts[m.file]), users_of(m, crate_deps, all_sources))
            done[name] = j.verdict
            results.add([mark, crate, j.verdict, f"{j.seconds:.1f}", name, key(m, texts[m.file]), j.why.replace("\t", " ")])
            print(f"{j.verdict:10} {j.seconds:5.1f} s  {name}  [{j.why}]", flush=True)
        tried += done[name] in TRIED


def explanations():
    """Survivors that are explained, by key."""
    found = {}
    with open(os.path.join(ROOT, "tests", "mutants", "explained.txt"), encoding="utf-8") as f:
        for line in f:
            words = [w.strip() for w in line.split(" # ")]
            if len(words) == 3:
                found[f"{words[0]} # {words[1]}"] = words[2]
    return found


def report(names, all_sources, results):
    """The table of all results that hold for the crates as they are; returns the survivors without an explanation."""
    explained = explanations()
    whole, survivors, same = Counter(), [], []
    print("| crate | killed / tried | by the proof | by its users | by its output | survived | undecided | same program, refused | misfit | uncompiled |")
    print("|---|---|---|---|---|---|---|---|---|---|")
    for crate in names:
        made = {changes.identity(m) for m in changes.mutants(crate, all_sources)}
        n = Counter()
        for row in results.of(crate):
            if row[4] not in made:
                continue
            # a kill that is explained is one of a program that does the same
            if row[2] in KILLED and row[5] in explained:
                n["same"] += 1
                same.append(row)
                continue
            n[row[2]] += 1
            if row[2] in ("survived", "undecided"):
                survivors.append(row)
        if n:
            print(table_line(crate, n))
            whole.update(n)
    print(table_line("all", whole))
    for title, rows in (("Survivors", survivors), ("Same program, refused", same)):
        print(f"\n{title}:\n")
        for row in rows:
            print(f"- `{row[4]}`: {explained.get(row[5], 'NOT EXPLAINED')}")
    open_ones = [row for row in survivors if row[5] not in explained]
    killed, tried = sum(whole[v] for v in KILLED), sum(whole[v] for v in TRIED)
    print(f"\nkilled {killed} / tried {tried}, {len(survivors)} survivors, {len(open_ones)} not explained")
    return open_ones


def table_line(name, n):
    killed, tried = sum(n[v] for v in KILLED), sum(n[v] for v in TRIED)
    counts = (n[v] for v in KILLED + ("survived", "undecided", "same", "misfit", "uncompiled"))
    return f"| {name} | {killed} / {tried} | " + " | ".join(str(c) for c in counts) + " |"


def main():
    p = argparse.ArgumentParser(description=__doc__, formatter_class=argparse.RawDescriptionHelpFormatter)
    p.add_argument("command", choices=("list", "run", "report"))
    p.add_argument("--crate", action="append", help="only this crate; may be given more than once")
    p.add_argument("--count", type=int, default=12, help="mutants to try of each crate, those of the results included (12)")
    p.add_argument("--jobs", type=int, default=1, help="crates to try at a time (1)")
    p.add_argument("--only", default="", help="only mutants whose identity has this text")
    p.add_argument("--seed", default="1", help="fixes the choice (1)")
    p.add_argument("--limit", type=int, default=300, help="seconds for one answer of the prover (300)")
    p.add_argument("--results", default=os.path.join(ROOT, "target", "mutants", "results.tsv"), help="read and added to")
    options = p.parse_args()

    crate_deps = crates()
    names = options.crate or list(crate_deps)
    all_sources = sources(crate_deps)
    if options.command == "list":
        for crate in names:
            for m in ordered(changes.mutants(crate, all_sources), options.seed):
                print(f"{changes.identity(m)} ({m.kind})")
        return 0
    os.makedirs(os.path.dirname(options.results), exist_ok=True)
    results = Results(options.results)
    if options.command == "run":
        free = [f"room{k}" for k in range(options.jobs)]
        made, lock = {}, threading.Lock()

        def one(crate):
            with lock:
                name = free.pop()

            def room():
                if name not in made:
                    made[name] = Room(ROOT, name, options.limit)
                return made[name]

            try:
                try_crate(crate, options, crate_deps, all_sources, results, room)
            finally:
                with lock:
                    free.append(name)

        with concurrent.futures.ThreadPoolExecutor(options.jobs) as pool:
            try:
                for ended in [pool.submit(one, crate) for crate in names]:
                    ended.result()
            finally:
                for room in made.values():
                    shutil.rmtree(room.path, ignore_errors=True)
    return 1 if report(names, all_sources, results) else 0


if __name__ == "__main__":
    sys.exit(main())
