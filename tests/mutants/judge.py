"""The judge: a private copy of the repository in which one change at a time is made, and the prover's answer to it."""

import os
import re
import shutil
import signal
import subprocess
import tempfile
import time
from collections import namedtuple

Judged = namedtuple("Judged", "verdict seconds why")

# Programs that the gate tries on more than their own input, and how; {} is the program.
TESTS = {
    "listing": "tests/model/target/release/listing_cases {} 1 600",
    "mkcard": "sh tests/mkcard {}",
}

# An error that only says that the proof's text does not fit the code, and one that only follows from another.
MISFIT = re.compile(r"that can be named from here|^`[^`]*`: record `|has no (?:field|constructor)|is not in scope")
FOLLOWS = re.compile(r"was not admitted")
# An error in a written proof, and a need that the proof which rattle makes by itself does not close.
ERROR = re.compile(r"^(?:(\S+): error: |note: (\S+): (?=it is not proved that))(.*)$", re.MULTILINE)


def verdict_of(status, said):
    """What the prover says of a crate: proved, killed, misfit, uncompiled or undecided, and its first reason."""
    errors = [(a or b, text) for a, b, text in ERROR.findall(said) if not FOLLOWS.search(text)]
    facts = [(at, text) for at, text in errors if not MISFIT.search(text)]
    if status == 0 and re.search(r"^logic=proved", said, re.MULTILINE):
        return "proved", ""
    if status == 1 and re.search(r"^logic=not-proved", said, re.MULTILINE):
        chosen = (facts or errors or [("", "")])[0]
        place = re.sub(r"^.*/crates/", "", chosen[0])
        why = f"{place} {' '.join(chosen[1].split())[:120]}"
        return ("killed" if facts or not errors else "misfit"), why
    if status == 3:
        return "undecided", "the prover could not tell"
    if status is None:
        return "undecided", "no answer in time"
    return "uncompiled", " ".join((errors[0][1] if errors else said[-200:]).split())[:120]


class Room:
    """A copy of the repository in a folder of its own, outside it: the gate refuses sources that no crate of crates.txt has. What the repository has
    proved of a crate is taken from there, as `rt` does in each copy on a machine."""

    def __init__(self, root, name, limit):
        self.root, self.limit = root, limit
        self.path = os.path.join(tempfile.gettempdir(), f"filmdisk-mutants-{os.getuid()}", name)
        shutil.rmtree(os.path.join(self.path, "crates"), ignore_errors=True)
        os.makedirs(self.path, mode=0o700, exist_ok=True)
        shutil.copytree(os.path.join(root, "crates"), os.path.join(self.path, "crates"), ignore=lambda _, names: {"out"} & {*names})
        shutil.copy(os.path.join(root, "crates.txt"), self.path)
        self.kept = {}

    def _file(self, crate, file):
        return os.path.join(self.path, "crates", crate, file)

    def rt(self, crate, *words, limit=None, given=None):
        """Runs rt in the crate's folder of the room: exit status (none where it took too long), what it said, what it printed, seconds. With `given`, a
        program's input, what is printed is kept apart."""
        began = time.monotonic()
        errors = subprocess.STDOUT if given is None else subprocess.PIPE
        run = subprocess.Popen(
            ["rt", *words], cwd=self._file(crate, ""), stdin=subprocess.PIPE, stdout=subprocess.PIPE, stderr=errors, start_new_session=True
        )
        try:
            printed, said = run.communicate(given or b"", timeout=limit)
            status = run.returncode
        except subprocess.TimeoutExpired:
            os.killpg(run.pid, signal.SIGKILL)
            printed, said = run.communicate()
            status = None
        return status, (printed if said is None else said).decode("utf-8", "replace"), printed, time.monotonic() - began

    def check(self, crate, limit=None):
        status, said, _, seconds = self.rt(crate, "check", "--jobs", "1", limit=limit)
        verdict, why = verdict_of(status, said)
        return Judged(verdict, seconds, why)

    # The incremental folder of a crate as it was when the unchanged crate was proved; a change leaves what it made there.
    def keep(self, crate):
        folder = self._file(crate, "out/incremental")
        copy = os.path.join(self.path, "kept", crate)
        shutil.rmtree(copy, ignore_errors=True)
        shutil.copytree(folder, copy)
        self.kept[crate] = {
            os.path.relpath(os.path.join(d, f), folder): os.stat(os.path.join(d, f)).st_mtime_ns
            for d, _, files in os.walk(folder)
            for f in files
        }

    def put_back(self, crate):
        folder = self._file(crate, "out/incremental")
        copy = os.path.join(self.path, "kept", crate)
        kept = self.kept[crate]
        there = {os.path.relpath(os.path.join(d, f), folder) for d, _, files in os.walk(folder) for f in files}
        for f in there - kept.keys():
            os.remove(os.path.join(folder, f))
        for f, changed in kept.items():
            own = os.path.join(folder, f)
            if f not in there or os.stat(own).st_mtime_ns != changed:
                os.makedirs(os.path.dirname(own), exist_ok=True)
                shutil.copy2(os.path.join(copy, f), own)

    def ready(self, crate):
        """The judge is right: the unchanged crate is proved, and its first must-fail edit of the code is not."""
        base = self.check(crate)
        if base.verdict != "proved":
            raise RuntimeError(f"{crate} is {base.verdict} without a change: {base.why}")
        self.keep(crate)
        edits = first_edit(os.path.join(self.root, "crates", crate, "must-fail"))
        if not edits:
            return base
        with Changed(self, crate, edits):
            judged = self.check(crate, self.limit)
        if judged.verdict not in ("killed", "misfit"):
            raise RuntimeError(f"{crate} is {judged.verdict} with a must-fail edit")
        return base

    def judge(self, crate, file, text, users):
        """The verdict on a crate of which a file's text is changed. `users`: crates whose proofs or output rest on what is changed."""
        with Changed(self, crate, [(os.path.join("src", file), text)]):
            judged = self.check(crate, self.limit)
            if judged.verdict != "proved":
                return judged
            if self.is_program(crate):
                return self.run_program(crate, judged)
            return self.judge_users(users, judged)

    def is_program(self, crate):
        return os.path.exists(self._file(crate, "src/main.rt"))

    def text(self, crate, file):
        """A file of the crate's, or nothing."""
        path = self._file(crate, file)
        if not os.path.exists(path):
            return b""
        with open(path, "rb") as f:
            return f.read()

    def output(self, crate, limit):
        """Runs a proved program on its own input: 'same' or 'other' for what it prints, or 'none' where it did not run; what was said, and seconds."""
        words = self.text(crate, "args").decode().split("\n")[:-1]
        status, said, printed, seconds = self.rt(crate, "run", "--jobs", "1", "--", *words, limit=limit, given=self.text(crate, "stdin"))
        if "rt: running " not in said:
            return "none", said, seconds
        return ("same" if status == 0 and printed == self.text(crate, "stdout") else "other"), said, seconds

    def run_program(self, crate, judged):
        ran, said, seconds = self.output(crate, self.limit)
        seconds += judged.seconds
        if ran == "same":
            return self.test_program(crate, seconds)
        if ran == "other":
            return Judged("output", seconds, "proved; its output is not the expected one")
        return Judged("undecided", seconds, " ".join(said[-200:].split()))

    def test_program(self, crate, seconds):
        """A program whose own output is the expected one: what the gate's test of it says."""
        test = TESTS.get(crate)
        if test is None:
            return Judged("survived", seconds, "proved, and its output is the expected one")
        began = time.monotonic()
        program = self._file(crate, f"out/{crate}")
        words = [word.format(program) for word in test.split()]
        run = subprocess.run(words, cwd=self.root, stdout=subprocess.DEVNULL, stderr=subprocess.DEVNULL)
        seconds += time.monotonic() - began
        if run.returncode == 0:
            return Judged("survived", seconds, "proved, and the gate's test of it passes")
        return Judged("output", seconds, "proved; the gate's test of it fails")

    def judge_users(self, users, judged):
        if not users:
            return Judged("survived", judged.seconds, "proved")
        seconds = judged.seconds
        for user in users:
            status, said, _, more = self.rt(user, "check", "--jobs", "1", limit=3 * self.limit)
            seconds += more
            if status == 1 and re.search(r"^logic=not-proved", said, re.MULTILINE):
                return Judged("users", seconds, f"proved; {user} is not")
            if status != 0:
                return Judged("undecided", seconds, f"{user}: {' '.join(said[-200:].split())}")
            if self.is_program(user):
                ran, said, more = self.output(user, 3 * self.limit)
                seconds += more
                if ran == "other":
                    return Judged("output", seconds, f"proved; the output of {user} is not the expected one")
                if ran == "none":
                    return Judged("undecided", seconds, f"{user}: {' '.join(said[-200:].split())}")
        return Judged("survived", seconds, "proved, and so are its users")


class Changed:
    """Texts of files of a crate in a room, for as long as the block lasts."""

    def __init__(self, room, crate, texts):
        self.room, self.crate = room, crate
        self.texts = [(room._file(crate, f), t) for f, t in texts]

    def __enter__(self):
        self.room.put_back(self.crate)
        self.before = []
        for path, text in self.texts:
            with open(path, encoding="utf-8") as f:
                self.before.append((path, f.read()))
            with open(path, "w", encoding="utf-8") as f:
                f.write(text)

    def __exit__(self, *_):
        for path, text in self.before:
            with open(path, "w", encoding="utf-8") as f:
                f.write(text)


def first_edit(folder):
    """The files that the first must-fail edit of the code changes, with their new texts."""
    for name in sorted(os.listdir(folder)) if os.path.isdir(folder) else []:
        texts, file, old = {}, "", ""
        with open(os.path.join(folder, name), encoding="utf-8") as f:
            lines = f.read().splitlines()
        for line in lines:
            if line.startswith("file: "):
                file = line[6:]
                with open(os.path.join(folder, "..", file), encoding="utf-8") as f:
                    texts.setdefault(file, f.read())
            elif line.startswith("old: "):
                old = line[5:]
            elif line.startswith("new:"):
                texts[file] = texts[file].replace(old, line[4:].removeprefix(" "), 1)
        if texts and all(file.startswith("src/") for file in texts):
            return list(texts.items())
    return []
