#!/usr/bin/env python3
"""Tries the edits that must fail: each changes the body of a function, and the prover has to refuse it.

The edits of a module are in crates/CRATE/edits/MODULE.txt, with an empty line between two. A line `file: src/..`
holds until the next one. An edit has lines `name:`, `function:` (what it changes, as `rt check` prints it; several
where it is a constant that they use) and pairs of lines `old:`, whose text occurs once in the file, and `new:`.

The edits of a crate are tried together, provided that no two change one function: a body is proved against the contracts
of what it calls, so such edits do not touch one another. A check proves what they change and what that calls, over
libraries that are proved here, from what `rt check` kept, or with --libraries over those of prove_all.py. An
edit passes if each of its functions is refused for a goal, and not only because its proof names what is gone; all
others have to be proved or to wait, so that not every function is taken for a refused one. Try an edit alone where it
fails beside others. With --archive the static library is built over the same libraries.

An edit that was refused is kept on this machine, by the sums of all that it read: its text, the sources of its crate
and of those below, this script and the kit. Later runs pass it without a try; --anew tries all. The last line is
`N passed, N failed`.
"""

import argparse
import hashlib
import os
import re
import shutil
import signal
import subprocess
import sys
import tempfile
import threading
import time
from collections import namedtuple
from concurrent.futures import ThreadPoolExecutor
from pathlib import Path

TOP = Path(__file__).resolve().parent.parent
ENTRY = re.compile(r"(?:file: (\S+)\n)?name: (\w+)\nfunction: (.+)((?:\nold: .+\nnew:.*)+)")
TOLD = re.compile(r"^(fn|impl|struct|enum|trait) (\S+): (proved|not proved|no proof|could not tell)\b(.*)", re.M)
# what is said of a function that waits for the proof of another
WAITS = re.compile(
    r"(?:[:;] in `[^`]+`, of this cycle of calls)?[:;] it (?:[^;]*?, which (?:is|are) not proved|waits for the proof of [^;]*)"
)
ERROR = re.compile(r"^(?:\./)?(\S+?)/([^/\s]+:\d+:\d+): error: (.*)", re.M)
FOLLOWS = re.compile(r"depends? on `[^`]+`, which was (?:rejected|not admitted)")
# the texts of errors in proofs that only name something that an edit removed
IS_GONE = re.compile(r"has no field|is not in scope|has no `|was not admitted")
Edit = namedtuple("Edit", "crate name functions changes")  # each change is a file, an old text and a new one
KEPT = Path(os.environ.get("XDG_CACHE_HOME") or "~/.cache").expanduser() / "rocktray" / "edits"
KEPT_DAYS = 60  # an edit that no run asked for in that time is tried again


def edits_in(crate, text):
    """The edits that a file lists."""
    file, found = "", []
    for entry in text.strip("\n").split("\n\n"):
        if not (read := ENTRY.fullmatch(entry)):
            sys.exit(f"{crate}: this is no edit: {entry}")
        file = read[1] or file
        changes = tuple((file, *pair) for pair in re.findall("\nold: (.+)\nnew: ?(.*)", read[4]))
        found.append(Edit(crate, f"{crate}/{read[2]}", tuple(read[3].split()), changes))
    return found


def replaced(file, before, pairs):
    """The text of a file with all pairs replaced, each of which occurs in it once."""
    text = before
    for old, new in sorted(pairs, key=lambda it: -before.find(it[0])):
        at = before.find(old)
        is_clause = re.search(r"\b(requires|ensures|ghost)\b|≡", old + new)
        if before.count(old) != 1 or not text.startswith(old, at) or is_clause:
            sys.exit(f"{file} has this text not once, or it is of a clause, or two edits change it: {old}")
        text = text[:at] + new + text[at + len(old) :]
    return text


def batches_of(edits):
    """The edits of a crate in batches, in which no function is changed twice."""
    batches = []
    for edit in edits:
        meets = lambda it: set(it.functions) & set(edit.functions)
        if all(any(map(meets, batch)) for batch in batches):
            batches.append([])
        next(batch for batch in batches if not any(map(meets, batch))).append(edit)
    return batches


def function_of(directories, directory, what):
    """The function to whose proof an error belongs, or None. Functions that call one another share a directory, where the
    name of a goal begins with that of its function."""
    goal = re.match(r"`(\w+)-", what)
    beside = f"{os.path.dirname(directory)}/{goal[1]}" if goal else None
    return directories.get(directory) or directories.get(beside)


def judge(edits, text):
    """What to say of each edit after a check that printed this text. An edit is `refused` where each of its functions
    has a goal that is not proved; all other functions have to be fine."""
    if not re.search(r"^only=\d+ proved=", text, re.M):
        first = next((it for it in text.split("\n") if "error" in it), text[-300:])
        return dict.fromkeys(edits, f"the check gives no verdict: {first}")
    found, others, told, cycles = {}, [], {}, set()
    for kind, name, status, rest in TOLD.findall(text):
        own = WAITS.sub("", rest).strip(" :;")
        waits = rest and not own and (status == "no proof" or kind != "fn")
        goals = [goal for it in re.findall("did not prove ([^;]*)", own) for goal in re.findall("`([^`]+)`", it)]
        found[name] = None if status == "proved" or waits else goals
    directories = {"proofs/" + it.partition("::")[2].replace("::", "/"): it for it in found}
    for directory, place, what in ERROR.findall(text):
        name = function_of(directories, directory.replace("+", ""), what)
        if name and directory.replace("+", "") not in directories:
            cycles.add(name.rpartition("::")[0])
        if name:
            found[name] = (found[name] or []) + [f"{place}: {what[:150]}"] * (not IS_GONE.search(what))
        elif not FOLLOWS.search(what):
            others.append(f"{directory}/{place}: {what[:150]}")
    changed = {it for edit in edits for it in edit.functions}
    # a function that calls one of these, and is called by it, is not proved without it
    in_cycle = {name for name, goals in found.items() if goals == [] and name.rpartition("::")[0] in cycles}
    others += [name for name, goals in found.items() if goals is not None and name not in changed | in_cycle]
    if others:
        return dict.fromkeys(edits, f"what no edit changes is not proved: {others[0]}")
    for edit in edits:
        goals = [found.get(it) for it in edit.functions]
        why = "NOT REFUSED" if None in goals else "its proof only names what is gone"
        told[edit] = f"refused: {goals[0][0]}" if all(goals) else why
    return told


def stamps_in(top):
    """The text by which rt recognizes each library of a repository; nothing if the kit does not give it this way."""
    kit = Path(subprocess.run(["rt", "doc"], stdout=subprocess.PIPE, text=True, check=True).stdout.strip()).parent
    sys.path.insert(0, f"{kit}/bin")
    sys.dont_write_bytecode = True  # nothing is written into the kit
    try:
        import rtlib

        return {it.name: it.stamp() for it in rtlib.crates_below(top)}
    except (ImportError, AttributeError, TypeError, SystemExit):
        return {}


class Kept:
    """The edits that earlier runs on this machine saw refused: an empty file for each."""

    def __init__(self, stamps, is_anew):
        self.stamps, self.is_anew = stamps, is_anew
        said = subprocess.run(["rt", "version"], stdout=subprocess.PIPE, check=True).stdout
        self.sum = hashlib.sha256(said + Path(__file__).read_bytes())
        if KEPT.is_dir():
            for old in KEPT.iterdir():
                if old.stat().st_mtime < time.time() - KEPT_DAYS * 86400:
                    old.unlink(missing_ok=True)

    def file(self, edit):
        """The file of an edit, or None if the kit does not say by what it recognizes sources."""
        if edit.crate not in self.stamps:
            return None
        found = self.sum.copy()
        found.update(repr((self.stamps[edit.crate], edit)).encode())
        return KEPT / found.hexdigest()

    def has(self, edit):
        """Whether an earlier run saw this edit refused."""
        file = None if self.is_anew else self.file(edit)
        if not file or not file.exists():
            return False
        os.utime(file)
        return True

    def keep(self, edit):
        """Notes that this edit was refused, if that can be written."""
        file = self.file(edit)
        try:
            if file:
                KEPT.mkdir(parents=True, exist_ok=True)
                file.touch()
        except OSError:
            pass


class Run:
    """A copy of the repository with its libraries; and of each edit whether it passed."""

    def __init__(self, scratch, jobs, libraries, is_anew):
        listed = dict(re.findall(r"^(\w+)[^:#\n]*:(.*)", (TOP / "crates.txt").read_text("utf-8"), re.M))
        self.deps = {name: [it for it in below.split() if it in listed] for name, below in listed.items()}
        self.scratch, self.lanes, self.libraries = scratch, threading.Semaphore(jobs), {}
        self.copy(TOP, f"{scratch}/base", [] if libraries else self.deps, shutil.copy2)
        self.given, self.stamps, self.passed = libraries, stamps_in(f"{scratch}/base"), []
        self.kept = Kept(self.stamps, is_anew)

    def below(self, crate):
        """All that the crate depends on."""
        return set(self.deps[crate]).union(*map(self.below, self.deps[crate]))

    def copy(self, top, to, proved, how):
        """Makes a copy of the repository, with what was made of these crates."""
        for crate in self.deps:
            skip = shutil.ignore_patterns("edits", "stdin", "stdout", *["out"] * (crate not in proved))
            shutil.copytree(f"{top}/crates/{crate}", f"{to}/crates/{crate}", copy_function=how, ignore=skip)
        shutil.copy2(f"{top}/crates.txt", to)
        shutil.copy2(f"{top}/HANDLES", to)

    def rt(self, what, crate, top, *arguments, jobs=1):
        """Runs rt on one processor (on four a check takes half as much again of them), and returns what it printed."""
        command = ["timeout", "--foreground", "3600", "rt", *arguments, "--jobs", str(jobs)]
        how = {"cwd": f"{top}/crates/{crate}", "stdin": subprocess.DEVNULL, "stdout": subprocess.PIPE, "errors": "replace"}
        with self.lanes:
            start = time.monotonic()
            said = subprocess.run(command, stderr=subprocess.STDOUT, **how).stdout
            print(f"{crate}: {what}: {time.monotonic() - start:.0f} s", flush=True)
        return said

    def make_library(self, crate):
        """Has a library in the base, once those below it are there: one that is given, or one that is proved here."""
        for it in self.deps[crate]:
            self.libraries[it].result()
        made = Path(f"{self.scratch}/base/crates/{crate}/out/rlib")
        has_ended = not self.given or crate not in self.stamps
        while not has_ended:
            has_ended = (self.given / "ended").exists()
            if (self.given / crate).exists():
                shutil.copytree(self.given / crate, made)
                (made / "stamp").write_text(self.stamps[crate], "utf-8")
                return
            time.sleep(2)
        said = self.rt("proved as it is", crate, f"{self.scratch}/base", "lib", jobs=2)
        if not (made / "stamp").exists():
            sys.exit(f"{crate} is not proved as it is: {said[-300:]}")

    def try_batch(self, crate, edits):
        """Checks in the crate's copy what these edits change, and says what comes of each."""
        top, before, pairs = f"{self.scratch}/{crate}", {}, {}
        for file, *pair in {change for edit in edits for change in edit.changes}:
            pairs.setdefault(Path(f"{top}/crates/{crate}/{file}"), []).append(pair)
        only = [argument for edit in edits for it in edit.functions for argument in ("--only", it)]
        try:
            for path in pairs:
                before[path] = path.read_text("utf-8")
                text = replaced(path.name, before[path], pairs[path])
                path.unlink()  # the base may have the same file
                path.write_text(text, "utf-8")
            told = judge(edits, self.rt(f"{len(edits)} edits", crate, top, "check", *only))
        except SystemExit as stopped:
            told = dict.fromkeys(edits, str(stopped))
        for path, text in before.items():
            path.write_text(text, "utf-8")
        for edit, text in told.items():
            self.passed.append(text.startswith("refused"))
            if self.passed[-1]:
                self.kept.keep(edit)
            print(f"{'passed' if self.passed[-1] else 'FAILED'} {edit.name}: {text}", flush=True)

    def try_crate(self, crate, edits, archive):
        """Tries the edits of a crate, each batch over what was proved before it; builds the crate first for an archive."""
        proved, top = self.below(crate) | (set() if self.given else {crate} & set(self.libraries)), f"{self.scratch}/{crate}"
        for it in proved:
            self.libraries[it].result()
        self.copy(f"{self.scratch}/base", top, proved, os.link)
        if archive and Path(archive).name == f"lib{crate}.a":
            self.rt("built", crate, top, "lib", jobs=2)
            shutil.copyfile(f"{top}/crates/{crate}/out/lib{crate}.a", f"{archive}.part")
            os.replace(f"{archive}.part", archive)  # whoever waits for it sees it whole
        for batch in batches_of(edits):
            self.try_batch(crate, batch)
        shutil.rmtree(top)

    def try_all(self, edits, archive):
        """Tries the edits that no earlier run saw refused, those of each crate beside those of others, over the libraries
        that they need."""
        left = [it for it in edits if not self.kept.has(it)]
        self.passed += [True] * (len(edits) - len(left))
        print(f"{len(self.passed)} of {len(edits)} edits are kept: an earlier run on this machine saw them refused", flush=True)
        wanted = {it.crate for it in left} | {it for it in self.deps if archive and Path(archive).name == f"lib{it}.a"}
        of = {crate: [it for it in left if it.crate == crate] for crate in self.deps if crate in wanted}
        needed = set().union(*map(self.below, of))
        with ThreadPoolExecutor(max(1, len(needed) + len(of))) as pool:
            for it in [it for it in self.deps if it in needed]:
                self.libraries[it] = pool.submit(self.make_library, it)
            for it in [pool.submit(self.try_crate, crate, its, archive) for crate, its in of.items()]:
                it.result()


def self_test():
    """Tests what reads edits, and what a check prints."""
    one, two = edits_in("low", "file: a\nname: one\nfunction: a\nold:  x\nnew:\n\nname: two\nfunction: a b\nold: y\nnew: z\n")
    assert (one.changes, two.functions, two.changes) == ((("a", " x", ""),), ("a", "b"), (("a", "y", "z"),))
    assert batches_of([one, two, one._replace(functions=("b",))]) == [[one, one._replace(functions=("b",))], [two]]
    assert replaced("a", "f(x) g(y)", [("f(x)", "f(yy)"), ("(y)", "(x)")]) == "f(yy) g(x)"
    said = "./proofs/+both/A.antt:6:1: error: `b-returns`: differs\n./proofs/+c/A.antt:2:3: error: it has no field `x`\n"
    said += "fn low::d: proved\nfn low::a: no proof: `search` did not prove `goal`; it calls `low::b`, which is not proved\n"
    said += "fn low::b: not proved; it calls `low::a`, which is not proved\nfn low::c: not proved\nonly=4 proved=1\n"
    said += "fn low::f: not proved\n"
    said += "fn low::e: no proof: it calls `low::a` and `low::b`, which are not proved\n"
    said += "fn low::g: no proof: in `low::h`, of this cycle of calls: it calls `low::a`, which is not proved\n"
    edits = [one._replace(name=it, functions=(f"low::{it}",)) for it in "abcd"]
    assert [it[:7] for it in judge(edits, said).values()] == ["refused", "refused", "its pro", "NOT REF"]
    for told in (judge(edits[1:], said), judge(edits, said + "src/lib.rt:1:2: error: no\n")):
        assert all(it.startswith("what no edit changes is not proved") for it in told.values())


def main():
    self_test()
    reader = argparse.ArgumentParser(description=__doc__, formatter_class=argparse.RawDescriptionHelpFormatter)
    reader.add_argument("--archive", metavar="FILE", help="where the static library libCRATE.a of a crate with edits goes")
    reader.add_argument("--anew", action="store_true", help="try all, whatever was kept")
    reader.add_argument("--libraries", metavar="DIRECTORY", type=Path, help="where prove_all.py puts the libraries")
    reader.add_argument("--jobs", type=int, default=2, help="how many checks at once, 2 if left out; each takes up to 4 GB")
    reader.add_argument("names", nargs="*", metavar="NAME", help="a crate, or an edit as CRATE/NAME; without any, all")
    given, paths = reader.parse_args(), sorted(TOP.glob("crates/*/edits/*.txt"))
    edits = [edit for path in paths for edit in edits_in(path.parts[-3], path.read_text("utf-8"))]
    for it in set(given.names) - {it.crate for it in edits} - {it.name for it in edits}:
        reader.error(f"there is no crate with edits, and no edit, of the name {it}")
    if shutil.which("rt") is None:
        print("try_edits.py: this needs the Rattle kit, whose command is rt", file=sys.stderr)
        return 2
    with tempfile.TemporaryDirectory(prefix="try-edits-") as scratch:
        signal.signal(signal.SIGTERM, lambda *_: (shutil.rmtree(scratch, ignore_errors=True), os._exit(1)))
        run = Run(scratch, given.jobs, given.libraries, given.anew)
        run.try_all([it for it in edits if not given.names or {it.crate, it.name} & set(given.names)], given.archive)
    print(f"{run.passed.count(True)} passed, {run.passed.count(False)} failed")
    return 1 if False in run.passed else 0


if __name__ == "__main__":
    sys.exit(main())
