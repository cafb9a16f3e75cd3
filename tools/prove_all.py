#!/usr/bin/env python3
"""Proves all crates, as `rt ci` does at the top, in an order that keeps the processors busy.

`rt ci` gives a crate a second job only while nothing else is ready, so it proves the crates of the longest chain by one
job each, beside idle processors. If the kit keeps what it proved on a machine, each library that others depend on is
first proved in a directory of its own, with only the crates below it: half as many of them at once as there are
processors, those with the most lines above them first. The `rt ci` at the top that follows is the verdict; it takes what
was kept, and proves the rest. With --anew it proves all, as it does in a kit that keeps nothing.

DIRECTORY, which is made, gets the library of each crate under its name as soon as it is proved, for try_edits.py, and a
file `ended` once nothing more comes. The times of the crates are printed at the end, with the processor time of all
proofs as a multiple of that of mail_codec: seconds depend on the machine and on what else it does, but this ratio
hardly. The last line is that of `rt ci`.
"""

import argparse
import os
import re
import shutil
import subprocess
import sys
import tempfile
import threading
import time
from collections import namedtuple
from pathlib import Path

TOP = Path(__file__).resolve().parent.parent
LINE = re.compile(r"^(\w+)([^:#\n]*):(.*)", re.M)
PROVED = re.compile(r"^rt: (\w+) (proved$|is kept)")
PASSED = re.compile(r"^\d+ passed, 0 failed")
Took = namedtuple("Took", "seconds processor is_kept")


def keeps():
    """Whether the kit keeps what it proved on a machine."""
    said = subprocess.run(["rt", "help"], stdout=subprocess.PIPE, stderr=subprocess.STDOUT, text=True, check=False)
    return "--anew" in said.stdout


def run(command, cwd, each):
    """Runs a command, hands its process id and each line that it prints to `each`, and returns its exit status, and the
    seconds and processor seconds that it took."""
    start = time.monotonic()
    piped = {"stdin": subprocess.DEVNULL, "stdout": subprocess.PIPE, "stderr": subprocess.STDOUT}
    # the program is waited for below, for its processor time
    program = subprocess.Popen(command, cwd=cwd, text=True, errors="replace", **piped)
    for line in program.stdout:
        each(program.pid, line)
    _, status, used = os.wait4(program.pid, 0)
    program.returncode = os.waitstatus_to_exitcode(status)
    return program.returncode, time.monotonic() - start, used.ru_utime + used.ru_stime


def processor_time(process):
    """The processor seconds of a process, of all that it waited for and of all that it runs."""
    try:
        stat = Path(f"/proc/{process}/stat").read_text("utf-8").rpartition(")")[2].split()
        children = [it for task in Path(f"/proc/{process}/task").iterdir() for it in (task / "children").read_text().split()]
    except OSError:
        return 0
    return sum(map(int, stat[11:15])) / os.sysconf("SC_CLK_TCK") + sum(map(processor_time, children))


class Proofs:
    """The crates of the repository, and what became of each."""

    def __init__(self, directory):
        self.lines = {it[1]: it for it in LINE.finditer((TOP / "crates.txt").read_text("utf-8"))}
        self.deps = {name: [it for it in line[3].split() if it in self.lines] for name, line in self.lines.items()}
        # what the crates took that were proved alone; after what the last run had proved the others; and that run
        self.took, self.last, self.rest = {}, {}, None
        self.directory, self.failed = directory, set()
        self.changed, self.printing = threading.Condition(), threading.Lock()
        self.libraries = {it for deps in self.deps.values() for it in deps}
        self.left, self.above = set(self.libraries), {}
        for name in self.left:
            self.lines_above(name)

    def below(self, name):
        """All that a crate depends on."""
        return set(self.deps[name]).union(*map(self.below, self.deps[name]))

    def lines_above(self, name):
        """The lines of the longest chain of crates from this one up."""
        if name not in self.above:
            files = [it for part in ("src", "specs", "proofs") for it in (TOP / "crates" / name / part).rglob("*.*t*")]
            users = [it for it, deps in self.deps.items() if name in deps]
            own = sum(it.read_bytes().count(b"\n") for it in files)
            self.above[name] = own + max(map(self.lines_above, users), default=0)
        return self.above[name]

    def say(self, text):
        """Prints a text at once."""
        with self.printing:
            print(text, end="", flush=True)

    def prove(self, name, scratch):
        """Proves a crate in a repository of it and those below it, and moves its library into the directory."""
        crates = [it for it in self.lines if it == name or it in self.below(name)]
        (scratch / "crates.txt").write_text("".join(f"{self.lines[it][0]}\n" for it in crates), "utf-8")
        shutil.copy2(TOP / "HANDLES", scratch)
        for it in crates:
            shutil.copytree(TOP / "crates" / it, scratch / "crates" / it, ignore=shutil.ignore_patterns("out", "edits"))
        said = []
        status, seconds, processor = run(["rt", "ci"], scratch, lambda _, line: said.append(line))
        is_kept = any(it.startswith(f"rt: {name} is kept") for it in said)
        self.took[name] = Took(seconds, processor, is_kept)
        if status or not said or not PASSED.match(said[-1]):
            self.say("".join(said).replace(os.fspath(scratch), os.fspath(TOP)))
            return False
        os.rename(scratch / "crates" / name / "out" / "rlib", self.directory / name)
        self.say(f"{name} {'is kept' if is_kept else 'proved'}: {seconds:.0f} s\n")
        return True

    def next(self):
        """The crate to prove next, once those below it are proved, or None if none is left."""
        with self.changed:
            while self.left:
                done = set(self.took) - self.failed
                ready = [it for it in self.left if set(self.deps[it]) <= done]
                if ready:
                    self.left.remove(best := max(ready, key=self.above.get))
                    return best
                if self.failed and not self.running():
                    break
                self.changed.wait()
            return None

    def running(self):
        """The crates that are being proved."""
        return self.libraries - self.left - set(self.took)

    def lane(self):
        """Proves crate after crate."""
        while name := self.next():
            with tempfile.TemporaryDirectory(prefix=f"prove-{name}-") as scratch:
                try:
                    is_proved = self.prove(name, Path(scratch))
                except OSError as error:
                    self.say(f"{name}: {error}\n")
                    is_proved = False
            with self.changed:
                if not is_proved:
                    self.failed.add(name)
                self.took.setdefault(name, Took(0, 0, False))
                self.changed.notify_all()

    def prove_libraries(self):
        """Proves all libraries that others depend on, half as many at once as there are processors."""
        lanes = [threading.Thread(target=self.lane) for _ in range(max(1, len(os.sched_getaffinity(0)) // 2))]
        for it in lanes:
            it.start()
        for it in lanes:
            it.join()

    def verdict(self, arguments):
        """Runs `rt ci` at the top, prints what it says but for its last line, and returns this and its exit status."""
        held, start = [""], time.monotonic()

        def each(process, line):
            self.say(held[0])
            held[0] = line
            if (read := PROVED.match(line)) and read[1] not in self.took:
                self.last[read[1]] = Took(time.monotonic() - start, processor_time(process), read[2] != "proved")
                self.give(read[1])

        status, seconds, processor = run(["rt", "ci", *arguments], TOP, each)
        self.rest = Took(seconds, processor, False)
        return status, held[0]

    def give(self, name):
        """Copies a library that `rt ci` proved at the top into the directory."""
        if name in self.libraries:
            shutil.copytree(TOP / "crates" / name / "out" / "rlib", self.directory / f".{name}")
            os.rename(self.directory / f".{name}", self.directory / name)

    def times(self):
        """What each crate took alone, when the others were proved by the last run, and all together."""
        for name, took in self.took.items():
            yield f"{name}: {took.seconds:.0f} s, {took.processor:.0f} processor seconds{', kept' * took.is_kept}"
        for name, took in self.last.items():
            yield f"{name}: {'kept' if took.is_kept else 'proved'} after {took.seconds:.0f} s of rt ci"
        yield f"rt ci: {self.rest.seconds:.0f} s, {self.rest.processor:.0f} processor seconds"
        first, every = {**self.last, **self.took}.get("mail_codec"), [*self.took.values(), *self.last.values()]
        if first is None or any(it.is_kept for it in every):
            yield "rt ci: not compared with mail_codec, since not all was proved in this run"
        else:
            total = self.rest.processor + sum(it.processor for it in self.took.values())
            yield f"rt ci: {total / first.processor:.1f} times mail_codec"


def main():
    reader = argparse.ArgumentParser(description=__doc__, formatter_class=argparse.RawDescriptionHelpFormatter)
    reader.add_argument("--anew", action="store_true", help="prove all, whatever was kept")
    reader.add_argument("directory", metavar="DIRECTORY", type=Path, help="where the libraries go")
    given = reader.parse_args()
    if shutil.which("rt") is None:
        print("prove_all.py: this needs the Rattle kit, whose command is rt", file=sys.stderr)
        return 2
    try:
        given.directory.mkdir()
    except OSError as error:
        reader.error(str(error))
    proofs, is_kept = Proofs(given.directory), keeps()
    try:
        if is_kept and not given.anew:
            proofs.prove_libraries()
        status, last = proofs.verdict(["--anew"] if is_kept and given.anew else [])
    finally:
        (given.directory / "ended").touch()
    print("\n".join(proofs.times()))
    print(last, end="")
    return status


if __name__ == "__main__":
    sys.exit(main())
