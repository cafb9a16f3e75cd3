#!/usr/bin/env python3
"""Times this reader beside others, and prints a table in Markdown.

    bench/bench.py                            all cases that need nothing else
    bench/bench.py small headers              these cases
    bench/bench.py --oracle PROGRAM --real DIRECTORY   beside the Rust crate, and on real mails

Cases named `json-..` and `show-..` measure the programs: seconds and peak memory; those named `c-..` the C library beside
GMime, and those named `python-..` the Python module beside Python's email, in at most five turns: microseconds for each
mail. Else a cell is nanoseconds for each
byte: the least of all rounds. All readers take turns, so that a machine that slows down for a while does so for each; a
turn lasts a fifth of a second or one round, and a reader that takes more than a second for one round has three turns.
With --instructions a cell is instructions for each byte, counted by valgrind's callgrind: the same in each run. A cell
in brackets belongs to a reader that decodes less than three quarters of what another does. The last column is one copy
of the bytes. With --json FILE the figures are written as JSON too.

The programs must be built (tools/program.sh mail_speed and so on); other readers that are missing are named, and left
out. The Rust crate is --oracle PROGRAM (oracle/crate), --encoding-rs PROGRAM decodes encodings of several bytes
alone. GMime needs libgmime-3.0-dev; it copies the input first, reads mails inside `message/rfc822` too, and mailboxes
by its own reader. mimetic needs libmimetic-dev; it leaves encoded words in values, and finds no parts after a
multipart without its end. Python's email reads mails inside `message/rfc822` too. The cases `html` and `real-html` are
read by html.parser, with a collector of text, and by `lynx -dump`, whose start is taken off. fetch_real.sh DIRECTORY takes real
mails for --real out of Debian's source packages, and made_mails.py makes the others. README.md has figures.
"""
import argparse
import json
import os
import re
import shutil
import subprocess
import sys
import tempfile
import time
from dataclasses import dataclass

HERE = os.path.dirname(os.path.abspath(__file__))
TOP = os.path.dirname(HERE)
sys.path[:0] = [HERE, os.path.join(TOP, "oracle")]

import c_library
import made_mails
import python_module
import real_mail
from texts import CHARSETS, html_of, text_of

TURN = 2e8  # nanoseconds of a turn
SLOW = 1e9  # a round that takes longer has three turns


def leave_out(what, why):
    """Reports that a reader or a case is left out."""
    print(f"bench.py: {what} is left out: {why}", file=sys.stderr)


def program(name):
    """The built program of a crate."""
    path = os.path.join(TOP, "crates", name, "out", name)
    if not os.path.exists(path):
        sys.exit(f"bench.py: {name} is not built: run tools/program.sh {name}")
    return path


@dataclass
class Case:
    """A case: what it is, how its input is made at a scale, and what is done with it."""

    title: str
    make: callable
    works: tuple = ("parse", "all")


def made(kind, *works):
    """The case of a made mail."""
    title, make = made_mails.KINDS[kind]
    return Case(title, make, works or ("parse", "all"))


def lines_of(length):
    """The case of searches in lines of that length."""
    line = b"x" * (length - 1) + b"\n"
    return Case(f"1 MB of lines of {length}", lambda scale: line * int(scale * 1_000_000 // length), ("absent", "lines"))


def charset(label):
    """The case of a text in an encoding of several bytes."""
    return Case(f"10 MB in {label}", lambda scale: text_of(label, int(scale * 10_000_000)), (label,))


CASES = {
    "attachment": made("attachment"),
    "small": made("small"),
    "mailbox": made("mailbox", "mailbox-parse", "mailbox-all"),
    "headers": made("headers"),
    "quoted-text": made("quoted-text", "all"),
    "quoted-escapes": made("quoted-escapes", "all"),
    "lines-76": lines_of(76),
    "lines-20": lines_of(20),
    "base64": made("base64-body", "text", "whitespace", "base64", "base64-body"),
    "padded": made("padded-body", "base64-body"),
    "text": made("text-body", "quoted-printable"),
    "escapes": made("escapes-body", "quoted-printable"),
    **{kind: made(kind, "values") for kind in ("folds", "folded-letters", "openings", "encoded-words", "letters")},
    **{label: charset(label) for label in CHARSETS},
    "html": Case("HTML of newsletters", lambda scale: html_of(int(scale * 1_000_000)), ("html",)),
}
REAL = {
    "real": ("one real mail", 6_000_000, real_mail.as_parts, ("parse", "all")),
    "real-300k": ("one real mail", 300_000, real_mail.as_parts, ("parse", "all")),
    "real-mailbox": ("a mailbox of real mails", 6_000_000, real_mail.as_mailbox, ("mailbox-parse", "mailbox-all")),
    "real-check": ("the findings of a mailbox of real mails", 6_000_000, real_mail.as_mailbox, ("mailbox-all", "mailbox-check")),
    "real-html": ("the HTML parts", 60_000_000, real_mail.as_html, ("html",)),
}
# what others call `all` is `full` here
OURS = {"all": "full", "mailbox-all": "mailbox-full"}
# works that other readers of mail do not have
CODECS = {"absent", "lines", "text", "whitespace", "base64", "base64-body", "quoted-printable", "values", "html", "mailbox-check"}


@dataclass
class Reader:
    """A reader: its title, and the command of it for a number of rounds and a work, or None if it has no such work."""

    title: str
    command: callable

    def run(self, rounds, work, data):
        """The least time of some rounds, and how much they made if the reader says; or None."""
        command = self.command(str(rounds), work)
        if command is None:
            return None
        with open(data, "rb") as file:
            ended = subprocess.run(command, stdin=file, capture_output=True, text=True, check=False)
        said = ended.stdout + ended.stderr
        least = re.search(r"(?:least|min) ([0-9.]+)", said) or re.search(r"\A([0-9.]+)\n", said)
        makes = re.search(r", makes ([0-9]+)$", said, re.M)
        return (float(least[1]), int(makes[1]) if makes else None) if least and ended.returncode == 0 else None


def compiled(name, source, compiler, package, flags, work):
    """A reader in C or C++, or None."""
    target = os.path.join(work, name)
    built = subprocess.run([compiler, "-O2", "-o", target, os.path.join(HERE, "readers", source), *flags], check=False,
                           capture_output=True)
    if built.returncode != 0:
        leave_out(name, f"it needs {package} of Debian")
        return None
    return Reader(name, lambda rounds, it: None if is_codec(it) else [target, "bench", rounds, it])


def is_codec(work):
    """Whether other readers of mail do not have a work."""
    return work in CODECS or work in CHARSETS


def pkg_config(name):
    """The flags of a library."""
    ended = subprocess.run(["pkg-config", "--cflags", "--libs", name], capture_output=True, text=True, check=False)
    return ended.stdout.split()


def readers(asked, work):
    """All readers that are there."""
    ours = program("mail_speed")
    found = [Reader("here", lambda rounds, it: [ours, rounds, OURS.get(it, it)])]
    if asked.beside:
        found.append(Reader("beside", lambda rounds, it: [asked.beside, rounds, OURS.get(it, it)]))
    if asked.oracle:
        found.append(Reader("crate", lambda rounds, it: crate_command(asked.oracle, rounds, it)))
    else:
        leave_out("crate", "no --oracle is given")
    if asked.encoding_rs:
        found.append(Reader("encoding_rs", lambda rounds, it: [asked.encoding_rs, "time", rounds, it] if it in CHARSETS else None))
    found.append(compiled("gmime", "gmime_reader.c", "cc", "libgmime-3.0-dev", pkg_config("gmime-3.0"), work))
    found.append(compiled("mimetic", "mimetic_reader.cc", "c++", "libmimetic-dev", ["-lmimetic"], work))
    if not asked.instructions:
        script = os.path.join(HERE, "readers", "email_reader.py")
        found.append(Reader("email", lambda rounds, it: None if is_codec(it) else [sys.executable, script, "bench", rounds, it]))
        found += [html_reader(name) for name in ("html.parser", "lynx") if {"html", "real-html"} & set(asked.cases)]
    return [reader for reader in found if reader]


def html_reader(name):
    """A reader of HTML, or None."""
    if name == "lynx" and not shutil.which(name):
        leave_out(name, "it is not installed")
        return None
    script = os.path.join(HERE, "readers", "html_reader.py")
    return Reader(name, lambda rounds, it: [sys.executable, script, name, rounds] if it == "html" else None)


def crate_command(oracle, rounds, work):
    """The command of the crate."""
    if work in ("absent", "lines"):
        return [oracle, "search", rounds]
    return None if is_codec(work) else [oracle, "bench", rounds, work]


def timed(all_readers, works, data, turns):
    """The least time of each reader and work, and how much was made."""
    size = max(os.path.getsize(data), 1)
    least, made_by = {}, {}
    for number in range(1, turns + 1):
        for reader in all_readers:
            for work in works:
                took = least.get((reader.title, work), 0) * size
                if took > SLOW and number > 3:
                    continue
                rounds = max(1, min(1000, int(TURN / took))) if took else 1
                found = reader.run(rounds, work, data)
                if found:
                    key = reader.title, work
                    least[key] = min(least.get(key, found[0]), found[0])
                    made_by[key] = found[1]
    return least, made_by


def instructions(command, data):
    """The instructions of a run."""
    counter = ["valgrind", "--tool=callgrind", "--callgrind-out-file=/dev/null", *command]
    with open(data, "rb") as file:
        ended = subprocess.run(counter, stdin=file, capture_output=True, text=True, check=False)
    found = re.search(r"Collected *: *([0-9]+)", ended.stderr)
    return int(found[1]) if found and ended.returncode == 0 else None


def counted(all_readers, works, data, _turns):
    """The instructions for each byte: those of two rounds without those of one."""
    found = {}
    for reader in all_readers:
        for work in works:
            counts = [instructions(reader.command(rounds, work), data) for rounds in "12" if reader.command(rounds, work)]
            if len(counts) == 2 and None not in counts:
                found[reader.title, work] = (counts[1] - counts[0]) / os.path.getsize(data)
    return found, {}


def copied(data):
    """The time of one copy of the input, the least of 40."""
    with open(data, "rb") as file:
        source = file.read()
    target, times = memoryview(bytearray(len(source))), []
    for _ in range(40):
        start = time.perf_counter_ns()
        target[:] = source
        times.append(time.perf_counter_ns() - start)
    return min(times) / len(source)


def short(number):
    """A number as the table has it."""
    return f"{number:.{2 if number < 1 else 1 if number < 10 else 0}f}"


def cell(title, works, least, made_by):
    """The numbers of a reader."""
    numbers = [least.get((title, work)) for work in works]
    if None in numbers:
        return ""
    text = "; ".join(map(short, numbers))
    most = max((it for it in made_by.values() if it), default=0)
    makes = made_by.get((title, works[-1]))
    return f"({text})" if makes is not None and 4 * makes < 3 * most else text


def input_of(name, asked, work, scale):
    """The title of a case and the file with its input."""
    data = os.path.join(work, "input")
    if name in REAL:
        title, size, form, works = REAL[name]
        mails = list(real_mail.chosen([asked.real], int(size * scale), program("mail_speed")))
        content = form(mails)
        title = f"{title} of {len(mails)} mails"
    else:
        title, content, works = CASES[name].title, CASES[name].make(scale), CASES[name].works
    with open(data, "wb") as file:
        file.write(content)
    return f"{title}, {len(content) / 1e6:.2f} MB: {', '.join(works)}", works, data


def table(asked, work):
    """Prints the table, and yields the figures of each case."""
    names = [name for name in asked.cases if name not in {*PROGRAMS, *python_module.CASES, *c_library.CASES}]
    if not names:
        return
    all_readers = readers(asked, work)
    unit = "instructions" if asked.instructions else "ns"
    titles = [reader.title for reader in all_readers] + ["ratio to the crate"] * bool(asked.oracle) + ["a copy"]
    print(f"In {unit} for each byte; {os.cpu_count()} processors: {processor()}\n")
    print("| What | " + " | ".join(titles) + " |\n" + "|---" * (len(titles) + 1) + "|")
    measure = counted if asked.instructions else timed
    for name in names:
        print(f"bench.py: {name}", file=sys.stderr)
        title, works, data = input_of(name, asked, work, 0.1 if asked.instructions else 1)
        least, made_by = measure(all_readers, works, data, asked.turns)
        cells = [cell(reader.title, works, least, made_by) for reader in all_readers]
        if asked.oracle:
            pairs = [(least.get(("here", it)), least.get(("crate", it))) for it in works]
            cells.append("; ".join(f"{ours / theirs:.2f}" for ours, theirs in pairs if ours and theirs))
        print(f"| {title} | " + " | ".join([*cells, short(copied(data))]) + " |", flush=True)
        yield name, {f"{reader} {it}": value for (reader, it), value in least.items()}


# by case: a program and its options, the input at a scale, and the options of by_email.py or None
PROGRAMS = {
    "json-attachment": ("rocktray", ["json"], "attachment", 1, []),
    "json-small": ("rocktray", ["json"], "small", 1, []),
    "json-headers": ("rocktray", ["json"], "headers", 1, []),
    "json-mailbox": ("rocktray", ["json", "--mbox"], "mailbox", 10, ["--mbox"]),
    "json-gigabytes": ("rocktray", ["json", "--mbox"], "mailbox", 400, None),
    "show-gigabyte": ("mail_show", [], "attachment", 50, None),
}


def ran(command, data):
    """The seconds of a run, and its peak memory in MB."""
    with open(data, "rb") as file, tempfile.NamedTemporaryFile("r") as report:
        start = time.perf_counter()
        subprocess.run(["/usr/bin/time", "-q", "-o", report.name, "-f", "%M", *command], stdin=file, check=True,
                       stdout=subprocess.DEVNULL)
        return time.perf_counter() - start, int(report.read()) / 1000


def program_table(asked, work):
    """Prints the times and the peak memory of the programs, and yields the figures of each case."""
    names = [name for name in asked.cases if name in PROGRAMS]
    if names:
        print("\n| Program and input | seconds | peak MB | Python's email, seconds |\n|---|---|---|---|")
    for name in names:
        print(f"bench.py: {name}", file=sys.stderr)
        crate, options, kind, scale, beside = PROGRAMS[name]
        data = os.path.join(work, "input")
        with open(data, "wb") as file:
            file.write(made_mails.KINDS[kind][1](scale))
        runs = [ran([program(crate), *options], data) for _ in range(3)]
        seconds, memory = min(runs)[0], max(it for _, it in runs)
        by_email = [sys.executable, os.path.join(TOP, "oracle", "by_email.py")]
        theirs = min(ran([*by_email, *beside], data)[0] for _ in range(2)) if beside is not None else None
        said = f"{theirs:.2f}" if theirs else ""
        print(f"| {' '.join([crate, *options[:1]])} on {kind}, {os.path.getsize(data) / 1e6:.0f} MB | {seconds:.3f} | {memory:.0f} | {said} |", flush=True)
        yield name, {"seconds": seconds, "megabytes": memory, "email": theirs}


def c_library_table(asked, work):
    """Prints the times of the C library, and yields the figures of each case."""
    names = [name for name in asked.cases if name in c_library.CASES]
    if not names:
        return
    flags = c_library.installed(work)
    ours = compiled("here", "rocktray_reader.c", "cc", "the C library", flags, work)
    gmime = compiled("gmime", "gmime_reader.c", "cc", "libgmime-3.0-dev", pkg_config("gmime-3.0"), work)
    found = [reader for reader in (ours, gmime) if reader]
    yield from c_library.table(names, asked.real, found, timed, asked.turns, work, program("mail_speed"))


def processor():
    """The name of the processor."""
    with open("/proc/cpuinfo", encoding="utf-8") as file:
        return next((line.partition(": ")[2].strip() for line in file if line.startswith("model name")), "unknown")


def arguments():
    """The arguments."""
    parser = argparse.ArgumentParser(description=__doc__, formatter_class=argparse.RawDescriptionHelpFormatter)
    parser.add_argument("--instructions", action="store_true", help="count instructions, on a tenth of the size")
    parser.add_argument("--oracle", metavar="PROGRAM", help="the program of oracle/crate")
    parser.add_argument("--encoding-rs", metavar="PROGRAM", help="the program of oracle/encoding_rs")
    parser.add_argument("--beside", metavar="PROGRAM", help="another build of mail_speed")
    parser.add_argument("--real", metavar="DIRECTORY", help="real mails, as fetch_real.sh makes the directory")
    parser.add_argument("--turns", metavar="N", type=int, default=16, help="the turns of each reader (16)")
    parser.add_argument("--json", metavar="FILE", help="write the figures to a file too")
    parser.add_argument("cases", metavar="CASE", nargs="*", help=f"of {', '.join([*REAL, *CASES, *PROGRAMS, *c_library.CASES, *python_module.CASES])}")
    asked = parser.parse_args()
    for name in asked.cases:
        if name not in {*CASES, *REAL, *PROGRAMS, *c_library.CASES, *python_module.CASES}:
            parser.error(f"{name} is no case")
    if any(name in REAL or name in ("c-real", "python-real") for name in asked.cases) and not asked.real:
        parser.error("real mails are given by --real")
    if asked.instructions and not shutil.which("valgrind"):
        parser.error("counting instructions needs valgrind")
    asked.cases = asked.cases or [*(REAL if asked.real else ()), *CASES]
    return asked


def main():
    """Times all cases."""
    asked = arguments()
    with tempfile.TemporaryDirectory() as work:
        figures = dict(table(asked, work)) | dict(program_table(asked, work)) | dict(c_library_table(asked, work))
    in_python = [name for name in asked.cases if name in python_module.CASES]
    figures |= python_module.table(in_python, asked.real, min(asked.turns, 5))
    if asked.json:
        with open(asked.json, "w", encoding="utf-8") as file:
            json.dump({"processor": processor(), "instructions": asked.instructions, "cases": figures}, file, indent=1)


if __name__ == "__main__":
    main()
