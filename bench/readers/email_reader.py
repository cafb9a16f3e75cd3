#!/usr/bin/env python3
"""Times reading mails by Python's email package, as README.md says: `bench ROUNDS WORK..`.

A WORK is `parse`, `all`, `mailbox-parse` or `mailbox-all`; the mail or the mailbox is on standard input.
"""
import argparse
import email
import os
import re
import statistics
import sys
import time

sys.path.insert(0, os.path.join(os.path.dirname(os.path.realpath(__file__)), "..", "..", "oracle"))
from by_email import has_parts, parts_of, shown

SEPARATOR = re.compile(rb"^From [^\n]*\n", re.MULTILINE)


def read_value(value):
    """Reads the value of a header as text, but for one that the package fails on."""
    try:
        shown(value)
    except (LookupError, ValueError):
        pass


def parse(data):
    """Reads a mail. Returns its number of headers."""
    return len(email.message_from_bytes(data))


def read_all(data):
    """Reads a mail, the values of its headers, and the bodies of its parts. Returns how long the bodies are."""
    made = 0
    for _path, part in parts_of(email.message_from_bytes(data)):
        for _name, value in part.raw_items():
            read_value(value)
        if not has_parts(part):
            made += len(part.get_payload(decode=True) or b"")
    return made


def mails_of(mailbox):
    """The mails of a mailbox: the text after each line that begins with `From `."""
    separators = list(SEPARATOR.finditer(mailbox))
    ends = [found.start() for found in separators[1:]] + [len(mailbox)]
    return [mailbox[found.end():end] for found, end in zip(separators, ends)]


WORKS = {
    "parse": parse,
    "all": read_all,
    "mailbox-parse": lambda data: sum(map(parse, mails_of(data))),
    "mailbox-all": lambda data: sum(map(read_all, mails_of(data))),
}


def main():
    """Prints the times of each work."""
    parser = argparse.ArgumentParser(description=__doc__, formatter_class=argparse.RawDescriptionHelpFormatter)
    parser.add_argument("command", choices=["bench"], help="the one command")
    parser.add_argument("rounds", metavar="ROUNDS", type=int, help="how many rounds are timed")
    parser.add_argument("works", metavar="WORK", nargs="+", choices=WORKS, help="what is timed")
    asked = parser.parse_args()
    data = sys.stdin.buffer.read()
    for name in asked.works:
        times = []
        for _round in range(asked.rounds):
            start = time.perf_counter_ns()
            made = WORKS[name](data)
            times.append((time.perf_counter_ns() - start) / max(len(data), 1))
        print(f"{name} min {min(times):.3f} median {statistics.median(times):.3f} ns/byte, makes {made}")


if __name__ == "__main__":
    main()
