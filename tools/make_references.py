#!/usr/bin/env python3
"""Makes crates/mail_html/src/named.rt, the named character references, from Python's html.entities.

With --check it writes nothing and reports whether the file is what Python's table gives; the last
line is then `N passed, N failed`, and the exit status is 1 if it is not.
"""
import argparse
import html.entities
import os
import sys

TOP = os.path.dirname(os.path.dirname(os.path.abspath(__file__)))
PATH = os.path.join(TOP, "crates", "mail_html", "src", "named.rt")
# the names that mail uses most come first in their group
FREQUENT = [
    "nbsp;", "amp;", "lt;", "gt;", "quot;", "apos;", "rsquo;", "lsquo;", "rdquo;", "ldquo;", "ndash;", "mdash;",
    "hellip;", "copy;", "reg;", "trade;", "bull;", "middot;", "zwnj;", "zwj;", "shy;", "euro;", "eacute;", "uuml;",
    "ouml;", "auml;", "szlig;", "laquo;", "raquo;", "rarr;", "larr;", "times;", "deg;",
]


def order(name):
    """Returns where a name comes in its group: names without a semicolon come last, the longest of them first."""
    rank = FREQUENT.index(name) if name in FREQUENT else len(FREQUENT)
    if name.rstrip(";") in html.entities.entitydefs:
        rank -= 0.5
    return (not name.endswith(";"), 0 if name.endswith(";") else -len(name), rank, name)


def escaped(text):
    """Returns a text as the contents of a literal."""
    return "".join("\\u{%04X}" % ord(c) for c in text)


def constant(first):
    """Returns the name of the group of names that begin with a letter."""
    return ("UPPER_" if first.isupper() else "LOWER_") + first.upper()


def group_source(first, names):
    """Returns the lines of the group of names that begin with a letter."""
    lines = ["", "#[rattlefmt::skip]"]
    lines += ["static %s: [(&str, &str); %d] = [" % (constant(first), len(names))]
    line = "   "
    for name in names:
        item = ' ("%s", "%s"),' % (name, escaped(html.entities.html5[name]))
        if len(line) + len(item) > 118:
            lines.append(line)
            line = "   "
        line += item
    lines.append(line)
    lines.append("];")
    return lines


def source():
    """Returns the file."""
    groups = {}
    for name in sorted(html.entities.html5, key=order):
        groups.setdefault(name[0], []).append(name)
    lines = ["//! The named character references, made by `tools/make_references.py`; do not edit them."]
    for first in sorted(groups):
        lines += group_source(first, groups[first])
    lines += ["", "/// Returns the names by their first letters; a name is after each longer name that begins with it."]
    lines += ["#[rattlefmt::skip]"]
    lines += ["pub(crate) fn named() -> [(u8, &'static [(&'static str, &'static str)]); %d] {" % len(groups), "    ["]
    lines += ["        (b'%s', &%s)," % (first, constant(first)) for first in sorted(groups)] + ["    ]", "}"]
    return "\n".join(lines + [""])


def main():
    """Makes the file, or compares with it."""
    parser = argparse.ArgumentParser(description=__doc__, formatter_class=argparse.RawDescriptionHelpFormatter)
    parser.add_argument("--check", action="store_true", help="compare, and write nothing")
    made = source()
    if not parser.parse_args().check:
        with open(PATH, "w", encoding="utf-8") as file:
            file.write(made)
        return 0
    with open(PATH, encoding="utf-8") as file:
        same = file.read() == made
    print("%d passed, %d failed" % (same, not same))
    return 0 if same else 1


if __name__ == "__main__":
    sys.exit(main())
