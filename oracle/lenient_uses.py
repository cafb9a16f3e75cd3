#!/usr/bin/env python3
"""Counts on how many mails each lenient rule of docs/RULES.md is used.

Each PATH is a mail, a mailbox or a directory of such files. What `rocktray json` reads is compared with what the strict
rules give, as by_rules.py has them a second time; where that does not say which rule made the difference, the rule's own
condition is tested on the header as it is written. A mail counts once for each rule. Parts of mails inside mails are
left out. rocktray must be built (tools/program.sh rocktray). docs/DIFFERENCES.md has the counts on real mails.
"""
import argparse
import base64
import collections
import json
import os
import re
import subprocess
import tempfile

import by_rules
from compare_real import mails_at
from suite import TOP

WORD = re.compile(rb"=\?([^?\s]+)\?([bBqQ])\?([^?]*)\?=")
ASCII_LABELS = ("us-ascii", "ascii", "ansi_x3.4-1968")
OUTSIDE = re.compile(r'"(?:[^"\\]|\\.)*"?', re.S)


def strict_types(data, level=0, in_digest=False):
    """The types of a mail and of its parts by the strict rules, and the headers of the mail itself."""
    if level > 100:
        raise by_rules.Refused("too deep")
    headers, at = by_rules.block_of(data)
    text = by_rules.first(headers, "content-type")
    kind, found = by_rules.with_parameters(text) if text is not None else ("message/rfc822" if in_digest else "text/plain", {})
    kind, parts = by_rules.lower(kind), []
    if kind.startswith("multipart") and "boundary" in found:
        _preamble, parts = by_rules.parts_of(data, at, found["boundary"])
    inner = [one for start, end in parts for one in strict_types(data[start:end], level + 1, kind == "multipart/digest")[0]]
    return [kind, *inner], headers


def header_of(part, name):
    """The first value of a part with a name, or None."""
    return next((value for key, value in part["headers"] if key.lower() == name), None)


def uses_of_values(part):
    """The rules on a type, a disposition and a file name that a part needs."""
    kind, disposition = header_of(part, "content-type"), header_of(part, "content-disposition")
    strict_kind, strict_params = by_rules.with_parameters(kind or "text/plain")
    _value, names = by_rules.with_parameters(disposition or "")
    for value in filter(None, (kind, disposition)):
        if "(" in OUTSIDE.sub("", value):
            yield "comments in types and dispositions"
    if kind is not None and by_rules.lower(strict_kind) != part["type"] and "(" not in OUTSIDE.sub("", kind):
        yield "types without a slash, or empty: `text/plain`"
    if kind is not None and strict_params != part["params"] and "(" not in OUTSIDE.sub("", kind):
        yield "parameters of types: what is missing is put in, extended values"
    strict = names.get("filename") or strict_params.get("name")
    if (strict or None) != part["file_name"]:
        word, extended = "=?" in (strict or ""), any("*" in key for key in [*names, *strict_params])
        yield "file names: encoded words" if word else "file names: extended ones" if extended else "file names: repaired values"


def uses_of_bodies(part):
    """The rules on the body of a part."""
    label = part["charset"].strip().lower()
    if part["refusal"] is not None:
        yield "a part whose headers are refused is kept"
    if part["text"] is not None and not part["text"].isascii() and part.get("text_charset", "").lower() != label:
        yield "texts in ASCII with other bytes: UTF-8, windows-1252" if label in ASCII_LABELS else "texts in another charset than their label"
    if part.get("damaged") or "error" in part:
        yield "damaged Base64"


def octets(word):
    """The bytes of an encoded word, or None if its Base64 is not whole."""
    if word[2] in b"qQ":
        return re.sub(rb"=([0-9A-Fa-f]{2})", lambda found: bytes([int(found[1], 16)]), word[3].replace(b"_", b" "))
    try:
        return base64.b64decode(word[3], validate=True)
    except ValueError:
        return None


def is_text(data, label):
    """Whether bytes are text in a charset."""
    try:
        data.decode(label.decode())
    except (LookupError, UnicodeError):
        return False
    return True


def uses_of_words(value):
    """The rules on encoded words that a value, as it is written, needs."""
    words = list(WORD.finditer(value))
    for before, word in zip([None, *words], words):
        if before and before.end() == word.start():
            yield "encoded words without a space between them"
        elif word.start() and value[word.start() - 1 : word.start()] not in (b" ", b"\t", b"\n", b'"', b"(", b"<", b","):
            yield "encoded words beside other text"
        if value[word.end() : word.end() + 1] not in (b"", b" ", b"\t", b"\r", b"\n", b'"', b")", b">", b",", b"=", b"<"):
            yield "encoded words beside other text"
        if octets(word) is None:
            yield "Base64 of words with wrong padding or other characters"
        elif before and before[1].lower() == word[1].lower() and octets(before) is not None and not is_text(octets(word), word[1]):
            if is_text(octets(before) + octets(word), word[1]):
                yield "a character that is cut between two words"
        if b"*" in word[1]:
            yield "words with a language"
    if not is_text(value, b"utf-8"):
        yield "bytes in headers that are not UTF-8"


def has_parts(part, parts):
    """Whether one of the parts of a mail is a part of this one."""
    return any(other is not part and other["path"].startswith(part["path"] and part["path"] + ".") for other in parts)


def uses(line, data):
    """The rules that a mail needs, of its line of rocktray json."""
    parts = [part for part in line["parts"] if part["inside"] is None]
    headers = []
    try:
        kinds, headers = strict_types(data)
        if len(kinds) != len(parts):
            yield "other parts than by the strict rules, in all"
    except by_rules.Refused:
        yield "mails that the strict rules refuse"
    for part in parts:
        yield from uses_of_bodies(part)
        yield from uses_of_values(part)
    if any(part["type"].startswith("multipart") and not has_parts(part, parts) for part in parts):
        yield "multiparts without parts"
    for key, value in headers:
        yield from (use for use in uses_of_words(value) if key.lower() in (b"subject", b"from", b"to", b"cc"))
        if key.lower() == b"date" and line["date"] is not None:
            strict = by_rules.date_items(by_rules.value_of(value).encode())
            if strict != [str(line["date"])]:
                yield "dates that the strict rules refuse" if strict[0] == "error" else "dates with another value"


def main():
    """Counts the mails of all paths."""
    parser = argparse.ArgumentParser(description=__doc__, formatter_class=argparse.RawDescriptionHelpFormatter)
    parser.add_argument("paths", metavar="PATH", nargs="+", help="a mail, a mailbox, or a directory of them")
    asked = parser.parse_args()
    missing = [path for path in asked.paths if not os.path.exists(path)]
    if missing:
        parser.error(f"{missing[0]} is not there")
    program = f"{TOP}/crates/rocktray/out/rocktray"
    mails = [mail for _name, mail in mails_at(asked.paths)]
    found = collections.Counter()
    with tempfile.TemporaryDirectory() as directory:
        for number, mail in enumerate(mails):
            with open(f"{directory}/{number:08}.eml", "wb") as file:
                file.write(mail)
        with subprocess.Popen([program, "json", "--mail", directory], stdout=subprocess.PIPE) as running:
            for line, mail in zip(map(json.loads, running.stdout), mails):
                found.update({"mails that are refused"} if "error" in line else set(uses(line, mail)))
    for use, count in found.most_common():
        print(f"{count:6} {use}")
    print(f"{len(mails)} mails")


if __name__ == "__main__":
    main()
