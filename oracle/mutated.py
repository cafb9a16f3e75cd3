#!/usr/bin/env python3
"""Writes mails into a directory: changes to mails that are sound, of which most stay so.

Half of them begin as a mail of a grammar without faults, the others as one of the PATHs, which are mails, mailboxes or
directories of them, or as one of samples/. Each is changed one to four times: mostly as programs do it (line ends, case,
folds, boundaries, further headers, parameters and parts, mails in mails), sometimes with a fault, as hostile.py makes
them, or where readers are known to differ. The same seed and PATHs give the same mails.
"""
import argparse
import base64
import os
import quopri
import random
import re

import hostile
from compare_real import mails_at
from suite import TOP

LARGEST = 20_000
SMALLEST = 3
WORDS = "Hello world re: the report of 12.5.2024, see https://example.org/a?b=c (draft) -- 100% {x} [y] caf\u00e9 \u8fce na\u00efve \u20ac5 From here .".split()
PLAIN = [word for word in WORDS if word.isascii()]
NAMES = ["a.txt", "report.pdf", "Bild-1.png", "two words.doc", "x", "a.b.c", "a;b.txt", "caf\u00e9.txt", "a\\b.txt", " a.txt", "a/b.txt"]
TYPES = ["text/plain", "text/html", "TEXT/Plain", "application/pdf", "image/png", "application/octet-stream", "text/calendar", "font/woff"]
ADDRESSES = ["a@b.example", "a.b+c@d-e.example", "o'x_y=z@example.org", "A@B.EXAMPLE"]
BOUNDARIES = ["b", "=_x_1", "----=_Part_1.2", "a b", "b'(c)+_,-./:?=d", "0" * 70]
SPECIAL = [b"\r", b"\0", b"\n\n", b" \n", b"\t\n", b"=", b"=\n", b"=3D", b"=3d", b";", b":", b"\\", b'"', b"(x)", b"=?", b"?=", b"--", b" ",
           b"=?utf-8?Q?a?=", b"=?utf-8?B?w6k=?=", b"\xc3\xa9", b"*", b"<", b">", b",", b"@", b"===", b"\x1b", b"\x7f"]
HEADERS = ["Content-Type: text/plain; name=a.txt", "Content-Type: text/plain; name=a; name=b", "Content-Disposition: attachment; filename=a.txt",
           "Content-Disposition: inline; name=b.txt", "Content-Type: text/html; filename=c.txt", "Content-Type: application/pdf; name*=utf-8''caf%C3%A9.pdf",
           "Content-Type: message/rfc822", "Content-Type: multipart/mixed; boundary=b", "Content-Transfer-Encoding: base64", "Subject: two",
           "Content-Transfer-Encoding: quoted-printable", "Content-Transfer-Encoding: x", "From: (c) a@b.example", "From: a@b.example, c@d.example",
           "Subject: =?utf-8?Q?a?= =?utf-8?Q?b?=", "Subject: =?utf-8?B?w6k=?= =?utf-8?B?w6k=?=", "Subject: =?utf-8?B?w6?=", "Subject: a =?utf-8?Q?b?=c",
           "From: =?utf-8?Q?a=40b?= <c@d.example>", 'From: "a@b" <c@d.example>', "Content-Type: text/plain; charset=x-y", "X y: z", "X-Long: " + "a " * 600]


def phrase(rng, words=None):
    """Some words."""
    return " ".join(rng.choice(words or WORDS) for _ in range(rng.randrange(1, 8)))


def encoded_word(rng, text):
    """A text as an encoded word, if it is not ASCII or by chance."""
    if text.isascii() and rng.random() < 0.8:
        return text
    data = text.encode()[:40].decode("utf-8", "ignore").encode()
    if rng.random() < 0.5:
        return f"=?utf-8?B?{base64.b64encode(data).decode()}?="
    return "=?utf-8?Q?" + "".join(chr(it) if chr(it).isalnum() and it < 128 else f"={it:02X}" for it in data[:20]) + "?="


def leaf(rng):
    """A part without parts, with its headers."""
    kind, encoding = rng.choice(TYPES), rng.choice(["7bit", "8bit", "base64", "quoted-printable", "Base64", "binary", None])
    text = "\n".join(phrase(rng) for _ in range(rng.randrange(6))) + rng.choice(["", "\n", "\n\n"])
    data = text.encode() if kind.lower().startswith("text/") else rng.randbytes(rng.randrange(200))
    if encoding is None or encoding == "7bit" or encoding in ("8bit", "binary") and not kind.lower().startswith("text/"):
        data = text.encode("ascii", "ignore")
    elif encoding.lower() == "base64":
        data = base64.encodebytes(data)
    elif encoding == "quoted-printable":
        data = data if kind.lower().startswith("text/") else re.sub(rb"[\r\n]", b"", data)
        data = re.sub(rb"(?m)[ \t]$", b"=20", quopri.encodestring(data))
    lines = [f"Content-Type: {kind}" + ("; charset=utf-8" if kind.lower().startswith("text/") else "")]
    if encoding is not None:
        lines.append(f"Content-Transfer-Encoding: {encoding}")
    if rng.random() < 0.4:
        lines.append(f'Content-Disposition: {rng.choice(["attachment", "inline"])};{rng.choice([" ", chr(10) + " "])}filename="{rng.choice(NAMES[:6])}"')
    rng.shuffle(lines)
    return ("\n".join(lines) + "\n\n").encode() + data


def body(rng, levels):
    """A part, with parts in it, down to the given number of levels."""
    if levels == 0 or rng.random() < 0.4:
        return leaf(rng)
    if rng.random() < 0.2:
        return b"Content-Type: message/rfc822\n\n" + sound(rng, levels - 1)
    boundary = f"{rng.choice(BOUNDARIES[:5])}{rng.randrange(10**6)}"
    kind = rng.choice(["mixed", "alternative", "related", "MIXED"])
    parts = [body(rng, levels - 1) for _ in range(rng.randrange(1, 4))]
    head = f'Content-Type: multipart/{kind};{rng.choice([" ", chr(10) + chr(9)])}boundary="{boundary}"\n\n{rng.choice(["", "", "A mail in parts.", chr(10)])}'
    return head.encode() + b"".join(f"\n--{boundary}\n".encode() + part for part in parts) + f"\n--{boundary}--\n".encode()


def sound(rng, levels):
    """A mail without a fault."""
    name = rng.choice(["", phrase(rng, ["Ann", "van", "Lee", "X."]), f'"{phrase(rng, PLAIN)}"'.replace("@", ""), encoded_word(rng, "caf\u00e9")])
    address = rng.choice(ADDRESSES)
    lines = [
        f"From: {name} <{address}>" if name else f"From: {address}",
        f"To: {rng.choice(ADDRESSES)}",
        f"Subject: {encoded_word(rng, rng.choice(WORDS))}" if rng.random() < 0.3 else f"Subject: {phrase(rng, PLAIN)}",
        "Date: Sun, 02 Oct 2016 07:06:22 -0700",
        f"Message-ID: <{rng.randrange(10**9)}@example.org>",
        "MIME-Version: 1.0",
    ]
    rng.shuffle(lines)
    return "".join(f"{line}\n" for line in lines).encode() + body(rng, levels)


def split(data):
    """The lines of the headers of a mail, with those that continue one, and the rest from the empty line on."""
    head, blank, rest = data.partition(b"\r\n\r\n" if b"\r\n\r\n" in data else b"\n\n")
    return re.split(rb"\r?\n(?![ \t])", head), blank, rest


def joined(lines, blank, rest):
    """The mail again."""
    return (b"\r\n" if b"\r" in blank else b"\n").join(lines) + blank + rest


def in_headers(change):
    """A change of the list of headers as a change of a mail."""

    def changed(rng, data):
        lines, blank, rest = split(data)
        change(rng, lines)
        return joined(lines, blank, rest)

    return changed


@in_headers
def order(rng, lines):
    """Headers in another order."""
    rng.shuffle(lines)


@in_headers
def case(rng, lines):
    """A name in another case."""
    at = rng.randrange(len(lines))
    name, colon, value = lines[at].partition(b":")
    lines[at] = rng.choice([name.upper(), name.lower(), name.title()]) + colon + value


@in_headers
def further(rng, lines):
    """A further header."""
    lines.insert(rng.randrange(len(lines) + 1), f"X-{rng.choice(PLAIN).strip(':,.()[]{}')[:9].replace('/', '')}: {phrase(rng, PLAIN)}".encode())


@in_headers
def fold(rng, lines):
    """A space of a header as a fold, or a fold as a space."""
    at = rng.randrange(len(lines))
    spaces = [found.start() for found in re.finditer(rb"(?<=[;:\w]) (?=\S)", lines[at])]
    if spaces:
        place = rng.choice(spaces)
        lines[at] = lines[at][:place] + rng.choice([b"\n ", b"\n\t", b"  ", b"\t"]) + lines[at][place + 1 :]


@in_headers
def odd_header(rng, lines):
    """A header that readers may read differently, in the place of one of the same name or as a further one."""
    line = rng.choice(HEADERS).encode()
    same = [at for at, other in enumerate(lines) if other.lower().startswith(line.split(b":")[0].lower() + b":")]
    if same and rng.random() < 0.8:
        lines[same[0]] = line
    else:
        lines.insert(rng.randrange(len(lines) + 1), line)


def line_ends(rng, data):
    """All line ends of one kind."""
    data = data.replace(b"\r\n", b"\n")
    return data.replace(b"\n", b"\r\n") if rng.random() < 0.7 else data


def boundary(rng, data):
    """Another boundary."""
    found = re.search(rb'(?i)boundary="?([^"\s;]{2,70})"?', data)
    new = f"{rng.choice(BOUNDARIES[1:])}{rng.randrange(10**6)}"[-70:].encode()
    if not found:
        return data
    return data[: found.start()] + b'boundary="' + new + b'"' + data[found.end() :].replace(b"--" + found[1], b"--" + new)


def parameter(rng, data):
    """A parameter in quotes, or a further one, in one of the types and dispositions."""
    found = list(re.finditer(rb"(?im)^content-(type|disposition):[ \t]*[\w/.+-]+", data))
    if not found:
        return data
    one = rng.choice(found)
    name = rng.choice(["x", "format", "name", "filename", "charset", "X-y", "name*", "title*0"])
    value = rng.choice([rng.choice(NAMES), "flowed", "utf-8", phrase(rng)])
    return data[: one.end()] + f'; {name}="{value}"'.encode() + data[one.end() :]


def further_part(rng, data):
    """A further part before a delimiter."""
    found = list(re.finditer(rb"(?m)^--([^\r\n]{1,70})\r?\n", data))
    if not found:
        return data
    one = rng.choice(found)
    return data[: one.end()] + leaf(rng) + b"\n" + data[one.start() :]


def wrapped(rng, data):
    """The mail as a part, or as a mail in a part."""
    kind = rng.choice([b"Content-Type: message/rfc822\n\n", b"Content-Type: message/rfc822\nContent-Disposition: attachment\n\n", b""])
    mark = f"w{rng.randrange(10**9)}".encode()
    return (b"From: a@b.example\nMIME-Version: 1.0\nContent-Type: multipart/mixed; boundary=" + mark + b"\n\n--" + mark + b"\n" + leaf(rng)
            + b"\n--" + mark + b"\n" + kind + data + b"\n--" + mark + b"--\n")


def text(rng, data):
    """Words between others."""
    places = [found.start() for found in re.finditer(rb"(?<=[a-z] )(?=[a-z]+ [a-z]+ )", data)]
    at = rng.choice(places or [0])
    return data[:at] + phrase(rng, PLAIN).encode() + b" " + data[at:] if at else data


def special(rng, data):
    """Bytes that mean something, anywhere or at a line's start or end."""
    places = [found.start() for found in re.finditer(rb"^|\r?$|[ \t;=]", data, re.M)] if rng.random() < 0.7 else range(len(data) + 1)
    at = rng.choice(places)
    return data[:at] + rng.choice(SPECIAL) + data[at:]


def hostile_change(rng, data):
    """The changes of hostile.py."""
    return hostile.changed(rng, data, sound(rng, 1))


USUAL = [order, case, further, fold, line_ends, boundary, further_part, wrapped, text]
FAULTS = [odd_header, odd_header, parameter, parameter, special, special, hostile_change]


def bases(paths):
    """The mails to change that are not too large, sorted by their names."""
    return [mail for _name, mail in mails_at([f"{TOP}/samples", *paths]) if SMALLEST < len(mail) <= LARGEST]


def mails(count, seed, paths=()):
    """The mails, one after the other."""
    rng = random.Random(f"mutated {seed}")
    given = bases(paths)
    for _ in range(count):
        data = rng.choice(given) if rng.random() < 0.5 else sound(rng, rng.choice([0, 1, 1, 2, 3]))
        faults = rng.choice([0, 0, 0.2, 0.5])
        for _ in range(rng.randrange(1, 5)):
            data = rng.choice(FAULTS if rng.random() < faults else USUAL)(rng, data)
        yield data if rng.random() < 0.7 else line_ends(rng, data)


def write(directory, count, seed, paths=()):
    """Writes the mails, whose names are numbers and `.eml`."""
    os.makedirs(directory, exist_ok=True)
    for number, data in enumerate(mails(count, seed, paths)):
        with open(os.path.join(directory, f"{number:06}.eml"), "wb") as file:
            file.write(data)


def main():
    """Writes the mails."""
    parser = argparse.ArgumentParser(description=__doc__, formatter_class=argparse.RawDescriptionHelpFormatter)
    parser.add_argument("count", metavar="COUNT", type=int, help="how many mails")
    parser.add_argument("seed", metavar="SEED", type=int, help="a number to make them from")
    parser.add_argument("directory", metavar="DIRECTORY", help="the directory, which is made if it is missing")
    parser.add_argument("paths", metavar="PATH", nargs="*", help="mails to begin with, beside those of samples/")
    asked = parser.parse_args()
    write(asked.directory, asked.count, asked.seed, asked.paths)


if __name__ == "__main__":
    main()
