#!/usr/bin/env python3
"""Writes mails to compare readers on into a directory.

They are made by a grammar, with faults on purpose, and by changes to mails that were made before:
parts in parts, digests, wrong or absent closing delimiters, boundaries that begin other boundaries or
are empty or quoted or encoded, parameters with stars and continuations, encoded words, dates and
message ids, bodies in each transfer encoding, LF and CR LF mixed, any bytes, and cuts. The same seed
gives the same mails; their names are numbers and `.eml`.
"""
import argparse
import base64
import os
import quopri
import random

WORDS = ["caf\u00e9", "Hello", "world", "a", "Re:", "x=y", "\u8fce\u5a36", "\U0001f600", "(note)", "plain text", "=?x?Q?a?="]
CHARSETS = ["utf-8", "UTF-8", "us-ascii", "iso-8859-1", "windows-1252", "utf-16", "utf-16be", "koi8-r", "x", ""]
ENCODINGS = ["base64", "quoted-printable", "7bit", "8bit", "binary", "BASE64", "base64 ", "x-other"]
LEAF_TYPES = ["text/plain", "text/html", "TEXT/PLAIN", "image/png", "application/octet-stream", "message/rfc822", "text", ""]
MULTI_TYPES = ["multipart/mixed", "multipart/alternative", "multipart/digest", "Multipart/Digest", "multipart", "multipartx/y"]
BOUNDARIES = ["b", "bb", "bbb", "b-", "--", "-", "=_Part_1", "a b", "b'c", "0123456789" * 7, "\u00e9", "b?", "x;y", ""]
DATES = [
    "Sun, 02 Oct 2016 07:06:22 -0700 (PDT)", "1 Jan 1970 00:00:00 GMT", "31 Feb 2021 23:59:60 +2400", "Fri, 29 Feb 69 1:2:3 EST",
    "0 Jan 1970", "1 Foo 1970", "1 Jan 1969 00:00:00 Z", "1 Jan 70 00:00 -0700", "+1 +Jan 2000", "", "12 Dec 99 12:00:00 J",
]
IDS = ["<a@b>", "<a@b> <c@d>", "<a>,<b>", "<a", "a>", "", " <a b>\t<>", "<>"]
KEYS = ["Subject", "From", "To", "X-Test", "subject", "Received", "X", "Content-Description", "A B", ""]


def encoded_word(rng):
    """An encoded word, mostly a sound one."""
    charset = rng.choice(CHARSETS)
    codec = {"utf-16": "utf-16-le", "utf-16be": "utf-16-be"}.get(charset, "utf-8")
    data = rng.choice(WORDS).encode(codec, "replace")
    if rng.random() < 0.5:
        return f"=?{charset}?{rng.choice('Bb')}?{base64.b64encode(data).decode()}?="
    rest = "".join(chr(b) if chr(b).isalnum() and b < 128 else f"={b:02X}" for b in data)
    return f"=?{charset}?{rng.choice('QqX')}?{rest}?="


def value(rng, eol):
    """A value of words, encoded words and folds."""
    pieces = []
    for _ in range(rng.randrange(6)):
        pieces.append(encoded_word(rng) if rng.random() < 0.4 else rng.choice(WORDS))
        pieces.append(rng.choice([" ", " ", "  ", "\t", eol + " ", eol + "\t", " " + eol + " ", "", ","]))
    return "".join(pieces)


def quoted(rng, text):
    """The text as a parameter's value: bare, quoted or with an escape."""
    return rng.choice([text, text, f'"{text}"', f'"{text}"', f'"{text}', '"' + text.replace("b", "\\b") + '"'])


def parameters(rng, eol):
    """Parameters, some of them with stars and continuations."""
    made = []
    for _ in range(rng.choice([0, 0, 1, 1, 2, 4])):
        name = rng.choice(["name", "filename", "Charset", "title", "n", "n*1", "n*", ""])
        kind = rng.randrange(6)
        if kind == 0:
            made += [f"{name}={quoted(rng, rng.choice(WORDS))}"]
        elif kind == 1:
            made += [f"{name}*={rng.choice(CHARSETS)}'en'%C3%A9{rng.choice(['', '%', '%4', '%zz'])}x"]
        elif kind == 2:
            made += [f"{name}*{n}={quoted(rng, 'p' + str(n))}" for n in rng.sample(range(4), rng.randrange(1, 4))]
        elif kind == 3:
            marks = [rng.choice(["", "*"]) for _ in range(3)]
            made += [f"{name}*{n}{mark}={rng.choice(CHARSETS) + chr(39) * 2 if n == 0 and mark else ''}%C3{n}%A9" for n, mark in enumerate(marks)]
        elif kind == 4:
            made += [f"{name}*{rng.choice(['00', '+0', '-1', '0*', '1*0', '18446744073709551616', 'x'])}=v"]
        else:
            made += [rng.choice(["novalue", "", "a=1;A=2", '"q;q"=1', "=x", "a==b"])]
    return "".join(rng.choice([";", "; ", ";" + eol + " ", " ;"]) + one for one in made)


def body(rng, encoding, eol):
    """A body, mostly in that encoding."""
    data = " ".join(rng.choice(WORDS) for _ in range(rng.randrange(20))).encode("utf-8")
    if rng.random() < 0.2:
        data = rng.randbytes(rng.randrange(60))
    if encoding.lower().strip() == "base64":
        data = base64.encodebytes(data)
        if rng.random() < 0.3:
            data = data.replace(b"=", rng.choice([b"", b"==", b"!"]))
    elif encoding == "quoted-printable":
        data = quopri.encodestring(data)
        if rng.random() < 0.3:
            data = data.replace(b"=C3", rng.choice([b"=c3", b"=C", b"= \n", b"=\xff"]))
    return data.replace(b"\n", eol.encode())


def boundary_text(rng, boundary):
    """How a type writes its boundary."""
    if rng.random() < 0.1:
        return "\"=?utf-8?Q?" + "".join(f"={b:02X}" for b in boundary.encode("utf-8")) + "?=\""
    return quoted(rng, boundary)


def header_lines(rng, eol, ctype, encoding):
    """The headers of a mail or a part, with or without their blank line."""
    lines = [f"{rng.choice(KEYS)}:{rng.choice(['', ' ', '  '])}{value(rng, eol)}" for _ in range(rng.randrange(4))]
    if ctype is not None:
        lines.append(f"{rng.choice(['Content-Type', 'content-type', 'CONTENT-TYPE'])}: {ctype}{parameters(rng, eol)}")
    if encoding is not None:
        lines.append(f"Content-Transfer-Encoding: {encoding}")
    if rng.random() < 0.3:
        lines.append(f"Content-Disposition: {rng.choice(['inline', 'attachment', 'Form-Data', 'x', ''])}{parameters(rng, eol)}")
    if rng.random() < 0.2:
        lines.append(f"Date: {rng.choice(DATES)}")
    if rng.random() < 0.2:
        lines.append(f"{rng.choice(['Message-ID', 'References', 'In-Reply-To'])}: {rng.choice(IDS)}")
    if rng.random() < 0.05:
        lines.append(rng.choice(["no colon", " begins with a space", "\tbegins with a tab", "A:b\r", ":", "\rx"]))
    rng.shuffle(lines)
    text = "".join(line + eol for line in lines) + (eol if rng.random() < 0.97 else "")
    return text.encode("latin-1" if rng.random() < 0.1 else "utf-8", "replace")


def leaf(rng, eol):
    """A mail or a part without parts."""
    encoding = rng.choice(ENCODINGS) if rng.random() < 0.6 else None
    ctype = rng.choice(LEAF_TYPES) if rng.random() < 0.7 else None
    if ctype is not None and rng.random() < 0.7:
        ctype += f"; charset={quoted(rng, rng.choice(CHARSETS))}"
    return header_lines(rng, eol, ctype, encoding) + body(rng, encoding or "", eol)


def mail(rng, levels, outer):
    """A mail or a part with at most that many levels below it, inside parts with those boundaries."""
    eol = rng.choice(["\n", "\r\n", "\r\n"])
    if levels == 0 or rng.random() < 0.3:
        return leaf(rng, eol)
    boundary = rng.choice(BOUNDARIES)
    if outer and rng.random() < 0.3:
        boundary = rng.choice(outer) + rng.choice(["", "", "x", "-"])
    ctype = rng.choice(MULTI_TYPES)
    if rng.random() < 0.95:
        ctype += f"; boundary={boundary_text(rng, boundary)}"
    head = header_lines(rng, eol, ctype, rng.choice([None, None, "7bit", "base64"]))
    delimiter = b"--" + boundary.encode("utf-8")
    line_end = eol.encode()
    text = head + rng.choice([b"", b"", b"preamble" + line_end, b"not at a line's start " + delimiter + line_end])
    for _ in range(rng.choice([0, 1, 1, 2, 3])):
        text += delimiter + rng.choice([b"", b"", b"", b" ", b"\t", b"x", b"-"]) + line_end
        text += mail(rng, levels - 1, outer + [boundary])
        text += line_end if rng.random() < 0.95 else b""
    end = rng.random()
    if end < 0.75:
        text += delimiter + b"--" + rng.choice([line_end, line_end, b"", b"epilogue"])
    elif end < 0.85:
        text += delimiter + rng.choice([b"", b"-", line_end, b"\r"])
    return text


def deep(rng):
    """Parts in parts, near the limit of a hundred levels."""
    levels = rng.choice([98, 99, 100, 101, 102])
    return b"".join(b"Content-Type: multipart/mixed; boundary=b%03d\n\n--b%03d\n" % (n, n) for n in range(levels))


def changed(rng, data, other):
    """The mail with some changes."""
    for _ in range(rng.choice([1, 1, 2, 5])):
        at = rng.randrange(len(data) + 1)
        end = min(len(data), at + rng.choice([1, 1, 2, 8, 40]))
        kind = rng.randrange(8)
        if kind == 0:
            data = data[:at]
        elif kind == 1:
            data = data[:at] + data[end:]
        elif kind == 2:
            data = data[:at] + bytes([rng.randrange(256)]) + data[end:]
        elif kind == 3:
            data = data[:at] + rng.choice([b"\n", b"\r", b"\r\n", b"\n\n", b"--b", b"--b--", b" ", b";", b"=", b"*", b'"', b"=?", b"?="]) + data[at:]
        elif kind == 4:
            data = data[:at] + data[at:end] * 2 + data[end:]
        elif kind == 5:
            data = data[:at] + other[rng.randrange(len(other) + 1):]
        elif kind == 6:
            data = data.replace(b"\r\n", b"\n") if rng.random() < 0.5 else data.replace(b"\n", b"\r\n", 3)
        else:
            data = data[:at] + rng.randbytes(rng.randrange(1, 9)) + data[end:]
    return data


def mails(count, seed):
    """The mails, one after the other."""
    rng = random.Random(seed)
    made = []
    for number in range(count):
        draw = rng.random()
        if number < 2 or draw < 0.6:
            data = mail(rng, rng.choice([0, 1, 2, 2, 3, 5]), [])
        elif draw < 0.61:
            data = deep(rng)
        elif draw < 0.64:
            data = rng.randbytes(rng.randrange(80))
        else:
            data = changed(rng, rng.choice(made), rng.choice(made))
        if len(data) < 20_000:
            made.append(data)
        yield data


def main():
    parser = argparse.ArgumentParser(description=__doc__, formatter_class=argparse.RawDescriptionHelpFormatter)
    parser.add_argument("count", metavar="COUNT", type=int, help="how many mails")
    parser.add_argument("seed", metavar="SEED", type=int, help="a number to make them from")
    parser.add_argument("directory", metavar="DIRECTORY", help="the directory, which is made where it is missing")
    asked = parser.parse_args()
    os.makedirs(asked.directory, exist_ok=True)
    for number, data in enumerate(mails(asked.count, asked.seed)):
        with open(os.path.join(asked.directory, f"{number:06}.eml"), "wb") as file:
            file.write(data)


if __name__ == "__main__":
    main()
