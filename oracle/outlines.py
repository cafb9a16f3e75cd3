"""Rows on made outlines for the suite.

Each row makes an outline step by step, and wants the bytes that it is written as, whether it is well formed, and then
the least limit on levels under which it is read and how many messages it has. The keys, values, boundaries and bodies are
of bytes that are likely to go wrong. This module writes and judges each outline by itself, and has no code in common with
the library. Of each value that it writes as encoded words it asks `email.header.decode_header` whether they read as the
text. With texts most values are texts of any characters, and there are twice as many outlines.
"""
import base64
import email.header
import functools
import random
import re
import sys

COUNT = 300
KEYS = [b"A", b"Subject", b"X--b", b"--b", b"!~", b"content-type", b"Content-Typ", b"content-transfer-encoding"]
BAD_KEYS = [b"", b"A:", b":", b"A b", b" A", b"A\t", b"A\r", b"\n", b"A\r\n", b"\x7f", b"\xc3\xa9", b"\0"]
VALUES = [b"", b"x", b"x ", b"a: b", b"--b", b"--b--", b"=", b"?=", b"= ?", b"a?=b", b"\"", b";", b"base64", b"~", b"a  b", b"8bit"]
BAD_VALUES = [b" x", b" ", b"=?", b"a=?b", b"=?utf-8?Q?a?=", b"\t", b"a\tb", b"a\r\n b", b"\n", b"a\r", b"\x7f", b"\xc3\xa9", b"a\0",
              b"\xff", b"a\xc3"]
TYPES = [b"text/plain", b"text/html; charset=utf-8", b"multi", b"multipar", b"x-multipart/mixed", b"", b"\"multipart/x\"",
         b";multipart/x", b"multipart", b"Multipart/x", b"MULTIPART/MIXED; boundary=b", b"multipart;", b"multiparty/x"]
TYPE_KEYS = [b"Content-Type", b"content-type", b"CONTENT-TYPE", b"cONTENT-tYPE"]
BOUNDARIES = [b"b", b"b1", b"b10", b"B", b"0", b"bb", b"Zz09"]
BAD_BOUNDARIES = [b"", b"a-b", b"b ", b" b", b"b\"", b"b\n", b"b:", b"\xc3\xa9", b"--"]
PIECES = [b"-", b"--", b"--b", b"--b1", b"--b10", b"--B", b"--0", b"--b--", b"b", b"1", b"\r", b"\n", b"\r\n", b"\n\r", b"\r\n\r\n",
          b":", b": ", b" ", b"A: 1\r\n", b"\0", b"\xff", b"=?", b"x", b"\t", b"--bb", b"\n--", b"\r--b"]

# The pieces of the texts of --texts: characters of one to four bytes, syntax of headers, whitespace, a byte order mark.
PARTS = ["a", "Z9", "~", "\u00e9", "\u07ff", "\u20ac", "\ufffd", "\U0001f600", "\U0010ffff", " ", "  ", "=?", "?=", "=", "?", "=?utf-8?B?w6k=?=",
         "=?utf-8?Q?a?= ", "\r", "\n", "\r\n", "\r\n ", "\t", "\0", "\x1f", "\x7f", "\x80", "\x85", "\xa0", "\u2028", "\u3000", "\ufeff", ": ",
         "--b", "\n--b", "--b1"]
BAD_TEXTS = [b"\xff", b"\xc3", b"a\x80", b"\xed\xa0\x80", b"\xf4\x90\x80\x80", b"\xc0\xaf", b"\xc3\xa9\xe9"]
TEXT_TYPES = ["\u00e9/x", "text/plain\n", " text/plain", "text/\u00e9; charset=\u20ac", "=?utf-8?Q?multipart/x?=", "\x1fmultipart/x", "\ufeffmultipart/x",
              "mult\u0131part/x"]
BAD_TEXT_TYPES = [" multipart/mixed", "\u00a0multipart/x", "multipart/\u00e9", "\r\nMultiPart/x", "\u3000MULTIPART", "multipart\n"]
WHITE = "\t\n\x0b\x0c\r \x85\xa0\u1680\u2000\u2001\u2002\u2003\u2004\u2005\u2006\u2007\u2008\u2009\u200a\u2028\u2029\u202f\u205f\u3000"

NAMED = {"\\": "\\\\", "\r": "\\r", "\n": "\\n", "\t": "\\t", "\0": "\\0", '"': "\\x22"}


def shown(character):
    """A character as a text of the suite has it; a byte that is no UTF-8 comes as a surrogate."""
    number = ord(character)
    if character in NAMED:
        return NAMED[character]
    if character.isprintable():
        return character
    if number < 0x80 or 0xDC80 <= number <= 0xDCFF:
        return f"\\x{number & 0xFF:02X}"
    return f"\\u{{{number:X}}}"


def quoted(data):
    """Bytes as a text of the suite."""
    return '"' + "".join(map(shown, data.decode("utf-8", "surrogateescape"))) + '"'


def text_of(value):
    """The text of a value, or None where it is not UTF-8."""
    try:
        return value.decode("utf-8")
    except UnicodeDecodeError:
        return None


def words(text):
    """The text in pieces of whole characters, each of 45 bytes in UTF-8 at most, and as long as that."""
    pieces = []
    piece = b""
    for character in text:
        more = character.encode("utf-8")
        if len(piece + more) > 45:
            pieces.append(piece)
            piece = b""
        piece += more
    return pieces + [piece]


@functools.cache
def written(value):
    """What a value is written as."""
    text = text_of(value)
    if text is None or (re.fullmatch(rb"[ -~]*", value) and not value.startswith(b" ") and b"=?" not in value):
        return value
    out = b"\r\n ".join(b"=?utf-8?B?" + base64.b64encode(word) + b"?=" for word in words(text))
    if "".join(word.decode(charset) for word, charset in email.header.decode_header(out.decode("ascii"))) != text:
        sys.exit(f"make_outlines.py: {out!r} is not read as {value!r}")
    return out


class Outline:
    """Headers, and a body, or a boundary and parts."""

    def __init__(self, headers, body=None, boundary=None, parts=None):
        self.headers = headers
        self.body = body
        self.boundary = boundary
        self.parts = parts

    def rendered(self):
        """The bytes that it is written as."""
        out = b"".join(key + b": " + written(value) + b"\r\n" for key, value in self.headers) + b"\r\n"
        if self.parts is None:
            return out + self.body
        for part in self.parts:
            out += b"--" + self.boundary + b"\r\n" + part.rendered() + b"\r\n"
        return out + b"--" + self.boundary + b"--\r\n"

    def steps(self):
        """The steps that make it."""
        steps = [step for part in self.parts or [] for step in part.steps()]
        steps += [f"header {quoted(key)} {quoted(value)}" for key, value in self.headers]
        if self.parts is None:
            return steps + [f"leaf {quoted(self.body)}"]
        return steps + [f"branch {quoted(self.boundary)} {len(self.parts)}"]

    def count(self):
        """How many messages it contains, itself among them."""
        return 1 + sum(part.count() for part in self.parts or [])

    def depth(self):
        """The greatest level of an outline in it."""
        return max((1 + part.depth() for part in self.parts or []), default=0)

    def has_good_headers(self):
        """Whether its keys and values are as they have to be."""
        return all(
            key and all(0x21 <= b <= 0x7E and b != 0x3A for b in key)
            and text_of(value) is not None
            for key, value in self.headers
        )

    def is_good(self):
        """Whether it and all inside it are well formed, levels aside."""
        types = [value for key, value in self.headers if key.lower() == b"content-type"]
        if not self.has_good_headers():
            return False
        if self.parts is None:
            # Text before a semicolon, or a quote before the word, makes no `multipart`.
            return not types or not text_of(types[0]).strip(WHITE).encode("utf-8").lower().startswith(b"multipart")
        start = b"--" + self.boundary
        return (
            bool(types) and types[0] == b"multipart/mixed; boundary=" + self.boundary
            and self.boundary.isalnum() and self.boundary.isascii() and bool(self.parts)
            and not any(part.rendered().startswith(start) or b"\n" + start in part.rendered() for part in self.parts)
            and all(part.is_good() for part in self.parts)
        )

    def row(self):
        """The row, in two lines."""
        good = self.is_good() and self.depth() <= 100
        answer = f"true {self.depth()} {self.count()}" if good else "false"
        return f"outline {' '.join(self.steps())}\n  => {quoted(self.rendered())} {answer}"


class Maker:
    """Makes outlines, of which about one in three goes wrong at one place or another."""

    def __init__(self, seed, texts):
        self.random = random.Random(seed)
        self.texts = texts

    def pick(self, good, bad, odds):
        """One of the good ones, or once in that many one of the bad ones."""
        return self.random.choice(bad if self.random.randrange(odds) == 0 else good)

    def headers(self, odds):
        """Up to three headers."""
        count = self.random.choice([0, 0, 1, 1, 2, 3])
        return [(self.pick(KEYS, BAD_KEYS, odds), self.value(odds)) for _ in range(count)]

    def value(self, odds):
        """A value; with texts one of any characters, which is plain once in eight times."""
        if not self.texts or self.random.randrange(8) == 0:
            return self.pick(VALUES, BAD_VALUES, odds)
        count = self.random.choice([1, 1, 2, 3, 5, 8, 13, 30])
        parts = self.random.choice([PARTS, PARTS, self.random.sample(PARTS, 2)])
        text = "".join(self.random.choice(parts) for _ in range(count))
        return self.pick([text.encode("utf-8")], BAD_TEXTS, odds)

    def leaf(self, odds):
        """An outline with a body."""
        headers = self.headers(odds)
        if self.random.randrange(3) == 0:
            kind = self.pick(TYPES[:8], TYPES[8:], odds)
            if self.texts and self.random.randrange(2) == 0:
                kind = self.pick(TEXT_TYPES, BAD_TEXT_TYPES, odds).encode("utf-8")
            headers.insert(self.random.randint(0, len(headers)), (self.random.choice(TYPE_KEYS), kind))
        body = b"".join(self.random.choice(PIECES) for _ in range(self.random.choice([0, 1, 2, 3, 5, 8])))
        return Outline(headers, body=body)

    def branch(self, levels, odds):
        """An outline with parts."""
        boundary = self.pick(BOUNDARIES, BAD_BOUNDARIES, odds)
        named = self.pick([boundary], BOUNDARIES + [boundary + b" "], odds)
        headers = self.headers(odds)
        if self.random.randrange(odds) != 0:
            place = self.random.randint(0, len(headers))
            # An earlier header of the list may have the key too: then that one is the first.
            headers.insert(place, (self.random.choice(TYPE_KEYS), b"multipart/mixed; boundary=" + named))
        count = self.pick([1, 1, 2, 3], [0], odds)
        return Outline(headers, boundary=boundary, parts=[self.outline(levels - 1, odds) for _ in range(count)])

    def outline(self, levels, odds):
        """An outline of at most that many levels."""
        if levels == 0 or self.random.randrange(3) == 0:
            return self.leaf(odds)
        return self.branch(levels, odds)


def outlines(seed, texts):
    """The outlines: half of them well formed, and of every depth from 0 to 4."""
    maker = Maker(seed, texts)
    most = 2 * COUNT if texts else COUNT
    kept = {True: [], False: []}
    depths = {level: 0 for level in range(5)}
    while len(kept[True]) < most // 2 or len(kept[False]) < most // 2:
        outline = maker.outline(4, maker.random.choice([12, 40, 200]))
        good = outline.is_good()
        if len(kept[good]) == most // 2 or (good and depths[outline.depth()] == most // 10):
            continue
        kept[good].append(outline)
        depths[outline.depth()] += good
    return kept[True] + kept[False]
