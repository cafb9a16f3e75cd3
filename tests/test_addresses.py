"""The addresses that mail_address reads, by the grammar and leniently, beside a second definition of both, by RULES.md, on
100,000 made values.

The values are lists as mails have them, of pieces that are then left out, doubled and moved: names, quotes, comments,
groups, routes, encoded words, other charsets, IDN, NUL, and quotes and brackets that nothing closes. The program
mail_vectors replays them as rows of the suite. Here a value is a string with one letter for each token, and an element
is a regular expression on such strings.
"""

import random
import re

import pytest

from support import program, run

from by_lenient_rules import header_text
from suite import Row, line_of

PART = 5_000
ATOM = rb"[^\x00-\x20\x7f\"(),.:;<>@\[\]\\]+"
# The letters of tokens: w whitespace or a comment, a an atom, q a quoted string, l a domain literal, < text
# in angle brackets, o any other; and . @ , ; : are themselves.
PLAIN = re.compile(
    rb'(?P<w>[ \t\r\n]+)|(?P<a>' + ATOM + rb')|(?P<q>"(?:[^"\\]|\\.)*")|(?P<l>\[(?:[^\[\]\\]|\\.)*\])'
    rb"|(?P<m>[.@,;:])|(?P<o>\\.|.)", re.S
)
WORD = r"w*[aq]w*"
NAME = re.compile(r"w*[aq][aqw.]*")
LOCAL = re.compile(rf"{WORD}(?:\.{WORD})*")
DOMAIN = re.compile(r"w*aw*(?:\.w*aw*)*|w*lw*")
NAMED = re.compile(r"(w*|w*[aq][aqw.]*)<w*")
GROUP = re.compile(r"([^,;:]*):([^:;]*);w*[,;]?")
SINGLE = re.compile(r"([^,;]*)[,;]?")
MEMBER = re.compile(r"([^,]*),?")

# Encoded words, and their texts.
WORDS = {
    b"=?utf-8?q?boss=40corp=2Ecom_=3Cboss=40corp=2Ecom=3E=2C?=": "boss@corp.com <boss@corp.com>,",
    b"=?UTF-8?Q?=22=2C?=": '",',
    b"=?utf-8?Q?=22Ann=2C_B=22?=": '"Ann, B"',
    b"=?utf-8?Q?=27?=": "'",
    b"=?utf-8?B?w6k=?=": "\u00e9",
    b"=?iso-8859-1?q?Andr=E9?=": "Andr\u00e9",
    b"=?utf-8?q?a=3A_b=3B?=": "a: b;",
}
SPACED = [b" %b " % word for word in WORDS]
NAMES = SPACED + [
    b'"Doe, Ann"', b"Ann Doe", b"J. R. Dobbs", b'"a\\"b"', b"Who?", b'"Ann\r\n Doe"', "J\u00f6rg".encode("latin-1"),
    b'" =?utf-8?B?w6k=?= x"', b'"a\0b"', b"#!$%&*+-/^_`{|}~'", "\u03b1\u03b2".encode(), b"Ann (x, (y) \\)) Doe", b"boss@corp.com",
    b"'Ann'", b"'Ann", b"B'", b"'",
]
ADDRESSES = [
    b"ann@example.org", b"x@xn--bcher-kva.example", "joe@b\u00fccher.example".encode(), b'"a b"@c', b'"a"."b"@c', b"a@[1.2.3.4]",
    b"a . b @ c (home) . d", b"a@[IPv6:2001:db8::1]", b"a at b", b"a..b@c", b"boss@corp.com,evil@x.org", b"", b"a@b@c", b'""@c',
    b'"a\r\n b"@c', b'"a\n b"@c', b'"a\r\n\tb"@c', b'"a\rb"@c', b'"a\\\rb"@c', b"ann@[1.2.3.4\r\n ]", b"a@[1\\ \x7f]",
]
ROUTES = [b""] * 6 + [b"@a,@b:", b"@a,,(x)@b :", b"@a:b:", b"joe@c:"]
SEPARATORS = [b", "] * 6 + [b",", b";", b"; ", b",,", b", (x, y) ,", b",\r\n ", b" "]
ODD = SPACED + [
    b'"', b"(", b")", b"[", b"]", b"<", b">", b"<>", b",", b";", b":", b":;", b"\\", b"\0", b"\x7f", b"\r\n ", b"\t", b'""',
    b'"a\\\\"', b"(\\()", b"((", b'"(', b')"', b"[a\\]b]", b"mailto:", b"@", b".", b"\xff", b"(a (b) c)", b"<@",
]


def comment_end(raw, at):
    """Where the comment that begins there ends, or None where nothing closes it."""
    depth = 0
    for found in re.finditer(rb"\\.|[()]", raw[at:], re.S):
        depth += {b"(": 1, b")": -1}.get(found[0], 0)
        if depth == 0:
            return at + found.end()
    return None


def token_at(raw, at, in_angles):
    """The letter and the end of the token there."""
    found = PLAIN.match(raw, at)
    kind = found.lastgroup
    if kind == "m":
        return chr(raw[at]), at + 1
    if kind == "o" and raw[at] == 40:
        end = comment_end(raw, at)
        return ("w", end) if end else ("o", len(raw))
    if kind == "o" and raw[at] == 60 and not in_angles:
        end = angle_end(raw, at + 1)
        return ("<", end) if end else ("o", at + 1)
    return kind, found.end()


def angle_end(raw, at):
    """Where the angle brackets end that are open there, or None where no `>` is the next of them."""
    while at < len(raw) and raw[at] not in b"<>":
        _, at = token_at(raw, at, True)
    return at + 1 if raw[at : at + 1] == b">" else None


class Text:
    """Bytes as a word of letters, with the offsets of the tokens."""

    def __init__(self, raw, word, places):
        self.raw, self.word, self.places = raw, word, places

    @classmethod
    def read(cls, raw):
        """The tokens of some bytes."""
        letters, places, at = [], [0], 0
        while at < len(raw):
            letter, at = token_at(raw, at, False)
            letters.append(letter)
            places.append(at)
        return cls(raw, "".join(letters), places)

    def bytes(self):
        """The bytes of the tokens."""
        return self.raw[self.places[0] : self.places[-1]]

    def part(self, start, end):
        """Some of the tokens."""
        return Text(self.raw, self.word[start:end], self.places[start : end + 1])

    def tokens(self):
        """The tokens, each with its letter and its bytes."""
        return [(it, self.raw[self.places[at] : self.places[at + 1]]) for at, it in enumerate(self.word)]


def meaning(letter, raw):
    """The text of a token."""
    if letter == "q":
        return re.sub(rb"\\(.)", rb"\1", raw[1:-1], flags=re.S)
    return b"" if letter == "w" else raw


def address_meaning(letter, raw):
    """The text of a token of an address: without folding in quotes, and without whitespace in a literal."""
    if letter == "l":
        return re.sub(rb"(\\.)|[ \t\r\n]", lambda found: found[1] or b"", raw, flags=re.S)
    return meaning(letter, re.sub(rb"\r?\n(?=[ \t])", b"", raw))


def as_text(raw):
    try:
        return raw.decode()
    except UnicodeDecodeError:
        return raw.decode("latin-1")


def value_tokens(text):
    """The tokens of a value, by kind: word, text, white or line."""
    lines = text.split("\n")
    lines = lines if lines[-1] else lines[:-1]
    for number, line in enumerate(lines):
        if number:
            yield "line", " "
        line = (line[:-1] if line.endswith("\r") and number + 1 < len(text.split("\n")) else line).lstrip(" \t\r\n")
        for piece in re.split(r"(=\?[^?]*\?[^?]*\?[^?]*\?=)", line):
            is_word = piece.encode() in WORDS
            kind = "word" if is_word else "text" if piece.strip(" \t\r\n") else "white"
            yield kind, WORDS[piece.encode()] if is_word else piece


def shown(text):
    """What a value shows: nothing between two words, nor after the last."""
    tokens = list(value_tokens(text))
    kinds = ["", "", *(kind for kind, _ in tokens), "", ""]
    out = ""
    for at, (kind, piece) in enumerate(tokens, 2):
        is_held = kind in ("white", "line") and (
            kinds[at - 1] == "word" or (kind == "line" and kinds[at - 2 : at] == ["word", "white"])
        )
        is_released = kinds[at + 1] == "text" or (kind == "white" and kinds[at + 1 : at + 3] == ["line", "text"])
        out += piece if not is_held or is_released else ""
    return out


class Name(bytes):
    """The text of a display name, with the phrase that it was made of."""

    phrase = b""


def name_of(text):
    """The text of a display name, as bytes."""
    pieces = re.sub("w+$", "", re.sub("w+", "w", text.word.lstrip("w")))
    tokens = iter([it for it in text.tokens() if it[0] != "w"])
    phrase = b"".join(b" " if letter == "w" else meaning(*next(tokens)) for letter in pieces)
    name = Name(shown(as_text(phrase)).encode())
    name.phrase = phrase
    return name


def address_of(local, domain):
    """An address in canonical form, or None if a control character is left."""
    user = b"".join(address_meaning(*it) for it in local.tokens())
    host = b"".join(address_meaning(*it) for it in domain.tokens())
    if re.search(rb"[\x00-\x1f\x7f]", user + host):
        return None
    if not re.fullmatch(ATOM + rb"(?:\." + ATOM + rb")*", user):
        user = b'"' + re.sub(rb'(["\\])', rb"\\\1", user) + b'"'
    return as_text(user + b"@" + host).encode()


def without_route(text):
    """What follows the route of an address in angle brackets."""
    colon = text.word.find(":")
    route = text.word[:colon]
    is_route = re.match("w*@", route) and all(
        re.fullmatch("w*", stop) or (re.match("w*@", stop) and DOMAIN.fullmatch(stop.partition("@")[2]))
        for stop in route.split(",")
    )
    return text.part(colon + 1, len(text.word)) if colon >= 0 and is_route else text


def mailbox_of(text):
    """The items of a mailbox, or None."""
    named = NAMED.fullmatch(text.word)
    name = b""
    if named:
        at = len(named[1])
        name = name_of(text.part(0, at)) if NAME.fullmatch(named[1]) else b""
        text = without_route(Text.read(text.part(at, at + 1).bytes()[1:-1]))
    at = text.word.find("@")
    if at < 0 or not LOCAL.fullmatch(text.word[:at]) or not DOMAIN.fullmatch(text.word[at + 1 :]):
        return None
    address = address_of(text.part(0, at), text.part(at + 1, len(text.word)))
    return None if address is None else ["mailbox", name, address]


def single_of(text):
    """The items of an element without members, if there is one."""
    if set(text.word) <= {"w"}:
        return []
    return mailbox_of(text) or ["unknown", text.bytes()]


def matches_of(text, pattern):
    """The matches of a pattern, one after another."""
    at = 0
    while at < len(text.word):
        found = pattern.match(text.word, at)
        yield found
        at = found.end()


def parts_of(text, pattern):
    """The text before each separator, which is the first group of a pattern."""
    return (text.part(*it.span(1)) for it in matches_of(text, pattern))


def group_of(text, found):
    """The items of a group."""
    members = [single_of(it) for it in parts_of(text.part(found.start(2), found.end(2)), MEMBER)]
    members = [it for it in members if it]
    return ["group", name_of(text.part(found.start(1), found.end(1))), str(len(members)), *sum(members, [])]


def elements_of(text):
    """The match of each element of a list: by GROUP where it is one, or else by SINGLE."""
    at = 0
    while at < len(text.word):
        found = GROUP.match(text.word, at)
        if not found or not NAME.fullmatch(found[1]):
            found = SINGLE.match(text.word, at)
        yield found
        at = found.end()


def items_of(raw):
    """The items of a list of addresses."""
    text, items = Text.read(raw), []
    for found in elements_of(text):
        items += group_of(text, found) if found.re is GROUP else single_of(text.part(*found.span(1)))
    return items


def first_comment(text):
    """The bytes within the first comment, or None."""
    return next((raw[1:-1] for letter, raw in text.tokens() if letter == "w" and raw[:1] == b"("), None)


def spec_of(name, text):
    """The items of a mailbox with this name, whose address is read leniently, or None."""
    at = text.word.find("@")
    local, domain = text.part(0, max(at, 0)), text.part(at + 1, len(text.word))
    rooted = re.fullmatch(r"(w*[a.]*)\.w*", domain.word)
    domain = domain.part(0, rooted.end(1)) if rooted else domain
    is_local = LOCAL.fullmatch(local.word) or re.fullmatch(r"w*[a.]+w*", local.word)
    is_word = local.part(len(local.word) - len(local.word.lstrip("w")), len(local.word)).bytes().startswith(b"=?")
    if at < 0 or not is_local or is_word or not DOMAIN.fullmatch(domain.word):
        return None
    address = address_of(local, domain)
    return None if address is None else ["mailbox", name, address]


def after_any_route(text):
    """What follows a route of any form."""
    found = re.match(r"w*@[^:]*:", text.word)
    return text.part(found.end(), len(text.word)) if found else text


def lenient_name(text):
    """The display name before angle brackets, without an open quote at its start, and whether it is only white."""
    white = len(text.word) - len(text.word.lstrip("w"))
    tokens = text.tokens()
    text = text.part(white + 1, len(tokens)) if tokens[white : white + 1] == [("o", b'"')] else text
    # Without the quote before them, other quotes may open or close.
    text = Text.read(text.bytes())
    return name_of(text), set(text.word) <= {"w"}


def bare_of(text):
    """The items of an address after a phrase or no name, and whether it has no name."""
    at = text.word.find("@")
    before = text.part(0, at if at >= 0 else len(text.word))
    split, tokens = 0, before.tokens()
    while (found := re.compile(r"[^w]*w+").match(before.word, split)) and not before.part(split, len(tokens)).bytes().startswith(b"=?"):
        split = found.end()
    name = text.part(0, split)
    if not NAME.fullmatch(name.word) and not set(name.word) <= {"w"}:
        return None, True
    return spec_of(name_of(name), text.part(split, len(text.word))), set(name.word) <= {"w"}


def closed_of(text):
    """The items of an element whose comments are closed, and whether it has no name."""
    tokens = text.tokens()
    if "<" in text.word:
        at = text.word.index("<")
        opening = next((k for k, it in enumerate(tokens[:at]) if it == ("o", b"<")), at)
        name, is_white = lenient_name(text.part(0, opening))
        if any(letter != "w" and raw != b">" for letter, raw in tokens[at + 1 :]):
            return None, is_white
        return spec_of(name, after_any_route(Text.read(tokens[at][1][1:-1]))), is_white
    opening = next((k for k, it in enumerate(tokens) if it == ("o", b"<")), None)
    if opening is not None:
        name, is_white = lenient_name(text.part(0, opening))
        return spec_of(name, after_any_route(Text.read(text.part(opening + 1, len(tokens)).bytes()))), is_white
    return bare_of(text)


def lenient_of(text):
    """The items of an element without members, read leniently."""
    if set(text.word) <= {"w"}:
        return []
    named = NAMED.fullmatch(text.word)
    found, is_white = mailbox_of(text), not named or set(named[1]) <= {"w"}
    comment = first_comment(text)
    if not found:
        tokens = text.tokens()
        cut = next((k for k, (letter, raw) in enumerate(tokens) if letter == "o" and raw[:1] == b"("), len(tokens))
        head = text.part(0, cut)
        if b"<" in text.part(cut, len(tokens)).bytes():
            return ["unknown", text.bytes()]
        named = NAMED.fullmatch(head.word)
        found, is_white = mailbox_of(head), not named or set(named[1]) <= {"w"}
        if not found:
            found, is_white = closed_of(head)
    if found and is_white and comment is not None:
        found = ["mailbox", name_of(Text.read(comment)), found[2]]
    return found or ["unknown", text.bytes()]


def lenient_single(text):
    """The items of an element. If a comment is not closed and has no `<` in it, each separator in it separates."""
    *head, (letter, tail) = text.tokens() or [("", b"")]
    if mailbox_of(text) or letter != "o" or tail[:1] != b"(" or b"<" in tail:
        return element_of(text)
    first, *others = re.split(rb"[,;]", tail)
    return sum((element_of(Text.read(it)) for it in [b"".join(raw for _, raw in head) + first, *others]), [])


def element_of(text):
    """The items of an element, which may be a group without its semicolon, or several addresses."""
    found = re.fullmatch(r"([^:]*):(.*)", text.word)
    if not mailbox_of(text) and found and NAME.fullmatch(found[1]):
        inner = found[2]
        if set(inner) <= {"w"} or ("@" in inner and "<" not in inner):
            return lenient_group(text, found)
    found = lenient_of(text)
    return several_of(text) or found if found[:1] == ["unknown"] else found


def several_of(text):
    """The items of the addresses that an element consists of, or None."""
    if b"=?" in text.bytes():
        return None
    first = re.compile("([^<]*<?w*)" if "<" in text.word else "([^@]*@?[^w]*w*)")
    found = [lenient_of(it) for it in parts_of(text, first)]
    return sum(found, []) if all(it[:1] == ["mailbox"] for it in found) else None


def joined(text, matches):
    """Where each element begins, and its match. Phrases before commas may begin the name of a mailbox with brackets."""
    names = []
    for found in matches:
        single = None if found.re is GROUP else text.part(*found.span(1))
        if single and set(found[1]) <= {"w"}:
            continue
        if single and NAME.fullmatch(found[1]) and found[0].endswith(","):
            names.append(found)
            continue
        if names and single and "<" in found[1] and lenient_of(single)[:1] == ["mailbox"]:
            yield names[0].start(1), found
        else:
            yield from ((it.start(1), it) for it in [*names, found])
        names = []
    yield from ((it.start(1), it) for it in names)


def lenient_group(text, found):
    """The items of a group whose members are read leniently."""
    inner = text.part(found.start(2), found.end(2))
    members = [lenient_of(inner.part(at, it.end(1))) for at, it in joined(inner, matches_of(inner, MEMBER))]
    return ["group", name_of(text.part(found.start(1), found.end(1))), str(len(members)), *sum(members, [])]


def lenient_items(raw):
    """The items of a list, read leniently."""
    text, items = Text.read(raw), []
    for at, found in joined(text, elements_of(text)):
        items += lenient_group(text, found) if found.re is GROUP else lenient_single(text.part(at, found.end(1)))
    return items


def shown_names(items):
    """The names of the mailboxes and groups in these items as people see them: without the quotes around them."""
    names, items = [], iter(items)
    for kind in items:
        phrase = getattr(next(items), "phrase", b"")
        # a CR or a LF with the whitespace after it is a space, and nothing at the end
        line = re.sub(rb"[\r\n][ \t\r\n]*", b" ", re.sub(rb"[\r\n][ \t\r\n]*\Z", b"", phrase))
        name = header_text(line).encode()
        if kind != "unknown":
            next(items)
            is_quoted = len(name) > 1 and name[:1] == name[-1:] and name[:1] in (b'"', b"'")
            names.append(name[1:-1] if is_quoted else name)
    return names


def made_mailbox(chance):
    """The pieces of a mailbox."""
    address = chance.choice(ADDRESSES)
    if chance.random() < 0.3:
        return [address]
    name = [chance.choice(NAMES) for _ in range(chance.choice([0, 1, 1, 1, 2]))]
    if chance.random() < 0.1:
        name = [chance.choice(NAMES), b", ", *name]
    return [*name, b" ", b"<", chance.choice(ROUTES), address, b">"]


def made_element(chance):
    """The pieces of an element."""
    if chance.random() < 0.85:
        return made_mailbox(chance)
    members = [[*made_mailbox(chance), b","] for _ in range(chance.randint(0, 2))]
    return [chance.choice(NAMES), b":", *sum(members, []), b";"]


def made_value(chance):
    """A list of addresses, into which odd pieces come, and of which pieces are left out, doubled or moved."""
    pieces = made_element(chance)
    for _ in range(chance.choice([0, 0, 1, 1, 2])):
        pieces += [chance.choice(SEPARATORS), *made_element(chance)]
    for _ in range(chance.choice([0, 1, 1, 2])):
        piece = chance.choice(ODD if chance.random() < 0.5 else pieces)
        if chance.random() < 0.3 and len(pieces) > 1:
            piece = pieces.pop(chance.randrange(len(pieces)))
        if chance.random() < 0.8:
            pieces.insert(chance.randrange(len(pieces) + 1), piece)
    return b"".join(pieces)


@pytest.mark.parametrize("part", range(20))
def test_addresses(part, seed, tmp_path):
    """5,000 values."""
    chance = random.Random(f"{seed} {part * PART}")
    values = [made_value(chance) for _ in range(PART)]
    rows = [Row("", "addresses", [it], items_of(it)) for it in values]
    found = [lenient_items(it) for it in values]
    rows += [Row("", "lenient_addresses", [it], items) for it, items in zip(values, found)]
    rows += [Row("", "shown_names", [it], shown_names(items)) for it, items in zip(values, found)]
    file = tmp_path / "addresses.txt"
    file.write_text("\n".join(["== Made addresses", *map(line_of, rows), ""]))
    ended = run([program("mail_vectors"), file])
    assert ended.stderr.splitlines()[-1] == b"%d passed, 0 failed" % (3 * PART), ended.stdout[:5000]
