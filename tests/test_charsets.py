"""The charsets of several bytes: mails that Python wrote in them, and every sequence beside encoding_rs.

Of each encoding Python's email package and codecs write 2,000 mails: the subject and the sender's display name in
encoded words, several if they are long; a text in 7bit, 8bit, base64 or quoted-printable; and in half of them a file,
whose name is an encoded word, an extended parameter, maybe in sections, or both. What the package does not write is
written by hand: labels that Python does not know, short words, sections, and words of ISO-2022-JP that do not return
to ASCII.

encoding_rs is given every pair of bytes, each followed by several others, every sequence of four bytes at the borders
of the classes of bytes, and random sequences; of gb18030 also every sequence of four bytes, of EUC-JP every three that
begin with 8F, and of ISO-2022-JP escapes in any order.

Python's codecs are given every pair too: what they read otherwise has a finding of `rocktray check`.
"""

import base64
import email.charset
import email.encoders
import email.header
import email.message
import email.mime.multipart
import email.policy
import itertools
import json
import os
import random
import re
import shutil
import struct
import subprocess
import urllib.parse
from dataclasses import dataclass

import pytest

from support import FROM, TOP, command, missing, program, run, text_of

ADDRESS = "a@example.org"
ENDINGS = (".pdf", ".tar.gz", "-1.doc", "_v2.txt", "")
ASCII = ("abc", "Re:", "x=y", "100%", "a_b", "(2)", "10:30", "?", "e-mail", "=20", "[x]", "~", "A")
ATTRIBUTE = b"ABCDEFGHIJKLMNOPQRSTUVWXYZabcdefghijklmnopqrstuvwxyz0123456789!#$&+-.^_`{|}~"
HALF_WIDTH = [chr(number) for number in range(0xFF61, 0xFFA0)]
TO_ASCII = b"\x1b(B"
# a value that would be folded before its first word begins with a line end, which shows as a space
AS_WRITTEN = email.policy.compat32.clone(max_line_length=0)


@dataclass
class Encoding:
    """An encoding: its labels, Python's codec that writes it, and characters that both read alike."""

    labels: tuple
    codec: str
    characters: list


def letters(codec, leads, trails, before=b""):
    """The letters that are two bytes after those before."""
    found = (before + bytes(pair) for pair in itertools.product(leads, trails))
    texts = (data.decode(codec, "ignore") for data in found)
    return [text for text in texts if len(text) == 1 and text.isalpha()]


def encodings():
    """The encodings by name. Each has letters alone: the signs are those that Python reads otherwise."""
    high, trails, rows = range(0x81, 0xFF), range(0x40, 0xFF), range(0xA1, 0xFF)
    chinese = letters("gbk", high, trails)
    four = [*range(0x3400, 0x4DB6), *range(0xAC00, 0xD7A4), *range(0x20000, 0x2A6D7), *range(0x1F600, 0x1F640)]
    jis = letters("iso2022_jp", range(0x21, 0x7F), range(0x21, 0x7F), b"\x1b$B")
    return {
        "gbk": Encoding(("gbk", "gb2312", "gb_2312-80", "x-gbk", "chinese", "csISO58GB231280"), "gbk", chinese),
        "gb18030": Encoding(("gb18030",), "gb18030", chinese + [chr(number) for number in four]),
        "big5": Encoding(("big5", "big5-hkscs", "cn-big5", "csBig5", "x-x-big5"), "big5hkscs",
                         letters("big5hkscs", high, trails)),
        "euc-kr": Encoding(("euc-kr", "ks_c_5601-1987", "ksc5601", "korean", "windows-949", "csEUCKR"), "cp949",
                           letters("cp949", high, trails)),
        "euc-jp": Encoding(("euc-jp", "x-euc-jp", "csEUCPkdFmtJapanese"), "euc_jp",
                           letters("euc_jp", high, rows) + letters("euc_jp", rows, rows, b"\x8f")),
        "shift_jis": Encoding(("shift_jis", "shift-jis", "x-sjis", "sjis", "ms_kanji", "windows-31j", "csShiftJIS"),
                              "cp932", letters("cp932", high, trails) + HALF_WIDTH * 20),
        "iso-2022-jp": Encoding(("iso-2022-jp", "csISO2022JP"), "iso2022_jp_ext", jis + HALF_WIDTH * 20 + ["¥", "‾"]),
    }


def run_of(rng, encoding, most):
    """Some characters of an encoding, now and then with ASCII between two."""
    found = []
    for _ in range(rng.randrange(1, most + 1)):
        found.append(rng.choice(encoding.characters) if rng.random() < 0.9 else rng.choice("aZ09-"))
    return "".join(found)


def line_of(rng, encoding, most):
    """Words of an encoding and of ASCII, with a space between two."""
    words = [run_of(rng, encoding, 12)]
    for _ in range(rng.randrange(most)):
        words.append(rng.choice(ASCII) if rng.random() < 0.3 else run_of(rng, encoding, 12))
    return " ".join(words)


def odd_case(rng, label):
    """A label as a writer might write it."""
    return rng.choice((label, label, label.upper(), label.title()))


def quoted(data):
    """Bytes as the Q encoding writes them."""
    return "".join(chr(byte) if chr(byte).isalnum() and byte < 128 else "_" if byte == 32 else f"={byte:02X}"
                   for byte in data)


def word_by_hand(rng, encoding, label, text):
    """An encoded word. One in ISO-2022-JP may end in another mode: the next begins in ASCII anyway."""
    data = text.encode(encoding.codec)
    if rng.random() < 0.5:
        data = data.removesuffix(TO_ASCII)
    if rng.random() < 0.5:
        return f"=?{label}?{rng.choice('Bb')}?{base64.b64encode(data).decode()}?="
    return f"=?{label}?{rng.choice('Qq')}?{quoted(data)}?="


def words_by_hand(rng, encoding, label, text):
    """Encoded words, each with a few characters."""
    cuts = [0]
    while cuts[-1] < len(text):
        cuts.append(cuts[-1] + rng.randrange(1, 16))
    pieces = [text[start:end] for start, end in zip(cuts, cuts[1:])]
    return rng.choice((" ", "\n ", "\n\t")).join(word_by_hand(rng, encoding, label, piece) for piece in pieces)


def words_by_email(rng, encoding, label, text):
    """Encoded words as the package writes them, which takes the codec's name for a label."""
    charset = email.charset.Charset(encoding.codec)
    charset.header_encoding = rng.choice((email.charset.BASE64, email.charset.QP, email.charset.SHORTEST))
    charset.output_charset = charset.output_codec = encoding.codec
    written = email.header.Header(text, charset, header_name="Content-Disposition").encode()
    return written.replace(f"=?{encoding.codec}?", f"=?{label}?").lstrip()


def words_of(rng, encoding, label, text):
    """Encoded words."""
    return rng.choice((words_by_email, words_by_hand))(rng, encoding, label, text)


def percent(data):
    """Bytes as an extended value has them."""
    return [chr(byte) if byte in ATTRIBUTE else f"%{byte:02X}" for byte in data]


def starred(rng, encoding, label, name, text):
    """A starred parameter, whole or in sections, which may cut a character in two."""
    data = text.encode(encoding.codec)
    language = rng.choice(("", "", "ja", "zh-cn"))
    kind = rng.randrange(3)
    if kind == 0:
        return f"{name}*={label}'{language}'{urllib.parse.quote_from_bytes(data, safe='')}"
    if kind == 1:
        return f"{name}*={label}'{language}'{''.join(percent(data))}"
    width = rng.randrange(1, 20)
    units = percent(data)
    pieces = ["".join(units[at:at + width]) for at in range(0, len(units), width)]
    pieces[0] = f"{label}'{language}'{pieces[0]}"
    return ";\n ".join(f"{name}*{number}*={piece}" for number, piece in enumerate(pieces))


def text_part(rng, encoding, label, text):
    """A part with a text."""
    part = email.message.Message()
    part["Content-Type"] = f"text/plain; charset={rng.choice((label, chr(34) + label + chr(34)))}"
    part.set_payload(text.encode(encoding.codec).decode("ascii", "surrogateescape"))
    rng.choice((email.encoders.encode_7or8bit, email.encoders.encode_base64, email.encoders.encode_quopri))(part)
    return part


def file_part(rng, encoding, label, name):
    """A file with this name in its type, in its disposition or in both; and the name in its type that has to be read,
    unless that is encoded words, which are not decoded there (RFC 2047, section 5)."""
    part = email.message.Message()
    places = rng.randrange(1, 4)
    in_type, shown, wanted = "", "attachment", {"name of the type": None}
    if places & 1:
        word = f"name=\"{words_of(rng, encoding, label, name)}\""
        in_type = ";\n " + rng.choice((word, starred(rng, encoding, label, "name", name)))
        wanted = {} if in_type == ";\n " + word else {"name of the type": name}
    if places & 2:
        word = f"filename=\"{words_of(rng, encoding, label, name)}\""
        shown += ";\n " + rng.choice((word, starred(rng, encoding, label, "filename", name)))
    part["Content-Type"] = "application/octet-stream" + in_type
    part["Content-Disposition"] = shown
    part.set_payload("x\n")
    return part, wanted


def mail_of(rng, encoding):
    """The bytes of a mail, and what has to be read of it."""
    label = odd_case(rng, rng.choice(encoding.labels))
    wanted = {
        "subject": line_of(rng, encoding, rng.choice((1, 3, 10))),
        "name": line_of(rng, encoding, rng.choice((1, 2, 4))),
        "text": "".join(line_of(rng, encoding, 6) + "\n" for _ in range(rng.randrange(1, 5))),
    }
    mail = text_part(rng, encoding, label, wanted["text"])
    if rng.random() < 0.5:
        wanted["file name"] = run_of(rng, encoding, rng.choice((4, 20))) + rng.choice(ENDINGS)
        file, names = file_part(rng, encoding, label, wanted["file name"])
        wanted.update(names)
        mail = email.mime.multipart.MIMEMultipart(rng.choice(("mixed", "related")), "=b=", [mail, file])
    subject = words_of(rng, encoding, label, wanted["subject"])
    if rng.random() < 0.3:
        subject, wanted["subject"] = "Re: " + subject, "Re: " + wanted["subject"]
    mail["Subject"] = subject
    name = words_of(rng, encoding, label, wanted["name"])
    mail["From"] = name + rng.choice((" ", "\n ")) + f"<{ADDRESS}>"
    return mail.as_bytes(policy=AS_WRITTEN), wanted


def read_of(mail):
    """What the program read of a mail, from its line."""
    if "error" in mail:
        return {"error": mail["error"]}
    parts = {part["path"]: part for part in mail["parts"]}
    found = {
        "subject": mail["subject"],
        "name": mail["from"][0].get("name") if mail["from"] else None,
        "text": parts["1"]["text"],
    }
    if "2" in parts:
        found["file name"] = parts["2"]["file_name"]
        found["name of the type"] = parts["2"]["params"].get("name")
    return found


@pytest.fixture(scope="module")
def known():
    """The encodings that Python can write."""
    return encodings()


NAMES = ("gbk", "gb18030", "big5", "euc-kr", "euc-jp", "shift_jis", "iso-2022-jp")


@pytest.mark.parametrize("name", NAMES)
def test_mails(name, known, seed, tmp_path):
    """The subject, the name, the text and the names of the file come back as they were written."""
    rng = random.Random(f"{seed} {name}")
    mails = [mail_of(rng, known[name]) for _ in range(2100)]
    path = tmp_path / "mails.mbox"
    path.write_bytes(b"".join(FROM + data + b"\n" for data, _ in mails))
    ended = run([*command("json"), "--mbox", path])
    lines = ended.stdout.decode().split("\n")[:-1]
    assert (ended.returncode, len(lines)) == (0, len(mails))
    for number, (line, (_, wanted)) in enumerate(zip(lines, mails), 1):
        found = read_of(json.loads(line))
        assert {item: found.get(item) for item in wanted} == wanted, f"mail {number}"


def test_names(known):
    """No encoding is left out."""
    assert set(NAMES) == set(known)


REGISTRY = "/usr/share/cargo/registry"
# the bytes on both sides of each border between classes of bytes
BORDERS = {
    "gbk": (0x2F, 0x30, 0x39, 0x3A, 0x3F, 0x40, 0x7E, 0x7F, 0x80, 0x81, 0xA1, 0xFE, 0xFF),
    "gb18030": (0x2F, 0x30, 0x31, 0x39, 0x3A, 0x40, 0x7E, 0x7F, 0x80, 0x81, 0x84, 0x90, 0xE3, 0xFE, 0xFF),
    "big5": (0x3F, 0x40, 0x62, 0x7E, 0x7F, 0x80, 0x81, 0x87, 0x88, 0xA0, 0xA1, 0xA3, 0xA5, 0xFE, 0xFF),
    "euc-kr": (0x40, 0x41, 0x5A, 0x5B, 0x7F, 0x80, 0x81, 0xA0, 0xA1, 0xC6, 0xC7, 0xFE, 0xFF),
    "euc-jp": (0x20, 0x7F, 0x80, 0x8D, 0x8E, 0x8F, 0x90, 0xA0, 0xA1, 0xA2, 0xDF, 0xE0, 0xFE, 0xFF),
    "shift_jis": (0x3F, 0x40, 0x7E, 0x7F, 0x80, 0x81, 0x9F, 0xA0, 0xA1, 0xDF, 0xE0, 0xEF, 0xF0, 0xFC, 0xFD, 0xFF),
    "iso-2022-jp": (0x0E, 0x1B, 0x20, 0x21, 0x24, 0x28, 0x40, 0x42, 0x49, 0x4A, 0x5C, 0x5F, 0x7E, 0x7F, 0x80, 0xFF),
    "replacement": (0x41,),
    "x-user-defined": (0x00, 0x7F, 0x80, 0xFF),
}
# the characters of 18 pairs that the standard took out of private use in 2023; encoding_rs before 0.8.35 has the old ones
SINCE_2023 = dict(zip((*range(0xE78D, 0xE797), 0xE81E, 0xE826, 0xE82B, 0xE82C, 0xE832, 0xE843, 0xE854, 0xE864),
                      (0xFE10, 0xFE12, 0xFE11, *range(0xFE13, 0xFE1A), *range(0x9FB4, 0x9FBC))))
PIECES = (b"\x1B(B", b"\x1B(J", b"\x1B(I", b"\x1B$@", b"\x1B$B", b"\x1B", b"(", b"$", b"a", b"\\", b"~", b"!",
          b"$\"", b"0!", b"\x80", b"\x0E", b"\xFF")


def sequences(label, rng):
    """The sequences that an encoding is given in one text."""
    borders = BORDERS[label]
    for first, second in itertools.product(range(256), repeat=2):
        for third in (0x20, 0x41, 0x30, 0x81, 0xB0, 0xFF):
            yield bytes((first, second, third))
    for length in (1, 2, 3, 4):
        for sequence in itertools.product(borders, repeat=length):
            yield bytes(sequence)
    if label in ("gbk", "gb18030"):
        for sequence in itertools.product(range(0x81, 0xFF), range(0x30, 0x3A), range(0x81, 0xFF), range(0x30, 0x3A)):
            yield bytes(sequence)
    if label == "euc-jp":
        for second, third in itertools.product(range(0x80, 0x100), range(256)):
            yield bytes((0x8F, second, third))
    if label == "iso-2022-jp":
        for escape in PIECES[:5]:
            for first, second in itertools.product(range(256), repeat=2):
                yield escape + bytes((first, second))
        for _ in range(400000):
            yield b"".join(rng.choice(PIECES) for _ in range(rng.randrange(1, 14)))
    for _ in range(200000):
        yield bytes(rng.choice((rng.randrange(256), rng.choice(borders), rng.randrange(0x80, 0x100)))
                    for _ in range(rng.randrange(1, 24)))


def endings(label):
    """The sequences that are given alone, and so end the text."""
    for length in (1, 2, 3):
        for sequence in itertools.product(BORDERS[label][::3], repeat=length):
            yield bytes(sequence)
    if label == "iso-2022-jp":
        for first, second in itertools.product(PIECES, repeat=2):
            yield first + second


@pytest.fixture(scope="module")
def encoding_rs(tmp_path_factory):
    """The program of oracle/encoding_rs, built with the crates that Debian has."""
    has_crate = os.path.isdir(REGISTRY) and any(name.startswith("encoding_rs-") for name in os.listdir(REGISTRY))
    if not shutil.which("cargo") or not has_crate:
        missing("cargo and encoding_rs are missing: apt-get install cargo librust-encoding-rs-dev")
    source = tmp_path_factory.mktemp("encoding_rs") / "source"
    shutil.copytree(TOP / "oracle" / "encoding_rs", source)
    subprocess.run(["cargo", "build", "--offline", "--release", "-q",
                    "--config", 'source.crates-io.replace-with="debian"',
                    "--config", f'source.debian.directory="{REGISTRY}"'], cwd=source, check=True)
    return source / "target" / "release" / "charset_oracle"


def as_today(label, text):
    """A text of encoding_rs, with the characters that gb18030 has since 2023."""
    return text.decode().translate(SINCE_2023).encode() if label in ("gbk", "gb18030") else text


def oracle_texts(oracle, label, records):
    """The texts of records by encoding_rs; a record of more than 65,535 bytes is sent alone."""
    given = label.encode() + b"\n" + b"".join(struct.pack("<H", len(record)) + record for record in records)
    output = subprocess.run([oracle], input=given, stdout=subprocess.PIPE, check=True).stdout
    texts, at = [], 0
    while at < len(output):
        length = struct.unpack_from("<I", output, at)[0]
        texts.append(as_today(label, output[at + 4:at + 4 + length]))
        at += 4 + length
    return texts


def whole_text(oracle, label, data):
    """The text of bytes of any length by encoding_rs."""
    ended = subprocess.run([oracle, "text", label], input=data, stdout=subprocess.PIPE, check=True)
    return as_today(label, ended.stdout)


def program_text(label, data):
    """The text of bytes by the proved program."""
    return subprocess.run([program("mail_speed"), "recode", label], input=data, stdout=subprocess.PIPE, check=True).stdout


@pytest.mark.parametrize("label", BORDERS)
def test_sequences(label, encoding_rs, seed):
    """Every sequence has the text that encoding_rs gives it."""
    records = list(sequences(label, random.Random(seed)))
    assert len(records) > 500_000
    data = b"\n".join(records)
    ours, theirs = program_text(label, data), whole_text(encoding_rs, label, data)
    if ours != theirs:
        wrong = [pair for pair in zip(ours.split(b"\n"), theirs.split(b"\n")) if pair[0] != pair[1]]
        pytest.fail(f"{len(wrong)} sequences differ: {wrong[:10]}")
    ends = list(endings(label))
    for record, text in zip(ends, oracle_texts(encoding_rs, label, ends)):
        assert program_text(label, record) == text, f"{record.hex()} at the end"


# Python's codecs with the labels of docs/FINDINGS.md, which do not follow the Encoding Standard
OTHER_CODECS = {"koi8-u": "koi8_u", "windows-1255": "cp1255", "shift_jis": "shift_jis", "euc-jp": "euc_jp", "big5": "big5",
                "euc-kr": "euc_kr", "ks_c_5601-1987": "euc_kr", "gbk": "gbk", "gb18030": "gb18030", "gb2312": "gb2312"}
SINGLE_BYTES = ("koi8-u", "windows-1255")
SINGLES = {"koi8-u": range(0x80, 0x100), "windows-1255": range(0x80, 0x100), "shift_jis": range(0xA0, 0xE0), "euc-jp": (0x8F,)}
ONLY_PAIRS = ("euc-kr", "ks_c_5601-1987", "gb2312")


def disputed_ranges(label):
    """The ranges of bytes in the rows that the page FINDINGS.md has of a label, of which each is one range or two."""
    section = text_of("docs/FINDINGS.md").split("\n### charset\n")[1].split("\n### ")[0]
    rows = [line.split(" | ") for line in section.splitlines() if line.startswith("| `") and f"`{label}`" in line.split(" | ")[0]]
    ranges = [[tuple(int(end, 16) for end in one.split("-")) for one in found.split()] for row in rows for found in re.findall("`(.*?)`", row[2])]
    assert ranges
    return [[range(one[0], one[-1] + 1) for one in each] for each in ranges]


def is_disputed(data, singles, ranges):
    """Whether one of the characters of bytes is in the ranges, or they end in half a pair."""
    first = None
    for byte in data:
        if first is None and byte >= 0x80 and byte not in singles:
            first = byte
            continue
        character = (byte,) if first is None else (first, byte)
        if any(len(each) == len(character) and all(map(range.__contains__, each, character)) for each in ranges):
            return True
        first = None
    return first is not None


def short_sequences(label):
    """The bytes from 20 on, the pairs of which the first is not ASCII, and some longer sequences."""
    yield from (bytes((byte,)) for byte in range(0x20, 0x100))
    if label in SINGLE_BYTES:
        return
    yield from map(bytes, itertools.product(range(0x80, 0x100), range(0x30, 0x100)))
    if label == "euc-jp":
        yield from map(bytes, itertools.product((0x8F,), range(0xA1, 0xFF), range(0xA1, 0xFF)))
    if label in ("gb18030", "gbk"):
        yield from map(bytes, itertools.product((0x81, 0x82, 0x84, 0x90), range(0x30, 0x3A), range(0x81, 0xFF), range(0x30, 0x3A)))


def standard_texts(label, sequences, mailbox):
    """The texts by the Encoding Standard of bytes, which are the texts of the mails of a mailbox."""
    if label in SINGLE_BYTES:
        lines = run([*command("json"), "-"], mailbox).stdout.splitlines()
        return [json.loads(line)["parts"][0]["text"] for line in lines]
    return program_text(label, b"\n".join(sequences)).decode().split("\n")


@pytest.mark.parametrize("label", OTHER_CODECS)
def test_disputed(label):
    """A text has a finding exactly if the page says so, and Python's codec reads each text without one as the standard does."""
    sequences = list(short_sequences(label))
    head = f"Content-Type: text/plain; charset={label}\nContent-Transfer-Encoding: base64\n\n".encode()
    mailbox = b"".join(FROM + head + base64.b64encode(data) + b"\n\n" for data in sequences)
    lines = run([*command("check"), "--json", "-"], mailbox).stdout.splitlines()
    texts = standard_texts(label, sequences, mailbox)
    assert len(lines) == len(texts) == len(sequences)
    singles, ranges = SINGLES.get(label, (0x80,)), disputed_ranges(label)
    for data, line, text in zip(sequences, lines, texts):
        is_found = any(one["name"] == "charset" for one in json.loads(line)["findings"])
        is_lacking = not data.isascii() and bool(re.search("[\x80-\x9f\ufffd]", text))
        is_cut = label in ONLY_PAIRS and not re.fullmatch(rb"(?:[\0-\x7f]|[\xa1-\xfe]{2})*", data)
        assert is_found == (is_lacking or is_cut or is_disputed(data, singles, ranges)), data
        assert is_found or data.decode(OTHER_CODECS[label]) == text, data
