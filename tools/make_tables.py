#!/usr/bin/env python3
"""Makes the single-byte tables of crates/mail_charsets from the sources of the Rust crate encoding_rs.

SOURCES is its directory `src`, as in Debian's package librust-encoding-rs-dev, which contains the
indexes and the labels of the WHATWG Encoding Standard. Run `rt fmt` afterwards. With --check it
writes nothing and reports whether the file is what the sources give; the last line is then
`N passed, N failed`, and the exit status is 1 if it is not. The texts that Python's codecs read under
each table are in crates/mail_vectors/data/tables.txt.

With --indexes ORACLE it makes the indexes of the encodings of several bytes instead. ORACLE is the
program of oracle/encoding_rs, built with encoding_rs 0.8.35 or later, which has the index of gb18030
of 2023; it decodes each pair and each four bytes by encoding_rs. It then reports how many entries
Python's codecs read differently; docs/DIFFERENCES.md has the reasons.
"""
import argparse
import os
import re
import struct
import subprocess
import sys

TOP = os.path.dirname(os.path.dirname(os.path.abspath(__file__)))
PATH = os.path.join(TOP, "crates", "mail_charsets", "src", "single_byte.rt")
INDEX_PATH = os.path.join(TOP, "crates", "mail_charsets", "src", "tables.rt")
# the name of each encoding in the standard, and the name of its characters in encoding_rs
ENCODINGS = [
    ("IBM866", "ibm866"),
    ("ISO-8859-2", "iso_8859_2"),
    ("ISO-8859-3", "iso_8859_3"),
    ("ISO-8859-4", "iso_8859_4"),
    ("ISO-8859-5", "iso_8859_5"),
    ("ISO-8859-6", "iso_8859_6"),
    ("ISO-8859-7", "iso_8859_7"),
    ("ISO-8859-8", "iso_8859_8"),
    ("ISO-8859-8-I", "iso_8859_8"),
    ("ISO-8859-10", "iso_8859_10"),
    ("ISO-8859-13", "iso_8859_13"),
    ("ISO-8859-14", "iso_8859_14"),
    ("ISO-8859-15", "iso_8859_15"),
    ("ISO-8859-16", "iso_8859_16"),
    ("KOI8-R", "koi8_r"),
    ("KOI8-U", "koi8_u"),
    ("macintosh", "macintosh"),
    ("windows-874", "windows_874"),
    ("windows-1250", "windows_1250"),
    ("windows-1251", "windows_1251"),
    ("windows-1253", "windows_1253"),
    ("windows-1254", "windows_1254"),
    ("windows-1255", "windows_1255"),
    ("windows-1256", "windows_1256"),
    ("windows-1257", "windows_1257"),
    ("windows-1258", "windows_1258"),
    ("x-mac-cyrillic", "x_mac_cyrillic"),
]


def unspaced(text):
    """Returns a source without what `rt fmt` may change."""
    return re.sub(r"\s+", "", text).replace(",]", "]").replace(",)", ")")


def constant(name):
    """Returns the name of the constant of an encoding."""
    return name.upper().replace("-", "_")


def indexes(sources):
    """Returns the characters of the bytes 80 to FF in each encoding of encoding_rs, with U+FFFD for none."""
    with open(os.path.join(sources, "data.rs"), encoding="utf-8") as file:
        text = file.read()
    text = text[text.index("pub static SINGLE_BYTE_DATA"):]
    text = text[: text.index("\n};")]
    found = {}
    for name, items in re.findall(r"\n    (\w+): \[([^\]]*)\]", text):
        codes = [int(code, 16) for code in re.findall(r"0x([0-9A-Fa-f]+)", items)]
        found[name] = [code or 0xFFFD for code in codes]
    return found


def labels(sources):
    """Returns the labels of each encoding in alphabetical order, by its name in the standard."""
    with open(os.path.join(sources, "lib.rs"), encoding="utf-8") as file:
        text = file.read()
    encoding = r"pub static (\w+)_INIT: Encoding = Encoding \{\s*name: \"([^\"]+)\""
    names = dict(re.findall(encoding, text))
    listed = re.search(r"static LABELS_SORTED: [^=]*= \[(.*?)\];", text, re.S).group(1)
    owners = re.search(r"static ENCODINGS_IN_LABEL_SORT: [^=]*= \[(.*?)\];", text, re.S).group(1)
    found = {}
    listed = re.findall(r"\"([^\"]+)\"", listed)
    owners = re.findall(r"&(\w+)_INIT", owners)
    assert len(listed) == len(owners)
    for label, owner in zip(listed, owners):
        found.setdefault(names[owner], []).append(label)
    return {name: sorted(all_labels) for name, all_labels in found.items()}


def char_rows(codes):
    """Returns the characters of a table as lines of source."""
    rows = []
    for start in range(0, len(codes), 8):
        row = ", ".join("'\\u{%04X}'" % code for code in codes[start:start + 8])
        rows.append("        %s," % row)
    return rows


def table_source(name, codes, all_labels):
    """Returns the constant of one encoding."""
    lines = ["/// %s." % name]
    lines.append("pub const %s: SingleByteTable<'static> = SingleByteTable {" % constant(name))
    one_line = "    labels: &[%s]," % ", ".join('"%s"' % label for label in all_labels)
    if len(one_line) <= 100 and len(all_labels) == 1:
        lines.append(one_line)
    else:
        lines.append("    labels: &[")
        lines += ['        "%s",' % label for label in all_labels]
        lines.append("    ],")
    lines.append("    high: &[")
    lines += char_rows(codes)
    lines += ["    ],", "};"]
    return "\n".join(lines)


def source_of(sources):
    """Returns the file of the tables."""
    characters, known = indexes(sources), labels(sources)
    constants = []
    for name, index in ENCODINGS:
        assert len(characters[index]) == 0x80, name
        constants.append(table_source(name, characters[index], known[name]))
    names = [constant(name) for name, _ in ENCODINGS]
    made = ["//! The tables, made by `tools/make_tables.py`; do not edit them.", ""]
    made += ["use mail_codec::charset::SingleByteTable;", ""]
    made += ["/// All tables, in the order in which the standard lists their encodings."]
    made += ["pub const TABLES: [SingleByteTable<'static>; %d] = [" % len(names)]
    made += [*("    %s," % it for it in names), "];", ""]
    made += ["\n\n".join(constants), ""]
    return "\n".join(made)


def decoded(oracle, label, records):
    """Returns the texts of records in an encoding, decoded by encoding_rs."""
    given = label.encode() + b"\n" + b"".join(struct.pack("<H", len(r)) + r for r in records)
    output = subprocess.run([oracle], input=given, stdout=subprocess.PIPE, check=True).stdout
    texts, at = [], 0
    while at < len(output):
        length = struct.unpack_from("<I", output, at)[0]
        texts.append(output[at + 4:at + 4 + length].decode())
        at += 4 + length
    return texts


def code(text):
    """Returns the code of a text of one character, and 0 for any other text."""
    return ord(text) if len(text) == 1 and text != "\uFFFD" else 0


def codec_code(codec, record):
    """Returns the code of a record, decoded by a codec of Python."""
    try:
        return code(record.decode(codec))
    except UnicodeDecodeError:
        return 0


def span(*ends):
    """Returns the bytes from the first to the last of each two."""
    return [byte for first, last in zip(ends[::2], ends[1::2]) for byte in range(first, last + 1)]


# each index: its name, its label, its lead bytes, its trail bytes, the bytes before each pair, and
# the codec of Python to compare with
INDEXES = [
    ("EUC_KR", "euc-kr", span(0x81, 0xFE), span(0x41, 0xFE), b"", "cp949"),
    ("GB18030", "gb18030", span(0x81, 0xFE), span(0x40, 0x7E, 0x80, 0xFE), b"", "gb18030"),
    ("BIG5", "big5", span(0x81, 0xFE), span(0x40, 0x7E, 0xA1, 0xFE), b"", "big5hkscs"),
    ("JIS_0208", "shift_jis", span(0x81, 0x9F, 0xE0, 0xFC), span(0x40, 0x7E, 0x80, 0xFC), b"", "cp932"),
    ("JIS_0212", "euc-jp", span(0xA1, 0xFE), span(0xA1, 0xFE), b"\x8F", "euc_jp"),
]


def index_of(oracle, row):
    """Returns the entries of an index, without zeros at the end."""
    name, label, leads, trails, before, codec = row
    records = [before + bytes([lead, trail]) for lead in leads for trail in trails]
    entries = [code(text) for text in decoded(oracle, label, records)]
    other = sum(a != codec_code(codec, r) for a, r in zip(entries, records))
    print("%s: %d characters; %s reads %d pairs differently" % (
        name, sum(map(bool, entries)), codec, other))
    if name == "JIS_0208":
        # the characters for private use are computed
        entries[8836:10716] = [0] * 1880
    while not entries[-1]:
        entries.pop()
    return entries


def ranges_of(oracle):
    """Returns the four-byte pointers of gb18030 at which a run of characters of plane 0 begins."""
    records = [bytes([a, b, c, d]) for a in span(0x81, 0xFE) for b in span(0x30, 0x39)
               for c in span(0x81, 0xFE) for d in span(0x30, 0x39)]
    texts = decoded(oracle, "gb18030", records)
    found = [ord(text) if len(text) == 1 else 0 for text in texts]
    other = sum(a != 0xFFFD and a != codec_code("gb18030", r) for a, r in zip(found, records))
    print("four bytes of gb18030: Python reads %d differently" % other)
    assert found[7457] == 0xE7C7 and found[189000:1237576] == list(range(0x10000, 0x110000))
    ranges, after = [], -1
    for pointer, entry in enumerate(found[:39420]):
        if pointer != 7457 and entry != after:
            ranges.append((pointer, entry))
            after = entry
        after += 1
    return ranges


def array_source(name, words, width, text):
    """Returns a constant array with a line of documentation, in lines of `width` words."""
    kind = "(u16, u16)" if words[0].startswith("(") else "u16"
    lines = ["/// %s" % text, "#[rattlefmt::skip]", "pub static %s: [%s; %d] = [" % (name, kind, len(words))]
    for start in range(0, len(words), width):
        lines.append("    %s," % ", ".join(words[start:start + width]))
    return "\n".join(lines + ["];"])


def index_source(oracle):
    """Returns the file of the indexes."""
    indexes = {row[0]: index_of(oracle, row) for row in INDEXES}
    plane = sorted({entry for entry in indexes["BIG5"] if entry > 0xFFFF})
    assert all(0x20000 <= entry < 0x30000 for entry in plane) and len(plane) <= 0x800
    references = {entry: 0xD800 + number for number, entry in enumerate(plane)}
    indexes["BIG5"] = [references.get(entry, entry) for entry in indexes["BIG5"]]
    # each index has a line for each row: the pairs of one lead byte, or a row of the standards of JIS
    texts = {
        "EUC_KR": (190, "The index of EUC-KR."),
        "GB18030": (190, "The index of GBK and gb18030."),
        "BIG5": (157, "The index of Big5; 0xD800 + n refers to entry n of `BIG5_PLANE`."),
        "JIS_0208": (94, "The index of JIS X 0208."),
        "JIS_0212": (94, "The index of JIS X 0212."),
    }
    made = ["//! The indexes, made by `tools/make_tables.py`; do not edit them."]
    for name, entries in indexes.items():
        assert all(entry <= 0xFFFF for entry in entries)
        made.append(array_source(name, ["0x%04X" % entry for entry in entries], *texts[name]))
    made.append(array_source("BIG5_PLANE", ["0x%04X" % (entry - 0x20000) for entry in plane], 32,
                             "The characters of Big5 from U+20000 onwards, minus 0x20000."))
    made.append(array_source("GB18030_RANGES", ["(%d, 0x%04X)" % pair for pair in ranges_of(oracle)], 8,
                             "The ranges of gb18030: the first pointer of four bytes, and the character at it."))
    return "\n\n".join(made) + "\n"


def main():
    parser = argparse.ArgumentParser(description=__doc__, formatter_class=argparse.RawDescriptionHelpFormatter)
    parser.add_argument("--check", action="store_true", help="write nothing, and compare")
    parser.add_argument("--indexes", metavar="ORACLE", help="make the indexes")
    parser.add_argument("sources", metavar="SOURCES", help="the directory `src` of encoding_rs")
    arguments = parser.parse_args()
    if not os.path.isfile(os.path.join(arguments.sources, "data.rs")):
        parser.error("no file data.rs in %s" % arguments.sources)
    path, text = PATH, ""
    if arguments.indexes:
        path, text = INDEX_PATH, index_source(arguments.indexes)
    else:
        text = source_of(arguments.sources)
    if not arguments.check:
        with open(path, "w", encoding="utf-8") as file:
            file.write(text)
        return
    with open(path, encoding="utf-8") as file:
        same = unspaced(file.read()) == unspaced(text)
    print("%d passed, %d failed" % (same, not same))
    sys.exit(0 if same else 1)


if __name__ == "__main__":
    main()
