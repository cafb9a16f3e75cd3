"""The C library: check.c under sanitizers, its exports and needs, its header, its lines beside those of rocktray json, and
the example of docs/C.md."""

import base64
import json
import os
import re
import subprocess
import sys
import urllib.parse

import pytest

from support import SAMPLES, TOP, VERSION, command, run, uuencoded

from suite import DATA, rows_in

STRICT = ["-std=c11", "-Wall", "-Wextra", "-Werror"]


def gcc(*arguments):
    """Runs gcc, which must not warn."""
    subprocess.run(["gcc", *map(str, arguments)], check=True)


@pytest.fixture(scope="module")
def check(c_library, tmp_path_factory):
    """check.c over the static library, under the address and the undefined-behaviour sanitizer."""
    target = tmp_path_factory.mktemp("check") / "check"
    kit = os.path.dirname(subprocess.run(["rt", "doc"], capture_output=True, text=True, check=True).stdout.strip())
    gcc(*STRICT, "-g", "-O1", "-fsanitize=address,undefined", "-fno-sanitize-recover=all", f"-I{c_library}/include", "-o", target,
        TOP / "c" / "check.c", "-Wl,--wrap=malloc,--wrap=realloc,--wrap=free",
        TOP / "crates" / "mail_c" / "out" / "libmail_c.a", f"{kit}/c/liblibc_c.a", "-lpthread")
    return target


def run_check(check, *arguments, **options):
    """Runs check.c."""
    sanitizers = {"ASAN_OPTIONS": "detect_stack_use_after_return=1", "UBSAN_OPTIONS": "print_stacktrace=1"}
    return run([check, *arguments], env={**os.environ, **sanitizers}, timeout=900, **options)


def passed(ended):
    """How many cases of check.c passed; none may fail."""
    counts = re.fullmatch(rb"(\d+) passed, 0 failed", ended.stdout.splitlines()[-1])
    assert counts and ended.returncode == 0, ended.stdout[-5000:] + ended.stderr[-5000:]
    return int(counts[1])


def test_cases(check):
    """Every code, buffers one byte short, empty inputs, null pointers with length 0, and each allocation refused."""
    assert passed(run_check(check, "cases")) > 600


def test_threads(check, hostile):
    """Eight threads at once return what one does."""
    assert passed(run_check(check, "threads", *SAMPLES, *hostile[:300])) == 8


def as_json(line, path):
    """The line of check.c, with a refused mail as rocktray writes it."""
    refused = re.fullmatch(r"refused (\d+) (.*)", line)
    if not refused:
        return json.loads(line) | {"file": path}
    return {"schema": 6, "file": path, "number": None, "start": 0, "end": int(refused[1]), "error": refused[2]}


def batches(check, what, hostile, options=()):
    """The samples and the hostile mails, by the thousand: their paths, what `check` writes of them, and their JSON lines."""
    paths = [str(path) for path in [*SAMPLES, *hostile]]
    for first in range(0, len(paths), 1000):
        batch = paths[first : first + 1000]
        ours = run_check(check, what, *batch)
        assert (ours.returncode, ours.stderr) == (0, b"")
        lines = run([*command("json"), "--mail", *options, *batch]).stdout.decode().split("\n")[:-1]
        assert len(lines) == len(batch)
        yield batch, ours.stdout.decode(), lines


def test_lines(check, hostile):
    """Of the samples and of 20,000 made mails the library writes what rocktray json writes."""
    for batch, ours, wanted in batches(check, "lines", hostile):
        found = ours.split("\n")[:-1]
        assert len(found) == len(wanted)
        for path, line, line_of_json in zip(batch, found, wanted):
            same = line == line_of_json.replace(f'"file":{json.dumps(path, ensure_ascii=False)}', '"file":null', 1)
            assert same or as_json(line, path) == json.loads(line_of_json), path


ENCODINGS = ["7bit", "8bit", "binary", "quoted-printable", "base64", "x-uuencode"]
DISPOSITIONS = [None, "inline", "attachment", "form-data"]


def records_of(output):
    """The mails in the output of `check records`: what it says of each, with its parts, their headers, and its addresses."""
    mails = []
    for line in output.splitlines():
        kind, *words = line.split(" ")
        values = dict(word.split("=", 1) for word in words)
        if kind == "mail":
            mails.append(values | {"parts": [], "addresses": []})
        elif kind == "part":
            mails[-1]["parts"].append(values | {"headers": []})
        elif kind == "address":
            mails[-1]["addresses"].append(values)
        else:
            key = bytes.fromhex(values["key"]).decode("latin-1")
            mails[-1]["parts"][-1]["headers"].append([key, text_in(values["value"])])
    return mails


def addresses_of(mail, name):
    """The addresses in the header with this name, as the JSON says them."""
    elements, members = [], {}
    for index, one in enumerate(one for one in mail["addresses"] if one["of"] == name):
        display, address = bytes.fromhex(one["name"]).decode(), bytes.fromhex(one["address"])
        made = (
            {"name": display or None, "address": address.decode()} if one["kind"] == "0"
            else {"group": display, "members": members.setdefault(str(index), [])} if one["kind"] == "1"
            else {"unknown": address.decode("latin-1")}
        )  # fmt: skip
        (elements if one["group"] == "-1" else members[one["group"]]).append(made)
    return elements


def text_in(word):
    """The text in hexadecimal digits, or None for the code of what is absent."""
    return None if word == "!3" else bytes.fromhex(word).decode()


def fields_in(word):
    """The fields of a report, each with the index of its block, or None if the part is none."""
    if word.startswith("!"):
        assert word == "!3"
        return None
    fields = [field.split(":") for field in word.split(",") if field]
    return [[int(block), bytes.fromhex(name).decode(), bytes.fromhex(value).decode()] for block, name, value in fields]


RECIPIENT = ["final_recipient", "original_recipient", "action", "status", "diagnostic_code"]


def recipients_in(word):
    """The recipients, as the JSON says them."""
    found = [[None if text == "-" else bytes.fromhex(text).decode() for text in one.split(":")[1:]] for one in word.split(",") if one]
    return [dict(zip(RECIPIENT, texts, strict=True)) for texts in found]


CLASSES = ["structure", "bytes", "name", "text", "note"]


def findings_in(word):
    """The findings, as the JSON says them, or the code of the refusal."""
    if word.startswith("!"):
        return word[1:]
    found = []
    for one in filter(None, word.split(",")):
        number, start, end, *texts = one.split(":")
        name, path, sentence = (bytes.fromhex(text).decode() for text in texts)
        place = {"path": path, "start": int(start), "end": int(end)}
        found.append({"name": name, "class": CLASSES[int(number)], **place, "sentence": sentence})
    return found


def text_files_in(word):
    """The files in a text: the range of the block of each, its name, and its size, or None if it is damaged."""
    files = [file.split(":") for file in word.split(",") if file]
    return [
        [int(start), int(end), bytes.fromhex(name).decode(), None if is_damaged == "1" else len(content) // 2]
        for start, end, name, content, is_damaged in files
    ]


def text_files_of(part, flags):
    """The same of the JSON, or None if the caller of rocktray_text_files does not give it such a part."""
    if not flags & 1 or flags & 4 or part["type"] == "text/html":
        assert part["text_files"] == []
        return None
    return [[file[name] for name in ("body_start", "body_end", "file_name", "decoded_size")] for file in part["text_files"]]


def fields_of(report):
    """The same of the JSON."""
    return report and [[number, *field] for number, block in enumerate(report) for field in block]


def type_of(part):
    """The type of a part with a Content-Type."""
    kind, charset, *words = (bytes.fromhex(word).decode() for word in part["type"].split(","))
    given = {"type": kind, "charset": charset, "params": dict(zip(words[::2], words[1::2]))}
    return given if any(key.lower() == "content-type" for key, _ in part["headers"]) else {}


def member_of(part):
    """What a record says, as the JSON says it."""
    flags, disposition = int(part["flags"]), int(part["disposition"])
    return {
        "start": int(part["start"]), "end": int(part["end"]), "size": int(part["size"]),
        "encoding": ENCODINGS[int(part["encoding"])], "headers": part["headers"],
        "file_name": text_in(part["file_name"]), "attachment": bool(flags & 2), "extracted": bool(flags & 4),
        "text": text_in(part["text"]) if flags & 8 else None, **type_of(part),
        "disposition": DISPOSITIONS[disposition] if disposition < 4 else "another",
    }


def paths_of(parts):
    """The path of each part, by the parents."""
    paths, counts = [], {}
    for number, part in enumerate(parts):
        parent = int(part["parent"])
        assert int(part["level"]) == (0 if parent == -1 else int(parts[parent]["level"]) + 1)
        counts[parent] = counts.get(parent, 0) + 1
        alone = "1" if len(parts) == 1 else ""
        paths.append(alone if parent == -1 else f"{paths[parent]}.{counts[parent]}".lstrip("."))
    return paths


# The codes of rocktray_headers for a part that was kept as plain text without headers: one that is too deep may have some.
BLOCKS = {
    None: ["0"],
    "Header cannot start with a space; it is likely an overhanging line from a previous header": ["16"],
    "Headers were followed by an unexpected lone CR character!": ["17"],
    "Recursion limit reached": ["0", "1"],
}

# The codes of rocktray_findings for a mail that is refused.
REFUSED = {
    "Header cannot start with a space; it is likely an overhanging line from a previous header": "16",
    "Headers were followed by an unexpected lone CR character!": "17",
    "Recursion limit reached": "18",
}

# Mails in which a blank line is missing, so that a line that begins with `--` and has no colon ends the headers.
UNENDED = [
    b"A: b\n--c\nD: e\n\nx\n", b"A: b\n \n--c\nD: e\n", b"A: b\r\n\t\r\n--\r\n\r\nx", b"A: b\n--c", b"--c\n--d\n\n", b"A: b\n--c: d\n--e\n f\n",
    b"A\n--c\n", b"A: b\n\r--c\n", b"A: b\n--c\n\r", b" A: b\n--c\n", b"A: b\n\n--c\nD: e\n", b"A:\n--\n", b"A: b\n--c\n--d: e\n", b"\n--c\n",
    b"Content-Type: multipart/mixed; boundary=b\n \n--b\nA: b\n\none\n--b\nB: c\n--d\nC: e\n--b--\n",
    b"Content-Type: multipart/mixed; boundary=b\n--b\nContent-Type: multipart/mixed; boundary=c\n--c\nSubject: x\n--d\n--c--\n--b--\n",
]  # fmt: skip


# Mails with blanks before colons, and at the end of lines without one.
SPACED = [
    b"Subject : x\nContent-Type \t: text/html; charset=utf-8\nContent-Transfer-Encoding\t:base64\n\nPHA+eQ==\n", b" \t: a\n\nx", b"\t : a\n\nx",
    b"A \t\n\nx", b"A\t", b"Content-Type : multipart/mixed; boundary=b\n\n--b\nContent-Disposition\t : attachment; filename=a\n\nx\n--b--\n",
]  # fmt: skip


# Mails with uuencoded files in their texts, and such texts whose files are not listed.
TEXT_FILES = [
    b"\nHi\n" + uuencoded(b"a b.bin", bytes(range(256))) + b"\n" + uuencoded(b"caf\xe9.txt", b"Cat", b""),
    b"Content-Transfer-Encoding: base64\n\n" + base64.encodebytes(uuencoded(b"../a", b"Cat")),
    b"Content-Type: text/html\n\n" + uuencoded(b"a", b"Cat"), b"Content-Disposition: attachment\n\n" + uuencoded(b"a", b"Cat"),
]  # fmt: skip


def test_records(check, hostile, tmp_path):
    """Of the samples, of 20,000 made mails, of the rows with findings, of some mails where a blank line is missing, of some
    with blanks before colons and of some with files in texts the records and the calls on ranges say what rocktray json
    writes, and the findings are those of rocktray check."""
    found = [row.inputs[0] for row in rows_in(f"{DATA}/findings.txt") if row.call == "findings"]
    made = [*UNENDED, *SPACED, *TEXT_FILES, *found]
    paths = [tmp_path / f"{number}.eml" for number in range(len(made))]
    for path, raw in zip(paths, made):
        path.write_bytes(raw)
    for batch, ours, lines in batches(check, "records", [*paths, *hostile], ["--check"]):
        found = records_of(ours)
        assert len(found) == len(lines)
        for path, mail, line in zip(batch, found, map(json.loads, lines)):
            parts = mail["parts"]
            assert (mail["code"] != "0") == ("error" in line), path
            if "error" in line:
                continue
            assert text_in(mail["bounced_id"]) == line["bounced_id"], path
            assert recipients_in(mail["recipients"]) == line["recipients"], path
            refused = line.get("findings_error")
            assert findings_in(mail["findings"]) == (REFUSED[refused] if refused else line["findings"]), path
            for name in ("from", "to", "cc", "bcc", "reply-to"):
                if sum(key.lower() == name for key, _ in parts[0]["headers"]) == 1:
                    assert addresses_of(mail, name) == line[name.replace("-", "_")], (path, name)
            wanted = [part for part in line.get("parts", []) if part["inside"] is None]
            assert paths_of(parts) == [part["path"] for part in wanted], path
            for part, json_part in zip(parts, wanted):
                assert part["block"] in BLOCKS[json_part["refusal"]], path
                assert part["same"] == "1" or json_part["refusal"], path
                if json_part["disposition"] not in DISPOSITIONS:
                    json_part["disposition"] = "another"
                assert member_of(part) == {name: json_part[name] for name in member_of(part)}, path
                if int(part["flags"]) & 8:
                    assert text_in(part["charset"]) == json_part["text_charset"], path
                assert fields_in(part["report"]) == fields_of(json_part["report"]), path
                text_files = text_files_of(json_part, int(part["flags"]))
                assert text_files is None or text_files_in(part["text_files"]) == text_files, path
                is_mail = json_part["type"] in ("message/rfc822", "message/global")
                assert bool(int(part["flags"]) & 16) == is_mail, path


def test_exports(c_library):
    """The library needs the C library alone, and exports the calls of the header and nothing else."""
    library = c_library / "lib" / "librocktray.so"
    needs = run(["readelf", "-d", library]).stdout.decode()
    assert re.findall(r"\(NEEDED\).*\[(.*)\]", needs) == ["libc.so.6"]
    exports = run(["nm", "-D", "--defined-only", library]).stdout.decode().split()[2::3]
    header = (TOP / "c" / "rocktray.h").read_text()
    assert sorted(exports) == sorted(set(re.findall(r"\brocktray_[a-z_]*(?=\()", header)))


def test_stack(c_library, hostile, tmp_path):
    """The calls need no more stack than rocktray.h says, and a thread with that much can make each of them."""
    kit = os.path.dirname(subprocess.run(["rt", "doc"], capture_output=True, text=True, check=True).stdout.strip())
    gcc(*STRICT, "-O1", f"-I{c_library}/include", "-o", tmp_path / "check", TOP / "c" / "check.c",
        "-Wl,--wrap=malloc,--wrap=realloc,--wrap=free", TOP / "crates" / "mail_c" / "out" / "libmail_c.a",
        f"{kit}/c/liblibc_c.a", "-lpthread")
    said = run([tmp_path / "check", "stack", "1024", *SAMPLES, *hostile[:300]]).stdout.decode()
    used = [int(number) for number in re.findall(r"\d+", said)]
    header = (TOP / "c" / "rocktray.h").read_text()
    mails, lines, ranges = (1024 * int(number) for number in re.findall(r"up to\s[ *]*(\d+) KB", header))
    assert len(used) == 3 and used[0] <= ranges and used[1] <= mails and used[2] <= lines, said
    # a thread of musl has 128 KB
    assert max(used) < 128 << 10, said
    assert not re.search(r"\d+ KB", (TOP / "docs" / "C.md").read_text()), "the page does not repeat these numbers"
    assert run([tmp_path / "check", "stack", str(lines // 1024), *SAMPLES, *hostile[:300]]).returncode == 0


# reads a mail of many parts, or of many headers, and prints how many bytes of memory each of them took
ITEMS = """
import ctypes, re, sys
def peak():
    # that of this program alone: ru_maxrss begins with the peak of the process that started it
    return 1024 * int(re.search(r"VmHWM:\\s+(\\d+)", open("/proc/self/status").read())[1])
library = ctypes.CDLL(sys.argv[1])
head = b"Content-Type: multipart/mixed; boundary=b\\n\\n"
mail = head + b"--b\\n\\n" * 1_000_000 if sys.argv[2] == "parts" else b"A: b\\n" * 1_000_000 + b"\\n"
counts = [ctypes.c_size_t(), ctypes.c_size_t()]
before = peak()
size = ctypes.c_size_t(len(mail))
code = library.rocktray_parts(mail, size, ctypes.c_size_t(2**64 - 1), None, ctypes.c_size_t(0), ctypes.byref(counts[0]),
                              None, ctypes.c_size_t(0), ctypes.byref(counts[1]))
assert code == 1 and max(counts[0].value, counts[1].value) >= 1_000_000
print((peak() - before) // 1_000_000)
"""


@pytest.mark.parametrize("kind, place", [("parts", 0), ("headers", 1)])
def test_memory(c_library, kind, place):
    """rocktray_parts takes no more memory than docs/C.md says."""
    page = (TOP / "docs" / "C.md").read_text()
    wanted = re.search(r"at most (\d+)\s+bytes for\s+each\s+part\s+and\s+(\d+)\s+for\s+each\s+header", page).groups()[place]
    ended = run([sys.executable, "-c", ITEMS, c_library / "lib" / "librocktray.so", kind])
    assert int(wanted) // 2 < int(ended.stdout) <= int(wanted), ended


# reads the values of 20,000 headers by their records
HEADERS = """
import ctypes, sys, time
library, size = ctypes.CDLL(sys.argv[1]), ctypes.c_size_t
mail = b"X-A: b\\r\\n" * 20_000 + b"\\r\\nx"
records, value, count, needed = (ctypes.c_uint64 * 100_000)(), ctypes.create_string_buffer(10), size(), size()
before = time.process_time()
assert library.rocktray_headers(mail, size(len(mail)), size(2**64 - 1), records, size(20_000), ctypes.byref(count)) == 0
for start, end in zip(records[2::5], records[3::5]):
    assert library.rocktray_value(mail[start:end], size(end - start), value, size(10), ctypes.byref(needed)) == 0
    assert value.raw[:needed.value] == b"b"
assert count.value == 20_000 and time.process_time() - before < 3
"""


def test_headers_in_linear_time(c_library):
    """All values of a mail with many headers take linear time."""
    ended = run([sys.executable, "-c", HEADERS, c_library / "lib" / "librocktray.so"])
    assert ended.returncode == 0, ended.stderr


@pytest.mark.quick
def test_header_as_cpp():
    """rocktray.h is C++ too."""
    command = ["g++", "-Wall", "-Werror", f"-I{TOP}/c", "-x", "c++", "-fsyntax-only", "-"]
    assert run(command, b'#include "rocktray.h"\n').returncode == 0


def test_version(c_library):
    """The header, the pkg-config file and the programs have one version."""
    version = run([*command("json")[:1], "--version"]).stdout.decode().split()[1]
    assert version == VERSION
    assert f'#define ROCKTRAY_VERSION "{version}"\n' in (c_library / "include" / "rocktray.h").read_text()
    assert f"Version: {version}\n" in (c_library / "lib" / "pkgconfig" / "rocktray.pc").read_text()


@pytest.fixture
def example(c_library, tmp_path):
    """examples/attachments.c, compiled by pkg-config's flags, as a function that returns what it writes and its status."""
    config = (c_library / "lib" / "pkgconfig" / "rocktray.pc").read_text()
    flags = re.findall(r"^(?:Libs|Cflags): (.*)$", config.replace("${libdir}", f"{c_library}/lib")
                       .replace("${includedir}", f"{c_library}/include"), re.M)
    gcc(*STRICT, "-o", tmp_path / "example", TOP / "examples" / "attachments.c", *" ".join(sorted(flags)).split())

    def call(path):
        ended = run([tmp_path / "example", path], cwd=TOP, env={**os.environ, "LD_LIBRARY_PATH": str(c_library / "lib")})
        return ended.stdout.decode() + ended.stderr.decode(), ended.returncode

    return call


def test_example(example):
    """It writes what docs/C.md shows."""
    fences = re.findall(r"^```console\n(.*?)^```$", (TOP / "docs" / "C.md").read_text(), re.M | re.S)
    wanted = "".join(line + "\n" for fence in fences for line in fence.splitlines() if not line.startswith("$"))
    assert example("samples/attachment.eml") == (wanted, 0)


def test_example_of_a_stranger(example, tmp_path):
    """Nothing of a mail forges a line or moves the terminal, and a mail that is longer than its buffer is not cut."""
    hidden = "".join(map(chr, (0x1B, 0x7F, 0x9B, 0x61C, 0x200E, 0x200F, 0x2028, 0x2029, 0x202A, 0x202E, 0x2066, 0x2069)))
    text = f"a\u2027\u00e9{hidden}\u20ac\U0001f600\nSubject: forged"
    word = f"=?utf-8?B?{base64.b64encode(text.encode()).decode()}?="
    mail = f"Subject: {word}\nContent-Disposition: attachment; filename*=utf-8''{urllib.parse.quote(text)}\n\n\x1b[\xff\x07".encode("latin-1")
    (tmp_path / "mail").write_bytes(mail)
    shown = f"a\u2027\u00e9{'?' * len(hidden)}\u20ac\U0001f600"
    # a line end in the name of a file is read as a space
    file = f"{shown} Subject: forged: 4 bytes, which begin ?[??\n"
    assert example(tmp_path / "mail") == (f"Subject: {shown}?Subject: forged\n{file}", 0)
    (tmp_path / "mail").write_bytes(mail + b"\x1b" * (1 << 24))
    for path in (tmp_path / "mail", tmp_path / "none"):
        said, status = example(path)
        assert status == 1 and said == "attachments: give a file with a mail of less than 16777216 bytes\n"
