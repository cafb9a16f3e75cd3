"""What `rocktray check` writes: the findings of the rows of the suite, which are those of a model in Python."""

import json

import pytest

from support import FROM, TOP, command, multipart, run, text_of

from suite import DATA, decoded, rows_in

ROWS = [(row.inputs[0], row.wanted) for row in rows_in(f"{DATA}/findings.txt") if row.call == "findings"]
CLASSES = ("structure", "bytes", "name", "text", "note")


def check(data, *arguments):
    """A run of the subcommand on this input, with an exit status that says that mails were read."""
    ended = run([*command("check"), *arguments, "-"], data)
    assert ended.returncode in (0, 3) and not ended.stderr
    return ended


def found(line):
    """The findings of a line as the items of a row."""
    return [item for it in line["findings"] for item in (it["name"].encode(), str(it["start"]), str(it["end"]), it["path"].encode())]


def escaped(data):
    """Bytes as they are shown."""
    plain = {0x0A: "\\n", 0x0D: "\\r", 0x09: "\\t", 0x5C: "\\\\"}
    return "".join(plain.get(byte) or (chr(byte) if 0x20 <= byte < 0x7F else f"\\x{byte:02x}") for byte in data)


def sections(text):
    """The names of findings in the page FINDINGS.md, with their classes."""
    parts = text.split("\n### ")[1:]
    return {part.split("\n")[0]: part.split("\nClass ")[1].split(".")[0] for part in parts}


def shown_mails(text):
    """The mails that the page FINDINGS.md shows, by the name that each of them has alone."""
    parts = [part for part in text.split("\n### ")[1:] if "```text\n" in part]
    return {part.split("\n")[0]: decoded(part.split("```text\n")[1].split("\n```")[0]) for part in parts}


@pytest.mark.quick
def test_page():
    """The page has a section for each name of the rows, and its class."""
    names = {wanted[0].decode() for _, wanted in ROWS if wanted}
    assert set(sections((TOP / "docs" / "FINDINGS.md").read_text())) == names


@pytest.mark.parametrize("raw, wanted", ROWS)
def test_json(raw, wanted):
    """The line of a mail has the findings of its row, with the classes of the page."""
    ended = check(raw, "--json", "--label", "a\x1b.eml")
    line = json.loads(ended.stdout)
    head = {"schema": 6, "file": "a\x1b.eml", "number": None, "start": 0, "end": len(raw)}
    assert {key: line[key] for key in line if key != "findings"} == head
    assert found(line) == wanted and ended.returncode == (3 if wanted else 0)
    classes = sections((TOP / "docs" / "FINDINGS.md").read_text())
    assert all(it["class"] == classes[it["name"]] and it["sentence"].endswith(".") for it in line["findings"])


@pytest.mark.parametrize("name", ["nul", "duplicate", "two-names", "delimiter-tail", "8bit-body"])
def test_member(name):
    """With `rocktray json --check` the line of a mail ends in its findings, and is otherwise the same."""
    page = text_of("docs/FINDINGS.md")
    raw = shown_mails(page)[name]
    plain, ended = (run([*command("json"), "--mail", *options], raw) for options in ([], ["--check"]))
    assert (ended.returncode, ended.stderr) == (0, b"")
    assert "findings" not in json.loads(plain.stdout) and ended.stdout.startswith(plain.stdout[:-2])
    line = json.loads(ended.stdout)
    assert list(line)[-1] == "findings" and [(it["name"], it["class"]) for it in line["findings"]] == [(name, sections(page)[name])]
    assert line["findings"] == json.loads(check(raw, "--json").stdout)["findings"]


def test_members(hostile, tmp_path):
    """Of all rows, of mails that the lenient reading reads in another way or never refuses, and of made mails the line has
    what `rocktray check` writes."""
    raws = [raw for raw, _ in ROWS] + [
        b" A: b\n\n", b"A: b\n\rB", multipart(b"b", b"A: b\n\none\n", b" A: b\n\ntwo\n"), multipart(b"b", b"A: b\n\rB\n"),
        multipart(b"b", multipart(b"bc", b"\n\0\n")), multipart(b"b (x)", b"\n\0\n"), multipart(b"b", b"A: b\n--c\n\n\0\n"),
        b"Content-Type: multipart/mixed boundary=b\n\n--b\n\n\0\n--b--\n",
    ]
    paths = [tmp_path / f"{number}.eml" for number in range(len(raws))]
    for path, raw in zip(paths, raws):
        path.write_bytes(raw)
    said = []
    for words in (["json", "--check"], ["check", "--json"]):
        ended = run([*command(words[0]), "--mail", words[1], *paths, *hostile[:3000]])
        assert ended.returncode in (0, 3) and not ended.stderr
        said.append([json.loads(line) for line in ended.stdout.splitlines()])
    wanted = [{"findings": None, "findings_error": line["error"]} if "error" in line else {"findings": line["findings"]} for line in said[1]]
    assert [{key: line[key] for key in line if key.startswith("findings")} for line in said[0]] == wanted
    assert sum("findings_error" in line for line in wanted) >= 4 and len(wanted) == len(raws) + 3000


def test_member_of_none():
    """A mail without findings has an empty list, each mail of a mailbox its own, and one with an error none."""
    mails = [b"A: b\n\none\n", b"A: b\0\n\nHi\n", b"A: b\n\n>From \0\n", b"A: b\nC: d\nE: f\n\n"]
    raw = b"".join(FROM + mail + b"\n" for mail in mails)
    ended = run([*command("json"), "--check", "--mbox=rd", "--max-items", "3"], raw)
    lines = [json.loads(line) for line in ended.stdout.splitlines()]
    assert [("error" in line, found(line) if "findings" in line else None) for line in lines] == [
        (False, []), (False, [b"nul", "4", "5", b"1"]),
        (False, [b"nul", "11", "12", b"1", b"charset", "6", "13", b"1"]), (True, None)]


@pytest.mark.parametrize("raw, wanted", ROWS)
def test_text(raw, wanted):
    """The text of a mail has its findings, with the bytes around them."""
    ended = check(raw)
    line = json.loads(check(raw, "--json").stdout)
    text = ""
    for it in line["findings"]:
        part = f"part {it['path']}" if it["path"] else "the mail"
        start, end = it["start"], it["end"]
        text += f"Found:    {it['name']} ({it['class']}), {part}, bytes {start} to {end}\n  {it['sentence']}\n"
        text += f"Before:   {escaped(raw[max(0, start - 32):start])}\nBytes:    {escaped(raw[start:end][:64])}\n"
        text += f"After:    {escaped(raw[end:end + 32])}\n\n"
    assert ended.stdout.decode() == text and ended.returncode == (3 if wanted else 0)


def test_classes():
    """Only the findings of the classes that are named count."""
    raw = b"A: b\nSubject: a\nSubject: caf\xc3\xa9\n\nHi\0\xc3\n"
    by_class = {name: [it["name"] for it in json.loads(check(raw, "--json", "--class", name).stdout)["findings"]] for name in CLASSES}
    assert by_class == {
        "structure": ["nul", "duplicate"], "bytes": [], "name": ["header-8bit"], "text": ["charset"], "note": ["8bit-body"]}
    for words, status in (((), 3), (("bytes",), 0), (("bytes", "text"), 3)):
        ended = check(raw, "--quiet", *(word for name in words for word in ("--class", name)))
        assert (ended.stdout, ended.returncode) == (b"", status), words


def test_mailbox():
    """Each mail of a mailbox has its number and its offsets, and text before the first separator is refused."""
    mails = [b"A: b\n\none\n", b"A: b\0\n\nHi\n", b" no\n\nx\n", b"A: b\n\n>From \0\n"]
    raw = b"lost\n\n" + b"".join(FROM + mail + b"\n" for mail in mails)
    lines = [json.loads(line) for line in check(raw, "--json", "--mbox").stdout.splitlines()]
    assert [line["number"] for line in lines] == [None, 1, 2, 3, 4]
    assert all(raw[line["start"]:line["end"]].rstrip() == mail.rstrip() for line, mail in zip(lines[1:], mails))
    assert [("error" in line, found(line)[:1] if "findings" in line else None) for line in lines] == [
        (True, None), (False, []), (False, [b"nul"]), (True, None), (False, [b"nul"])]
    text = check(raw, "--mbox").stdout.decode()
    assert [line for line in text.splitlines() if line.startswith("-- ")] == ["-- mail 2 --", "-- mail 3 --", "-- mail 4 --"]
    assert text.count("Refused:  ") == 2 and "Bytes:    \\x00\n" in text
    lines = [json.loads(line) for line in check(raw, "--json", "--mbox=rd").stdout.splitlines()]
    assert lines[4]["findings"][0]["start"] == len(b"A: b\n\nFrom ")


def test_inside():
    """Mails inside one another are read as deep as paths have numbers, and a refused one is found by its part."""
    head = b"Content-Type: message/rfc822\n\n"
    for depth, names in ((3, [b"duplicate"]), (99, [b"many", b"duplicate"]), (100, [b"many"]), (300, [b"many"])):
        raw = head * depth + b"Subject: a\nSubject: b\n\nHi\n"
        items = found(json.loads(check(raw, "--json", "--mail").stdout))
        paths = {b"many": b".".join([b"1"] * 10), b"duplicate": b".".join([b"1"] * (depth + 1))}
        assert items[::4] == names and items[3::4] == [paths[name] for name in names], depth
    line = json.loads(check(head * 2 + b" x\n", "--json", "--mail").stdout)
    assert found(line) == [b"refused", str(2 * len(head)), str(2 * len(head) + 3), b"1.1"]


def test_paths():
    """A finding has the path of an object of `parts` in which its range is, also in a mail with parts inside a part."""
    double = b"Subject: a\nSubject: b\n"
    forwarded = b"Content-Type: message/rfc822\n\n"
    inner = double + multipart(b"c", double + b"\none\n", forwarded + double + multipart(b"d", double + b"\ntwo\n"))
    raw = double + multipart(b"b", forwarded + double + b"\nthree\n", forwarded + inner)
    line = json.loads(run([*command("json"), "--mail", "--check"], raw).stdout)
    ranges = {part["path"]: (part["start"], part["end"]) for part in line["parts"]}
    assert [it["path"] for it in line["findings"]] == ["", "1.1", "2.0", "2.1", "2.2.0", "2.2.1"]
    for it in line["findings"]:
        start, end = ranges[it["path"]]
        assert it["name"] == "duplicate" and start <= it["start"] <= it["end"] <= end


def test_charsets():
    """The text that Python writes in a charset has no finding, and the same without its last byte has one."""
    texts = {"gbk": "\u4f60\u597d", "gb18030": "\u4f60\u00e9", "gb2312": "\u4f60\u597d", "big5": "\u4e2d\u6587", "euc-kr": "\ud55c\uae00",
             "ks_c_5601-1987": "\ud55c", "euc-jp": "\u3042\u4e9c", "shift_jis": "\u3042\u4e9c", "utf-8": "\u00e9\u20ac"}
    for label, text in texts.items():
        head = f"Content-Type: text/plain; charset={label}\nContent-Transfer-Encoding: 8bit\n\n".encode()
        whole = text.encode(label)
        for body, names in ((whole, []), (whole[:-1], [b"charset"])):
            assert found(json.loads(check(head + body, "--json", "--mail").stdout))[::4] == names, label


def test_files(tmp_path):
    """Each of several files with findings has its name before them."""
    (tmp_path / "a.eml").write_bytes(b"A: b\n\none\n")
    (tmp_path / "b\n.eml").write_bytes(b"A: b\n\na\rb\n")
    ended = run([*command("check"), str(tmp_path)])
    assert ended.returncode == 3 and ended.stdout.startswith(f"-- {tmp_path}/b\ufffd.eml --\nFound:    lone-cr".encode())
    assert ended.stdout.count(b"-- ") == 1
    assert run([*command("check"), str(tmp_path / "a.eml")]).stdout == b""


def test_hostile():
    """No byte of a mail moves the cursor of a terminal or ends a line."""
    raw = bytes(range(256)) + b"\n\n" + bytes(reversed(range(256))) * 2
    text = check(b"A: b\nX: " + raw, "--mail").stdout
    assert text and all(byte == 0x0A or 0x20 <= byte < 0x7F for byte in text)
