"""The program rocktray: arguments, statuses, and what the inputs of its subcommands are.

The compressed inputs are made by Python's gzip, bz2, lzma and zipfile; the first bytes of Zstandard, OLE and PST are
those of RFC 8878, MS-CFB and MS-PST.
"""

import base64
import bz2
import gzip
import io
import json
import lzma
import os
import pty
import subprocess
import tempfile
import unicodedata
import zipfile

import pytest

from support import DIRECTIONS, FROM, HIDDEN, LOGIC, SAMPLES, SUBCOMMANDS, TOP, VERSION, command, multipart, program, run, text_of

MAIL = b"Subject: %b\n\none\n"
HELP = "For more information, try '--help'."


def write(path, data=MAIL % b"1"):
    """Writes a file, in directories that are made for it."""
    os.makedirs(os.path.dirname(path), exist_ok=True)
    with open(path, "wb") as file:
        file.write(data)
    return path


def lines(ended):
    """The values of the lines of a run."""
    return [json.loads(line) for line in ended.stdout.splitlines()]


def refused(arguments, *wanted, data=b""):
    """Asserts that these arguments are wrong, and that standard error says so."""
    ended = run([program("rocktray"), *arguments], data)
    said = ended.stderr.decode()
    assert (ended.returncode, ended.stdout) == (2, b""), arguments
    assert all(text in said for text in wanted), (arguments, said)
    assert "\x1b" not in said and "\x9b" not in said, arguments


@pytest.mark.parametrize("arguments, wanted", [
    (["jsn"], ("unrecognized subcommand 'jsn'", "json")),
    (["--bogus"], ("unexpected argument '--bogus' found",)),
    (["json", "--bogus"], ("unexpected argument '--bogus' found",)),
    (["json", "-dash.eml"], ("unexpected argument '-d' found", "use '-- -d'")),
    (["json", "--mbox=mmdf"], ("invalid value 'mmdf' for '--mbox[=<FORMAT>]'", "o, rd, cl")),
    (["json", "--part", "5/4", "a"], ("invalid value '5/4' for '--part <K/N>'",)),
    (["json", "--part=0/4", "a"], ("invalid value '0/4' for '--part <K/N>'",)),
    (["json", "--part"], ("a value is required for '--part <K/N>'",)),
    (["json", "--part=1/2"], ("--part reads files",)),
    (["json", "--part=1/2", "-"], ("--part reads files",)),
    (["json", "--part=1/2", "--mbox=cl", "a"], ("--part cannot be used with --mbox=cl",)),
    (["json", "--part=1/2", "--mail", "a"], ("'--part <K/N>' cannot be used with '--mail'",)),
    (["json", "--mail", "--mbox"], ("cannot be used with",)),
    (["json", "--mbox", "--mbox=rd"], ("'--mbox[=<FORMAT>]' cannot be used multiple times",)),
    (["extract", "--into", "a", "--into", "b"], ("'--into <DIRECTORY>' cannot be used multiple times",)),
    (["extract", "--stdout", "--into", "a"], ("'--stdout' cannot be used with '--into <DIRECTORY>'",)),
    (["extract", "--stdout", "--hash"], ("'--stdout' cannot be used with '--hash'",)),
    (["extract", "--stdout", "--by-hash"], ("'--stdout' cannot be used with '--by-hash'",)),
    (["extract", "--windows-names", "--stdout"], ("'--windows-names' cannot be used with '--stdout'",)),
    (["extract", "--stdout", "a", "b"], ("--stdout reads one input",)),
    (["extract", "--stdout", "/"], ("--stdout reads no directories",)),
    (["extract", "--mail", "--mbox=rd"], ("cannot be used with",)),
    (["json", "--max-items", "0", "a"], ("invalid value '0' for '--max-items <N>'",)),
    (["show", "--max-items=-1", "a"], ("invalid value '-1' for '--max-items <N>'",)),
    (["extract", "--max-items", "many", "a"], ("invalid value 'many' for '--max-items <N>'",)),
    (["json", "--max-bytes=-1", "a"], ("invalid value '-1' for '--max-bytes <N>'",)),
    (["extract", "--max-bytes", "1e9", "a"], ("invalid value '1e9' for '--max-bytes <N>'",)),
    (["show", "--max-bytes", "9", "a"], ("unexpected argument '--max-bytes' found",)),
    (["check", "--max-bytes", "9", "a"], ("unexpected argument '--max-bytes' found",)),
    (["check", "--class", "none", "a"], ("invalid value 'none' for '--class <CLASS>'", "structure, bytes, name, text, note")),
    (["check", "--quiet", "--json", "a"], ("'--quiet' cannot be used with '--json'",)),
    (["json", ""], ("INPUT",)),
    (["json", "--x\x1b[2J\x9b\nforged"], ("unexpected argument",)),
])
def test_wrong_arguments(arguments, wanted):
    """Each message names the argument, without its control characters."""
    refused(arguments, *wanted)


def test_control_characters():
    """An argument with a line end begins no line of a message."""
    ended = run([program("rocktray"), "json", "--x\nforged: y"])
    assert not any(line.startswith(b"forged") for line in ended.stderr.splitlines())
    ended = run([*command("json"), "no\nforged\x1b"])
    assert ended.stderr.decode() == "rocktray: no\\u{a}forged\\u{1b}: No such file or directory (os error 2)\n"
    assert lines(ended)[0]["file"] == "no\nforged\x1b"


def test_characters_that_turn_text():
    """A name that changes the direction of text does not change that of a message; which do is as in Python."""
    assert not any(unicodedata.bidirectional(chr(code)) in DIRECTIONS for code in range(0x3000, 0x110000))
    assert len(HIDDEN) == 65 + 2 + 12
    for character in ("\x85", *HIDDEN[65:]):
        ended = run([*command("check"), f"a{character}b"])
        assert ended.stderr.decode() == f"rocktray: a\\u{{{ord(character):x}}}b: No such file or directory (os error 2)\n"


@pytest.mark.parametrize("arguments, wanted", [
    (["--version"], "rocktray {}\n"), (["-V"], "rocktray {}\n"), (["json", "--version"], "rocktray json {}\n"),
])
def test_version(arguments, wanted):
    """The version, the commit of a release and the logic of the kit."""
    ended = run([program("rocktray"), *arguments])
    wanted = wanted.format(VERSION) + f"commit none, since it was built from a checkout\nlogic {LOGIC}\n"
    assert (ended.returncode, ended.stdout.decode(), ended.stderr) == (0, wanted, b"")


def test_help():
    """The help of the program is that of the script, which has it in docs/usage.txt; each subcommand has its own."""
    for arguments in (["--help"], ["-h"], ["help"]):
        ended = run([program("rocktray"), *arguments])
        assert (ended.returncode, ended.stdout.decode(), ended.stderr) == (0, text_of("docs/usage.txt"), b""), arguments
    for arguments in (["json", "--help"], ["help", "json"]):
        ended = run([program("rocktray"), *arguments])
        said = ended.stdout.decode()
        assert (ended.returncode, ended.stderr) == (0, b"") and "Usage: rocktray json [OPTIONS] [INPUT]..." in said, arguments
        assert all(len(line) <= 100 for line in said.splitlines()), arguments
    ended = run([program("rocktray")])
    assert ended.returncode == 2 and b"Usage: rocktray" in ended.stderr and not ended.stdout


def test_terminal():
    """Without an input, a terminal on standard input is not read."""
    ours, theirs = pty.openpty()
    try:
        ended = subprocess.run(command("json"), stdin=theirs, capture_output=True, timeout=20)
        assert ended.returncode == 2 and HELP.encode() in ended.stderr and not ended.stdout
        ended = subprocess.run([*command("json"), SAMPLES[0]], stdin=theirs, capture_output=True, timeout=20)
        assert ended.returncode == 0
    finally:
        os.close(ours)
        os.close(theirs)


def test_part(tmp_path):
    """Both forms of an option with a value are the same."""
    name = write(f"{tmp_path}/a.mbox", FROM + b"Subject: 1\n\n" + FROM + b"Subject: 2\n\n")
    outputs = {run([*command("json"), *arguments, name]).stdout for arguments in (["--part=1/1"], ["--part", "1/1"])}
    assert len(outputs) == 1 and len(outputs.pop().splitlines()) == 2


def zipped():
    """A ZIP archive with a mail."""
    file = io.BytesIO()
    with zipfile.ZipFile(file, "w") as archive:
        archive.writestr("a.eml", MAIL)
    return file.getvalue()


FOREIGN = {
    "gzip": gzip.compress(MAIL), "bzip2": bz2.compress(MAIL), "xz": lzma.compress(MAIL), "ZIP": zipped(),
    "zstd": b"\x28\xb5\x2f\xfd\x20\x04\x21\x00\x00a\n", "OLE": b"\xd0\xcf\x11\xe0\xa1\xb1\x1a\xe1" + bytes(504),
    "PST": b"!BDN" + bytes(508),
}


@pytest.mark.parametrize("name", FOREIGN)
@pytest.mark.parametrize("arguments", [[], ["--mail"], ["--mbox"], ["--part=1/2"]])
def test_foreign(name, arguments, tmp_path):
    """An input of another format is named by its first bytes, whatever its name is, and the next one is read."""
    foreign, mail = write(f"{tmp_path}/a.eml", FOREIGN[name]), write(f"{tmp_path}/b.eml")
    ended = run([*command("json"), *arguments, foreign, mail])
    found = lines(ended)
    assert ended.returncode == 1 and found[0]["file"] == foreign and name in found[0]["error"]
    assert f"rocktray: {foreign}: {found[0]['error']}\n" in ended.stderr.decode()
    assert [line["file"] for line in found[1:]] == ([] if arguments == ["--part=1/2"] and len(found) == 1 else [mail])
    if arguments != ["--part=1/2"]:
        ended = run([*command("json"), *arguments], FOREIGN[name])
        assert (ended.returncode, [line["file"] for line in lines(ended)]) == (1, [None])


@pytest.mark.parametrize("data", [b"", b"\x1f", b"P", b"PK", b"BZ", b"\xfd7zX", MAIL, b"!BD: x\n", b"Subject: \x1f\x8b\n"])
def test_mail_that_looks_foreign(data):
    """Fewer bytes than show a format are a mail."""
    ended = run([*command("json"), "--mail"], data)
    assert ended.returncode in (0, 3) and len(lines(ended)) == 1


def test_name_with_gz(tmp_path):
    """A name says nothing."""
    name = write(f"{tmp_path}/a.gz")
    assert [line["subject"] for line in lines(run([*command("json"), name]))] == ["1"]


def test_label():
    """The label is the name of standard input, as of a file that is unpacked before."""
    for arguments, wanted in ((["--label", "a.gz"], "a.gz"), (["--label=b\n", "-"], "b\n"), ([], None)):
        assert [line["file"] for line in lines(run([*command("json"), *arguments], MAIL))] == [wanted], arguments
    ended = run([*command("json"), "--label", "a.gz"], FOREIGN["gzip"])
    assert lines(ended)[0]["file"] == "a.gz" and ended.stderr.startswith(b"rocktray: a.gz: the input is gzip")


@pytest.mark.parametrize("name", SUBCOMMANDS)
def test_label_that_is_not_utf8(name):
    """A byte of the label that is not UTF-8 is shown as in the name of an input, and nothing is added."""
    mail = b"Subject: s\nContent-Type: image/png; name=a.png\n\nx"
    for label in (b"latin\xe9.eml", b"\xc3(\x80\xfe"):
        wanted = "".join(it if it.isprintable() and it.isascii() else f"\\x{ord(it):02X}" for it in label.decode("latin-1"))
        arguments = ["--class", "structure", "--json"] if name == "check" else []
        inputs = ["-", "no/such"] if name == "show" else []
        with tempfile.TemporaryDirectory() as directory:
            ended = run([*command(name), *arguments, b"--label", label, *inputs], mail, cwd=directory)
        said = ended.stdout.decode()
        if name == "show":
            assert said.startswith(f"-- {wanted} --\n"), said
        else:
            assert json.loads(said)["file"] == wanted, said
    ended = run([*command(name), b"--label", b"a\xe9"], FOREIGN["gzip"])
    assert ended.stderr.startswith(b"rocktray: a\\xE9: the input is gzip"), ended.stderr


def read(arguments, directory):
    """The files of the lines of a run, as paths in the directory, and its standard error."""
    ended = run([*command("json"), *arguments, directory])
    return [os.path.relpath(line["file"], directory) for line in lines(ended)], ended.stderr.decode(), ended.returncode


def test_subdirectories(tmp_path):
    """Subdirectories are counted, or read; no link to a directory is followed."""
    top = f"{tmp_path}/mails"
    for name in ("b.eml", "a.eml", "d/2/x", "d/1/y", "d/z", "c/w", ".hidden/v", ".hidden.eml"):
        write(f"{top}/{name}", MAIL % name.encode())
    found, said, status = read([], top)
    assert (found, status) == (["a.eml", "b.eml"], 0)
    assert said == f"rocktray: {top}: 2 subdirectories were skipped; --recursive reads them\n"
    os.symlink(top, f"{top}/c/loop")
    found, said, status = read(["--recursive"], top)
    assert (found, status) == (["a.eml", "b.eml", "c/w", "d/z", "d/1/y", "d/2/x"], 0)
    assert said == f"rocktray: {top}/c/loop: skipped, since it is a symbolic link to a directory\n"
    assert read([], f"{top}/c/")[0] == ["w"]


def test_maildirs(tmp_path):
    """The folders of a Maildir are read with --recursive; each file is one mail, and `tmp` is not read."""
    top = f"{tmp_path}/mails"
    for name in ("cur/2", "new/1", "tmp/3", "index", ".Sent/cur/4", ".Sent/tmp/5", ".old/cur/.x"):
        write(f"{top}/{name}", FROM + MAIL % name.encode())
    assert read([], top) == (["cur/2", "new/1"], f"rocktray: {top}: 2 subdirectories were skipped; --recursive reads them\n", 0)
    assert read(["--recursive"], top) == (["cur/2", "new/1", ".Sent/cur/4"], "", 0)
    write(f"{tmp_path}/all/m/cur/1", FROM + MAIL % b"x")
    assert read(["--recursive"], f"{tmp_path}/all") == (["m/cur/1"], "", 0)


def test_pipes_in_directories(tmp_path):
    """In a directory only regular files are opened, so that no pipe without a writer blocks the run."""
    top = f"{tmp_path}/mails"
    write(f"{top}/b.eml")
    os.mkfifo(f"{top}/a.eml")
    os.symlink("a.eml", f"{top}/c.eml")
    os.symlink("b.eml", f"{top}/d.eml")
    found, said, status = read([], top)
    assert (found, status) == (["b.eml", "d.eml"], 0)
    assert said == "".join(f"rocktray: {top}/{name}: skipped, since it is not a regular file\n" for name in ("a.eml", "c.eml"))


def test_unread(tmp_path):
    """An input that cannot be opened hides no other."""
    top = f"{tmp_path}/mails"
    write(f"{top}/b.eml")
    os.symlink("nowhere", f"{top}/a.eml")
    ended = run([*command("json"), "no/such", top, SAMPLES[0]])
    found = lines(ended)
    assert ended.returncode == 1
    assert [(line["file"], "error" in line) for line in found] == [
        ("no/such", True), (f"{top}/a.eml", True), (f"{top}/b.eml", False), (str(SAMPLES[0]), False)
    ]


def test_names_that_are_not_utf8(tmp_path):
    """A name that is not UTF-8 is shown with its bytes; the other inputs are read."""
    top = os.fsencode(f"{tmp_path}/mails")
    write(top + b"/caf\xe9\x1b.eml")
    write(top + b"/b.eml")
    ended = run([program("rocktray"), b"json", top + b"/caf\xe9\x1b.eml", top + b"/b.eml", top])
    bad = f"{tmp_path}/mails/caf\\xE9\x1b.eml"
    found = lines(ended)
    assert [line["file"] for line in found] == [bad, f"{tmp_path}/mails/b.eml", f"{tmp_path}/mails/b.eml", bad]
    assert ended.returncode == 1 and [("error" in line) for line in found] == [True, False, False, True]
    assert ended.stderr.decode() == 2 * (
        f"rocktray: {tmp_path}/mails/caf\\xE9\\u{{1b}}.eml: {found[0]['error']}\n"
    )
    ended = run([program("rocktray"), b"json", b"--part=1/1", top + b"/caf\xe9\x1b.eml", top + b"/b.eml"])
    assert [line["file"] for line in lines(ended)] == [bad, f"{tmp_path}/mails/b.eml"] and ended.returncode == 1
    ended = run([program("rocktray"), b"json", b"--caf\xe9", top])
    assert ended.returncode == 2 and b"\\xE9" in ended.stderr and b"\0" not in ended.stderr
    ended = run([program("rocktray"), b"json", b"--part", b"1/\xe9", top])
    assert ended.returncode == 2 and b"'1/\\xE9'" in ended.stderr


@pytest.mark.parametrize("name, shows", [
    ("json", b'"subject":"%b"'), ("show", b"Subject:  %b\n"), ("extract", b'"saved":"%b.png"'),
])
def test_inputs_of_each(name, shows, tmp_path):
    """Each subcommand names what it cannot read, reads everything else, and has the same statuses."""
    top = f"{tmp_path}/mails"
    for number, data in enumerate(FOREIGN.values()):
        write(f"{top}/{number}.eml", data)
    write(os.fsencode(top) + b"/caf\xe9.eml")
    os.symlink("nowhere", f"{top}/lost.eml")
    mail = b"Content-Type: image/png; name=%b.png\nSubject: %b\n\nx"
    for file, word in (("b.eml", b"one"), ("below/c.eml", b"two")):
        write(f"{top}/{file}", mail % (word, word))
    for recursive, read_ in (([], [b"one"]), (["--recursive"], [b"one", b"two"])):
        ended = run([*command(name), *recursive, top], cwd=tempfile.mkdtemp(dir=tmp_path))
        said = ended.stderr.decode()
        assert ended.returncode == 1 and [word for word in (b"one", b"two") if shows % word in ended.stdout] == read_, said
        assert all(f"rocktray: {top}/{number}.eml: the input is " in said for number in range(len(FOREIGN))), said
        assert f"{top}/caf\\xE9.eml: the name is not UTF-8" in said and f"{top}/lost.eml: No such file" in said
        assert ("1 subdirectory was skipped" in said) == (not recursive)
    for data, status in ((mail % (b"a", b"b"), 0), (b"A: b\n" * 9, 3)):
        assert run([*command(name), "--max-items", "9"], data, cwd=tmp_path).returncode == status
    assert run([*command(name), "no/such", f"{top}/b.eml"], cwd=tmp_path).returncode == 1


@pytest.mark.quick
def test_start_of_the_script():
    """./rocktray starts the built program without other programs before it."""
    script = (TOP / "rocktray").read_text()
    assert 'exec "$program" "$@"' in script and "find" not in script


MANY = "Too many parts and headers"


def test_max_items(tmp_path):
    """The mail and each part count, and so does each of their headers; a mail inside a mail counts for itself."""
    many = multipart(b"b", b"A: 1\nB: 2\n\n")
    inside = multipart(b"m", b"Content-Type: message/rfc822\n\n" + many)
    encoded = b"Content-Type: message/rfc822\nContent-Transfer-Encoding: base64\n\n" + base64.encodebytes(many)
    for words in (["json"], ["show", "-"], ["extract", "--into", str(tmp_path)], ["extract", "--stdout", "--only", "1"]):
        allowed = run([*command(words[0]), *words[1:], "--max-items", "5"], many)
        refused = run([*command(words[0]), *words[1:], "--max-items", "4"], many)
        assert allowed.returncode != 3 and MANY.encode() not in allowed.stdout + allowed.stderr, words
        assert refused.returncode in (1, 3) and MANY.encode() in refused.stdout + refused.stderr, words
    for raw in (inside, encoded):
        for most, why in ((5, None), (4, MANY)):
            ended = run([*command("json"), "--max-items", str(most)], raw)
            (mail,) = lines(ended)
            assert [one["error"] for one in mail["forwarded"]] == [why]
            ended = run([*command("extract"), "--into", tmp_path, "--max-items", str(most)], raw)
            assert [line["error"] for line in lines(ended)] == [None] + [why] * bool(why)
            assert ended.returncode == (3 if why else 0)
    box = b"".join(FROM + mail + b"\n" for mail in (many, b"Subject: 2\n\n"))
    ended = run([*command("json"), "--max-items", "4"], box)
    assert (ended.returncode, [line.get("error") for line in lines(ended)]) == (3, [MANY, None])


def test_max_items_by_default():
    """A million: 999,998 parts without headers, the mail and its header."""
    for count, status in ((999_998, 0), (999_999, 3)):
        raw = b"Content-Type: multipart/mixed; boundary=b\n\n" + b"--b\n\n" * count + b"--b--\n"
        ended = run([*command("show"), "-"], raw, timeout=120)
        assert (ended.returncode, MANY.encode() in ended.stdout) == (status, status == 3)


def test_statuses():
    """The help of each subcommand has the statuses of that of the program."""
    table = text_of("docs/usage.txt").split("Exit status:")[1]
    for name in SUBCOMMANDS:
        assert run([program("rocktray"), name, "--help"]).stdout.decode().endswith(f"Exit status:{table}"), name
