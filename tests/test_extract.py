"""The files that `rocktray extract` saves, and its lines, beside what Python's email and hashlib make of the mails.

The mails are those of samples/, and made ones, some of which try to hide a file from readers.
"""

import base64
import email
import email.policy
import hashlib
import json
import mimetypes
import ntpath
import os
import quopri
import re
import resource
import signal
import stat
import subprocess
import urllib.parse

import pytest

from support import FROM, HIDDEN, SAMPLES, command, multipart, run, uuencoded

from by_email import SHOWN_TYPES, body_of, is_saved, saved_files

MEMBERS = ["file", "number", "path", "saved", "size", "sha256", "error"]
# the types that Python's `mimetypes` has an ending for, and others
TYPES = (
    "application/json", "application/msword", "application/octet-stream", "application/pdf", "application/x-unknown",
    "application/zip", "audio/mpeg", "image/gif", "image/jpeg", "image/png", "image/svg+xml", "image/tiff", "text/csv",
    "text/html", "text/plain", "text/x-unknown", "video/mp4",
)


def sized():
    """A mail with files around the block size of SHA-256, each named after its length."""
    return multipart(b"b", *(
        b"Content-Disposition: attachment; filename=%d\nContent-Transfer-Encoding: base64\n\n%b"
        % (length, base64.encodebytes(bytes(number % 256 for number in range(length))))
        for length in (0, 1, 55, 56, 63, 64, 65, 119, 120, 1000, 100_000)
    ))


def typed():
    """A mail with a part of each type, without names."""
    return multipart(b"mixed", *(b"Content-Type: %b\n\n%b" % (name.encode(), name.encode()) for name in TYPES))


def forwarding():
    """A mail with mails inside one another, each with a text and an image, some of them encoded."""
    mail = b"Subject: innermost\nContent-Type: image/png\n\ninnermost"
    for level, encode in enumerate((bytes, base64.encodebytes, bytes, quopri.encodestring, base64.encodebytes, bytes)):
        name = b"8bit" if encode is bytes else b"base64" if encode is base64.encodebytes else b"quoted-printable"
        mail = multipart(
            b"mixed%d" % level, b"\nText %d" % level, b"Content-Type: image/png\n\nimage %d" % level,
            b"Content-Type: message/%b\nContent-Transfer-Encoding: %b\n\n%b"
            % (b"global" if level == 1 else b"rfc822", name, encode(mail)),
            b"Content-Type: text/csv; name=%d.csv\n\n%d" % (level, level),
        )
    return mail


def undelimited():
    """A multipart whose delimiter never comes."""
    return b"Content-Type: multipart/mixed; boundary=never\n\nNo delimiter\n--other\nis here.\n"


MADE = {"sized": sized, "typed": typed, "forwarding": forwarding, "undelimited": undelimited}


def wanted_files(data, with_hash):
    """The path, the size, the hash and the bytes of each file of a mail, by Python."""
    return [
        (path, len(body), hashlib.sha256(body).hexdigest() if with_hash else None, body)
        for path, body in saved_files(data, with_contained=False)
    ]


def walked(data):
    """The bytes of the parts that `walk` gives, and `iter_attachments`, of what is saved."""
    for policy, call in ((email.policy.compat32, "walk"), (email.policy.default, "iter_attachments")):
        for part in getattr(email.message_from_bytes(data, policy=policy), call)():
            if not part.is_multipart() and is_saved(part):
                yield body_of(part)


@pytest.fixture(scope="module")
def mails(tmp_path_factory):
    """The paths of the samples and of the made mails."""
    directory = tmp_path_factory.mktemp("made")
    for name, make in MADE.items():
        (directory / f"{name}.eml").write_bytes(make())
    return [*SAMPLES, *sorted(directory.iterdir())]


@pytest.fixture(scope="module")
def saved(mails, tmp_path_factory):
    """The directory into which all mails are saved, twice, and for each run its options and lines."""
    into, runs = tmp_path_factory.mktemp("saved"), []
    for options in (["--hash"], []):
        ended = run([*command("extract"), "--into", into, *options, *mails])
        assert (ended.returncode, ended.stderr) == (0, b"")
        runs.append((options, [json.loads(line) for line in ended.stdout.splitlines()]))
    return into, runs


def test_lines(saved, mails):
    """Each line has the members in order, and each file a new name; no file is missing."""
    into, runs = saved
    lines = [line for _, lines in runs for line in lines]
    assert {tuple(line) for line in lines} == {tuple(MEMBERS)}
    names = [line["saved"] for line in lines]
    assert sorted(names) == sorted(path.name for path in into.iterdir())
    assert len(names) == 2 * sum(len(wanted_files(path.read_bytes(), False)) for path in mails) > 20


def test_files(saved, mails):
    """The files of each mail are saved as Python reads them."""
    into, runs = saved
    for options, lines in runs:
        for path in mails:
            found = [
                (line["path"], line["size"], line["sha256"], (into / line["saved"]).read_bytes())
                for line in lines if line["file"] == str(path)
            ]
            assert found == wanted_files(path.read_bytes(), bool(options)), path


@pytest.mark.parametrize("name", ["typed", "forwarding"])
def test_all_that_python_walks_is_saved(saved, name):
    """What `walk` and `iter_attachments` give is saved."""
    bodies = set(walked(MADE[name]()))
    assert len(bodies) > 3
    assert bodies <= {path.read_bytes() for path in saved[0].iterdir()}


@pytest.mark.parametrize("kind", TYPES)
def test_endings(saved, kind):
    """A file without a name has the ending that Python's mimetypes has for its type."""
    names = {re.sub(r"-\d+", "", path.name) for path in saved[0].iterdir() if path.read_bytes() == kind.encode()}
    known = None if kind.endswith(("unknown", "octet-stream")) else mimetypes.MimeTypes(filenames=()).guess_extension(kind)
    assert names == (set() if kind in SHOWN_TYPES else {f"unnamed{known or ''}"})


def test_files_of_one_name(tmp_path):
    """Files of one name get numbers, the damaged one an error, and a mail inside is read too."""
    mail, into = tmp_path / "twins.eml", tmp_path / "into"
    into.mkdir()
    mail.write_bytes(multipart(
        b"b", b'Content-Disposition: attachment; filename="../a.txt"\n\none',
        b'Content-Disposition: attachment; filename="../a.txt"\nContent-Transfer-Encoding: base64\n\ndHdv!!!!',
        b'Content-Type: message/rfc822\nContent-Disposition: attachment; filename=".b"\n\n'
        b"Content-Type: image/png\n\nthree",
    ))
    lines = [json.loads(line) for line in run([*command("extract"), "--into", into, "--hash", mail]).stdout.splitlines()]
    found = [(line["path"], line["saved"], (into / line["saved"]).read_bytes(), line["error"] is not None) for line in lines]
    assert found == [
        ("1", "_.._a.txt", b"one", False), ("2", "_.._a-2.txt", b"two", True),
        ("3", "_.b", b"Content-Type: image/png\n\nthree", False), ("3.1", "unnamed.png", b"three", False),
    ]
    assert [line["sha256"] for line in lines] == [hashlib.sha256(body).hexdigest() for _, _, body, _ in found]


def parted():
    """A mail with files of several types and names, two of which have the same bytes."""
    return multipart(
        b"b", b"\nText", b"Content-Type: image/png; name=A.PNG\n\npng", b"Content-Type: image/jpeg; name=b.jpg\n\njpeg",
        b"Content-Type: application/pdf; name=report.pdf\n\npdf", b"Content-Type: application/pdf; name=report.pdf.exe\n\npng",
        b"Content-Type: message/rfc822\n\nContent-Type: image/png; name=inner.png\n\npng",
    )


# options, and the paths that they keep: those that fnmatch, without its brackets and question marks, keeps
CHOICES = (
    ([], ["2", "3", "4", "5", "6", "6.1"]),
    (["--only", "3"], ["3"]),
    (["--only", "6.1"], ["6.1"]),
    (["--only", "1"], []),
    (["--type", "image/*"], ["2", "3", "6.1"]),
    (["--type", "IMAGE/PNG"], ["2", "6.1"]),
    (["--type", "image"], []),
    (["--name", "*.png"], ["2", "6.1"]),
    (["--name", "*.pdf"], ["4"]),
    (["--name", "report*"], ["4", "5"]),
    (["--name", "*p*o*t*.*"], ["4", "5"]),
    (["--name", "*"], ["2", "3", "4", "5", "6", "6.1"]),
    (["--name", "?.png"], []),
    (["--name", "[a].png"], []),
    (["--type", "image/*", "--name", "*.png"], ["2", "6.1"]),
    (["--type", "image/*", "--name", "*.png", "--only", "2"], ["2"]),
)


@pytest.mark.parametrize(("options", "paths"), CHOICES, ids=lambda value: " ".join(value) or "none")
def test_choices(options, paths, tmp_path):
    """A choice keeps those of the files that agree with it, in order, and they are saved as without it."""
    mail = tmp_path / "parted.eml"
    mail.write_bytes(parted())
    bodies = dict(saved_files(parted()))
    into = tmp_path / "into"
    into.mkdir()
    ended = run([*command("extract"), "--into", into, *options, mail])
    lines = [json.loads(line) for line in ended.stdout.splitlines()]
    nothing = "--only" in options and not paths
    assert (ended.returncode, [line["path"] for line in lines]) == (1 if nothing else 0, paths)
    assert ended.stderr == (b"rocktray: the choice keeps no file\n" if nothing else b"")
    assert [(into / line["saved"]).read_bytes() for line in lines] == [bodies[path] for path in paths]
    assert len(list(into.iterdir())) == len(paths)


def with_text_files():
    """A mail with files in its texts, the second of which is cut off, and what binascii encoded, by the paths of the files."""
    contents = {"1.u1": bytes(range(256)) * 5, "1.u2": b"Cat", "2": b"png", "3.1.u1": b"inner"}
    inner = b"Subject: in\n\n" + uuencoded(b"inner.txt", contents["3.1.u1"])
    mail = multipart(
        b"b", b"\nHi\n" + uuencoded(b"../a b.bin", contents["1.u1"]) + b"and\n" + uuencoded(b"cut.txt", contents["1.u2"], b""),
        b"Content-Type: image/png; name=c.png\n\npng", b"Content-Type: message/rfc822\n\n" + inner,
        b"Content-Type: text/html\n\n" + uuencoded(b"html.txt", b"no plain text"),
    )
    return mail, {**contents, "3": inner}


@pytest.mark.parametrize(("options", "status", "saved"), [
    ([], 3, {"1.u1": "_.._a b.bin", "1.u2": "cut.txt", "2": "c.png", "3": "unnamed.eml", "3.1.u1": "inner.txt"}),
    (["--only", "1.u1"], 0, {"1.u1": "_.._a b.bin"}),
    (["--only", "1"], 1, {}),
    (["--name", "*.txt"], 3, {"1.u2": "cut.txt", "3.1.u1": "inner.txt"}),
    (["--type", "application/octet-stream"], 3, {"1.u1": "_.._a b.bin", "1.u2": "cut.txt", "3.1.u1": "inner.txt"}),
], ids=lambda value: " ".join(value) if isinstance(value, list) else "")
def test_text_files(options, status, saved, tmp_path):
    """The uuencoded files in plain texts are saved where their parts are, and chosen as other files are."""
    mail, contents = with_text_files()
    ended = run([*command("extract"), "--into", tmp_path, "--hash", *options], mail)
    lines = [json.loads(line) for line in ended.stdout.splitlines()]
    assert (ended.returncode, {line["path"]: line["saved"] for line in lines}) == (status, saved)
    assert [line["path"] for line in lines] == list(saved)
    for line in lines:
        content = contents[line["path"]]
        assert (tmp_path / line["saved"]).read_bytes() == content
        assert (line["size"], line["sha256"]) == (len(content), hashlib.sha256(content).hexdigest())
        assert line["error"] == ("No line `end` follows the data of the uuencoded file" if line["path"] == "1.u2" else None)


def test_text_files_are_those_of_the_json(tmp_path):
    """`rocktray json` lists the same files in texts, with the same bytes and errors."""
    mail, _contents = with_text_files()
    lines = run([*command("extract"), "--into", tmp_path, "--hash"], mail).stdout.splitlines()
    saved = [(line["path"], line["sha256"], line["error"]) for line in map(json.loads, lines) if ".u" in line["path"]]
    parts = json.loads(run([*command("json"), "--hash"], mail).stdout)["parts"]
    assert saved == [(file["path"], file["sha256"], file.get("error")) for part in parts for file in part["text_files"]]
    assert len(saved) == 3


def test_stdout_of_a_text_file():
    """A file in a text is written alone."""
    mail, contents = with_text_files()
    ended = run([*command("extract"), "--stdout", "--only", "3.1.u1"], mail)
    assert (ended.returncode, ended.stdout, ended.stderr) == (0, contents["3.1.u1"], b"")


def test_limit_on_text_files(tmp_path):
    """A mail of which a text has more blocks than the limit is refused, so that no file is left out, as is one inside a mail."""
    mail = b"\n" + b"".join(uuencoded(b"%d" % number, b"%d" % number) for number in range(20))
    ended = run([*command("extract"), "--into", tmp_path, "--max-items", "20"], mail)
    assert (ended.returncode, sorted(path.name for path in tmp_path.iterdir())) == (0, sorted(str(number) for number in range(20)))
    ended = run([*command("extract"), "--into", tmp_path, "--max-items", "19"], mail)
    assert (ended.returncode, json.loads(ended.stdout)["error"]) == (3, "Too many parts and headers")
    outer = multipart(b"b", b"Content-Type: message/rfc822\n\n" + mail, b"\n" + uuencoded(b"last", b"last"))
    ended = run([*command("extract"), "--into", tmp_path, "--max-items", "19"], outer)
    lines = [json.loads(line) for line in ended.stdout.splitlines()]
    errors = [(line["path"], line["error"]) for line in lines]
    assert (ended.returncode, errors) == (3, [("1", None), ("2.u1", None), ("1", "Too many parts and headers")])


def test_names_by_hash(tmp_path):
    """Each content is saved once under its SHA-256, in two runs as well, unless that name has other bytes."""
    mail, into = tmp_path / "parted.eml", tmp_path / "into"
    mail.write_bytes(parted())
    into.mkdir()
    taken = hashlib.sha256(b"jpeg").hexdigest()
    (into / taken).write_bytes(b"other bytes")
    bodies = dict(saved_files(parted()))
    names = {path: hashlib.sha256(body).hexdigest() for path, body in bodies.items()}
    for number in (2, 3):
        ended = run([*command("extract"), "--into", into, "--by-hash", mail])
        lines = [json.loads(line) for line in ended.stdout.splitlines()]
        assert (ended.returncode, [line["path"] for line in lines]) == (0, list(bodies))
        for line in lines:
            name = names[line["path"]]
            assert line["saved"] == (name if name != taken else f"{name}-{number}")
            assert (into / line["saved"]).read_bytes() == bodies[line["path"]]
    assert (into / taken).read_bytes() == b"other bytes"


def test_names_by_hash_at_once(tmp_path):
    """Runs at the same time save each content once, under its SHA-256."""
    bodies = [b"%d " % number * (1 + number % 1000) for number in range(2000)]
    mail, into = tmp_path / "many.eml", tmp_path / "into"
    mail.write_bytes(multipart(b"b", *(b"Content-Type: image/png\n\n" + body for body in bodies)))
    into.mkdir()
    arguments = [*command("extract"), "--into", into, "--by-hash", mail]
    runs = [subprocess.Popen(arguments, stdout=subprocess.PIPE, stderr=subprocess.PIPE) for _ in range(4)]
    names = [hashlib.sha256(body).hexdigest() for body in bodies]
    for ended in runs:
        lines, errors = ended.communicate(timeout=60)
        assert (ended.returncode, errors) == (0, b"")
        assert [json.loads(line)["saved"] for line in lines.splitlines()] == names
    assert sorted(path.name for path in into.iterdir()) == sorted(names)
    assert all((into / name).read_bytes() == body for name, body in zip(names, bodies))


@pytest.mark.parametrize("kind", ["pipe", "link to a pipe", "socket", "directory", "link to nothing"])
def test_names_by_hash_of_what_is_no_file(kind, tmp_path):
    """What has the name of a hash and is no regular file is not opened, and a number is added."""
    taken = tmp_path / hashlib.sha256(b"png").hexdigest()
    if kind == "pipe":
        os.mkfifo(taken)
    elif kind == "socket":
        os.mknod(taken, stat.S_IFSOCK | 0o600)
    elif kind == "directory":
        taken.mkdir()
    else:
        taken.symlink_to(tmp_path / "other")
        if kind == "link to a pipe":
            os.mkfifo(tmp_path / "other")
    ended = run([*command("extract"), "--into", tmp_path, "--by-hash"], b"Content-Type: image/png\n\npng")
    assert (ended.returncode, json.loads(ended.stdout)["saved"], ended.stderr) == (0, f"{taken.name}-2", b"")
    assert (tmp_path / f"{taken.name}-2").read_bytes() == b"png"


def test_names_by_hash_of_a_link(tmp_path):
    """A link with the name of a hash to a file with the bytes is that file."""
    (tmp_path / "other").write_bytes(b"png")
    name = hashlib.sha256(b"png").hexdigest()
    (tmp_path / name).symlink_to("other")
    ended = run([*command("extract"), "--into", tmp_path, "--by-hash"], b"Content-Type: image/png\n\npng")
    assert (ended.returncode, json.loads(ended.stdout)["saved"]) == (0, name)
    assert sorted(path.name for path in tmp_path.iterdir()) == sorted([name, "other"])


@pytest.mark.parametrize("path", ["C:\\Users\\x\\a.pdf", "z:\\r\u00e9sum\u00e9.pdf", "\\\\server\\share\\dir\\a.pdf"])
def test_windows_paths(path, tmp_path):
    """Of a path with a drive, or of one on a share, the name of the file is saved, as `ntpath` gives it."""
    quoted = "".join(f"%{byte:02X}" for byte in path.encode())
    mail = b"Content-Disposition: attachment; filename*=utf-8''%b\n\nx" % quoted.encode()
    ended = run([*command("extract"), "--into", tmp_path, "--mail"], mail)
    assert (ended.returncode, [file.name for file in tmp_path.iterdir()]) == (0, [ntpath.basename(path)])


@pytest.mark.parametrize("path", ["C:\\Users\\x\\a.pdf", "z:\\a b.pdf"])
@pytest.mark.parametrize("escaped", [False, True])
def test_windows_paths_in_quotes(path, escaped, tmp_path):
    """Of a path with a drive in quotes the name of the file is saved, whether its backslashes are escaped or not."""
    quoted = path.replace("\\", "\\\\") if escaped else path
    mail = b"Content-Disposition: attachment; filename=\"%b\"\n\nx" % quoted.encode()
    ended = run([*command("extract"), "--into", tmp_path, "--mail"], mail)
    assert (ended.returncode, [file.name for file in tmp_path.iterdir()]) == (0, [ntpath.basename(path)])


def test_names_without_hidden_characters(tmp_path):
    """U+202E and its like, and what is shown as nothing, are `_` in the names of files, and escaped in the JSON."""
    names = [f"a{c}gnp.exe" for c in (*HIDDEN[32:], *"\xad\u200b\u200c\u200d\u2060\ufeff")]
    mail = multipart(b"b", *(
        b"Content-Disposition: attachment; filename*=utf-8''%b\n\nx" % urllib.parse.quote(name).encode() for name in names))
    ended = run([*command("extract"), "--into", tmp_path, "--mail"], mail)
    assert (ended.returncode, ended.stderr) == (0, b"")
    assert {re.sub(r"-\d+", "", path.name) for path in tmp_path.iterdir()} == {"a_gnp.exe"}
    assert len(list(tmp_path.iterdir())) == len(names)
    ended = run([*command("json")], mail)
    assert [part["file_name"] for part in json.loads(ended.stdout)["parts"][1:]] == names
    assert '"file_name":"a\\u202egnp.exe"' in ended.stdout.decode()


# Microsoft, "Naming Files, Paths, and Namespaces": the names of devices and the reserved characters
DEVICES = {"CON", "PRN", "AUX", "NUL", *(port + digit for port in ("COM", "LPT") for digit in "123456789\u00b9\u00b2\u00b3")}
RESERVED = re.compile(r'[<>:"/\\|?*\x00-\x1f]|[. ]$')
NAMES = {
    "NUL.txt": "_NUL.txt", "NUL.tar.gz": "_NUL.tar.gz", "com1": "_com1", "LPT\u00b2.log": "_LPT\u00b2.log", "aux .c": "_aux .c",
    "a<b>c:d\"e|f?g*h": "a_b_c_d_e_f_g_h", "end.": "end_", "tail ": "tail_", "null.txt": "null.txt", "COM10": "COM10",
    "r\u00e9sum\u00e9 (1).pdf": "r\u00e9sum\u00e9 (1).pdf", "console.log": "console.log", "a.con": "a.con", "lpt": "lpt",
    "x." + 252 * "y" + " ": "x." + 252 * "y" + "_",
}


def is_reserved(name):
    """Whether Windows reserves or refuses a name."""
    return bool(RESERVED.search(name)) or name.partition(".")[0].rstrip(" ").upper() in DEVICES


def test_windows_names(tmp_path):
    """Windows takes each name, also with a number, and what it takes stays; without the option names stay."""
    quoted = ["".join(f"%{byte:02X}" for byte in name.encode()) for name in NAMES]
    mail = multipart(b"b", *(
        b"Content-Disposition: attachment; filename*=utf-8''%b\n\nx" % name.encode() for name in quoted))
    for options, wanted in ([["--windows-names"], list(NAMES.values())], [[], list(NAMES)]):
        into = tmp_path / f"into{len(options)}"
        into.mkdir()
        for run_number in range(3):
            ended = run([*command("extract"), "--into", into, "--mail", *options], mail)
            saved = [json.loads(line)["saved"] for line in ended.stdout.splitlines()]
            assert (ended.returncode, len(saved)) == (0, len(NAMES))
            if options:
                assert not any(map(is_reserved, saved))
            if run_number == 0:
                assert saved == wanted
    assert all((name == changed) == (not is_reserved(name)) for name, changed in NAMES.items())


def nested(levels, innermost):
    """A mail with an image and a mail that it forwards, which is like it, and so on; the innermost has this file."""
    mail = multipart(b"last", b"Content-Type: application/zip; name=last.zip\n\n" + innermost)
    for level in range(levels):
        boundary = b"level%d" % level
        mail = multipart(boundary, b"Content-Type: image/png\n\nimage %d" % level, b"Content-Type: message/rfc822\n\n" + mail)
    return mail


def test_nested(tmp_path):
    """Of mails forwarded in one another the outermost is a file, which contains the others; all other files are saved.
    A choice of a path chooses those mails too."""
    data, into = nested(4, b"zip"), tmp_path / "into"
    into.mkdir()
    (tmp_path / "nested.eml").write_bytes(data)
    bodies = dict(saved_files(data))
    for options, paths in (
        ([], ["1", "2", "2.1", "2.2.1", "2.2.2.1", "2.2.2.2.1"]), (["--type", "message/rfc822"], ["2"]),
        (["--name", "*"], ["1", "2", "2.1", "2.2.1", "2.2.2.1", "2.2.2.2.1"]), (["--only", "2.2"], ["2.2"]),
        (["--only", "2.2.2.2", "--type", "message/*"], ["2.2.2.2"]), (["--only", "2.2", "--type", "image/*"], []),
    ):
        ended = run([*command("extract"), "--into", into, *options, tmp_path / "nested.eml"])
        lines = [json.loads(line) for line in ended.stdout.splitlines()]
        assert (ended.returncode, [line["path"] for line in lines]) == (0 if paths else 1, paths), options
        assert [(into / line["saved"]).read_bytes() for line in lines] == [bodies[path] for path in paths], options


def test_nested_bytes(tmp_path):
    """At most twice the bytes of a mail are saved, whatever its levels are."""
    data = nested(98, b"x" * 500_000)
    ended = run([*command("extract"), "--into", tmp_path], data)
    assert ended.returncode == 0 and len(ended.stdout.splitlines()) == 100
    assert sum(path.stat().st_size for path in tmp_path.iterdir()) <= 2 * len(data)


def test_refused_mails_inside(tmp_path):
    """A mail inside that is refused has its line in the place of the lines of its files."""
    forwarded = b"Content-Type: message/rfc822\n\n"
    image = multipart(b"c", b"Content-Type: image/png\n\nimage")
    many = b"".join(b"A: %d\n" % number for number in range(9))
    (tmp_path / "mail").write_bytes(multipart(b"b", forwarded + many, forwarded + image, b"Content-Type: image/gif\n\nlast"))
    ended = run([*command("extract"), "--into", tmp_path, "--max-items", "9", tmp_path / "mail"])
    lines = [json.loads(line) for line in ended.stdout.splitlines()]
    paths = [(line["path"], line["saved"] is None) for line in lines]
    assert (ended.returncode, paths) == (3, [("1", False), ("2", False), ("3", False), ("1", True), ("2.1", False)])
    why = next(line["error"] for line in lines if line["error"])
    assert ended.stderr.decode() == f"rocktray: {tmp_path / 'mail'}: part 1: {why}\n"


def test_only_in_one_of_several(tmp_path):
    """A choice of a path is met if it keeps a file of one input, or of one mail of a mailbox."""
    none, one = b"Subject: x\n\nHi", b"Content-Type: image/png\n\npng"
    (tmp_path / "none").write_bytes(none)
    (tmp_path / "one").write_bytes(one)
    (tmp_path / "box").write_bytes(b"".join(FROM + mail + b"\n\n" for mail in (none, one, none)))
    met, unmet = (["none", "one"], ["one", "none"], ["box"]), (["none", "none"], ["none", "gone"])
    for names, status in [*((names, 0) for names in met), *((names, 1) for names in unmet)]:
        ended = run([*command("extract"), "--only", "1", *names], cwd=tmp_path)
        said = ended.stderr.decode().splitlines()
        assert (ended.returncode, said.count("rocktray: the choice keeps no file")) == (status, status), names


def test_refused_mails_are_named(tmp_path):
    """Each mail that is refused, and text before the first one of a mailbox, has a line on standard error."""
    many = b"".join(b"A: %d\n" % number for number in range(9)) + b"\n"
    mails = b"".join(FROM + mail + b"\n" for mail in (many, b"A: 1\n\n", many))
    (tmp_path / "a\x1b.mbox").write_bytes(b"text\n\n" + mails)
    ended = run([*command("extract"), "--mbox", "--max-items", "8", "a\x1b.mbox"], cwd=tmp_path)
    errors = [(line["number"], line["error"]) for line in map(json.loads, ended.stdout.splitlines())]
    assert (ended.returncode, [number for number, _ in errors]) == (3, [None, 1, 3])
    assert ended.stderr.decode().splitlines() == [
        f"rocktray: a\\u{{1b}}.mbox: {'' if number is None else f'mail {number}: '}{why}" for number, why in errors
    ]


def test_files_that_are_not_saved_are_named(tmp_path):
    """Each file that cannot be saved has a line on standard error, and the status is 1."""
    mail = multipart(b"b", b"Content-Type: image/png; name=a\n\n1", b"\nText", b"Content-Type: image/png; name=b\n\n2")
    ended = run([*command("extract"), "--into", "/proc", "--label", "x\ny"], FROM + mail)
    lines = [json.loads(line) for line in ended.stdout.splitlines()]
    assert (ended.returncode, [(line["path"], line["saved"]) for line in lines]) == (1, [("1", None), ("3", None)])
    assert ended.stderr.decode().splitlines() == [
        f"rocktray: x\\u{{a}}y: mail 1: part {line['path']}: {line['error']}" for line in lines
    ]
    ended = run([*command("extract"), "--into", "/proc"], mail)
    assert [line.rpartition(": ")[0] for line in ended.stderr.decode().splitlines()] == [
        f"rocktray: standard input: part {path}" for path in "13"
    ]


@pytest.mark.skipif(os.geteuid() == 0, reason="root writes everywhere")
def test_unwritable_directory(tmp_path):
    """Where a directory cannot be written, each file is named with the reason of the system."""
    into = tmp_path / "into"
    into.mkdir(mode=0o500)
    ended = run([*command("extract"), "--into", into], b"Content-Type: image/png\n\npng")
    assert (ended.returncode, json.loads(ended.stdout)["saved"]) == (1, None)
    assert ended.stderr.decode() == "rocktray: standard input: part 1: Permission denied (os error 13)\n"


HIDDEN_FILE = b"Content-Disposition: attachment; filename=a.exe\n\nMZ"
FILE = ("2", "a.exe", b"MZ")
# mails whose file a reader misses that takes a type by the letter, refuses a mail for one part, or cuts at lines that
# only begin with a delimiter; the names and bytes of their files by hand (RFC 2045, sections 5.1 and 5.2; RFC 2046,
# section 5.1.1; RFC 2231)
TRICKS = {
    "a comment after the boundary": (b'multipart/mixed; boundary="b" (x)', b"\nHi", HIDDEN_FILE, [FILE]),
    "a comment before the type": (b"(x) multipart/mixed; boundary=b", b"\nHi", HIDDEN_FILE, [FILE]),
    "no semicolon": (b"multipart/mixed boundary=b", b"\nHi", HIDDEN_FILE, [FILE]),
    "no semicolon after quotes": (b'multipart/mixed; x="y"boundary=b', b"\nHi", HIDDEN_FILE, [FILE]),
    "no closing quote": (b'multipart/mixed; boundary="b', b"\nHi", HIDDEN_FILE, [FILE]),
    "an extended boundary": (b"multipart/mixed; boundary*=us-ascii''b", b"\nHi", HIDDEN_FILE, [FILE]),
    "an extended boundary without a charset": (b"multipart/mixed; boundary*=b", b"\nHi", HIDDEN_FILE, [FILE]),
    "an extended boundary in an unknown charset": (b"multipart/mixed; boundary*=x''b", b"\nHi", HIDDEN_FILE, [FILE]),
    "a boundary in sections": (b'multipart/mixed; boundary*0="b"; boundary*1=""', b"\nHi", HIDDEN_FILE, [FILE]),
    "a charset that is extended": (b"multipart/mixed; charset*=x'y'z; boundary=b", b"\nHi", HIDDEN_FILE, [FILE]),
    "a word that ends a parameter": (
        b'multipart/mixed; boundary=b; x="=?us-ascii?Q?=22=3B_boundary=3Da=3B_y=3D=22?="', b"\nHi", HIDDEN_FILE, [FILE],
    ),
    "a word in another line": (b"multipart/mixed; boundary=b; x=\n =?us-ascii?Q?1=3B_boundary=3Da?=", b"\nHi", HIDDEN_FILE, [FILE]),
    "a no-break space before another boundary": (b"multipart/mixed; boundary=b;\xc2\xa0boundary=a", b"\nHi", HIDDEN_FILE, [FILE]),
    "a no-break space in Latin-1": (b"multipart/mixed; boundary=b;\xa0boundary=a", b"\nHi", HIDDEN_FILE, [FILE]),
    "a next line before another boundary": (b"multipart/mixed; boundary=b;\x85boundary=a", b"\nHi", HIDDEN_FILE, [FILE]),
    "a no-break space after the name": (b"multipart/mixed; boundary=b; boundary\xa0=a", b"\nHi", HIDDEN_FILE, [FILE]),
    "a vertical tab before another boundary": (b"multipart/mixed; boundary=b;\x0bboundary=a", b"\nHi", HIDDEN_FILE, [FILE]),
    "a no-break space before another boundary in the next line": (
        b"multipart/mixed; boundary=b;\n \xc2\xa0boundary=a", b"\nHi", HIDDEN_FILE, [FILE],
    ),
    "a no-break space in Latin-1 in the next line": (b"multipart/mixed; boundary=b;\r\n\t\xa0boundary=a", b"\nHi", HIDDEN_FILE, [FILE]),
    "a no-break space before another file name": (
        b"multipart/mixed; boundary=b", b"\nHi",
        b'Content-Type: text/html\nContent-Disposition: attachment; filename="a.html";\xa0filename="safe.txt"\n\n<p>Hi',
        [("2", "a.html", b"<p>Hi")],
    ),
    "a line that begins with the delimiter": (b"multipart/mixed; boundary=b", b"\nHi\n--bc", HIDDEN_FILE, [FILE]),
    "a boundary that begins another one": (
        b"multipart/mixed; boundary=b", b"\nHi", b"Content-Type: multipart/mixed; boundary=bc\n\n--bc\n" + HIDDEN_FILE + b"\n--bc--",
        [("2.1", "a.exe", b"MZ")],
    ),
    "a space before the headers of another part": (
        b"multipart/mixed; boundary=b", b" A: b\n\nHi", HIDDEN_FILE, [("1", "unnamed.txt", b" A: b\n\nHi"), FILE],
    ),
    "a space before the headers of the file": (
        b"multipart/mixed; boundary=b", b"\nHi", b" " + HIDDEN_FILE, [("2", "unnamed.txt", b" " + HIDDEN_FILE)],
    ),
    "a CR in the headers of the file": (
        b"multipart/mixed; boundary=b", b"\nHi", HIDDEN_FILE.replace(b"\n\n", b"\n\r"),
        [("2", "unnamed.txt", HIDDEN_FILE.replace(b"\n\n", b"\n\r"))],
    ),
}


# values without quotes that begin or end with whitespace beyond ASCII, and the boundary that each names by the letter
SPACED_BOUNDARIES = {
    "boundary=b\u00a0": "b\u00a0",
    "boundary= \u00a0b\t; x=y": "\u00a0b",
    "boundary=b\u3000\n ;x=y": "b\u3000",
    "boundary=b\u00a0c\u2003 x=y": "b\u00a0c\u2003",
    'boundary=b"\\\u00a0': 'b"\\\u00a0',
    "x=\u00a0;\n boundary*0=b;\n boundary*1=c\u00a0": "bc\u00a0",
}


@pytest.mark.parametrize("parameters", SPACED_BOUNDARIES)
def test_spaces_around_values(parameters, tmp_path):
    """Only whitespace of ASCII is trimmed around a value: a delimiter without the other whitespace ends no part."""
    boundary = SPACED_BOUNDARIES[parameters]
    parts = [f"--{boundary}", "Content-Disposition: attachment; filename=a.exe", "", "MZ", "--b", "", "Hi", f"--{boundary}--", ""]
    mail = "\n".join([f"Content-Type: multipart/mixed; {parameters}", "", *parts])
    ended = run([*command("extract"), "--into", tmp_path], mail.encode())
    lines = [json.loads(line) for line in ended.stdout.splitlines()]
    assert (ended.returncode, ended.stderr) == (0, b"")
    assert [(line["saved"], (tmp_path / line["saved"]).read_bytes()) for line in lines] == [("a.exe", b"MZ\n--b\n\nHi")]


@pytest.mark.parametrize("name", TRICKS)
def test_tricks(name, tmp_path):
    """No trick hides a file from `extract` and `json`."""
    ctype, first, second, files = TRICKS[name]
    mail = b"Content-Type: " + ctype + b"\n\n" + b"".join(b"--b\n" + part + b"\n" for part in (first, second)) + b"--b--\n"
    ended = run([*command("extract"), "--into", tmp_path], mail)
    lines = [json.loads(line) for line in ended.stdout.splitlines()]
    assert (ended.returncode, ended.stderr) == (0, b"")
    assert [(line["path"], line["saved"], (tmp_path / line["saved"]).read_bytes()) for line in lines] == files
    ended = run([*command("json"), "--hash"], mail)
    parts = [part for part in json.loads(ended.stdout)["parts"] if part["extracted"]]
    assert ended.returncode == 0
    assert [(part["path"], part["sha256"]) for part in parts] == [(path, hashlib.sha256(body).hexdigest()) for path, _, body in files]
    assert [part["file_name"] for part in parts] == [None if name == "unnamed.txt" else name for _, name, _ in files]
    assert [part["refusal"] is not None for part in parts] == [name == "unnamed.txt" for _, name, _ in files]


def test_word_as_boundary(tmp_path):
    """A boundary that looks like an encoded word is itself (RFC 2047, section 5)."""
    word = b"=?us-ascii?Q?a?="
    mail = b'Content-Type: multipart/mixed; boundary="' + word + b'"\n\n--' + word + b"\n" + HIDDEN_FILE + b"\n--" + word + b"--\n"
    ended = run([*command("extract"), "--into", tmp_path], mail)
    lines = [json.loads(line) for line in ended.stdout.splitlines()]
    assert (ended.returncode, [(line["path"], line["saved"]) for line in lines]) == (0, [("1", "a.exe")])


def test_word_as_charset():
    """An encoded word in another parameter is no charset."""
    word = b'"=?us-ascii?Q?=22=3B_charset=3Dutf-16le=3B_y=3D=22?="'
    ended = run(command("json"), b"Content-Type: text/plain; x=" + word + b"\n\nPay at http://example.org/\n")
    part, = json.loads(ended.stdout)["parts"]
    assert (part["charset"], part["text"]) == ("us-ascii", "Pay at http://example.org/\n")
    assert part["params"] == {"x": word.decode()[1:-1]}


@pytest.mark.parametrize("line", [b"\n \n", b"\n\t\n", b"\n \n \n", b"\n", b"\r\n \r\n"])
def test_no_empty_line(line, tmp_path):
    """A file in the first part is saved if blanks, or nothing, are in the place of the empty line after the headers."""
    mail = b"Content-Type: multipart/mixed; boundary=b" + line + b"--b\n" + HIDDEN_FILE + b"\n--b\n\nHi\n--b--\n"
    ended = run([*command("extract"), "--into", tmp_path], mail)
    lines = [json.loads(line) for line in ended.stdout.splitlines()]
    assert (ended.returncode, ended.stderr) == (0, b"")
    assert [(line["path"], line["saved"], (tmp_path / line["saved"]).read_bytes()) for line in lines] == [("1", "a.exe", b"MZ")]
    ended = run(command("json"), mail)
    parts = json.loads(ended.stdout)["parts"]
    assert [part["path"] for part in parts if part["extracted"]] == ["1"]


CODED = b"Content-Type: image/png; name=a.png\nContent-Transfer-Encoding: base64\n"
IN_HEADERS = "Nothing follows the headers, and a line of them is no header"


@pytest.mark.parametrize("part, error", [
    (CODED + base64.encodebytes(b"png"), IN_HEADERS), (CODED + base64.encodebytes(b"png") + b"\n", IN_HEADERS),
    (CODED + b" \n" + base64.encodebytes(bytes(99)), IN_HEADERS),
    (CODED.replace(b"\n", b"\r\n") + b"cG5n\r\n", IN_HEADERS), (CODED + b"cG5n\nX: y\n", IN_HEADERS),
    (b"cG5n\n" + CODED, IN_HEADERS), (CODED, None), (CODED + b"\n", None), (CODED + b"\n\n", None),
    (CODED.replace(b"\n", b"\r\n") + b"\r\n", None), (CODED.replace(b" name", b"\n name") + b"X:\n", None),
    (CODED.replace(b";", b";\n\t"), None), (CODED + b"X: cG5n\n", None),
])
@pytest.mark.parametrize("alone", [False, True])
def test_content_among_headers(part, error, alone, tmp_path):
    """A file of no bytes has an error if a line of its headers, which may be its content, is no header."""
    mail = part if alone else multipart(b"b", b"\nText", part)
    ended = run([*command("extract"), "--into", tmp_path, "--mail"], mail)
    line = json.loads(ended.stdout)
    assert (ended.returncode, line["error"], line["size"], ended.stderr) == (3 if error else 0, error, 0, b"")
    assert (tmp_path / line["saved"]).read_bytes() == b""


# headers with the name and the disposition that they give a file: by RFC 6266, section 4.3, RFC 2047, sections 5 and
# 6.1, and RFC 2045, section 5.1
DISPOSITIONS = {
    "attachment; filename=\"Ubersicht.pdf\"; filename*=UTF-8''%C3%9Cbersicht.pdf": ("\u00dcbersicht.pdf", "attachment"),
    "attachment; filename*=UTF-8''%C3%9Cbersicht.pdf; filename=\"Ubersicht.pdf\"": ("\u00dcbersicht.pdf", "attachment"),
    "inline; filename=a; filename*=utf-8''..%2Fb": ("../b", "inline"),
    'inline; filename="a b.txt': ("a b.txt", "inline"),
    "attachment (x); filename=report (1).pdf": ("report (1).pdf", "attachment"),
    "(attachment) inline(x); filename=a.txt": ("a.txt", "inline"),
    'attachment; filename="=?utf-8?Q?a.pdf=22;_filename*=3Dutf-8\'\'b.exe?="': ("a.pdf\"; filename*=utf-8''b.exe", "attachment"),
}


@pytest.mark.parametrize("disposition", DISPOSITIONS)
def test_names_of_dispositions(disposition, tmp_path):
    """`extract`, `json` and `show` have one name of a file, and the same files."""
    name, kind = DISPOSITIONS[disposition]
    mail = f"Content-Disposition: {disposition}\n\nx".encode()
    ended = run([*command("extract"), "--into", tmp_path], mail)
    safe = ("_" if name.startswith(".") else "") + name.replace("/", "_")
    assert (ended.returncode, [json.loads(line)["saved"] for line in ended.stdout.splitlines()]) == (0, [safe])
    part = json.loads(run(command("json"), mail).stdout)["parts"][0]
    assert (part["file_name"], part["disposition"], part["attachment"], part["extracted"]) == (name, kind, True, True)
    shown = run([*command("show"), "-"], mail).stdout.decode()
    assert name in shown


# dispositions with comments, and whether they are those of a file without a name (RFC 2045, section 5.1)
COMMENTED = {
    "attachment (x)": True, "attachment(x)": True, "(x) Attachment": True, "attachment (x; y)": True, "attachment (x": True,
    "attachment\n (x\n (y) \\) z)": True, "inline (attachment)": False, "(attachment)": False, "inline; x=(attachment)": False,
}


@pytest.mark.parametrize("disposition", COMMENTED)
def test_comments_in_dispositions(disposition, tmp_path):
    """No comment hides a file, or makes one, in `extract` and `json`."""
    mail = multipart(b"b", b"\nHi", f"Content-Disposition: {disposition}\n\nMZ".encode())
    ended = run([*command("extract"), "--into", tmp_path], mail)
    saved = [(tmp_path / json.loads(line)["saved"]).read_bytes() for line in ended.stdout.splitlines()]
    assert (ended.returncode, saved) == (0, [b"MZ"] if COMMENTED[disposition] else [])
    part = json.loads(run(command("json"), mail).stdout)["parts"][2]
    assert part["disposition"] == ("attachment" if COMMENTED[disposition] else "inline")
    assert (part["attachment"], part["extracted"], part["text"] is None) == (COMMENTED[disposition],) * 3


def test_lines_follow_their_files(tmp_path):
    """The line of each file is written before the next one is saved, even if the run then ends by a limit on files."""
    def set_limit():
        resource.setrlimit(resource.RLIMIT_FSIZE, (4000, 4000))

    into, lines = tmp_path / "into", tmp_path / "lines"
    into.mkdir()
    sizes = (10, 3000, 20, 5000, 30)
    mail = multipart(b"b", *(b"Content-Type: image/png; name=%d\n\n" % size + b"x" * size for size in sizes))
    with open(lines, "wb") as file:
        ended = subprocess.run([*command("extract"), "--into", into], input=mail, stdout=file, stderr=subprocess.PIPE,
                               check=False, preexec_fn=set_limit, timeout=60)
    found = [json.loads(line) for line in lines.read_bytes().splitlines()]
    named = sorted(path.name for path in into.iterdir() if not path.name.startswith(".rocktray-"))
    assert ended.returncode == -signal.SIGXFSZ
    assert named == sorted(line["saved"] for line in found) == ["10", "20", "3000"]
    assert all((into / name).stat().st_size == int(name) for name in named)


@pytest.mark.parametrize("name, why", [
    ("missing", "missing: No such file or directory (os error 2)"), ("file", "file: not a directory"),
    (b"caf\xe9", r"caf\xE9: the name is not UTF-8"), ("a\x1b[2J", r"a\u{1b}[2J: No such file or directory (os error 2)"),
])
def test_into_no_directory(name, why, tmp_path):
    """Where no directory has the name that --into gives, nothing is saved, and one line says why."""
    (tmp_path / "file").write_bytes(b"")
    ended = run([*command("extract"), "--into", name, SAMPLES[0]], cwd=tmp_path)
    assert (ended.returncode, ended.stdout, ended.stderr.decode()) == (1, b"", f"rocktray: {why}\n")
    assert [path.name for path in tmp_path.iterdir()] == ["file"]


@pytest.mark.parametrize("options, path", [
    (options, paths[0]) for options, paths in CHOICES if len(paths) == 1
], ids=lambda value: " ".join(value))
def test_stdout(options, path, tmp_path):
    """The only file that a choice keeps is written as Python reads it, and nothing else, from a file and a pipe."""
    mail = tmp_path / "parted.eml"
    mail.write_bytes(parted())
    body = dict(saved_files(parted()))[path]
    for arguments, data in (([mail], b""), ([], parted()), (["-"], parted())):
        ended = run([*command("extract"), "--stdout", *options, *arguments], data, cwd=tmp_path)
        assert (ended.returncode, ended.stdout, ended.stderr) == (0, body, b"")
    assert [entry.name for entry in tmp_path.iterdir()] == ["parted.eml"]


def test_stdout_of_samples(mails):
    """Each file that has a path of its own, as Python reads it."""
    for path in mails:
        found = list(saved_files(path.read_bytes()))
        for number, body in found[:20]:
            if [name for name, _ in found].count(number) == 1:
                ended = run([*command("extract"), "--stdout", "--only", number, path])
                assert (ended.returncode, ended.stdout, ended.stderr) == (0, body, b""), (path, number)


@pytest.mark.parametrize("options, paths, why", [
    (options, paths, "the choice keeps several files, and --stdout writes one" if paths else "the choice keeps no file")
    for options, paths in CHOICES if len(paths) != 1
], ids=lambda value: " ".join(value) if isinstance(value, list) else value)
def test_stdout_without_one_file(options, paths, why, tmp_path):
    """Where a choice keeps no file or several, nothing is written, and standard error lists them."""
    mail = tmp_path / "parted.eml"
    mail.write_bytes(parted())
    ended = run([*command("extract"), "--stdout", *options, mail])
    *lines, last = ended.stderr.decode().splitlines()
    assert (ended.returncode, ended.stdout, last) == (1, b"", f"rocktray: {mail}: {why}")
    assert [json.loads(line)["path"] for line in lines] == paths
    assert ended.stderr.decode().count("another file is kept too") == max(0, len(paths) - 1)


def test_stdout_damaged(tmp_path):
    """The front of a damaged file is written, and standard error has its line."""
    mail = multipart(b"b", b"\nText", b"Content-Type: image/png\nContent-Transfer-Encoding: base64\n\ndHdv!!!!")
    ended = run([*command("extract"), "--stdout", "--only", "2"], mail)
    line = json.loads(ended.stderr)
    assert (ended.returncode, ended.stdout, line["size"]) == (3, b"two", 3)
    assert line["error"].endswith("; bytes ignored: 4")


def test_stdout_of_a_mailbox():
    """All mails of a mailbox are looked at: a file of another one is another file, and a refused mail is reported."""
    one, none, refused = parted(), b"Subject: x\n\n", b"A: b\n" * 99
    for mails, status, body in (
        ((none, one, none), 0, b"jpeg"), ((one, one), 1, b""), ((none, none), 1, b""), ((refused, one), 3, b"jpeg"),
    ):
        mailbox = b"".join(FROM + mail + b"\n" for mail in mails)
        ended = run([*command("extract"), "--stdout", "--only", "3", "--max-items", "99"], mailbox)
        assert (ended.returncode, ended.stdout) == (status, body), mails
        assert bool(ended.stderr) == bool(status), mails


def test_lines_are_escaped():
    """A line escapes what a line of JSON escapes: every hidden character."""
    label = '"\\\xa0\U0001f600' + "".join(HIDDEN[1:])
    for data in (parted(), b"A: b\n" * 99):
        ended = run([*command("extract"), "--label", label, "--only", "2", "--by-hash", "--max-items", "99"], data, cwd="/proc")
        other = run([*command("json"), "--label", label, "--max-items", "99"], data)
        text = ended.stdout.decode()
        assert text.endswith("\n") and not any(c in text[:-1] for c in HIDDEN)
        assert json.loads(text)["file"] == label
        written = text.split('"file":', 1)[1].split(',"number"')[0]
        assert written in other.stdout.decode()
