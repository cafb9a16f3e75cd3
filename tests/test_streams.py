"""The programs when standard input, a file or output fails: closed, a directory, missing, full, a pipe without a reader.

A run ends with exit status 1 and reports on standard error what failed and why, in the system's words; if standard
error fails too, it ends with that status alone. No run ends by a signal. If a file cannot be saved, or not completely,
the line of rocktray extract says so, and nothing of the file is kept.
"""

import json
import os
import resource
import signal
import subprocess

import pytest

from support import FROM, SUBCOMMANDS, TOP, command

CLOSED = "Bad file descriptor (os error 9)"
DIRECTORY = "Is a directory (os error 21)"
MISSING = "No such file or directory (os error 2)"
FULL = "No space left on device (os error 28)"
LARGE = "File too large (os error 27)"
MAIL = TOP / "samples" / "attachment.eml"
PROGRAMS = ("mail_show", "json", "extract", "show", "check")
# the exit status of a refused mail
REFUSED = {"mail_show": 1, "json": 3, "extract": 3, "show": 3, "check": 3}


class Runner:
    """Runs of one program, by sh, so that streams can be closed."""

    def __init__(self, name, directory):
        self.name, self.directory = name, directory
        self.command = command(name)
        self.program = os.path.basename(self.command[0])
        self.input = "standard input" if name in SUBCOMMANDS else "input failed"
        if name == "extract":
            self.command += ["--into", str(self.into())]
        if name in ("show", "check"):
            self.command.append("-")

    def into(self):
        """A new empty directory."""
        number = len(list(self.directory.iterdir()))
        path = self.directory / f"into{number}"
        path.mkdir()
        return path

    def run(self, redirections, *arguments, stdin=None):
        """The exit status and standard error of a run with these redirections of sh."""
        if self.name == "extract":
            self.command[-1] = str(self.into())
        command = ["sh", "-c", f'exec "$@" {redirections}', "sh", *self.command, *map(str, arguments)]
        ended = subprocess.run(command, stdin=stdin or subprocess.DEVNULL, stdout=subprocess.DEVNULL,
                               stderr=subprocess.PIPE, timeout=60, cwd=self.directory)
        return ended.returncode, ended.stderr.decode()


@pytest.fixture(params=PROGRAMS)
def runner(request, tmp_path):
    """Each program."""
    return Runner(request.param, tmp_path)


@pytest.mark.parametrize("redirection, why", [
    ("<&-", CLOSED), (f"< {TOP}", DIRECTORY), ("0> only_written", CLOSED),
])
def test_input(runner, redirection, why):
    """Standard input that cannot be read."""
    assert runner.run(redirection) == (1, f"{runner.program}: {runner.input}: {why}\n")


def test_missing_file(runner):
    """A file that does not exist."""
    assert runner.run("", "no/such/file") == (1, f"{runner.program}: no/such/file: {MISSING}\n")


@pytest.mark.parametrize("redirection, arguments, why", [
    (f"< {MAIL} >&-", (), CLOSED), (f"< {MAIL} > /dev/full", (), FULL), ("> /dev/full", (MAIL,), FULL),
    ("> /dev/full", ("--help",), FULL), (f"< {MAIL} 1< {MAIL}", (), CLOSED),
])
def test_output(runner, redirection, arguments, why):
    """Standard output that cannot be written."""
    assert runner.run(redirection, *arguments) == (1, f"{runner.program}: output failed: {why}\n")


@pytest.mark.parametrize("count", [0, 10])
def test_pipes(runner, tmp_path, count):
    """A pipe whose reader is gone before the first write, or after some bytes: nothing is reported, since scripts cut off
    output on purpose."""
    is_boxed = runner.name in ("extract", "show", "check")
    (tmp_path / "mail").write_bytes((FROM + b" x\n\n") * 4000 if is_boxed else b"A: b\n" * 100_000)
    reader, writer = os.pipe()
    with open(tmp_path / "mail" if count else MAIL, "rb") as file:
        if not count:
            os.close(reader)
        process = subprocess.Popen(runner.command, stdin=file, stdout=writer, stderr=subprocess.PIPE)
    os.close(writer)
    if count:
        assert len(os.read(reader, count)) == count
        os.close(reader)
    assert (process.communicate(timeout=60)[1], process.returncode) == (b"", 1)


@pytest.mark.parametrize("redirection", [
    f"< {MAIL} > /dev/full 2>&-", f"< {MAIL} > /dev/full 2> /dev/full", "<&- >&- 2>&-", "no/such/file 2>&-",
])
def test_silent(runner, redirection):
    """Standard error fails too."""
    assert runner.run(redirection) == (1, "")


def test_silent_refusal(runner, tmp_path):
    """A refused mail, and standard error is full."""
    (tmp_path / "refused").write_bytes(b" x" if runner.name == "mail_show" else b"A: b\n" * 1_000_000)
    assert runner.run("< refused 2> /dev/full") == (REFUSED[runner.name], "")


def test_show_a_directory(tmp_path):
    """mail_show reads no directories."""
    assert Runner("mail_show", tmp_path).run("", tmp_path) == (1, f"mail_show: input failed: {DIRECTORY}\n")


@pytest.mark.parametrize("into, why", [("no/such/directory", MISSING), (MAIL, "not a directory")])
def test_no_directory(into, why):
    """rocktray extract needs a directory that exists."""
    ended = subprocess.run([*command("extract"), "--into", into], input=b"", capture_output=True, timeout=60)
    assert (ended.returncode, ended.stderr.decode()) == (1, f"rocktray: {into}: {why}\n")


def small_files():
    """Limits files to 512 bytes; a write past that fails, since the signal is ignored."""
    signal.signal(signal.SIGXFSZ, signal.SIG_IGN)
    resource.setrlimit(resource.RLIMIT_FSIZE, (512, 512))


@pytest.mark.parametrize("into, why, limit", [("/proc", MISSING, None), ("into", LARGE, small_files)])
def test_unsaved(into, why, limit, tmp_path):
    """A directory that takes no file, and a file that cannot be written to its end: nothing of it is kept."""
    (tmp_path / "into").mkdir()
    mail = b"Content-Disposition: attachment\n\n" + b"y\n" * 4500
    ended = subprocess.run([*command("extract"), "--into", into], input=mail, capture_output=True, timeout=60,
                           cwd=tmp_path, preexec_fn=limit)
    line = {"file": None, "number": None, "path": "1", "saved": None, "size": 9000, "sha256": None, "error": why}
    said = f"rocktray: standard input: part 1: {why}\n".encode()
    assert (ended.returncode, json.loads(ended.stdout), ended.stderr) == (1, line, said)
    assert list((tmp_path / "into").iterdir()) == []


def limited_files():
    """Limits files to 3000 bytes; the signal for a write past that ends the program."""
    resource.setrlimit(resource.RLIMIT_FSIZE, (3000, 3000))


def test_whole_files(tmp_path):
    """However a run ends, each file that has its name is whole."""
    mail = b"Content-Type: multipart/mixed; boundary=b\n\n" + b"".join(
        b"--b\nContent-Disposition: attachment; filename=%d\n\n%b\n" % (size, b"y" * size) for size in (10, 2000, 9000, 20)
    ) + b"--b--\n"
    ended = subprocess.run([*command("extract"), "--into", tmp_path], input=mail, capture_output=True, timeout=60,
                           preexec_fn=limited_files)
    assert ended.returncode == -signal.SIGXFSZ
    saved = {path.name: path.stat().st_size for path in tmp_path.iterdir() if not path.name.startswith(".")}
    assert saved == {"10": 10, "2000": 2000}


def test_files_without_links(tmp_path):
    """A hidden file that an earlier run left does not hinder, and no hidden file is left."""
    into = tmp_path / "into"
    into.mkdir()
    (into / ".rocktray-0").write_bytes(b"left")
    mail = b"Content-Disposition: attachment; filename=a\n\nx"
    for name in ("a", "a-2"):
        ended = subprocess.run([*command("extract"), "--into", into], input=mail, capture_output=True, timeout=60)
        assert (ended.returncode, json.loads(ended.stdout)["saved"]) == (0, name)
    assert {path.name: path.read_bytes() for path in into.iterdir()} == {".rocktray-0": b"left", "a": b"x", "a-2": b"x"}
