"""Every script: its help, its arguments, and the launchers through symbolic links.

A call for help writes to standard output alone and ends with status 0. A call with wrong arguments writes to standard
error alone and ends with status 2.
"""

import os
import re
import subprocess

import pytest

from support import TOP, VERSION, program, run, text_of

SCRIPTS = sorted(
    path for pattern in ("tools/*", "bench/*", "oracle/*", "examples/archive/*.py")
    for path in TOP.glob(pattern) if path.is_file() and os.access(path, os.X_OK)
)
LAUNCHERS = ("mail_show", "rocktray")
MAIL = (TOP / "samples" / "attachment.eml").read_bytes()


def ends(command, status, stream, **options):
    """Whether a command ends with this status, and writes to this stream alone."""
    ended = subprocess.run(list(map(str, command)), stdin=subprocess.DEVNULL, capture_output=True, timeout=20, **options)
    written = {"stdout": bool(ended.stdout), "stderr": bool(ended.stderr)}
    assert (ended.returncode, [name for name in written if written[name]]) == (status, [stream]), ended


@pytest.mark.quick
@pytest.mark.parametrize("script", SCRIPTS, ids=lambda path: path.name)
def test_script(script):
    """Help, an unknown option, and an argument that makes no sense."""
    ends([script, "--help"], 0, "stdout")
    ends([script, "--no-such-option"], 2, "stderr")
    ends([script, "no/such/argument"], 2, "stderr")


@pytest.mark.quick
def test_executable():
    """A file that begins with `#!` can be executed, and no other."""
    modes = run(["git", "ls-files", "-s"], cwd=TOP).stdout.decode().splitlines()
    for mode, _, _, path in (line.split(None, 3) for line in modes):
        if mode != "120000":
            assert (mode == "100755") == (TOP / path).read_bytes().startswith(b"#!"), path


@pytest.mark.quick
@pytest.mark.parametrize("module, script", [("flask", ["web.py", "db"]), ("pygal", ["web.py", "db"]), ("dask", ["index_archive.py", "out", ".", "--scheduler", "x"])])
def test_missing_module(module, script, tmp_path):
    """A module of Python that is missing is named in one line, with the package that has it."""
    (tmp_path / f"{module}.py").write_text(f"raise ModuleNotFoundError('no', name='{module}')\n")
    (tmp_path / "a.eml").write_bytes(MAIL)
    name, *arguments = script
    ended = run(["/usr/bin/python3", TOP / "examples" / "archive" / name, *arguments, "--program", "/bin/true"], cwd=tmp_path,
                env={**os.environ, "PYTHONPATH": str(tmp_path)})
    assert ended.returncode == 2 and ended.stdout == b"", ended
    assert re.fullmatch(rf"{re.escape(name)}: this Python has no {module}: on Debian install python3-[^\n]*\n", ended.stderr.decode())


@pytest.mark.quick
def test_help_of_test():
    """./test passes its other arguments to pytest, which ends with status 4 on unknown ones; without its needs it ends with 2."""
    ends([TOP / "test", "--help"], 0, "stdout")
    ended = run([TOP / "test", "--no-such-option"])
    assert ended.returncode in (2, 4) and ended.stderr and not ended.stdout


@pytest.fixture(params=LAUNCHERS)
def link(request, tmp_path):
    """A symbolic link to a launcher, in another directory."""
    path = tmp_path / request.param
    path.symlink_to(TOP / request.param)
    return path


@pytest.mark.quick
def test_launcher(link):
    """Help, an unknown option, and an empty argument."""
    ends([link, "--help"], 0, "stdout")
    ends([link, "--no-such-option"], 2, "stderr")
    ends([link, ""], 2, "stderr")
    if link.name == "mail_show":
        ends([link, "mail", "mail"], 2, "stderr")
        ends([link, "no/such/file"], 1, "stderr", env={**os.environ, "BUILT": "only"})


@pytest.mark.quick
@pytest.mark.parametrize("command", [
    ["./mail_show", "samples/plain.eml"], ["tools/program.sh", "rocktray"],
    ["tools/make_c_library.sh", "/tmp/rocktray"], ["tools/make_wheel.py", "/tmp/wheels"], ["./test"], [".ci/run"],
    ["tools/make_release.py", "/tmp/release"], ["tools/try_edits.py"], ["tools/proved_objects.py"],
])
def test_without_the_kit(command, copy):
    """Without the kit, and in a copy where nothing is built, one line says what is needed."""
    ended = subprocess.run(command, stdin=subprocess.DEVNULL, capture_output=True, text=True, timeout=20, cwd=copy,
                           env={"PATH": "/usr/bin:/bin"})
    assert (ended.returncode, ended.stdout) == (2, "")
    assert re.fullmatch(r"[\w./]+: this needs the Rattle kit, whose command is rt(; README.md says how to get a release)?\n", ended.stderr)


@pytest.mark.quick
def test_rocktray_is_not_built(copy):
    """Without the program ./rocktray prints the help of the program, or one line that says how to build it."""
    for arguments in (["--help"], ["-h"], ["help"]):
        ended = run(["./rocktray", *arguments], cwd=copy)
        assert (ended.returncode, ended.stdout.decode(), ended.stderr) == (0, text_of("docs/usage.txt"), b"")
    ended = run(["./rocktray"], cwd=copy)
    assert (ended.returncode, ended.stdout, ended.stderr.decode()) == (2, b"", text_of("docs/usage.txt"))
    ended = run(["./rocktray", "json", "samples/plain.eml"], cwd=copy)
    why = b"rocktray: the program is not built: install a release (README.md), or prove and build it: tools/program.sh rocktray\n"
    assert (ended.returncode, ended.stdout, ended.stderr) == (2, b"", why)


@pytest.mark.quick
@pytest.mark.parametrize("arguments", [["samples/plain.eml"], ["-"]])
@pytest.mark.parametrize("last, status, said", [
    ("run=ended status=3 runners=1", 3, "a warning\n"), ("run=none", 2, "a warning\nrun=none\nrocktray: rt try has not"),
], ids=["ended", "none"])
def test_show_before_the_program_is_built(arguments, last, status, said, copy, tmp_path):
    """Until the program is built, ./rocktray show runs rt try on the mail: here another rt, which prints the mail."""
    path = tmp_path / "path"
    path.mkdir()
    (path / "rt").write_text(f"#!/bin/sh\necho $PWD $*\ncat\necho a warning >&2\necho '{last}' >&2\nexit 3\n")
    (path / "rt").chmod(0o755)
    mail = (copy / "samples" / "plain.eml").read_bytes()
    ended = run(["./rocktray", "show", *arguments], mail, cwd=copy, env={"PATH": f"{path}:/usr/bin:/bin"})
    first, _, output = ended.stdout.partition(b"\n")
    assert (first.decode(), output) == (f"{copy}/crates/mail_glance try", mail)
    assert ended.returncode == status and f"tools/program.sh rocktray\n{said}" in ended.stderr.decode()


@pytest.mark.quick
def test_show_says_that_it_runs(copy, tmp_path):
    """While rt try takes its time, ./rocktray show says every ten seconds that it runs."""
    path = tmp_path / "path"
    path.mkdir()
    (path / "rt").write_text("#!/bin/sh\nsleep 12\necho run=ended >&2\necho 'run=ended status=0' >&2\n")
    (path / "rt").chmod(0o755)
    ended = run(["./rocktray", "show", "-"], MAIL, cwd=copy, env={"PATH": f"{path}:/usr/bin:/bin"})
    assert (ended.returncode, ended.stdout) == (0, b"")
    assert "\nrocktray: 10 s\n" in ended.stderr.decode()


@pytest.mark.quick
@pytest.mark.parametrize("name", LAUNCHERS)
def test_version_without_a_program(name):
    """The version needs no built program."""
    ended = run([TOP / name, "--version"])
    assert ended.stdout.decode().splitlines()[0] == f"{name} {VERSION}"


def outputs(command, directory):
    """What a launcher or a program writes of the mail on standard input, and of the file."""
    first = ["json"] if command.name == "rocktray" else []
    return [run([command, *first, *arguments], data, cwd=directory).stdout for arguments, data in (([], MAIL), (["mail"], b""))]


def test_program(link, tmp_path):
    """The calls of the program itself, and that its launcher writes what it writes."""
    built = program(link.name)
    (tmp_path / "mail").write_bytes(MAIL)
    ends([built, "--help"], 0, "stdout")
    ends([built, "--no-such-option"], 2, "stderr")
    arguments = ["json"] if link.name == "rocktray" else []
    ends([built, *arguments, "no/such/argument", "-h"], 0, "stdout")
    ends([built, *arguments, "mail", ""], 2, "stderr", cwd=tmp_path)
    found = outputs(link, tmp_path)
    assert found == outputs(type(link)(built), tmp_path)
    assert found[0] and found[1]
