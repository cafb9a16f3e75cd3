"""A release: its one version, its manual pages and completions, and what its archive and packages contain.

The quick tests pack programs and libraries that only look like ours. tools/try_release.sh tries a real release, in new
Debian systems.
"""

import json
import os
import re
import shutil
import subprocess
import tarfile
import zipfile
from pathlib import Path

import pytest

import make_manuals
import make_release
import proved_objects
from support import LOGIC, SUBCOMMANDS, TOP, VERSION, compiled, missing, program, run, text_of

OPTIONS = re.findall(r'^    pub const \w+: &str = "(.*)";$', text_of("crates/rocktray/src/options.rt"), re.M)
PACKAGES = ("librocktray-dev", "librocktray0", "python3-rocktray", "rocktray")
TREE = f"rocktray-{VERSION}-linux-x86_64"


def words_of_header():
    """The declarations of the header of the C library."""
    return re.findall(r"^uint32_t rocktray_\w+\([^;]*\)(?=;)", text_of("c/rocktray.h"), re.M)


@pytest.mark.quick
def test_one_version():
    """The version is written in crates/mail_version alone, its number follows from it, and CHANGELOG.md has it last."""
    tracked = run(["git", "ls-files", "-z", "--", ".", ":!CHANGELOG.md"], cwd=TOP).stdout.decode().split("\0")
    paths = [path for path in tracked if path and (TOP / path).is_file()]
    having = [path for path in paths if re.search(rf"(?<![\w.]){re.escape(VERSION)}(?![\w.])", (TOP / path).read_text(errors="replace"))]
    assert having == ["crates/mail_version/src/lib.rt"]
    major, minor, patch = map(int, VERSION.split("."))
    number = 10000 * major + 100 * minor + patch
    assert f"pub const VERSION_NUMBER: u32 = {number};" in text_of("crates/mail_version/src/lib.rt")
    assert f"ensures {{ result ≡ {number} }}" in text_of("crates/mail_c/src/lib.rt")
    headings = re.findall(r"^## (.*)$", text_of("CHANGELOG.md"), re.M)
    assert headings[0] == "Unreleased" or headings[0].startswith(f"{VERSION}, ")


@pytest.mark.quick
def test_logic():
    """The logic that --version prints is that of the README and of the kit."""
    assert f"`logic {LOGIC}`" in text_of("README.md")
    assert run(["rt", "version"]).stdout.decode().split()[-1] == LOGIC


COMMIT = "0123456789abcdef" * 2 + "01234567"


@pytest.mark.quick
@pytest.mark.parametrize("count", [0, 1, 2])
def test_commit(count, tmp_path):
    """The commit is written over the text of the source, which has its length and is once in an object."""
    text = make_release.constant(TOP, "crates/rocktray/src/release.rt", "COMMIT")
    path = tmp_path / "rocktray.o"
    path.write_bytes(b"front" + text.encode() * count)
    if count == 1:
        assert make_release.write_commit(path, text, COMMIT) == 5
        assert path.read_bytes() == b"front" + COMMIT.encode()
    else:
        with pytest.raises(make_release.Failed, match="once"):
            make_release.write_commit(path, text, COMMIT)


def test_commit_of_the_program(tmp_path):
    """The built program prints the commit that is written into it, and is otherwise as it was."""
    text = make_release.constant(TOP, "crates/rocktray/src/release.rt", "COMMIT")
    path = Path(shutil.copy(program("rocktray"), tmp_path))
    before = run([path, "--version"]).stdout.decode()
    make_release.write_commit(path, text, COMMIT)
    assert run([path, "--version"]).stdout.decode() == before.replace(text, COMMIT) != before


def compiled_in(top, text, names=tuple(proved_objects.COMPILED)):
    """Writes what looks like what the gate compiles of these crates, in the place of what an earlier run compiled."""
    for name, file in proved_objects.COMPILED.items():
        path = top / "crates" / name / "out" / file
        path.parent.mkdir(parents=True, exist_ok=True)
        path.unlink(missing_ok=True)
        if name in names:
            path.write_text(f"{text} {name}")


OLD, NEW = ({name: f"{kind} {name}" for name in proved_objects.COMPILED} for kind in ("old", "new"))


@pytest.mark.quick
def test_kept_objects(tmp_path):
    """What the gate compiled is found for the sources that it was made of, and for no others."""
    names = sorted(proved_objects.COMPILED)
    assert proved_objects.kept_objects(tmp_path, OLD) == {}
    compiled_in(tmp_path, "one")
    assert proved_objects.keep(tmp_path, OLD, OLD) == names
    compiled_in(tmp_path, "changed since")
    found = proved_objects.kept_objects(tmp_path, OLD)
    assert {name: path.read_text() for name, path in found.items()} == {name: f"one {name}" for name in names}
    assert proved_objects.kept_objects(tmp_path, NEW) == {}
    assert sorted(proved_objects.kept_objects(tmp_path, NEW | {"mail_c": OLD["mail_c"]})) == ["mail_c"]
    # a run that compiles the archive alone, since the kit keeps the programs
    compiled_in(tmp_path, "two", ["mail_c"])
    assert proved_objects.keep(tmp_path, OLD, OLD) == names
    found = proved_objects.kept_objects(tmp_path, OLD)
    assert [found[name].read_text() for name in names] == ["two mail_c", "one mail_show", "one rocktray"]
    # a byte that changed, and sources that changed after the run or while it ran
    found["rocktray"].write_text("One rocktray")
    assert sorted(proved_objects.kept_objects(tmp_path, OLD)) == ["mail_c", "mail_show"]
    assert proved_objects.keep(tmp_path, NEW, NEW) == ["mail_c"]
    compiled_in(tmp_path, "three")
    assert proved_objects.keep(tmp_path, OLD, NEW) == ["mail_c"]
    assert proved_objects.keep(tmp_path, OLD, {}) == []
    (tmp_path / "out" / "proved" / "made.json").write_text("[")
    assert proved_objects.kept_objects(tmp_path, NEW) == {}


@pytest.mark.quick
@pytest.mark.parametrize("kept", [[], ["mail_c"], list(proved_objects.COMPILED)], ids=len)
def test_objects_of_a_release(kept, tmp_path, monkeypatch):
    """A release takes what the gate compiled of its sources, and proves them if anything is missing."""
    gate, source, objects, proved = tmp_path / "gate", tmp_path / "source", tmp_path / "objects", []
    compiled_in(gate, "gate", kept)
    compiled_in(source, "release")
    proved_objects.keep(gate, OLD, OLD)
    monkeypatch.setattr(make_release, "TOP", gate)
    monkeypatch.setattr(make_release, "stamps", lambda top: OLD)
    monkeypatch.setattr(make_release, "prove", proved.append)
    monkeypatch.setattr(make_release, "compile_crate", lambda top, name: top / "crates" / name / "out" / proved_objects.COMPILED[name])
    make_release.compile_all(source, objects)
    wanted = {file: f"{'gate' if name in kept else 'release'} {name}" for name, file in proved_objects.COMPILED.items()}
    assert {path.name: path.read_text() for path in objects.iterdir()} == wanted
    assert proved == ([] if len(kept) == len(wanted) else [source])


def script(path, text):
    """Writes a program of the shell."""
    path.write_text(f"#!/bin/sh\n{text}")
    path.chmod(0o755)


def help_of(name):
    """A help as the program prints it, with all options of the table."""
    if not name:
        rows = "".join(f"  {it:<9}Does {it}\n" for it in (*SUBCOMMANDS, "help"))
        return f"Reads mails.\n\nUsage: rocktray <COMMAND>\n\nCommands:\n{rows}\nOptions:\n  -h, --help  Print help\n\nThe end.\n"
    rows = "".join(f"      --{option:<20}  Does {option}: it's [one]\n" for option in OPTIONS if option not in ("class", "mbox", "into", "inputs"))
    rows += "      --into <DIRECTORY>      Where\n      --mbox[=<FORMAT>]       A mailbox [possible values: o, rd, cl]\n"
    rows += "      --class <CLASS>         Which, of these\n                              [possible values: structure, bytes, note]\n"
    return f"Does {name}\n\nUsage: rocktray {name} [OPTIONS] [INPUT]...\n\nOptions:\n{rows}  -h, --help              Print help\n\nThe end.\n"


@pytest.fixture(scope="module")
def prefix(tmp_path_factory):
    """Programs and libraries that look like ours."""
    made = tmp_path_factory.mktemp("prefix")
    for name in ("bin", "include", "lib/pkgconfig"):
        (made / name).mkdir(parents=True)
    arms = "".join(f"'{name}{' ' * bool(name)}--help') cat << 'EOF'\n{help_of(name)}EOF\n;;\n" for name in ("", *SUBCOMMANDS))
    script(made / "bin" / "rocktray", f'case "$*" in\n{arms}*) exit 2 ;;\nesac\n')
    script(made / "bin" / "mail_show", "echo 'Shows a mail: its parts.'\n")
    number = re.search(r"VERSION_NUMBER: u32 = (\d+)", text_of("crates/mail_version/src/lib.rt"))[1]
    header = text_of("c/rocktray.h").replace("@VERSION@", VERSION).replace("@VERSION_NUMBER@", number)
    (made / "include" / "rocktray.h").write_text(header)
    source = made / "rocktray.c"
    bodies = "\n".join(f"{call} {{ return malloc(1) == 0; }}" for call in words_of_header())
    source.write_text(f'#include <stdlib.h>\n#include "rocktray.h"\n{bodies}\n')
    flags = ["-fPIC", f"-I{made}/include"]
    compiled(source, made / "lib" / "librocktray.so.0", *flags, "-shared", "-Wl,-soname,librocktray.so.0")
    compiled(source, made / "rocktray.o", *flags, "-c")
    run(["ar", "rcsD", made / "lib" / "librocktray.a", made / "rocktray.o"], check=True)
    (made / "lib" / "pkgconfig" / "rocktray.pc").write_text(f"prefix=/usr\nlibdir=/usr/lib\nVersion: {VERSION}\n")
    return made


def released(prefix, directory, top=TOP):
    """The directory of a release that packs a prefix."""
    for need in ("help2man", "dh", "dh_python3"):
        if not shutil.which(need):
            missing(f"there is no {need}: run tools/install_needs.sh")
    ended = run([top / "tools" / "make_release.py", directory, "--built", prefix], timeout=300)
    assert ended.returncode == 0, ended.stderr.decode()
    return directory


@pytest.fixture(scope="module")
def release(prefix, tmp_path_factory):
    """A release of what looks like ours."""
    return released(prefix, tmp_path_factory.mktemp("release"))


def digest(path):
    """The SHA-256 of a file."""
    return run(["sha256sum", path]).stdout.decode().split()[0]


@pytest.mark.quick
@pytest.mark.xdist_group("release")
def test_build(release):
    """BUILD.json names the commit, the kit and each file with its SHA-256; the archive has the contents that it names."""
    said = json.loads((release / "BUILD.json").read_text())
    assert set(said) == {"version", "commit", "date", "kit", "logic", "processor", "system", "least_glibc", "linked_against",
                         "proved_objects", "tools", "spdx", "files", "contents"}
    assert said["version"] == VERSION and said["logic"] == LOGIC and said["kit"].endswith(LOGIC)
    assert said["commit"] == run(["git", "rev-parse", "HEAD"], cwd=TOP).stdout.decode().strip()
    assert said["processor"] == "x86-64-v2" and re.fullmatch(r"2\.\d+(\.\d+)?", said["least_glibc"])
    assert said["files"] == {path.name: digest(path) for path in release.iterdir() if path.name != "BUILD.json"}
    with tarfile.open(release / f"{TREE}.tar.xz") as archive:
        members = archive.getmembers()
        archive.extractall(release.parent / "tree", filter="fully_trusted") if hasattr(tarfile, "fully_trusted_filter") \
            else archive.extractall(release.parent / "tree")
    assert {(it.uid, it.gid, it.uname) for it in members} == {(0, 0, "")}
    files = {it.name.removeprefix(f"{TREE}/"): digest(release.parent / "tree" / it.name) for it in members if it.isfile()}
    assert files == said["contents"]
    wanted = {"bin/rocktray", "bin/mail_show", "lib/librocktray.so.0", "lib/librocktray.a", "lib/pkgconfig/rocktray.pc",
              "include/rocktray.h", "share/man/man1/rocktray.1", "share/man/man1/mail_show.1", "share/man/man3/librocktray.3",
              "share/rocktray/mail_json.schema.json", "share/doc/rocktray/LICENSE", "share/doc/rocktray/README.md",
              "share/doc/rocktray/API.md"}
    assert wanted | {f"share/man/man1/rocktray-{name}.1" for name in SUBCOMMANDS} <= set(files)


@pytest.mark.quick
@pytest.mark.xdist_group("release")
def test_list_of_what_is_inside(release):
    """Each crate of the kit that crates.txt names below a program is in the list, with a licence where the kit has one."""
    packages = json.loads((release / f"rocktray-{VERSION}.spdx.json").read_text())["packages"]
    licences = {it["name"]: it["licenseDeclared"] for it in packages}
    assert licences["rocktray"] == "0BSD" and licences["clap"] == "MIT OR Apache-2.0" and licences["strsim"] == "MIT"
    assert {"bstr", "base64", "sha2", "hex", "json", "std"} <= set(licences) and "anyhow" not in licences
    assert licences["bstr"] == "(MIT OR Apache-2.0) AND Unicode-3.0"


@pytest.mark.quick
@pytest.mark.xdist_group("release")
@pytest.mark.parametrize("name", PACKAGES)
def test_package(release, name):
    """A Debian package has the version, and what its name says."""
    path = release / f"{name}_{VERSION}_amd64.deb"
    fields = run(["dpkg-deb", "-f", path, "Package", "Version", "Maintainer"]).stdout.decode()
    assert fields.startswith(f"Package: {name}\nVersion: {VERSION}\n")
    listed = run(["dpkg-deb", "-c", path]).stdout.decode()
    files = {line.split()[5].removeprefix(".") for line in listed.splitlines()}
    assert {line.split()[1] for line in listed.splitlines()} == {"root/root"}
    wanted = {
        "rocktray": ["/usr/bin/rocktray", "/usr/bin/mail_show", "/usr/share/man/man1/rocktray-json.1.gz",
                     "/usr/share/bash-completion/completions/rocktray", "/usr/share/zsh/vendor-completions/_rocktray",
                     "/usr/share/fish/vendor_completions.d/rocktray.fish", "/usr/share/rocktray/mail_json.schema.json"],
        "librocktray0": ["/usr/lib/x86_64-linux-gnu/librocktray.so.0"],
        "librocktray-dev": ["/usr/include/rocktray.h", "/usr/lib/x86_64-linux-gnu/librocktray.a", "/usr/share/man/man3/librocktray.3.gz",
                            "/usr/lib/x86_64-linux-gnu/librocktray.so", "/usr/lib/x86_64-linux-gnu/pkgconfig/rocktray.pc"],
        "python3-rocktray": ["/usr/lib/python3/dist-packages/rocktray/__init__.py", "/usr/lib/python3/dist-packages/rocktray/py.typed"],
    }
    assert set(wanted[name]) <= files and f"/usr/share/doc/{name}/copyright" in files


@pytest.mark.quick
@pytest.mark.xdist_group("release")
def test_wheel(release):
    """The wheel has the version, and its tag names the system."""
    (path,) = release.glob("*.whl")
    assert re.fullmatch(rf"rocktray-{re.escape(VERSION)}-\S+-manylinux_2_\d+_x86_64\.whl", path.name)
    with zipfile.ZipFile(path) as wheel:
        assert f"Version: {VERSION}\n" in wheel.read(f"rocktray-{VERSION}.dist-info/METADATA").decode().replace("\r", "")


@pytest.mark.xdist_group("release")
def test_again(prefix, release, tmp_path):
    """Another clone, at another path and time, gives the same bytes."""
    clone = tmp_path / "another" / "clone"
    run(["git", "clone", "-q", TOP, clone], check=True, timeout=120)
    run(["git", "checkout", "-q", run(["git", "rev-parse", "HEAD"], cwd=TOP).stdout.decode().strip()], cwd=clone, check=True)
    again = released(prefix, tmp_path / "again", clone)
    names = sorted(path.name for path in release.iterdir())
    assert names == sorted(path.name for path in again.iterdir())
    assert [name for name in names if digest(release / name) != digest(again / name)] == []


def completed(shell, line, directory):
    """What a shell offers at the end of a line, as the completions of the directory say."""
    share = directory / "share"
    if shell == "bash":
        ask = """. /usr/share/bash-completion/bash_completion; . "$1"; COMP_LINE=$2 COMP_POINT=${#2} COMP_TYPE=9
            read -ra COMP_WORDS <<< "${2//=/ = }"; [[ $2 != *' ' ]] || COMP_WORDS+=(''); COMP_CWORD=$((${#COMP_WORDS[@]} - 1))
            _rocktray 2> /dev/null; printf '%s\\n' "${COMPREPLY[@]}" """
        command = ["bash", "-c", ask, "-", share / "bash-completion" / "completions" / "rocktray", line]
    else:
        ask = "source $argv[1]; complete -C $argv[2]"
        command = ["fish", "-c", ask, share / "fish" / "vendor_completions.d" / "rocktray.fish", line]
    return {word.split("\t")[0].rstrip("=") for word in run(command, cwd=directory).stdout.decode().splitlines()}


def options_in(text):
    """The long options that a text names."""
    return set(re.findall(r"--([a-z][a-z-]*)", re.sub(r"\\(f.|,|/)?", "", text)))


def check_manuals(directory, binaries):
    """Each option that the help of a command names is on its page and in the completions of the shells."""
    (directory / "share").mkdir(parents=True, exist_ok=True)
    commands = make_manuals.read_commands(binaries / "rocktray")
    bash, zsh, fish = (next((directory / "share").rglob(name)).read_text() for name in ("completions/rocktray", "_rocktray", "rocktray.fish"))
    for name, command in commands.items():
        named = {it[2:] for option in command.options for it in option.names if it.startswith("--")}
        page = directory / "share" / "man" / "man1" / f"rocktray{'-' * bool(name)}{name}.1"
        assert named and named <= options_in(page.read_text())
        assert named <= options_in(re.search(rf"^        {name or chr(39) * 2}\) (.*)$", bash, re.M)[1])
        assert named <= {it for line in fish.splitlines() if name in line for it in re.findall(r"-l ([\w-]+)", line)}
        assert named <= options_in(zsh)
    assert set(commands) == {"", *SUBCOMMANDS}
    return {it[2:] for command in commands.values() for option in command.options for it in option.names if it.startswith("--")}


@pytest.fixture(scope="module")
def manuals(prefix, tmp_path_factory):
    """The pages and completions of what looks like ours."""
    if not shutil.which("help2man"):
        missing("there is no help2man: run tools/install_needs.sh")
    directory = tmp_path_factory.mktemp("manuals")
    make_manuals.make(prefix / "bin", prefix / "include" / "rocktray.h", directory, VERSION, 0)
    return directory


@pytest.mark.quick
@pytest.mark.xdist_group("release")
def test_manuals(prefix, manuals):
    """All options of the table are on the pages and in the completions, and each call of the header on its page."""
    assert check_manuals(manuals, prefix / "bin") == {*OPTIONS, "help"} - {"inputs"}
    page = (manuals / "share" / "man" / "man3" / "librocktray.3").read_text()
    calls = re.findall(r"\b(rocktray_\w+)\(", "".join(words_of_header()))
    assert len(calls) >= 11 and all(f".B {call}\n" in page and (manuals / "share" / "man" / "man3" / f"{call}.3").is_file() for call in calls)
    assert all(code in page for code in re.findall(r"\bROCKTRAY_[A-Z]\w+(?= = )", text_of("c/rocktray.h")))


@pytest.mark.quick
@pytest.mark.xdist_group("release")
def test_pages_are_well_formed(manuals):
    """groff has nothing to warn of."""
    for path in sorted((manuals / "share" / "man").rglob("*.[13]")):
        ended = run(["man", "--warnings=all", "-E", "UTF-8", "-l", "-Tutf8", "-Z", path], cwd=manuals / "share" / "man",
                    env={**os.environ, "MANROFFSEQ": "", "MANWIDTH": "100", "LC_ALL": "C.UTF-8"})
        assert (ended.returncode, [line for line in ended.stderr.decode().splitlines() if "rocktray_" not in path.name]) == (0, []), path


def need_completions(shell):
    """Skips a test if the shell, or the completions that its system has, are missing."""
    if not shutil.which(shell) or (shell == "bash" and not os.path.exists("/usr/share/bash-completion/bash_completion")):
        pytest.skip(f"the completions of {shell} are tried where it is installed")


@pytest.mark.parametrize("shell", ["bash", "fish"])
def test_completions(manuals, shell):
    """What the shells offer for a command, an option and a value."""
    need_completions(shell)
    assert {*SUBCOMMANDS, "help"} <= completed(shell, "rocktray ", manuals)
    assert completed(shell, "rocktray json --no", manuals) == {"--no-text"}
    assert {"o", "rd", "cl"} <= {word.rpartition("=")[2] for word in completed(shell, "rocktray show --mbox=", manuals)}


@pytest.mark.parametrize("shell", ["bash", "fish"])
def test_completions_of_choices(manuals, prefix, shell):
    """Of an option whose value is one of a list, the values are offered after `=` and, if there must be one, a space."""
    need_completions(shell)
    commands = make_manuals.read_commands(prefix / "bin" / "rocktray")
    options = [(name, option) for name, command in commands.items() for option in command.options if option.choices]
    assert {option.names[0] for _, option in options} == {"--class", "--mbox"}
    for name, option in options:
        for sign in "=" if option.is_optional else "= ":
            line = f"rocktray {name} {option.names[0]}{sign}"
            for typed in ("", option.choices[0][:1]):
                wanted = {choice for choice in option.choices if choice.startswith(typed)}
                found = {word.rpartition("=")[2] for word in completed(shell, line + typed, manuals)}
                assert found == wanted, line + typed


def test_zsh_completions(manuals):
    """zsh reads its completions."""
    if not shutil.which("zsh"):
        pytest.skip("the completions of zsh are tried where it is installed")
    ended = run(["zsh", "-n", manuals / "share" / "zsh" / "site-functions" / "_rocktray"])
    assert (ended.returncode, ended.stderr) == (0, b"")


def test_manuals_of_the_program(tmp_path, prefix):
    """The pages and completions of the built programs have all options of the table."""
    binaries = tmp_path / "bin"
    binaries.mkdir()
    for name in ("rocktray", "mail_show"):
        shutil.copy(program(name), binaries)
    make_manuals.make(binaries, prefix / "include" / "rocktray.h", tmp_path, VERSION, 0)
    assert check_manuals(tmp_path, binaries) == {*OPTIONS, "help", "version"} - {"inputs"}


def test_example():
    """The first example of the README."""
    command, _, wanted = re.search(r"^```console\n\$ rocktray (.*?)^```$", text_of("README.md"), re.M | re.S)[1].partition("\n")
    assert run([program("rocktray"), *command.split()], cwd=TOP).stdout.decode() == wanted


@pytest.mark.quick
@pytest.mark.parametrize("where", ["PATH", "unpacked"])
@pytest.mark.parametrize("name", ["rocktray", "mail_show"])
def test_released_program(where, name, copy, tmp_path):
    """Without the kit the scripts of a checkout run a program of a release, on the PATH or unpacked beside them."""
    path = tmp_path / "path"
    binaries = path if where == "PATH" else copy / TREE / "bin"
    binaries.mkdir(parents=True)
    script(binaries / name, f"echo {name} of a release: $*\n")
    ended = run([f"./{name}", "samples/plain.eml"], cwd=copy, env={"PATH": f"{path}:/usr/bin:/bin"})
    assert (ended.returncode, ended.stdout.decode(), ended.stderr) == (0, f"{name} of a release: samples/plain.eml\n", b"")
    ended = run(["tools/program.sh", name], cwd=copy, env={"PATH": f"{path}:/usr/bin:/bin"})
    assert (ended.returncode, ended.stdout.decode()) == (0, f"{binaries / name}\n")


@pytest.mark.quick
def test_released_library(copy, tmp_path):
    """Without the kit the C library, which pip builds the module over, is that of a release unpacked in the checkout."""
    prefix = tmp_path / "prefix"
    names = ("lib/librocktray.so", "lib/librocktray.a", "lib/pkgconfig/rocktray.pc", "include/rocktray.h")
    for name in names:
        (copy / TREE / name).parent.mkdir(parents=True, exist_ok=True)
        (copy / TREE / name).write_text(name)
    ended = run(["tools/make_c_library.sh", prefix], cwd=copy, env={"PATH": "/usr/bin:/bin"})
    assert (ended.returncode, ended.stdout.decode(), ended.stderr) == (0, f"{prefix}/lib/librocktray.so\n", b"")
    assert [(prefix / name).read_text() for name in names] == list(names)


@pytest.mark.quick
@pytest.mark.parametrize("command", [["tools/program.sh", "rocktray"], ["tools/make_c_library.sh", "/tmp/rocktray"]])
def test_built_only(command, copy, tmp_path):
    """With BUILT=only nothing is proved: here rt is a script that would leave a file."""
    path = tmp_path / "path"
    path.mkdir()
    script(path / "rt", f"touch {tmp_path}/called\nexit 1\n")
    ended = run(command, cwd=copy, env={"PATH": f"{path}:/usr/bin:/bin", "BUILT": "only"})
    assert ended.returncode == 1 and b" is not built\n" in ended.stderr and not (tmp_path / "called").exists()


@pytest.mark.quick
def test_script_on_the_path(copy):
    """A script of the checkout that is itself on the PATH is no program of a release."""
    ended = run(["rocktray", "json", "samples/plain.eml"], cwd=copy, env={"PATH": f"{copy}:/usr/bin:/bin"}, timeout=20)
    assert ended.returncode == 2 and b"the program is not built" in ended.stderr


@pytest.mark.quick
def test_changed_checkout(tmp_path):
    """A checkout with changes gives no release."""
    clone = tmp_path / "clone"
    run(["git", "clone", "-q", TOP, clone], check=True, timeout=120)
    with open(clone / "README.md", "a", encoding="utf-8") as file:
        file.write("\n")
    ended = subprocess.run([clone / "tools" / "make_release.py", tmp_path / "release"], capture_output=True, text=True, timeout=60, check=False)
    assert ended.returncode == 1 and "the checkout has changes" in ended.stderr and not (tmp_path / "release").exists()
