#!/usr/bin/env python3
"""Makes a release of the commit that is checked out, in a directory: docs/RELEASING.md says what is in it.

The same commit, kit and tools give the same bytes, wherever and whenever they are made. A checkout with changes is
refused. The files of the commit are written to another directory by `git archive`, built there and packed. What the
gate compiled of these files in this checkout (tools/proved_objects.py) is not compiled again; if anything is missing,
all is proved by `rt ci`, which takes what the kit keeps of earlier proofs of the same files on this machine, and the
rest is compiled. The commit is written into the object of the proved program. It needs the kit, and what
tools/install_needs.sh --release installs.
"""

import argparse
import functools
import json
import os
import re
import shutil
import subprocess
import sys
import tempfile
import zipfile
from concurrent.futures import ThreadPoolExecutor
from datetime import datetime, timezone
from pathlib import Path

import make_manuals
from proved_objects import COMPILED, digest, kept_objects, stamps
from try_edits import stamps_in

TOP = Path(__file__).resolve().parent.parent
PROGRAMS = ("rocktray", "mail_show")
PROCESSOR = "x86-64-v2"
# the system whose C library the programs are linked against, and what is taken of it
OLDEST = "bullseye"
OLD_PACKAGES = ("libc6", "libc6-dev", "libgcc-s1")
OLD_FILES = ("Scrt1.o", "crti.o", "crtn.o", "libc_nonshared.a", "libc.so.6", "libm.so.6", "ld-linux-x86-64.so.2", "libgcc_s.so.1")
MOST_GLIBC = (2, 31)
MIRROR = os.environ.get("MIRROR", "http://deb.debian.org/debian")
# what the programs and libraries may need at run time
NEEDED = {"libc.so.6", "ld-linux-x86-64.so.2"}
DOCUMENTS = ("README.md", "CHANGELOG.md", "SECURITY.md", "LICENSE", "docs/C.md", "docs/SCRIPTS.md", "examples/attachments.c")
# the entries of BUILD.json for programs and libraries that are only packed
NOT_BUILT = {"proved_objects": {}, "linked_against": "nothing: packed as it was"}
LICENCES = {"LICENSE-APACHE": "Apache-2.0", "LICENSE-MIT": "MIT", "LICENSE-UNICODE": "Unicode-3.0", "LICENSE-ZMIJ": "MIT"}


class Failed(Exception):
    """Why there is no release."""


def run(*command, **options):
    """What a command writes to standard output."""
    command = [os.fspath(argument) for argument in command]
    ended = subprocess.run(command, stdout=subprocess.PIPE, check=False, text=True, **options)
    if ended.returncode != 0:
        raise Failed(f"{' '.join(command)} ended with status {ended.returncode}\n{ended.stdout[-5000:]}")
    return ended.stdout


def constant(source, path, name):
    """A constant of a source in Rattle."""
    return re.search(rf'^(?:pub )?const {name}: &str = "(.*)";$', (source / path).read_text(), re.M)[1]


@functools.cache
def kit():
    """The directory of the kit."""
    return Path(run("rt", "doc").strip()).parent


def check_checkout():
    """Refuses a checkout with changes, and a kit of another logic."""
    if run("git", "status", "--porcelain", cwd=TOP):
        raise Failed("the checkout has changes: commit them first")
    logic = constant(TOP, "crates/rocktray/src/release.rt", "LOGIC")
    if run("rt", "version").split()[-1] != logic:
        raise Failed(f"the kit has not the logic {logic}")


def old_toolchain(work):
    """Makes the kit's toolchain with the C library of an older system, and returns it with the version of that library."""
    scratch, keys = work / "old", "/usr/share/keyrings/debian-archive-keyring.gpg"
    for name in ("state/lists/partial", "cache/archives/partial", "lib"):
        (scratch / name).mkdir(parents=True)
    (scratch / "list").write_text(f"deb [signed-by={keys}] {MIRROR} {OLDEST} main\n")
    options = {"Dir::Etc::sourcelist": scratch / "list", "Dir::Etc::sourceparts": "-", "Dir::State": scratch / "state",
               "Dir::State::status": "/dev/null", "Dir::Cache": scratch / "cache", "APT::Sandbox::User": "root"}
    apt = ["apt-get", "-qq", *(argument for name, value in options.items() for argument in ("-o", f"{name}={value}"))]
    run(*apt, "update", cwd=scratch)
    run(*apt, "download", *OLD_PACKAGES, cwd=scratch)
    for path in scratch.glob("*.deb"):
        run("dpkg-deb", "-x", path, scratch / "root")
    shutil.copytree(kit() / "toolchain" / "lib", scratch / "lib", dirs_exist_ok=True)
    for name in OLD_FILES:
        shutil.copy(next(path for path in (scratch / "root").rglob(name) if path.parent.name != "lib64"), scratch / "lib" / name)
    (scratch / "bin").symlink_to(kit() / "toolchain" / "bin")
    (package,) = scratch.glob("libc6_*.deb")
    return scratch, f"libc6 {run('dpkg-deb', '-f', package, 'Version').strip()} of {OLDEST}"


def prove(source):
    """Proves all crates, from the files of a commit, and has the kit recognize the libraries that `rt ci` leaves."""
    run("rt", "ci", cwd=source, stderr=subprocess.STDOUT)
    for name, text in stamps_in(source).items():
        made = source / "crates" / name / "out" / "rlib"
        if made.is_dir():
            (made / "stamp").write_text(text, encoding="utf-8")


def compile_crate(source, name):
    """Has the kit compile a crate over the proved libraries, and returns where that is. It works in a copy, since `rt` builds
    one crate of a checkout at a time."""
    copied = source.with_name(name)
    shutil.copytree(source, copied, copy_function=os.link)
    command = ("lib",) if name == "mail_c" else ("run", "--", "--version")
    run("rt", *command, cwd=copied / "crates" / name, stderr=subprocess.STDOUT)
    return copied / "crates" / name / "out" / COMPILED[name]


def write_commit(path, text, commit):
    """Writes a commit over the text of the same length that occurs once in an object, and returns its offset."""
    data, text, commit = path.read_bytes(), text.encode(), commit.encode()
    if data.count(text) != 1 or len(text) != len(commit):
        raise Failed(f"{path.name} has not the text {text.decode()} once, or it has not the length of {commit.decode()}")
    path.write_bytes(data.replace(text, commit))
    return data.index(text)


def link(source, objects, prefix, work):
    """Links the programs against an older C library, whose version is returned."""
    toolchain, version = old_toolchain(work)
    run(os.environ.get("CC", "cc"), "-O2", "-fPIC", "-c", "-o", toolchain / "cpuid.o", source / "packaging" / "cpuid.c")
    command = [kit() / "bin" / "rattle-link", "--target", "x86_64-unknown-linux-gnu", "--toolchain", toolchain]
    for name in PROGRAMS:
        needed = [objects / f"{name}.o", toolchain / "cpuid.o", kit() / "c" / "libos_c.a", kit() / "c" / "liblibc_c.a"]
        run(*command, "-o", prefix / "bin" / name, *needed, stderr=subprocess.DEVNULL)
    return version


def compile_all(source, objects):
    """Has the objects of all crates of a release: those that the gate compiled of these sources, and all others."""
    kept = kept_objects(TOP, stamps(source))
    for path in kept.values():
        copy(path, objects)
    lacking = [name for name in COMPILED if name not in kept]
    if not lacking:
        return
    print(f"make_release.py: the gate has not compiled {', '.join(lacking)} of this commit here: proving", file=sys.stderr)
    prove(source)
    with ThreadPoolExecutor() as pool:
        for path in pool.map(functools.partial(compile_crate, source), lacking):
            copy(path, objects)


def build(source, prefix, work, commit):
    """Proves and builds the programs and the C library into a prefix, and returns what BUILD.json says of it."""
    objects = work / "objects"
    compile_all(source, objects)
    copy(objects / COMPILED["mail_c"], source / "crates" / "mail_c" / "out")
    run(source / "tools" / "make_c_library.sh", prefix, env={**os.environ, "BUILT": "only"})
    (prefix / "bin").mkdir()
    said = {path.name: {"sha256": digest(path)} for path in sorted(objects.iterdir())}
    text = constant(source, "crates/rocktray/src/release.rt", "COMMIT")
    said["rocktray.o"]["commit_at"] = write_commit(objects / "rocktray.o", text, commit)
    return {"proved_objects": said, "linked_against": link(source, objects, prefix, work)}


def copy(path, directory):
    """Copies a file or a directory into a directory, which is made."""
    directory.mkdir(parents=True, exist_ok=True)
    if path.is_dir():
        shutil.copytree(path, directory / path.name)
    else:
        shutil.copyfile(path, directory / path.name)


def stage(source, prefix, tree, release):
    """Fills the directory that the archive for all systems contains."""
    for name in PROGRAMS:
        copy(prefix / "bin" / name, tree / "bin")
    for name in ("librocktray.so.0", "librocktray.a"):
        copy(prefix / "lib" / name, tree / "lib")
    (tree / "lib" / "librocktray.so").symlink_to("librocktray.so.0")
    copy(prefix / "lib" / "pkgconfig" / "rocktray.pc", tree / "lib" / "pkgconfig")
    copy(prefix / "include" / "rocktray.h", tree / "include")
    documents = tree / "share" / "doc" / "rocktray"
    for name in DOCUMENTS:
        copy(source / name, documents)
    run(source / "tools" / "make_api.py", documents / "API.md")
    copy(source / "samples", documents)
    copy(source / "docs" / "mail_json.schema.json", tree / "share" / "rocktray")
    (documents / "copyright").write_text(copyright_text(source, release["inside"]), encoding="utf-8")
    for path in (tree / "bin").iterdir():
        path.chmod(0o755)
    strip(tree)
    make_manuals.make(tree / "bin", tree / "include" / "rocktray.h", tree, release["version"], release["epoch"])
    for path in [tree, *tree.rglob("*")]:
        if not path.is_symlink():
            path.chmod(0o755 if path.is_dir() or path.parent.name == "bin" else 0o644)
            os.utime(path, (release["epoch"], release["epoch"]))


def strip(tree):
    """Takes the symbols of the build out of programs and libraries."""
    for path in [*(tree / "bin").iterdir(), tree / "lib" / "librocktray.so.0"]:
        if is_elf(path):
            run("strip", "--strip-unneeded", "--remove-section=.comment", path)
    run("strip", "--strip-debug", "--remove-section=.comment", "--enable-deterministic-archives", tree / "lib" / "librocktray.a")


def is_elf(path):
    """Whether a file is a program or a shared library."""
    return path.is_file() and not path.is_symlink() and path.read_bytes()[:4] == b"\x7fELF"


def least_glibc(tree):
    """The least version of the C library that has all that is needed at run time, which must be nothing else."""
    newest = [2, 2]
    for path in filter(is_elf, tree.rglob("*")):
        said = run("objdump", "-p", path)
        beyond = set(re.findall(r"NEEDED +(\S+)", said)) - NEEDED
        if beyond:
            raise Failed(f"{path.name} needs {', '.join(sorted(beyond))}")
        for version in re.findall(r"\bGLIBC_([\d.]+)$", said, re.M):
            newest = max(newest, [int(number) for number in version.split(".")])
    if tuple(newest) > MOST_GLIBC:
        raise Failed(f"glibc {'.'.join(map(str, newest))} is needed")
    return ".".join(map(str, newest))


def check_tag(name, least):
    """Refuses a wheel that needs a newer C library than its tag says."""
    if [int(number) for number in least.split(".")] > [int(number) for number in re.search(r"manylinux_(\d+)_(\d+)_", name).groups()]:
        raise Failed(f"{name} needs glibc {least}")


@functools.cache
def lines_of_crates(source):
    """What each crate of the repository depends on."""
    lines = [line.partition(":") for line in (source / "crates.txt").read_text().splitlines() if line and line[0] != "#"]
    return {name.split()[0]: below.split() for name, _, below in lines}


def crates_inside(source, roots=tuple(COMPILED)):
    """The crates of the kit that are in the programs and the library."""
    ours, inside, left = lines_of_crates(source), set(), list(roots)
    while left:
        name = left.pop()
        if name in ours:
            left += ours[name]
        elif name not in inside:
            inside.add(name)
            form = kit() / "rlibs" / f"{name}.rlib" / "format"
            left += re.findall(r"^dep (\S+)$", form.read_text(errors="replace"), re.M)
        if name in roots:
            left.append("std")
    return sorted(inside)


def licences(name):
    """The files with the licences of a crate of the kit."""
    return sorted((kit() / "rattle" / name).glob("LICENSE*"))


def expression(name):
    """The licence of a crate of the kit, as an expression of SPDX."""
    found = set()
    for path in licences(name):
        text = path.read_text(errors="replace")
        by_text = "Apache-2.0" if "Apache License" in text[:200] else "MIT" if "Permission is hereby granted" in text else "NOASSERTION"
        found.add(LICENCES.get(path.name, by_text))
    both = "MIT OR Apache-2.0" if {"MIT", "Apache-2.0"} <= found else None
    rest = sorted(found - {"MIT", "Apache-2.0"} if both else found)
    if both and rest:
        return " AND ".join([f"({both})", *rest])
    return both or " AND ".join(rest) or "NOASSERTION"


def copyright_text(source, inside):
    """The file copyright: our licence, and those of the crates of the kit that are inside."""
    texts, lines = {}, []
    for name in inside:
        lines.append(f"  {name}: {expression(name)}")
        for path in licences(name):
            texts.setdefault(path.read_text(errors="replace").strip(), []).append(f"{name}/{path.name}")
    head = "Rocktray reads mail. Its licence:\n\n" + (source / "LICENSE").read_text(encoding="utf-8")
    head += "\nThe programs and libraries contain these crates of the Rattle kit. NOASSERTION means that the kit names no licence\n"
    head += "of the crate. On Debian the text of Apache-2.0 is /usr/share/common-licenses/Apache-2.0.\n\n"
    texts = {text: names for text, names in texts.items() if "Apache License" not in text[:200]}
    return head + "\n".join(lines) + "\n" + "".join(f"\n{'=' * 80}\n{', '.join(names)}:\n\n{text}\n" for text, names in texts.items())


def spdx(release):
    """What is inside, as a document of SPDX 2.3."""
    ours = {"name": "rocktray", "versionInfo": release["version"], "licenseDeclared": "0BSD", "sourceInfo": f"git commit {release['commit']}"}
    theirs = [{"name": name, "versionInfo": release["kit"], "licenseDeclared": expression(name)} for name in release["inside"]]
    packages = [{"SPDXID": f"SPDXRef-{it['name'].replace('_', '-')}", "downloadLocation": "NOASSERTION", "filesAnalyzed": False,
                 "licenseConcluded": "NOASSERTION", "copyrightText": "NOASSERTION", **it} for it in (ours, *theirs)]
    related = [("SPDXRef-DOCUMENT", "DESCRIBES", "SPDXRef-rocktray")]
    related += [("SPDXRef-rocktray", "STATIC_LINK", it["SPDXID"]) for it in packages[1:]]
    return {
        "spdxVersion": "SPDX-2.3", "dataLicense": "CC0-1.0", "SPDXID": "SPDXRef-DOCUMENT", "name": f"rocktray-{release['version']}",
        "documentNamespace": f"https://spdx.org/spdxdocs/rocktray-{release['version']}-{release['commit']}",
        "creationInfo": {"created": release["date"], "creators": ["Tool: tools/make_release.py"]}, "packages": packages,
        "relationships": [{"spdxElementId": a, "relationshipType": kind, "relatedSpdxElement": b} for a, kind, b in related],
    }


def pack(tree, target, epoch):
    """Packs a directory into a tar.xz."""
    command = ["tar", "--sort=name", f"--mtime=@{epoch}", "--owner=0", "--group=0", "--numeric-owner", "--format=ustar"]
    with open(target, "wb") as file, subprocess.Popen([*command, "-C", tree.parent, "-c", tree.name], stdout=subprocess.PIPE) as tar:
        subprocess.run(["xz", "-9", "--threads=1"], stdin=tar.stdout, stdout=file, check=True)
    if tar.returncode != 0:
        raise Failed("tar failed")


def make_wheel(source, prefix, tree, directory):
    """Makes the wheel over the library as it was stripped, and returns its path."""
    for name in ("librocktray.so.0", "librocktray.a"):
        shutil.copyfile(tree / "lib" / name, prefix / "lib" / name)
    environment = {**os.environ, "ROCKTRAY_PREFIX": str(prefix)}
    return Path(run(source / "tools" / "make_wheel.py", directory, env=environment).split()[-1])


def make_packages(source, tree, wheel, work, release):
    """Makes the Debian packages over what the archive and the wheel contain, and returns their paths."""
    package = work / "packages" / "rocktray"
    shutil.copytree(source / "packaging" / "debian", package / "debian")
    shutil.copytree(tree, package / "tree", symlinks=True)
    with zipfile.ZipFile(wheel) as file:
        file.extractall(package / "wheel")
    check_tag(wheel.name, least_glibc(package / "wheel"))
    for path in (package / "wheel").glob("*.dist-info/RECORD"):
        path.unlink()
    for path in (package / "wheel").rglob("*.so"):
        path.chmod(0o644)
    copy(tree / "share" / "doc" / "rocktray" / "copyright", package / "debian")
    maintainer = re.search(r"^Maintainer: (.*)$", (package / "debian" / "control").read_text(), re.M)[1]
    when = datetime.fromtimestamp(release["epoch"], timezone.utc).strftime("%a, %d %b %Y %H:%M:%S +0000")
    entry = f"rocktray ({release['version']}) unstable; urgency=medium\n\n  * Release of the commit\n    {release['commit']}.\n"
    (package / "debian" / "changelog").write_text(f"{entry}\n -- {maintainer}  {when}\n", encoding="utf-8")
    run("dpkg-buildpackage", "-b", "-us", "-uc", "-d", cwd=package, stderr=subprocess.STDOUT)
    return sorted(package.parent.glob("*.deb"))


def describe(release, tree, directory, names):
    """Writes BUILD.json and the list of what is inside."""
    listed = directory / f"rocktray-{release['version']}.spdx.json"
    listed.write_text(json.dumps(spdx(release), indent=1) + "\n", encoding="utf-8")
    tools = {name: run(name, "--version").splitlines()[0] for name in (os.environ.get("CC", "cc"), "ld", "dpkg-deb", "xz", "help2man")}
    tools["packages"] = run("dpkg-query", "-W", "-f", "${Package} ${Version}; ", "debhelper", "dh-python", "python3-setuptools", "python3-wheel")
    contents = {str(path.relative_to(tree)): digest(path) for path in sorted(tree.rglob("*")) if path.is_file() and not path.is_symlink()}
    said = {name: release[name] for name in ("version", "commit", "date", "kit", "logic", "least_glibc", "linked_against", "proved_objects")}
    said |= {"processor": PROCESSOR, "system": "Linux", "tools": tools, "spdx": listed.name}
    said |= {"files": {name: digest(directory / name) for name in sorted([*names, listed.name])}, "contents": contents}
    (directory / "BUILD.json").write_text(json.dumps(said, indent=1) + "\n", encoding="utf-8")


def facts(source):
    """What a release says of itself."""
    epoch = int(run("git", "log", "-1", "--format=%ct", cwd=TOP))
    return {
        "version": constant(source, "crates/mail_version/src/lib.rt", "VERSION"), "epoch": epoch,
        "commit": run("git", "rev-parse", "HEAD", cwd=TOP).strip(),
        "date": datetime.fromtimestamp(epoch, timezone.utc).strftime("%Y-%m-%dT%H:%M:%SZ"),
        "kit": run("rt", "version").strip(), "logic": constant(source, "crates/rocktray/src/release.rt", "LOGIC"),
        "inside": crates_inside(source),
    }


def make(directory, work, built):
    """Makes the release, in a directory of its own."""
    source, prefix = work / "source", built or work / "prefix"
    source.mkdir()
    archive = subprocess.run(["git", "-c", "tar.umask=0022", "archive", "HEAD"], cwd=TOP, stdout=subprocess.PIPE, check=True).stdout
    subprocess.run(["tar", "-x", "-C", source], input=archive, check=True)
    release = facts(source)
    os.environ.update(SOURCE_DATE_EPOCH=str(release["epoch"]), TZ="UTC", LC_ALL="C.UTF-8", PYTHONHASHSEED="0", PYTHONDONTWRITEBYTECODE="1")
    release |= NOT_BUILT if built else build(source, prefix, work, release["commit"])
    name = f"rocktray-{release['version']}-linux-x86_64"
    tree = work / name
    tree.mkdir()
    stage(source, prefix, tree, release)
    release["least_glibc"] = least_glibc(tree)
    directory.mkdir(exist_ok=True)
    pack(tree, directory / f"{name}.tar.xz", release["epoch"])
    wheel = make_wheel(source, prefix, tree, directory)
    packages = make_packages(source, tree, wheel, work, release)
    for path in packages:
        shutil.copyfile(path, directory / path.name)
    describe(release, tree, directory, [f"{name}.tar.xz", wheel.name, *(path.name for path in packages)])


def main():
    parser = argparse.ArgumentParser(description=__doc__, formatter_class=argparse.RawDescriptionHelpFormatter)
    parser.add_argument("directory", metavar="DIRECTORY", type=Path, help="where the release goes; it is made if it is missing")
    parser.add_argument("--built", metavar="PREFIX", type=Path, help="pack the programs and libraries of this prefix, and build none")
    given = parser.parse_args()
    if not given.directory.resolve().parent.is_dir():
        parser.error(f"there is no directory for {given.directory}")
    os.umask(0o022)
    try:
        if shutil.which("rt") is None:
            print("make_release.py: this needs the Rattle kit, whose command is rt", file=sys.stderr)
            sys.exit(2)
        if not given.built:
            check_checkout()
        with tempfile.TemporaryDirectory(prefix="rocktray-release-") as work:
            make(given.directory.resolve(), Path(work), given.built and given.built.resolve())
    except Failed as why:
        sys.exit(f"make_release.py: {why}")
    print(given.directory)


if __name__ == "__main__":
    main()
