#!/usr/bin/env python3
"""Keeps what the gate compiled of a release, for tools/make_release.py: the objects of the programs and the archive of
the C library, in out/proved, with the stamps of the sources that they were made of and the SHA-256 of each.

Without an argument it prints the stamps, by which the kit recognizes sources. FILE has what it printed before the
proofs began: if the sources are still the same, what was compiled of them since then is kept. What an earlier run of
the gate kept stays if it was made of these sources: `rt ci` compiles no program that the kit keeps.
"""

import argparse
import hashlib
import json
import os
import shutil
import subprocess
import sys
from pathlib import Path

from try_edits import stamps_in

TOP = Path(__file__).resolve().parent.parent
# the object or archive that the kit makes of each crate in a release
COMPILED = {"rocktray": "rocktray.o", "mail_show": "mail_show.o", "mail_c": "libmail_c.a"}


def stamps(top):
    """The stamp of each crate of a release, with the version of the kit."""
    kit = subprocess.run(["rt", "version"], stdout=subprocess.PIPE, check=True, text=True).stdout.strip()
    return {name: f"{stamp} {kit}" for name, stamp in stamps_in(top).items() if name in COMPILED}


def digest(path):
    """The SHA-256 of a file."""
    return hashlib.sha256(path.read_bytes()).hexdigest()


def kept_objects(top, wanted):
    """What is kept in a checkout and was made of sources with these stamps: by the name of its crate, the path."""
    kept, found = top / "out" / "proved", {}
    try:
        said = json.loads((kept / "made.json").read_text(encoding="utf-8"))
    except (OSError, ValueError):
        return {}
    for name, (stamp, sha256) in said.items():
        path = kept / COMPILED.get(name, "")
        if stamp == wanted.get(name) and path.is_file() and digest(path) == sha256:
            found[name] = path
    return found


def keep(top, before, now):
    """Keeps what was compiled in a checkout since its stamps were these. Returns the names of all crates that are kept."""
    kept, made = top / "out" / "proved", {}
    earlier = kept_objects(top, now)
    kept.mkdir(parents=True, exist_ok=True)
    (kept / "made.json").unlink(missing_ok=True)
    for name, file in COMPILED.items():
        compiled = top / "crates" / name / "out" / file
        if compiled.is_file() and name in now and now[name] == before.get(name):
            shutil.copyfile(compiled, kept / file)
        elif name not in earlier:
            continue
        made[name] = [now[name], digest(kept / file)]
    (kept / "made.json").write_text(json.dumps(made, indent=1) + "\n", encoding="utf-8")
    return sorted(made)


def main():
    parser = argparse.ArgumentParser(description=__doc__, formatter_class=argparse.RawDescriptionHelpFormatter)
    parser.add_argument("file", metavar="FILE", nargs="?", type=Path, help="the stamps before the proofs")
    given = parser.parse_args()
    if given.file and not given.file.is_file():
        parser.error(f"there is no file {given.file}")
    if shutil.which("rt") is None:
        print("proved_objects.py: this needs the Rattle kit, whose command is rt", file=sys.stderr)
        sys.exit(2)
    now = stamps(os.fspath(TOP))
    if given.file is None:
        print(json.dumps(now))
    else:
        print("kept for a release:", *keep(TOP, json.loads(given.file.read_text(encoding="utf-8")), now))


if __name__ == "__main__":
    main()
