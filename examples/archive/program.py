"""Where rocktray is, which reads the mails."""

import glob
import os
import shutil
import sys

TOP = os.path.join(os.path.dirname(os.path.abspath(__file__)), "..", "..")


def rocktray(given):
    """Returns the program that is given, or else the one that is built in this checkout, that of a release that is unpacked
    in it, or an installed one. If there is none, the script ends with exit status 2."""
    here = [path for name in ("crates/rocktray/out", "rocktray-*/bin") for path in glob.glob(f"{TOP}/{name}/rocktray")]
    program = shutil.which(given) if given else next(iter(here), None) or shutil.which("rocktray")
    if not program:
        why = f"there is no program {given}" if given else "install rocktray (README.md), or build it by tools/program.sh rocktray"
        print(f"{os.path.basename(sys.argv[0])}: {why}", file=sys.stderr)
        sys.exit(2)
    return os.path.abspath(program)
