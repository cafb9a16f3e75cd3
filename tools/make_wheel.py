#!/usr/bin/python3
"""Makes the wheel of the Python module in a directory, and prints its path.

`pip install --no-index` of it works on any machine with this processor, Python 3.10 or later, and a C library (glibc)
that is new enough. It is built by setuptools and the C compiler, over the C library in the directory that
ROCKTRAY_PREFIX names, or over one that make_c_library.sh makes, which needs the kit.
"""
import argparse
import os
import subprocess
import sys
import tempfile
from pathlib import Path

TOP = Path(__file__).resolve().parent.parent
BUILD = "import sys; from setuptools import build_meta; print(build_meta.build_wheel(sys.argv[1]))"
# the same sources and library give the same bytes
SAME = {"SOURCE_DATE_EPOCH": "315532800", "PYTHONHASHSEED": "0"}


def made_library(directory):
    """The directory, into which make_c_library.sh installs the C library."""
    made = subprocess.run([TOP / "tools" / "make_c_library.sh", directory], stdout=subprocess.DEVNULL, check=False)
    if made.returncode != 0:  # the script has said why
        sys.exit(made.returncode)
    return directory


def make_wheel(directory, prefix):
    """Builds the wheel over the C library in the directory `prefix`, and prints its path."""
    built = subprocess.run(
        [sys.executable, "-W", "ignore", "-c", BUILD, directory], cwd=TOP / "python", capture_output=True, text=True, check=False,
        env={**os.environ, **SAME, "ROCKTRAY_PREFIX": prefix},
    )  # fmt: skip
    if built.returncode != 0:
        sys.exit(f"{built.stdout[-5000:]}{built.stderr[-5000:]}make_wheel.py: the wheel was not built")
    print(os.path.join(directory, built.stdout.splitlines()[-1]))


def main():
    parser = argparse.ArgumentParser(description=__doc__, formatter_class=argparse.RawDescriptionHelpFormatter)
    parser.add_argument("directory", metavar="DIRECTORY", help="where the wheel goes; it is made where it is missing")
    directory = os.path.abspath(parser.parse_args().directory)
    if not os.path.isdir(os.path.dirname(directory)):
        parser.error(f"there is no directory for {directory}")
    with tempfile.TemporaryDirectory() as work:
        prefix = os.environ.get("ROCKTRAY_PREFIX") or made_library(os.path.join(work, "prefix"))
        os.makedirs(directory, exist_ok=True)
        make_wheel(directory, os.path.abspath(prefix))


if __name__ == "__main__":
    main()
