"""Paths and mails that the tests share."""

import subprocess
import sys
from pathlib import Path

import pytest

TOP = Path(__file__).resolve().parent.parent.parent
sys.path.insert(0, str(TOP / "oracle"))


@pytest.fixture(scope="session")
def samples():
    """The sample mails, by their names."""
    return {path.stem: path.read_bytes() for path in sorted((TOP / "samples").glob("*.eml"))}


@pytest.fixture(scope="session")
def hostile(tmp_path_factory):
    """Generated mails with deliberate faults."""
    directory = tmp_path_factory.mktemp("mails")
    subprocess.run([sys.executable, TOP / "oracle" / "hostile.py", "2000", "42", directory], check=True)
    return [path.read_bytes() for path in sorted(directory.glob("*.eml"))]
