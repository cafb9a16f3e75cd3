"""The rows of the suite without a proof, by `rt try`. Files of long rows are left to the proved program
(test_memory.py)."""

import re
import shutil

import pytest

from support import TOP, missing, run

from suite import rows_in

VECTORS = TOP / "crates" / "mail_vectors"


@pytest.mark.quick
def test_files():
    """The arguments of the program are the files of the suite."""
    files = sorted(path.name for path in (VECTORS / "data").glob("*.txt"))
    assert sorted((VECTORS / "args").read_text().split()) == files


@pytest.mark.quick
def test_rows():
    """All rows pass."""
    if not shutil.which("rt"):
        missing("the kit of Rattle, whose command is rt, is missing")
    files = [name for name in (VECTORS / "args").read_text().split() if not name.startswith("long_")]
    data = [word for name in files for word in ("--data", f"{name}=data/{name}")]
    ended = run(["rt", "try", "--seconds", "900", *data, "--", *files], cwd=VECTORS, timeout=1800)
    said = ended.stdout.decode() + ended.stderr.decode()
    counts = re.search(r"^(\d+) passed, 0 failed$", said, re.M)
    assert counts, said[-5000:]
    assert int(counts[1]) == sum(1 for name in files for _ in rows_in(VECTORS / "data" / name))
