"""Options, and the fixtures that several files of tests use. What is no fixture is in support.py."""

import os
import random
import subprocess
import sys

import pytest

from support import TOP, compiled, copied, missing, program


def pytest_addoption(parser):
    """The options of this project."""
    group = parser.getgroup("rocktray")
    group.addoption("--built", action="store_true", help="fail, and do not skip, if a program or another need is missing")
    group.addoption("--seed", type=int, default=1, help="the seed of made mails, values and rows (default: 1)")
    group.addoption("--oracle", metavar="PROGRAM", help="the program of oracle/crate, to compare with the Rust crate")
    group.addoption("--patched-oracle", metavar="PROGRAM", help="the same with the crate changed where this port differs")
    group.addoption("--mails", metavar="N", type=int, default=10000, help="how many made mails other readers read (default: 10000)")
    group.addoption("--real", metavar="PATH", action="append", default=[], help="mails to compare with Python's email")


def pytest_configure(config):
    """Workers of pytest-xdist see --built in the environment."""
    config.addinivalue_line("markers", "quick: needs neither a proof nor a built program")
    if config.getoption("--built"):
        os.environ["ROCKTRAY_BUILT"] = "1"


def pytest_unconfigure(config):
    """The last line: how many tests passed and failed."""
    reporter = config.pluginmanager.get_plugin("terminalreporter")
    if reporter and not hasattr(config, "workerinput") and not config.option.collectonly:
        counts = {kind: len(reporter.stats.get(kind, [])) for kind in ("passed", "failed", "error", "skipped")}
        skipped = f", {counts['skipped']} skipped" if counts["skipped"] else ""
        print(f"{counts['passed']} passed, {counts['failed'] + counts['error']} failed{skipped}")


def pytest_report_header(config):
    """The first lines of a run."""
    return f"seed: {config.getoption('--seed')}"


@pytest.fixture(scope="session")
def seed(request):
    """The seed of the run."""
    return request.config.getoption("--seed")


@pytest.fixture
def chance(seed, request):
    """Random numbers of a test, the same for the same seed."""
    return random.Random(f"{seed} {request.node.name}")


@pytest.fixture
def copy(tmp_path):
    """A copy of the repository in which nothing is built."""
    return copied(tmp_path / "copy")


def path_given(request, option, what):
    """The path that an option gives. Without it the test is skipped."""
    path = request.config.getoption(option)
    if not path:
        pytest.skip(f"{what} is given by {option}")
    return os.path.abspath(path)


@pytest.fixture(scope="session")
def oracle(request):
    """The program of oracle/crate."""
    return path_given(request, "--oracle", "the Rust crate")


@pytest.fixture(scope="session")
def patched_oracle(request):
    """The program of oracle/crate over a crate that is changed where docs/DIFFERENCES.md says that this port differs."""
    return path_given(request, "--patched-oracle", "the changed crate")


@pytest.fixture(scope="session")
def refuse(tmp_path_factory):
    """A library that fails the Nth allocation of a program."""
    target = tmp_path_factory.mktemp("refuse") / "refuse.so"
    return compiled(TOP / "tests" / "refuse.c", target, "-O1", "-shared", "-fPIC")


@pytest.fixture(scope="session")
def streams(tmp_path_factory):
    """A library that makes a program's reads and writes fail, stop short or be interrupted."""
    target = tmp_path_factory.mktemp("streams") / "streams.so"
    return compiled(TOP / "tests" / "streams.c", target, "-O1", "-shared", "-fPIC")


@pytest.fixture(scope="session")
def c_library(tmp_path_factory):
    """The prefix in which the C library is installed."""
    if not (TOP / "crates" / "mail_c" / "out" / "libmail_c.a").is_file():
        missing("the C library is not built: run tools/make_c_library.sh")
    prefix = tmp_path_factory.mktemp("library") / "prefix"
    subprocess.run([TOP / "tools" / "make_c_library.sh", prefix], check=True, stdout=subprocess.DEVNULL, env={**os.environ, "BUILT": "only"})
    return prefix


@pytest.fixture(scope="session")
def hostile(seed, tmp_path_factory):
    """Paths of 20,000 made mails with faults on purpose."""
    directory = tmp_path_factory.mktemp("hostile")
    subprocess.run([sys.executable, TOP / "oracle" / "hostile.py", "20000", str(seed), directory], check=True)
    return sorted(directory.glob("*.eml"))
