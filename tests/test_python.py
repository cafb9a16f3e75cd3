"""The Python module: its own tests, the examples of its docstrings and page, its types, and its wheel."""

import filecmp
import os
import re
import shutil
import subprocess
import sys
import zipfile
from pathlib import Path

import pytest

from support import TOP, missing

READS = 'import rocktray; assert rocktray.parse(b"Subject: Hi\\n\\n").subject == "Hi"'


@pytest.fixture(scope="module")
def wheel(c_library, tmp_path_factory):
    """The wheel over the C library of the checkout."""
    return make_wheel(c_library, tmp_path_factory.mktemp("dist"))


@pytest.fixture(scope="module")
def environment(wheel, tmp_path_factory):
    """The environment in which Python finds the module of the wheel."""
    directory = tmp_path_factory.mktemp("module")
    with zipfile.ZipFile(wheel) as file:
        file.extractall(directory)
    return {**os.environ, "PYTHONPATH": str(directory), "PYTHONDONTWRITEBYTECODE": "1"}


@pytest.fixture(scope="module")
def installed_python(tmp_path_factory):
    """The Python of an environment of its own, with the packages of the system, since setuptools builds from them."""
    directory = tmp_path_factory.mktemp("venv")
    if subprocess.run([sys.executable, "-m", "venv", "--system-site-packages", directory], check=False).returncode != 0:
        missing("venv is missing (Debian: python3-venv)")
    return directory / "bin" / "python"


def make_wheel(c_library, directory, **environment):
    """The path of a wheel that make_wheel.py makes."""
    environment = {**os.environ, "ROCKTRAY_PREFIX": str(c_library), **environment}
    return Path(succeeds([TOP / "tools" / "make_wheel.py", directory], env=environment).strip())


def succeeds(command, **options):
    """Runs a command, which must succeed."""
    ended = subprocess.run(list(map(str, command)), capture_output=True, text=True, check=False, **options)
    assert ended.returncode == 0, ended.stdout[-5000:] + ended.stderr[-5000:]
    return ended.stdout


def test_module(environment):
    """The tests in python/tests."""
    said = succeeds([sys.executable, "-m", "pytest", "-q", "-p", "no:cacheprovider", "-p", "no:xdist", TOP / "python" / "tests"],
                    env=environment)
    assert int(said.splitlines()[-1].split()[0]) >= 35, said


def test_examples_of_docstrings(environment):
    """The examples of the docstrings, at least 20."""
    succeeds([sys.executable, "-c", """
import doctest, rocktray, sys
found = doctest.testmod(rocktray)
sys.exit(found.failed > 0 or found.attempted < 20)"""], env=environment, cwd=TOP)


def test_examples_of_the_page(environment):
    """The examples of python/README.md."""
    succeeds([sys.executable, "-m", "doctest", TOP / "python" / "README.md"], env=environment, cwd=TOP)


@pytest.mark.quick
def test_types(tmp_path):
    """mypy --strict."""
    if not shutil.which("mypy"):
        missing("mypy is missing (Debian: mypy)")
    succeeds(["mypy", "--strict", "--cache-dir", tmp_path, TOP / "python" / "rocktray"])


def test_wheel(c_library, wheel, installed_python, tmp_path):
    """The wheel is for each Python from 3.10 on, it is the same twice, and pip installs it without an index."""
    assert re.fullmatch(r"rocktray-[0-9.]+-cp310-abi3-manylinux_2_\d+_\w+\.whl", wheel.name)
    assert filecmp.cmp(wheel, make_wheel(c_library, tmp_path / "again"), shallow=False)
    succeeds([installed_python, "-m", "pip", "install", "--no-index", "--quiet", wheel])
    succeeds([installed_python, "-c", READS], cwd=tmp_path)


def test_checkout(c_library, installed_python, tmp_path):
    """pip installs the directory of the checkout, and leaves nothing in it."""
    before = sorted((TOP / "python").rglob("*"))
    succeeds([installed_python, "-m", "pip", "install", "--no-index", "--no-build-isolation", "--quiet", "--force-reinstall",
              TOP / "python"])
    succeeds([installed_python, "-c", READS], cwd=tmp_path)
    assert sorted((TOP / "python").rglob("*")) == before


def test_symbols(environment):
    """The extension exports its one function, and needs the C library and Python's stable ABI alone."""
    extension = Path(environment["PYTHONPATH"], "rocktray", "_engine.abi3.so")
    exported = succeeds(["nm", "--dynamic", "--defined-only", extension]).split()[2::3]
    assert exported == ["PyInit__engine"]
    needed = re.findall(r"NEEDED\s+(\S+)", succeeds(["objdump", "-p", extension]))
    assert set(needed) <= {"libc.so.6", "libpthread.so.0"}


def test_sanitizers(c_library, tmp_path):
    """The tests of records and buffers under the address and the undefined-behaviour sanitizer."""
    flags = "-fsanitize=address,undefined -fno-sanitize-recover=all"
    wheel = make_wheel(c_library, tmp_path / "dist", CFLAGS=f"{flags} -O1", LDFLAGS=flags)
    with zipfile.ZipFile(wheel) as file:
        file.extractall(tmp_path / "module")
    libraries = [succeeds(["gcc", f"-print-file-name={name}.so"]).strip() for name in ("libasan", "libubsan")]
    succeeds([sys.executable, "-m", "pytest", "-q", "-p", "no:cacheprovider", "-p", "no:xdist", "-k", "not memory and not no_copy and not too_many",
              *(TOP / "python" / "tests" / f"test_{name}.py" for name in ("buffers", "lazy", "parts"))],
             env={**os.environ, "PYTHONPATH": str(tmp_path / "module"), "PYTHONDONTWRITEBYTECODE": "1", "PYTHONMALLOC": "malloc",
                  "LD_PRELOAD": " ".join(libraries), "ASAN_OPTIONS": "detect_leaks=0:allocator_may_return_null=1"})
