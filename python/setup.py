"""What pyproject.toml cannot say of the extension: the library that it links, and the name of its wheel.

The library is in the directory that ROCKTRAY_PREFIX names, as tools/make_c_library.sh PREFIX installs it; otherwise that
script of the checkout makes it, which needs the kit.
"""

import atexit
import os
import platform
import re
import shutil
import subprocess
import tempfile
from pathlib import Path

from setuptools import Extension, setup
from setuptools.command.build_ext import build_ext

try:
    from setuptools.command.bdist_wheel import bdist_wheel
except ImportError:  # before setuptools 70.1
    from wheel.bdist_wheel import bdist_wheel

TOP = Path(__file__).resolve().parent.parent
VERSION = TOP / "crates" / "mail_version" / "src" / "lib.rt"
# what is made on the way: nothing of it stays in the checkout
WORK = tempfile.mkdtemp()
atexit.register(shutil.rmtree, WORK, ignore_errors=True)


def prefix():
    """The directory with the library and its header."""
    named = os.environ.get("ROCKTRAY_PREFIX")
    if named:
        return Path(named)
    made = Path(WORK) / "prefix"
    ended = subprocess.run([TOP / "tools" / "make_c_library.sh", made], stdout=subprocess.DEVNULL, check=False)
    if ended.returncode != 0:  # the script has said why
        raise SystemExit(ended.returncode)
    return made


class Build(build_ext):
    """Builds the extension over the library."""

    def build_extension(self, extension):
        at = prefix()
        extension.include_dirs.append(str(at / "include"))
        extension.extra_objects.append(str(at / "lib" / "librocktray.a"))
        super().build_extension(extension)


class Wheel(bdist_wheel):
    """Makes the wheel for each C library that is at least as new as the newest symbol that the extension needs."""

    def get_tag(self):
        python, abi, _ = super().get_tag()
        built = Path(self.bdist_dir, "rocktray", "_engine.abi3.so").read_bytes()
        newest = max([17, *(int(minor) for minor in re.findall(rb"GLIBC_2\.(\d+)", built))])
        return python, abi, f"manylinux_2_{newest}_{platform.machine()}"


setup(
    version=re.search(r'^pub const VERSION: &str = "(.+)";$', VERSION.read_text(), re.M)[1],
    ext_modules=[
        Extension(
            "rocktray._engine",
            [f"engine/{name}.c" for name in ("mail", "module", "node", "reading", "records", "store")],
            define_macros=[("Py_LIMITED_API", "0x030a0000")],
            extra_compile_args=["-std=c11", "-fvisibility=hidden", "-Wall", "-Wextra", "-g0"],
            extra_link_args=["-Wl,--exclude-libs,ALL", "-Wl,-z,relro,-z,now,-z,noexecstack", "-Wl,--strip-all"],
            py_limited_api=True,
        )
    ],
    cmdclass={"build_ext": Build, "bdist_wheel": Wheel},
    options={
        "build": {"build_base": WORK},
        "egg_info": {"egg_base": WORK},
        "bdist_wheel": {"py_limited_api": "cp310"},
    },
)
