"""Adds files to the packages that hatchling makes: the repository's licences and, in a wheel, the library.

In the folder `c`, an archive of sources has the library as C, which setuptools compiles. `./package` makes that
archive. For its wheels it puts the prebuilt library into src/proved_argon2/libs, and the name of the platform into
WHEEL_PLATFORM."""
import os
import sys
import tempfile
from pathlib import Path

from hatchling.builders.hooks.plugin.interface import BuildHookInterface
from packaging.tags import platform_tags

ROOT = Path(__file__).resolve().parent
SHARED = "libproved_argon2.so.1"


def compile_library(sources, folder):
    """Compile the library with the compiler and the flags of this Python. Return the file, which ctypes can load."""
    from setuptools import Distribution, Extension
    from setuptools.command.build_ext import build_ext

    threads = ["-pthread"]
    library = Extension(
        "proved_argon2", sources, extra_compile_args=["-O2", *threads], extra_link_args=threads)
    command = build_ext(Distribution({"ext_modules": [library]}))
    command.build_lib = command.build_temp = folder
    command.ensure_finalized()
    command.run()
    (made,) = command.get_outputs()
    return made


def own_platform():
    """Return the name by which pip knows this machine: on Linux the last one, which promises no other machine a C
    library."""
    names = [*platform_tags()]
    return names[-1 if sys.platform == "linux" else 0]


class CustomBuildHook(BuildHookInterface):
    def initialize(self, version, build_data):
        is_wheel, included = self.target_name == "wheel", build_data["force_include"]
        papers = f"proved_argon2-{self.metadata.version}.dist-info/licenses/" if is_wheel else ""
        for name in ("LICENSE", "NOTICE", "proved-argon2.spdx"):
            own = ROOT / name
            if not own.exists() or is_wheel:
                included[str(own if own.exists() else ROOT.parents[1] / name)] = f"{papers}{name}"
        platform, sources = os.environ.get("WHEEL_PLATFORM"), sorted(map(str, (ROOT / "c").glob("*.c")))
        if is_wheel and sources:
            self.folder = tempfile.TemporaryDirectory()
            included[compile_library(sources, self.folder.name)] = f"proved_argon2/libs/{SHARED}"
            platform = own_platform()
        if is_wheel and platform:
            build_data.update(pure_python=False, tag=f"py3-none-{platform}")
