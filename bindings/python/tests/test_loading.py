"""The import of the package: its time, the library that it loads, and its error if there is none."""
import os
import subprocess
import sys
from pathlib import Path

import proved_argon2
import pytest
from proved_argon2 import _library

MOST_MILLISECONDS = 50
# An import is measured this often before it counts as too slow, since other programs may need the processor.
TRIES = 40
FOLDER = Path(proved_argon2.__file__).resolve().parents[1]


def fresh(program):
    """Return the output of a program in a Python of its own, which finds this package in FOLDER."""
    words = [sys.executable, "-I", "-c", f"import sys\nsys.path.insert(0, {str(FOLDER)!r})\n{program}"]
    return subprocess.run(words, capture_output=True, text=True, check=True).stdout


def test_an_import_takes_at_most_50_milliseconds():
    program = "import time\nbegun = time.process_time()\nimport proved_argon2\nprint(time.process_time() - begun)"
    assert any(float(fresh(program)) * 1000 <= MOST_MILLISECONDS for _ in range(TRIES))


def test_an_import_loads_no_slow_module():
    loaded = fresh("before = {*sys.modules}\nimport proved_argon2\nprint(*sys.modules.keys() - before)").split()
    slow = {"asyncio", "concurrent.futures", "ctypes.util", "dataclasses", "inspect", "pathlib", "subprocess", "typing"}
    assert "ctypes" in loaded and slow.isdisjoint(loaded)


@pytest.mark.parametrize("folder, has_libs, expected", [
    ("/site/proved_argon2", False, [_library.SONAME, f"/prefix/lib/{_library.SONAME}"]),
    ("/site/proved_argon2", True, [
        f"/site/proved_argon2/libs/{_library.SONAME}", _library.SONAME, f"/prefix/lib/{_library.SONAME}"]),
    # The package does not take a build beside its sources unless it is asked to.
    ("/it/bindings/python/src/proved_argon2", False, [_library.SONAME, f"/prefix/lib/{_library.SONAME}"]),
])
def test_the_library_is_in_the_wheel_or_found_by_the_loader_or_beside_python(monkeypatch, folder, has_libs, expected):
    monkeypatch.delenv(_library.VARIABLE, raising=False)
    monkeypatch.setattr(sys, "prefix", "/prefix")
    monkeypatch.setattr(_library, "__file__", f"{folder}/_library.py")
    monkeypatch.setattr(os.path, "isdir", lambda _: has_libs)
    assert [*_library._files()] == expected


def test_a_processor_that_is_too_old_is_named_in_the_error():
    program = ("import os\nos.environ['PROVED_ARGON2_CPU'] = 'none'\n"
               "try:\n    import proved_argon2\nexcept ImportError as error:\n    print(error)")
    assert "has no build for a processor as old as this one" in fresh(program)


@pytest.mark.parametrize("file", ["/nowhere/library.so", __file__, "libc.so.6"])
def test_the_error_says_how_to_get_a_library(monkeypatch, file):
    """The file does not exist, or is no library, or is another library."""
    monkeypatch.setenv(_library.VARIABLE, file)
    words = "run ./install in the repository .*, or let pip compile the library .*, or name the file in"
    with pytest.raises(ImportError, match=f"cannot be loaded: {words} {_library.VARIABLE}"):
        _library._load()
