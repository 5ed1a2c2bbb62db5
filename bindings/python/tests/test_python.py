"""The package for Python, installed by pip: its own tests, those of argon2-cffi, and how it finds the library."""
import re
import shutil
import sys
import tarfile
import zipfile

import pytest
from running import CC, MACHINE, TOP, VERSION, fetch, first_lines, needs, run, serves, start

PACKAGE, SONAME = TOP / "bindings/python", f"libproved_argon2.so.{VERSION.split('.')[0]}"
TESTS = PACKAGE / "tests"
PYTHON = sys.executable
PIP = "-m", "pip", "install", "--no-build-isolation", "--no-index", "--no-deps"
PYTEST = PYTHON, "-B", "-m", "pytest", "-q"
HASHES = """from proved_argon2 import PasswordHasher
hasher = PasswordHasher(time_cost=1, memory_cost=64, parallelism=1)
assert hasher.verify(hasher.hash("password"), "password") is True"""
# Prints the most threads that there are during a call with four lanes.
THREADS = """import os
from proved_argon2.low_level import Type, hash_secret_raw
seen = []
hash_secret_raw(b"password", b"somesaltsomesalt", 1, 65536, 4, 32, Type.ID,
                progress=lambda *_: seen.append(len(os.listdir("/proc/self/task"))))
print(max(seen))"""


def has(*modules):
    return not start(PYTHON, "-c", f"import {', '.join(modules)}").returncode


by_pip = pytest.mark.skipif(not has("pip", "venv", "ensurepip", "hatchling"), reason="no pip, venv or hatchling")


@pytest.fixture(scope="module")
def package(tmp_path_factory):
    """Return a copy of the package's folder, with the licences."""
    folder = tmp_path_factory.mktemp("package") / "package"
    shutil.copytree(PACKAGE, folder, ignore=shutil.ignore_patterns("__pycache__"))
    for name in ("LICENSE", "NOTICE", "proved-argon2.spdx"):
        shutil.copy(TOP / name, folder)
    return folder


@pytest.fixture(scope="module")
def site(package, tmp_path_factory):
    """Return a folder into which pip has installed the package, or without pip one with a copy of its modules."""
    folder = tmp_path_factory.mktemp("site")
    if by_pip.args[0]:
        shutil.copytree(PACKAGE / "src", folder, dirs_exist_ok=True)
    else:
        run(PYTHON, *PIP, "--target", folder, package)
    assert (folder / "proved_argon2/py.typed").is_file()
    return folder


@pytest.fixture(scope="module")
def with_library(installed, site):
    """Return the environment variables for a program that uses the package."""
    return {"PYTHONPATH": site, "PROVED_ARGON2_LIBRARY": installed / "lib" / SONAME, "PYTHONDONTWRITEBYTECODE": 1}


def test_the_package_s_own_tests_pass(with_library, drawn, tmp_path):
    """The tests with pwdlib are skipped if Debian's package cannot be fetched."""
    fetch("fetch_package", "python3-pwdlib", tmp_path)
    path = f"{with_library['PYTHONPATH']}:{tmp_path}/usr/lib/python3/dist-packages"
    words = "-W", "error", TESTS, "--ignore", __file__
    print(run(*PYTEST, *words, env={**with_library, **drawn, "PYTHONPATH": path}))


def compile_shared(source, made, *words):
    flags = "-Wall", "-Wextra", "-Werror", "-O1", "-D_GNU_SOURCE", "-fPIC", "-shared"
    run(CC, *flags, *words, source, "-o", made)
    return made


def test_each_number_that_the_library_can_return(with_library, tmp_path):
    library = compile_shared("bindings/tests/codes.c", tmp_path / "codes.so", "-I", "bindings/c/include")
    run(*PYTEST, "-W", "error", TESTS / "codes.py", env={**with_library, "PROVED_ARGON2_LIBRARY": library})


@pytest.mark.skipif(not has("hypothesis"), reason="there is no hypothesis")
def test_the_tests_of_argon2_cffi_pass_except_for_listed_ones(with_library, tmp_path):
    """The tests are unchanged, from Debian's newest source. argon2_cffi.py lists those that fail, with the reasons."""
    if not fetch("fetch_source", "python-argon2", tmp_path):
        pytest.skip("their source cannot be had")
    path = f"{TESTS}:{with_library['PYTHONPATH']}"
    words = "-p", "argon2_cffi", "-p", "no:cacheprovider", "tests"
    said = run(*PYTEST, *words, cwd=tmp_path, env={**with_library, "PYTHONPATH": path})
    assert re.search(r"^62 passed, 16 xfailed in ", said, re.M), said[-2000:]


@by_pip
def test_an_editable_installation_uses_the_library_beside_python(installed, package, tmp_path):
    """Changes in the folder take effect. The library is where ./install "$VIRTUAL_ENV" puts it, and is used unless the
    system's loader finds another one."""
    edited, python = tmp_path / "edited", tmp_path / "environment/bin/python"
    shutil.copytree(package, edited)
    run(PYTHON, "-m", "venv", "--system-site-packages", tmp_path / "environment")
    run(python, *PIP, "-e", edited)
    with open(edited / "src/proved_argon2/profiles.py", "a") as opened:
        opened.write("mark = 1\n")
    beside = tmp_path / "environment/lib" / SONAME
    shutil.copy(installed / "lib" / SONAME, beside)
    said = run(python, "-c", """from proved_argon2 import _library, profiles
print(profiles.mark, _library._library._name)""")
    assert said in (f"1 {SONAME}\n", f"1 {beside}\n")


@pytest.fixture(scope="module")
def packed(tmp_path_factory):
    """Return the wheel and the archive of sources that ./package makes for this machine."""
    folder = tmp_path_factory.mktemp("packed")
    run("./package", "wheel", "sdist", "--to", folder, env={"MACHINES": MACHINE})
    return [*folder.glob("*.whl"), *folder.glob("*.tar.gz")]


@by_pip
def test_a_wheel_and_an_archive_of_sources_have_metadata_and_licences(packed):
    """The licences are those of the repository, and the address is that of Debian's packages. The metadata name no
    licence's file, which they may do only from version 2.4 on."""
    wheel, archive = zipfile.ZipFile(packed[0]), tarfile.open(packed[1])
    (metadata,) = [wheel.read(name).decode() for name in wheel.namelist() if name.endswith("METADATA")]
    (described,) = [name for name in archive.getnames() if name.endswith("PKG-INFO")]
    assert archive.extractfile(described).read().decode() == metadata
    address = re.search(r"^ -- (.*@.*>)  ", (TOP / "debian/changelog").read_text(), re.M)[1]
    fields = metadata.split("\n\n")[0].splitlines()
    assert {"Metadata-Version: 2.1", "Name: proved-argon2", f"Author-email: {address}", "License: MIT OR Apache-2.0",
            "Requires-Python: >=3.8"} <= {*fields} and "License-File" not in {line.split(":")[0] for line in fields}
    assert metadata.endswith((PACKAGE / "README.md").read_text())
    for name in ("LICENSE", "NOTICE", "proved-argon2.spdx"):
        (kept,) = [wheel.read(file) for file in wheel.namelist() if file.endswith(f"dist-info/licenses/{name}")]
        assert kept == (TOP / name).read_bytes()
        assert [file for file in archive.getnames() if file.split("/")[1:] == [name]]


@needs("twine")
def test_twine_accepts_the_wheel_and_the_archive_of_sources(packed):
    run("twine", "check", "--strict", *packed)


@by_pip
def test_the_library_that_pip_compiles_passes_the_package_s_own_tests(packed, drawn, tmp_path):
    """The compiler gets nothing but the archive of sources. The driver's code is that for other systems than Linux, and
    starts threads. The library runs on any processor, so none is too old; and the other library's tests measure times.
    """
    run(PYTHON, *PIP, "--no-cache-dir", "--target", tmp_path / "site", packed[1], env={"CC": f"{CC} -U__linux__"})
    alone = {"PYTHONPATH": tmp_path / "site", "PYTHONDONTWRITEBYTECODE": 1, "PROVED_ARGON2_LIBRARY": None}
    (found,) = (tmp_path / "site").rglob("*.so*")
    assert run(PYTHON, "-c", "from proved_argon2 import _library\nprint(_library._library._name)", env=alone) == (
        f"{found}\n")
    assert {"proved_portable_check", "pthread_cond_wait"} <= {*re.findall(r"\w+", run("nm", found))}
    assert run(PYTHON, "-c", THREADS, env=alone) == "4\n"
    words = TESTS, "--ignore", __file__, "-k", "not too_old and not takes_as_long"
    print(run(*PYTEST, *words, env={**alone, **drawn}))


@needs("mypy")
def test_mypy_accepts_the_package_and_rejects_a_wrong_call(tmp_path):
    (tmp_path / "wrong.py").write_text('from proved_argon2 import PasswordHasher\nPasswordHasher().verify(1, "x")\n')
    words = "mypy", "--strict", "--cache-dir", tmp_path / "types"
    run(*words, PACKAGE / "src")
    assert start(*words, tmp_path / "wrong.py", env={"MYPYPATH": PACKAGE / "src"}).returncode == 1


def test_the_system_s_loader_finds_the_library(installed, site):
    run(PYTHON, "-c", HASHES, env={"PYTHONPATH": site, "LD_LIBRARY_PATH": installed / "lib"})


# ---- the page

# Runs after the code of the page for Python: the page's coroutines return what it says.
AFTER_THE_PAGE = """
import asyncio

async def serve():
    assert await log_in("ada", password) is True and await log_in("ada", "wrong") is False
    assert await log_in("nobody", password) is False
    assert await logins_with_pepper.verify_and_update(*peppered.hash(password), password) == (True, None)
    answers = await asyncio.gather(*[log_in("ada", password) for _ in range(69)], return_exceptions=True)
    assert answers[:68] == [True] * 68 and type(answers[68]).__name__ == "BusyError"

assert is_match and new is update is None
assert key_id == "2026" and 0 < tuning.milliseconds <= 250
asyncio.run(serve())
"""


def test_all_code_of_the_page_runs(with_library):
    pieces = re.findall(r"^```python\n(.*?)^```", (TOP / "docs/PYTHON.md").read_text(), re.M | re.S)
    assert len(pieces) == 5
    # On a busy machine no settings may take at most 250 ms.
    code = "".join([*pieces, AFTER_THE_PAGE]).replace("(250, ", "(25000, ").replace("<= 250", "<= 25000")
    run(PYTHON, "-c", code, env=with_library)


@pytest.mark.parametrize("how", ["with a package index", "without one"])
def test_the_rows_of_readme_work_where_python_takes_no_packages_outside_of_an_environment(tmp_path, how):
    pattern = rf"^\| \[Python\][^|]*, {how} \| `([^`]*)` \| `[^`]*` \|$"
    (row,) = re.findall(pattern, (TOP / "README.md").read_text(), re.M)
    assert "pip install" in row
    (tmp_path / "lines").write_text(first_lines("PYTHON.md"))
    # There is no network. So for pip, hatchling is Debian's.
    path = "/usr/lib/python3/dist-packages"
    index = {"PIP_NO_BUILD_ISOLATION": "no", "PYTHONPATH": path} if "index" in how else {"MACHINES": MACHINE}
    row = row.replace("wheel &&", f"wheel --to {tmp_path} &&").replace("out/packages", str(tmp_path))
    run("bash", "-c", f'{row} && python "$HOME/lines"', env={
        "HOME": tmp_path, "PIP_CONFIG_FILE": None, "PYTHONPATH": None, **index})


def test_the_service(with_library):
    """More clients log in at once than there are places."""
    path = f"{with_library['PYTHONPATH']}:{TOP}/docs/examples"
    serves(PYTHON, TESTS / "service.py", env={**with_library, "PEPPER": "pepper", "PYTHONPATH": path})
