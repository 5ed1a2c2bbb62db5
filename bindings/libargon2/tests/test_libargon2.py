"""Our replacement (bindings/libargon2) beside Debian's libargon2: its names, random calls (their seed is SEED, or
random), libargon2's own tests, Debian's programs with both, processes that are denied memory or a callback's memory,
and what calls leave in memory. Faults planted into it have to be found.
"""
import os
import re
import secrets
import shutil

import pytest
from running import BUILDS, TOP, built, exports, fetch, run, runs_here, start

HERE, FACE, BUILT = TOP / "bindings/libargon2", TOP / "bindings/c", built("x86_64") / "x86_64"
TESTS, THEIRS, ARCHIVE = HERE / "tests", "/usr/lib/x86_64-linux-gnu/libargon2.so.1", BUILT / "libproved_argon2.a"
SEED, CALLS, SANITIZED = int(os.environ.get("SEED", secrets.randbits(32))), 40000, 5000
CC = *"gcc -std=gnu11 -O1 -Wall -Wextra -Werror -I".split(), HERE, "-I", FACE / "include", "-I", TOP / "bindings/c/src"
FUZZ, SANITIZE = ("/usr/bin/python3", "-B", TESTS / "fuzz.py"), "-g -fsanitize=address,undefined -fno-sanitize-recover"
HEADERS = "gcc -std=c99 -x c", "g++ -std=c++98 -x c++", "clang -std=c17 -x c -Weverything"
# A program that links both archives, the replacement's and the library's, and prints what an older processor gets: a
# code that libargon2 does not have.
BOTH = """#include <argon2.h>
#include <proved_argon2.h>
#include <stdio.h>
int main(void)
{
    char text[200];
    int made = argon2id_hash_encoded(1, 64, 1, "pw", 2, "somesalt", 8, 32, text, 200);
    int read = argon2id_verify("$argon2id$v=19$m=64,t=1,p=1$c29tZXNhbHQ$AAAAAAAA", "pw", 2);
    FLAG_clear_internal_memory = proved_argon2_library_version() != 0;
    return printf("%d %d %s", made, read, argon2_error_message(made)) < 0;
}
"""
# The code of docs/USE.md for PHP: a bcrypt hash, and an Argon2 hash with other settings, are renewed only at a login
# with the right password.
PHP = """<?php
function log_in($stored, $password) {
%s
    return $matches ? $stored : false;
}
$olds = [password_hash('password', PASSWORD_BCRYPT, ['cost' => 4]),
    password_hash('password', PASSWORD_ARGON2ID, ['memory_cost' => 64])];
foreach ($olds as $old) {
    $new = log_in($old, 'password');
    $moves = $new !== $old && strpos($new, '$argon2id$') === 0 && log_in($new, 'password') === $new;
    $moves = $moves && log_in($old, 'Password') === false && log_in($new, 'Password') === false;
    echo $moves ? "moves\\n" : "$old $new\\n";
}
"""
FAULTS = {name: [text.replace("\\n", "\n") for text in pair] for name, *pair in re.findall(
    r"^(?!#)(.*)\nold: (.*)\nnew: (.*)$", (TESTS / "faults.txt").read_text(encoding="utf-8"), re.M)}
assert len(FAULTS) == 18


@pytest.fixture(scope="module")
def work(tmp_path_factory):
    """Returns a folder with the tests, and lib, for LD_LIBRARY_PATH."""
    folder = tmp_path_factory.mktemp("libargon2")
    shutil.copytree(BUILT, folder / "lib", ignore=shutil.ignore_patterns("*.so"))  # (release/ has no such links)
    (folder / "lib/libargon2.so").symlink_to("libargon2.so.1")
    link = "-L", folder / "lib", "-largon2"
    wrapped = re.findall(r"__wrap_(\w+)\(.*;", (FACE / "tests/system.h").read_text(encoding="utf-8"))
    for name, *words in (
        ("starved", TESTS / "starved.c", *link),
        ("secrets", "-I", FACE / "tests", TESTS / "secrets.c", ARCHIVE, *link, "-pthread", "-Wl,-z,lazy",
         *(f"-Wl,--wrap={name}" for name in wrapped)),
    ):
        run(*CC, *words, "-o", folder / name)
    return folder


def interface(source, to, *flags):
    """Returns the interface, whose proved code has no sanitizers."""
    run(*CC, "-fPIC", "-shared", "-pthread", source, ARCHIVE, f"-Wl,--version-script={HERE}/libargon2.map", "-o", to,
        *flags)


def over(folder, *command):
    """Returns a program over the library of a folder."""
    return ["env", f"LD_LIBRARY_PATH={folder}", *command]


# ---- the files

def entries(file, kind):
    return re.findall(rf"\({kind}\).*\[(.*)\]", run("readelf", "-dW", file))


def test_names_are_those_of_debian():
    assert len(exports(THEIRS)) == 22 and exports(THEIRS) == exports(BUILT / "libargon2.so.1")
    assert entries(BUILT / "libargon2.so.1", "SONAME") == ["libargon2.so.1"]
    assert entries(BUILT / "libargon2.so.1", "NEEDED") == ["libc.so.6"]


def test_the_replacement_has_at_most_280_lines():
    assert (HERE / "libargon2.c").read_text(encoding="utf-8").count("\n") <= 280


@pytest.mark.parametrize("compiler", HEADERS)
def test_compiles_the_header(compiler):
    """Each program that includes libargon2's may include ours, with all warnings."""
    run(*compiler.split(), *"-Wall -Wextra -Wpedantic -Werror -fsyntax-only -I".split(), HERE, "-",
        input='#include "argon2.h"\n')


def test_links_both_archives_and_names_an_older_processor(tmp_path):
    (tmp_path / "program.c").write_text(BOTH, encoding="utf-8")
    run(*CC, tmp_path / "program.c", BUILT / "libargon2.a", ARCHIVE, "-o", tmp_path / "program")
    assert run(tmp_path / "program") == "0 -35 OK"
    assert run("env", "PROVED_ARGON2_CPU=none", tmp_path / "program") == "-131 -131 The processor is too old"


# ---- what it returns

# These look for H0 and a tag after calls, and deny processes memory.
@pytest.mark.parametrize("words", [("secrets",), *(("starved", at) for at in range(20))],
                         ids=lambda words: " ".join(map(str, words)))
def test_program(work, words):
    run(*over(work / "lib", work / words[0], *words[1:]))


@pytest.mark.parametrize("build", map(runs_here, BUILDS))
def test_drawn_calls_return_the_same_as_debian_s(build):
    run(*FUZZ, SEED, CALLS, THEIRS, BUILT / "libargon2.so.1", env={"PROVED_ARGON2_CPU": build})


def fetched(kind, package, folder):
    """Returns the source of Debian's newest package, or the package, where it can be had."""
    if not fetch(f"fetch_{kind}", package, folder):
        pytest.skip(f"{package} cannot be had")
    return folder


def test_own_tests_of_libargon2(work, tmp_path):
    source = fetched("source", "argon2", tmp_path / "source")
    run("gcc", "-std=gnu99", "-O1", "-I", HERE, source / "src/test.c", "-L", work / "lib", "-largon2", "-o",
        tmp_path / "test")
    run(*over(work / "lib", tmp_path / "test"), cwd=tmp_path)


def test_own_tests_of_argon2_cffi(work, tmp_path):
    """The tests are those of Debian's newest source, over Debian's bindings, which are built with the system's library.
    We leave out the tests of its packaging, since they need installed files. The bindings get a file name that an older
    Python finds."""
    pytest.importorskip("hypothesis")
    source = fetched("source", "python-argon2", tmp_path / "cffi")
    bindings = fetched("package", "python3-argon2-cffi-bindings", tmp_path / "bindings")
    site = bindings / "usr/lib/python3/dist-packages"
    module, = site.glob("_argon2_cffi_bindings/_ffi.abi3-*.so")
    module = shutil.copy(module, str(module).partition("-x86")[0] + ".so")
    assert f"libargon2.so.1 => {work}/lib/" in run(*over(work / "lib", "ldd", module))
    run(*over(work / "lib", f"PYTHONPATH={source}/src:{site}", "/usr/bin/python3", "-B", "-m", "pytest", "-q", "-p",
              "no:cacheprovider", "--ignore", "tests/test_packaging.py", "tests"), cwd=source)


def test_drawn_calls_with_sanitizers(work):
    """We do not look for leaks, since Python itself leaves memory at its end."""
    interface(HERE / "libargon2.c", work / "sanitized.so", *SANITIZE.split())
    run("env", f'LD_PRELOAD={run("gcc", "-print-file-name=libasan.so").strip()}', "PYTHONMALLOC=malloc",
        "ASAN_OPTIONS=leak_check_at_exit=0", *FUZZ, SEED + 1, SANITIZED, THEIRS, work / "sanitized.so")


def test_programs_of_debian(work):
    shown = run("env", f"LIBARGON2={work}/lib", "/usr/bin/python3", "-B", "-m", "pytest", "-q", TESTS / "programs.py")
    assert " passed" in shown and "skipped" not in shown, shown


def test_the_lines_for_php_move_a_hash_to_argon2(work):
    (lines,) = re.findall(r"^```php\n(.*?)^```", (TOP / "docs/USE.md").read_text(), re.M | re.S)
    assert run(*over(work / "lib", "php"), input=PHP % lines) == "moves\nmoves\n"


# ---- planted faults

def is_right(work, folder):
    """Returns whether a library answers correctly, judged by some thousand calls and by processes that are denied
    something."""
    commands = [(*FUZZ, 1, 5000, THEIRS, folder / "libargon2.so.1"),
                over(folder, work / "starved", 3), over(folder, work / "secrets")]
    return all(start(*command, errors="replace").returncode == 0 for command in commands) \
        and entries(folder / "libargon2.so.1", "SONAME") == ["libargon2.so.1"]


def test_the_unchanged_replacement_has_no_fault(work):
    assert is_right(work, work / "lib")


@pytest.mark.parametrize("name", FAULTS)
def test_a_planted_fault_is_found(work, tmp_path, name):
    """A text occurs once, in the source or in build/link. The fault has to build, and then be found."""
    texts = {path.name: path.read_text(encoding="utf-8") for path in (HERE / "libargon2.c", TOP / "build/link")}
    found, = [file for file, text in texts.items() if text.count(FAULTS[name][0]) == 1]
    texts[found] = texts[found].replace(*FAULTS[name])
    (tmp_path / "libargon2.c").write_text(texts["libargon2.c"], encoding="utf-8")
    soname = re.search(r"^ *make_library libargon2\.a libargon2\.so\.1 (\S+) ", texts["link"], re.M)[1]
    interface(tmp_path / "libargon2.c", tmp_path / "libargon2.so.1", f"-Wl,-soname,{soname}")
    assert not is_right(work, tmp_path)
