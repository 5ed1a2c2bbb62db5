"""The tests of the bindings share this: what is built, commands, and what they need."""
import functools
import os
import pathlib
import re
import shlex
import shutil
import subprocess
import sys
from concurrent.futures import ThreadPoolExecutor

import patience
import pytest

TOP = pathlib.Path(__file__).resolve().parents[2]
MACHINE = os.uname().machine
# We read this once, since pytest changes its variables while threads start programs.
ENVIRONMENT = {**os.environ}
CC = ENVIRONMENT.get("CC", "cc")
sys.path.append(str(TOP / "build"))
from machines import machines  # noqa: E402

# The builds of this machine, the oldest first, and those of them that the toolchain makes.
BUILDS, PROVED = machines()[MACHINE].builds, machines()[MACHINE].proved
VERSION = (TOP / "VERSION").read_text().strip()
# Debian's crates in place of a registry: cargo has to find even optional dependencies.
CRATES_OF_DEBIAN = """[source.crates-io]
replace-with = "debian"
[source.debian]
directory = "/usr/share/cargo/registry"
"""
# The numbers of the library's header, by name. Then all of them, their neighbours, and some that no call returns.
HEADER = {name: int(number, 0) for name, number in re.findall(
    r"^ *PROVED_ARGON2_(\w+) = (\w+)", (TOP / "bindings/c/include/proved_argon2.h").read_text(), re.M)}
NUMBERS = sorted({*range(23), 255, 256, 999, 0x7FFFFFFF, 0x80000000, 0xFFFFFFFF,
                  *(at for number in HEADER.values() if number > 22 for at in range(number - 1, number + 2))})


class Codes:
    """A line of codes.txt."""

    def __init__(self, line):
        self.name, places, self.computing, self.telling, values = map(str.strip, line.split("|"))
        self.places, self.hashes = places.split(), self.name.startswith("hash")
        self.values = {HEADER[code]: value for code, value in (pair.split("=") for pair in values.split())}
        self.judging = "check 2 19 64 3 4 5 4 8 3 4" if self.hashes else ""


CODES = {codes.name: codes for codes in map(
    Codes, re.findall("^[^#].*", (TOP / "bindings/tests/codes.txt").read_text(), re.M))}


def needs(*programs):
    """Skips a test if a program is missing."""
    lacking = [program for program in programs if not shutil.which(program)]
    return pytest.mark.skipif(bool(lacking), reason=f"there is no {', '.join(lacking)}")


def start(*words, env=(), cwd=TOP, **named):
    """Returns a command that has ended, with its output."""
    named = {"stdin": None if "input" in named else subprocess.DEVNULL, "capture_output": True, "text": True, **named}
    without = {name: value for name, value in {**ENVIRONMENT, **dict(env)}.items() if value is not None}
    return patience.run([*map(str, words)], env={name: str(value) for name, value in without.items()}, cwd=cwd, **named)


def run(*words, **named):
    """Output of a command that must succeed."""
    done = start(*words, **named)
    assert done.returncode == 0, f"{words} ended with {done.returncode}\n{done.stdout[-9000:]}\n{done.stderr[-9000:]}"
    return done.stdout


def runs_here(build):
    """Returns a build as a parameter of a test that is skipped on older processors."""
    said = run("/lib64/ld-linux-x86-64.so.2", "--help") if MACHINE == "x86_64" else ""
    return pytest.param(build, marks=pytest.mark.skipif(
        f"{build} (supported, searched)" not in said, reason=f"this processor is older than {build}"))


def refuses(status, text, *words, **named):
    """A command has to end with this status and this text on standard error, which is returned."""
    done = start(*words, **named)
    assert done.returncode == status and text in done.stderr, (words, done.returncode, done.stdout, done.stderr)
    return done.stderr


def fetch(call, *words, release="sid"):
    """Returns whether a call of fetching.bash finds what it wants in a release of Debian."""
    script = 'source bindings/tests/fetching.bash && "$@"'
    return start("bash", "-c", script, "bash", call, release, *words).returncode == 0


def make_system(folder, release, *packages):
    """Makes a small system of a release, in which root can run commands (`in_system`), or skips the test."""
    options = [f"--include={','.join(packages)}"] if packages else []
    if os.geteuid() != 0 or not fetch("make_system", folder, *options, release=release):
        pytest.skip("no mirror is reached, or there is no right to make a system")
    return folder


@functools.lru_cache(None)
def built(part=MACHINE):
    """Returns the folder with a linked part, as proved and built here or in release/."""
    return pathlib.Path(run("build/prepare", part).strip())


def ahead(request, name, work, at_once=None):
    """Starts work for each value that a parameter has in the module's chosen tests. Returns a function
    that waits for a value's result, and starts work for other values."""
    specs = [item.callspec for item in request.session.items
             if item.module is request.module and hasattr(item, "callspec")]
    values = dict.fromkeys(spec.params[name] for spec in specs if name in spec.params)
    with ThreadPoolExecutor(at_once or len(os.sched_getaffinity(0))) as pool:
        begun = {value: pool.submit(work, value) for value in values}
        yield lambda value: (begun.get(value) or pool.submit(work, value)).result()
        pool.shutdown(cancel_futures=True)


def rows(path):
    """Returns the lines of a table, except comments, as lists of what stands between ` | `."""
    lines = path.read_text(encoding="utf-8").splitlines()
    return [[part.strip() for part in f"{line} ".split(" | ")] for line in lines if line and line[0] != "#"]


def build_preloaded(source, folder):
    """Builds a library to be preloaded, and returns its path. Its calls are bound at once, since lazy binding saves the
    program's registers on the stack."""
    made = pathlib.Path(folder, source.name).with_suffix(".so")
    flags = "-std=gnu11 -O1 -Wall -Wextra -Werror -D_GNU_SOURCE -shared -fPIC -nostdlib -Wl,-z,now".split()
    run("gcc", *flags, source, "-o", made)
    return made


def in_namespace(script, *words):
    """Returns the words that run bash in its own mount namespace."""
    return ["unshare", "--mount", "--propagation", "private", "bash", "-euc", script, "bash", *words]


# A shell in a system, without this one's variables: its word is a script.
SHELL_THERE = [*"env -i HOME=/root PATH=/usr/local/bin:/usr/sbin:/usr/bin:/sbin:/bin bash -Eeuo pipefail -c".split()]
IN_SYSTEM = """system=$1 && shift
while [[ $1 != -- ]]; do mkdir -p "$system$1" && mount --bind "$1" "$system$1" && shift; done
mount --rbind /dev "$system/dev" && mount -t proc proc "$system/proc"
[[ -d $system$PWD ]] || cd /
exec chroot "$system" env -C "$PWD" "${@:2}"
"""


def in_system(system, *words, shared=()):
    """Returns the words that run a command in another system, which sees shared folders at their places."""
    return in_namespace(IN_SYSTEM, system, *shared, "--", *words)


def exports(file):
    """Returns the names that a shared object exports."""
    rows = [line.split() for line in run("readelf", "--dyn-syms", "-W", file).splitlines()]
    return sorted(row[7].partition("@")[0] for row in rows if len(row) > 7 and row[4] == "GLOBAL" and row[6].isdigit())


def flags_of(prefix):
    """Returns the flags by pkg-config for the library in a prefix."""
    said = run("pkg-config", "--cflags", "--libs", "proved_argon2", env={"PKG_CONFIG_PATH": prefix / "lib/pkgconfig"})
    return shlex.split(said)


def first_lines(page, count=5):
    """Returns the first lines of a page, this many."""
    lines = re.search(r"^```\w*\n(.*?)^```", (TOP / "docs" / page).read_text(), re.M | re.S)[1]
    assert lines.count("\n") == count, lines
    return lines


def serves(*words, **named):
    """Runs a service. A user's name tries to forge a log line: the log contains it, but not as a line."""
    done = start(*words, **named)
    assert done.returncode == 0, done.stderr[-9000:]
    assert "logged in: root" in done.stderr and not re.search(r"^(INFO:root:)?logged in: root", done.stderr, re.M)


def with_crate(*features):
    """Returns the line of a manifest that names the crate as a dependency."""
    return f'argon2 = {{ package = "proved-argon2", path = "{TOP}/bindings/rust", features = {[*features]} }}\n'


def project(folder, main, dependencies=with_crate(), file="main.rs", more=""):
    """Returns a program in Rust, or a library."""
    (folder / "src").mkdir(parents=True, exist_ok=True)
    (folder / "Cargo.toml").write_text(
        f'[package]\nname = "{folder.name}"\nversion = "0.0.0"\nedition = "2021"\n[workspace]\n'
        f"[dependencies]\n{dependencies}\n{more}")
    (folder / "src" / file).write_text(main)
    return folder


def has_node():
    """Skips a test where there is no Node of 20.19 or later."""
    words = ["node", "-e", "process.getBuiltinModule('fs')"]
    is_there = shutil.which("node") and subprocess.run(words, capture_output=True).returncode == 0
    return pytest.mark.skipif(not is_there, reason="there is no Node of 20.19 or later")
