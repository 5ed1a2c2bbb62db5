"""In a clone with a release, the script `argon2` runs the released program. It is linked again only if a source has
changed."""
import resource
import shutil
import subprocess

import pytest
from running import BUILDS, MACHINE, PROVED, refuses, run

CHEAP = "hash argon2id 19 1 8 1 4 seq somesalt".split()


def write_program(file, text):
    file.write_text(text)
    file.chmod(0o755)


@pytest.fixture(scope="module")
def clone(built, tmp_path_factory):
    """Returns a copy of the repository, with a release of what is built here, and no other built files."""
    folder = tmp_path_factory.mktemp("clone")
    run("sh", "-c", "git ls-files -z --cached --others --exclude-standard -- ':!release' | tar -c --null -T - | "
        'tar -x -C "$0"', folder)
    for name in ("x86_64", *BUILDS):
        shutil.copytree(built / name, folder / "release" / name, symlinks=True,
                        ignore=shutil.ignore_patterns("*.said", "*.sources"))
    sums = run("sh", "-c", "find . -type f -printf '%P\\n' | xargs sha256sum", cwd=folder / "release")
    (folder / "release/MANIFEST").write_text(run(folder / "build/check_release", "--sources") + sums)
    run(folder / "argon2", *CHEAP)
    return folder


def test_cdpath_leads_to_no_build(clone):
    """If CDPATH is set, `cd` prints the folder that it finds there."""
    said = run(f"{clone.name}/argon2", *CHEAP, env={"CDPATH": clone.parent}, cwd=clone.parent, input="password")
    assert said.count("\n") == 2 and not (clone / "bindings/out").exists()


def test_a_warm_call_takes_at_most_100_milliseconds_more_than_the_program(clone):
    """We compare the least processor time of ten calls, which take turns."""
    def cost(program):
        before = resource.getrusage(resource.RUSAGE_CHILDREN)
        subprocess.run([program, *CHEAP], stdin=subprocess.DEVNULL, stdout=subprocess.DEVNULL, check=True)
        now = resource.getrusage(resource.RUSAGE_CHILDREN)
        return 1000 * (now.ru_utime + now.ru_stime - before.ru_utime - before.ru_stime)
    both = [(cost(clone / "argon2"), cost(clone / "release" / MACHINE / "argon2_tool")) for _ in range(10)]
    whole, alone = map(min, zip(*both))
    assert whole - alone <= 100


def test_a_changed_c_source_is_linked_again_and_a_changed_proved_source_needs_the_toolchain(clone):
    write_program(clone / "build/prove", '#!/bin/sh\necho "it asks for $*" >&2\nexit 1\n')
    with open(clone / "bindings/c/src/driver.h", "a") as opened:
        opened.write("/* another comment */\n")
    run(clone / "install", "/usr", env={"DESTDIR": clone / "installed"})
    assert (clone / "installed/usr/lib/libproved_argon2.a").stat().st_size > 0
    assert run(clone / "argon2", *"new argon2id 19 1 8 1 4 seq".split(), input="password").startswith("$argon2id$")
    with open(clone / "crates/argon2/src/lib.rt", "a") as opened:
        opened.write("// another comment\n")
    refuses(1, f"it asks for {PROVED[0]}/libargon2_c.a", clone / "install", "/usr", env={"DESTDIR": clone / "other"})
    refuses(70, f"it asks for {PROVED[0]}/libargon2_c.a", clone / "argon2", *CHEAP)
