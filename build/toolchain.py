"""Loads the toolchain's own code, beside `rt`, and tells whether its builds are current."""
import contextlib
import functools
import os
import shutil
import subprocess
import sys
from importlib.machinery import SourceFileLoader
from importlib.util import module_from_spec, spec_from_loader

HERE = os.path.dirname(os.path.realpath(__file__))


@functools.cache
def load_rt():
    """Returns the command `rt` as a module; its library is `load_rt().rtlib`."""
    os.environ["PATH"] = os.environ.get("PATH", "") + ":/opt/rattle/bin"
    found = shutil.which("rt")
    if not found:
        why = subprocess.getoutput(f'"{HERE}/check_release"') or "this proves anew"
        sys.exit(f"there is no rt, and {why}: to prove and build takes a kit of build/kits.txt in /opt/rattle")
    path = os.path.realpath(found)
    sys.path.append(os.path.dirname(path))
    loader = SourceFileLoader("rt", path)
    module = module_from_spec(spec_from_loader("rt", loader))
    loader.exec_module(module)
    return module


@contextlib.contextmanager
def locked(crate):
    """Keeps other commands of the kit out of a crate and those below it. A process that took this lock twice would wait
    for itself."""
    crate.held = load_rt().rtlib.lock([*crate.below(), crate])
    try:
        yield
    finally:
        for descriptor in crate.held:
            os.close(descriptor)


def shell(script, *words, check=False, **how):
    """Runs functions of build/current.sh, which is no Python, so that ./argon2 and ./install need none."""
    begin = 'root=$1 why="" && shift && . "$root/build/current.sh" && '
    return subprocess.run(["sh", "-uc", begin + script, "sh", os.path.dirname(HERE), *words], check=check, text=True,
                          stdout=subprocess.PIPE, **how)


def stamp(crate):
    """Returns a line that identifies the sources of a crate and of those below it (`line_of`)."""
    return shell('line_of "$1" && echo "$line" || ! echo "$why" >&2', crate, check=True).stdout.strip()


def mark(crate, line, file):
    """Notes that a file is built from these sources of a crate; returns whether they are still the same."""
    return shell('note_built "$@" || ! echo "$why" >&2', crate, line, file).returncode == 0


def is_current(crate, *files, says_why=False):
    """Returns whether files of a crate's build, and its sources, are what they were when the files were marked."""
    script = 'crate=$1 && shift && for file; do is_built "$crate" "$file" || { echo "$why" >&2; exit 1; }; done'
    return shell(script, crate, *files, stderr=None if says_why else subprocess.DEVNULL).returncode == 0


def build_below(crate):
    """Has the libraries below a crate proved and built, unless a whole proof left them and no source has changed since;
    returns whether they exist. They fit only each other: if another command rebuilt one, the mark in its folder is
    gone."""
    libraries = crate.below()
    if all(is_current(library.name, os.path.dirname(library.rlib)) for library in libraries):
        return True
    for library in libraries:
        library.out = crate.out
    return not any(library.build_rlib([], anew=False) for library in libraries)
