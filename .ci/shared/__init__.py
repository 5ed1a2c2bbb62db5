"""The functions that the scripts of the folders beside this one share."""

import subprocess
import sys
from pathlib import Path

TOP = Path(__file__).resolve().parents[2]
# The folders of `machines`, `toolchain`, `parts`, the definitions, the planted leaks, and what tests of bindings share.
sys.path += [str(TOP / folder)
             for folder in ('build', 'docs', 'crates/argon2_vectors', 'bindings/c/tests', 'bindings/tests')]


def run(*words, **how):
    """Runs a command at the top, and returns its status and all its output."""
    return subprocess.run([str(word) for word in words],
                          **{'cwd': TOP, 'stdin': None if 'input' in how else subprocess.DEVNULL,
                             'stdout': subprocess.PIPE, 'stderr': subprocess.STDOUT, 'text': True, 'check': False,
                             **how})


def output_of(*words, **how):
    """Output of a command that must succeed."""
    done = run(*words, **how)
    assert done.returncode == 0, (words, done.stdout[-4000:])
    return done.stdout


def ready(part='x86_64'):
    """Returns the folder with a part of these sources: release/, or else what is built here (build/prepare)."""
    return Path(output_of('build/prepare', part, stderr=subprocess.DEVNULL).strip())


def checks_at_once(rt):
    """Returns how many checks fit into memory: one of the largest crate took four fifths of 3 GB."""
    return max(1, min(rt.processors(), int(rt.free() / 3_000_000_000)))


# ---- lists: lines, and rows

def lines(path):
    """Lines of a list, without those beginning with `#`."""
    return [line for line in path.read_text(encoding='utf-8').split('\n') if line and not line.startswith('#')]


def rows(path):
    """Returns the lines of a table, each split at ` | `."""
    return [[part.strip() for part in f'{line} '.split(' | ')] for line in lines(path)]
