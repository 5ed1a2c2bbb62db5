"""Runs copies of the programs and the tests that the proofs leave in crates/*/out, with faults.c preloaded, and reports
each result."""

import base64
import functools
import os
import random
import re
import shutil
import subprocess
import tempfile
from collections import Counter
from concurrent.futures import ThreadPoolExecutor
from pathlib import Path
from typing import NamedTuple

import patience
from argon2.low_level import Type, hash_secret
from running import ENVIRONMENT, MACHINE, build_preloaded, built
from shared import TOP
from toolchain import is_current

PASSWORD = b'password'
PROCESSORS = sorted(os.sched_getaffinity(0))
TRIES = 100  # of a start, before it counts as refused (`TRIES` of argon2_fill/src/workers/crew.rt)
SLICES = 4  # of a pass
NOTE = re.compile(r'^(request|freed|start|refused|denied|late|VmHWM:.*)\n', re.M)
VALUE, NO_MEMORY, NO_WORKER = 'value', 'Out of memory\n', 'A worker was refused\n'
VARIANTS, VERSIONS = ('argon2d', 'argon2i', 'argon2id'), (16, 19)
SEED = os.environ.get('SEED') or str(random.randrange(1 << 32))
# The programs that are built here, and copies that no simultaneous build replaces.
FOLDER = tempfile.TemporaryDirectory()
os.chmod(FOLDER.name, 0o711)  # (for users who are not root)
FAULTS = str(build_preloaded(TOP / '.ci/faults/faults.c', FOLDER.name))


@functools.cache
def copy_of(name):
    """Returns a copy of a crate's binary that the proofs left, which has to be built from these sources, or of the
    command's program in C."""
    if name == 'argon2_tool':
        return Path(shutil.copy(built() / MACHINE / name, FOLDER.name))
    crate = name.removesuffix('_tests')
    binary = TOP / f'crates/{crate}/out/{name}'
    assert is_current(crate, binary, says_why=True), f'{binary.name} was built from other sources'
    return Path(shutil.copy(binary, FOLDER.name))


class Came:
    """The result of a run: its status, its output, the notes of faults.c, their number by kind, its other errors, and
    what was seen meanwhile."""

    def __init__(self, status, output, errors, seen):
        said = errors.decode(errors='replace')
        self.status, self.output, self.seen = status, output.decode(errors='replace'), seen
        self.notes, self.errors = NOTE.findall(said), NOTE.sub('', said)
        self.met = Counter(self.notes)

    def end(self, status, output, errors=''):
        """`VALUE` if it ended as these say; otherwise the resource error, or how else it ended."""
        if (self.status, self.output, self.errors) == (status, output, errors):
            return VALUE
        is_refused = (self.status, self.output) == (2, '') and self.errors in (NO_MEMORY, NO_WORKER)
        return self.errors if is_refused else f'status {self.status}, {self.output!r:.500}, {self.errors!r:.4000}'


def run(words, is_over_faults=True, meanwhile=lambda process: None, input_bytes=PASSWORD, how=None, **variables):
    """Runs a command with the password on its standard input, and kills it if it hangs. `meanwhile` is called with the
    running process; `how` is for subprocess, and the variables are for faults.c."""
    own = {'LD_PRELOAD': FAULTS} if is_over_faults else {}
    env = {**ENVIRONMENT, **own, **{name: str(value) for name, value in variables.items()}}
    pipes = dict.fromkeys(('stdin', 'stdout', 'stderr'), subprocess.PIPE)
    with subprocess.Popen(words, env=env, **pipes, **(how or {})) as process, ThreadPoolExecutor(1) as beside:
        seen = beside.submit(meanwhile, process)
        try:
            said = patience.communicate(process, input_bytes)
        finally:
            process.kill()
        return Came(process.returncode, *said, seen.result())


class Hash(NamedTuple):
    """A hash by the program. `most` limits its workers: None allows one for each lane, and 0 allows none."""
    variant: str
    version: int
    passes: int
    memory: int
    lanes: int
    length: int
    most: int = None
    salt: bytes = b'some-salt'
    password: bytes = PASSWORD

    def settings(self):
        mode = 'par' if self.most is None else f'max{self.most}' if self.most else 'seq'
        return [self.variant, *map(str, self[1:6]), mode]

    def words(self):
        return ['hash', *self.settings(), self.salt.decode()]

    def starts(self):
        """Returns how many workers are started: this many for each slice, or none if only the caller works."""
        workers = self.lanes if self.most is None else min(self.most, self.lanes)
        return SLICES * self.passes * workers if workers > 1 else 0

    @functools.cache
    def text(self):
        """libargon2's encoded hash."""
        return hash_secret(self.password, self.salt, self.passes, self.memory, self.lanes, self.length,
                           Type(VARIANTS.index(self.variant)), self.version).decode()

    def output(self):
        """Returns what is written."""
        return f'{base64.b64decode(self.text().rpartition("$")[2] + "==").hex()}\n{self.text()}\n'
