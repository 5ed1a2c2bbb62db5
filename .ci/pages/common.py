"""Shared by this folder's generators and tests: functions that read and write files, and a copy of the repository."""

import os
import re
import shutil
import sys
import textwrap
from pathlib import Path

sys.path.insert(0, str(Path(__file__).resolve().parents[1]))
from shared import TOP, lines, output_of, rows, run  # noqa: E402, F401
from parts import filled, marked  # noqa: E402

os.environ['PATH'] += ':/opt/rattle/bin'

FIRST, REPORTS = 'README.md', 'docs/reports.txt'


def require(is_well, fault):
    """Exits if something cannot be written."""
    if not is_well:
        sys.exit(f'.ci/pages/write: {fault}')


def read(file):
    return (TOP / file).read_text(encoding='utf-8')


def write(file, text):
    (TOP / file).write_text(text, encoding='utf-8')


def fill(file, name, part, by):
    """Writes the lines between the marks `NAME, by .ci/pages/BY` and `end` of a file."""
    text, script = read(file), f'.ci/pages/{by}'
    require(marked(text, name, script), f'{file} has no part {name}, by {script}')
    write(file, filled(text, name, script, '\n'.join(part)))


def files(*patterns):
    """Returns the files of the repository that fit one of these globs, or all, without what is built."""
    listed = run('git', 'ls-files', '-co', '--exclude-standard', '--', *(f':(glob){one}' for one in patterns)).stdout
    return sorted(name for name in {*listed.splitlines()} if (TOP / name).is_file())


def quoted(names):
    return ', '.join(f'`{name}`' for name in names)


def link(name, path):
    """Returns a name in a page of docs/, as a link to its file."""
    return f'[`{name}`](../{Path(path).relative_to(TOP)})'


def row(*cells):
    """Returns a row of a page's table."""
    return f'| {" | ".join(map(str, cells))} |'


def wrapped(text, indent=''):
    return textwrap.fill(text, 120, subsequent_indent=indent, break_on_hyphens=False, break_long_words=False)


class Copy:
    """A copy of the repository: all files that git does not ignore, staged there, and what build/make has built."""

    def __init__(self, folder):
        self.top = folder / 'copy'
        for file in files():
            (self.top / file).parent.mkdir(parents=True, exist_ok=True)
            shutil.copy2(TOP / file, self.top / file, follow_symlinks=False)
        self.run('git', 'init', '-q')
        self.run('git', 'add', '-A')
        (self.top / 'bindings/out').symlink_to(TOP / 'bindings/out')

    def run(self, *words):
        return output_of(*words, cwd=self.top)

    def change(self, file, old, new):
        """Replaces what matches a pattern, or creates a file."""
        text, count = re.subn(old, lambda _: new, (self.top / file).read_text(encoding='utf-8')) if old else (new, 1)
        assert count == 1, f'{file} has {old} {count} times'
        (self.top / file).write_text(text, encoding='utf-8')

    def assert_is_current(self):
        """Fails if `.ci/pages/write` changes anything."""
        self.run('.ci/pages/write')
        self.run('git', '--no-pager', 'diff', '--exit-code')
