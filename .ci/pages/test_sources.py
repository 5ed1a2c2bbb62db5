"""Sources follow the rules for layout, names and comments, as the tools of each language judge."""

import re
from pathlib import Path

import pytest
from common import TOP, Copy, files, output_of, read, run

LONGEST = 120
# A language: how its files' names end or first lines begin, and what judges them.
LANGUAGES = {
    'Python': (r'\.py', r'#!.*python3', 'flake8'),
    'the package for Python': (r'/proved_argon2/\w+\.py', '//!$^', 'pydocstyle --select D100,D101,D102,D103,D104,D106'),
    'shell': (r'\.(ba)?sh', r'#!.*\b(ba)?sh', 'shellcheck --severity warning --format gcc'),
    'Rust': (r'\.rs', '//!$^', 'rustfmt --edition 2021 --config-path bindings/rust --check --files-with-diff'),
    'C': (r'\.[ch]', '//!$^', 'clang-format --dry-run -Werror --ferror-limit=0'),
    'Rattle': (r'crates/.*/(src|specs|proofs)/.*\.(rt|antt)', '//!$^', 'rattle fmt --check'),
}
# An item of the types for JavaScript, and the end of a comment above it.
ITEM_OF_TYPES = re.compile(r'(\*/\n)?^((?:export (?!default)|declare | {4}(?:readonly )?\w+\??: (?!typeof)).*)', re.M)


@pytest.mark.parametrize('language', LANGUAGES)
def test_files_are_laid_out(language, needs):
    end, begin, judge = LANGUAGES[language]
    own = [name for name in files() if not name.startswith('release/')
           and (re.fullmatch(f'.*{end}', name) or re.match(begin.encode(), (TOP / name).read_bytes()))]
    long = [f'{name}:{number}' for name in own for number, line in enumerate(read(name).splitlines(), 1)
            if len(line) > LONGEST and language != 'Rattle']
    assert own and not long
    needs(judge.split()[0])
    came = run(*judge.split(), *own)
    assert came.returncode == 0, came.stdout


def test_each_file_of_tests_runs_in_ci():
    """`.ci/tests.txt` lists what CTest runs in CI, with the steps of ./check. Tests of C and Python run the others."""
    run_by_others = 'bindings/python/tests/', 'bindings/c/tests/test_library.py'
    tests = [name for name in files('**/test_*.py') if not name.startswith(run_by_others)]
    steps = re.findall(r'''files=f?["'](\S+?)[ "']''', read('build/check_all.py'))
    listed = re.findall(r'^\S+', read('.ci/tests.txt'), re.M) + steps
    assert tests and not {*tests}.difference(listed)


def test_each_item_for_javascript_has_a_comment():
    items = ITEM_OF_TYPES.findall(read('bindings/javascript/src/index.d.ts'))
    assert len(items) > 50 and not [item for comment, item in items if not comment]


def test_lemma_files_begin_with_a_comment():
    lemmas = [name for name in files('crates/*/proofs/*.antt') if not name.endswith('/Lib.antt')]
    assert lemmas and not [name for name in lemmas if not read(name).startswith('-- ')]


def test_each_character_can_be_seen():
    """A diff does not show signs of the direction of text, or characters without a width. (The vectors need two.)"""
    signs = r'(?![\t\n\x01])\p{C}|\p{DI}|(?![ \x{A0}])\p{Z}'
    came = run('env', 'LC_ALL=C.UTF-8', 'git', 'grep', '-lIP', signs, '--', '.')
    assert came.returncode == 1, came.stdout


def test_the_texts_of_the_licences_are_the_same_wherever_they_are():
    mit, apache, zope = (read(f'LICENSES/{name}.txt') for name in ('MIT', 'Apache-2.0', 'ZPL-2.1'))
    of_debian = re.sub(r'^ \.?', '', read('debian/copyright'), flags=re.M)
    assert mit in read('LICENSE') and apache in read('LICENSE') and mit[mit.index('Permission'):] in of_debian
    assert zope in re.sub('^    ', '', read('NOTICE'), flags=re.M)
    for name, whole in (('Apache-2.0', 'Apache-2.0'), ('GPL-3.0-or-later', 'GPL-3'), ('LGPL-2.1-or-later', 'LGPL-2.1')):
        of_debian = Path('/usr/share/common-licenses', whole).read_text(encoding='utf-8')
        assert read(f'LICENSES/{name}.txt').split() == of_debian.split(), name


@pytest.fixture
def archive(tmp_path):
    """Returns the folder of an archive of the sources."""
    copy = Copy(tmp_path)
    copy.run('git', 'archive', '--prefix=archive/', '--output=archive.tar', copy.run('git', 'write-tree').strip())
    copy.run('tar', '-xf', 'archive.tar')
    return copy.top / 'archive'


def test_each_file_has_a_licence(archive, needs):
    needs('reuse')
    holders = [re.findall(r'^ .*\d{4} .*|^Copyright: .*', read(name), re.M)[:2]
               for name in ('.reuse/dep5', 'debian/copyright')]
    assert holders[0] == holders[1] != []
    came = run('reuse', '--root', archive, 'lint')
    assert came.returncode == 0, came.stdout


def test_each_file_has_the_licences_that_the_spdx_file_says(archive, needs):
    """These are ours and, for a built file in which a part of another project is, also those of that part."""
    needs('reuse')
    ours, *others = (
        ({*re.split(' (?:AND|OR|WITH) ', re.search('Concluded: (.*)', part)[1])},
         {*' '.join(re.findall(r' in: (.*?)\.[ <]', part)).split()})
        for part in read('proved-argon2.spdx').split('PackageName: ')[1:])
    listed = output_of('reuse', '--root', archive, 'spdx')
    found = {name: {*re.findall('^LicenseInfoInFile: (.*)', rest, re.M)}
             for name, rest in re.findall(r'^FileName: \./(.*)\n((?:.+\n)*)', listed, re.M)}
    of_others = {name: [licences for licences, within in others if Path(name).name in within]
                 for name in found if name.startswith('release/')}
    assert len({*map(frozenset, found.values())}) == 3
    assert found == {name: ours[0].union(*of_others.get(name, [])) for name in found}
