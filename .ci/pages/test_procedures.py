"""Instructions on pages work: those for a changed fact and, with what is built, those of the first page and the
generated text about the prover's reports."""

import re

import pytest
from assumptions import BUILT, PROGRAM
from common import FIRST, Copy, read, run

CONFIG, ROWS = 'crates/argon2_standard/src/config.rt', 'crates/argon2_vectors/rows.txt'
ERRORS = 'crates/argon2_c/errors.txt'


@pytest.fixture
def copy(tmp_path):
    return Copy(tmp_path)


def test_the_command_of_the_page_installs_the_packages_that_the_list_names(tmp_path):
    """It installs no other file of the folder."""
    command, = re.findall(r'^    sudo (apt install .*)$', read('docs/INSTALL.md'), re.M)
    names = [f'{name}_1.0.0-1_{machine}.deb' for name, machine in (
        ('libproved-argon2-1', 'amd64'), ('proved-argon2', 'amd64'), ('python3-proved-argon2', 'all'))]
    others = 'proved-argon2_1.0.0-1_arm64.deb', 'proved-libargon2-1_1.0.0-1_amd64.deb', 'proved-argon2-1.0.0.tgz'
    for name in *names, *others:
        (tmp_path / name).touch()
    script = f'dpkg() {{ echo amd64; }}; apt() {{ echo "$@"; }}; sha256sum * >SHA256SUMS; touch added-"$0"; {command}'
    came = run('bash', '-euc', script, 'proved-argon2_9-1_all.deb', cwd=tmp_path)
    assert came.stdout.split() == ['install', *(f'./{name}' for name in sorted(names))]


@pytest.mark.parametrize('change, places', [
    ((CONFIG, '46 MiB, 1 pass.', '46 MiB, 3 passes.'), [CONFIG]),
    ((ROWS, '\nConfig::owasp1\t', '\nConfig::owasp\t'), [ROWS]),
    ((CONFIG, 'IsPreset Argon2id 7168 5', 'IsPreset Argon2id 8192 5'), [
        'config.rs', 'settings.go', 'Settings.java', 'options.js', 'USE.md']),
    (('crates/argon2/src/limits.rt', 'time_cost: 10,', 'time_cost: 12,'), [
        'proved_argon2.h', 'usage.rt', 'words.c', 'help.txt', 'proved-argon2.1.in', 'USE.md', 'options.js']),
    ((ERRORS, '[|] LanesTooFew [|]', '| FewLanes |'), ['errors.go', 'errors.js', 'index.d.ts', 'USE.md'])])
def test_write_names_each_file_that_was_not_changed_by_hand(copy, change, places):
    copy.change(*change)
    with pytest.raises(AssertionError, match='.*'.join(map(re.escape, places))):
        copy.run('.ci/pages/write')


def test_the_generated_text_about_reports_is_current(copy):
    assert run('build/make').returncode == 0 and run('build/prove', BUILT[PROGRAM][1]).returncode == 0
    assert 'not built' not in copy.run('.ci/pages/write')
    copy.assert_is_current()


def test_the_commands_of_the_first_page_run(built):
    """The last output is the verdict. `.ci/run`, which runs this test, only has to exist."""
    commands = re.findall('^    (.*)$', re.sub('^```.*?^```', '', read(FIRST), flags=re.M | re.S), re.M)
    # The very first call says where the proved part was proved.
    run('./argon2', 'rehash', 'argon2i', '19', '2', '256', '1', '32', '')
    text = re.sub(r'^\.ci/run$', 'test -x .ci/run', '\n'.join(commands), flags=re.M)
    came = run('bash', '-euo', 'pipefail', '-c', text)
    assert len(commands) >= 4 and (came.returncode, came.stdout.strip()) == (0, 'true')
