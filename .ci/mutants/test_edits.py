"""Has `.ci/mutants/edits` judge wrong edits of each kind, and three right ones, in small crates (tests.txt)."""

import re
import shutil
import time
from concurrent.futures import ThreadPoolExecutor
from pathlib import Path

import pytest
import shared
from shared import TOP, rows
from shared.sources import MUTANTS, TRIED_ALONE

TESTS = Path(__file__).with_name('tests.txt')
EDITS = [(*re.split('[/ ]', what), *fields) for what, *fields in rows(TESTS) if fields]
FILES = re.findall(r'^=== (\S+)\n(.*?)(?=^===|\Z)', TESTS.read_text(encoding='utf-8'), re.M | re.S)


def run(top, *words):
    ran = shared.run(top / '.ci/mutants/edits', *words)
    return ran.returncode, dict(re.findall(r'^(\S+): (.*)$', ran.stdout, re.M))


def files_of(folder):
    return {path: path.read_bytes() for path in folder.rglob('*') if path.is_file()}


def folders_hidden_in(folder):
    return [path for path in folder.glob('.*') if path.is_dir()]


@pytest.fixture(scope='module')
def top(tmp_path_factory):
    """Returns a repository with the crates and the edits."""
    made = tmp_path_factory.mktemp('top')
    for folder in ('.ci/mutants', '.ci/shared', 'build'):
        shutil.copytree(TOP / folder, made / folder)
    for file, text in FILES:
        (made / file).parent.mkdir(parents=True, exist_ok=True)
        (made / file).write_text(text, encoding='utf-8')
    for crate, name, kind, old, new, goals, _ in EDITS:
        goals = ''.join(f'goal: {goal}\n' for goal in goals.split(', ') if goal)
        file = made / f'crates/{crate}' / (f'{kind}/{name}.edit' if kind == TRIED_ALONE else MUTANTS)
        file.parent.mkdir(parents=True, exist_ok=True)
        with file.open('a', encoding='utf-8') as to:
            to.write('file: src/lib.rt\n' + '\n' * (kind != TRIED_ALONE) if not to.tell() else '')
            to.write(f'{kind} {name}\n' * (kind != TRIED_ALONE) + f'old: {old}\nnew: {new}\n{goals}')
            to.write('\n' * (kind != TRIED_ALONE))
    return made


@pytest.fixture(scope='module')
def judged(top):
    return run(top)


@pytest.mark.parametrize('crate, name, begin', [(*edit[:2], edit[-1]) for edit in EDITS])
def test_each_edit_gets_the_expected_verdict(judged, crate, name, begin):
    assert judged[0] == 1 and judged[1][f'{crate}/{name}'].startswith(begin)


def test_a_named_edit_is_judged_and_an_unknown_name_fails(top, judged):
    """Kept work stays unchanged."""
    before = files_of(top / 'crates/sample/out/incremental')
    (status, good), (wrong, none) = run(top, 'good'), run(top, 'good', 'no_such_edit')
    assert status == 0 and good == {'sample/good': judged[1]['sample/good']}
    assert wrong == 1 and none['no_such_edit'].startswith('FAILED: ')
    assert before and files_of(top / 'crates/sample/out/incremental') == before


def test_another_step_may_begin_to_keep_work_meanwhile(top, judged, tmp_path):
    """It may still be writing its work, which is neither used nor changed."""
    out = shutil.copytree(top, tmp_path / 'top') / 'crates/sample/out'
    shutil.rmtree(out / 'incremental')
    names = ('good', 'of_a_trait')
    with ThreadPoolExecutor() as pool:
        running = pool.submit(run, tmp_path / 'top', *names)
        while not (first := folders_hidden_in(out)) and not running.done():
            time.sleep(.01)
        (out / 'incremental').mkdir()
        (out / 'incremental/proofs').write_text('begun')
    assert first and running.result() == (0, {f'sample/{name}': judged[1][f'sample/{name}'] for name in names})
    assert [*files_of(out / 'incremental').values()] == [b'begun'] and not folders_hidden_in(out)


def test_a_crate_whose_mutants_passed_is_judged_again_only_if_something_changes(top, judged, tmp_path):
    """A crate with a mutant that failed is judged each time."""
    top = shutil.copytree(top, tmp_path / 'top')
    for file in top.glob(f'crates/*/{MUTANTS}'):
        file.unlink()
    both = 0, {name: judged[1][name] for name in ('sample/good', 'sample/good_too')}
    assert [run(top, word) for word in ('--new', '--write', '--new', '--write')] == [both, both, (0, {}), (0, {})]
    for file, sign in (('crates/sample/src/lib.rt', '//'), ('.ci/mutants/edits', '#')):
        with (top / file).open('a', encoding='utf-8') as changed:
            changed.write(f'\n{sign} another line\n')
        assert [run(top, word) for word in ('--write', '--new')] == [both, (0, {})]
    harmless = 'file: src/lib.rt\nold: half + half\nnew: half + half + 0\ngoal: returns-clause-value\n'
    (top / f'crates/sample/{MUTANTS}').write_text(f'refused harmless\n{harmless}', encoding='utf-8')
    assert [(status, len(said)) for status, said in (run(top, word) for word in ('--write', '--new'))] == [(1, 3)] * 2
