"""./check runs what is asked for, its exit status is 0 only if all of that was checked, and it leaves nothing behind
when it is stopped. Its steps are replaced by short ones."""

import json
import os
import signal
import subprocess
import time

import pytest
from shared import TOP

STEPS = '''
import sys
import check_all
from check_all import Part, Step
check_all.TOP = check_all.Path({top!r})
check_all.PACKAGES = {{'all': ['dpkg'], 'lacking': ['no-such-package']}}
check_all.STEPS = (
    Step('good', 'one is one', (Part('all', ('true',)), Part('both', ('true',), quick=''))),
    Step('bad', 'one is two', (Part('all', ('sh', '-c', 'echo it is not; exit 1')),)),
    Step('skipped', 'gcc is old', (Part('all', ('sh', '-c', 'echo another gcc; exit 77')),)),
    Step('tests', 'tests pass', (Part('all', files='{top}/test_own.py', tests='not slow', quick='one'),)),
    Step('nothing', 'nothing is there', (Part('all', files='{top}/test_own.py', tests='three'),)),
    Step('lacking', 'a package is there', (Part('all', ('true',)),)),
    Step('long', 'it ends', (Part('all', ('sh', '-c', 'touch $TMPDIR/begun; sleep 1001 & sleep 1001')),)))
sys.exit(check_all.main(sys.argv[1:]))
'''
TESTS = '''
import pytest
def test_one(): pass
def test_two(): pytest.skip('an old processor')
def test_slow(): assert False
'''


@pytest.fixture
def check(tmp_path):
    """Starts ./check with these words, over the short steps."""
    (tmp_path / 'test_own.py').write_text(TESTS, encoding='utf-8')
    (tmp_path / 'setup.cfg').touch()
    (tmp_path / 'temporary').mkdir()

    def start(*words):
        return subprocess.Popen(
            ['/usr/bin/python3', '-B', '-c', STEPS.format(top=str(tmp_path)), *words], cwd=TOP / 'build', text=True,
            stdout=subprocess.PIPE, stderr=subprocess.PIPE, env={**os.environ, 'TMPDIR': str(tmp_path / 'temporary')})
    return start


@pytest.mark.parametrize('words, status, said', [
    ('--only good', 0, 'one is one'),
    ('--only good bad', 1, 'it is not'),
    ('--only good skipped', 1, 'skipped: skipped: another gcc'),
    ('--only good skipped --allow-skips', 0, 'skipped: skipped: another gcc'),
    ('--only bad --allow-skips', 1, '1 of 1 cases failed'),
    ('--only tests', 1, 'skipped: tests: test_two: an old processor'),
    ('--only tests --quick', 0, 'tests: all (1 cases'),
    ('--only nothing', 1, '1 of 1 cases failed'),
    ('--only skipped --quick', 1, 'Nothing of what was asked for runs'),
    ('--only lacking', 2, 'install these packages first: apt-get install no-such-package'),
    ('--only unknown', 2, 'invalid choice'),
    ('--library /bin/true', 2, 'Check a library before it is stripped'),
    ('--quick --library good', 2, 'not allowed with')])
def test_the_status_is_0_only_if_all_was_checked(check, words, status, said):
    output, errors = (process := check(*words.split())).communicate()
    assert process.returncode == status and said in output + errors, output + errors


def test_a_machine_can_read_the_report(check):
    report = json.loads(check('--json', '--only', 'good', 'bad', 'skipped', 'tests').communicate()[0])
    assert [report[name] for name in ('passed', 'cases', 'failed', 'skipped')] == [
        False, 6, ['bad: it is not'], ['skipped: another gcc', 'tests: test_two: an old processor']]


@pytest.mark.parametrize('number', [signal.SIGINT, signal.SIGTERM, signal.SIGHUP])
def test_it_leaves_nothing_behind_when_it_is_stopped(check, number, tmp_path):
    process, folder = check('--only', 'long'), tmp_path / 'temporary'
    while not [*folder.glob('*/begun')]:
        time.sleep(0.1)
    process.send_signal(number)
    assert process.communicate() == ('', 'stopped\n') and process.returncode == 130  # (all have closed their output)
    assert not [*folder.iterdir()]
