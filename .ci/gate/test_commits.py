"""Commits: the subject is the place and an imperative, in at most 72 characters, the body says why, and nothing is
merged. A commit that removes more lines with checks than it adds, or rows of docs/promises-open.txt, says
`Fewer checks: WHY`. Commits before BEGUN were judged when they landed."""

import re

import pytest
from shared import run

BEGUN, OPEN = '7c9d68e1', 'docs/promises-open.txt'
# A line with a check that a commit removes or adds: for pytest, C, Node, CTest, or Rattle (a test, a mutant, or a row,
# which has a tab).
CHECK = r'^{} *(?:(?:async )?def test_|assert\b|check\w*\(|test\(|judge\w*\(|in_c\(|test_of\w*\(|planted\(' \
        r'|#\[test\]|refused \w+$|\S.*\t)'
PLACES = '.ci', 'bindings', 'crates'
# A short subject: the place, and then no form of a verb except the imperative; `bring` only looks like another.
SUBJECT = re.compile(r'(?=.{1,72}$)[^:]+: (?!(?:fix|features?|figures?)\b)'
                     r'(?!(?!(?:bring|embed|need|feed|focus)\b)\w+(?:ing|ed|[^s]s) )\S+ \S', re.I)


def is_well(parents, subject, body):
    return len(parents) < 2 and SUBJECT.match(subject) and body.strip()


def has_fewer(commit):
    """Returns whether a commit removes rows of known faults, or more lines with checks than it adds."""
    opened = [run('git', 'show', f'{at}:{OPEN}').stdout.count(' | ') for at in (f'{commit}~', commit)]
    changed = run('git', 'show', '--unified=0', '--format=', commit, '--', *PLACES).stdout
    gone, new = (len(re.findall(CHECK.format(re.escape(sign)), changed, re.M)) for sign in '-+')
    return opened[0] > opened[1] or gone > new


@pytest.mark.skipif(run('git', 'rev-parse', 'HEAD').returncode, reason='this is no repository of git with commits')
def test_each_commit_says_what_and_why():
    # In a shallow clone, these are the commits that are there.
    before = [f'^{BEGUN}~'] * (run('git', 'cat-file', '-t', f'{BEGUN}~').stdout == 'commit\n')
    for commit in run('git', 'rev-list', 'HEAD', *before).stdout.split():
        parents, subject, body = run('git', 'log', '-1', '--format=%P%n%s%n%b', commit).stdout.split('\n', 2)
        assert is_well(parents.split(), subject, body), f'{commit} {subject}'
        assert not has_fewer(commit) or 'Fewer checks: ' in body, f'{commit} {subject}'


@pytest.mark.parametrize('parents, subject, body', [
    ('a b', 'c: merge it', 'Why'), ('a', 'c: add it', ''), ('a', 'c: added it', 'Why'), ('a', 'Add it', 'Why'),
    ('a', f'c: add {"it" * 40}', 'Why'), ('a', 'c driver: fix late threads', 'Why')])
def test_a_wrong_commit_message_is_rejected(parents, subject, body):
    assert is_well(['a'], 'c: add it', 'Why') and not is_well(parents.split(), subject, body)
