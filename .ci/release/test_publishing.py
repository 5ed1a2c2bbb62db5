"""Whoever follows docs/PUBLISHING.md line by line, on a machine that knows nothing of them, gets a release."""

import re
import sys

import pytest
from shared import TOP, output_of, run

sys.path.insert(0, str(TOP / '.ci/pages'))
from common import Copy, read  # noqa: E402

PUBLISHER, CONTACT, ADDRESS = 'A Publisher', 'security@publisher.org', 'https://publisher.org/proved-argon2'
# A publisher fills in these by hand.
FILLED_IN = [('PROJECT', r'(?s)Publisher: .+', f'Publisher: {PUBLISHER}\nContact: {CONTACT}\nAddress: {ADDRESS}\n'
              'Group: org.publisher\n'),
             ('debian/changelog', ' -- .*>', f' -- {PUBLISHER} <{CONTACT}>')]
# Where each of these texts is, in an edit that is a reason not to sign the tag.
UNSIGNED = {
    'PROJECT has placeholders': ('PROJECT', 'publisher.org/', 'publisher.example/'),
    'a part of the packages that has no licence': ('proved-argon2.spdx', 'Concluded: MIT.*', 'Concluded: NOASSERTION'),
    'unreleased': ('CHANGELOG.md', '1 December 2026', 'Unreleased'),
    'release/ is of other sources': ('crates/argon2_c/src/errors.rt', r'\Z', '\n')}


def commands_of(heading):
    """Returns the commands of a section of the page, with this publisher. No password protects the key."""
    section = read('docs/PUBLISHING.md').partition(f'\n## {heading}\n')[2].partition('\n## ')[0]
    commands = '\n'.join(re.findall(r'^(?: {4})+(\S.*)$', section, re.M))
    assert commands, heading
    return commands.replace('PUBLISHER', PUBLISHER).replace('CONTACT', CONTACT).replace(
        'gpg --quick', "gpg --batch --passphrase '' --quick")


@pytest.fixture
def public(tmp_path, monkeypatch):
    """Yields the public repository, in which a publisher has followed the page up to the files."""
    (tmp_path / 'keys').mkdir(mode=0o700)
    for name, value in {'GNUPGHOME': tmp_path / 'keys', 'HOME': tmp_path, 'GIT_CONFIG_GLOBAL': '/dev/null',
                        'GIT_CONFIG_NOSYSTEM': '1', 'EMAIL': ''}.items():
        monkeypatch.setenv(name, str(value))
    copy = Copy(tmp_path)
    copy.run('git', '-c', 'user.name=A', '-c', 'user.email=a@b.example', 'commit', '-qm', 'earlier commits')
    begin = '\n'.join(map(commands_of, ('Make a key', 'Begin the public repository')))
    output_of('bash', '-euc', begin, cwd=copy.top)
    copy.top = tmp_path / 'public'
    for edit in FILLED_IN:
        copy.change(*edit)
    copy.run('bash', '-euc', commands_of('Fill in PROJECT'))
    yield copy
    run('gpgconf', '--kill', 'all')


def commit(copy):
    copy.run('git', 'commit', '-qam', 'release: change what the tag depends on', '-m', 'It is a test.')


def sign(copy):
    return run('.ci/release/tag', cwd=copy.top)


def finish(copy):
    """Does by hand what follows in INSTALL: the version gets a date, and CI passes."""
    changes = (copy.top / 'CHANGELOG.md').read_text(encoding='utf-8')
    if 'Unreleased, ' in changes:
        copy.change('CHANGELOG.md', r'Unreleased, \w+ \d+', '1 December 2026')
    else:  # (the copy has been released already)
        copy.change('CHANGELOG.md', r'(?<=## 1\.0\.0\n\n)[^.]+', '1 December 2026')
    commit(copy)


def note_that_ci_passed(copy):
    (copy.top / 'out').mkdir(exist_ok=True)
    (copy.top / 'out/passed').write_text(copy.run('git', 'rev-parse', 'HEAD'), encoding='utf-8')


def test_the_page_names_the_tools_of_packages():
    tools, = re.findall(r'(?ms)^declare -Ar tools=\((.*?)^\)', read('package'))
    # dpkg-buildpackage demands the last one, also for the source package of a PPA.
    needed = {*re.findall(r"(?m)(?:^|[ '])([a-z0-9][\w.+-]+):[\w/]", tools), 'python3-hatchling', 'build-essential'}
    assert len(needed) > 10 and needed - {'python3', 'binutils'} <= {*commands_of('What you need').split()}


def test_a_publisher_is_named_everywhere_and_nothing_says_that_there_is_none(public):
    old = dict(re.findall(r'(?m)^(\w+): (?:https://)?(.*)$', read('PROJECT')))
    names = [name for key in ('Contact', 'Address', 'Group') for name in ('-e', old[key])]
    assert run('git', 'grep', '-lF', *names, '--', ':!.ci', ':!CHANGELOG.md', cwd=public.top).stdout == ''
    assert run('git', 'grep', '-nE', '(<!--|#) until published|Do Not Upload|"private": true|publish = false', '--',
               ':!.ci', ':!package', cwd=public.top).stdout == ''
    first = (public.top / 'README.md').read_text(encoding='utf-8')
    assert 'a known use in\nproduction.\n' in first and 'a release' not in first.partition('## What is missing')[0]
    public.assert_is_current()
    pytest_of = '/usr/bin/python3', '-B', '-P', '-m', 'pytest', '-q', '-c', 'setup.cfg', '--rootdir=.'
    assert '7 passed' in public.run(*pytest_of, '.ci/gate/test_commits.py')


def test_the_tag_is_signed_only_if_nothing_prevents_it(public):
    finish(public)
    public.run('git', 'config', 'status.showUntrackedFiles', 'no')
    (public.top / 'new').touch()
    assert 'a file is not committed' in sign(public).stdout
    (public.top / 'new').unlink()
    assert 'CI has not passed over this commit' in sign(public).stdout
    for reason, edit in UNSIGNED.items():
        public.change(*edit)
        commit(public)
        note_that_ci_passed(public)
        assert reason in sign(public).stdout
        public.run('git', 'reset', '-q', '--hard', 'HEAD~')
    assert not public.run('git', 'tag')
    note_that_ci_passed(public)
    assert not sign(public).returncode
    public.run('git', 'tag', '--verify', public.run('git', 'tag').strip())


def test_the_commands_of_the_page_make_a_release(public):
    """CI has passed before. Whoever checks it runs the commands of another page."""
    finish(public)
    note_that_ci_passed(public)
    public.run('bash', '-euc', commands_of('Make the files'))
    checks, = re.findall(r'^    (gpg --verify .*)$', read('docs/INSTALL.md'), re.M)
    assert run('sh', '-ec', checks, cwd=public.top / 'out/release').stdout.count(': OK\n') > 20


def test_only_a_signature_over_the_checksums_passes_the_command_of_the_page(public):
    """If it is passed SHA256SUMS.asc alone, gpg accepts any signed message there, and does not read SHA256SUMS."""
    command, = re.findall(r'^    (gpg --verify .*)$', read('docs/INSTALL.md'), re.M)
    for form, status in ('--detach-sign', 0), ('--clear-sign', 2):
        signed = 'SHA256SUMS' if status == 0 else 'VERSION'
        made = f'sha256sum VERSION >SHA256SUMS; gpg --yes --armor {form} -o SHA256SUMS.asc {signed}; {command}'
        assert run('sh', '-c', made, cwd=public.top).returncode == status
