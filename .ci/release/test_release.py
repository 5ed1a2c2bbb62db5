"""Compares release/ with what is built here from these sources (build/release), and verifies strings by its programs.
In a copy of this repository, without the toolchain, `./argon2` and an installed program start. They name a changed or
forged file, other sources and another machine, and install nothing."""

import hashlib
import os
import re
import shutil
import time

import pytest
from machines import machines
from running import PROVED, VERSION, in_namespace, runs_here
from shared import TOP, output_of, run
from test_packages import copy_tree

pytestmark = pytest.mark.timeout(5400)
needs_root = pytest.mark.skipif(os.geteuid() != 0, reason='that takes root, and namespaces')
RELEASE = TOP / 'release'
FILES = re.findall(r'(?m)^[0-9a-f]{64}  (.+)$', (RELEASE / 'MANIFEST').read_text(encoding='utf-8'))
TOOL, ARCHIVE, SHARED = 'x86_64/argon2_tool', 'x86_64/libproved_argon2.a', f'x86_64/libproved_argon2.so.{VERSION}'
WORDS = 'hash argon2d 19 2 256 2 32 par somesalt'.split()
TAG = '7b69c92d7c3889aad1281dbc8baefc12cc37c80f1c75e33ef2c2d40c28ebc573'  # libargon2's, of `password`
NOTICE = 'proved and built elsewhere, from exactly these sources'
HIDES = '[[ ! -d /opt/rattle ]] || mount -t tmpfs none /opt/rattle; ! PATH=$PATH:/opt/rattle/bin command -v rt; "$@"'


# ---- what is compared

@pytest.fixture(scope='session')
def compared():
    """Compares release/ with what is built here. The proofs are those of the crates, which CI has proved before."""
    output_of('build/release', '--kept')


def test_release_is_what_is_built_here_and_has_each_machine_and_build(compared):
    builds = [build for machine in machines().values() for build in machine.builds]
    assert {name.partition('/')[0] for name in FILES} == {'windows-x86_64', 'wasm32', 'portable', *machines(), *builds}


@pytest.mark.parametrize('cpu', map(runs_here, PROVED))
def test_the_proved_program_verifies_the_outside_strings(compared, cpu):
    program = f'{cpu}/argon2_program'
    output_of('build/prove', program)
    for line in (TOP / 'bindings/vectors/texts.txt').read_text(encoding='utf-8').splitlines():
        text, answer = line.split('\t')
        came = run(TOP / 'bindings/out' / program, 'verify', text, input='password').stdout
        assert came == answer.removeprefix('ERR ') + '\n', text


# ---- without the kit

@pytest.fixture
def copy(tmp_path):
    yield copy_tree(tmp_path / 'copy')
    shutil.rmtree(tmp_path / 'copy')


def in_copy(copy, *words, **how):
    return run(*in_namespace(HIDES, *words), cwd=copy, **how)


@needs_root
def test_launchers_start_at_once_and_say_once_where_the_program_comes_from(copy, tmp_path):
    """Stand-ins print which tunables they get, the user's or ours."""
    began, prefix = time.monotonic(), tmp_path / 'chosen'
    launchers = prefix / 'bin/proved-argon2', copy / 'argon2'
    first, second = (in_copy(copy, './argon2', *WORDS, input='password').stdout for _ in range(2))
    assert time.monotonic() - began < 4 and f'{TAG}\n' in first and second.startswith(f'{TAG}\n')
    assert NOTICE in first and NOTICE not in second and NOTICE in in_copy(copy, './install', prefix).stdout
    for tool in copy / 'release' / TOOL, prefix / f'libexec/proved-argon2/{os.uname().machine}/argon2_tool':
        tool.write_text('#!/bin/sh\necho "$GLIBC_TUNABLES"\n', encoding='utf-8')
    take_sum(copy, TOOL)
    for launcher in launchers:
        assert run(launcher, *WORDS).stdout.endswith('glibc.malloc.hugetlb=1\n')
        assert run('env', 'GLIBC_TUNABLES=glibc.malloc.check=0', launcher, *WORDS).stdout.endswith('.check=0\n')
    assert in_copy(copy, './install', '--remove', prefix).returncode == 0 and not prefix.exists()


# ---- what is refused

def forge(*names, is_listed=False):
    """Changes the last byte of files of release/, and lists their new sums if `is_listed`."""
    def plant(copy):
        for name in names:
            content = (copy / 'release' / name).read_bytes()
            (copy / 'release' / name).write_bytes(content[:-1] + bytes([content[-1] ^ 1]))
            if is_listed:
                take_sum(copy, name)
    return plant


def edit(file, pattern, other):
    def plant(copy):
        text = (copy / file).read_text(encoding='utf-8')
        (copy / file).write_text(re.sub(pattern, other, text, count=1, flags=re.M), encoding='utf-8')
        assert (copy / file).read_text(encoding='utf-8') != text
    return plant


def take_sum(copy, name):
    """Lists the sum that a file has now."""
    own = hashlib.sha256((copy / 'release' / name).read_bytes()).hexdigest()
    edit('release/MANIFEST', f'^.*  {name}$', f'{own}  {name}')(copy)


def add_a_file(copy):
    shutil.copy(shutil.which('true'), copy / 'release/x86_64/more.so')


INSTALL, PACKAGE, HASH = './install', './package', './argon2'
LIST, CHANGED = 'release/MANIFEST', 'is not the file that release/MANIFEST names'
ARM64 = 'aarch64/libproved_argon2.a'
# Each fault that is planted into a copy, the commands that have to find it, and what they have to print.
FORGERIES = {
    'another program': (forge(TOOL), [INSTALL, PACKAGE, HASH], f'release/{TOOL} {CHANGED}'),
    'another library': (forge(ARCHIVE), [INSTALL, PACKAGE], f'release/{ARCHIVE} {CHANGED}'),
    'another library for ARM64': (forge(ARM64), [PACKAGE], f'release/{ARM64} {CHANGED}'),
    'other sources': (edit('crates/argon2/src/lib.rt', r'\Z', '// more\n'), [INSTALL, PACKAGE, HASH],
                      f'{LIST} is of other sources of '),
    'another processor': (edit(LIST, f'  {TOOL}', '  x86_65/argon2_tool'), [INSTALL, PACKAGE],
                          f'{LIST} does not name {TOOL}'),
    'a list that lacks a file': (edit(LIST, f'^.*  {SHARED}\n', ''), [INSTALL, PACKAGE],
                                 f'{LIST} does not name {SHARED}'),
    'a file that the list does not name': (add_a_file, [INSTALL, PACKAGE], f'{LIST} does not name x86_64/more.so'),
}


@needs_root
@pytest.mark.parametrize('name', FORGERIES)
def test_a_forgery_is_found(copy, tmp_path, name):
    (plant, commands, expected), made = FORGERIES[name], tmp_path / 'made/there'
    plant(copy)
    for command in commands:
        ran = in_copy(copy, command, *{HASH: WORDS, PACKAGE: ['--to', made], INSTALL: [made]}[command])
        assert ran.returncode == (70 if command == HASH else 1) and expected in ran.stdout, ran.stdout
        assert command != HASH or ran.stdout.count('\n') == 1
    assert not (tmp_path / 'made').exists()


def compare(copy, *before):
    """Compares a copy's release/ with what was built here. The copy is current, since notes hold hashes, not times."""
    shutil.copytree(TOP / 'bindings/out', copy / 'bindings/out', symlinks=True)
    return run(*before, copy / 'build/release', '--kept', cwd=copy)


def test_the_comparison_names_each_difference(compared, copy):
    """One of the differences is a version of a compiler that no mirror has."""
    for plant in (forge(*FILES, is_listed=True), add_a_file, edit(LIST, '^# version .*', '# version 9.9.9'),
                  edit(LIST, r'gcc-12=\S+', 'gcc-12=12.9'), edit(LIST, '^# kit .*', '# kit another')):
        plant(copy)
    ran = compare(copy)
    assert ran.returncode == 1
    expected = [f'FAILED: {LIST} is that', 'FAILED: the tools of release/MANIFEST link it', 'FAILED: its toolchain is',
                'release/x86_64: more.so', *(f'release/{name} differ' for name in FILES)]
    assert not [line for line in expected if line not in ran.stdout], ran.stdout


def test_the_comparison_takes_no_option_of_apt_get_for_a_package(compared, copy):
    edit(LIST, '^(# packages .*)', r'\1 -oDPkg::Post-Invoke::=id')(copy)
    ran = compare(copy)
    assert ran.returncode == 1 and f'{LIST} names other packages than build/current.sh' in ran.stdout


# Stand-ins pretend that other versions than the listed are installed here, and that a chroot with those listed links
# the files of release/.
STAND_INS = {
    'dpkg-query': '/usr/bin/dpkg-query "$@" | sed "s/wabt=[^ ]*/wabt=0/"', 'debootstrap': 'mkdir -p "$4"',
    'chroot': '[ "${2##*/}" != link ] || { mkdir -p "$1/linked" && cp -R "release/$3" "$1/linked"; }'}


def test_what_only_the_listed_versions_link_is_named(compared, copy, tmp_path):
    """This shows if somebody has replaced a compiler."""
    forge('x86_64/argon2_tool', is_listed=True)(copy)
    for name, text in STAND_INS.items():
        (tmp_path / name).write_text(f'#!/bin/sh\n{text}\n', encoding='utf-8')
        (tmp_path / name).chmod(0o755)
    ran = compare(copy, 'env', f'PATH={tmp_path}:{os.environ["PATH"]}')
    assert re.findall(r'/release/(\S+) differ', ran.stdout) == ['x86_64/argon2_tool'] and ran.returncode == 3


@needs_root
def test_the_comparison_asks_for_the_toolchain(copy):
    ran = in_copy(copy, './argon2', 'prove')
    assert ran.returncode == 1 and 'build/release: there is no rt: this takes rattle-kit-' in ran.stdout, ran.stdout


@pytest.mark.parametrize('machine, text', [
    ('riscv64', 'install: nothing is built for riscv64: nothing is installed'),
    ('aarch64', 'this machine is x86_64, and no aarch64: nothing is installed')])
def test_another_machine_is_refused(tmp_path, machine, text):
    came = run('env', f'MACHINE={machine}', INSTALL, tmp_path / 'made')
    assert came.returncode == 1 and text in came.stdout and not (tmp_path / 'made').exists()
