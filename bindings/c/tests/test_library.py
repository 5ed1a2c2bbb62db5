"""Tests of the library that the programs in C do not make: the header in each language, warnings of ignored results,
whether the programs name each call and pointer of the headers, the archive's symbols, which build a processor gets, and
the C of docs/C.md. CTest runs it (CMakeLists.txt), with the folder of its programs in TESTS and the library in
ARCHIVE.
"""
import os
import re
import shutil
import subprocess
from functools import cache
from pathlib import Path

import pytest

HERE = Path(__file__).resolve().parent
FACE, TOP, DRIVER = HERE.parent, HERE.parents[2], HERE.parents[2] / 'bindings/c/src'
TESTS, ARCHIVE = Path(os.environ.get('TESTS', '.')), os.environ.get('ARCHIVE', '')
HEADERS = '\n'.join(path.read_text(encoding='utf-8') for path in sorted((FACE / 'include').glob('*.h')))
WARNINGS = *'-O2 -Wall -Wextra -Wpedantic -Wconversion -Werror'.split(), '-I', FACE / 'include'
LANGUAGES = [*((compiler, 'c', f'-std={standard}') for compiler in ('gcc', 'clang') for standard in ('c99', 'c11')),
             *((compiler, 'c++', '-std=c++17', '-Wold-style-cast') for compiler in ('g++', 'clang++'))]
# The driver needs these from the system. The proved code uses no heap, and no secret passes through a function of the
# system that copies.
OF_SYSTEM = set("""_GLOBAL_OFFSET_TABLE_ __errno_location __stack_chk_fail aligned_alloc calloc clock_gettime
    explicit_bzero free getpid getrandom madvise malloc mmap munmap pthread_attr_destroy pthread_attr_init
    pthread_attr_setdetachstate pthread_attr_setguardsize pthread_attr_setstacksize pthread_create pthread_join
    pthread_setcancelstate pthread_sigmask secure_getenv sem_destroy sem_init sem_post sem_wait sigfillset strcmp
    strlen sysconf""".split())
# The features that x86-64-v2 and x86-64-v3 need, by qemu's names, without those that an older qemu or glibc needs;
# x86-64-v4's, by the driver's names; and qemu's processors that lack one feature of the first two. The compiler's
# builtin sees that they lack it (builds.c).
OF_V2, OF_V3 = 'cx16 sse4.2 popcnt lahf-lm'.split(), 'fma movbe xsave avx f16c bmi1 avx2 bmi2 abm'.split()
OF_V4 = [f'AVX512{part}' for part in ('F', 'DQ', 'CD', 'BW', 'VL')]
LACKING = [*((f'Nehalem,-{name}', '1 of 1') for name in OF_V2),
           *((f'Haswell,-{name}', '2 of 2') for name in OF_V3)]
SAVED = '__asm__ volatile("xgetbv".*'

pytestmark = pytest.mark.skipif(not ARCHIVE, reason='CTest names the archive')
needs_qemu = pytest.mark.skipif(not shutil.which('qemu-x86_64'), reason='there is no qemu-x86_64')


def run(*command, **how):
    return subprocess.run([*map(str, command)], text=True, capture_output=True, check=False, errors='replace', **how)


def output_of(*command, **how):
    done = run(*command, **how)
    assert done.returncode == 0, done.stdout + done.stderr
    return done.stdout


@cache
def checks_of(program):
    """Returns what a program's checks say."""
    if os.environ.get('PEER') == '0' and not (TESTS / program).exists():
        pytest.skip('there is no libargon2')
    return re.findall(r'^passed: (.*)$', output_of(TESTS / program, cwd=TESTS), re.M)


# ---- the headers

@cache
def calls(of=r'(?:PROVED_ARGON2_CHECKED (?:static inline )?uint\d+_t|\bvoid)'):
    """Returns the calls of the headers whose result is to be looked at, and those that free, with what each is
    given."""
    text = ' '.join(line for line in HEADERS.splitlines() if not line.startswith('#'))
    found = re.findall(rf'{of} proved_argon2_(\w+)\(([^()]*)\)', text)
    assert len(found) == 43
    return {name: [' '.join(given.split()) for given in arguments.split(',')] for name, arguments in found}


def name_of(argument):
    return re.search(r'(\w+)(\[\w*\])?$', argument)[1]


@pytest.mark.parametrize('compiler', ['gcc', 'clang'])
@pytest.mark.parametrize('call', sorted({*calls()} - {'memory_free', 'buffers_free'}))
def test_an_ignored_result_is_a_warning(compiler, call, tmp_path):
    given = calls()[call]
    variables = ''.join(f'static {argument};\n' for argument in given)
    made = f'proved_argon2_{call}({", ".join(map(name_of, given))})'
    source, compiles = tmp_path / 'call.c', (compiler, '-std=c11', *WARNINGS, '-c', '-o', '/dev/null')
    source.write_text(f'#include "proved_argon2.h"\n{variables}int main(void) {{ return {made} != 0; }}\n', 'utf-8')
    output_of(*compiles, source)
    source.write_text(f'#include "proved_argon2.h"\n{variables}int main(void) {{ {made}; return 0; }}\n', 'utf-8')
    assert 'unused-result' in run(*compiles, source).stderr


def test_declares_each_number_as_checked():
    """The result of a few calls need not be checked."""
    lines = HEADERS.splitlines()
    unchecked = [line for before, line in zip(lines, lines[1:])
                 if re.match(r'(static inline )?uint(32|64)_t proved_argon2_', line)
                 and not before.startswith('PROVED_ARGON2_CHECKED')]
    assert [re.search(r'argon2_(\w+)', line)[1] for line in unchecked] == ['library_version', 'buffers_free_idle']


def test_version_is_that_of_the_repository():
    version = (TOP / 'VERSION').read_text(encoding='utf-8').strip()
    major, minor, patch = map(int, version.split('.'))
    assert f'version {version} {major * 1000000 + minor * 1000 + patch}\n' in output_of(TESTS / 'numbers')


# ---- what the programs name

def test_each_pointer_is_null_once():
    pointers = {f'{call} without {name_of(argument)}' for call, given in calls().items() for argument in given
                if '*' in argument or '[' in argument}
    found = [name for name in checks_of('null_pointers') if re.fullmatch(r'\w+ without \w+', name)]
    assert sorted(found) == sorted(pointers)


def test_looks_at_what_each_call_leaves():
    """It leaves out the password calls with options, which the calls without options call, and tune, which hashes no
    password."""
    expected = {'message', *(call for call in calls() if not re.fullmatch('password_.*_with|tune', call))}
    assert {name.split()[0] for program in ('clearing', 'proved_clearing') for name in checks_of(program)
            if re.match(r'\w+ (leaves|clears) ', name)} == expected


# ---- the code of docs/C.md

def test_the_code_of_the_page_is_in_the_tested_program():
    program, page = (HERE / 'quick_start.c').read_text(encoding='utf-8'), TOP / 'docs/C.md'
    pieces = re.findall(r'^```c\n(.*?)^```$', page.read_text(encoding='utf-8'), re.M | re.S)
    assert len(pieces) == 3 and [piece for piece in pieces if piece not in program] == []


@pytest.mark.parametrize('language', LANGUAGES, ids=' '.join)
def test_the_code_of_the_page_compiles_and_runs(language, tmp_path):
    compiler, kind, *flags = language
    output_of(compiler, *flags, *WARNINGS, '-x', kind, HERE / 'quick_start.c', '-x', 'none', ARCHIVE, '-pthread', '-o',
              tmp_path / 'program')
    output_of(tmp_path / 'program')


# ---- the archive

def symbols(*words):
    return [line.split() for line in output_of('nm', *words).splitlines()]


def test_needs_only_system_functions():
    defined = {words[2] for words in symbols(ARCHIVE) if len(words) == 3}
    assert {words[1] for words in symbols(ARCHIVE) if words[:1] == ['U']} - defined - OF_SYSTEM == set()
    seen = [words[2] for words in symbols('-g', '--defined-only', ARCHIVE) if len(words) == 3]
    assert seen and [name for name in seen if not re.match('proved_(argon2|driver|x86_64_v[234])_', name)] == []


@pytest.fixture
def objects(tmp_path):
    output_of('ar', 'x', ARCHIVE, cwd=tmp_path)
    return tmp_path


def test_table_leads_to_each_call_of_each_build(objects):
    """A call that it does not lead to would run an older build: right, but slowly. Only the proved calls call
    `expect` and `fill_ahead`, each those of its own build."""
    proved = {words[2] for words in symbols('-g', '--defined-only', *objects.glob('proved_argon2_x86-64-v?.o'))
              if len(words) == 3 and not words[2].endswith(('_expect', '_fill_ahead'))}
    assert proved == {words[1] for words in symbols('-u', objects / 'proved_argon2_table.o')
                      if words[1:] and words[1].startswith('proved_x86_')} != set()


# ---- which build a processor gets

def build_by(cpu, program):
    return run('qemu-x86_64', '-cpu', cpu, program, '--name').stdout.strip()


def planted(objects, old, new):
    """Compiles builds.c with a choice in which one text is replaced by another."""
    text = (DRIVER / 'proved_argon2_builds.c').read_text(encoding='utf-8')
    changed, program = re.sub(old, new, text), objects / 'planted'
    assert changed != text
    (objects / 'planted.c').write_text(changed, encoding='utf-8')
    flags = '-std=c11', '-D_GNU_SOURCE', '-O2', '-I', DRIVER, '-I', FACE / 'include'
    output_of('gcc', *flags, '-march=x86-64', '-fPIC', '-c', objects / 'planted.c',
              '-o', objects / 'proved_argon2_builds.o')
    output_of('gcc', *flags, HERE / 'builds.c', *objects.glob('*.o'), '-pthread', '-o', program)
    return program


@needs_qemu
@pytest.mark.parametrize('cpu', ['Haswell', 'Nehalem', 'core2duo'])
def test_chooses_on(cpu):
    output_of('qemu-x86_64', '-cpu', cpu, TESTS / 'builds')


@needs_qemu
@pytest.mark.parametrize('cpu,build', [('Haswell', '3 of 3'), ('Nehalem', '2 of 2'), *LACKING])
def test_takes_the_build_for(cpu, build):
    # The C library of Debian 13 compares strings by BMI1 if there is AVX2, and so ends on this emulated processor.
    if 'bmi1' in cpu and [*map(int, os.confstr('CS_GNU_LIBC_VERSION').split()[1].split('.'))] > [2, 36]:
        pytest.skip('this C library needs BMI1')
    assert build_by(cpu, TESTS / 'builds') == build


@needs_qemu
def test_takes_an_older_build_without_wide_registers(objects):
    """The system saves only the lower halves of the registers."""
    assert build_by('Haswell', planted(objects, re.escape(SAVED[:-2]) + '.*', 'saved = 3;')) == '2 of 3'


@needs_qemu
@pytest.mark.parametrize('name', ['results', 'jobs', 'null_pointers'])
def test_leads_to_no_newer_build(name):
    """qemu ends a program at an instruction that its processor does not have."""
    output_of('qemu-x86_64', '-cpu', 'Nehalem', TESTS / name)


@needs_qemu
def test_finds_a_jump_to_a_newer_build(objects):
    output_of('objcopy', '--redefine-sym=proved_x86_64_v2_encode=proved_x86_64_v3_encode',
              objects / 'proved_argon2_table.o')
    program = objects / 'astray'
    output_of('gcc', '-std=c11', '-D_GNU_SOURCE', '-I', FACE / 'include', HERE / 'results.c', *objects.glob('*.o'),
              '-pthread', '-o', program)
    output_of(program)
    assert run('qemu-x86_64', '-cpu', 'Nehalem', program).returncode != 0


@pytest.mark.parametrize('old,new', [
    *((re.escape('&words[LEAF_7 / 32], &ecx, &edx);'), rf'\g<0> words[LEAF_7 / 32] &= ~bit_{feature};')
      for feature in OF_V4),
    *((re.escape(SAVED[:-2]) + '.*', f'saved = {saved};') for saved in ('0xC6', '0xA6', '0x66'))])
def test_asks_for_all_of_v4(old, new, objects):
    """Chooses x86-64-v3 if one feature is missing, which is simulated here: qemu has no processor with AVX-512."""
    if output_of(TESTS / 'builds', '--name').strip() != '4 of 4':
        pytest.skip('this processor has no AVX-512')
    assert output_of(planted(objects, old, new), '--name').strip() == '3 of 4'


@pytest.mark.skipif(os.geteuid() != 0, reason='that takes root')
def test_environment_chooses_nothing_with_other_rights(tmp_path):
    """A setuid program has the rights of its owner."""
    owned, named = tmp_path / 'owned', {**os.environ, 'PROVED_ARGON2_CPU': 'x86-64-v1'}
    shutil.copy(TESTS / 'builds', owned)
    shutil.chown(owned, 'nobody')
    owned.chmod(0o4755)
    assert output_of(owned, '--name', env=named) == output_of(TESTS / 'builds', '--name')
    assert output_of(TESTS / 'builds', '--name', env=named).startswith('1')
