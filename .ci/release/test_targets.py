"""Targets that wine or qemu runs, and those that nothing runs here, beside the tests in C (bindings/c):

- For ARM64, qemu runs these with Debian's C library, Python and libargon2 (aarch64_root): the shell's commands, random
  calls (SEED, or any) of our libargon2 beside Debian's, the crate's tests, packages.
- The machine code of the library for Windows (build/link) has to be what the toolchain made for Linux, touch nothing
  below the stack pointer, and extend a stack page by page. The crate passes its tests.
- The library as C, and C's calls for Go and Java, compile for systems of which only a compiler is here, and ./install
  compiles it.
"""
import os
import re
import secrets
import shutil
import sys
from pathlib import Path

import pytest
from machines import machines
from running import CRATES_OF_DEBIAN, exports, first_lines
from shared import TOP, output_of, ready, run

sys.path.insert(0, str(TOP / 'machine_code'))
from linked import Code  # noqa: E402

SEED, WARNINGS = os.environ.get('SEED', str(secrets.randbits(32))), ('-O2', '-Wall', '-Wextra', '-Werror')
ARCHIVE, DLL, INCLUDE = 'libproved_argon2.a', 'proved_argon2.dll', TOP / 'bindings/c/include'
# ARM64
CC, QEMU, ROOT = 'aarch64-linux-gnu-gcc', 'qemu-aarch64-static', TOP / 'out/aarch64/root'
FUZZ = TOP / 'bindings/libargon2/tests/fuzz.py'
TAG = '6d093c501fd5999645e0ea3bf620d7b8be7fd2db59c20d9fff9539da2bf57037'
# Windows
BUILDS, WINDOWS, TOOLS, PAGE = machines()['x86_64'].builds, 'windows-x86_64', 'x86_64-w64-mingw32-', 4096
# The declarations of a C library, where there is none for a system.
DECLARED = {
    'errno.h': 'extern int *__error(void);\n#define errno (*__error())',
    'pthread.h': 'typedef struct opaque *pthread_t;\n'
                 'typedef struct {\n    long words[8];\n} pthread_attr_t, pthread_mutex_t, pthread_cond_t;\n'
                 'int pthread_create(pthread_t *, const pthread_attr_t *, void *(*)(void *), void *);\n'
                 'int pthread_join(pthread_t, void **), pthread_setcancelstate(int, int *);\n'
                 'int pthread_mutex_init(pthread_mutex_t *, const void *), pthread_mutex_destroy(pthread_mutex_t *);\n'
                 'int pthread_mutex_lock(pthread_mutex_t *), pthread_mutex_unlock(pthread_mutex_t *);\n'
                 'int pthread_cond_init(pthread_cond_t *, const void *), pthread_cond_destroy(pthread_cond_t *);\n'
                 'int pthread_cond_wait(pthread_cond_t *, pthread_mutex_t *), pthread_cond_signal(pthread_cond_t *);\n'
                 '#define PTHREAD_CANCEL_DISABLE 0',
    'signal.h': 'typedef unsigned sigset_t;\n#define SIG_SETMASK 3\nint sigfillset(sigset_t *);\n'
                'int pthread_sigmask(int, const sigset_t *, sigset_t *);',
    'stdlib.h': 'void *malloc(size_t), *calloc(size_t, size_t), *aligned_alloc(size_t, size_t);\n'
                'void free(void *), abort(void);',
    'string.h': 'void *memcpy(void *, const void *, size_t), *memmove(void *, const void *, size_t);\n'
                'void *memset(void *, int, size_t);\nsize_t strlen(const char *);',
    'stdio.h': '',
    'sys/random.h': 'int getentropy(void *, size_t);',
    'time.h': 'struct timespec {\n    long tv_sec, tv_nsec;\n};\n#define CLOCK_MONOTONIC 6\n'
              'int clock_gettime(int, struct timespec *);',
    'unistd.h': 'typedef int pid_t;\npid_t getpid(void);\n#ifndef __APPLE__\nint getentropy(void *, size_t);\n#endif'}


def named(**variables):
    return ['env', *(f'{name}={value}' for name, value in variables.items())]


def arm(*command, **variables):
    """Returns a command for ARM64."""
    return [*named(**variables), QEMU, '-L', ROOT, *command]


def compile_for_arm(source, program, *words):
    output_of(CC, '-std=gnu11', '-O1', '-I', INCLUDE, source, *words, '-o', program)


@pytest.fixture(scope='module')
def on_arm():
    """Returns the folder with what is linked for ARM64, beside that with what is for x86-64."""
    if not shutil.which(QEMU) or not shutil.which(CC):
        pytest.skip(f'there is no {QEMU}, {CC}')
    root = run('bindings/tests/aarch64_root', ROOT)
    if root.returncode == 77:
        pytest.skip(f"Debian's packages for ARM64 cannot be had: {root.stdout[-200:]}")
    assert root.returncode == 0, root.stdout
    return ready('aarch64') / 'aarch64'


@pytest.fixture(scope='module')
def packages(on_arm, tmp_path_factory):
    folder = tmp_path_factory.mktemp('packages')
    output_of(*named(MACHINES='aarch64'), './package', '--to', folder)
    return folder


@pytest.fixture(scope='module')
def python(packages):
    """Debian's Python, with the wheel as pip there installs it."""
    site = packages / 'site'
    command = arm(ROOT / 'usr/bin/python3', PYTHONDONTWRITEBYTECODE=1, PYTHONPATH=site)
    output_of(*command, '-m', 'pip', 'install', '--no-index', '--no-deps', '--no-compile',
              '--disable-pip-version-check', '--quiet', '--target', site, *packages.glob('proved_argon2-*_aarch64.whl'))
    return command


@pytest.fixture(scope='module')
def made():
    """Returns the folder with what is linked for Windows."""
    if not shutil.which(f'{TOOLS}gcc-posix'):
        pytest.skip('there is no mingw-w64')
    return ready(WINDOWS)


@pytest.fixture
def wine(tmp_path):
    """Yields a command that runs a program by wine in its own folder, without parts that fetch files or write menus."""
    if not shutil.which('wine'):
        pytest.skip('there is no wine')
    how = named(WINEPREFIX=tmp_path / 'wine', WINEDEBUG='-all', WINEDLLOVERRIDES='mscoree,mshtml,winemenubuilder.exe=')
    run(*how, 'wine', 'wineboot')
    yield [*how, 'wine']
    run(*how, 'wineserver', '--kill')


# ---- the commands of the shell

def is_tool(*command):
    """Returns whether it hashes, and verifies."""
    text = output_of(*command, *'new argon2id 19 1 64 2 16 par'.split(), input='password').rstrip('\n')
    answers = [run(*command, 'check', text, input=word).stdout for word in ('password', 'passwort')]
    return answers == ['true\n', 'false\n']


def write_program(file, *command):
    file.write_text(f'#!/bin/sh\n{" ".join(map(str, command))}\n', encoding='utf-8')
    file.chmod(0o755)
    return file


def test_the_launcher_runs_the_programs_for_arm(on_arm, tmp_path):
    """A stand-in for `uname` names that machine."""
    output_of(*named(MACHINE='aarch64', DESTDIR=tmp_path), './install', '/usr')
    write_program(tmp_path / 'uname', 'echo', 'aarch64')
    tool = tmp_path / 'usr/libexec/proved-argon2/aarch64/argon2_tool'
    write_program(tool, 'exec', *arm(on_arm / 'argon2_tool'), '"$@"')
    assert is_tool(*named(PATH=f'{tmp_path}:{os.environ["PATH"]}'), tmp_path / 'usr/bin/proved-argon2')


@pytest.mark.parametrize('compiler, emulator', [
    ('cc', []), ('i686-linux-gnu-gcc', ['qemu-i386-static', '-L', '/usr/i686-linux-gnu'])])
def test_install_compiles_the_library_as_c_and_its_tool_works(tmp_path, compiler, emulator):
    if not all(map(shutil.which, [compiler, *emulator[:1]])):
        pytest.skip(f'there is no {compiler}, or nothing to run its programs')
    output_of(*named(MACHINE='portable', CC=compiler, DESTDIR=tmp_path), './install', '/usr')
    tool = tmp_path / 'usr/libexec/proved-argon2/portable/argon2_tool'
    write_program(tool, 'exec', *emulator, tool.rename(tmp_path / 'tool'), '"$@"')
    assert is_tool(tmp_path / 'usr/bin/proved-argon2')


# ---- libargon2's place, and Node's addon

def test_libargon2_on_arm_has_its_names_and_returns_the_same(on_arm):
    """500 random calls return the same as Debian's libargon2."""
    libraries = ROOT / 'usr/lib/aarch64-linux-gnu/libargon2.so.1', on_arm / 'libargon2.so.1'
    assert exports(libraries[0]) == exports(libraries[1]) and len(exports(libraries[0])) == 22
    assert '[libargon2.so.1]' in output_of('readelf', '-dW', libraries[1])
    output_of(*arm(ROOT / 'usr/bin/python3', '-B', FUZZ, SEED, 500, *libraries))


def test_addon_hashes_on_arm(on_arm, tmp_path):
    """A stand-in takes the place of the part of Node that a hash needs."""
    package = TOP / 'bindings/javascript'
    compile_for_arm(package / 'tests/addon.c', tmp_path / 'addon', '-I', package / 'addon', '-rdynamic',
                    '-Wl,--wrap=pthread_create')
    said = output_of(*arm(tmp_path / 'addon', on_arm / 'proved_argon2.node'))
    assert said.count('passed: ') == 3 and TAG in said


# ---- packages

def test_first_lines_of_python_run_on_arm(python):
    output_of(*python, '-c', first_lines('PYTHON.md'))


def test_packages_of_debian_for_arm(packages, tmp_path):
    """dpkg installs them over a state of its own, a program is built with them, and nothing is left after a purge."""
    there, program = tmp_path / 'there', tmp_path / 'quick_start'
    libraries, state = there / 'usr/lib/aarch64-linux-gnu', there / 'var/lib/dpkg'
    files = [*packages.glob('*_arm64.deb')]
    output_of('mkdir', '-p', state / 'info', state / 'updates')
    output_of('touch', state / 'status', state / 'available')
    dpkg = 'dpkg', f'--root={there}', f'--log={there}.log', *(f'--force-{of}' for of in ('depends', 'architecture'))
    output_of(*dpkg, '--install', *files)
    compile_for_arm(TOP / 'bindings/c/tests/quick_start.c', program, '-I', there / 'usr/include', '-L', libraries,
                    '-lproved_argon2')
    output_of(*arm(program, LD_LIBRARY_PATH=libraries))
    pair = ROOT / 'usr/lib/aarch64-linux-gnu/libargon2.so.1', libraries / 'libargon2.so.1'
    output_of(*arm(ROOT / 'usr/bin/python3', '-B', FUZZ, SEED, 10, *pair))
    output_of(*dpkg, '--purge', *(f'{file.name.partition("_")[0]}:arm64' for file in files))
    assert len(files) == 5 and not [path for path in there.rglob('*') if path.is_file() and state not in path.parents]


# ---- Rust

def passes_its_tests(target, made, folder, linker, runner, flags=''):
    """Debian's cargo, over Debian's crates. RUST_BACKTRACE is 0, since wine's dbghelp fails at a backtrace."""
    (folder / 'cargo').mkdir()
    (folder / 'cargo/config.toml').write_text(CRATES_OF_DEBIAN, encoding='utf-8')
    of, crate = f'CARGO_TARGET_{target.upper().replace("-", "_")}', TOP / 'bindings/rust'
    how = {'PATH': f'/usr/bin:{os.environ["PATH"]}', 'RUST_BACKTRACE': '0', 'CARGO_TARGET_DIR': folder / 'target',
           f'{of}_LINKER': linker, f'{of}_RUNNER': ' '.join(map(str, runner)), f'{of}_RUSTFLAGS': flags,
           'PROVED_ARGON2_LIB_DIR': made, 'CARGO_HOME': folder / 'cargo', 'CARGO_PROFILE_DEV_DEBUG': '0'}
    shown = output_of(*named(**how), 'cargo', 'test', '--offline', '--target', target, '--no-fail-fast', cwd=crate)
    expected = sum(len(re.findall(r'^ *#\[test\]', path.read_text(encoding='utf-8'), re.M))
                   for part in ('src', 'tests') for path in (crate / part).rglob('*.rs'))
    assert sum(map(int, re.findall(r'^test result: ok\. (\d+) passed; 0 failed', shown, re.M))) == expected > 0


def test_crate_passes_its_tests_on_windows(made, tmp_path, wine):
    passes_its_tests('x86_64-pc-windows-gnu', made / WINDOWS, tmp_path, f'{TOOLS}gcc-posix', wine)


def test_crate_passes_its_tests_on_arm(on_arm, tmp_path):
    """The tests include the outside vectors."""
    target = 'aarch64-unknown-linux-gnu'
    passes_its_tests(target, on_arm, tmp_path, CC, arm(), f'-L {ROOT}/usr/lib/rustlib/{target}/lib')


# ---- the machine code for Windows

# The code and the constants of all builds, with what assembler and linker put between them for Windows.
LAID_OUT = """SECTIONS {{
    code {code:#x} : {{ {each} }}
    constants {constants:#x} : {{ {kept} }}
    /DISCARD/ : {{ *(*) }}
}}"""
EACH = 'FILL(0xcccccccc) INPUT_SECTION_FLAGS (SHF_EXECINSTR) *{}.o(*) FILL(0x90909090) . = ALIGN(16);\n'
KEPT = '. = ALIGN({}); INPUT_SECTION_FLAGS (SHF_ALLOC & !SHF_EXECINSTR) *{}.o(*)\n'


def alignment_of(file):
    """Returns the alignment of an object's constants, which are one section for Windows."""
    return max(map(int, re.findall(r'\] \.(?:ro)?data\S* .* (\d+)$', output_of('readelf', '-SW', file), re.M)))


def others(made, folder, code):
    """Returns the parts, code or constants, in which a file for Windows differs from the library's objects for Linux,
    which are linked here at the same addresses."""
    objects = [folder / f'proved_argon2_{build}.o' for build in BUILDS]
    output_of('ar', 'x', '--output', folder, ready('x86_64') / 'x86_64' / ARCHIVE)
    for file in objects:  # (a linker would merge equal constants)
        output_of('objcopy', '--set-section-flags', '.rodata*=alloc,readonly,data', file)
    begins = {'code': code.code[0][1], 'constants': code.data[0][1]}
    (folder / 'script').write_text(LAID_OUT.format(
        each=''.join(map(EACH.format, BUILDS)),
        kept=''.join(map(KEPT.format, map(alignment_of, objects), BUILDS)), **begins), encoding='utf-8')
    outside = [f'--defsym=proved_driver_{name.removeprefix("proved_sysv_")}={at}' for at, name in code.names.items()
               if name.startswith('proved_sysv_')]
    output_of('ld', '-T', folder / 'script', *outside, *objects, '-o', folder / 'linked')
    for name, begin in begins.items():
        output_of('objcopy', '-O', 'binary', '-j', name, folder / 'linked', folder / name)
    linked = {name: (folder / name).read_bytes() for name in begins}
    kernels = [at - begins['code'] for at, name in code.names.items() if name.endswith('::fill_words')]
    assert linked['constants'] and len(kernels) == len(BUILDS) and max(kernels) < len(linked['code'])
    return [name for name, content in linked.items()
            if content != code.content[code.place(begins[name]):][:len(content)]]


@pytest.mark.parametrize('name', [DLL, ARCHIVE])
def test_machine_code_is_that_for_linux_and_spares_the_stack(made, tmp_path, name):
    code = Code(made / WINDOWS / name)
    assert not others(made, tmp_path, code)
    texts = [text for text, _ in code.instructions.values()]
    assert texts and not [text for text in texts
                          if re.search(r'\[rsp-0x|\[rsp[^]]*-0x', text) and not text.startswith('lea')]
    frames = [int(found[1], 16) for found in (re.fullmatch(r'sub +rsp,0x([0-9a-f]+)', text) for text in texts) if found]
    assert max(frames) < PAGE


def test_dll_exports_only_header_calls_needs_only_the_system_and_can_be_anywhere(made):
    of_dll = output_of(f'{TOOLS}objdump', '-p', made / WINDOWS / DLL)
    calls = re.findall(r'\[ *\d+\] (?:\+base\[ *\d+\] +[0-9a-f]+ )?(proved_\w+)$', of_dll, re.M)
    linux = re.findall(r' T (\w+)', output_of('nm', '-D', '--defined-only',
                                              *ready('x86_64').glob('x86_64/libproved_argon2.so.?.*')))
    assert {*calls} == {*linux} != set()
    assert {*re.findall(r'DLL Name: (\S+)', of_dll)} == {'ADVAPI32.dll', 'KERNEL32.dll', 'msvcrt.dll'}
    assert {'HIGH_ENTROPY_VA', 'DYNAMIC_BASE', 'NX_COMPAT'} <= {*of_dll.split()}


# ---- the library as C

TARGETS = 'x86_64-apple-macos11', 'arm64-apple-macos11', 'x86_64-freebsd14'


def compile_for(target, folder, file, *words):
    """Compiles a file without the headers of the target's system."""
    for name, text in DECLARED.items():
        (folder / name).parent.mkdir(exist_ok=True)
        (folder / name).write_text(f'#include <stddef.h>\n{text}\n', encoding='utf-8')
    output_of('clang', f'--target={target}', '-nostdlibinc', '-isystem', folder, *WARNINGS, *words, '-c', file, '-o',
              '/dev/null')


@pytest.mark.parametrize('target', TARGETS)
def test_compiles_for(target, tmp_path):
    files = sorted((ready('portable') / 'portable').glob('*.c'))
    assert len(files) == 10
    for file in files:
        compile_for(target, tmp_path, file)


@pytest.mark.parametrize('target', TARGETS)
def test_the_calls_of_go_and_java_compile_for(target, tmp_path):
    """Go's are the C code of calls.go. Java's are compiled with JNI's headers for Linux."""
    jdk = Path(shutil.which('javac')).resolve().parents[1] / 'include'
    calls = (TOP / 'bindings/go/calls.go').read_text(encoding='utf-8')
    (tmp_path / 'calls.c').write_text(re.search(r'^(#include .*?)\*/', calls, re.M | re.S)[1], encoding='utf-8')
    for file in tmp_path / 'calls.c', TOP / 'bindings/java/native/proved_argon2_java.c':
        compile_for(target, tmp_path, file, '-I', INCLUDE, '-isystem', jdk, '-isystem', jdk / 'linux',
                    '-Wno-unused-function', '-Wno-unused-parameter')
