"""The build sees whether a file is made from the present sources, and reads no file that is none of them."""

import shutil

import pytest
from shared import TOP, run

# Files that are no sources: headers where a compiler could look first, modules where Python looks first, and what would
# pass for a proof or a built file.
PLANTED = {
    'bindings/c/include/bits/stdint-uintn.h', 'bindings/c/src/bits/stdint-uintn.h', 'bindings/windows/windows.h',
    'bindings/portable/tempfile/__init__.py', 'build/struct.py', 'build/__pycache__/machines.pyc',
    'bindings/out/x86_64/libproved_argon2.a', 'crates/argon2/out/rlib/stamp', 'crates/argon2/out/incremental/proofs'}


@pytest.mark.parametrize('file, text, status', [('made', 'built', 0), ('crates/one/src/lib.rt', '2', 1),
                                                ('made', 'other', 1)])
def test_a_file_is_current_only_with_its_sources_and_its_bytes(tmp_path, file, text, status):
    (tmp_path / 'crates/one/src').mkdir(parents=True)
    for name, before in (('crates.txt', 'one:\n'), ('crates/one/src/lib.rt', '1'), ('made', 'built')):
        (tmp_path / name).write_text(before, encoding='utf-8')
    functions = f'root={tmp_path} && . build/current.sh && '
    assert run('sh', '-c', f'{functions} line_of one && note_built one "$line" $root/made').returncode == 0
    (tmp_path / file).write_text(text, encoding='utf-8')
    assert run('sh', '-c', f'{functions} is_built one $root/made').returncode == status


def test_a_tracked_file_in_a_folder_of_built_files_is_rejected(tmp_path):
    """It would pass for a file that was built here."""
    shutil.copytree(TOP / 'build', tmp_path / 'build')
    (tmp_path / 'bindings/out/x86_64').mkdir(parents=True)
    (tmp_path / 'bindings/out/x86_64/made').touch()
    script = 'git init -q && git add -f bindings && build/check_release; echo $?; build/make; echo $?'
    came = run('sh', '-c', script, cwd=tmp_path)
    why = 'git may not track bindings/out/x86_64/made, which would pass for a built file'
    assert came.stdout == f'{why}\n2\nbuild/make: {why}\n1\n'


def test_an_empty_release_is_rejected(tmp_path):
    shutil.copytree(TOP / 'build', tmp_path / 'build')
    (tmp_path / 'release').mkdir()
    (tmp_path / 'release/MANIFEST').touch()
    came = run(tmp_path / 'build/check_release')
    assert came.returncode == 2 and came.stdout == 'release/ has no files\n'


def copy_parts(folder, *names):
    """Copies parts of the repository, without what is built."""
    for name in names:
        (folder / name).parent.mkdir(exist_ok=True)
        if (TOP / name).is_dir():
            shutil.copytree(TOP / name, folder / name, ignore=shutil.ignore_patterns('out', 'std*', 'target'))
        else:
            shutil.copy(TOP / name, folder / name)


def test_release_is_built_in_a_folder_that_has_only_its_sources(tmp_path):
    """Other files among them take no part, and neither does the environment. A stand-in for the build notes what it
    sees, and one for the toolchain does nothing."""
    copy_parts(tmp_path, 'VERSION', 'build', 'bindings', 'crates', 'crates.txt')
    for name in PLANTED:
        (tmp_path / name).parent.mkdir(parents=True, exist_ok=True)
        (tmp_path / name).write_text('planted', encoding='utf-8')
    (tmp_path / 'bindings/c/src/link.h').symlink_to(tmp_path / 'build/struct.py')
    (tmp_path / 'build/make').write_text(
        f'#!/bin/sh\nenv >{tmp_path}/environment\ncd "$(dirname "$0")/.."\n'
        f'find . ! -type d -printf "%P\\n" >{tmp_path}/seen\nexit 1\n', encoding='utf-8')
    (tmp_path / 'rt').symlink_to('/bin/true')
    assert run('env', 'CPATH=/planted', f'PATH={tmp_path}:/usr/bin:/bin', tmp_path / 'build/release').returncode == 1
    seen = {*(tmp_path / 'seen').read_text(encoding='utf-8').splitlines()}
    assert {'build/make', 'crates/argon2_c/src/lib.rt', 'bindings/c/src/driver.h', 'VERSION'} <= seen
    assert sorted(seen & {*PLANTED, 'bindings/c/src/link.h'}) == []
    assert 'planted' not in (tmp_path / 'environment').read_text(encoding='utf-8')


def test_no_header_of_the_tree_is_found_in_place_of_the_system_s(tmp_path):
    """It could rename the library's calls, and put other ones in their place."""
    proved = 'x86-64-v2', 'x86-64-v3', 'x86-64-v4'
    if run('build/check_release', *proved).returncode == 1:
        pytest.skip('release/ is of other sources')
    copy_parts(tmp_path, 'VERSION', 'build', 'bindings', *(f'release/{build}' for build in proved))
    for folder in 'c/include', 'c/src', 'libargon2', 'javascript/addon', 'shell':
        for name in 'stdint.h', 'stdlib.h', 'bits/stdint-uintn.h':
            (tmp_path / 'bindings' / folder / 'bits').mkdir(exist_ok=True)
            (tmp_path / 'bindings' / folder / name).write_text('#error a planted header\n', encoding='utf-8')
    came = run(tmp_path / 'build/link', 'x86_64', tmp_path / 'release', tmp_path / 'linked')
    assert came.returncode == 0, came.stdout
