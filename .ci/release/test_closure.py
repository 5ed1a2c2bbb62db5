"""Function names show which crates' code is in the proved library for C.

At level 0 the toolchain's own compiler inlines nothing, so the symbols of its object are the functions that C's calls
reach. The toolchain finds these functions before any compiler begins, for all processors: so LLVM's builds, those for
ARM64 and WebAssembly, and the library as C, which comes from WebAssembly, contain no others.
"""
import re
import shutil
import subprocess
import sys

import pytest
from shared import TOP

sys.path.insert(0, str(TOP / 'build'))
from toolchain import build_below, load_rt, locked  # noqa: E402


@pytest.fixture(scope='module')
def functions(tmp_path_factory):
    """Returns the names of all functions, without the types that they are for."""
    if not shutil.which('rt', path='/opt/rattle/bin'):
        pytest.skip('there is no rt, which builds the library at level 0')
    made = tmp_path_factory.mktemp('closure')
    crate = next(crate for crate in load_rt().rtlib.crates_below(str(TOP)) if crate.name == 'argon2_c')
    with open(made / 'said', 'w+', encoding='utf-8') as crate.out, locked(crate):
        is_built = build_below(crate) \
            and crate.compile(['--backend', 'rattle', '--opt-level', '0'], f'{made}/argon2_c.a') == 0
        crate.out.seek(0)
        assert is_built, crate.out.read()
    said = subprocess.check_output(['nm', '--portability', '--defined-only', made / 'argon2_c.a'], text=True)
    return {line.rsplit(' ', 3)[0].partition('::<')[0] for line in said.splitlines() if '::' in line}


def test_the_library_has_code_of_our_crates_and_of_those_that_the_spdx_file_lists(functions):
    ours = {folder.name for folder in (TOP / 'crates').iterdir()}
    assert 'argon2_c::job_calls::proved_argon2_job_make' in functions and len(functions) > 300
    listed = {*re.findall('^PackageName: (.*)$', (TOP / 'proved-argon2.spdx').read_text(encoding='utf-8'), re.M)}
    # This empty function stands for an instruction. Each build replaces the function that calls it.
    others = {name for name in functions if name.partition('::')[0] not in ours}
    assert others <= {'core::hint::spin_loop', 'std::hint::spin_loop'}
    # The others belong to tools; test_packages.py compares them with what is packed.
    assert listed == {'proved-argon2', 'glibc', 'libgcc', 'mingw-w64'}
