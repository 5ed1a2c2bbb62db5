"""The C compiler that release/MANIFEST names links each library of release/ again, byte for byte, from the C code here
and the proved objects of release/. With another compiler nothing is compared, and the reason names both."""

import re
import subprocess

import pytest
from machines import machines
from shared import TOP, output_of

PORTABLE, WINDOWS = 'portable', 'windows-x86_64'
LIST = (TOP / 'release/MANIFEST').read_text(encoding='utf-8')


def differing_packages():
    """What differs between the packages that the manifest names and those here, as far as they link C."""
    named = dict(re.findall(r' (\S+)=(\S+)', re.search('^# packages(.*)', LIST, re.M)[1]))
    links = {name: version for name, version in named.items()
             if re.match('binutils|cpp|gcc|libc6-dev|libgcc|mingw', name)}
    assert links, 'the manifest names no compiler'
    found = subprocess.run(['dpkg-query', '-Wf', '${Package}=${Version}\n', *links], check=False, text=True,
                           stdout=subprocess.PIPE, stderr=subprocess.DEVNULL).stdout
    here = dict(line.split('=', 1) for line in found.splitlines())
    return [f'{name} {here.get(name) or "is missing"}, not {version}'
            for name, version in links.items() if here.get(name) != version]


@pytest.mark.parametrize('machine', [*machines(), WINDOWS])
def test_a_machine_s_libraries_come_out_again(machine, tmp_path):
    if differs := differing_packages():
        pytest.skip(f'not compared: another compiler ({"; ".join(differs)})')
    output_of('build/link', machine, TOP / 'release', tmp_path)
    listed = re.findall(rf'^[0-9a-f]{{64}}  ({machine}/\S+)$', LIST, re.M)
    assert listed
    for name in listed:
        assert (tmp_path / name).read_bytes() == (TOP / 'release' / name).read_bytes(), name
