"""Debian's own programs over two libraries with libargon2's interface, Debian's and ours: PHP, cryptsetup and OpenLDAP
answer the same. What is made over one is verified over the other too.

    LIBARGON2=FOLDER pytest programs.py     FOLDER has libargon2.so.1
"""

import contextlib
import itertools
import os
import re
import shutil
import subprocess
import time
from pathlib import Path

import patience
import pytest

HERE, FOLDER = Path(__file__).resolve().parent, Path(os.environ['LIBARGON2']).resolve()
# A program needs these variables to use each library.
LIBRARIES = {'debian': {'LD_LIBRARY_PATH': ''}, 'ours': {'LD_LIBRARY_PATH': str(FOLDER)},
             'preloaded': {'LD_LIBRARY_PATH': '', 'LD_PRELOAD': str(FOLDER / 'libargon2.so.1')}}
BOTH = 'debian', 'ours'
LDAP_SETTINGS = [f'm={memory} t={passes} p={lanes}' for memory, passes, lanes in (
    (64, 1, 1), (1024, 3, 1), (4096, 2, 2), (4096, 2, 4), (7168, 5, 1), (65536, 1, 4))]
LDAP_PASSWORD, INVALID_CREDENTIALS, NO_SERVER = 'correct horse', 49, 255
PHP = shutil.which('php')
CRYPTSETUP, SLAPD = shutil.which('cryptsetup', path='/usr/sbin:/sbin'), '/usr/lib/ldap/argon2.so'


def needs(package, is_there):
    return pytest.mark.skipif(not is_there, reason=f'there is no {package}')


of_php, of_cryptsetup = needs('php-cli', PHP), needs('cryptsetup-bin', CRYPTSETUP)
of_slapd = needs('slapd', os.path.exists(SLAPD) and shutil.which('ldapwhoami'))


def run(name, *words):
    """Returns what a program prints over a library, and its status."""
    done = patience.run([*map(str, words)], env={**os.environ, **LIBRARIES[name]}, stdin=subprocess.DEVNULL,
                        stdout=subprocess.PIPE, stderr=subprocess.STDOUT)
    return done.stdout.decode(), done.returncode


def answer(*words, libraries=BOTH):
    """Returns what a program prints, which is the same over both libraries."""
    its, own = (run(name, *words)[0] for name in libraries)
    assert its == own != ''
    return own


def file_of(program):
    """Returns the file of a program that is linked with the library."""
    if program == 'cryptsetup':
        return re.search(r'libcryptsetup\S* => (\S+)', run('debian', 'ldd', CRYPTSETUP)[0])[1]
    return SLAPD if program == 'slapd' else os.path.realpath(PHP)


@pytest.mark.parametrize('program', [
    pytest.param('php', marks=of_php), pytest.param('cryptsetup', marks=of_cryptsetup),
    pytest.param('slapd', marks=of_slapd)])
def test_each_program_loads_either_library_from_its_folder(program):
    found = [re.search(r'libargon2\.so\.1 => (\S+)', run(name, 'ldd', file_of(program))[0])[1] for name in BOTH]
    assert [Path(path).resolve().is_relative_to(FOLDER) for path in found] == [False, True]


# ---- PHP

@of_php
@pytest.mark.parametrize('maker', BOTH)
def test_what_is_made_over_one_is_read_by_both(tmp_path, maker):
    """Both accept the right password alone."""
    made = run(maker, PHP, HERE / 'programs.php', 'make')[0]
    (tmp_path / 'made').write_text(made)
    read = answer(PHP, HERE / 'programs.php', 'check', tmp_path / 'made').splitlines()
    assert len(read) == made.count('\n') and all(line.startswith('[true,false') for line in read), read


@of_php
def test_errors():
    answer(PHP, HERE / 'programs.php', 'errors')


@of_php
def test_php_uses_the_preloaded_library():
    """It loads no other."""
    answer(PHP, HERE / 'programs.php', 'errors', libraries=('ours', 'preloaded'))
    mapped = run('preloaded', PHP, '-r', 'echo file_get_contents("/proc/self/maps");')[0]
    assert {*re.findall(r'/\S*libargon2\S*', mapped)} == {str(FOLDER / 'libargon2.so.1')}


@of_php
def test_libsodium_and_the_library_accept_hashes_of_each_other():
    assert {*answer(PHP, HERE / 'programs.php', 'sodium').splitlines()} == {'[true,false,true,false,false]'}


# ---- cryptsetup

@of_cryptsetup
@pytest.mark.parametrize('maker, kind, lanes', itertools.product(BOTH, ('argon2i', 'argon2id'), (1, 2, 4)))
def test_both_open_a_header_with_the_right_key_alone(tmp_path, maker, kind, lanes):
    image, right, wrong = (tmp_path / name for name in ('image', 'right', 'wrong'))
    right.write_text('correct horse')
    wrong.write_text('correct house')
    with open(image, 'wb') as file:
        file.truncate(20 << 20)
    made = run(maker, CRYPTSETUP, 'luksFormat', '-q', '--type', 'luks2', '--pbkdf', kind, '--pbkdf-force-iterations', 4,
               '--pbkdf-memory', 65536 if lanes == 4 else 4096, '--pbkdf-parallel', lanes, image, '--key-file', right)
    opened = [run(name, CRYPTSETUP, 'open', '--test-passphrase', '--key-file', key, image)
              for name, key in itertools.product(BOTH, (right, wrong))]
    assert [status for _, status in (made, *opened)] == [0, 0, 2, 0, 2], made


# ---- OpenLDAP

def ldap_server_of(hashes):
    """Returns the configuration of a server with a database for each hash, whose root has it as the password."""
    databases = ''.join(f'database null\nsuffix "dc={number}"\nrootdn "cn=root,dc={number}"\nrootpw {each}\n'
                        for number, each in enumerate(hashes))
    return ('include /etc/ldap/schema/core.schema\nmodulepath /usr/lib/ldap\nmoduleload back_null.so\n'
            f'moduleload argon2.so\n{databases}')


@contextlib.contextmanager
def ldap_server(name, folder):
    """A server over a library until the block ends: gives its address."""
    (folder / 'socket').unlink(missing_ok=True)
    address = f'ldapi://{str(folder / "socket").replace("/", "%2F")}'
    server = subprocess.Popen(['/usr/sbin/slapd', '-f', folder / 'slapd.conf', '-h', address, '-d', '0'],
                              env={**os.environ, **LIBRARIES[name]}, stdout=subprocess.DEVNULL,
                              stderr=subprocess.DEVNULL)
    try:
        while server.poll() is None and run(name, 'ldapwhoami', '-x', '-H', address)[1] == NO_SERVER:
            time.sleep(0.05)
        yield address
    finally:
        server.terminate()
        server.wait()


@of_slapd
def test_openldap_takes_hashes_of_both_with_the_right_password_alone(tmp_path):
    words = '/usr/sbin/slappasswd -n -o module-path=/usr/lib/ldap -h {ARGON2} -s'.split()
    hashes = [run(maker, *words, LDAP_PASSWORD, '-o', f'module-load=argon2.so {settings}')[0]
              for maker, settings in itertools.product(BOTH, LDAP_SETTINGS)]
    assert all(each.startswith('{ARGON2}$argon2') for each in hashes) and len({*hashes}) == len(hashes), hashes
    (tmp_path / 'slapd.conf').write_text(ldap_server_of(hashes))
    for name in BOTH:
        with ldap_server(name, tmp_path) as address:
            statuses = [run(name, 'ldapwhoami', '-x', '-H', address, '-D', f'cn=root,dc={number}', '-w', password)[1]
                        for number, password in itertools.product(range(len(hashes)), (LDAP_PASSWORD, 'house'))]
        assert statuses == [0, INVALID_CREDENTIALS] * len(hashes), name
