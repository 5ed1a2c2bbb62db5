"""Random hashes of the library for C, as it is in release/, are those of two other implementations: Debian's libargon2
for all settings, and libsodium for those that it has. Each stored hash is verified by the library and by the other."""

import ctypes
import os
import random
from pathlib import Path

import drawn
import pytest
from running import HEADER

TOP = Path(__file__).resolve().parents[3]
SETTINGS, SODIUM_SETTINGS, SALT = 400, 40, 16
# libsodium's numbers of its two variants, and the least passes of each.
SODIUM = {'argon2i': (1, 3), 'argon2id': (2, 1)}
MISMATCH = HEADER['MISMATCH']


class Settings(ctypes.Structure):
    """`proved_argon2_settings` of proved_argon2.h."""

    _fields_ = [(name, ctypes.c_uint32)
                for name in ('variant', 'version', 'mem_cost', 'time_cost', 'lanes', 'hash_length')]


@pytest.fixture(scope='module')
def library():
    machine = os.uname().machine
    return ctypes.CDLL(str(next((TOP / 'release' / machine).glob('libproved_argon2.so.*'))))


@pytest.fixture(scope='module')
def source():
    seed = random.randrange(1 << 32)
    print('seed', seed)  # (which pytest shows if a test fails)
    return random.Random(seed)


def settings_of(case):
    return Settings(drawn.VARIANTS[case['variant']], case['version'], case['m'], case['t'], case['p'], case['length'])


def sized(pieces):
    """The bytes and the length of each piece."""
    return [argument for piece in pieces for argument in (piece, ctypes.c_size_t(len(piece)))]


def tag_of(library, case):
    out = ctypes.create_string_buffer(case['length'])
    code = library.proved_argon2_hash_raw(
        *sized(case['inputs']), ctypes.byref(settings_of(case)), out, ctypes.c_size_t(case['length']))
    assert code == 0, (code, case)
    return out.raw


def verdict_of(library, text, case):
    """The number that verifying an encoded hash returns, without limits."""
    password, _, secret, data = case['inputs']
    return library.proved_argon2_verify_encoded(*sized([text, password, secret, data]))


def changed(password):
    return bytes([password[0] ^ 1, *password[1:]]) if password else b'x'


def test_hashes_are_those_of_libargon2(library, source):
    peer = ctypes.CDLL('libargon2.so.1')
    for _ in range(SETTINGS):
        case = drawn.drawn(source)
        assert tag_of(library, case) == drawn.tag(peer, case), case


def test_each_accepts_what_libargon2_makes_and_nothing_else(library, source):
    """libargon2 makes encoded hashes without a secret."""
    peer, out = ctypes.CDLL('libargon2.so.1'), ctypes.create_string_buffer(8192)
    names = [name.encode() for name in drawn.VARIANTS]
    for _ in range(SETTINGS):
        case = drawn.drawn(source)
        case['inputs'][2:] = b'', b''
        password, salt = case['inputs'][:2]
        code = peer.argon2_hash(case['t'], case['m'], case['p'], *sized([password, salt]), None,
                                ctypes.c_size_t(case['length']), out, ctypes.c_size_t(len(out)),
                                drawn.VARIANTS[case['variant']], case['version'])
        assert code == 0, (code, case)
        text, other = out.value, {**case, 'inputs': [changed(password), salt, b'', b'']}
        assert any(text.startswith(b'$' + name + b'$') for name in names)
        assert (verdict_of(library, text, case), verdict_of(library, text, other)) == (0, MISMATCH), (text, case)


def test_hashes_are_those_of_libsodium(library, source):
    peer = ctypes.CDLL('libsodium.so.23')
    assert peer.sodium_init() >= 0
    for _ in range(SODIUM_SETTINGS):
        name = source.choice([*SODIUM])
        number, least = SODIUM[name]
        case = {'variant': name, 'version': 19, 't': source.randint(least, 4), 'm': source.randint(8, 4096), 'p': 1,
                'length': source.randint(16, 100),
                'inputs': [source.randbytes(source.randint(0, 40)), source.randbytes(SALT), b'', b'']}
        out, (password, salt, *_) = ctypes.create_string_buffer(case['length']), case['inputs']
        code = peer.crypto_pwhash(out, ctypes.c_ulonglong(case['length']), password, ctypes.c_ulonglong(len(password)),
                                  salt, ctypes.c_ulonglong(case['t']), ctypes.c_size_t(1024 * case['m']), number)
        assert code == 0, (code, case)
        assert tag_of(library, case) == out.raw, case
