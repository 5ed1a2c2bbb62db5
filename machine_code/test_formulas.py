"""What the statements say in terms of Z3 is what the definitions in Python compute (rfc7693.py, rfc9106.py), and which
settings are refused is what libargon2 refuses: for drawn numbers. SEED of the environment, or a printed one, determines
these."""

import ctypes
import os
import random
from types import SimpleNamespace

import blake2b
import first_blocks
import mapping
import prehash
import pytest
import rfc7693
import rfc9106
import settings
import variable_length_hash
import z3
from byte_strings import BYTE
from headers import CODES
from segments import CASES, Job
from symbolic import number

SEED = os.environ.get('SEED') or random.randrange(1 << 32)
DRAWN, TOO_LONG = 200, 1 << 32
# libargon2's errors (argon2.h); settings that it accepts; and changes of them, to a limit or beyond it.
ERRORS = {0: 'OK', -2: 'OUTPUT_TOO_SHORT', -3: 'OUTPUT_TOO_LONG', -5: 'PWD_TOO_LONG', -6: 'SALT_TOO_SHORT',
          -7: 'SALT_TOO_LONG', -12: 'TIME_TOO_SMALL', -14: 'MEMORY_TOO_LITTLE', -16: 'LANES_TOO_FEW',
          -17: 'LANES_TOO_MANY', -26: 'INCORRECT_TYPE'}
ACCEPTED = {'variant': 0, 'version': 19, 'lanes': 1, 'memory': 8, 'passes': 1, 'password': 0, 'salt': 8, 'tag': 4}
CHANGES = (
    {}, {'variant': 1}, {'variant': 2}, {'variant': 3}, {'version': 16}, {'lanes': 0}, {'passes': 0}, {'passes': 2},
    {'lanes': 1 << 24, 'memory': 1 << 27}, {'memory': 7}, {'lanes': 3, 'memory': 23}, {'lanes': 3, 'memory': 24},
    {'password': TOO_LONG}, {'salt': 7}, {'salt': TOO_LONG}, {'tag': 3}, {'tag': TOO_LONG})


@pytest.fixture
def draw():
    print('SEED', SEED)
    return random.Random(SEED)


def bytes_of(string):
    return z3.simplify(string).as_long().to_bytes(string.size() // BYTE, 'little')


def string_of(content):
    return number(int.from_bytes(content, 'little'), BYTE * len(content))


def drawn_setting(draw, variant=rfc9106.D, inputs=(b'', b'', b'', b'')):
    lanes, segment, passes = draw.randint(1, 4), draw.randint(3, 6), draw.randint(1, 3)
    memory = 4 * segment * lanes + draw.randrange(4 * lanes)
    return rfc9106.Setting(variant, draw.choice((16, 19)), passes, memory, lanes, draw.randint(4, 99), *inputs)


class Evaluated(mapping.Words):
    """Words of Z3 that are numbers."""
    known = staticmethod(mapping.Numbers.known)

    def __init__(self):
        super().__init__(SimpleNamespace(lemmas=[], wide_product=lambda one, other: one * other,
                                         known_product=lambda _, one, other: one * other), None)


@pytest.mark.parametrize('s, is_first', CASES)
def test_the_mapping_is_the_rfc_s(draw, monkeypatch, s, is_first):
    monkeypatch.setattr(mapping, 'remainder', z3.URem)
    for _ in range(DRAWN):
        setting, drawn = drawn_setting(draw), draw.getrandbits(64)
        r, lane = 0 if is_first else draw.randint(1, 3), draw.randrange(setting.lanes)
        index = draw.randrange(mapping.first_index(s, is_first), setting.segment)
        other, _, column = setting.reference(r, lane, s, index, drawn)
        numbers = setting.lanes, setting.segment, lane, index
        assert mapping.reference(mapping.Numbers, s, is_first, *numbers, drawn) == (other, column)
        words = *(number(value, 32) for value in numbers), number(drawn)
        found = mapping.reference(Evaluated(), s, is_first, *words)
        assert [z3.simplify(word).as_long() for word in found] == [other, column]


@pytest.mark.parametrize('variant', (rfc9106.D, rfc9106.I, rfc9106.ID))
def test_which_references_depend_on_no_block_is_what_the_rfc_says(draw, variant):
    for s, is_first in CASES:
        job, setting = Job(None, s, is_first), drawn_setting(draw, variant)
        found = z3.substitute(job.is_independent(), (job.variant, number(variant, BYTE)))
        assert z3.is_true(z3.simplify(found)) == setting.is_independent(0 if is_first else 1, s)


def test_a_state_of_blake2b_and_its_last_block_are_the_rfc_s(draw):
    """As the contract of F in H' says: the hash of a message that is shorter than a block is one F."""
    for _ in range(DRAWN):
        size, message = draw.randint(1, 64), draw.randbytes(variable_length_hash.STATE)
        state = rfc9106.words_of(bytes_of(blake2b.first_state(number(size))))
        block = rfc9106.words_of(message.ljust(blake2b.BLOCK, b'\0'))
        found = rfc7693.compress(state, block, len(message), 0, True)
        assert b''.join(word.to_bytes(8, 'little') for word in found)[:size] == rfc7693.blake2b(size, message)


def test_the_chain_of_h_prime_is_as_long_as_the_rfc_s(draw):
    for size in (*range(65, 200), *(draw.randint(65, 5000) for _ in range(DRAWN))):
        *halves, last = rfc9106.hprime_pieces(size, b'')
        length = z3.substitute(variable_length_hash.chain_length(), (variable_length_hash.SIZE, number(size)))
        assert z3.simplify(length).as_long() == len(halves)
        assert len(last) == size - variable_length_hash.HALF * len(halves)


def test_h0_and_the_first_blocks_hash_what_the_rfc_says(draw):
    for _ in range(DRAWN):
        items = {name: draw.randbytes(draw.randrange(20)) for name in ('password', 'salt', 'secret', 'data')}
        setting = drawn_setting(draw, draw.randrange(3), items.values())
        values = {f'length of {name}': number(len(item)) for name, item in items.items()} | items
        values |= {name: number(value, 32) for name, value in (
            ('lanes', setting.lanes), ('tag', setting.length), ('memory', setting.memory), ('passes', setting.time))}
        values |= {'version': number(setting.version == 19, BYTE), 'variant': number(setting.variant, BYTE)}
        assert b''.join(piece[0] if isinstance(piece, tuple) else bytes_of(piece)
                        for piece in prehash.pieces(values)) == setting.first
        lane, column = draw.randrange(setting.lanes), draw.randrange(2)
        message = first_blocks.first_input(string_of(setting.h0), number(lane, 32), number(column, 32))
        assert rfc9106.hprime(first_blocks.BLOCK, bytes_of(message)) == setting.first_block(lane, column)


def test_what_follows_from_settings_is_what_the_rfc_says(draw):
    prover = SimpleNamespace(run=SimpleNamespace(unknown=lambda _, one, other: z3.UDiv(one, other)),
                             wide_product=lambda one, other: one * other)
    for _ in range(DRAWN):
        setting = drawn_setting(draw)
        found = prehash.context(prover, {'memory': number(setting.memory, 32), 'lanes': number(setting.lanes, 32)})
        assert [z3.simplify(found[name]).as_long() for name in ('segment', 'lane length', 'blocks')] == [
            setting.segment, setting.columns, setting.lanes * setting.columns]


@pytest.mark.parametrize('change', CHANGES, ids=str)
def test_libargon2_refuses_the_same_settings(change):
    library, wanted = ctypes.CDLL('libargon2.so.1'), ACCEPTED | change
    passes, memory, lanes, variant, version = (
        ctypes.c_uint32(wanted[name]) for name in ('passes', 'memory', 'lanes', 'variant', 'version'))
    password, salt, tag = (ctypes.c_size_t(wanted[name]) for name in ('password', 'salt', 'tag'))
    code = library.argon2_hash(passes, memory, lanes, b'', password, bytes(wanted['salt'] % TOO_LONG), salt,
                               ctypes.create_string_buffer(64), tag, None, ctypes.c_size_t(0), variant, version)
    numbers = {name: number(wanted[name], 32) for name in ('variant', 'version', 'lanes', 'memory', 'passes')}
    lengths = [number(length) for length in (wanted['password'], wanted['salt'], 0, 0, wanted['tag'])]
    assert z3.simplify(settings.first(settings.table(numbers, *lengths))).as_long() == CODES[ERRORS[code]]
