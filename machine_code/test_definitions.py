"""The definitions in Python, with which the machine code is compared, compute the hashes of the RFCs, of Python's own
BLAKE2b, and of libargon2 (bindings/vectors). A definition that was changed to suit the code would differ here."""

import hashlib
import random
import re

import pytest
import rfc7693
import rfc9106
from shared import TOP

VARIANTS = {'argon2d': rfc9106.D, 'argon2i': rfc9106.I, 'argon2id': rfc9106.ID}
# A hash of so many KiB in all passes takes Python half a second. Half of the lines cost less.
MOST, PARTS = 170, 6


def vectors():
    """Lines of outside vectors that have a tag and cost little: settings, inputs and the tag."""
    lines = (TOP / 'bindings/vectors/raw.txt').read_text(encoding='utf-8').splitlines()
    split = [line.split(' ') for line in lines]
    return [words for words in split
            if re.fullmatch('[0-9a-f]+', ''.join(words[10:])) and int(words[2]) * int(words[3]) <= MOST]


def setting_of(words):
    variant, *numbers = words[0], *map(int, words[1:6])
    inputs = [bytes.fromhex(word.strip('-')) for word in words[6:10]]
    return rfc9106.Setting(VARIANTS[variant], *numbers, *inputs)


def test_the_hashes_of_the_rfcs_come_out():
    assert rfc7693.check(), "RFC 7693's hashes do not come out of its definition"
    rfc9106.check()


def test_blake2b_is_that_of_python():
    for size in (*range(260), 1023, 1024, 1025):
        message, length = random.randbytes(size), random.randint(1, 64)
        assert rfc7693.blake2b(length, message) == hashlib.blake2b(message, digest_size=length).digest()


@pytest.mark.parametrize('part', range(PARTS))
def test_vectors_of_libargon2_come_out(part):
    lines = vectors()
    assert len(lines) > 80 and {(words[0], words[1]) for words in lines} == {
        (name, version) for name in VARIANTS for version in ('16', '19')}
    for words in lines[part::PARTS]:
        assert setting_of(words).tag().hex() == words[10], words
