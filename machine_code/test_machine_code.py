"""Translation validation of release/: the machine code of the compression computes G of RFC 9106, and that of BLAKE2b's
compression F of RFC 7693, for all inputs, in each library and each build. Neither branches on anything except the flag
that it is passed, computes an address from data, accesses memory except its arguments, constants and own frame, or
changes registers that it may not. F clears its working vector. What fills a block for C, and in one build prefetches
the next one's reference, has to compute G too, and may compute addresses of prefetches from data.

The code, as binutils and wabt disassemble it, runs on terms instead of numbers. Its results have to be the terms of the
definitions. An unknown instruction, or form of one, fails by name.
"""

import random
import re

import pytest
import rfc9106
from linked import AHEAD, CHOSEN
from shared import TOP
from terms import BITS
from validated import FLAGS, FUNCTIONS, code_of, faults_of

LISTED = re.findall(r'^[0-9a-f]{64}  (\S+)$', (TOP / 'release/MANIFEST').read_text(encoding='utf-8'), re.M)
# Other files have the same functions: test_verdict.py compares these, and test_linked.py links the files again.
FILES = [CHOSEN] if CHOSEN else [
    name for name in LISTED if re.search(r'libproved_argon2\.(a|so\S+)$|\.(dll|wasm)$', name)]
PLACES, BLOCK, LINE = 30, 1024, 64  # (drawn for a test; in bytes)


@pytest.mark.parametrize('name', FILES)
def test_machine_code(name):
    assert not faults_of(TOP / 'release' / name)


def drawn_place():
    """Returns a setting of one lane, and a pass, slice and index, behind which the segment has a block. (In the first
    slice of pass 0, few blocks are before the index.)"""
    segment, r = random.choice((2, 3, 100, 1 << 12)), random.randrange(3)
    setting = rfc9106.Setting(rfc9106.D, 19, r + 1, 4 * segment, 1, 32, b'', b'')
    return setting, r, random.randrange(0 if r else 1, 4), random.randrange(segment - 1)


@pytest.mark.parametrize('flag', FLAGS)
def test_what_is_prefetched_is_the_next_reference(flag):
    """The new block is prefetched, and then the one that RFC 9106's mapping (3.4.2) picks by its first word."""
    code = code_of(TOP / 'release/x86_64/libproved_argon2.a')
    function = next(function for function in FUNCTIONS if function.name == AHEAD)
    met = [0 for _ in code.begins(function)]
    for build, begin in enumerate(code.begins(function)):
        for _ in range(PLACES):
            setting, r, s, index = drawn_place()
            column, size = s * setting.segment + index, len(setting.reference_set(r, s, index + 1, True))
            machine, fault = function.run(
                code, begin, flag, code.processor.entries[0], lambda: random.getrandbits(BITS),
                [size, column + (setting.columns << BITS // 2)])
            *_, at = setting.reference(r, 0, s, index + 1, machine.word_at('next', 0))
            own, lines = ([('next', first + place) for place in range(0, BLOCK, LINE)]
                          for first in (0, BLOCK * (at - column)))
            came = [*map(machine.find, machine.prefetched)]
            assert not fault
            assert came in (own, own + lines), (r, s, index, size, column)
            met[build] += came != own
    assert sorted(met) == [0] * (len(met) - 1) + [PLACES]
