"""Plants faults in the machine code of each function that a statement covers (faults.py): 6 in each with CI=full, and
else 1. Each has to be found, or to leave the same state on all paths, or to be of a kind that is listed with the reason
why it changes nothing that matters. With CI=full they are drawn anew each time, and otherwise the same; SEED of the
environment, or a printed one, determines them."""

import os
import random
import re

import faults
import pytest
import segments
from induction import Assumed, differences
from linked import Code
from proving import Prover
from statements import ARCHIVE, BUILDS, OF_BYTES, SLOW, STATEMENTS, begin_of, begins, prove, prove_bytes
from terms import Fault

pytestmark = pytest.mark.timeout(3600)
IS_FULL = os.environ.get('CI') == 'full'
SEED = os.environ.get('SEED') or (random.randrange(1 << 32) if IS_FULL else 1)
PLANTED, SAMPLED = 6 if IS_FULL else 1, {*OF_BYTES, 'positions::pick', 'filling::fill_caller_segment'} - {*SLOW}
# The functions, the instructions, and the reasons.
HARMLESS = (
    ('.*', r'v?mov(ups|aps|dqu|dqa) [XY]MMWORD PTR \[rsp.*', 'clears what nobody reads of its own frame'),
    ('.*', r'v?p?xor(ps)? +([xy]mm\d+)(,\2)+', 'makes zeros that nobody reads'),
    ('caller_blocks::.*', r'cmp .*,0x401|setae .*', 'says which blocks are prefetched'),
    ('wipe.*', r'(cmp|ja) .*', 'clears the same in other parts'),
    ('check', 'xor +eax,eax', 'eax is below 256, and its lowest byte is set next'),
    ('positions::pick', r'(je|test) .*', 'picks in a memory of one lane as in others, or of none'),
    ('positions::pick', rf'mov +\w+,DWORD PTR \[\w+\+{segments.LENGTH:#x}\]',
     'in the first slice of the first pass, W is a part of the own segment, and its length cancels out'))


@pytest.fixture(scope='module')
def archive():
    return Code(ARCHIVE)


def is_refused(code, name, draw):
    """Whether a statement refuses the code, in one of its cases."""
    cases = draw.sample(STATEMENTS[name][1], len(STATEMENTS[name][1])) if name in STATEMENTS else [()]
    try:
        for case in cases:
            prove(code, BUILDS[-1], name, *case) if case else prove_bytes(code, BUILDS[-1], name)
    except (Fault, TypeError, ValueError, LookupError, AttributeError):
        return True
    return False


def side_by_side(code, other, at):
    """A step of a prover which claims of the changed instruction that it leaves the same state as the one before, on
    each path that comes to it. (So a proof that reaches its end shows the same of an instruction to which none
    comes.)"""
    step = Prover.step

    def both(prover, path):
        if path.at != at or not prover.is_checking:
            return step(prover, path)
        prover.code = other
        changed, *more = step(prover, path.fork())
        prover.code = code
        way, *others = step(prover, path)
        changed.definitions += way.definitions
        if more or others or way.flags is not changed.flags or any(differences(prover, changed, Assumed(at, way), ())):
            raise Fault('it leaves another state')
        return [way]
    return both


@pytest.mark.parametrize('name', [*OF_BYTES, *STATEMENTS])
def test_planted_faults_are_found(archive, monkeypatch, name):
    if not IS_FULL and name not in SAMPLED:
        pytest.skip('Disabled')
    draw, begin = random.Random(f'{SEED} {name}'), (
        begin_of(archive, name, BUILDS[-1]) if name in OF_BYTES else begins(archive, name)[-1])
    print('SEED', SEED)
    for _ in range(PLANTED):
        code, at, before, after = faults.planted(archive, begin, draw)
        if not is_refused(code, name, draw) and not any(
                re.fullmatch(one, name) and re.fullmatch(text, before) for one, text, _ in HARMLESS):
            with monkeypatch.context() as patch:
                patch.setattr(Prover, 'step', side_by_side(archive, code, at))
                assert not is_refused(archive, name, draw), f'{at:#x}: {after} in place of {before}'
