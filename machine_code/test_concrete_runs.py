"""No statement is true because what it assumes is a contradiction. For each, ways through the same code are drawn, from
its beginning to its end, and of each a state: it meets all that is assumed, takes this way, and is as claimed. With
CI=full they are drawn anew each time, and otherwise the same; SEED of the environment, or a printed one, determines
them."""

import os
import random

import pytest
import z3
from clearing import COUNT
from linked import Code
from loops import Looping
from proving import CLAIM, PRODUCT
from statements import ARCHIVE, BUILDS, OF_BYTES, STATEMENTS, prove, prove_bytes
from symbolic import RETURN_ADDRESS

SEED = os.environ.get('SEED') or (random.randrange(1 << 32) if os.environ.get('CI') == 'full' else 1)
WAYS, TRIES, LONGEST, SIZES = 2, 20, 5000, (1, 2, 4, 8)  # (drawn for each function; instructions; bits of a number)
# What the functions are of which a proof knows only a few facts.
MEANINGS = {PRODUCT: lambda one, other: one * other, 'quotient': z3.UDiv, 'remainder': z3.URem}


def parts_of(terms):
    """All parts of terms."""
    found, waiting = {}, [*terms]
    while waiting:
        part = waiting.pop()
        if part.get_id() not in found:
            found[part.get_id()] = part
            waiting += part.children()
    return [*found.values()]


class Drawn:
    """Follows a way through a function, in place of proving it (`Looping.prove`)."""

    def __init__(self, draw):
        self.draw = draw

    def prove(self, prover, begin, path, result):
        met = [any(self.is_state(prover, begin, path.fork(), result) for _ in range(TRIES)) for _ in range(WAYS)]
        assert any(met), 'no state is found that meets what is assumed'

    def is_state(self, prover, begin, path, result):
        """Draws a way. Returns whether there is a state that takes it, of which every claim has to be true."""
        claims = []

        def claim(path, claim, fault, is_kept=False):
            claims.append((claim, fault))
            path.conditions += [claim] * is_kept
        prover.claim, path.at, path.steps = claim, begin, 0
        while path.at != RETURN_ADDRESS:
            path.steps += 1
            ways = prover.step(path)
            if path.steps > LONGEST or not ways:
                return False
            path = self.draw.choice(ways)
        result(path)
        model = self.state([*prover.lemmas, *path.conditions, *path.definitions], [claim for claim, _ in claims])
        wrong = model and [fault for claim, fault in claims if not z3.is_true(model.eval(claim, True))]
        assert not wrong, wrong
        return bool(model and claims)

    def state(self, known, claims):
        """A state in which all is true that is known, with drawn numbers where these may be anything; or None."""
        parts, solver = parts_of(known + claims), z3.SolverFor('QF_UFBV')
        solver.set('rlimit', CLAIM)
        solver.add(*known, *(part == MEANINGS[name](*part.children()) for part in parts
                             if (name := part.decl().name().rstrip('0123456789')) in MEANINGS))
        free = [part for part in parts if z3.is_const(part) and z3.is_bv(part) and not z3.is_bv_value(part)]
        for variable in self.draw.sample(free, len(free)):
            solver.push()
            solver.add(variable == self.draw.getrandbits(self.draw.choice(SIZES)))
            if solver.check() != z3.sat:
                solver.pop()
        return solver.model() if solver.check() == z3.sat else None


@pytest.fixture(scope='module')
def archive():
    return Code(ARCHIVE)


@pytest.mark.parametrize('name, case', [(name, case) for name, (_, cases) in STATEMENTS.items() for case in cases] + [
    (name, ()) for name in OF_BYTES])
def test_what_a_statement_assumes_can_be(archive, monkeypatch, name, case):
    drawn = Drawn(random.Random(f'{SEED} {name} {case}'))
    monkeypatch.setattr(Looping, 'prove', lambda *words: drawn.prove(*words))
    print('SEED', SEED)
    prove(archive, BUILDS[-1], name, *case) if case else prove_bytes(archive, BUILDS[-1], name)


@pytest.mark.parametrize('condition, claim, fault', [
    (z3.ULT(COUNT, 0), z3.BoolVal(True), 'no state is found'), (z3.BoolVal(True), COUNT == 0, 'it clears nothing')])
def test_a_contradiction_and_a_wrong_claim_are_found(archive, monkeypatch, condition, claim, fault):
    def prove(prover, begin, path, result):
        def claims(end):
            result(end)
            prover.claim(end, claim, 'it clears nothing')
        path.conditions.append(condition)
        Drawn(random.Random(SEED)).prove(prover, begin, path, claims)
    monkeypatch.setattr(Looping, 'prove', prove)
    print('SEED', SEED)
    with pytest.raises(AssertionError, match=fault):
        prove_bytes(archive, BUILDS[-1], 'wipe::<i64')
