"""Segments of two lanes, which are filled by turns: each lane's blocks in rising order, and each by its own reference.
A block is the first of two for no other lane; so the word that picks a reference stays, while the other lane is
filled."""

import z3
from loops import Loop
from proving import beneath_unknown, low, wide
from segments import (FILLS, STRETCHES, Segments, begin_of, claims_stretch, enter, facts, fits, half, nothing, pick,
                      prove_whole, refer, word)
from symbolic import number


class Pairs(Segments):
    """Functions that are passed a lane, and fill the next one too."""

    def __init__(self, *arguments):
        super().__init__(*arguments)
        self.other = self.job.next()
        self.path.conditions.append(z3.ULT(self.other.lane, self.job.lanes))


def expected_reference(prover, path):
    """expected_reference(expects, beside, lane, index, own) returns the reference of a lane's next block."""
    job = prover.of_lane(path, path.given(2, 32))
    done = path.ghosts[f'{job.name}done']
    prover.claim(path, z3.And(path.given(0) == word('expects'), path.given(1) == word('beside'), path.given(4) == word(
        'other' if job.name else 'own')), 'it is passed something else')
    prover.claim(path, z3.And(wide(path.given(3, 32)) == done, z3.ULT(done, wide(job.length))),
                 'it takes the reference of another block')
    return refer(prover, path, low(done), job)


def fill_dependent_pair(prover, path):
    """fill_dependent_pair(expects, beside, lane, first, count, own, other) fills stretches that depend on blocks."""
    prover.claim(path, path.given(2, 32) == prover.job.lane, 'it fills other lanes')
    for job, own in ((prover.job, 5), (prover.other, 6)):
        claims_stretch(prover, path, job, path.given(3, 32), path.given(4, 32), path.given(own), False)


def prove_expected(code, build, s, is_first):
    """expected_reference(expects, beside, lane, index, own)."""
    prover, index = Segments(code, s, is_first, {'pick': pick, 'proved_argon2_expect': nothing}), half('index')
    job, path = prover.job, prover.path
    enter(prover, index, word('own'))
    path.conditions += [*fits(job, index, number(1)), z3.Not(job.is_independent())]

    def result(end):
        same = z3.And(end.returned(0, 32) == end.ghosts['lane'], end.returned(1, 32) == end.ghosts['column'])
        prover.claim(end, z3.And(end.ghosts['picked'] == 1, same), 'it returns another reference')
    prover.prove(begin_of(code, 'expected_reference', build), path, result)
    return prover


def prove_dependent(code, build, s, is_first):
    """fill_dependent_pair(expects, beside, lane, first, count, own, other)."""
    prover = Pairs(code, s, is_first, {**FILLS, 'expected_reference': expected_reference})
    job, path, first, count = prover.job, prover.path, half('first'), half('count')
    jobs, end = (job, prover.other), wide(first) + wide(count)

    def claims(path):
        done = path.ghosts['done']
        found = [(z3.And(z3.ULE(wide(first), done), z3.ULT(done, end)), 'blocks are left'),
                 (done == path.ghosts['other done'], 'a lane is behind')]
        for one in jobs:
            lane, column, picked = (path.ghosts[one.name + name] for name in ('lane', 'column', 'picked'))
            known = [picked == 1, *facts(one, low(done), lane, column)]
            found += [(fact, 'a reference is not known') for fact in known]
        return found
    prover.loops = [Loop(claims, lambda path: end - path.ghosts['done'])]
    enter(prover, first, beneath_unknown(count, 'count'), word('own'), word('other'))
    path.conditions += [*fits(job, first, wide(count)), z3.Not(job.is_independent())]
    prover.prove(begin_of(code, 'fill_dependent_pair', build), path, lambda path: prover.claim(path, z3.And(*(
        path.ghosts[f'{one.name}done'] == end for one in jobs)), 'it does not fill all blocks'))
    return prover


def prove_segments(code, build, s, is_first):
    """fill_caller_pair(expects, job, lane, three slices, own, other) fills the segments of a lane and of the next."""
    prover = Pairs(code, s, is_first, {**STRETCHES, 'fill_dependent_pair': fill_dependent_pair})
    return prove_whole(prover, begin_of(code, 'fill_caller_pair', build))
