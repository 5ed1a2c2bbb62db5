"""The first two blocks of a lane (RFC 9106, 3.2, steps 3 and 4): B[lane][column] = H'^(1024)(H0 || LE32(column) ||
LE32(lane))."""

import functools

import z3
from byte_strings import BYTE, Strings, clears, fills, joined, word
from loops import Loop
from proving import beneath_unknown, low, wide
from settings import (JOB, JOB_SIZE, KEPT_SIZE, NUMBERS, RESULT_SIZE, assume_job, first_result, in_both_cases, is_job,
                      job_values, makes_job)
from symbolic import number

BLOCK, H0_SIZE = 1024, 64


def first_input(h0, lane, column):
    """What a first block is the hash of."""
    return joined(h0, column, lane)


def hashed(message):
    """The contract of H': it makes a block of a message."""
    def contract(prover, path):
        size = message.size() // BYTE
        prover.claim(path, z3.And(path.given(1) == BLOCK, path.given(3) == size, path.ghosts['made'] == 0),
                     'it hashes another length, to another length, or twice')
        given = prover.string(path, path.given(2), size, 'what it hashes')
        prover.claim(path, given == message, 'it hashes something else')
        prover.write(path, prover.own(path, path.given(0), BLOCK, 'the hash'), word('first block', BYTE * BLOCK))
        path.ghosts['made'] = number(1)
    return contract


def given(prover, path):
    """The contract of memcpy: it copies the hash to the block."""
    prover.claim(path, z3.And(path.given(0) == word('block'), path.given(2) == BLOCK, path.ghosts['given'] == 0),
                 'it writes elsewhere, another length, or twice')
    prover.claim(path, prover.string(path, path.given(1), BLOCK, 'the hash') == word('first block', BYTE * BLOCK),
                 'it writes something else')
    path.ghosts['given'] = number(1)


def write_first_block(code, begin):
    """write_first_block(H0, lane, column, block)."""
    h0, lane, column = word('H0', 512), word('number of the lane', 32), word('column', 32)
    prover = Strings(code, {'hprime': hashed(first_input(h0, lane, column)), 'wipe': clears,
                            'proved_driver_memset': fills, 'proved_driver_memcpy': given})
    path = prover.begin([word('job'), beneath_unknown(lane, 'lane'), beneath_unknown(column, 'column'), word('block')],
                        {'made': number(0), 'given': number(0)})
    prover.structure(path, word('job'), 64, {'H0': 0}, {'H0': h0})
    prover.prove(begin, path, lambda path: prover.claim(path, path.ghosts['given'] == 1, 'it writes no block'))
    return prover


def written(values, place):
    """The contract of write_first_block: it writes the next block, column 0 of a `lane` before column 1. `place` says
    where they are."""
    def contract(prover, path):
        lane, column = path.ghosts['lane'], path.ghosts['column']
        claim = functools.partial(prover.claim, path)
        claim(values['H0'] == prover.passed(path, path.given(0), H0_SIZE), 'it hashes another H0')
        claim(z3.And(path.given(1, 32) == low(lane), path.given(2, 32) == low(column)),
              'it writes other blocks than the next')
        claim(path.given(3) == place(prover, path, lane) + BLOCK * column, 'it writes the block elsewhere')
        path.ghosts |= {'lane': z3.simplify(lane + column), 'column': z3.simplify(1 - column)}
    return contract


def begin_slice(code, begin):
    """begin_slice(job, blocks): both first blocks of each lane. The lanes are one behind the other, each with as many
    blocks as a segment has, and have fewer than 2^30 blocks together."""
    values = {'H0': word('H0', 512), 'lanes': word('lanes', 32), 'segment': word('segment', 32)}
    lanes, blocks = wide(values['lanes']), word('blocks')

    def place(prover, path, lane):
        row = prover.product(path, values['segment'], low(lane))
        return blocks + wide(row) * BLOCK

    def claims(path):
        return [(z3.And(path.ghosts['column'] == 0, z3.ULT(path.ghosts['lane'], lanes)), 'lanes are left')]
    prover = Strings(code, {'write_first_block': written(values, place)},
                     [Loop(claims, lambda path: lanes - path.ghosts['lane'])])
    path = prover.begin([word('job'), blocks], {'lane': number(0), 'column': number(0)},
                        [lanes != 0, z3.ULT(lanes, 1 << 24)])
    prover.structure(path, word('job'), KEPT_SIZE, {name: JOB[name] for name in values}, values)
    prover.prove(begin, path, lambda path: prover.claim(
        path, z3.And(path.ghosts['lane'] == lanes, path.ghosts['column'] == 0), 'it does not write all first blocks'))
    return prover


@in_both_cases
def begin_step(code, begin, is_accepted):
    """steps::begin(result, job, lane, blocks, their number): the first blocks of a lane, if the lane exists and the
    blocks are those of a segment."""
    values, lane, blocks, count = job_values(), word('number of the lane', 32), word('blocks'), word('count')
    prover = Strings(code, {'CallerJob::job': makes_job(values, is_accepted), 'write_first_block': written(
        values, lambda prover, path, _: blocks)})
    path = prover.begin([word('result'), word('job'), beneath_unknown(lane, 'lane'), blocks, count],
                        {'lane': wide(lane), 'column': number(0)})
    assume_job(prover, path, values, is_accepted)
    prover.structure(path, word('job'), JOB_SIZE, {**NUMBERS, 'H0': 0}, values)
    prover.region(word('result'), RESULT_SIZE, (0, RESULT_SIZE))
    wanted = first_result([(z3.Not(is_job(prover, values)), 'NO_JOB'), (z3.ULE(values['lanes'], lane), 'NO_PLACE'),
                           (count != wide(values['segment']), 'WRONG_BLOCKS')], number(0, 24))

    def result(path):
        found = prover.loaded(path, prover.place(word('result')), RESULT_SIZE)
        prover.claim(path, found == wanted, 'it returns another result')
        done = z3.If(wanted == 0, number(1), number(0))
        prover.claim(path, z3.And(path.ghosts['lane'] == wide(lane) + done, path.ghosts['column'] == 0),
                     'it does not write both blocks, or writes although it fails')
    prover.prove(begin, path, result)
    return prover


STATEMENTS = {'write_first_block': write_first_block, 'begin_slice': begin_slice, 'steps::begin': begin_step}
