"""The order of slices (RFC 9106, 3.2, steps 5 and 6): all lanes of a slice, all slices of a pass, and all passes, each
once and in order; and the single steps, which fill one lane's segment or two, and say which arguments are wrong."""

import re

import z3
from byte_strings import Strings, word
from loops import Loop
from prehash import MOST_LANES
from proving import beneath_unknown, low, wide
from settings import (HALF, JOB, JOB_SIZE, KEPT_SIZE, NUMBERS, RESULT_SIZE, assume_job, blocks_of_slice, first_result,
                      in_both_cases, is_job, job_values, kept, makes_job)
from symbolic import number

BLOCK = 1024
VALUES = {'H0': word('H0', 512), 'variant': word('variant', 8), 'version': word('version', 8), **{
    name: word(name, 32) for name in ('lanes', 'segment', 'passes')}}
EXPECTS, AT, SIZE = word('expects'), word('job'), word('blocks of a slice')
OTHERS = [word(f'slice {index}') for index in range(3)]


def segments_of(own, behind, count):
    """The contract of fill_caller_segment(expects, job, lane, three slices, own), and that of fill_caller_pair, which
    fills the next lane too: the next lanes are filled. `own` says where a lane's segment is."""
    def contract(prover, path):
        lane, length = path.ghosts['lane'], wide(VALUES['segment'])
        claim = prover.claim
        claim(path, z3.And(path.given(1) == AT, path.given(2, 32) == low(lane)), 'it fills another lane or job')
        for index, other in enumerate(OTHERS):
            claim(path, z3.And(path.given(3 + 2 * index) == other, path.given(4 + 2 * index) == SIZE),
                  'it refers to another slice')
        for index in range(count):
            claim(path, z3.And(path.given(9 + 2 * index) == own(prover, path, lane) + index * BLOCK * length,
                               path.given(10 + 2 * index) == length), 'it fills elsewhere')
        behind(prover, path, lane + count)
        path.ghosts['lane'] = z3.simplify(lane + count)
    return contract


def fill_caller_slice(code, begin):
    """fill_caller_slice(expects, job, three slices, own slice): the segment of each lane."""
    lanes, slice_at = wide(VALUES['lanes']), word('own slice')

    def own(prover, path, lane):
        return slice_at + BLOCK * wide(prover.product(path, VALUES['segment'], low(lane)))

    def fits(prover, path, lane):
        prover.claim(path, z3.And(path.given(0) == EXPECTS, z3.ULE(lane, lanes)), 'it fills a lane that is not there')

    def claims(path):
        return [(z3.ULT(path.ghosts['lane'], lanes), 'lanes are left')]
    prover = Strings(code, {name: segments_of(own, fits, count) for name, count in FILLS.items()},
                     [Loop(claims, lambda path: lanes - path.ghosts['lane'])])
    path = prover.begin([EXPECTS, AT, *(value for other in OTHERS for value in (other, SIZE)), slice_at],
                        {'lane': number(0)}, [lanes != 0, z3.ULE(lanes, MOST_LANES)])
    prover.structure(path, AT, KEPT_SIZE, {name: JOB[name] for name in ('lanes', 'segment')}, VALUES)
    prover.prove(begin, path, lambda path: prover.claim(
        path, path.ghosts['lane'] == lanes, 'it does not fill all lanes'))
    return prover


FILLS = {'fill_caller_segment': 1, 'fill_caller_pair': 2}


# ---- all slices

def slice_of(index):
    """Where a slice begins."""
    return word('blocks') + index * BLOCK * SIZE


def begins(prover, path):
    """The contract of begin_slice."""
    prover.claim(path, z3.And(path.given(0) == AT, path.given(1) == slice_of(0), path.ghosts['begun'] == 0),
                 'it begins another slice, or twice')
    path.ghosts['begun'] = number(1)


def fills(prover, path):
    """The contract of fill_caller_slice, for the next slice of all passes."""
    done, claim = path.ghosts['slices'], prover.claim
    job, k = path.given(1), done & 3
    claim(path, z3.And(path.given(0) == EXPECTS, path.ghosts['begun'] == 1, path.ghosts['tagged'] == 0),
          'it fills too early, or too late')
    for name, value in VALUES.items():
        found = prover.string(path, job + JOB[name], value.size() // 8, 'the job')
        claim(path, found == value, f'it fills for another {name}')
    place = prover.string(path, job + JOB['place'], 8, 'the job')
    claim(path, place == z3.Concat(low(k), low(z3.LShR(done, 2))), 'it fills another slice, or in another pass')
    for index in range(3):
        claim(path, z3.And(path.given(2 + 2 * index) == z3.If(z3.ULE(k, index), slice_of(index + 1), slice_of(index)),
                           path.given(3 + 2 * index) == SIZE), f'the other slice {index} is not that')
    own = z3.If(k == 0, slice_of(0), z3.If(k == 1, slice_of(1), z3.If(k == 2, slice_of(2), slice_of(3))))
    claim(path, path.given(8) == own, 'it fills elsewhere')
    path.ghosts['slices'] = z3.simplify(done + 1)


def ends(prover, path):
    """The contract of finalize_slice."""
    prover.claim(path, z3.And(path.given(0) == AT, path.given(1) == slice_of(3), path.given(2) == word('out'),
                              path.given(3) == word('length')), 'it makes another tag')
    prover.claim(path, z3.And(path.ghosts['slices'] == 4 * wide(VALUES['passes']), path.ghosts['tagged'] == 0),
                 'it makes the tag too early, or twice')
    path.ghosts['tagged'] = number(1)


class Jumping(Strings):
    """Functions that jump by a table of four places."""

    def next_of(self, at):
        if re.fullmatch(r'jmp +r\w+', self.body[at][0]):
            return [to for base in self.tables() for k in range(4) if (to := base + self.entry(base, k)) in self.body]
        return super().next_of(at)

    def tables(self):
        """The places that the function computes from those of its instructions."""
        for at, (text, size) in self.body.items():
            if found := re.match(r'lea +\w+,\[rip([+-]0x[0-9a-f]+)\]', text):
                yield at + size + int(found[1], 16)

    def entry(self, base, k):
        place = self.code.place(base) or 0
        return int.from_bytes(self.code.content[place + 4 * k:place + 4 * k + 4], 'little', signed=True)

    def step(self, path):
        """Before an entry is read, a path is divided by the index."""
        found = re.match(r'movsxd +\w+,DWORD PTR \[\w+\+(\w+)\*4\]', self.code.instructions.get(path.at, ('',))[0])
        if not found or z3.is_bv_value(path.registers[found[1]]):
            return super().step(path)
        index, ways = path.registers[found[1]], []
        self.claim(path, z3.ULT(index, 4), 'it jumps by another index')
        for k in range(4):
            way = path.fork()
            way.conditions.append(index == k)
            way.registers[found[1]] = number(k)
            ways += [way] if self.is_possible(way) else []
        return ways


def hash_job_over(code, begin):
    """hash_job_over(expects, job, blocks, count, out, length): the first blocks, all slices of all passes in order, and
    then the tag of slice 3. A slice has fewer than 2^30 blocks."""
    def claims(path):
        slices = path.ghosts['slices']
        return [(z3.And(z3.ULT(slices, 4 * passes), path.ghosts['begun'] == 1, path.ghosts['tagged'] == 0),
                 'slices are left')]
    passes = wide(VALUES['passes'])
    prover = Jumping(code, {'begin_slice': begins, 'fill_caller_slice': fills, 'finalize_slice': ends}, [
        Loop(claims, lambda path: 4 * passes - path.ghosts['slices'])])
    path = prover.begin([EXPECTS, AT, word('blocks'), 4 * SIZE, word('out'), word('length')],
                        dict.fromkeys(('slices', 'begun', 'tagged'), number(0)), [z3.ULT(SIZE, 1 << 30), passes != 0])
    prover.structure(path, AT, KEPT_SIZE, {name: JOB[name] for name in VALUES}, VALUES)
    prover.prove(begin, path, lambda path: prover.claim(path, path.ghosts['tagged'] == 1, 'it makes no tag'))
    return prover


# ---- single steps

def count_of(own, lane, values):
    """How many lanes are filled: two, if there is another lane and so many blocks are given; or none."""
    length = wide(values['segment'])
    is_pair = z3.And(z3.ULT(lane + 1, wide(values['lanes'])), own == 2 * length)
    return z3.If(is_pair, number(2), z3.If(own == length, number(1), number(0)))


def fill_lanes(code, begin):
    """steps::fill_lanes(result, job, lane, three slices, own blocks, their number)."""
    own, count, lane = word('own blocks'), word('count'), word('number of the lane', 32)
    filled = count_of(count, wide(lane), VALUES)

    def is_first(prover, path, after):
        prover.string(path, path.given(0), 1, 'what it expects by')
        prover.claim(path, after == wide(lane) + filled, 'it fills other lanes')
    prover = Strings(code, {name: segments_of(lambda *_: own, is_first, size) for name, size in FILLS.items()})
    path = prover.begin([word('result'), AT, beneath_unknown(lane, 'lane'), *(
        value for other in OTHERS for value in (other, SIZE)), own, count], {'lane': wide(lane)},
        [z3.ULT(lane, VALUES['lanes']), z3.ULE(VALUES['lanes'], MOST_LANES)])
    prover.structure(path, AT, KEPT_SIZE, {name: JOB[name] for name in ('lanes', 'segment')}, VALUES)
    prover.region(word('result'), RESULT_SIZE, (0, RESULT_SIZE))
    wanted = first_result([(filled == 0, 'WRONG_BLOCKS')], number(0, 24))

    def result(path):
        found = prover.loaded(path, prover.place(word('result')), RESULT_SIZE)
        prover.claim(path, z3.And(found == wanted, path.ghosts['lane'] == wide(lane) + filled),
                     'it returns another result, or fills nothing')
    prover.prove(begin, path, result)
    return prover


@in_both_cases
def fill(code, begin, is_accepted):
    """steps::fill(result, job, pass, slice, lane, three slices, own blocks, their number): fills segments of a place in
    the order, if there is such a place, and if the other slices have as many blocks as a slice has."""
    values, at, own, count = job_values(), word('job'), word('own blocks'), word('count')
    now, k, lane = (word(name, HALF) for name in ('pass', 'slice', 'number of the lane'))
    sizes, returned = [word(f'size {index}') for index in range(3)], word('returned', 8 * RESULT_SIZE)
    given = [value for pair in zip(OTHERS, sizes) for value in pair] + [own, count]

    def filled(prover, path):
        """The contract of fill_lanes."""
        for name, value in {**kept(values), 'place': z3.Concat(k, now)}.items():
            found = prover.string(path, path.given(1) + JOB[name], value.size() // 8, 'the job')
            prover.claim(path, found == value, f'it fills for another {name}')
        same = [path.given(2, HALF) == lane, *(path.given(3 + index) == one for index, one in enumerate(given))]
        prover.claim(path, z3.And(path.ghosts['filled'] == 0, *same), 'it fills others, or twice')
        prover.write(path, prover.own(path, path.given(0), RESULT_SIZE, 'the result'), returned)
        path.ghosts['filled'] = number(1)
    prover = Strings(code, {'CallerJob::job': makes_job(values, is_accepted), 'fill_lanes': filled})
    path = prover.begin([word('result'), at, *(beneath_unknown(value, str(value)) for value in (now, k, lane)), *given],
                        {'filled': number(0)})
    assume_job(prover, path, values, is_accepted)
    prover.structure(path, at, JOB_SIZE, {**NUMBERS, 'H0': 0}, values)
    prover.region(word('result'), RESULT_SIZE, (0, RESULT_SIZE))
    no_place = z3.Or(z3.ULE(values['passes'], now), z3.ULE(4, k), z3.ULE(values['lanes'], lane))
    errors = [(z3.Not(is_job(prover, values)), 'NO_JOB'), (no_place, 'NO_PLACE'),
              (z3.Or(*(size != blocks_of_slice(prover, values) for size in sizes)), 'WRONG_BLOCKS')]

    def result(path):
        found = prover.loaded(path, prover.place(word('result')), RESULT_SIZE)
        prover.claim(path, found == first_result(errors, returned), 'it returns another result')
        is_wrong = z3.Or(*(is_wrong for is_wrong, _ in errors))
        prover.claim(path, path.ghosts['filled'] == z3.If(is_wrong, number(0), number(1)),
                     'it fills something although it fails, or nothing')
    prover.prove(begin, path, result)
    return prover


STATEMENTS = {'fill_caller_slice': fill_caller_slice, 'hash_job_over': hash_job_over, 'fill_lanes': fill_lanes,
              'steps::fill': fill}
