"""Segments (RFC 9106, 3.2, steps 5 and 6; 3.4): each block of a segment is written once, in rising order, as G of the
block before and of the block to which the mapping refers, with the old block where the version and the pass say so.

Each function is proved for a slice and for the first pass or a later one; all else may be anything that the settings
allow: lanes, length, pass, lane, index, variant, version, and the contents of all blocks. The ghost `done` is the index
of the next block, `picked` says whether its reference is known, by `lane` and `column`, and `memory` names the state of
the memory: no word of a block is known."""

import copy

import z3
from loops import WORD, Loop, Looping
from mapping import MOST_LANES, MOST_LENGTH, FIRST_LENGTH, Words, first_index, prove_facts, reference, slice_of
from proving import Path, beneath_unknown, low, names_of, wide
from symbolic import number
from terms import Fault

BLOCK, STRETCH = 1024, 128  # (bytes; blocks)
# Where the structures have their fields: the job, which the slices follow (a pointer and a length each); and what is
# filled: a pointer, a length, and a tally that nobody reads.
VARIANT, VERSION, LANES, LENGTH, PASSES, PASS, SLICE, SLICES, JOB_SIZE = (
    0x40, 0x41, 0x44, 0x48, 0x4c, 0x50, 0x54, 0x58, 0x98)
OWN_LENGTH, TALLY, OWN_SIZE = 8, 16, 24
CASES = tuple((s, is_first) for s in range(4) for is_first in (True, False))
UNPICKED = {'picked': number(0), 'lane': number(0, 32), 'column': number(0, 32)}
# The first word of the block before an index of a lane's segment, in a state of the memory.
FIRST_WORD = z3.Function('first word', *[z3.BitVecSort(64)] * 2, z3.BitVecSort(32), z3.BitVecSort(64))


def half(name):
    return z3.BitVec(name, 32)


def word(name):
    return z3.BitVec(name, 64)


class Job:
    """What a fill depends on. The slice is a number."""
    name = ''  # (before the names of its ghosts)

    def __init__(self, prover, s, is_first):
        self.prover, self.s, self.is_first = prover, s, is_first
        self.lanes, self.length, self.passes, self.lane = map(half, ('lanes', 'length', 'passes', 'lane'))
        self.pass_number = number(0, 32) if is_first else half('pass')
        self.variant, self.version = z3.BitVec('variant', 8), z3.BitVec('version', 8)
        self.own, self.slices = word('own blocks'), [word(f'slice {index}') for index in range(4)]

    def next(self):
        """The same for the next lane."""
        other = copy.copy(self)
        other.name, other.lane, other.own = 'other ', z3.simplify(self.lane + 1), word('other blocks')
        return other

    def assumed(self):
        """The settings that the table allows, and a place in the order of slices."""
        blocks = self.prover.wide_product(wide(self.lanes), wide(self.length))
        return [z3.ULE(1, self.lanes), z3.ULT(self.lanes, MOST_LANES), z3.ULE(FIRST_LENGTH, self.length),
                z3.ULT(self.length, MOST_LENGTH), z3.ULT(blocks, MOST_LENGTH), z3.ULT(self.lane, self.lanes),
                z3.ULT(self.pass_number, self.passes), z3.BoolVal(True) if self.is_first else self.pass_number != 0,
                z3.ULE(self.variant, 2), z3.ULE(self.version, 1)]

    def fields(self):
        return [(VARIANT, self.variant), (VERSION, self.version), (LANES, self.lanes), (LENGTH, self.length),
                (PASSES, self.passes), (PASS, self.pass_number), (SLICE, number(self.s, 32))]

    def pointers(self):
        """Where the other slices are. (In the place of the own one is another.)"""
        return [(SLICES + 16 * index, self.slices[index]) for index in range(4) if index != self.s]

    @property
    def first(self):
        return first_index(self.s, self.is_first)

    def is_independent(self):
        """Whether the references depend on no block: Argon2i, and the first two slices of Argon2id."""
        return z3.Or(self.variant == 1, z3.And(self.variant == 2, z3.BoolVal(self.is_first and self.s < 2)))

    def combines(self):
        """Whether a block is combined with the old one: in later passes of version 0x13."""
        return z3.And(self.version == 1, z3.BoolVal(not self.is_first))

    def before(self, index):
        """Where the block before is: in the segment, or the last one of the lane's segment in the slice before."""
        last = self.slices[(self.s - 1) % 4] + (wide(self.row(self.lane) + self.length - 1) << 10)
        return z3.If(index == 0, last, self.own + (wide(index - 1) << 10))

    def row(self, lane):
        """Where a lane begins in a slice."""
        return low(self.prover.wide_product(wide(lane), wide(self.length)))

    def at(self, lane, column):
        """Where the block at a lane and a column is, for each slice."""
        for k in range(4):
            index = column - k * self.length
            yield k, self.own + (wide(index) << 10) if k == self.s else \
                self.slices[k] + (wide(self.row(lane) + index) << 10)


class Segments(Looping):
    """Functions that are passed a job."""

    def __init__(self, code, s, is_first, contracts, loops=()):
        super().__init__(code, contracts, loops)
        self.job, self.path, self.beside, self.other = Job(self, s, is_first), Path(self), None, None
        self.path.conditions += self.job.assumed()

    def options(self, place, assumed, back):
        """Other places depend on ghosts, which are not guessed for this reason."""
        is_free = place[0] == 'ghost' and not place[1].endswith('done')
        return [WORD] if is_free else [*super().options(place, assumed, back)]

    def of_lane(self, path, lane):
        """The job of a lane: of the one that is filled, or of the next."""
        job = self.other if self.other and self.knows(path, lane == self.other.lane) else self.job
        self.claim(path, lane == job.lane, 'it is about another lane')
        return job

    def claims_job(self, path, at, fields):
        """Claims that a structure is the job's."""
        for offset, value in fields:
            self.claim(path, self.load(path, at + offset, value.size() // 8) == value, f'the job is not the same at '
                       f'{offset:#x}')

    def passes_job(self, at, size, fields):
        """Lets a structure be the job's."""
        self.region(at, size)
        for offset, value in fields:
            self.put(self.path, at + offset, value)

    def drawn(self, path, index):
        """The word that picks a reference."""
        return FIRST_WORD(path.ghosts['memory'], wide(self.job.lane), index)

    def load_elsewhere(self, path, address, size):
        """Of blocks, only the first word of the one before is read. (G reads the others.)"""
        if size == 8 and self.beside is not None and 'beside' in self.variables(address):
            return self.one_of_slices(path, z3.simplify(address - self.beside - SLICES))
        if size != 8 or 'memory' not in path.ghosts:
            return super().load_elsewhere(path, address, size)
        index = low(path.ghosts['done'])
        self.claim(path, address == self.job.before(index), 'it reads a word of another block than that before')
        return self.drawn(path, index)

    def one_of_slices(self, path, distance):
        """What is read of the pointers to slices, by an index."""
        self.claim(path, z3.Or(*(distance == 16 * k for k in range(4))), 'it reads no pointer to a slice')
        found = self.job.slices[3]
        for k in (2, 1, 0):
            found = z3.If(distance == 16 * k, self.job.slices[k], found)
        return z3.simplify(found)


# ---- contracts

def nothing(_prover, _path):
    """The contract of a function without effect (prefetched.py)."""


def pick(prover, path):
    """pick(job, lane, index, word) returns the lane and the column to which the mapping refers (`prove_pick`). Here
    only what `prove_facts` says is known of them."""
    job, index = prover.job, low(path.ghosts['done'])
    prover.claims_job(path, path.given(0), job.fields())
    prover.claim(path, path.given(1, 32) == job.lane, 'it picks for another lane')
    prover.claim(path, path.given(2, 32) == index, 'it picks for another index')
    prover.claim(path, path.given(3) == prover.drawn(path, index), 'it picks by another word')
    return refer(prover, path, index)


def refer(prover, path, index, job=None):
    """The reference of the block at an index is known from here on."""
    lane, column, job = prover.fresh('picked lane', 32), prover.fresh('picked column', 32), job or prover.job
    prove_facts(job.s, job.is_first)
    path.conditions += facts(job, index, lane, column)
    path.ghosts |= {f'{job.name}lane': lane, f'{job.name}column': column, f'{job.name}picked': number(1)}
    return lane, column


def facts(job, index, lane, column):
    return [z3.ULT(column, 4 * job.length), z3.ULT(lane, job.lanes), z3.Implies(
        slice_of(column, job.length) == job.s, z3.And(lane == job.lane, z3.ULT(column, job.s * job.length + index)))]


def fill_words(prover, path):
    fill(prover, path, path.given(3, 32))


def fill_ahead(prover, path):
    fill(prover, path, path.given(5, 32))


def fill(prover, path, flag):
    """G of two blocks is written, with the old block if the flag is set (test_machine_code.py): the next block."""
    claim, is_other = prover.claim, prover.other and 'other blocks' in prover.variables(path.given(2))
    job = prover.other if is_other else prover.job
    done, lane, column, picked = (path.ghosts[job.name + name] for name in ('done', 'lane', 'column', 'picked'))
    index = low(done)
    claim(path, picked == 1, 'it has not picked the reference')
    claim(path, z3.And(z3.ULE(job.first, done), z3.ULT(done, wide(job.length))), 'it writes behind the segment')
    claim(path, path.given(2) == job.own + (wide(index) << 10), 'it writes another block than the next')
    claim(path, path.given(0) == job.before(index), 'its first block is not the one before')
    for k, at in job.at(lane, column):
        claim(path, z3.Implies(slice_of(column, job.length) == k, path.given(1) == at),
              f'its second block is not the reference in slice {k}')
    claim(path, flag == z3.If(job.combines(), number(1, 32), number(0, 32)), 'it combines otherwise')
    path.ghosts |= {f'{job.name}done': z3.simplify(done + 1), f'{job.name}picked': number(0),
                    'memory': prover.fresh('memory')}


FILLS = {'kernel::fill_words': fill_words, 'proved_argon2_fill_ahead': fill_ahead, 'proved_argon2_expect': nothing,
         'pick': pick}


def fill_dependent(prover, path):
    """fill_dependent(expects, beside, lane, first, count, own) fills a stretch whose references depend on blocks."""
    job = prover.of_lane(path, path.given(2, 32))
    claims_stretch(prover, path, job, path.given(3, 32), path.given(4, 32), path.given(5), False)


def reference_positions(prover, path):
    """reference_positions(job, lane, first, out, count) writes the references of a stretch, to the function's own
    frame."""
    job, first, count = prover.of_lane(path, path.given(1, 32)), path.given(2, 32), path.given(4)
    prover.claims_job(path, path.given(0), job.fields())
    prover.claim(path, z3.ULE(count, STRETCH), 'it takes too many references')
    prover.forget(path, path.given(3), 8 * STRETCH)
    path.notes['references'] = path.given(3), first, count, job.lane


def write_blocks(prover, path):
    """write_blocks(expects, beside, lane, first, references, count, own) fills a stretch whose references are known:
    those which reference_positions wrote, and nobody changed."""
    at, first, count, lane = path.notes.pop('references', (None, None, None, None))
    if at is None:
        raise Fault('it has no references')
    same = z3.And(path.given(2, 32) == lane, path.given(4) == at, path.given(3, 32) == first, path.given(5) == count)
    prover.claim(path, same, 'its references are others')
    region, offset = prover.place(at)
    if any((region, offset + index) in path.memory for index in range(8 * STRETCH)):
        raise Fault('its references were changed')
    job = prover.of_lane(path, path.given(2, 32))
    claims_stretch(prover, path, job, path.given(3, 32), low(path.given(5)), path.given(6), True)


def claims_stretch(prover, path, job, first, count, own, is_independent):
    claim = prover.claim
    prover.claims_job(path, path.given(1), [*job.fields(), *job.pointers()])
    claim(path, path.given(0) == word('expects'), 'it expects something else')
    claim(path, prover.load(path, own, 8) == job.own, 'it fills another segment')
    claim(path, prover.load(path, own + OWN_LENGTH, 8) == wide(job.length), 'it fills a segment of another length')
    claim(path, wide(first) == path.ghosts[f'{job.name}done'], 'it goes on at another index')
    claim(path, z3.And(z3.ULE(job.first, first), z3.ULE(wide(first) + wide(count), wide(job.length)),
                       z3.ULE(count, STRETCH), count != 0), 'its stretch does not fit', True)
    claim(path, job.is_independent() == is_independent, 'it takes the other kind of segment')
    prover.put(path, own + TALLY, prover.fresh('tally'))
    path.ghosts[f'{job.name}done'] = z3.simplify(wide(first) + wide(count))


def clear(prover, path):
    """memset, of the function's own frame, with zeros."""
    size = path.known(path.given(2))
    prover.claim(path, path.given(1, 8) == 0, 'it fills with other bytes than zeros')
    prover.forget(path, path.given(0), size)
    prover.put(path, path.given(0), number(0, 8 * size))


STRETCHES = {'fill_dependent': fill_dependent, 'reference_positions': reference_positions,
             'write_blocks': write_blocks, 'memset': clear, 'proved_driver_memset': clear}


# ---- statements

def begin_of(code, name, build):
    """Where a function of a build begins."""
    return sorted(begin for begin, called in code.names.items() if name in names_of(called))[build]


def prove_pick(code, build, s, is_first):
    """pick(job, lane, index, word) returns the lane and the column to which the mapping refers."""
    prover, index, drawn = Segments(code, s, is_first, {}), half('index'), word('word')
    job, path, at, prover.large = prover.job, prover.path, word('job'), 3  # (each sum gets a name)
    path.enter([at, beneath_unknown(job.lane, 'lane'), beneath_unknown(index, 'index'), drawn])
    prover.passes_job(at, SLICES, job.fields())
    path.conditions += [z3.ULE(job.first, index), z3.ULT(index, job.length)]

    def result(end):
        lane, column = reference(Words(prover, end), s, is_first, job.lanes, job.length, job.lane, index, drawn)
        prover.claim(end, end.returned(0, 32) == lane, 'it returns another lane')
        prover.claim(end, end.returned(1, 32) == column, 'it returns another column')
    prover.prove(begin_of(code, 'pick', build), path, result)
    return prover


def prove_dependent(code, build, s, is_first):
    """fill_dependent(expects, beside, lane, first, count, own) fills a stretch whose references depend on blocks."""
    prover, count = Segments(code, s, is_first, FILLS), half('count')
    return prove_stretch(prover, begin_of(code, 'fill_dependent', build), [beneath_unknown(count, 'count')],
                         wide(count), False)


def prove_stretch(prover, begin, passed, count, is_independent):
    """Proves a function that fills a stretch, which is passed (expects, beside, lane, first, .., own)."""
    job, path, first = prover.job, prover.path, half('first')
    end = wide(first) + count
    prover.loops = [Loop(lambda path: [(z3.And(z3.ULE(wide(first), path.ghosts['done']), z3.ULT(
        path.ghosts['done'], end)), 'blocks are left')], lambda path: end - path.ghosts['done'])]
    enter(prover, first, *passed, word('own'))
    path.conditions += [*fits(job, first, count), job.is_independent() == is_independent]
    prover.prove(begin, path, lambda path: prover.claim(
        path, path.ghosts['done'] == end, 'it does not fill all blocks'))
    return prover


def enter(prover, first, *passed):
    """Begins a function that is passed (expects, beside, lane, first, ..)."""
    path, job, expects, prover.beside = prover.path, prover.job, word('expects'), word('beside')
    path.enter([expects, prover.beside, *(beneath_unknown(value, str(value)) for value in (job.lane, first)), *passed])
    prover.region(expects, 1)
    prover.passes_job(prover.beside, JOB_SIZE, [*job.fields(), *(
        (SLICES + 16 * index, pointer) for index, pointer in enumerate(job.slices))])
    for one, own in ((job, word('own')), (prover.other, word('other'))):
        if one:
            prover.region(own, OWN_SIZE, (TALLY, OWN_SIZE))
            prover.put(path, own, one.own)
            path.ghosts |= {f'{one.name}{name}': value for name, value in UNPICKED.items()}
            path.ghosts |= {f'{one.name}done': wide(first), 'memory': word('memory')}


def fits(job, first, count):
    """A stretch of the segment."""
    return [z3.ULE(job.first, first), z3.ULE(wide(first) + count, wide(job.length)), z3.ULE(count, STRETCH), count != 0]


def prove_segment(code, build, s, is_first):
    """fill_caller_segment(expects, job, lane, three slices, own) fills a lane's segment."""
    return prove_whole(Segments(code, s, is_first, STRETCHES), begin_of(code, 'fill_caller_segment', build))


def prove_whole(prover, begin):
    """Proves a function that fills segments: of one lane, or also of the next."""
    job, path, at = prover.job, prover.path, word('job')
    jobs, end = [job] + [prover.other] * bool(prover.other), wide(job.length)

    def claims(path):
        return [(z3.And(z3.ULE(job.first, path.ghosts['done']), z3.ULT(path.ghosts['done'], end)), 'blocks are left'),
                (z3.And(*(path.ghosts[f'{one.name}done'] == path.ghosts['done'] for one in jobs)), 'a lane is behind')]
    prover.loops = [Loop(claims, lambda path: end - path.ghosts['done'])]
    size = prover.wide_product(wide(job.lanes), wide(job.length))
    others = [job.slices[index] for index in range(4) if index != job.s]
    path.enter([word('expects'), at, beneath_unknown(job.lane, 'lane'), *(
        value for other in others for value in (other, size)), *(value for one in jobs for value in (one.own, end))])
    prover.passes_job(at, SLICES, job.fields())
    path.ghosts |= {f'{one.name}done': number(job.first) for one in jobs}
    prover.prove(begin, path, lambda path: prover.claim(
        path, z3.And(*(path.ghosts[f'{one.name}done'] == end for one in jobs)), 'it does not fill all blocks'))
    return prover
