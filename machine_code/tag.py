"""The tag (RFC 9106, 3.2, steps 7 and 8): C is the exclusive or of the last blocks of all lanes, and the tag is
H'^(length)(C). The last slice has the lanes one behind the other, each with as many blocks as a segment has."""

import z3
from byte_strings import BYTE, STEP, Strings, clears, copies, fills, joined, word
from loops import Loop
from proving import wide
from symbolic import number
from terms import BITS

BLOCK = 1024
OUT, SIZE, BLOCKS = word('out'), word('size'), word('blocks')
LANES, SEGMENT = word('lanes', 32), word('segment', 32)
# How many blocks of the slice are before a lane.
BEFORE = z3.Function('blocks before lane', z3.BitVecSort(64), z3.BitVecSort(64))
JOB = {'lanes': 0x44, 'segment': 0x48}


def combined(prover, path):
    """The contract of the exclusive or of two blocks: C takes the last block of the next lane."""
    lane, place = path.ghosts['lane'], prover.own(path, path.given(0), BLOCK, 'C')
    prover.claim(path, prover.at(path, place, BLOCK) == path.ghosts['c'], 'it combines something else')
    prover.claim(path, z3.ULT(lane, wide(LANES)), 'it combines more lanes than there are')
    # (what "before" means; all lanes together have fewer than 2^30 blocks)
    path.conditions += [BEFORE(lane + 1) == BEFORE(lane) + wide(SEGMENT), z3.ULE(BEFORE(lane), BEFORE(lane + 1)),
                        z3.ULE(BEFORE(lane + 1), BEFORE(wide(LANES)))]
    last = BEFORE(lane) + wide(SEGMENT) - 1
    prover.claim(path, path.given(1) == BLOCKS + last * BLOCK,
                 'it combines another block than the last of the next lane')
    path.ghosts |= {'c': prover.fresh('c', BYTE * BLOCK), 'lane': z3.simplify(lane + 1)}
    prover.write(path, place, path.ghosts['c'])


def hashed(prover, path):
    """The contract of H': it makes the tag of C."""
    prover.claim(path, path.ghosts['lane'] == wide(LANES), 'it does not combine all lanes')
    prover.claim(path, prover.string(path, path.given(2), BLOCK, 'C') == path.ghosts['c'], 'it hashes another block')
    prover.claim(path, z3.And(path.given(0) == OUT, path.given(1) == SIZE, path.given(3) == BLOCK,
                              path.ghosts['made'] == 0), 'it writes elsewhere, another length, or twice')
    path.ghosts['made'] = number(1)


def finalize_slice(code, begin):
    """finalize_slice(job, blocks, out, size)."""
    def lanes(path):
        lane = path.ghosts['lane']
        return [(z3.ULT(lane, wide(LANES)), 'lanes are left'), (path.ghosts['made'] == 0, 'the tag is not made'),
                (z3.And(path.ghosts['row'] == BEFORE(lane), z3.ULE(BEFORE(lane), BEFORE(wide(LANES)))),
                 'no sum is too large')]

    def counted(prover, path):
        combined(prover, path)
        path.ghosts['row'] = z3.simplify(path.ghosts['row'] + wide(SEGMENT))
    prover = Strings(code, {'bitxor_assign': counted, 'hprime': hashed, 'wipe': clears, 'proved_driver_memset': fills,
                            'proved_driver_memcpy': copies},
                     [Loop(lanes, lambda path: wide(LANES) - path.ghosts['lane'])])
    path = prover.begin([word('job'), BLOCKS, OUT, SIZE], {
        'c': number(0, BYTE * BLOCK), 'lane': number(0), 'row': number(0), 'made': number(0)}, [
        LANES != 0, z3.ULT(LANES, 1 << 24), z3.ULE(2, SEGMENT), BEFORE(number(0)) == 0,
        z3.ULT(BEFORE(wide(LANES)), 1 << 30), z3.ULE(wide(SEGMENT), BEFORE(wide(LANES)))])
    prover.structure(path, word('job'), 0x58, JOB, {'lanes': LANES, 'segment': SEGMENT})
    prover.prove(begin, path, lambda path: prover.claim(path, path.ghosts['made'] == 1, 'it makes no tag'))
    return prover


# The words of the two blocks before.
OWN, OTHER = (z3.Function(f'word of the {name} block', z3.BitVecSort(64), z3.BitVecSort(64))
              for name in ('own', 'other'))
WORDS = BLOCK // STEP


class Combines(Strings):
    """Writes each word of the own block once and in order: the exclusive or of what was there and of the other's word.
    `written` says how many words."""

    def index(self, path, address, begin):
        """The word at an address, if that is some words behind those that are written; or None."""
        written = path.ghosts['written']
        ahead = z3.simplify(address - begin - STEP * written)
        return written + ahead.as_long() // STEP if z3.is_bv_value(ahead) and ahead.as_long() % STEP == 0 and \
            ahead.as_long() < BLOCK else None

    def load_elsewhere(self, path, address, size):
        for begin, words in ((word('own'), OWN), (word('other'), OTHER)):
            index = self.index(path, address, begin)
            if index is not None and size % STEP == 0:
                self.claim(path, z3.ULE(index + size // STEP, WORDS), 'it reads beyond a block')
                return joined(*(words(z3.simplify(index + at)) for at in range(size // STEP)))
        return super().load_elsewhere(path, address, size)

    def store_elsewhere(self, path, address, value):
        written, count = path.ghosts['written'], value.size() // BITS
        if address.eq(z3.simplify(word('own') + STEP * written)) and value.size() % BITS == 0:
            self.claim(path, z3.ULE(written + count, WORDS), 'it writes beyond a block')
            indexes = [z3.simplify(written + at) for at in range(count)]
            wanted = joined(*(OWN(index) ^ OTHER(index) for index in indexes))
            self.claim(path, value == wanted, 'it writes something else')
            path.ghosts['written'] = z3.simplify(written + count)
        else:
            super().store_elsewhere(path, address, value)


def bitxor_assign(code, begin):
    """bitxor_assign(own, other), of blocks that have no byte in common."""
    def loop(stride):
        def claims(path):
            written = path.ghosts['written']
            return [(z3.And(written & stride - 1 == 0, z3.ULT(written, WORDS)), 'words are left')]
        return Loop(claims, lambda path: WORDS - path.ghosts['written'])
    own, other, end = word('own'), word('other'), number(-BLOCK)
    prover = Combines(code, {}, [loop(stride) for stride in (16, 8, 4, 2, 1)])
    path = prover.begin([own, other], {'written': number(0)}, [z3.ULT(own, end), z3.ULT(other, end), z3.Or(
        z3.ULE(own + BLOCK, other), z3.ULE(other + BLOCK, own))])
    prover.prove(begin, path, lambda path: prover.claim(
        path, path.ghosts['written'] == WORDS, 'it does not write all words'))
    return prover


STATEMENTS = {'finalize_slice': finalize_slice, 'bitxor_assign': bitxor_assign}
