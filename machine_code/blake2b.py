"""BLAKE2b without a key (RFC 7693, 3.3) of a message in any number of pieces, over F (3.2), of which nothing is
assumed.

The RFC, as rfc7693.py has it:

    h = [IV[0] ^ 0x01010000 ^ length, *IV[1:]]
    for at in range(0, max(len(data), 1), 128):
        end = min(at + 128, len(data))
        h = F(h, data[at:end] with zeros behind it, end, 0, end == len(data))

and the hash is the first `length` bytes of h. The ghosts are:

- `h`, which is this h: F is passed nothing else, and what it makes is the next h;
- `pieces`, how many pieces were begun, and how many bytes were taken into a block: `within` of the last piece, and
  `taken` of the whole message;
- `block`, whose first `used` bytes are the last that were taken, and `zeros`, which is 1 if the others are zeros;
- `done`, which is 1 after the last block, and 2 when the hash is written."""

import functools

import z3
from byte_strings import ASTRAY, BYTE, Strings, clears, joined, word
from proving import wide
from loops import Loop
from rfc7693 import IV
from symbolic import number

BLOCK, STATE = 128, 64
WORDS = z3.BitVecSort(64)
# Each piece: where it begins, its length, and how many bytes of the message are before it.
PIECE, LENGTH, BEFORE = (z3.Function(name, WORDS, WORDS) for name in ('piece', 'length', 'before'))
PIECES, COUNT, OUT, SIZE = (word(name) for name in ('pieces', 'count', 'out', 'size'))
TOTAL = BEFORE(COUNT)


def first_state(size):
    return joined(number(IV[0]) ^ 0x01010000 ^ size, *map(number, IV[1:]))


class Hashes(Strings):
    """Reads the list of pieces in order: of a new piece the length first."""

    def load_elsewhere(self, path, address, size):
        begun = path.ghosts['pieces']
        for index, place, value in ((begun, 8, LENGTH), (begun - 1, 8, LENGTH), (begun - 1, 0, PIECE)):
            if size == 8 and self.knows(path, address == PIECES + (index << 4) + place):
                self.claim(path, z3.ULT(index, COUNT), 'it reads beyond the list')
                if index is begun:
                    path.ghosts |= {'pieces': begun + 1, 'within': number(0)}
                    # (what "before" means; all pieces together are shorter than 2^64)
                    path.conditions += [BEFORE(begun + 1) == BEFORE(begun) + LENGTH(begun), z3.ULE(
                        BEFORE(begun), BEFORE(begun + 1)), z3.ULE(BEFORE(begun + 1), TOTAL)]
                return value(z3.simplify(index))
        return super().load_elsewhere(path, address, size)


def change_block(prover, path, address, zeros):
    """The buffer changes from an address on: behind the bytes that were taken."""
    begin = prover.own(path, address - path.ghosts['used'], BLOCK, 'the buffer')
    prover.claim(path, z3.Or(path.ghosts['used'] == 0, prover.at(path, begin, BLOCK) == path.ghosts['block']),
                 'the buffer has other bytes than those that were taken')
    if begin[0] != ASTRAY:
        path.ghosts |= {'block': prover.fresh('block', BYTE * BLOCK), 'zeros': number(zeros)}
        prover.write(path, begin, path.ghosts['block'])


def copied(prover, path):
    """The contract of memcpy."""
    (give if prover.is_own(path.given(1)) else take)(prover, path, *(path.given(index) for index in range(3)))


def take(prover, path, to, source, count):
    """The next bytes of the message are taken into the block."""
    used, taken, piece = path.ghosts['used'], path.ghosts['taken'], path.ghosts['pieces'] - 1
    within = path.ghosts['within']
    prover.claim(path, z3.And(0 != path.ghosts['pieces'], taken == BEFORE(piece) + within),
                 'not all bytes before were taken')
    prover.claim(path, source == PIECE(piece) + within, 'it takes other bytes than the next')
    prover.claim(path, z3.ULE(within, LENGTH(piece)), 'it takes bytes behind a piece')
    count = prover.generalize(path, count, lambda count: [
        (count != 0, 'it takes nothing'),
        (z3.ULE(count, LENGTH(piece) - within), 'it takes too many bytes of a piece'),
        (z3.ULE(count, BLOCK - used), 'it takes more than the block has room for')])
    prover.fact(path, z3.And(z3.ULE(taken, taken + count), z3.ULE(taken + count, TOTAL)),
                'the message is longer than it may be')
    prover.claim(path, path.ghosts['done'] == 0, 'it takes bytes after the last block')
    change_block(prover, path, to, 0)
    path.ghosts |= {'used': z3.simplify(used + count), 'taken': z3.simplify(taken + count),
                    'within': z3.simplify(within + count)}


def give(prover, path, to, source, count):
    """The hash is written."""
    prover.claim(path, z3.And(to == OUT, count == SIZE), 'it writes the hash elsewhere')
    prover.claim(path, path.ghosts['done'] == 1, 'it writes the hash too early or twice')
    prover.claim(path, prover.string(path, source, STATE, 'the hash') == path.ghosts['h'], 'it writes another hash')
    path.ghosts['done'] = number(2)


def padded(prover, path):
    """The contract of memset: zeros behind the message."""
    prover.claim(path, z3.And(path.given(1, BYTE) == 0, path.given(2) == BLOCK - path.ghosts['used']),
                 'it writes other bytes than zeros, or not behind the message')
    change_block(prover, path, path.given(0), 1)


def arguments_of_f(prover, path):
    """The state's place, the state, the block, the counter's words and the flag."""
    state = prover.own(path, path.given(0), STATE, 'the state')
    block = prover.string(path, path.given(1), BLOCK, 'the block')
    return state, prover.at(path, state, STATE), block, path.given(2), path.given(3), path.given(4, 32)


def compressed(prover, path):
    """The contract of F: a round of the RFC's loop."""
    state, h, block, low, high, flag = arguments_of_f(prover, path)
    used = path.ghosts['used']
    at = z3.simplify(path.ghosts['taken'] - used)
    end = z3.If(z3.ULT(TOTAL - at, BLOCK), TOTAL, at + BLOCK)
    claim = functools.partial(prover.claim, path)
    claim(path.ghosts['done'] == 0, 'it hashes more after the last block')
    claim(h == path.ghosts['h'], 'F is passed another state')
    claim(used == end - at, 'F is passed too few bytes or too many')
    claim(block == path.ghosts['block'], 'F is passed another block')
    claim(z3.Or(used == BLOCK, path.ghosts['zeros'] == 1), 'there are no zeros behind the message')
    claim(z3.And(low == end, high == 0), 'the counter is wrong')
    claim(flag == z3.If(end == TOTAL, number(1, 32), number(0, 32)), 'the flag is wrong')
    path.ghosts |= {'used': number(0), 'zeros': number(0), 'done': wide(flag)}
    if state[0] != ASTRAY:
        path.ghosts['h'] = prover.fresh('h', BYTE * STATE)
        prover.write(path, state, path.ghosts['h'])


def blake2b(code, begin):
    """blake2b(out, size, pieces, count)."""
    def within_block(path):
        used = path.ghosts['used']
        return [(z3.ULE(used, BLOCK), 'the block has no more bytes than it has room for'),
                (z3.Or(used != 0, path.ghosts['taken'] == 0), 'the last block is not passed too early'),
                (z3.ULE(used, path.ghosts['taken']), 'they are of the message'),
                (path.ghosts['done'] == 0, 'the last block is not passed')]

    def between_pieces(path):
        begun, taken = path.ghosts['pieces'], path.ghosts['taken']
        return [(z3.ULT(begun, COUNT), 'pieces are left'),
                (taken == BEFORE(begun), 'all pieces before are taken'), *within_block(path)]

    def within_piece(path):
        piece, within = path.ghosts['pieces'] - 1, path.ghosts['within']
        return [(z3.ULT(piece, COUNT), 'a piece is begun'), (z3.ULT(within, LENGTH(piece)), 'bytes are left'),
                (path.ghosts['taken'] == BEFORE(piece) + within, 'all bytes before are taken'),
                (z3.And(BEFORE(piece + 1) == BEFORE(piece) + LENGTH(piece), z3.ULE(BEFORE(piece), BEFORE(piece + 1)),
                        z3.ULE(BEFORE(piece + 1), TOTAL)), 'no sum is too large'), *within_block(path)]
    prover = Hashes(code, {'compress_f': compressed, 'proved_driver_memcpy': copied, 'proved_driver_memset': padded,
                           'wipe': clears}, [
        Loop(between_pieces, lambda path: COUNT - path.ghosts['pieces']),
        Loop(within_piece, lambda path: LENGTH(path.ghosts['pieces'] - 1) - path.ghosts['within'])])
    ghosts = {'h': first_state(SIZE), 'block': number(0, BYTE * BLOCK),
              **{name: number(0) for name in ('taken', 'pieces', 'within', 'used', 'zeros', 'done')}}
    path = prover.begin([OUT, SIZE, PIECES, COUNT], ghosts, [
        z3.ULE(1, SIZE), z3.ULE(SIZE, 64), z3.ULE(1, COUNT), z3.ULT(COUNT, 1 << 59), BEFORE(number(0)) == 0])
    prover.prove(begin, path, lambda path: prover.claim(path, path.ghosts['done'] == 2, 'it writes no hash'))
    return prover


STATEMENTS = {'blake2b': blake2b}
