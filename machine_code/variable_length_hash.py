"""H', the hash of variable length (RFC 9106, 3.3), for all lengths.

The RFC, as rfc9106.py has it:

    if length <= 64:
        return blake2b(length, le32(length) + message)
    r = ceil(length / 32) - 2
    v = blake2b(64, le32(length) + message)            # V 1, of which W 1 is the first half
    W 2 .. W r: v = blake2b(64, v), and of each v the first half
    and at the end: blake2b(length - 32 r, v)

The ghost `v` is this v, `index` is its number, and `written` says how many bytes of the hash are written, which is
done in order. BLAKE2b of a v, which is half a block, is one F: its state, counter and flag are claimed to be those of
RFC 7693, 3.3."""

import functools

import z3
from blake2b import BLOCK, STATE, arguments_of_f, first_state
from byte_strings import BYTE, Strings, clears, joined, known, le32, word
from loops import Loop
from symbolic import number, variables

OUT, SIZE, MESSAGE, LENGTH = word('out'), word('size'), word('message'), word('length of message')
HALF = STATE // 2


def chain_length():
    """r = ceil(size / 32) - 2."""
    return z3.LShR(SIZE, 5) + z3.If(SIZE & HALF - 1 == 0, number(0), number(1)) - 2


def piece(prover, path, index):
    """Where a piece of a list begins, and its length."""
    found = prover.string(path, path.given(2) + 16 * index, 16, 'the list of pieces')
    return z3.simplify(z3.Extract(63, 0, found)), z3.simplify(z3.Extract(127, 64, found))


def hashed(prover, path):
    """The contract of BLAKE2b."""
    count = known(path.given(3), 'the number of pieces')
    (hash_message if count == 2 else hash_last)(prover, path, path.given(0), path.given(1))


def hash_message(prover, path, out, size):
    """The hash of LE32(length) || message is the whole H', or V 1."""
    claim = functools.partial(prover.claim, path)
    (begin, length), message = piece(prover, path, 0), piece(prover, path, 1)
    claim(z3.And(length == 4, prover.string(path, begin, 4, 'the length') == le32(SIZE)), 'it hashes another length')
    claim(z3.And(message[0] == MESSAGE, message[1] == LENGTH), 'it hashes another message')
    claim(z3.And(path.ghosts['index'] == 0, path.ghosts['written'] == 0), 'it hashes the message twice')
    if prover.is_own(out):
        claim(z3.And(z3.ULT(64, SIZE), size == 64), 'it needs no chain, or V 1 has another length')
        next_v(prover, path, prover.own(path, out, STATE, 'V 1'))
    else:
        claim(z3.And(z3.ULE(SIZE, 64), out == OUT, size == SIZE), 'it needs a chain, or writes elsewhere')
        path.ghosts['written'] = SIZE


def hash_last(prover, path, out, size):
    """The hash of V r is the end of H'."""
    claim = functools.partial(prover.claim, path)
    (begin, length), written = piece(prover, path, 0), path.ghosts['written']
    claim(z3.And(length == 64, path.given(3) == 1), 'it hashes other pieces')
    claim(prover.string(path, begin, STATE, 'V r') == path.ghosts['v'], 'it hashes another V')
    claim(z3.And(z3.ULT(64, SIZE), path.ghosts['index'] == chain_length(), written == HALF * chain_length()),
          'the chain has another length')
    claim(z3.And(out == OUT + written, size == SIZE - written, z3.ULE(1, size), z3.ULE(size, 64)),
          'the end of the hash goes elsewhere, or has another length')
    path.ghosts['written'] = SIZE


def next_v(prover, path, place):
    path.ghosts |= {'v': prover.fresh('v', BYTE * STATE), 'index': z3.simplify(path.ghosts['index'] + 1)}
    prover.write(path, place, path.ghosts['v'])


def compressed(prover, path):
    """The contract of F: BLAKE2b of a message of 64 bytes."""
    state, h, block, low, high, flag = arguments_of_f(prover, path)
    prover.claim(path, h == first_state(number(STATE)), 'F is passed another state')
    wanted = joined(path.ghosts['v'], number(0, BYTE * (BLOCK - STATE)))
    prover.claim(path, block == wanted, 'F is passed another block')
    prover.claim(path, z3.And(low == STATE, high == 0, flag == 1), 'the counter or the flag is wrong')
    prover.claim(path, path.ghosts['written'] == HALF * path.ghosts['index'], 'the V before is not written')
    next_v(prover, path, state)


class Writes(Strings):
    """Writes the hash in order: of each V the first half."""

    def store_elsewhere(self, path, address, value):
        index, written, size = path.ghosts['index'], path.ghosts['written'], value.size() // BYTE
        if variables(OUT) & variables(address) and self.is_checking:
            self.claim(path, address == OUT + written, 'it writes elsewhere than behind the bytes before')
            self.claim(path, z3.And(z3.ULT(64, SIZE), z3.ULE(written + size, HALF * chain_length())),
                       'it writes too far')
            self.claim(path, z3.LShR(written, 5) + 1 == index, 'it writes of another V')
            begin = next((at for at in range(0, HALF, size) if self.knows(path, written & HALF - 1 == at)), None)
            self.claim(path, z3.BoolVal(begin is not None), 'it writes parts of two V')
            self.claim(path, value == z3.Extract(BYTE * (begin + size) - 1, BYTE * begin, path.ghosts['v']),
                       'it writes other bytes than those of V')
        elif self.is_checking:
            super().store_elsewhere(path, address, value)
        path.ghosts['written'] = z3.simplify(written + size)


def hprime(code, begin):
    """hprime(out, size, message, its length)."""
    def chain(path):
        index, written = path.ghosts['index'], path.ghosts['written']
        return [(z3.And(z3.ULE(1, index), z3.ULT(index, chain_length())), 'the chain is not at its end'),
                (written == HALF * index, 'all V so far are written')]
    prover = Writes(code, {'blake2b': hashed, 'compress_f': compressed, 'wipe': clears,
                           'wipe_frames': lambda prover, path: None},
                    [Loop(chain, lambda path: chain_length() - path.ghosts['index'])])
    ghosts = {'v': number(0, BYTE * STATE), 'index': number(0), 'written': number(0)}
    path = prover.begin([OUT, SIZE, MESSAGE, LENGTH], ghosts, [z3.ULE(1, SIZE), z3.ULT(SIZE, 1 << 32)])
    prover.prove(begin, path, lambda path: prover.claim(path, path.ghosts['written'] == SIZE, 'it writes no hash'))
    return prover


STATEMENTS = {'hprime': hprime}
