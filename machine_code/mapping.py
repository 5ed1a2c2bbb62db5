"""Which block a block refers to (RFC 9106, 3.4.2), as one formula over numbers or over words of Z3. rfc9106.py builds
the set W as a list, which has no length that Z3 knows; test_formulas.py compares the formula with it."""

import z3
from symbolic import resized
from terms import Fault

FIRST_LENGTH, MOST_LENGTH, MOST_LANES = 2, 1 << 30, 1 << 24


class Numbers:
    """Python's numbers."""
    @staticmethod
    def choose(condition, one, other):
        return one if condition else other

    @staticmethod
    def drawn(word, lanes):
        return (word >> 32) % lanes

    @staticmethod
    def scaled(word, size):
        """floor(size floor(J1^2 / 2^32) / 2^32)."""
        return size * ((word & 0xffffffff) ** 2 >> 32) >> 32

    @staticmethod
    def below(one, other):
        return one < other

    @staticmethod
    def known(value, *_):
        return value


class Words:
    """Words of 32 bits on a path. No sum overflows, as a lane has fewer than 2^32 columns (`prove_facts`)."""
    choose, below = staticmethod(z3.If), staticmethod(z3.ULT)

    def __init__(self, prover, path):
        self.prover, self.path = prover, path

    def drawn(self, word, lanes):
        found = remainder(z3.Extract(63, 32, word), lanes)
        self.prover.lemmas += [z3.Implies(lanes != 0, z3.ULT(found, lanes)), z3.Implies(lanes == 1, found == 0)]
        return found

    def scaled(self, word, size):
        wide = z3.ZeroExt(32, z3.Extract(31, 0, word))
        square = z3.LShR(self.prover.wide_product(wide, wide), 32)
        return z3.Extract(63, 32, self.prover.known_product(self.path, z3.ZeroExt(32, size), square))

    def known(self, value, *facts):
        """The name that the code has for a value, of which no more is used from here on than facts that are proved."""
        name = self.prover.known_name(self.path, value)
        for fact in facts:
            self.prover.claim(self.path, fact(name), 'a fact about the mapping is not true', True)
        self.path.definitions = tuple(one for one in self.path.definitions if not one.arg(0).eq(name))
        return name


def remainder(one, other):
    """What the engine calls a remainder: a function of which nothing is known (x86.divide)."""
    return z3.Function('remainder32', *[z3.BitVecSort(32)] * 3)(one, other)


def size_of_set(ops, s, is_first, length, index, is_own):
    """How many blocks W has: those of the pass before that are not yet overwritten, those of this pass before this
    segment, and those of this segment in its own lane; without the block before."""
    before = length * (0 if is_first else 3 - s) + length * s
    return before + ops.choose(is_own, index - 1, ops.choose(index == 0, index - 1, index - index))


def column_of(ops, s, is_first, length, at):
    """The column of an element of W: first those of the pass before, behind this segment; then those of this pass."""
    old = length * (0 if is_first else 3 - s)
    return ops.choose(ops.below(at, old), at + length * (s + 1), at - old)


def reference(ops, s, is_first, lanes, length, lane, index, word):
    """The lane and the column that a word picks, for the block at an index of a lane's segment in slice s."""
    other = lane if is_first and s == 0 else ops.drawn(word, lanes)
    size = ops.known(size_of_set(ops, s, is_first, length, index, other == lane),
                     lambda size: size != 0, lambda size: ops.below(size, 4 * length))
    at = ops.known(size - 1 - ops.scaled(word, size), lambda at: ops.below(at, size))
    return other, column_of(ops, s, is_first, length, at)


class Integers(Numbers):
    """Z3's integers, for which the facts below are proved."""
    choose = staticmethod(z3.If)


def prove_facts(s, is_first):
    """W is not empty and has fewer than four segments; each of its elements is in a column; and if that is in the slice
    that is filled, then it is one of the same lane before the block. (Multiplication: size x >> 32 < size.)"""
    length, index, at, lane, other = z3.Ints('length index at lane other')
    size = size_of_set(Integers, s, is_first, length, index, lane == other)
    column = column_of(Integers, s, is_first, length, at)
    solver = z3.Solver()
    solver.add(FIRST_LENGTH <= length, length < MOST_LENGTH, first_index(s, is_first) <= index, index < length,
               lane == other if is_first and s == 0 else True)
    in_slice = z3.And(s * length <= column, column < (s + 1) * length)
    for given, claim in (
            ([], z3.And(0 < size, size < 4 * length)),
            ([0 <= at, at < size], z3.And(0 <= column, column < 4 * length, z3.Implies(
                in_slice, z3.And(lane == other, column < s * length + index))))):
        solver.push()
        solver.add(*given, z3.Not(claim))
        if solver.check() != z3.unsat:
            raise Fault('the mapping is not as assumed')
        solver.pop()


def first_index(s, is_first):
    """The first two blocks of a lane are there before."""
    return 2 if is_first and s == 0 else 0


def slice_of(column, length):
    """The slice of a column, by comparisons."""
    return z3.If(z3.ULT(column, length), 0, z3.If(z3.ULT(column, 2 * length), 1, z3.If(z3.ULT(column, 3 * length), 2, (
        resized(3, 32)))))
