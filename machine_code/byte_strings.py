"""What all statements about byte strings share (blake2b.py, variable_length_hash.py, prehash.py, first_blocks.py,
comparison.py, tag.py, clearing.py, settings.py): bytes in a function's own frame, the contracts of the functions that
copy and clear, and ghosts that are longer than a word.

A byte string in the frame is one term: the first byte is its lowest. So the state of BLAKE2b is one term of 512
bits."""

from dataclasses import dataclass

import vectors
import z3
from loops import ROUND, WORD, Looping, Moves
from proving import Path
from symbolic import RETURN, STACK, number, resized
from terms import BITS, Fault
from x86 import WORD as STEP

ASTRAY = 'astray'
BYTE, UNITS = 8, {'i8': 1, 'i64': 8}  # (the bytes of what wipe clears, by the type in its name)


def word(name, width=BITS):
    return z3.BitVec(name, width)


def joined(*parts):
    """The string that consists of these, of which the first comes first."""
    return z3.simplify(z3.Concat(*reversed(parts))) if len(parts) > 1 else parts[0]


def part(string, begin, size):
    """Some bytes of a string."""
    return z3.simplify(z3.Extract(BYTE * (begin + size) - 1, BYTE * begin, string))


def le32(value):
    """The low 32 bits of a number, as LE32 writes them."""
    return z3.simplify(resized(value, 32))


class BytesPath(Path):
    """A path with all instructions on vectors that these functions have."""
    decode = staticmethod(vectors.decode)


@dataclass(frozen=True)
class Holds(Moves):
    """A guess about a place: it holds a ghost's bits from `factor` on."""


class Strings(Looping):
    """Proves functions that are passed byte strings. Of a ghost that is longer than a word, parts may be in places."""

    def options(self, place, assumed, back):
        if place[0] == 'ghost':  # (on which other places depend)
            return [WORD]
        others = sorted(super().options(place, assumed, back), key=lambda form: form == WORD or form.ghost == ROUND)
        return self.options_of_place(place, back) + others

    def options_of_place(self, place, back):
        """The parts of ghosts that a place may hold."""
        value = self.value(back, place)
        width = BITS if value is None else value.size()
        strings = {name: string for name, string in back.ghosts.items() if string.size() > BITS}
        return [Holds(name, low, width) for name, string in strings.items() for low in range(0, string.size(), width)
                if place[0] == 'memory' and value is not None and all(
                    self.is_part(path, place, name, low, width) for path in (back, self.arrival))]

    def is_part(self, path, place, name, low, width):
        value, string = self.value(path, place), path.ghosts[name]
        return value is not None and low + width <= string.size() and self.knows(
            path, value == z3.Extract(low + width - 1, low, string))

    def moved(self, arrival, path, place, form, rounds):
        if isinstance(form, Holds):
            return z3.simplify(z3.Extract(form.factor + form.width - 1, form.factor, path.ghosts[form.ghost]))
        return super().moved(arrival, path, place, form, rounds)

    def assumed(self, arrival, *rest):
        self.arrival = arrival
        return super().assumed(arrival, *rest)

    def generalize(self, path, value, facts):
        """Claims facts of a number. Then it is a variable of which only these are known, also in the registers."""
        value = z3.simplify(value)
        for claim, fault in facts(value):
            self.claim(path, claim, fault)
        variable = self.fresh('number', value.size())
        path.conditions += [claim for claim, _ in facts(variable)]
        for name, found in path.registers.items():
            if z3.is_bv(found) and found.eq(value):
                path.registers[name] = variable
        return variable

    def fact(self, path, claim, fault):
        """Proves a claim, which is known from there on."""
        self.claim(path, claim, fault)
        path.conditions.append(claim)

    def call(self, path, name):
        self.called = name
        super().call(path, name)

    def claim_unchanged(self, path, begin, what):
        """A region that the function may write is as it was."""
        region, _ = self.place(begin)
        if any(name == region for name, _ in path.memory):
            raise Fault(what)

    # ---- the frame

    def is_own(self, address):
        """Whether an address is of the stack."""
        return self.place(z3.simplify(address))[0] == STACK

    def own(self, path, address, size, what):
        """Where bytes of the own frame are. (While a loop is searched, a wrong guess may lead elsewhere.)"""
        region, offset = self.place(z3.simplify(address))
        if region == STACK and self.depth(path) <= offset <= -size:
            return region, offset
        if self.is_checking:
            raise Fault(f'{what} is not in its frame')
        return ASTRAY, 0

    def string(self, path, address, size, what):
        """Bytes of the own frame."""
        return self.at(path, self.own(path, address, size, what), size)

    def passed(self, path, address, size):
        """Bytes of the own frame, or of what the function was passed."""
        return joined(*(self.load(path, z3.simplify(address + at), 1) for at in range(size)))

    def at(self, path, place, size):
        return self.fresh('astray', BYTE * size) if place[0] == ASTRAY else self.loaded(path, place, size)

    def write(self, path, place, value):
        if place[0] != ASTRAY:
            self.put_at(path, place, value)

    def load_elsewhere(self, path, address, size):
        for model in self.models(path)[:1]:  # (a table of constants, of which only one can be meant here)
            at = model.eval(address, model_completion=True)
            if self.code.place(at.as_long()) is not None and self.knows(path, address == at):
                return self.loaded(path, ('', at.as_long()), size)
        return super().load_elsewhere(path, address, size) if self.is_checking else self.fresh('astray', BYTE * size)

    def store_elsewhere(self, path, address, value):
        if self.is_checking:
            super().store_elsewhere(path, address, value)

    def begin(self, arguments, ghosts=(), conditions=()):
        """A path that begins a function."""
        path = BytesPath(self)
        self.depth(path)  # (so that the stack is known)
        path.registers.update(zip(path.arguments, arguments))
        for index, value in enumerate([RETURN, *arguments[len(path.arguments):]]):
            self.put_at(path, (STACK, STEP * index), value)
        path.ghosts, path.conditions = dict(ghosts), [*path.conditions, *conditions]
        return path

    def structure(self, path, begin, size, fields, values):
        """A structure that a function is passed, and may only read: its fields by name are at these places."""
        self.region(begin, size)
        for name, at in fields.items():
            self.put_at(path, self.place(begin + at), values[name])


def known(value, what):
    """A number."""
    value = z3.simplify(value)
    if not z3.is_bv_value(value):
        raise Fault(f'{what} is not known')
    return value.as_long()


# ---- contracts of functions that clear and copy bytes in the frame of the caller

def clears(prover, path):
    """The contract of wipe: so many units are zeros."""
    size = UNITS[prover.called.partition('::<')[2].split(',')[0]] * known(path.given(1), 'how much it clears')
    prover.write(path, prover.own(path, path.given(0), size, 'what it clears'), number(0, BYTE * size))


def fills(prover, path):
    """The contract of memset, by zeros."""
    prover.claim(path, path.given(1, BYTE) == 0, 'it fills with other bytes than zeros')
    size = known(path.given(2), 'how much it fills')
    prover.write(path, prover.own(path, path.given(0), size, 'what it fills'), number(0, BYTE * size))


def copies(prover, path):
    """The contract of memcpy, within the frame."""
    size = known(path.given(2), 'how much it copies')
    string = prover.string(path, path.given(1), size, 'what it copies')
    prover.write(path, prover.own(path, path.given(0), size, 'a copy'), string)
