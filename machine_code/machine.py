"""The engine for the compression functions: memory, and running a function on terms instead of numbers."""

import operator

from rfc9106 import rotated
from terms import BITS, MASK, Fault, cut, joined, linear, variable

WORD, HALF, LARGEST_UNIT = 8, 32, 64
# More instructions and bytes of stack than any function needs.
STEPS, FRAME = 100_000, 1 << 14
STACK, RETURN = variable('stack'), variable('return')
CONDITIONS = {'e': operator.eq, 'ne': operator.ne, 'b': operator.lt, 'ae': operator.ge, 'a': operator.gt,
              'be': operator.le}


class Machine:
    """A processor that begins a function. Its registers hold terms. Memory consists of regions: the stack, and those
    that the function is passed, by their size in bytes. It may write only to the stack and `written`. The class of
    a processor (x86.py, arm64.py) has the registers."""
    # The address to which the function returns.
    back = RETURN

    def __init__(self, code, regions, written, entry):
        self.code, self.regions, self.written, self.end = code, regions, written, entry + self.own_of_caller
        self.memory, self.flags, self.after, self.met, self.constants, self.below = {}, None, 0, set(), set(), 0
        self.steps, self.text, self.returns, self.prefetched = 0, '', (), []
        self.registers = {**self.named('first'), self.stack_pointer: STACK + entry}
        self.before = {**self.registers, self.stack_pointer: STACK + self.end}

    def named(self, when):
        """Returns a variable for each word of the registers."""
        return self.fresh(lambda name: variable(f'{when} {name}'))

    def run(self, address):
        """Runs a function until it returns."""
        for self.steps in range(STEPS):
            if address is RETURN:
                return
            if not isinstance(address, int):
                raise Fault('it jumps to what it computed')
            if address in self.code.clears:
                address = self.clear_words()
            else:
                self.text, size, step = self.code.at(address)
                self.met.add(address)
                self.after = address + size
                jumps, to = step(self) or (False, None)
                address = to if jumps else self.after
        raise Fault(f'it has not returned after {STEPS} instructions')

    def find(self, word):
        """Returns an address's region, and its offset in that; or None."""
        number, terms = linear(word)
        (base, factor), = terms.items() if len(terms) == 1 else [(STACK, 0)]
        if factor != 1 or base is not STACK and base.parts[0] not in self.regions:
            return None
        return base.parts[0], number if number < 1 << BITS - 1 else number - (1 << BITS)

    def places(self, address, count, unit):
        """Returns the places of words in memory, for an instruction that needs them aligned to a unit."""
        region, at = self.find(address) or (None, 0)
        if region is None:
            raise Fault('it computes an address')
        if at % unit or region != 'stack' and unit > WORD:
            raise Fault(f'it needs {region} {at:+} aligned to {unit} bytes')
        begin, end = (self.end - FRAME, self.end) if region == 'stack' else (0, self.regions[region])
        if not begin <= at <= end - WORD * count:
            raise Fault(f'it looks at {region} {at:+}')
        if region == 'stack':
            _, pointer = self.find(self.registers[self.stack_pointer]) or (None, None)
            if pointer is None:
                raise Fault('its stack pointer is no address')
            self.below += at < pointer
        return [(region, at + WORD * index) for index in range(count)]

    def word_at(self, region, at):
        if region == 'stack' and (region, at) not in self.memory:
            raise Fault('it reads of its stack what it did not write')
        return self.memory.get((region, at), variable(f'{region}{at // WORD}'))

    def load(self, address, size, unit=WORD):
        """Returns a word of memory, or the words of a vector."""
        count, rest = divmod(size, WORD)
        if rest:
            raise Fault(f'it reads {size} bytes')
        if isinstance(address, int):
            self.constants.update(range(address, address + size))
            words = tuple(self.code.constant(address + WORD * index) for index in range(count))
        else:
            words = tuple(self.word_at(*place) for place in self.places(address, count, unit))
        return words if count > 1 else words[0]

    def store(self, address, value, size, unit=WORD):
        """Writes a word, or words."""
        if size % WORD:
            raise Fault(f'it writes {size} bytes')
        places = self.places(address, size // WORD, unit)
        if places and places[0][0] not in {self.written, 'stack'}:
            raise Fault(f'it writes to {places[0][0]}')
        self.memory.update(zip(places, value if isinstance(value, tuple) else (value & MASK,)))

    def clear(self, address, byte, size):
        """Clears memory as memset does."""
        if not isinstance(size, int) or size % WORD or byte != 0:
            raise Fault('it fills memory with other than words of zero')
        # places() first rejects a wrong size, whose zeros may exceed memory.
        self.store(address, (0,) * len(self.places(address, size // WORD, WORD)), size)

    def clear_words(self):
        """A call of memset, which may change the other registers."""
        self.clear(*(self.registers[name] for name in self.arguments[:3]))
        back, self.flags = self.return_address(), None
        preserved = *self.saved, self.stack_pointer
        self.registers |= {name: word for name, word in self.named('left').items() if name not in preserved}
        return back

    def part(self, name, low=0, width=BITS):
        """Returns a part of a register."""
        word = self.registers[name]
        return word if width == BITS else word >> low & (1 << width) - 1

    def put(self, name, word, low=0, width=BITS):
        """Writes a part of a register. A part of 32 bits clears those above it; beside smaller ones the others stay."""
        word = word & (1 << width) - 1
        if width < HALF:
            whole, end = self.registers[name], low + width
            word = joined(*cut(whole, 0, low), *cut(word, 0, width), *cut(whole, end, BITS - end))
        self.registers[name] = word

    def masked(self, word, mask):
        """AND; also of a stack address, whose lowest bits are known."""
        region, at = self.find(word) or (None, 0)
        if region != 'stack' or not isinstance(mask, int) or MASK - mask >= LARGEST_UNIT:
            return word & mask
        return STACK + (at & mask - (1 << BITS))

    def set_flags(self, kind, operands, result):
        """Notes the numbers that conditions compare, if all are numbers."""
        pair = operands if kind == 'difference' else (result, 0) if kind == 'bits' else (None, None)
        self.flags = (*pair,) if all(isinstance(word, int) for word in pair) else None

    def holds(self, condition):
        """Returns whether a condition holds, which may depend only on numbers."""
        if self.flags is None or condition not in CONDITIONS:
            raise Fault(f'it depends on data, or the condition {condition} is not known')
        return CONDITIONS[condition](*self.flags)

    def choose(self, condition, one, other, _width=BITS):
        """Returns one of two words. If the condition depends on data, nothing is known of the result."""
        if self.flags is None:
            return variable(f'chosen at {self.steps}')
        return one if self.holds(condition) else other

    @staticmethod
    def is_zero(word):
        return known(word, 'it branches on data') == 0

    @staticmethod
    def known(word):
        return known(word, 'it counts by data')

    @staticmethod
    def product(one, other):
        return one * other

    @staticmethod
    def right(word, count):
        return word >> count

    @staticmethod
    def rotated(word, count):
        return rotated(word, count)

    @staticmethod
    def resized(word, _width):
        """Reading clears the bits above an operand, and writing cuts a word."""
        return word

    def prefetch(self, address):
        """Takes note of an address, which may be computed from data."""
        self.prefetched.append(address)

    def left_behind(self):
        """Returns the names of vectors in which a function has left words of blocks."""
        return []

    def fault(self, words, cleared):
        """Returns what is wrong with a function's results, which have to be words in the written region, and this many
        zeros in its own frame."""
        wrong = [at for at, word in enumerate(words) if self.word_at(self.written, WORD * at) != word]
        changed = [name for name in (*self.saved, self.stack_pointer) if self.registers[name] != self.before[name]]
        zeros = sum(region == 'stack' and word == 0 for (region, _), word in self.memory.items())
        stay = self.left_behind()
        return (f'{len(wrong)} of {len(words)} words are wrong' if wrong else
                f'it clears {zeros} words of its frame, of {cleared}' if zeros < cleared else
                f'it does not restore {", ".join(changed)}' if changed else
                f'it leaves words in {", ".join(stay)}' if stay else None)


def known(word, fault):
    """Returns a number, where data would be a fault."""
    if not isinstance(word, int):
        raise Fault(fault)
    return word


def half_known(number):
    """Returns a register of whose upper half nothing is known."""
    return joined((number, 0, BITS // 2), (variable('upper half'), 0, BITS // 2))


def each(function):
    """Applies a function to each pair of words of two operands, or to each word of the first and one number."""
    def done(words, other):
        return tuple(function(*pair) for pair in zip(
            words, other if isinstance(other, tuple) else (other,) * len(words)))
    return done


def add(x, y):
    return x + y & MASK


def left(x, count):
    return x << count & MASK if count < BITS else 0


def right(x, count):
    return x >> count
