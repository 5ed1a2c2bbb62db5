"""The instructions of ARM64 that are known, as objdump prints them, with its procedure call standard."""

import functools
import re

from machine import WORD, add, each, left, right
from operands import (Operand, call, computed, computed_by, constant, idle, jump, jump_if, parts, register, returned,
                      with_flags)
from rfc9106 import MASK
from terms import BITS, Fault, picked

NUMBER = re.compile(r'#?(-?0x[0-9a-f]+|-?\d+)')
REGISTER = re.compile(r'([xw])(\d+)|([qdsb])(\d+)|v(\d+)\.(?:2d|4s|2s|16b)|([xw]zr)|(sp)')
# How many bits a register has, by the first letter of its name.
WIDTHS = {'x': 64, 'w': 32, 'd': 64, 's': 32, 'b': 8}
PLACE = re.compile(r'\[(x\d+|sp)(?:, (?:#(-?\d+)|(x\d+)(?:, lsl #(\d+))?|w(\d+), uxtw(?: #(\d+))?))?\](!?)')
EXTENDED = 'uxtw'  # (the lower half of a register, which may be shifted)
LOW, PART, IDLE = (1 << 32) - 1, 16, ('nop', 'bti', 'hint')
# ARM64's names of conditions, and x86-64's, which both engines use.
CONDITIONS = {'eq': 'e', 'ne': 'ne', 'cc': 'b', 'cs': 'ae', 'hi': 'a', 'ls': 'be', 'lt': 'l', 'ge': 'ge', 'gt': 'g',
              'le': 'le', 'mi': 's', 'pl': 'ns'}


class Arm64:
    """A run's registers. The halves of a vector have names of their own, since some lower ones are preserved: d0 is
    lower, h0 upper. At the start of a function, the stack pointer may be as many bytes as `entries` says above
    a multiple of the largest alignment."""
    arguments, result, hidden, stack_pointer = tuple(f'x{number}' for number in range(8)), 'x0', 'x8', 'sp'
    saved = *(f'x{number}' for number in range(19, 30)), *(f'd{number}' for number in range(8, 16))
    entries, own_of_caller = (0, 16, 32, 48), 0

    @staticmethod
    def decode(text):
        return decode(text)

    @staticmethod
    def fresh(word):
        """Returns registers whose words are made by name."""
        return {f'{kind}{number}': word(f'{kind}{number}') for kind in 'xdh' for number in range(32)}

    def enter(self, values):
        """Begins a function."""
        self.registers.update(zip(self.arguments, values))
        self.registers['x30'] = self.back
        for index, value in enumerate(values[len(self.arguments):]):
            self.store(self.registers['sp'] + WORD * index, value, WORD)

    def return_address(self):
        return self.registers['x30']


def vector(number):
    """A whole vector, as two words."""
    names = f'd{number}', f'h{number}'

    def write(run, words):
        for name, word in zip(names, (*words, 0)):
            run.put(name, word)
    return Operand(lambda run: tuple(run.registers[name] for name in names), write, 2 * BITS)


def lowest(number, width):
    """The lowest part of a vector. A write clears the rest."""
    def write(run, word):
        run.put(f'd{number}', word)
        run.put(f'h{number}', 0)
    return Operand(lambda run: run.part(f'd{number}', 0, width), write, width)


def operand(text):
    """Returns a number, or a register or its part."""
    if found := NUMBER.fullmatch(text):
        return constant(int(found[1], 0))
    found = REGISTER.fullmatch(text)
    if not found:
        raise Fault(f'the operand {text} is not known')
    kind, number, of_lowest, place, of_vector, zero, stack_pointer = found.groups()
    if zero:  # (what is written to it is lost)
        return Operand(lambda run: 0, lambda run, word: None, WIDTHS[zero[0]])
    if of_vector or of_lowest == 'q':
        return vector(of_vector or place)
    return lowest(place, WIDTHS[of_lowest]) if of_lowest else register(stack_pointer or f'x{number}', 0,
                                                                       WIDTHS[kind or 'x'])


SHIFTS = {'lsl': lambda run, x, count: x << count, 'lsr': lambda run, x, count: run.right(x, count),
          'asr': lambda run, x, count: run.right_signed(x, count), 'ror': lambda run, x, count: run.rotated(x, count)}


def shifted(name, source, count):
    """An operand that is shifted by a number. A rotation is known of 64 bits only."""
    if count.number is None or not 0 <= count.number < source.width or name == 'ror' and source.width < BITS:
        raise Fault(f'{name} does not shift a word by a number')
    mask = (1 << source.width) - 1
    return Operand(lambda run: SHIFTS[name](run, source.read(run), count.number) & mask, None, source.width)


def operands_of(words):
    """Returns operands, of which the last may say how the one before is shifted."""
    shift, _, count = words[-1].partition(' ')
    if shift == EXTENDED:
        *plain, last = (operand(word) for word in words[:-1])
        return [*plain, Operand(lambda run: run.resized(last.read(run), BITS) << int(count.strip('#') or 0))]
    if shift not in SHIFTS:
        return [operand(word) for word in words]
    *plain, last = (operand(word) for word in words[:-1])
    return [*plain, shifted(shift, last, operand(count))]


def halves_multiplied(one, other):
    return tuple(x * y & MASK for x, y in zip((one & LOW, one >> 32), (other & LOW, other >> 32)))


def inserted(words, shifted, count):
    """sri, which keeps the bits that it does not write."""
    return tuple(left(right(kept, BITS - count), BITS - count) | right(word, count)
                 for kept, word in zip(words, shifted))


# The functions that instructions compute of their operands; those of ONTO also read the register that they write. For
# vectors, each operand's arrangement follows the name.
VECTOR = {
    'add 2d 2d 2d': each(add), 'eor 16b 16b 16b': each(lambda x, y: x ^ y), 'shl 2d 2d': each(left),
    'mov 16b 16b': tuple, 'dup 2d': lambda word: (word, word), 'movi 2d': lambda word: (word, word),
    'movi 4s': lambda half: (half * 0x100000001,) * 2, 'movi 16b': lambda byte: (byte * 0x0101010101010101,) * 2,
    'xtn 2s 2d': lambda words: picked(words, (0, 2), 32), 'rev64 4s 4s': lambda words: picked(words, (1, 0, 3, 2), 32),
    'uzp1 4s 4s 4s': lambda one, other: picked((*one, *other), (0, 2, 4, 6), 32),
    'umull 2d 2s 2s': lambda one, other: halves_multiplied(one[0], other[0]),
    'ext 16b 16b 16b': lambda low, high, count: picked((*low, *high), tuple(range(count, count + 16)), 8)}
ONTO = {
    'sri 2d 2d': inserted, 'usra 2d 2d': lambda words, shifted, count: each(add)(words, each(right)(shifted, count)),
    'umlal 2d 2s 2s': lambda words, one, other: each(add)(words, halves_multiplied(one[0], other[0])),
    'umlal2 2d 4s 4s': lambda words, one, other: each(add)(words, halves_multiplied(one[1], other[1]))}
# The first argument of these functions is the run, since what they compute depends on the engine.
GENERAL = {
    'add': lambda run, x, y: x + y, 'sub': lambda run, x, y: x - y, 'eor': lambda run, x, y: x ^ y,
    'and': lambda run, x, y: run.masked(x, y), 'orr': lambda run, x, y: x | y, 'neg': lambda run, x: 0 - x,
    **dict.fromkeys(('mov', 'adrp'), lambda run, x: x),
    'mul': lambda run, x, y: run.product(x, y), 'madd': lambda run, x, y, z: run.product(x, y) + z,
    'umull': lambda run, x, y: run.product(run.resized(x, BITS), run.resized(y, BITS)),
    'umaddl': lambda run, x, y, z: run.product(run.resized(x, BITS), run.resized(y, BITS)) + z,
    'udiv': lambda run, x, y: run.unknown('quotient', x, y),
    'ubfx': lambda run, x, low, width: run.right(x, low) & (1 << width) - 1,
    'ubfiz': lambda run, x, low, width: (x & (1 << width) - 1) << low}
# These only set the flags: what they compute, and in which way the result sets the flags.
TESTED = {'cmp': (GENERAL['sub'], 'difference'), 'cmn': (GENERAL['add'], 'sum with inverted carry'),
          'tst': (GENERAL['and'], 'shift')}
# These also write what they compute.
WRITTEN = {'subs': TESTED['cmp'], 'ands': TESTED['tst']}
# These write one of two words: the first if a condition holds, or else the second.
CHOSEN = {'csel': lambda x, y: (x, y), 'csinc': lambda x, y: (x, y + 1), 'cset': lambda: (1, 0),
          'cinv': lambda x: (x ^ MASK, x)}


def place(text):
    """Returns the base of an address, and what computes the address, and moves its base there if the operand says so.
    """
    found = PLACE.fullmatch(text)
    if not found:
        raise Fault(f'the address {text} is not known')
    base, offset, index, shift, half, shift_of_half, is_moved = found.groups()

    def at(run):
        if half:
            added = run.resized(run.part(f'x{half}', 0, BITS // 2), BITS) << int(shift_of_half or 0)
        else:
            added = run.registers[index] << int(shift or 0) if index else int(offset or 0)
        begin = run.registers[base] + added
        if is_moved:
            run.put(base, begin)
        return begin
    return base, at


def moved(mnemonic, words):
    """Loads and stores of one register or two. The base may be moved afterwards, by the operand behind the address."""
    index = next((index for index, word in enumerate(words) if word.startswith('[')), len(words) - 1)
    (base, at), registers = place(words[index]), [operand(word) for word in words[:index]]
    size, behind = {'b': 1, 'h': 2}.get(mnemonic[-1], registers[0].width // 8), [*map(operand, words[index + 1:])]

    def step(run):
        values = [source.read(run) for source in registers]
        begin = at(run)
        for order, (value, one) in enumerate(zip(values, registers)):
            if mnemonic[0] == 's':
                run.store(begin + order * size, value, size)
            else:
                one.write(run, run.load(begin + order * size, size))
        for distance in behind:
            run.put(base, begin + distance.number)
    return step


def branch_on(word, bit, is_zero, to):
    """cbz, cbnz, tbz and tbnz: jumps if a word or a bit of it is zero, or is not, and leaves the flags."""
    def step(run):
        value = word.read(run) if bit is None else run.right(word.read(run), bit) & 1
        return run.is_zero(value) == is_zero, to.read(run)
    return step


def in_part(name, width, value, low):
    """movk, which writes 16 bits of a register."""
    def step(run):
        run.put(name, value, low, PART)
        run.put(name, run.part(name, 0, width), 0, width)
    return step


def choose(function, words):
    """csel, csinc, cset and cinv, which choose one of two words."""
    target, condition = operand(words[0]), CONDITIONS.get(words[-1])
    sources = [operand(word) for word in words[1:-1]]
    return lambda run: target.write(run, run.choose(
        condition, *function(*(source.read(run) for source in sources)), target.width))


def store_exclusive(status, word, address):
    """stlxr, which stores or not, and says so in a register."""
    (_, at), source, told = place(address), operand(word), operand(status)

    def step(run):
        run.store(at(run), source.read(run), source.width // 8)
        told.write(run, run.unknown('status', source.read(run)))
    return step


def keep_return(run, address):
    run.put('x30', address)


def special(mnemonic, words):
    """Instructions with operands of their own kinds, or none."""
    name, _, condition = mnemonic.partition('.')
    match name, len(words):
        case 'ret', 0:
            return returned
        case 'b', 1 if condition:
            return jump_if(CONDITIONS.get(condition), operand(words[0]))
        case ('b' | 'br'), 1:
            return jump(operand(words[0]))
        case ('bl' | 'blr'), 1:
            return call(keep_return, operand(words[0]))
        case (('cbz' | 'cbnz'), 2) | (('tbz' | 'tbnz'), 3):
            bit = operand(words[1]).number if name[0] == 't' else None
            return branch_on(operand(words[0]), bit, 'n' not in name, operand(words[-1]))
        case 'ccmp', 4:
            kind, flags = TESTED['cmp'][1], operand(words[2]).number
            one, other = (operand(word) for word in words[:2])
            return lambda run: run.compare_if(CONDITIONS.get(words[3]), kind, (one.read(run), other.read(run)), flags)
        case 'stlxr', 3:
            return store_exclusive(*words)
        case 'movk', (2 | 3):
            low = int(words[2].removeprefix('lsl #')) if words[2:] else 0
            return in_part(f'x{words[0][1:]}', WIDTHS[words[0][0]], operand(words[1]).number, low)
    raise Fault(f'the instruction {mnemonic} of {len(words)} operands is not known')


@functools.cache
def decode(text):
    """Returns an instruction as a step."""
    mnemonic, _, rest = text.partition('\t')
    words = parts(rest)
    if mnemonic in IDLE:
        return idle
    if mnemonic == 'prfm' and len(words) == 2:
        _, at = place(words[1])
        return lambda run: run.prefetch(at(run))
    if re.fullmatch('(ld|st)(p|u?r[bh]?)|ldax?r[bh]?|stlr[bh]?', mnemonic) and len(words) > 1:
        return moved(mnemonic, words)
    arrangements = [word.partition('.')[2] for word in words if word.startswith('v')]
    form = ' '.join((mnemonic, *arrangements))
    if form in ONTO or arrangements and form in VECTOR:
        function = ONTO.get(form) or VECTOR[form]
        return computed(function, operands_of(words if form in ONTO else words[1:]), operand(words[0]))
    if mnemonic in CHOSEN:
        return choose(CHOSEN[mnemonic], words)
    if mnemonic in TESTED:
        return with_flags(*TESTED[mnemonic], operands_of(words))
    if mnemonic in WRITTEN:
        return with_flags(*WRITTEN[mnemonic], operands_of(words[1:]), operand(words[0]))
    if mnemonic in SHIFTS and len(words) == 3:
        return computed_by(lambda run, word: word, [shifted(mnemonic, *map(operand, words[1:]))], operand(words[0]))
    if mnemonic in GENERAL and len(words) > 1 and not arrangements:
        return computed_by(GENERAL[mnemonic], operands_of(words[1:]), operand(words[0]))
    return special(mnemonic, words)
