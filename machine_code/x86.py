"""The instructions of x86-64 that are known, as objdump prints them in Intel's syntax, with the calling convention of
System V."""

import functools
import re
from itertools import chain

from machine import WORD, add, each, right
from operands import (Operand, call, computed, computed_by, constant, idle, jump, jump_if, parts, register, returned,
                      with_flags)
from rfc9106 import MASK, rotated
from terms import BITS, Fault, picked

OLD = 'ax', 'bx', 'cx', 'dx', 'si', 'di', 'bp', 'sp'
# The registers for integers, and for each name the register, the part's lowest bit and its width; those for vectors,
# how many of them are older than AVX-512, and how many words one has; and sizes in bytes.
WHOLE = [f'r{name}' for name in (*OLD, *range(8, 16))]
NAMES = {**{f'{letter}{name}': (f'r{name}', 0, width) for name in OLD
            for letter, width in (('r', 64), ('e', 32), ('', 16))},
         **{f'{name[0] if name[1] == "x" else name}l': (f'r{name}', 0, 8) for name in OLD},
         **{f'{name[0]}h': (f'r{name}', 8, 8) for name in OLD[:4]},
         **{f'r{number}{letter}': (f'r{number}', 0, width) for number in range(8, 16)
            for letter, width in (('', 64), ('d', 32), ('w', 16), ('b', 8))}}
VECTORS, OF_VEX, WIDEST = [f'mm{number}' for number in range(32)], 16, 8
SIZES = {'x': 16, 'y': 32, 'z': 64, 'BYTE': 1, 'WORD': 2, 'DWORD': 4, 'QWORD': 8, 'XMMWORD': 16, 'YMMWORD': 32,
         'ZMMWORD': 64}
PLACE = re.compile(r'(?:(\w+) PTR )?\[(?:([a-z]\w*)(?=[+\-\]]))?(?:\+?(\w+)\*(\d))?([+-]0x[0-9a-f]+)?\]')
# The registers of floating-point numbers are only cleared.
IDLE = re.compile(r'(data16 |cs )*nop.*|endbr64|xchg +ax,ax|fldz|fstp +st\(0\)')
LOW = (1 << 32) - 1


class X86:
    """A run's registers. At the start of a function, the stack pointer may be as many bytes as `entries` says above
    a multiple of the largest alignment; the function owns some bytes of its caller's stack."""
    arguments, result, hidden, stack_pointer = ('rdi', 'rsi', 'rdx', 'rcx', 'r8', 'r9'), 'rax', 'rdi', 'rsp'
    saved, entries, own_of_caller = ('rbx', 'rbp', 'r12', 'r13', 'r14', 'r15'), (8, 24, 40, 56), WORD
    vectors, words = VECTORS, WIDEST

    @staticmethod
    def decode(text):
        return decode(text)

    @classmethod
    def fresh(cls, word):
        """Returns registers whose words are made by name."""
        return {name: word(name) for name in WHOLE} | \
            {name: tuple(word(f'{name} {at}') for at in range(cls.words)) for name in cls.vectors}

    def enter(self, values):
        """Begins a function."""
        self.registers.update(zip(self.arguments, values))
        for index, value in enumerate([self.back, *values[len(self.arguments):]]):
            self.store(self.registers['rsp'] + WORD * index, value, WORD)

    def push(self, word):
        self.put('rsp', self.registers['rsp'] - WORD)
        self.store(self.registers['rsp'], word, WORD)

    def pop(self):
        word = self.load(self.registers['rsp'], WORD)
        self.put('rsp', self.registers['rsp'] + WORD)
        return word

    return_address = pop

    def left_behind(self):
        """Returns the vectors in which words of blocks stay, except in the halves that the driver clears. memset leaves
        no such words there."""
        cleared = self.named('left')
        return [name for at, name in enumerate(VECTORS) if not all(
            word in (0, before, left) for word, before, left in [
                *zip(self.registers[name], self.before[name], cleared[name])][2 if at < OF_VEX else 0:])]


class OfC(X86):
    """The C code uses no vectors but those of SSE."""
    vectors, words = VECTORS[:OF_VEX], 2


def vector(name, size, keeps_rest):
    """The lowest words of a vector. A write keeps the rest or clears it."""
    def write(run, words):
        if len(words) != size:
            raise Fault(f'it makes {len(words)} words for {size} of {name}')
        run.registers[name] = (*words, *(run.registers[name][size:] if keeps_rest else (0,) * (WIDEST - size)))
    return Operand(lambda run: run.registers[name][:size], write, BITS * size)


def address(text):
    """Returns the size of a place in memory, and what computes its address."""
    found = PLACE.fullmatch(text)
    if not found or {*found.group(2, 3)} - {None, 'rip', *WHOLE}:
        raise Fault(f'the address {text} is not known')
    size, base, index, scale, offset = found.groups()
    offset = int(offset or '0', 16)

    def at(run):
        begin = run.after if base == 'rip' else run.registers[base] if base else 0
        return begin + offset + (run.registers[index] * int(scale) if index else 0) & MASK
    return size, at


def memory(size, unit, at):
    return Operand(lambda run: run.load(at(run), size, unit), lambda run, value: run.store(at(run), value, size, unit),
                   8 * size)


def operand(text, mnemonic):
    """Returns a register or its part, a number, or a place in memory; for lea, the address of that place."""
    if text in NAMES:
        return register(*NAMES[text])
    if text[1:] in VECTORS and text[0] in SIZES:
        return vector(text[1:], SIZES[text[0]] // WORD, not mnemonic.startswith('v'))
    if re.fullmatch(r'0x[0-9a-f]+|\d+', text):
        return constant(int(text, 0))
    name, at = address(text)
    if mnemonic == 'lea':
        return Operand(at)
    if name not in SIZES:
        raise Fault(f'the operand {text} of {mnemonic} is not known')
    size, is_new = SIZES[name], mnemonic.startswith('v')
    is_aligned = size > WORD and mnemonic[is_new:] not in UNALIGNED and not (is_new and mnemonic[1:] not in MOVES)
    return memory(size, size if is_aligned else WORD, at)


def by_lanes(function):
    """Applies a function to each two words of vectors, and a number."""
    def done(*operands):
        vectors, rest = ([value for value in operands if isinstance(value, tuple)],
                         [value for value in operands if isinstance(value, int)])
        lanes = ([words[at:at + 2] for words in vectors] for at in range(0, len(vectors[0]), 2))
        return tuple(chain.from_iterable(function(*lane, *rest) for lane in lanes))
    return done


def places(words, width, count):
    """Returns elements of constant words, each of which is a place. In an upper half, LLVM's places may begin at
    `count`."""
    found = [word >> at & (1 << width) - 1 for word in words if isinstance(word, int) for at in range(0, BITS, width)]
    if len(found) < len(words) * BITS // width or {place // count for place in found} not in ({0}, {1}):
        raise Fault('it shuffles by other than places')
    return tuple(place % count for place in found)


def four_of(order):
    return tuple(order >> 2 * index & 3 for index in range(4))


def by_fours(words, order):
    return tuple(words[at + place] for at in range(0, len(words), 4) for place in four_of(order))


def permuted(first, second):
    """vpermq has two forms: (vector, number) moves words within each four, and (places, vector) moves all words."""
    if isinstance(second, int):
        return by_fours(first, second)
    return picked(second, places(first, BITS, len(second)), BITS)


def by_pairs(one, other, order):
    """Returns two pairs of one vector's words, and two of another's."""
    if len(one) < WIDEST:
        raise Fault('it shuffles fewer than four pairs')
    return tuple(chain.from_iterable(
        words[2 * place:2 * place + 2] for words, place in zip((one, one, other, other), four_of(order))))


def added_to_both(words, one, other, table):
    if table != 0x96:
        raise Fault(f'the table {table:#x} is not known')
    return tuple(x ^ y ^ z for x, y, z in zip(words, one, other))


# Each instruction computes its result from the operands that it reads by these functions. Those of ONTO also read the
# first operand, which they write.
UNALIGNED = 'movups', 'movdqu', 'movdqu32', 'movdqu64'
MOVES = 'movaps', 'movdqa', 'movdqa64', *UNALIGNED
XOR = dict.fromkeys(('pxor', 'pxord', 'xorps'), each(lambda x, y: x ^ y))
ONTO = {
    **XOR, 'paddq': each(add), 'pmuludq': each(lambda x, y: (x & LOW) * (y & LOW)), 'por': each(lambda x, y: x | y),
    'psrlq': each(right), 'vpternlogq': added_to_both,
    'pshufb': by_lanes(lambda words, order: picked(words, places(order, 8, 16), 8)),
    'palignr': by_lanes(lambda high, low, count: picked((*low, *high), tuple(range(count, count + 16)), 8)),
    'punpcklqdq': by_lanes(lambda one, other: (one[0], other[0]))}
FROM = {
    **dict.fromkeys(MOVES, tuple), 'pshufd': by_lanes(lambda words, order: picked(words, four_of(order), 32)),
    'movq': lambda word: ((word[0] if isinstance(word, tuple) else word), 0),
    'vinserti128': lambda words, other, upper: (*words[:2], *other) if upper else (*other, *words[2:]),
    'vpermq': permuted, 'vshufi64x2': by_pairs,
    'vpmovzxbq': lambda words: tuple(words[0] >> at & 0xff for at in range(0, BITS, 8)),
    'vprorq': each(lambda word, count: rotated(word, count % BITS)),
    'vprolq': each(lambda word, count: rotated(word, -count % BITS)),
    'vpermd': lambda order, words: picked(words, places(order, 32, 2 * len(words)), 32)}
VECTOR = FROM | ONTO | {f'v{name}': function for name, function in (FROM | ONTO).items() if name[0] != 'v'}
# Those that move a word, and those that are passed the run's engine; the latter say by what the flags are set.
PLAIN = {**dict.fromkeys(('mov', 'movabs', 'movzx', 'lea'), lambda x: x), 'movq': lambda words: words[0],
         'vpextrq': lambda words, place: words[place]}
SHIFTS = 'shl', 'shr', 'sar', 'rorx', 'shld'
ARITHMETIC = {
    'add': (lambda run, x, y: x + y, 'sum'), 'sub': (lambda run, x, y: x - y, 'difference'),
    'xor': (lambda run, x, y: x ^ y, 'bits'), 'or': (lambda run, x, y: x | y, 'bits'),
    'and': (lambda run, x, y: run.masked(x, y), 'bits'), 'imul': (lambda run, x, y: run.product(x, y), 'product'),
    'shl': (lambda run, x, count: x << count, 'shift'), 'shr': (lambda run, x, count: run.right(x, count), 'shift'),
    'sar': (lambda run, x, count: run.right_signed(x, count), 'shift'),
    'shld': (lambda run, x, y, count: x << count | run.right(y, BITS - count), 'shift')}
TESTED = {'cmp': ARITHMETIC['sub'], 'test': ARITHMETIC['and']}


def prefetch(text):
    _, at = address(text)
    return lambda run: run.prefetch(at(run))


def leave(run):
    run.registers['rsp'] = run.registers['rbp']
    run.registers['rbp'] = run.pop()


def clear_upper(run):
    run.registers |= {name: (*run.registers[name][:2], *(0,) * (WIDEST - 2)) for name in VECTORS[:OF_VEX]}


def divide(divisor):
    """Returns the step that divides a number of two words by one; only one whose upper word is zero."""
    def step(run):
        by, width = divisor.read(run), divisor.width
        if run.known(run.part('rdx', 0, width)):
            raise Fault('it divides more than a word')
        low = run.part('rax', 0, width)
        for name, what in (('rax', 'quotient'), ('rdx', 'remainder')):
            run.put(name, run.unknown(what, low, by), 0, width)
        run.set_flags('', (), None)
    return step


def subtract_borrow(one, other):
    """Returns the step of sbb, whose borrow is known from a comparison."""
    def step(run):
        one.write(run, one.read(run) - other.read(run) - run.choose('b', 1, 0, one.width))
        run.set_flags('', (), None)
    return step


def add_carry(one, other):
    """Returns the step of adc, whose carry is known from a comparison or a sum."""
    def step(run):
        one.write(run, one.read(run) + other.read(run) + run.choose('b', 1, 0, one.width))
        run.set_flags('', (), None)
    return step


def step_by(one, delta):
    """Returns the step of inc or dec. Nobody looks at the carry, which they keep."""
    def step(run):
        result = one.read(run) + delta
        run.set_flags('step', (), result)
        one.write(run, result)
    return step


def extend_sign(target, source):
    """Returns the step of movsxd."""
    return lambda run: target.write(run, run.sign_extended(source.read(run), source.width, target.width))


def store_words(run):
    """Fills a known number of words."""
    for _ in range(run.known(run.registers['rcx'])):
        run.store(run.registers['rdi'], run.registers['rax'], WORD)
        run.put('rdi', run.registers['rdi'] + WORD)
    run.put('rcx', 0)


def exchange(one, other):
    """Returns the step that exchanges two words."""
    def step(run):
        word = one.read(run)
        one.write(run, other.read(run))
        other.write(run, word)
    return step


def exchange_if_equal(target, source):
    """Returns the step of cmpxchg, after which rax is what was there before."""
    def step(run):
        before, width = target.read(run), target.width
        run.set_flags('difference', (run.part('rax', 0, width), before), None)
        target.write(run, run.choose('e', source.read(run), before, width))
        run.put('rax', before, 0, width)
    return step


def choose(condition, operands):
    """Returns the step of setcc or cmovcc."""
    target, width = operands[0], operands[0].width
    reads = [source.read for source in operands[::-1]] if len(operands) > 1 else [lambda run: 1, lambda run: 0]
    return lambda run: target.write(run, run.choose(condition, *(read(run) for read in reads), width))


def special(mnemonic, operands):
    """Decodes instructions with special operands, or none."""
    match mnemonic, len(operands):
        case 'push', 1:
            return lambda run: run.push(operands[0].read(run))
        case 'pop', 1:
            return lambda run: operands[0].write(run, run.pop())
        case 'call', 1:
            return call(X86.push, operands[0])
        case 'jmp', 1:
            return jump(operands[0])
        case 'ret', 0:
            return returned
        case 'leave', 0:
            return leave
        case 'vzeroupper', 0:
            return clear_upper
        case 'xchg', 2:
            return exchange(*operands)
        case 'cmpxchg', 2:
            return exchange_if_equal(*operands)
        case 'neg', 1:
            return with_flags(lambda run, x: 0 - x, 'negation', operands, operands[0])
        case 'div', 1:
            return divide(operands[0])
        case 'sbb', 2:
            return subtract_borrow(*operands)
        case 'adc', 2:
            return add_carry(*operands)
        case 'inc' | 'dec', 1:
            return step_by(operands[0], 1 if mnemonic == 'inc' else -1)
        case 'not', 1:
            return computed(lambda x: x ^ MASK, operands, operands[0])
        case 'movsxd', 2:
            return extend_sign(*operands)
    if mnemonic[:1] == 'j' and len(operands) == 1:
        return jump_if(mnemonic[1:], operands[0])
    if mnemonic[:3] == 'set' and len(operands) == 1:
        return choose(mnemonic[3:], operands)
    if mnemonic[:4] == 'cmov' and len(operands) == 2:
        return choose(mnemonic[4:], operands)
    raise Fault(f'the instruction {mnemonic} of {len(operands)} operands is not known')


def check_shift(mnemonic, operands):
    """A shift is known by a number of bits that is not 0 and below the width. Some are known for whole words only."""
    if not 0 < (operands[-1].number or 0) < operands[0].width or operands[0].width < BITS and mnemonic in SHIFTS[3:]:
        raise Fault(f'{mnemonic} does not shift a word by a number')


@functools.cache
def decode(text):
    """Decodes an instruction: returns the step that it takes."""
    mnemonic, _, rest = text.removeprefix('lock ').partition(' ')
    if IDLE.fullmatch(text):
        return idle
    if mnemonic == 'prefetcht0':
        return prefetch(rest.strip())
    if text.startswith('rep stos QWORD'):
        return store_words
    words = parts(rest)
    operands = [operand(word, mnemonic) for word in words]
    is_in_vector = [word[1:] in VECTORS for word in words]
    if mnemonic in VECTOR and any(is_in_vector if mnemonic.strip('v') in MOVES else is_in_vector[:1]):
        return computed(VECTOR[mnemonic], operands if mnemonic in ONTO else operands[1:], operands[0])
    if mnemonic in SHIFTS and len(operands) > 1:
        check_shift(mnemonic, operands)
    if mnemonic == 'rorx':
        return computed_by(lambda run, x, count: run.rotated(x, count), operands[1:], operands[0])
    if mnemonic in PLAIN and len(operands) > 1:
        return computed(PLAIN[mnemonic], operands[1:], operands[0])
    if mnemonic in ARITHMETIC and len(operands) > 1:
        function, kind = ARITHMETIC[mnemonic]
        return with_flags(function, kind, operands if mnemonic == 'shld' else operands[-2:], operands[0])
    if mnemonic in TESTED:
        return with_flags(*TESTED[mnemonic], operands)
    return special(mnemonic, operands)
