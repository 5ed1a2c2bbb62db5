"""What some instructions on vectors do to terms of Z3. (x86.py has the others. It knows some of these for words in
a normal form only.)"""

import z3
import x86
from operands import computed, parts
from symbolic import number, resized
from terms import BITS

HALF = 32


def elements(words, width):
    """The elements of a vector, from the lowest on."""
    words = [number(word) if isinstance(word, int) else word for word in words]
    return [z3.Extract(at + width - 1, at, word) for word in words for at in range(0, BITS, width)]


def vector(found, width):
    per = BITS // width
    return tuple(z3.simplify(z3.Concat(*reversed(found[at:at + per]))) for at in range(0, len(found), per))


def shuffled(words, order):
    found = elements(words, HALF)
    return vector([found[at + place] for at in range(0, len(found), 4) for place in x86.four_of(order)], HALF)


def shifted(width):
    return lambda words, count: vector([z3.LShR(one, count) for one in elements(words, width)], width)


def interleaved(one, other):
    """The lower halves of each two words, by turns."""
    pairs = [pair for at in range(0, len(one), 2)
             for pair in zip(*(elements(words[at:at + 1], HALF) for words in (one, other)))]
    return vector([element for pair in pairs for element in pair], HALF)


def inserted(words, word, at):
    found = elements(words, HALF)
    found[at & 3] = resized(word, HALF)
    return vector(found, HALF)


def moved(word):
    """A word of 32 bits, of a register or of a vector."""
    return resized(resized(word[0] if isinstance(word, tuple) else word, HALF), BITS)


FROM = {'pshufd': shuffled, 'vextracti128': lambda words, upper: words[2 * upper:2 * upper + 2]}
ONTO = {'psrld': shifted(32), 'psrlw': shifted(16), 'punpckldq': interleaved, 'pinsrd': inserted}


def decode(text):
    mnemonic, _, rest = text.partition(' ')
    plain, is_new = mnemonic if mnemonic in FROM else mnemonic.removeprefix('v'), mnemonic[0] == 'v'
    if plain not in {*FROM, *ONTO, 'movd'}:
        return x86.decode(text)
    operands = [x86.operand(one, mnemonic) for one in parts(rest)]
    if plain == 'movd':
        is_vector = operands[0].width > HALF
        return computed(lambda word: (moved(word), 0) if is_vector else moved(word), operands[1:], operands[0])
    return computed((FROM | ONTO)[plain], operands[1:] if plain in FROM or is_new else operands, operands[0])
