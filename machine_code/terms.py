"""Words of 64 bits as terms over variables, in a normal form: words of the same form are equal for all values. Nothing
is known of words of different forms. Numbers are Python's, below 2^64."""

import functools
from itertools import accumulate, chain, pairwise

BITS = 64
MASK = (1 << BITS) - 1


class Fault(Exception):
    """Says what is wrong with code, or is not known."""


class Term:
    """A word that is no number. Each form has one object, which `make` returns. A `variable` has its name as
    a part; a `sum`, a number, and the other terms with their factors; an exclusive or (`xor`), a number and the other
    terms; a `product`, its factors; `bits`, pieces of other words, from the lowest on, as (word, first bit, number of
    bits)."""
    __slots__ = 'kind', 'parts'

    def __init__(self, kind, *parts):
        self.kind, self.parts = kind, parts

    @functools.cache
    def __add__(self, other):
        if 'bits' == self.kind == getattr(other, 'kind', '') and (whole := merged(self, other)):
            return whole
        (number, terms), (more, others) = linear(self), linear(other)
        return total(number + more, {term: terms.get(term, 0) + others.get(term, 0) for term in terms | others})

    @functools.cache
    def __mul__(self, other):
        if isinstance(other, int):
            number, terms = linear(self)
            return total(number * other, {term: factor * other for term, factor in terms.items()})
        (left, first), (right, second) = factored(self), factored(other)
        return total(0, {make('product', frozenset((left, right))): first * second})

    @functools.cache
    def __xor__(self, other):
        return exclusive_or(self, other)

    @functools.cache
    def __and__(self, mask):
        if not isinstance(mask, int) or mask & (mask + 1):
            raise Fault('it masks other bits of data than the lowest')
        return joined(*cut(self, 0, mask.bit_length()), (0, 0, BITS - mask.bit_length()))

    @functools.cache
    def __or__(self, other):
        if (whole := merged(self, other)) is None:
            raise Fault('it joins words that have a bit in common')
        return whole

    @functools.cache
    def __rshift__(self, count):
        return joined(*cut(self, count, BITS - count), (0, 0, count)) if count < BITS else 0

    def __lshift__(self, count):
        return self * (1 << count)

    def __sub__(self, other):
        return self + other * MASK

    def __rsub__(self, other):
        return other + self * MASK

    __radd__, __rmul__, __rxor__, __rand__, __ror__ = __add__, __mul__, __xor__, __and__, __or__


make = functools.cache(Term)


def variable(name):
    return make('variable', name)


def forget():
    """Frees all terms: `make` no longer returns those that are still held."""
    for cached in (make, cut, *(method for method in vars(Term).values() if hasattr(method, 'cache_clear'))):
        cached.cache_clear()


def linear(word):
    """Returns a word as a number and terms with their factors, whose sum it is."""
    if isinstance(word, int):
        return word, {}
    if word.kind == 'sum':
        return word.parts[0], dict(word.parts[1])
    if word.kind == 'bits' and word.parts[0][0] == 0:  # it was shifted
        (_, _, count), (shifted, *rest), *_ = word.parts
        number, terms = linear(shifted) if rest == [0, BITS - count] else (0, {word >> count: 1})
        return number << count, {term: factor << count for term, factor in terms.items()}
    return 0, {word: 1}


def total(number, terms):
    """Returns the sum of a number and of terms by their factors."""
    number, terms = number & MASK, {term: factor & MASK for term, factor in terms.items() if factor & MASK}
    if number == 0 and len(terms) == 1:
        (term, factor), = terms.items()
        if factor & (factor - 1) == 0:
            count = factor.bit_length() - 1
            return joined((0, 0, count), *cut(term, 0, BITS - count))
    return make('sum', number, frozenset(terms.items())) if terms else number


def exclusive_or(*words):
    number, terms = 0, set()
    for word in words:
        part, parts = (word, ()) if isinstance(word, int) else word.parts if word.kind == 'xor' else (0, (word,))
        number ^= part
        terms.symmetric_difference_update(parts)
    return terms.pop() if (number, len(terms)) == (0, 1) else make('xor', number, frozenset(terms)) if terms else number


def factored(word):
    """Returns a word as another one and a factor."""
    number, terms = linear(word)
    return next(iter(terms.items())) if (number, len(terms)) == (0, 1) else (word, 1)


@functools.cache
def cut(word, first, width):
    """Returns pieces that make some bits of a word."""
    if isinstance(word, int):
        return ((word >> first & (1 << width) - 1, 0, width),)
    found, at = [], 0
    for part, begin, size in word.parts if word.kind == 'bits' else [(word, 0, BITS)]:
        low, high = max(first, at), min(first + width, at + size)
        if low < high:
            bits = begin + low - at, high - low
            found += cut(part, *bits) if isinstance(part, int) else [(part, *bits)]
        at += size
    return tuple(found)


def joined(*pieces):
    """Returns the word that pieces make. For pieces of one XOR, it is the XOR of its terms' pieces."""
    found = []
    for word, first, width in (piece for piece in pieces if piece[2]):
        last, begin, size = found[-1] if found else (None, 0, 0)
        if isinstance(word, int) and isinstance(last, int):
            found[-1] = last | word << size, 0, size + width
        elif word is last and first == begin + size:
            found[-1] = last, begin, size + width
        else:
            found.append((word, first, width))
    word = found[0][0]
    if len(found) == 1:
        return word
    if isinstance(word, int) or word.kind != 'xor' or any(piece[0] is not word for piece in found):
        return make('bits', *found)
    number, terms = word.parts
    return exclusive_or(*(joined(*(piece for _, *place in found for piece in cut(term, *place)))
                          for term in (number, *terms)))


def merged(one, other):
    """Returns the word whose bits are those of two words that have none in common, or None."""
    pieces = []
    ends = {end for word in (one, other) for end in accumulate(piece[2] for piece in cut(word, 0, BITS))}
    for begin, end in pairwise(sorted({0, *ends})):
        (first,), (second,) = (cut(word, begin, end - begin) for word in (one, other))
        if first[0] != 0 and second[0] != 0:
            return None
        pieces.append(second if first[0] == 0 else first)
    return joined(*pieces)


def picked(words, places, width):
    """Returns the words that consist of the elements at these places of other words. An element has `width` bits.
    Behind the words are zeros."""
    per, words = BITS // width, (*words, 0)
    parts = [cut(words[min(at // per, len(words) - 1)], at % per * width, width) for at in places]
    return tuple(joined(*chain(*parts[at:at + per])) for at in range(0, len(parts), per))
