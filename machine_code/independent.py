"""Stretches of a segment whose references depend on no block (RFC 9106, 3.4.1.2): first, all references of a stretch
are picked by words of address blocks, G(0, G(0, Z | LE64(number) | 0)) with Z = (pass, lane, slice, blocks, passes,
variant); then its blocks are written."""

from dataclasses import dataclass

import z3
from loops import Loop, Moves
from proving import beneath_unknown, low, wide
from segments import (BLOCK, FILLS, SLICES, UNPICKED, Segments, begin_of, clear, fits, half, pick, prove_stretch, refer,
                      word)
from symbolic import STACK, number, variables
from terms import Fault

WORDS = 128  # (of a block)
# G(0, input) and G(0, G(0, input)) for the input of a number, and the words of the latter.
OF_INPUT, ADDRESSES = (z3.Function(name, z3.BitVecSort(32), z3.BitVecSort(8 * BLOCK)) for name in (
    'G of input', 'address block'))
WORD_OF = z3.Function('word of address block', z3.BitVecSort(32), *[z3.BitVecSort(64)] * 2)


@dataclass(frozen=True)
class Addresses(Moves):
    """A guess about a place: it holds the address block of a ghost."""


class References(Segments):
    """Functions that pick the references of a stretch by address blocks. In the frame there is at most one address
    block: that of the ghost `block`. Of `out`, `half` says whether the lane of the next reference is written."""

    def drawn(self, path, index):
        return WORD_OF(z3.LShR(index, 7) + 1, wide(index & WORDS - 1))

    def options(self, place, assumed, back):
        value, forms = self.value(back, place), super().options(place, assumed, back)
        if place[0] == 'memory' and value is not None and value.decl().eq(ADDRESSES):
            forms.insert(0, Addresses('block', 0, value.size()))
        return forms

    def moved(self, arrival, path, place, form, rounds):
        if isinstance(form, Addresses):
            return ADDRESSES(low(path.ghosts[form.ghost]))
        return super().moved(arrival, path, place, form, rounds)

    def load_elsewhere(self, path, address, size):
        """A word of the address block in the frame."""
        if size != 8 or STACK not in variables(address):
            return super().load_elsewhere(path, address, size)
        found = {offset: value for (region, offset), (value, index) in path.memory.items()
                 if (region, index) == (STACK, 0) and value.decl().eq(ADDRESSES)}
        (offset, block), *more = found.items()
        if more or any(path.memory.get((STACK, offset + at)) != (block, at) for at in range(BLOCK)):
            raise Fault('it reads of an address block that is not whole')
        distance = z3.simplify(address - z3.BitVec(STACK, 64) - offset)
        self.claim(path, z3.And(z3.ULT(distance, BLOCK), distance & 7 == 0), 'it reads elsewhere in its frame')
        return WORD_OF(block.arg(0), z3.simplify(z3.LShR(distance, 3)))

    def store_elsewhere(self, path, address, value):
        """The references are written in order: lane and column, at once or one after the other."""
        done, is_half = path.ghosts['done'], path.ghosts['half']
        at = word('out') + 8 * (done - wide(half('first')))
        pair = path.ghosts['lane'], path.ghosts['column']
        wanted = z3.Concat(*pair[::-1]) if value.size() == 64 else z3.If(is_half == 0, *pair)
        if value.size() not in (32, 64):
            raise Fault('it writes a part of a reference')
        self.claim(path, z3.And(address == at + 4 * is_half, path.ghosts['picked'] == 1), 'it writes elsewhere')
        self.claim(path, z3.And(value == wanted, z3.Or(value.size() == 32, is_half == 0)), 'it writes others')
        after = z3.simplify(is_half ^ 1 if value.size() == 32 else is_half)
        path.ghosts |= {'half': after, 'done': z3.simplify(z3.If(after == 0, done + 1, done)),
                        'picked': z3.simplify(z3.If(after == 0, number(0), number(1)))}


def compress(prover, path):
    """fill_words(0, block, out, false) writes G of zeros and an input, or of zeros and such a G, to the frame."""
    zeros, block, out = (prover.place(z3.simplify(path.given(index))) for index in range(3))
    prover.claim(path, prover.loaded(path, zeros, BLOCK) == 0, 'it compresses with another block than zeros')
    prover.claim(path, path.given(3, 32) == 0, 'it combines an address block')
    content = prover.loaded(path, block, BLOCK)
    prover.forget(path, path.given(2), BLOCK)
    if content.decl().eq(OF_INPUT):
        path.ghosts['block'] = wide(content.arg(0))
        prover.put_at(path, out, ADDRESSES(content.arg(0)))
        return
    job, counter = prover.job, z3.simplify(z3.Extract(64 * 6 + 31, 64 * 6, content))
    blocks = 4 * job.row(job.lanes)
    words = [job.pass_number, job.lane, number(job.s, 32), blocks, job.passes, job.variant, counter]
    for index, wanted in enumerate(words):
        found = z3.simplify(z3.Extract(64 * index + 63, 64 * index, content))
        prover.claim(path, found == wide(wanted), f'the input of an address block is another in word {index}')
    prover.claim(path, z3.simplify(z3.Extract(8 * BLOCK - 1, 64 * len(words), content)) == 0, 'there are more words')
    prover.put_at(path, out, OF_INPUT(counter))


def prove_references(code, build, s, is_first):
    """reference_positions(job, lane, first, out, count) writes the references of a stretch that depends on no block."""
    first, count, at, out = half('first'), word('count'), word('job'), word('out')
    end = wide(first) + count

    def claims(path):
        done = path.ghosts['done']
        return [(z3.And(z3.ULT(wide(first), done), z3.ULT(done, end)), 'references are left, and one is written'),
                (path.ghosts['block'] == wide(z3.LShR(low(done - 1), 7) + 1), 'another address block is there')]
    prover = References(code, s, is_first, {'fill_words': compress, 'pick': pick, 'proved_driver_memset': clear}, [
        Loop(claims, lambda path: end - path.ghosts['done'])])
    job, path = prover.job, prover.path
    path.enter([at, beneath_unknown(job.lane, 'lane'), beneath_unknown(first, 'first'), out, count])
    prover.passes_job(at, SLICES, job.fields())
    path.ghosts |= {'done': wide(first), 'half': number(0), 'block': number(0), **UNPICKED}
    path.conditions += [*fits(job, first, count), job.is_independent()]
    prover.prove(begin_of(code, 'reference_positions', build), path, lambda path: prover.claim(
        path, path.ghosts['done'] == end, 'it does not write all references'))
    return prover


class Written(Segments):
    """A stretch whose references are known: they are in memory, in the order of indexes."""

    def load_elsewhere(self, path, address, size):
        if size != 4 or 'references' not in self.variables(address):
            return super().load_elsewhere(path, address, size)
        distance, done = z3.simplify(address - word('references')), path.ghosts['done']
        self.claim(path, z3.And(z3.ULT(distance, 8 * self.count), distance & 3 == 0), 'it reads behind the references')
        half_of = next((at for at in (0, 4) if self.knows(path, distance == 8 * (done - self.first) + at)), None)
        if half_of is None:  # (of another block, which may be prefetched)
            return self.fresh('reference', 32)
        if self.knows(path, path.ghosts['picked'] == 0):
            refer(self, path, low(done))
        return path.ghosts['column' if half_of else 'lane']


def prove_written(code, build, s, is_first):
    """write_blocks(expects, beside, lane, first, references, count, own) fills a stretch whose references are known."""
    prover, count = Written(code, s, is_first, FILLS), word('count')
    prover.first, prover.count = wide(half('first')), count
    return prove_stretch(prover, begin_of(code, 'write_blocks', build), [word('references'), count], count, True)
