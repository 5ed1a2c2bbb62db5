"""H0 (RFC 9106, 3.2, step 1), and the other fields of an accepted call."""

import functools

import z3
from byte_strings import Strings, clears, joined, le32, word
from proving import low, wide
from symbolic import number

# The settings of a call, as the library keeps them: each field's place and its width. A byte string is where it
# begins, and its length. `mode` says by how many threads the memory is filled, in 16 bytes that are only copied.
FIELDS = {'data': (0, 64), 'length of data': (8, 64), 'tag': (0x10, 32), 'lanes': (0x14, 32), 'memory': (0x18, 32),
          'above': (0x1c, 32), 'secret': (0x20, 64), 'length of secret': (0x28, 64), 'mode': (0x30, 64),
          'passes': (0x38, 32), 'variant': (0x3c, 8), 'version': (0x3d, 8), 'end': (0x3e, 16)}
SIZE = 0x40
# What an accepted call has behind them, which follows from them; and the size of all.
FOLLOWS = {'lane length': 0x40, 'blocks': 0x44, 'password': 0x48, 'length of password': 0x50, 'salt': 0x58,
           'length of salt': 0x60, 'segment': 0x68, 'H0': 0x6c, 'behind': 0xac}
CONTEXT_SIZE = 0xb0
MOST_LANES = (1 << 24) - 1
INPUTS = 'password', 'length of password', 'salt', 'length of salt'


def version_number(version):
    return z3.If(version == 0, number(0x10, 32), number(0x13, 32))


def pieces(values):
    """What H0 is the hash of (3.2, step 1): numbers, and byte strings by where they begin and their lengths."""
    found = [le32(values[name]) for name in ('lanes', 'tag', 'memory', 'passes')]
    found += [version_number(values['version']), le32(values['variant'])]
    for name in ('password', 'salt', 'secret', 'data'):
        length = values[f'length of {name}']
        found += [le32(length), (values[name], length)]
    return found


def hashed(values):
    """The contract of BLAKE2b: it hashes these pieces."""
    def contract(prover, path):
        wanted, claim = pieces(values), functools.partial(prover.claim, path)
        claim(z3.And(path.given(1) == 64, path.given(3) == len(wanted), path.ghosts['made'] == 0),
              'it hashes another number of pieces, to another length, or twice')
        for index, value in enumerate(wanted):
            entry = prover.string(path, path.given(2) + 16 * index, 16, 'the list of pieces')
            begin, length = z3.Extract(63, 0, entry), z3.Extract(127, 64, entry)
            if isinstance(value, tuple):
                claim(z3.And(begin == value[0], length == value[1]), f'piece {index} is another')
            else:
                claim(length == 4, f'piece {index} has another length')
                claim(prover.string(path, begin, 4, f'piece {index}') == value, f'piece {index} is another')
        prover.write(path, prover.own(path, path.given(0), 64, 'H0'), values['H0'])
        path.ghosts['made'] = number(1)
    return contract


def accepted(values):
    """What the settings table leaves of the numbers and lengths."""
    return [values['lanes'] != 0, z3.ULE(values['lanes'], MOST_LANES), z3.ULE(values['variant'], 2),
            *(z3.ULT(values[f'length of {name}'], 1 << 32) for name in ('password', 'salt', 'secret', 'data'))]


def context(prover, values):
    """The fields of an accepted call: the settings, what is hashed with them, and what follows. A segment has
    floor(memory / (4 lanes)) blocks (3.2, step 2, with q = 4 segments)."""
    segment = prover.run.unknown('quotient', values['memory'], z3.simplify(4 * values['lanes']))
    blocks = low(prover.wide_product(wide(z3.simplify(4 * values['lanes'])), wide(segment)))
    return values | {'segment': segment, 'lane length': 4 * segment, 'blocks': blocks, 'behind': number(0, 32)}


def values_of_call():
    return {name: word(name, width) for name, (_, width) in FIELDS.items()} | {
        name: word(name) for name in INPUTS} | {'H0': word('H0', 512)}


def accepted_context(code, begin):
    """accepted_context(context, settings, password, its length, salt, its length)."""
    values = values_of_call()
    prover = Strings(code, {'blake2b': hashed(values), 'wipe': clears})
    path = prover.begin([word('context'), word('settings'), *(values[name] for name in INPUTS)], {'made': number(0)},
                        accepted(values))
    prover.structure(path, word('settings'), SIZE, {name: at for name, (at, _) in FIELDS.items()}, values)
    prover.region(word('context'), CONTEXT_SIZE, (0, CONTEXT_SIZE))
    places = {name: at for name, (at, _) in FIELDS.items()} | FOLLOWS

    def result(path):
        prover.claim(path, path.ghosts['made'] == 1, 'it makes no H0')
        for name, value in context(prover, values).items():
            found = prover.loaded(path, prover.place(word('context') + places[name]), value.size() // 8)
            prover.claim(path, found == value, f'the field {name} of the call is wrong')
    prover.prove(begin, path, result)
    return prover


def makes_context(values):
    """The contract of accepted_context for these inputs, which were accepted."""
    def contract(prover, path):
        settings = prover.string(path, path.given(1), SIZE, 'the settings')
        for name, (at, width) in FIELDS.items():
            if name not in ('mode', 'above', 'end'):
                found = z3.Extract(8 * at + width - 1, 8 * at, settings)
                prover.claim(path, found == values[name], f'it makes a call with another {name}')
        for index, name in enumerate(INPUTS):
            prover.claim(path, path.given(2 + index) == values[name], f'it makes a call with another {name}')
        for claim in accepted(values):
            prover.claim(path, claim, 'it makes a call that was not accepted')
        made = context(prover, values)
        prover.write(path, prover.own(path, path.given(0), CONTEXT_SIZE, 'the call'), joined(
            settings, *(made[name] for name in FOLLOWS)))
    return contract


STATEMENTS = {'accepted_context': accepted_context}
