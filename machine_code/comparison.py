"""The comparison of a stored hash and a tag: it is true if and only if no byte differs. It reads each byte of both
once and in order, and no branch and no address depends on a byte.

The ghost `done` counts the bytes that were read of both, and `differs` is 1 if and only if one of these differs: so
what is claimed at the end says both, that equal strings are accepted and that no others are. The notes have what was
read further on of one of the two."""

import z3
from byte_strings import BYTE, Strings, joined, word
from loops import WORD, Loop
from symbolic import number, variables
from terms import Fault

ONE, OTHER, LENGTH = word('begin of one'), word('begin of other'), word('length')
SIDES = {'one': ONE, 'other': OTHER}
STRIDES = 256, 128, 64, 32, 16, 8, 4, 2, 1  # (how many bytes a round may compare)


class Compares(Strings):
    """Finds in what places a loop gathers differences: of what a round leaves there, bytes depend on what was there.
    And finds all places that depend on bytes of the strings."""

    def __init__(self, *words):
        super().__init__(*words)
        self.gathers, self.secret_places, self.secrets = {}, {}, set()

    def load_elsewhere(self, path, address, size):
        sides = [name for name, begin in SIDES.items() if variables(address) & variables(begin)]
        if len(sides) != 1 or variables(address) & self.secrets:
            return super().load_elsewhere(path, address, size)
        name, = sides
        done = path.ghosts['done'] + sum(one.size() for one in path.notes.get(name, ())) // BYTE
        value = self.fresh('bytes', BYTE * size)
        self.secrets.add(str(value))
        self.claim(path, address == SIDES[name] + done, f'it reads other bytes of {name} than the next')
        self.claim(path, z3.And(z3.ULE(done, LENGTH), z3.ULE(size, LENGTH - done)), f'it reads beyond {name}')
        path.notes[name] = (*path.notes.get(name, ()), value)
        one, other = (joined(*path.notes[side]) if side in path.notes else number(0, 1) for side in SIDES)
        if one.size() == other.size():
            path.ghosts['done'] = z3.simplify(path.ghosts['done'] + one.size() // BYTE)
            path.ghosts['differs'] = z3.If(one != other, number(1), path.ghosts['differs'])
            path.notes.clear()
        return value

    def extend(self, guess, assumed, backs):
        is_changed = super().extend(guess, assumed, backs)
        gathers, secret = (found.setdefault(assumed.head, set()) for found in (self.gathers, self.secret_places))
        before = len(gathers) + len(secret)
        for back in backs:
            for place in guess.forms:
                then, now = self.value(assumed.path, place), self.value(back, place)
                if now is not None and variables(now) & self.secrets:
                    secret.add(place)
                if guess.forms[place] == WORD and place[0] != 'ghost' and now is not None and then is not None:
                    gathers |= {(place, at) for at in range(0, then.size(), BYTE) if self.is_gathered(then, now, at)}
        return is_changed or before < len(gathers) + len(secret)

    @staticmethod
    def is_gathered(then, now, at):
        one, other = (z3.simplify(z3.Extract(at + BYTE - 1, at, value)) for value in (then, now))
        return not one.eq(other) and bool(variables(one) & variables(other))

    def assumed(self, arrival, *rest):
        assumed = super().assumed(arrival, *rest)
        self.secrets |= {str(variable) for variable in assumed.free
                         if self.homes[str(variable)] in self.secret_places.get(arrival.at, ())}
        return assumed

    def has_gathered(self, path):
        """Whether a difference was gathered."""
        return z3.Or(*(z3.Extract(at + BYTE - 1, at, self.value(path, place)) != 0
                       for place, at in sorted(self.gathers.get(path.at, ()), key=str)))

    def step(self, path):
        before, ways = len(path.conditions), super().step(path)
        if len(ways) > 1 and any(variables(claim) & self.secrets for way in ways for claim in way.conditions[before:]):
            raise Fault('it branches on bytes')
        return ways


def are_equal(code, begin):
    """are_equal(one, its length, other), of strings of one length."""
    def loop(stride):
        def claims(path):
            done = path.ghosts['done']
            found = [(done & stride - 1 == 0, 'each round reads as many bytes'),
                     (z3.ULT(done, LENGTH & -stride), 'bytes are left')]
            if prover.gathers.get(path.at):
                found.append((prover.has_gathered(path) == (path.ghosts['differs'] == 1), 'differences are gathered'))
            return [*found, (z3.ULE(path.ghosts['differs'], 1), 'it is 0 or 1')]
        return Loop(claims, lambda path: LENGTH - path.ghosts['done'])
    prover = Compares(code, {}, [loop(stride) for stride in STRIDES])
    path = prover.begin([ONE, LENGTH, OTHER], {name: number(0) for name in ('done', 'differs')})

    def result(path):
        prover.claim(path, path.ghosts['done'] == LENGTH, 'it does not read all bytes')
        prover.claim(path, path.returned(0, BYTE) == z3.If(path.ghosts['differs'] == 1, number(0, 8), number(1, 8)),
                     'it says something else than the comparison')
    prover.prove(begin, path, result)
    return prover


STATEMENTS = {'are_equal': are_equal}
