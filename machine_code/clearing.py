"""What is cleared: wipe writes zeros to all of what it is passed, and to nothing else. It calls itself for parts,
which is where the proof goes by induction over the length: the contract of such a call is the statement, for fewer
elements."""

import z3
from byte_strings import BYTE, UNITS, Strings, word
from loops import Loop
from symbolic import number, variables

PLACE, COUNT = word('place'), word('count')


class Clears(Strings):
    """Clears elements in order: `cleared` says how many."""
    unit = 0

    def step(self, path):
        ways = super().step(path)
        for way in ways:
            if way.returns and way.at in self.code.bodies:  # (here, since the function that it calls may be itself)
                self.call(way, self.code.names[way.at])
        return ways

    def clear(self, path, address, size):
        cleared = path.ghosts['cleared']
        self.claim(path, address == PLACE + self.unit * cleared, 'it clears elsewhere than behind what it has cleared')
        self.claim(path, z3.ULE(cleared, COUNT), 'it has cleared too much')
        count = z3.LShR(size, self.unit.bit_length() - 1)
        self.claim(path, z3.And(size == self.unit * count, z3.ULE(count, COUNT - cleared)), 'it clears too much')
        path.ghosts['cleared'] = z3.simplify(cleared + count)

    def store_elsewhere(self, path, address, value):
        if variables(PLACE) & variables(address) and value.eq(number(0, value.size())):
            return self.clear(path, address, number(value.size() // BYTE))
        return super().store_elsewhere(path, address, value)


def filled(prover, path):
    """The contract of memset."""
    prover.claim(path, path.given(1, BYTE) == 0, 'it writes other bytes than zeros')
    prover.clear(path, path.given(0), path.given(2))


def halved(prover, path):
    """The statement itself, for fewer elements."""
    prover.claim(path, z3.ULT(path.given(1), COUNT), 'it may call itself for ever')
    cleared = path.ghosts['cleared']
    prover.claim(path, path.given(0) == PLACE + prover.unit * cleared,
                 'it clears elsewhere than behind what it has cleared')
    prover.claim(path, z3.And(z3.ULE(cleared, COUNT), z3.ULE(path.given(1), COUNT - cleared)), 'it clears too much')
    path.ghosts['cleared'] = z3.simplify(cleared + path.given(1))


def wipe(code, begin):
    """wipe(place, count) of bytes or of words."""
    def halves(path):
        return [(z3.ULT(path.ghosts['cleared'], COUNT), 'elements are left')]
    prover = Clears(code, {'wipe': halved, 'proved_driver_memset': filled}, [
        Loop(halves, lambda path: COUNT - path.ghosts['cleared'])])
    prover.unit = UNITS[code.names[begin].partition('::<')[2].split(',')[0]]
    path = prover.begin([PLACE, COUNT], {'cleared': number(0)}, [z3.ULT(COUNT, 1 << 40)])
    prover.prove(begin, path, lambda path: prover.claim(
        path, path.ghosts['cleared'] == COUNT, 'it does not clear all'))
    return prover


STATEMENTS = {'wipe::<i8': wipe, 'wipe::<i64': wipe}
