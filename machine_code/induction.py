"""The rule on which each statement about a loop rests. Read this file first: all others only look for what it checks.

A *head* is an instruction to which a loop jumps back. At a head, a proof assumes a set of states, and follows the code
from there once, instead of round by round. The set is a state like any other, in which some variables are *free*: it
contains one state for each value of these. So a variable stands for whatever a round may change, and the conditions of
the state say what stays true. Two facts make this right:

1. **The state that arrives at the head is in the set.** So is each state that comes back to it. "In the set" means that
   there are values of the free variables with which every register, every byte of memory and every ghost is the same,
   and every condition is true. `fault_of` checks it.
2. **The rounds end.** A word, the measure of the set, is smaller after each round, as a number without a sign.

Whoever calls this says which values the free variables have. This may be a guess: a wrong one is refused, since the
check compares everything. It does not matter how a set was found.

The sets lie in one another as the loops do: a path that starts in a set, and arrives at another head, makes a set
there. Free variables are new when a set is made, so those of a set around it keep their values meanwhile. An endless
run would come back to some set for ever without leaving the set around it, which its measure forbids.
"""

from dataclasses import dataclass, field

import z3
from symbolic import STACK, bits, number
from terms import Fault


@dataclass
class Assumed:
    """A set of states at a head. `path` is one of them, for all values of `free`."""
    head: int
    path: object
    measure: object = None
    free: list = field(default_factory=list)

    def variable(self, prover, name, width):
        """Makes a free variable."""
        self.free.append(prover.fresh(name, width))
        return self.free[-1]


def fault_of(prover, end, assumed, values, is_round):
    """Why a path that came to a head may be outside of the set that is assumed there; or None. `values` has a pair of
    a variable and its value for each that is free."""
    free = sorted(assumed.free, key=str)
    if [str(variable) for variable, _ in sorted(values, key=lambda pair: str(pair[0]))] != [*map(str, free)]:
        return 'the values of the free variables are not known'
    if (end.at, end.returns) != (assumed.head, assumed.path.returns) or end.notes or assumed.path.notes:
        return 'it came elsewhere, or has notes'
    if assumed.path.flags is not None:
        return 'the flags are taken for known'
    if wrong := next(differences(prover, end, assumed, values), None):
        return f'a round changes more than was assumed: {wrong[0]}'
    for condition in [*assumed.path.conditions, *assumed.path.definitions]:
        wanted = z3.substitute(condition, *values)
        if not any(wanted.eq(known) for known in (*end.conditions, *end.definitions)) and not prover.knows(end, wanted):
            return f'the invariant does not hold: {prover.says(condition)}'
    if is_round:
        if assumed.measure is None:
            return 'nothing is known to fall with each round'
        if not prover.knows(end, z3.ULT(z3.substitute(assumed.measure, *values), assumed.measure)):
            return 'the measure of a loop does not fall'
    return None


def differences(prover, end, assumed, values):
    """The places where a path is not known to be as assumed: each with its value here, and that of the set; None is a
    value that cannot be read."""
    start = assumed.path
    for region in dict.fromkeys(region for region, _ in start.memory):
        if region and not z3.substitute(prover.terms[region], *values).eq(prover.terms[region]):
            raise Fault('memory is addressed by what a round changes')
    for kind, here, there in (('ghost', end.ghosts, start.ghosts), ('register', end.registers, start.registers)):
        if kind == 'ghost' and {*here} != {*there}:
            raise Fault('a round makes other ghosts')
        for name, words in there.items():  # (of a register that the set does not have, nothing is assumed)
            is_vector, is_known = isinstance(words, tuple), name in here
            mine = here[name]
            for index, (one, other) in enumerate(zip(mine, words) if is_vector else [(mine, words)]):
                one, other = term(one), term(other)
                if not is_known or not is_same(prover, end, one, other, values):
                    yield (kind, name, index if is_vector else None), one, other
    yield from differences_of_memory(prover, end, start, values)


def differences_of_memory(prover, end, start, values):
    """The same for each byte that the set, or the path, does not leave as it was when the function began. Of a byte of
    the stack that the set does not have, nothing is assumed: it cannot be read."""
    equal = {}
    for place in {**start.memory, **end.memory}:
        if place[0] == STACK and place not in start.memory:
            continue
        if place not in end.memory and place[0] == STACK:
            yield ('byte', *place), None, start.memory[place][0]
            continue
        (one, at), (other, index) = (path.memory.get(place) or prover.initial(*place) for path in (end, start))
        if at != index or one.size() != other.size():
            one, other = bits(one, 8 * at, 8), bits(other, 8 * index, 8)
        key = one.get_id(), other.get_id()
        if key not in equal:
            equal[key] = is_same(prover, end, one, other, values), one, other  # (which keeps the terms' numbers)
        if not equal[key][0]:
            yield ('byte', *place), one, other


def is_same(prover, end, one, other, values):
    other = z3.substitute(other, *values)
    return one.eq(other) or prover.knows(end, one == other)


def term(word):
    return number(word) if isinstance(word, int) else word
