"""Proves functions with loops: from the beginning, and from the head of each loop, to the next head or the end.

What a loop changes is found by following it. For each place that differs after a round, the search guesses how it
depends on a ghost, or else nothing is known of it. A wrong guess makes induction.py refuse the loop, and never accept
it, so that nothing here has to be right."""

from dataclasses import dataclass, field
from typing import Callable

import z3
from induction import Assumed, differences, fault_of
from proving import CLAIM, Prover
from symbolic import JUMP, RETURN_ADDRESS, number, resized
from terms import BITS, Fault

MOST_SEARCHES = 60
# How a place depends on ghosts in the rounds of a loop: not at all, or as `Moves` says. A lost one cannot be read.
LOST, WORD, ROUND = 'lost', 'word', 'round'


@dataclass(frozen=True)
class Loop:
    """What is true at the head of a loop whenever a round begins: claims over the ghosts of a path, each with what is
    wrong otherwise; and a word that falls with each round."""
    claims: Callable
    falls: Callable


@dataclass(frozen=True)
class Moves:
    """A place that moves by so much for each step of a ghost, as a number of 32 or 64 bits."""
    ghost: str
    factor: int
    width: int


@dataclass
class Guess:
    """What rounds change, and how: the form of each place, and those that are tried when it is wrong."""
    forms: dict = field(default_factory=dict)
    others: dict = field(default_factory=dict)


class Looping(Prover):
    """Proves a function. Each of its loops is as one of `loops` says, which are tried in this order."""

    def __init__(self, code, contracts, loops=()):
        super().__init__(code, contracts)
        self.loops, self.kept, self.homes = loops, {}, {}
        self.returns, self.rounds = 0, 0

    # ---- proving

    def prove(self, begin, path, result):
        """Proves all pieces of a function. `result` is called with each path that returns."""
        self.find_heads(begin)
        first = {name: path.registers[name] for name in path.saved}
        path.at, waiting, is_met = begin, [path], False
        if self.check(path.conditions, CLAIM) != z3.sat:
            raise Fault('it is not known that what is assumed can be')
        while waiting:
            for end in self.ends(waiting.pop().fork()):
                known = next((one for one in end.inside if one.head == end.at), None)
                if end.at == RETURN_ADDRESS:
                    self.returns += 1
                    self.check_return(first, end)
                    result(end)
                    is_met = is_met or self.check([*end.conditions, *end.definitions], CLAIM) == z3.sat
                elif known:
                    self.rounds += 1
                    self.require(end, known, True)
                else:
                    waiting.append(self.arrive(end).path)
        if not is_met:
            raise Fault('it is not known to return')

    def require(self, end, assumed, is_round):
        """The rule of induction.py."""
        if fault := fault_of(self, end, assumed, self.values(end, assumed, is_round), is_round):
            raise Fault(f'{fault} (at {end.at:#x})')

    def arrive(self, arrival):
        """The set of states that is assumed at a head: for the first loop that is true when the path arrives, and after
        each round."""
        faults, arrival.flags = [], None
        for loop in self.ordered(arrival.at):
            fault = self.broken(arrival, loop)
            if fault is None:
                assumed, backs = self.searched(arrival, loop)
                fault = len(self.loops) > 1 and next(filter(None, (self.broken(back, loop) for back in backs)), None)
            if not fault:
                self.require(arrival, assumed, False)
                return assumed
            faults.append(fault)
        raise Fault(f'no invariant holds at {arrival.at:#x}: {", ".join(faults)}')

    def broken(self, path, loop):
        """What a loop says that is not true of a path; or None."""
        return next((what for claim, what in loop.claims(path) if not self.knows(path, claim)), None)

    def ordered(self, head):
        """The loops, those first that were found at a head before."""
        return sorted(self.loops, key=lambda loop: (head, loop) not in self.kept)

    # ---- heads

    def find_heads(self, begin):
        """Where a function jumps back to, and the instructions of each loop."""
        self.body, self.loop_of, before = self.code.bodies[begin], {}, {}
        for at in self.body:
            for to in self.next_of(at):
                before.setdefault(to, []).append(at)
        stack, state = [(begin, iter(self.next_of(begin)))], {begin: 1}
        while stack:
            at, following = stack[-1]
            to = next(following, None)
            if to is None:
                state[at] = 2
                stack.pop()
            elif state.get(to) == 1:
                found, waiting = self.loop_of.setdefault(to, {to}), [at]
                while waiting:
                    one = waiting.pop()
                    if one not in found:
                        found.add(one)
                        waiting += before.get(one, ())
            elif to in self.body and to not in state:
                state[to] = 1
                stack.append((to, iter(self.next_of(to))))

    def next_of(self, at):
        text, size = self.body[at]
        found = JUMP.fullmatch(text)
        to = [int(found[2], 16)] if found else self.table_of(text) if text.startswith('jmp') else []
        return to + ([] if text.startswith(('ret', 'ud2', 'jmp')) else [at + size])

    def table_of(self, text):
        """Where a jump by a table leads."""
        return []

    def ends(self, first, within=None):
        """Where paths return, or arrive at a head. While a loop is searched, what leaves it does not matter."""
        pending = [first]
        first.steps = 0
        while pending:
            path = pending.pop()
            if path.at == RETURN_ADDRESS or path.at in self.loop_of and path.steps:
                yield path
            elif within is None or path.at in within or path.at not in self.body:
                path.steps += 1
                pending += self.step(path)

    # ---- searching

    def searched(self, arrival, loop):
        """A set of states at a head, and the paths that come back to it."""
        was, self.is_checking = self.is_checking, False
        guess = Guess(dict(self.kept.get((arrival.at, loop), {})))
        for _ in range(MOST_SEARCHES):
            assumed = self.assumed(arrival, loop, guess)
            backs = [back for back in self.backs(assumed.path, arrival.at) if self.models(back)]
            if not self.extend(guess, assumed, backs):
                break
        else:
            raise Fault(f'it is not found what a loop changes (at {arrival.at:#x})')
        self.is_checking, self.kept[arrival.at, loop] = was, guess.forms
        return assumed, backs

    def backs(self, start, head):
        """The paths from a state that come back to a head, also through other loops."""
        for end in self.ends(start.fork(), self.loop_of[head]):
            if end.at == head:
                yield end
            elif end.at != RETURN_ADDRESS and all(one.head != end.at for one in end.inside):
                end.flags, loops = None, self.ordered(end.at)
                loop = next((loop for loop in loops if self.broken(end, loop) is None), loops[-1])
                yield from self.backs(self.searched(end, loop)[0].path, head)

    def assumed(self, arrival, loop, guess):
        """The set of states as guessed."""
        assumed = Assumed(arrival.at, arrival.fork())
        path, moved = assumed.path, {ROUND: assumed.variable(self, ROUND, BITS)}
        self.homes[str(moved[ROUND])] = ROUND
        for place, form in sorted(guess.forms.items(), key=lambda pair: str(pair[0])):
            if form == LOST:
                self.lose(path, place)
            elif form == WORD:
                variable = assumed.variable(self, 'changed', self.width(arrival, place))
                self.homes[str(variable)] = place
                self.assign(path, place, variable)
        for place, form in sorted(guess.forms.items(), key=lambda pair: pair[0][0] != 'ghost'):
            if isinstance(form, Moves):
                self.assign(path, place, self.moved(arrival, path, place, form, moved[ROUND]))
        path.conditions += [claim for claim, _ in loop.claims(path) if not z3.is_true(z3.simplify(claim))]
        path.inside = (*(one for one in arrival.inside if arrival.at in self.loop_of[one.head]), assumed)
        assumed.measure = loop.falls(path)
        return assumed

    def moved(self, arrival, path, place, form, rounds):
        """The value of a place that moves."""
        before = self.value(arrival, place)
        steps = rounds if form.ghost == ROUND else path.ghosts[form.ghost] - arrival.ghosts[form.ghost]
        found = resized(resized(before, BITS) + form.factor * resized(steps, BITS), form.width)
        return z3.simplify(resized(found, before.size()))

    def values(self, end, assumed, is_round):
        """Which of the assumed states a path is: the values of the free variables."""
        found = []
        for variable in assumed.free:
            home = self.homes[str(variable)]
            value = (variable + 1 if is_round else number(0)) if home == ROUND else self.value(end, home)
            found.append((variable, self.fresh('lost', variable.size()) if value is None else value))
        return found

    def extend(self, guess, assumed, backs):
        """Changes the forms of places for which they are wrong. Returns whether any was."""
        wrong = {}
        for back in backs:
            found = {place: None for place, _, _ in differences(self, back, assumed, self.values(back, assumed, True))}
            for place in self.words_of(found, back, guess):
                wrong.setdefault(place, back)
        for place, back in wrong.items():
            if place not in guess.forms:
                guess.others[place] = [*self.options(place, assumed, back)]
            is_lost = guess.forms.get(place) == WORD or any(self.is_lost(one, place) for one in backs)
            guess.forms[place] = LOST if is_lost else (guess.others.get(place) or [WORD]).pop(0)
        return bool(wrong)

    def options(self, place, assumed, back):
        """How a place may depend on ghosts, by what it did in a round."""
        then, now = self.value(assumed.path, place), self.value(back, place)
        if then is None or now is None or then.size() != now.size():
            yield WORD
            return
        steps = {ROUND: number(1)}
        if place[0] != 'ghost':
            steps |= {name: resized(value, BITS) - resized(assumed.path.ghosts[name], BITS)
                      for name, value in back.ghosts.items() if not value.eq(assumed.path.ghosts[name])}
        models, width = self.models(back), then.size()
        for ghost, step in steps.items():
            factors = {self.factor(model, now - then, step) for model in models}
            if len(factors) == 1 and not factors & {None, 0}:
                factor, = factors
                yield from (Moves(ghost, factor, bits) for bits in (64, 32) if bits == 32 or width == 64)
        yield WORD

    @staticmethod
    def factor(model, change, step):
        """How many times a step a change is, in a model."""
        change, step = (model.eval(word, model_completion=True).as_signed_long() for word in (change, step))
        return change // step if step and change % step == 0 else None

    # ---- places: (kind, name, index of a vector's word), or ('memory', region, offset, size)

    def words_of(self, wrong, back, guess):
        """The places to which differences belong: bytes that are one word at the end of a round are one place."""
        known = {(region, at): place for place in guess.forms if place[0] == 'memory'
                 for _, region, offset, size in [place] for at in range(offset, offset + size)}
        found = {}
        for place in wrong:
            if place[0] != 'byte':
                found[place] = None
                continue
            _, region, offset = place
            if (region, offset) in known:
                found[known[region, offset]] = None
                continue
            value, index = back.memory.get((region, offset), (None, 0))
            size = value.size() // 8 if value is not None else 1
            begin = offset - index
            if not all(back.memory.get((region, begin + at)) == (value, at) for at in range(size)) or any(
                    (region, begin + at) in known for at in range(size)):
                begin, size = offset, 1
            known |= {(region, begin + at): ('memory', region, begin, size) for at in range(size)}
            found['memory', region, begin, size] = None
        return found

    def value(self, path, place):
        """What is at a place; or None if that cannot be read."""
        kind, name, *rest = place
        if kind == 'memory':
            try:
                return self.loaded(path, (name, rest[0]), rest[1])
            except Fault:
                return None
        word = path.ghosts[name] if kind == 'ghost' else path.registers[name]
        word = word if rest[0] is None else word[rest[0]]
        return number(word) if isinstance(word, int) else word

    def is_lost(self, path, place):
        """Whether a place cannot be read, or was changed by a call."""
        return place[0] == 'register' and place[1] not in path.registers or self.value(path, place) is None

    def width(self, path, place):
        value = self.value(path, place)
        return value.size() if value is not None else 8 * place[3]

    def assign(self, path, place, value):
        kind, name, *rest = place
        if kind == 'memory':
            self.put_at(path, (name, rest[0]), value)
        elif kind == 'ghost':
            path.ghosts[name] = value
        else:
            old = path.registers[name]
            path.registers[name] = value if rest[0] is None else (*old[:rest[0]], value, *old[rest[0] + 1:])

    @staticmethod
    def lose(path, place):
        """Lets a place be unreadable; a register may be anything."""
        kind, name, *rest = place
        if kind == 'ghost':
            raise Fault(f'the ghost {name} is not always a word')
        if kind == 'register':
            path.registers.pop(name, None)
        else:
            for at in range(rest[0], rest[0] + rest[1]):
                path.memory.pop((name, at), None)
