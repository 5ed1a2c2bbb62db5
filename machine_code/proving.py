"""Runs a function of the machine code along its paths, and proves what is claimed on them. A call is not followed: its
contract says what is claimed of it, and what is known afterwards.

How a statement is written:

- A *contract* is a function of the prover and of a path which is about to make a call. `path.given(3)` is the fourth
  argument. The contract claims what the called function requires (`prover.claim(path, claim, 'what would be wrong')`),
  changes ghosts, and returns the words of the result, if any. The registers that a call may change are forgotten.
- A *ghost* (`path.ghosts['done']`) is a term of Z3 that no instruction can read. Contracts count in ghosts what was
  done. `path.notes` does the same for values of Python, which have to be gone at a head of a loop.
- A *loop* (loops.py) says over ghosts what is true whenever a loop begins a round, and what falls with each round. It
  names no register, no place on the stack and no address. Of all other places that a loop changes the machine finds
  out how they depend on ghosts.
- A *region* is memory that a function is passed: `prover.region(begin, size, written)`. Other addresses than those of
  regions, constants and its own frame are refused, except if a class derived from Prover knows them (`load_elsewhere`,
  `store_elsewhere`).

A statement then runs `prove(path, result)` (loops.py), where `result` claims what is true when the function returns.

Z3 may answer that it does not know. This is a failure here. It counts its own steps, not seconds, so that a loaded
machine answers the same."""

import z3
import x86
from symbolic import RED_ZONE, STACK, Engine, Run, number, resized
from terms import BITS, Fault

# How many of Z3's steps a question may take: about a path's branches, about a claim with a part of what is known or
# with all, and about a guess.
BRANCH, PART, CLAIM, GUESS = 3_000_000, 6_000_000, 60_000_000, 1_000_000
MODELS, PRODUCT = 2, 'product'
# Z3's ways, and how many steps each may take at most: some questions are easy in one way, and hard in another.
LOGICS = ('QF_UFBV', GUESS), (None, CLAIM), ('QF_UFBV', CLAIM)
ENTRY, UNIT = 8, 16  # (where the stack begins, behind a multiple of its unit)


class Registers(dict):
    """Registers by name. One that a call changed is made anew when it is read."""

    def __init__(self, words, prover):
        super().__init__(words)
        self.prover = prover

    def __missing__(self, name):
        words = [self.prover.fresh(f'left in {name}') for _ in range(Path.words if name in Path.vectors else 1)]
        self[name] = tuple(words) if name in Path.vectors else words[0]
        return self[name]


class Path(x86.X86, Run):
    """A run with ghosts, notes, and definitions of variables that name large words."""
    results, vectors = ('rax', 'rdx'), x86.VECTORS[:16]

    def __init__(self, prover):
        super().__init__(prover, {})
        self.ghosts, self.notes, self.definitions, self.inside, self.models = {}, {}, (), (), (None, [])
        self.registers = Registers({self.stack_pointer: z3.BitVec(STACK, BITS)}, prover)
        self.conditions.append(self.registers[self.stack_pointer] & UNIT - 1 == ENTRY)

    def fork(self):
        other = super().fork()
        other.registers = Registers(self.registers, self.machine)
        other.ghosts, other.notes = dict(self.ghosts), dict(self.notes)
        return other

    def enter(self, values):
        """Begins the function, which is passed these words."""
        self.registers.update(zip(self.arguments, values))
        for index, value in enumerate([self.back, *values[len(self.arguments):]]):
            self.machine.put_at(self, (STACK, x86.WORD * index), resized(value, BITS))

    def given(self, index, width=BITS):
        """An argument of the call that is about to be made, or of the function if it has not begun."""
        if index < len(self.arguments):
            return self.part(self.arguments[index], 0, width)
        above = self.registers[self.stack_pointer] + x86.WORD * (index - len(self.arguments))
        return resized(self.machine.load(self, above, x86.WORD), width)

    def returned(self, index=0, width=BITS):
        """A word that the function returned."""
        return self.part(self.results[index], 0, width)

    def put(self, name, value, low=0, width=BITS):
        super().put(name, value, low, width)
        self.registers[name] = self.machine.named(self, self.registers[name])

    def load(self, address, size, unit=x86.WORD):
        self.machine.check_unit(self, address, unit)
        return super().load(address, size)

    def store(self, address, value, size, unit=x86.WORD):
        self.machine.check_unit(self, address, unit)
        super().store(address, value, size)

    def product(self, one, other):
        return self.machine.product(self, one, other)

    def left_behind(self):
        raise Fault('it is not known what vectors leave')


class Prover(Engine):
    """Proves claims about the paths of one function. `contracts` are those of the functions that it calls, by the ends
    of their names (`names_of`). A word that has so many parts is large."""
    large = 6

    def __init__(self, code, contracts):
        super().__init__(Path, code, {})
        self.contracts, self.lemmas, self.known_regions, self.products = contracts, [], {}, {}
        self.is_checking, self.claims, self.asked, self.variables = True, 0, 0, Variables()

    # ---- questions

    def check(self, conditions, limit, lemmas=None):
        """Z3's answer, or unknown after so many steps."""
        for logic, most in LOGICS:
            self.asked += 1
            solver = z3.SolverFor(logic) if logic else z3.Solver()
            solver.set('rlimit', min(limit, most))
            solver.add(*(self.lemmas_about(conditions) if lemmas is None else lemmas), *conditions)
            found = solver.check()
            if found != z3.unknown:
                return found
        return z3.unknown

    def lemmas_about(self, conditions):
        """The lemmas that are about no other products."""
        names = frozenset().union(*map(self.variables, conditions))
        return [lemma for lemma in self.lemmas if self.variables(lemma) <= names]

    def is_possible(self, path):
        """Whether Z3 finds no contradiction to a path's branches. (It may follow a path in vain.)"""
        return self.check([*path.conditions, *path.definitions], BRANCH, []) != z3.unsat

    def knows(self, path, claim):
        """Whether a claim is true on a path, for all values. It is first asked with the conditions that share variables
        with it, and without the definitions of names; then with more and more of both."""
        claim = z3.simplify(claim)
        if z3.is_true(claim) or z3.is_false(claim):
            return z3.is_true(claim)
        if self.is_checking:
            return any(self.check([*given, z3.Not(claim)], limit) == z3.unsat
                       for given, limit in self.selections(path, claim))
        given = *path.conditions, *path.definitions, z3.Not(claim)
        return self.may_be(path, claim) and self.check(given, GUESS) == z3.unsat

    def may_be(self, path, claim):
        """Whether no known state of a path is against a claim."""
        return not any(z3.is_false(model.eval(claim, model_completion=True)) for model in self.models(path))

    def models(self, path):
        """A few concrete states of a path, which show most wrong guesses."""
        key = [one.get_id() for one in (*path.conditions, *path.definitions)]
        if path.models[0] != key:
            found, solver = [], z3.SolverFor(LOGICS[0][0])
            solver.set('rlimit', CLAIM)
            solver.add(*self.lemmas_about([*path.conditions, *path.definitions]), *path.conditions, *path.definitions)
            while len(found) < MODELS and solver.check() == z3.sat:
                found.append(solver.model())
                solver.add(z3.Or(*(name() != found[-1][name] for name in found[-1].decls()
                                   if name.arity() == 0 and z3.is_bv(name()))))
            path.models = key, found
        return path.models[1]

    def selections(self, path, claim):
        """Growing selections of what is known on a path, each with how long it is tried: first conditions about nothing
        but the claim's variables, then definitions of these variables, then conditions about others too."""
        names, more = None, self.variables(claim)
        known = [(one, self.variables(one)) for one in path.conditions]
        defined = {one.arg(0).decl().name(): (one, self.variables(one)) for one in path.definitions}
        while more != names:
            names, used = more, sorted(more & {*defined})
            yield [*(one for one, about in known if about <= names), *(defined[name][0] for name in used)], PART
            more = names.union(*(defined[name][1] for name in used))
            if more == names:
                more = names.union(*(about for _, about in known if about & names))
        yield [*path.conditions, *path.definitions], CLAIM

    def claim(self, path, claim, fault, is_kept=False):
        """Proves a claim, or raises a fault; and keeps it as a condition, if later claims need it. While changes of
        loops are searched for, nothing is proved."""
        if self.is_checking:
            self.claims += 1
            if not self.knows(path, claim):
                raise Fault(f'{fault} (at {path.at:#x})')
        if is_kept:
            path.conditions.append(z3.simplify(claim))

    def says(self, condition):
        return str(condition)[:100]

    # ---- names of large words, and products

    def named(self, path, value):
        """A variable in place of a large number of 32 bits in a register. So terms stay small, and each can be compared
        with the RFC's on its own."""
        value = z3.simplify(value)
        half = z3.simplify(z3.Extract(31, 0, value))
        if not z3.simplify(z3.ZeroExt(32, half)).eq(value) or size_of(half, self.large) < self.large:
            return value
        variable = self.fresh('named', 32)
        path.definitions += variable == half,
        return z3.simplify(z3.ZeroExt(32, variable))

    def product(self, path, one, other):
        width = next(word.size() for word in (one, other) if not isinstance(word, int))
        words = [z3.simplify(resized(word, width)) for word in (one, other)]
        if any(map(z3.is_bv_value, words)):
            return words[0] * words[1]
        for factor, rest in (words, words[::-1]):
            for most in (1, 3):  # (a condition, and a slice)
                if self.may_be(path, z3.ULE(factor, most)) and self.knows(path, z3.ULE(factor, most)):
                    found = number(0, width)
                    for small in range(1, most + 1):
                        found = z3.If(factor == small, small * rest, found)
                    return found
        return resized(self.wide_product(*(self.named(path, resized(word, BITS)) for word in words)), width)

    def known_product(self, path, one, other):
        """The product whose factors are these on a path, if the code computed it."""
        for found, (first, second) in [*self.products.values()]:
            for pair in ((first, second), (second, first)):
                claim = z3.And(pair[0] == one, pair[1] == other)
                if self.may_be(path, claim) and self.knows(path, claim):
                    return found
        return self.wide_product(one, other)

    def known_name(self, path, value):
        """The name of a value, if the code computed it; or itself."""
        for definition in reversed(path.definitions):
            claim = definition.arg(0) == value
            if self.may_be(path, claim) and self.knows(path, claim):
                return definition.arg(0)
        return value

    def wide_product(self, one, other):
        """The product of two words of 64 bits, of which only what these lemmas say is known: for factors below 2^32,
        (x y) >> 32 < x, and a < b implies a x + x <= b x."""
        pair = sorted((z3.simplify(word) for word in (one, other)), key=lambda word: word.get_id())
        found = z3.Function(PRODUCT, *[z3.BitVecSort(BITS)] * 3)(*pair)
        if found.get_id() in self.products:
            return found
        self.products[found.get_id()] = found, pair
        top = number(1 << 32)
        for one, other in (pair, pair[::-1]):
            self.lemmas.append(z3.Implies(z3.And(z3.ULT(one, top), z3.ULT(other, top), one != 0),
                                          z3.ULT(z3.LShR(found, 32), one)))
            self.lemmas.append(z3.Implies(one == 0, found == 0))
            self.lemmas.append(z3.Implies(one == 1, found == other))
        for product, factors in self.products.values():
            self.order(product, factors, found, pair)
        return found

    def order(self, product, factors, found, pair):
        """The lemma about two products with a common factor."""
        top = number(1 << 32)
        for one, shared in (factors, factors[::-1]):
            for other, beside in (pair, pair[::-1]):
                if shared.eq(beside) and not product.eq(found):
                    small = z3.And(*(z3.ULT(word, top) for word in (one, other, shared)))
                    self.lemmas += [z3.Implies(z3.And(small, z3.ULT(one, other)), z3.ULE(product + shared, found)),
                                    z3.Implies(z3.And(small, z3.ULT(other, one)), z3.ULE(found + shared, product)),
                                    z3.Implies(one == other, product == found)]

    # ---- memory

    def region(self, begin, size, *written):
        """Memory of a known size that a function is passed, and the ranges of it that it may write."""
        self.known_regions[self.place(begin)[0]] = size, written

    def check_unit(self, path, address, unit):
        """A vector may have to be at a multiple of its size."""
        if unit > x86.WORD:
            region, offset = self.place(resized(address, BITS))
            if region != STACK or unit > UNIT:
                self.claim(path, resized(address, BITS) & unit - 1 == 0, 'a vector is not aligned')
            elif (offset + ENTRY) % unit:
                raise Fault('a vector on the stack is not aligned')

    def load(self, path, address, size):
        address = z3.simplify(address)
        region, offset = self.place(address)
        if region in ('', STACK) or region in self.known_regions \
                and 0 <= offset <= self.known_regions[region][0] - size:
            return self.loaded(path, (region, offset), size)
        return self.load_elsewhere(path, address, size)

    def store(self, path, address, value):
        address, size = z3.simplify(address), value.size() // 8
        region, offset = self.place(address)
        _, written = self.known_regions.get(region, (0, ()))
        is_own = region == STACK and offset + size <= 0 and self.depth(path) - RED_ZONE <= offset
        if is_own or any(begin <= offset and offset + size <= end for begin, end in written):
            self.put_at(path, (region, offset), value)
        else:
            self.store_elsewhere(path, address, value)

    def depth(self, path):
        """Where the stack pointer is, behind where it was."""
        region, offset = self.place(path.registers[path.stack_pointer])
        if region != STACK:
            raise Fault('the stack pointer is not known')
        return offset

    def forget(self, path, address, size):
        """Forgets bytes of the function's own frame, which a call writes."""
        region, offset = self.place(address)
        if region != STACK or not self.depth(path) <= offset <= -size:
            raise Fault('a call writes elsewhere')
        for at in range(offset, offset + size):
            path.memory.pop((region, at), None)

    def load_elsewhere(self, path, address, size):
        raise Fault(f'it reads {size} bytes elsewhere: {self.says(address)}')

    def store_elsewhere(self, path, address, value):
        raise Fault(f'it writes elsewhere: {self.says(address)}')

    def initial(self, region, offset):
        if region == STACK:
            raise Fault('it reads of the stack what it did not write')
        if region == '' and self.code.place(offset) is None:
            raise Fault('it reads a constant that is not in the file')
        return super().initial(region, offset)

    # ---- running

    def step(self, path):
        if path.steps > 1 and path.at in self.code.bodies:
            self.call(path, self.code.names[path.at])
            return [path]
        if self.code.instructions.get(path.at, ('',))[0].startswith('ud2'):
            raise Fault(f'it may give up (at {path.at:#x})')
        return super().step(path)

    def call(self, path, name):
        """Makes a call by its contract: nothing is left of the registers that it may change, and of the stack below."""
        short = names_of(name)
        contract = next((self.contracts[one] for one in short if one in self.contracts), None)
        if contract is None:
            raise Fault(f'it calls {name}, of which nothing is known')
        path.at = self.number_of(path.return_address())
        path.returns = path.returns[:-1]
        if (self.depth(path) + ENTRY) % UNIT:
            raise Fault('it calls with a stack that is not aligned')
        words = contract(self, path) or ()
        for register in {*path.registers} - {*path.saved, path.stack_pointer}:
            del path.registers[register]
        depth = self.depth(path)
        for place in [place for place in path.memory if place[0] == STACK and place[1] < depth]:
            del path.memory[place]
        path.registers.update(zip(path.results, (resized(word, BITS) for word in words)))
        path.flags = None

    def check_return(self, first, path):
        """A function restores registers, and the stack."""
        changed = [name for name in path.saved if not path.registers[name].eq(first[name])]
        if self.depth(path) != x86.WORD:
            changed.append(path.stack_pointer)
        if changed:
            raise Fault(f'it does not restore {", ".join(changed)}')


class Variables:
    """The names of the variables and products of terms, which are kept."""

    def __init__(self):
        self.found = {}

    def __call__(self, term):
        """The names in a term, found from its leaves on, without recursion."""
        waiting = [term]
        while waiting:
            part = waiting[-1]
            if part.get_id() in self.found:
                waiting.pop()
                continue
            children = part.children()
            missing = [child for child in children if child.get_id() not in self.found]
            if missing:
                waiting += missing
                continue
            names = frozenset().union(*(self.found[child.get_id()][1] for child in children))
            if part.decl().kind() == z3.Z3_OP_UNINTERPRETED and (not children or part.decl().name() == PRODUCT):
                names |= {part.decl().name() if not children else f'{PRODUCT} {part.get_id()}'}
            self.found[part.get_id()] = part, names
        return self.found[term.get_id()][1]


def names_of(name):
    """The names by which a function may be called here: without types, with one or more of its modules."""
    parts = name.split('::<')[0].split('::')
    return ['::'.join(parts[at:]) for at in range(len(parts))]


def size_of(term, most):
    """How many different parts a term has; or `most`, if these are more."""
    seen, waiting = set(), [term]
    while waiting and len(seen) < most:
        part = waiting.pop()
        if part.get_id() not in seen:
            seen.add(part.get_id())
            waiting += part.children()
    return len(seen)


def wide(value):
    """A number with zeros above it."""
    return z3.simplify(z3.ZeroExt(BITS - value.size(), value)) if value.size() < BITS else value


def low(value):
    """The lower half."""
    return z3.simplify(z3.Extract(31, 0, value))


def beneath_unknown(value, name):
    """An argument of 32 bits: of the upper half nothing is known."""
    return z3.Concat(z3.BitVec(f'upper {name}', 32), value)
