"""Runs a function of a linked file along each of its paths. Registers and memory contain terms of Z3 over what the
function is passed. A branch on a term is taken both ways, if Z3 finds no contradiction to the branches before. A call
of a function that is named as an outside one is not followed: it may return anything, may change each register that it
need not preserve, and writes only what its prototype allows."""

import copy
import re
from contextlib import contextmanager
from dataclasses import dataclass, field
from itertools import count

import z3
from headers import BITS, HALF, SIZES, UNITS, WORD
from terms import Fault
from z3.z3util import get_vars

RED_ZONE, MOST_JOINED, LARGEST_FRAME = 128, 16, 1 << 20  # (in bytes)
STEPS = 20_000  # more instructions than any path has
STACK, RETURN, RETURN_ADDRESS = 'stack', z3.BitVec('return', BITS), -1
UNKNOWN = 'unknown'  # (the name of what is read where a call may have written)
POINTED = {**SIZES, 'int': 4}
# If a call writes a known number of bytes, and at most LARGEST, each of these bytes is written here too. Arguments of
# at most MOST_SEEN bytes are noted.
LARGEST, MOST_SEEN = 1 << 14, 128
# A jump, and whether it always jumps.
JUMP = re.compile(r'(?:(jmp|b)|j\w+|b\.\w+|[ct]bn?z)\s.*?(0x[0-9a-f]+)')


def number(value, width=BITS):
    return z3.BitVecVal(value, width)


def resized(value, width):
    """The low bits of a value, or the value with zeros above it; or a number."""
    if isinstance(value, int):
        return number(value, width)
    size = value.size()
    return value if size == width else z3.Extract(width - 1, 0, value) if width < size else \
        z3.ZeroExt(width - size, value)


def bits(value, low, width):
    """Some bits of a value."""
    return value if width == value.size() else z3.simplify(z3.Extract(low + width - 1, low, value))


def runs(places):
    """Neighbouring bytes: the region, the first byte and the number of each run."""
    for region, offset in sorted(places):
        if (region, offset - 1) not in places:
            yield region, offset, next(size for size in count(1) if (region, offset + size) not in places)


def ordered(body):
    """The instructions of a function, each after those that lead to it, except in loops."""
    first, done, order = min(body), set(), []
    waiting = [(first, False)]
    while waiting:
        at, is_done = waiting.pop()
        if is_done:
            order.append(at)
        elif at not in done and at in body:
            done.add(at)
            waiting.append((at, True))
            text, size = body[at]
            found = JUMP.fullmatch(text)
            if not (text.startswith('ret') or found and found[1]):
                waiting.append((at + size, False))
            if found:
                waiting.append((int(found[2], 16), False))
    return reversed(order)


def variables(term):
    """The names of a term's variables."""
    return {str(variable) for variable in get_vars(z3.simplify(term))}


def is_zero(value):
    return value == number(0, value.size())


def compared(one, other):
    """The conditions after a subtraction."""
    return {'e': one == other, 'b': z3.ULT(one, other), 'be': z3.ULE(one, other), 'l': one < other, 'le': one <= other,
            's': one - other < 0}


def added(one, result, has_inverted_carry=False):
    """The conditions after a sum. On ARM64, a carry counts as that of a comparison that is not below."""
    found, has_carry = {'e': is_zero(result), 's': result < 0}, z3.ULT(result, one)
    if not has_inverted_carry:
        return {**found, 'b': has_carry}
    return {**found, 'b': z3.Not(has_carry), 'be': z3.Or(z3.Not(has_carry), found['e'])}


# The conditions after an operation of some kind, by its operands and its result: of shifts, nobody looks at the carry.
CONDITIONS = {
    'difference': lambda operands, result: compared(*operands),
    'negation': lambda operands, result: compared(number(0, result.size()), *operands),
    'sum': lambda operands, result: added(operands[0], result),
    'sum with inverted carry': lambda operands, result: added(operands[0], result, True),
    'bits': lambda operands, result: {'e': is_zero(result), 'b': z3.BoolVal(False), 'be': is_zero(result),
                                      's': result < 0, 'l': result < 0, 'le': result <= 0},
    'shift': lambda operands, result: {'e': is_zero(result), 's': result < 0}}
CONDITIONS['step'] = CONDITIONS['shift']


def immediate(flags):
    """The conditions if an instruction sets the flags N, Z, C and V."""
    negative, zero, carry, overflow = (bool(flags & bit) for bit in (8, 4, 2, 1))
    return {name: z3.BoolVal(value) for name, value in {
        'e': zero, 'b': not carry, 'be': not carry or zero, 'l': negative != overflow,
        'le': zero or negative != overflow, 's': negative}.items()}


OPPOSITES = {'ne': 'e', 'ae': 'b', 'a': 'be', 'ge': 'l', 'g': 'le', 'ns': 's'}


def condition_of(found, condition):
    """One of the conditions that are known."""
    opposite = OPPOSITES.get(condition)
    if (opposite or condition) not in found:
        raise Fault(f'the condition {condition} is not known here')
    return z3.Not(found[opposite]) if opposite else found[condition]


def either(is_one, first, second):
    """One of two words, or of two vectors' words."""
    if isinstance(first, tuple):
        return tuple(either(is_one, *pair) for pair in zip(first, second))
    return first if first.eq(second) else z3.simplify(z3.If(is_one, first, second))


@dataclass(eq=False)
class Call:
    """A call of an outside function: its arguments by name, what it returned, what was in the structures that it was
    passed, and what it left in those that it wrote."""
    name: str
    arguments: dict
    result: object
    passed: dict = field(default_factory=dict)
    left: dict = field(default_factory=dict)

    def __getattr__(self, name):
        try:
            return self.__dict__['arguments'][name]
        except KeyError:
            raise AttributeError(name) from None


@dataclass(frozen=True, eq=False)
class Write:
    """Bytes that were written: where they begin, how many they are, and who wrote them."""
    begin: object
    size: object
    by: str


class Run:
    """A run of a function up to some instruction. The class of a processor (x86.py, arm64.py) has the registers."""
    back = RETURN

    def __init__(self, machine, registers):
        self.machine, self.registers, self.memory, self.flags = machine, dict(registers), {}, None
        self.conditions, self.events, self.unknown_bytes = [], [], frozenset()
        self.at, self.after, self.returns, self.steps = 0, 0, (), 0

    def fork(self):
        """Another run that goes on from here."""
        other = copy.copy(self)
        other.registers, other.memory = dict(self.registers), dict(self.memory)
        other.conditions, other.events = list(self.conditions), list(self.events)
        return other

    def meets(self, other):
        """Whether two paths are at the same place, after the same calls."""
        return (self.at, self.returns) == (other.at, other.returns) and len(self.events) == len(other.events) \
            and all(one is another for one, another in zip(self.events, other.events))

    def write(self, begin, size, by):
        """Notes that bytes were written whose values are not known."""
        self.events.append(Write(begin, size, by))
        self.unknown_bytes |= variables(begin)

    def calls(self, *names):
        return [event for event in self.events if isinstance(event, Call) and event.name in names]

    def writes(self):
        return [event for event in self.events if isinstance(event, Write)]

    # ---- what instructions use

    def part(self, name, low=0, width=BITS):
        return bits(self.registers[name], low, width)

    def put(self, name, value, low=0, width=BITS):
        """Writes a part of a register. A part of 32 bits clears those above it; beside smaller ones the others stay."""
        value, whole, end = resized(value, width), self.registers[name], low + width
        if width < HALF:
            above, below = ([bits(whole, *place)] if place[1] else [] for place in ((end, BITS - end), (0, low)))
            value = z3.Concat(*above, value, *below)
        self.registers[name] = z3.simplify(resized(value, BITS))

    def load(self, address, size, _unit=None):
        """A value of at most a word, or the words of a vector."""
        value = self.machine.load(self, resized(address, BITS), size)
        return value if size <= WORD else tuple(bits(value, at, BITS) for at in range(0, 8 * size, BITS))

    def store(self, address, value, size, _unit=None):
        words = [resized(word, BITS) for word in reversed(value)] if isinstance(value, tuple) else []
        self.machine.store(self, z3.simplify(resized(address, BITS)),
                           z3.simplify(z3.Concat(*words) if words else resized(value, 8 * size)))

    def prefetch(self, address):
        """A prefetch changes nothing."""

    def set_flags(self, kind, operands, result):
        found = CONDITIONS[kind](operands, result) if kind in CONDITIONS else None
        self.flags = found and (lambda condition: condition_of(found, condition))

    def compare_if(self, condition, kind, operands, flags):
        """Compares if a condition holds, or else sets these flags."""
        is_met, found = self.holds(condition), CONDITIONS[kind](operands, None)
        self.flags = lambda name: z3.If(is_met, condition_of(found, name), condition_of(immediate(flags), name))

    def holds(self, condition):
        """Whether a condition holds, by the flags."""
        if self.flags is None:
            raise Fault('it branches on flags of which nothing is known')
        return self.flags(condition)

    def choose(self, condition, one, other, width):
        return z3.If(self.holds(condition), resized(one, width), resized(other, width))

    is_zero, resized, right = staticmethod(is_zero), staticmethod(resized), staticmethod(z3.LShR)

    @staticmethod
    def right_signed(value, count):
        return value >> count

    @staticmethod
    def sign_extended(value, width, wider):
        return z3.SignExt(wider - width, resized(value, width))

    @staticmethod
    def masked(one, other):
        return one & other

    @staticmethod
    def known(value):
        """A number."""
        value = z3.simplify(value)
        if not z3.is_bv_value(value):
            raise Fault('it needs a number that is not known')
        return value.as_long()

    def product(self, one, other):
        """Of two terms, nothing but their product's name is known."""
        if any(isinstance(value, int) or z3.is_bv_value(z3.simplify(value)) for value in (one, other)):
            return one * other
        return self.unknown('product', *sorted((one, other), key=lambda value: value.get_id()))

    @staticmethod
    def unknown(name, *values):
        """A function of which nothing is known."""
        return z3.Function(f'{name}{values[0].size()}', *(value.sort() for value in values), values[0].sort())(*values)


class Engine:
    """Runs a file's functions. `run` is the class of a run: for a processor. An outside function is known by its name,
    so only one may have it. Those of `imports` have to be in other files."""

    def __init__(self, run, code, outside, effects=None, imports=()):
        self.run, self.code, self.outside, self.effects, self.solver = run, code, outside, effects or {}, z3.Solver()
        self.imports, self.defined = {*imports}, {*code.names.values()}
        self.fresh_names, self.regions, self.terms, self.ranks = 0, {}, {}, {}

    # ---- terms

    def fresh(self, name, width=BITS):
        """A variable of which nothing is known."""
        self.fresh_names += 1
        return z3.BitVec(f'{name}#{self.fresh_names}', width)

    def proves(self, claim):
        """Whether a claim is true on the present path, for all values."""
        claim = z3.simplify(claim)
        if z3.is_true(claim):
            return True
        return self.solver.check(z3.Not(claim)) == z3.unsat

    # ---- memory

    def place(self, address):
        """An address as a region and an offset in it. A region's name is the term of where it begins."""
        address = z3.simplify(address)
        if z3.is_bv_value(address):
            return '', address.as_long()
        offset = 0
        if address.decl().kind() == z3.Z3_OP_BADD and z3.is_bv_value(address.arg(0)):
            offset, terms = address.arg(0).as_signed_long(), address.children()[1:]
            address = terms[0] if len(terms) == 1 else z3.Sum(terms)
        return self.name_of(address), offset

    def name_of(self, base):
        key = base.get_id()
        if key not in self.regions:
            if any(name.startswith(f'{UNKNOWN}#') for name in variables(base)):
                raise Fault('it uses an address of which nothing is known')
            self.regions[key] = base.sexpr()
            self.terms[self.regions[key]] = base  # (which keeps the term, and so its number)
        return self.regions[key]

    def initial(self, region, offset):
        """A byte that nobody wrote: a constant of the file, or a part of a variable."""
        at = self.code.place(offset) if region == '' else None
        if at is not None:
            return number(self.code.content[at], 8), 0
        return z3.BitVec(f'{region}[{offset // WORD * WORD}]', BITS), offset % WORD

    def load(self, path, address, size):
        """What is in memory at an address."""
        if choice := self.choice(address):
            return z3.simplify(z3.If(choice[0], *(self.load(path, other, size) for other in choice[1:])))
        return self.loaded(path, self.place(address), size)

    @staticmethod
    def choice(address):
        """Of an address that depends on a condition: the condition, and both addresses; or None."""
        terms = address.children() if address.decl().kind() == z3.Z3_OP_BADD else [address]
        chosen = next((term for term in terms if term.decl().kind() == z3.Z3_OP_ITE), None)
        if chosen is None:
            return None
        condition, *others = chosen.children()
        return condition, *(z3.simplify(z3.substitute(address, (chosen, other))) for other in others)

    def loaded(self, path, place, size):
        region, offset = place
        if region and path.unknown_bytes & variables(self.terms[region]):
            return self.fresh(UNKNOWN, 8 * size)
        pieces = []  # (from the lowest on: a value, its first byte, and how many)
        for at in range(offset, offset + size):
            value, index = path.memory.get((region, at)) or self.initial(region, at)
            last, begin, count = pieces[-1] if pieces else (None, 0, 0)
            if last is not None and begin + count == index and (last is value or last.eq(value)):
                pieces[-1][2] += 1
            else:
                pieces.append([value, index, 1])
        found = [bits(value, 8 * index, 8 * count) for value, index, count in reversed(pieces)]
        return z3.simplify(z3.Concat(*found)) if len(found) > 1 else found[0]

    def put(self, path, address, value):
        if self.choice(address):
            raise Fault('it writes where a condition says')
        return self.put_at(path, self.place(address), value)

    @staticmethod
    def put_at(path, place, value):
        region, offset = place
        for index in range(value.size() // 8):
            path.memory[region, offset + index] = value, index
        return region

    def store(self, path, address, value):
        """A write of the function itself, which is noted unless it is to the stack."""
        if self.put(path, address, value) != STACK:
            path.events.append(Write(address, number(value.size() // 8), 'code'))

    @staticmethod
    def size_of(parameter, arguments):
        """How many bytes a function may read or write at a pointer: a number, a term, or None if that is not known."""
        if parameter.points_to in POINTED:
            return POINTED[parameter.points_to]
        length = arguments.get(f'{parameter.name}_len')
        if length is None:
            return None
        length = z3.simplify(length * UNITS.get(parameter.points_to, 1))
        return length.as_long() if z3.is_bv_value(length) and 0 < length.as_long() <= LARGEST else length

    def overwrite(self, path, call, name, size):
        """An outside function writes anything to what it was passed under a name."""
        begin = call.arguments[name]
        if isinstance(size, int):
            call.left[name] = self.fresh(f'{call.name} {name}', 8 * size)
            self.put(path, begin, call.left[name])
            path.events.append(Write(begin, number(size), call.name))
        else:
            path.write(begin, size, call.name)

    # ---- running

    def paths(self, name, prepare=lambda path, arguments: []):
        """Each path of a function to its end, with what it is passed: variables by the names of its parameters. What is
        proved meanwhile is proved for this path. `prepare` returns what is assumed."""
        kind, parameters = self.outside[name]
        path = self.run(self, self.run.fresh(lambda name: z3.BitVec(f'first {name}', BITS)))
        path.registers[path.stack_pointer] = z3.BitVec(STACK, BITS)
        given = {parameter.name: z3.BitVec(parameter.name, BITS) for parameter in parameters}
        path.enter([*given.values()])
        if kind in SIZES:
            given['hidden'] = path.registers[path.hidden] = z3.BitVec('hidden', BITS)
        path.at, first = self.code.only(name), dict(path.registers)
        stack = path.registers[path.stack_pointer]
        with self.assumed([z3.ULT(LARGEST_FRAME, stack), z3.ULT(stack, -LARGEST_FRAME), *prepare(path, given)]):
            ends = 0
            for end in self.ends(path):
                ends += 1
                changed = [register for register in path.saved if not end.registers[register].eq(first[register])]
                if changed:
                    raise Fault(f'it does not restore {", ".join(changed)}')
                yield end, given
            if not ends:
                raise Fault('it never returns')

    def ends(self, first):
        """The ends of all paths. Paths that meet, and that made the same calls, are joined. So the one that is furthest
        behind goes on: that in the innermost call, and there by the order of the instructions."""
        pending = [first]
        while pending:
            path = min(pending, key=lambda one: (-len(one.returns), self.rank(one.at)))
            pending.remove(path)
            if path.at == RETURN_ADDRESS:
                with self.assumed(path.conditions):
                    yield path
                continue
            path.steps += 1
            if path.steps > STEPS:
                raise Fault(f'it has not returned after {STEPS} instructions')
            for way in self.step(path):
                if not any(self.join(other, way) for other in pending if other.meets(way)):
                    pending.append(way)

    @contextmanager
    def assumed(self, conditions):
        """Lets conditions be true for a while."""
        self.solver.push()
        self.solver.add(*conditions)
        yield
        self.solver.pop()

    def rank(self, address):
        """An instruction's place in its function, in an order in which those before it come first (but for loops)."""
        if address != RETURN_ADDRESS and address not in self.ranks:
            self.ranks.update({at: index for index, at in enumerate(ordered(self.body_of(address)))})
        return self.ranks.get(address, 0)

    def body_of(self, address):
        """The instructions of the function that has this one."""
        return self.code.bodies[max(begin for begin in self.code.bodies if begin <= address)]

    def join(self, one, other):
        """Makes one path of two that met, if their memory differs in few bytes. Returns whether it did."""
        _, lowest = self.place(one.registers[one.stack_pointer])
        places = {place for place in {**one.memory, **other.memory}
                  if not (place[0] == STACK and place[1] < lowest - RED_ZONE) and self.differ(one, other, place)}
        if len(places) > MOST_JOINED:
            return False
        count = next((at for at, pair in enumerate(zip(one.conditions, other.conditions)) if not pair[0].eq(pair[1])),
                     min(len(one.conditions), len(other.conditions)))
        is_one, is_other = (z3.And(*path.conditions[count:]) for path in (one, other))
        for region, offset, size in runs(places):
            self.put_at(one, (region, offset), either(is_one, *(self.loaded(path, (region, offset), size)
                                                                for path in (one, other))))
        one.registers = {name: either(is_one, value, other.registers[name]) for name, value in one.registers.items()}
        if one.flags is not other.flags:
            flags = one.flags, other.flags
            one.flags = None if None in flags else lambda condition: z3.If(is_one, *(of(condition) for of in flags))
        one.conditions[count:] = [z3.simplify(z3.Or(is_one, is_other))]
        return True

    def differ(self, one, other, place):
        """Whether two paths have different bytes at a place."""
        values = [path.memory.get(place) for path in (one, other)]
        if values[0] is values[1]:
            return False
        (first, index), (second, at) = (value or self.initial(*place) for value in values)
        return index != at or not (first is second or first.eq(second))

    def step(self, path):
        """Takes an instruction, or a call of an outside function. Returns where the path goes on."""
        name, _, is_elsewhere = self.code.names.get(path.at, '').partition('@')
        if self.is_outside(name, is_elsewhere) and path.steps > 1:
            path.at = self.number_of(path.return_address())
            self.call(path, name)
            path.returns = path.returns[:-1]
            return [path]
        if is_elsewhere:  # (the linker's table leads to it)
            path.at = self.code.only(name)
            return [path]
        if path.at not in self.code.instructions:
            raise Fault(f'it calls {name or hex(path.at)}, of which nothing is known')
        text, size = self.code.instructions[path.at]
        path.after = path.at + size
        try:
            condition, target = path.decode(text)(path) or (False, None)
        except (TypeError, ValueError, LookupError, AttributeError, z3.Z3Exception) as fault:
            raise Fault(f'the instruction {text} is not known here: {fault}') from None
        condition = condition if isinstance(condition, bool) else z3.simplify(condition)
        if condition is True or condition is False or z3.is_true(condition) or z3.is_false(condition):
            path.at = self.number_of(target) if condition else path.after
            return [path]
        other = path.fork()
        path.conditions.append(condition)
        path.at = self.number_of(target)
        other.conditions.append(z3.simplify(z3.Not(condition)))
        other.at = path.after
        return [way for way in (path, other) if self.is_possible(way)]

    def is_outside(self, name, is_elsewhere):
        """Whether the function that has this name here, or in another file, is an outside one."""
        if name not in self.outside:
            return False
        if name in self.imports:
            return bool(is_elsewhere) and name not in self.defined
        return bool(self.code.only(name))

    def is_possible(self, path):
        with self.assumed(path.conditions):
            return self.solver.check() != z3.unsat

    def number_of(self, target):
        target = z3.simplify(resized(target, BITS))
        if z3.is_bv_value(target):
            return target.as_long()
        if target.eq(RETURN):
            return RETURN_ADDRESS
        raise Fault('it jumps to what it computed')

    def passed(self, path, count):
        """The arguments of a call, whose return address is not on the stack any more."""
        found = [path.registers[name] for name in path.arguments[:count]]
        return found + [path.load(path.registers[path.stack_pointer] + WORD * index, WORD)
                        for index in range(count - len(found))]

    def call(self, path, name):
        """Calls an outside function."""
        kind, parameters = self.outside[name]
        values = self.passed(path, len(parameters))
        arguments = {parameter.name: value for parameter, value in zip(parameters, values)}
        call = Call(name, arguments, self.fresh(name))
        sizes = {parameter: self.size_of(parameter, arguments) for parameter in parameters if parameter.points_to}
        call.passed = {parameter.name: self.load(path, arguments[parameter.name], size)
                       for parameter, size in sizes.items() if isinstance(size, int) and size <= MOST_SEEN}
        path.events.append(call)
        for parameter, size in sizes.items():
            if parameter.is_written and size is not None:
                self.overwrite(path, call, parameter.name, size)
        hidden = call.arguments['hidden'] = path.registers[path.hidden] if kind in SIZES else None
        preserved = *path.saved, path.stack_pointer
        path.registers |= {name: value for name, value in path.fresh(self.fresh).items() if name not in preserved}
        path.registers[path.result] = call.result
        if hidden is not None:
            call.left['result'] = self.fresh(name, 8 * SIZES[kind])
            self.put(path, hidden, call.left['result'])
            path.registers[path.result] = hidden
        path.flags = None
        if name in self.effects:
            self.effects[name](self, path, call)
