"""The functions of a WebAssembly module, as wasm-objdump prints them, and the instructions that are known."""

import functools
import re
from itertools import pairwise

from linked import AHEAD, require, run
from machine import RETURN, WORD, Machine, add, known, left, right
from rfc9106 import MASK, rotated
from terms import BITS, Fault, variable

TYPE = re.compile(r' - type\[(\d+)\] \((.*)\) -> \w+')
SIGNATURE = re.compile(r' - func\[(\d+)\] sig=(\d+)')
HEAD = re.compile(r'[0-9a-f]+ func\[(\d+)\](?: <.*>)?:')
LINE = re.compile(r' ([0-9a-f]+):((?: [0-9a-f]{2})+) +\| *(?! |local\[)(.*)')
OPENS, LOW = ('block', 'loop'), (1 << 32) - 1
# A function with more multiplications than this may compress blocks; computing sizes and parsing numbers needs fewer.
MANY = 8
# The global that is the stack pointer, how much stack a function asks for, and the term for a stack without that room.
STACK_POINTER, LEAST_STACK, NO_STACK = '0', 16, variable('the stack has no room')


class Module:
    """The instructions of a module by their places in the file; the same for each function by where it begins
    (`bodies`), which is known by its number (`begin`)."""
    clears = ()

    def __init__(self, path):
        self.processor, self.path, self.content = Wasm, path, path.read_bytes()
        lines = run(require('wasm-objdump'), '-x', '-d', path).split('\n')
        self.exports = '\n'.join(line for line in lines if ' -> "' in line)
        counts = {found[1]: len(found[2].split()) for found in map(TYPE.fullmatch, lines) if found}
        self.arguments = {found[1]: counts[found[2]] for found in map(SIGNATURE.match, lines) if found}
        bodies, body, at = {}, {}, 0
        for head, found in ((HEAD.fullmatch(line), LINE.fullmatch(line)) for line in lines):
            if head:
                body = bodies[head[1]] = {}
            elif found:
                size = len(bytes.fromhex(found[2]))
                if found[3]:
                    at, body[at] = int(found[1], 16), (found[3].split(' <')[0], size)
                else:  # (the rest of the bytes of the instruction before)
                    body[at] = body[at][0], body[at][1] + size
        self.begin = {number: min(body) for number, body in bodies.items()}
        self.bodies = {min(body): body for body in bodies.values()}
        self.instructions = {at: instruction for body in bodies.values() for at, instruction in led(body)}

    def at(self, address):
        text, size, to = self.instructions[address]
        return text, size, decode(text, to)

    @staticmethod
    def constant(address):
        """Neither function has constants in memory."""
        raise Fault(f'it reads at {address:#x}')

    def traps(self, address):
        """Returns whether a jump leads to nothing but a trap."""
        text, size, _ = self.instructions[address]
        return self.traps(address + size) if text == 'end' else text == 'unreachable'

    def validate(self):
        """Fails unless this is a valid module."""
        run('wasm-validate', '--enable-memory64', '--enable-threads', self.path)

    def calls(self, begin):
        """Returns how many instructions call a function, except for those of AHEAD, which only calls it."""
        number, (ahead,) = next(name for name in self.begin if self.begin[name] == begin), self.behind(AHEAD)[-1:]
        return sum(text == f'call {number}' for at in {*self.bodies} - {ahead} for text, _ in self.bodies[at].values())

    def behind(self, export):
        """Returns the functions that an exported one leads to, itself first: each passes its last argument on to the
        next. The third one is what was proved."""
        numbers = re.findall(rf' - func\[(\d+)\].* -> "{export}"', self.exports)
        for number in numbers:
            body = self.bodies[self.begin[number]].values()
            numbers += [text.removeprefix('call ') for (before, _), (text, _) in pairwise(body)
                        if before.startswith('local.get ') and text.startswith('call ')]
        return [self.begin[number] for number in numbers[:3]]

    def multiplications(self):
        """Returns the instructions with which blocks can be made."""
        found = ({at for at, (text, _) in body.items() if text == 'i64.mul'} for body in self.bodies.values())
        return set().union(*(places for places in found if len(places) > MANY))

    def begins(self, function):
        """Returns the functions with the instructions (`only`) that identify this one, or that its export leads to."""
        return [begin for begin, body in self.bodies.items()
                if {*function.only} <= {text for text, _ in body.values()}] if function.only else \
            self.behind(function.name)[-1:]


def led(body):
    """Yields the instructions of a function, each with where a jump leads, and the last one with RETURN."""
    begun, targets, jumps, last = [], {}, {}, [*body][-1]
    for at, (text, _) in body.items():
        name, *words = text.split()
        if name in OPENS:
            begun.append(at)
        elif name == 'end' and begun:
            opened = begun.pop()
            targets[opened] = opened if body[opened][0] == 'loop' else at
        elif name in ('br', 'br_if') and int(words[0]) < len(begun):
            jumps[at] = begun[-1 - int(words[0])]
    for at, (text, size) in body.items():
        yield at, (text, size, RETURN if at == last else targets.get(jumps.get(at)))


class Wasm:
    """The stack pointer is the only global that a function may use, and arguments are not in registers. In a memory of
    32 bits, addresses are below 2^32, so cutting them to 32 bits changes nothing."""
    arguments, stack_pointer, saved, entries, own_of_caller = (), STACK_POINTER, (), (0, 16, 32, 48), 0
    local, operands = {}, []

    @staticmethod
    def fresh(_word):
        return {}

    def enter(self, arguments):
        """Begins a function."""
        self.returns += (self.local, self.operands, self.after),
        self.local, self.operands = {str(index): word for index, word in enumerate(arguments)}, []

    def leave(self):
        *self.returns, (self.local, self.operands, back) = self.returns
        return True, back if self.returns else RETURN

    def pop(self):
        if not self.operands:
            raise Fault('it has no operand')
        return self.operands.pop()

    def take(self, name, words):
        """Returns what an instruction that does not jump leaves on the stack, if anything."""
        if name.partition('.')[0] in ('local', 'global'):
            return self.move(name, words[0])
        if name in ('i64.const', 'i32.const'):
            return int(words[0]) & MASK
        if name in (*OPENS, 'end') and not words:
            return None
        if name not in OPERATIONS:
            raise Fault(f'the instruction {" ".join([name, *words])} is not known')
        count, function = OPERATIONS[name]
        operands = [self.pop() for _ in range(count)]
        return function(self, *operands[::-1], *map(int, words[1:]))

    def move(self, name, number):
        """A variable's value, or what is written to it."""
        if name.startswith('global') and number != STACK_POINTER:
            raise Fault(f'it uses the global {number}')
        match name:
            case 'local.get':
                return self.local.get(number, 0)
            case 'global.get':
                return self.registers[number]
            case 'global.set':
                self.registers[number] = self.pop()
            case _:
                self.local[number] = word = self.pop()
                return word if name == 'local.tee' else None
        return None

    def cut(self, word):
        """Returns its lowest 32 bits."""
        return word if self.find(word) else word & LOW

    def lacks_stack(self, least, at):
        """A comparison at the start asks whether the stack has room. We assume that it has."""
        if least != LEAST_STACK or (self.find(at) or [''])[0] != 'stack':
            raise Fault('it compares data')
        return NO_STACK

    def compared(self, other, one, condition):
        self.set_flags('difference', (one, other), None)
        return int(self.holds(condition))

    def jump(self, to):
        """Returns whether it jumps, and where. It would jump to a trap if the stack had no room."""
        chooses = self.pop()
        is_trap = chooses is NO_STACK and self.code.traps(to)
        return not is_trap and known(chooses, 'it chooses by data'), to


# An instruction takes this many operands off the stack, and makes this of its offset, if any, and of them.
OPERATIONS = {
    'i64.add': (2, lambda _, x, y: add(x, y)), 'i64.sub': (2, lambda _, x, y: x - y & MASK),
    'i64.mul': (2, lambda _, x, y: x * y & MASK), 'i64.xor': (2, lambda _, x, y: x ^ y),
    'i64.and': (2, Machine.masked),
    'i64.shl': (2, lambda _, x, count: left(x, count % BITS)),
    'i64.shr_u': (2, lambda _, x, count: right(x, count % BITS)),
    'i64.rotl': (2, lambda _, x, count: rotated(x, -count % BITS)),
    'i64.lt_s': (2, lambda machine, x, y: machine.lacks_stack(y, x)),
    **{name: (2, lambda machine, x, y, condition=condition: machine.compared(y, x, condition))
       for name, condition in (('i64.lt_u', 'b'), ('i64.gt_u', 'a'), ('i32.ne', 'ne'))},
    **dict.fromkeys(('i64.eqz', 'i32.eqz'), (1, lambda machine, x: machine.compared(0, x, 'e'))),
    'i32.wrap_i64': (1, Wasm.cut),
    'i64.load': (1, lambda machine, address, offset: machine.load(add(address, offset), WORD)),
    'i64.store': (2, lambda machine, address, word, offset: machine.store(add(address, offset), word, WORD)),
    'memory.fill': (3, Machine.clear),
    'drop': (0, lambda _: None),  # (of a call's result, which `leave` does not keep)
    'select': (3, lambda _, one, other, chooses: one if known(chooses, 'it chooses by data') else other)}


def call(number):
    def step(machine):
        arguments = [machine.pop() for _ in range(machine.code.arguments[number])]
        machine.enter(arguments[::-1])
        return True, machine.code.begin[number]
    return step


@functools.cache
def decode(text, to):
    """Decodes an instruction: returns the step that it takes."""
    name, *words = text.split()
    if to is RETURN or name == 'return':
        return Wasm.leave
    if name == 'call':
        return call(words[0])
    if name in ('br', 'br_if') and to:
        return (lambda machine: (True, to)) if name == 'br' else lambda machine: machine.jump(to)

    def step(machine):
        left_over = machine.take(name, words)
        if left_over is not None:
            machine.operands.append(left_over)
    return step
