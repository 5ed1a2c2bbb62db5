"""Attacks test_machine_code.py: in the functions of each build, it puts another instruction in place of random ones, as
the disassembler prints them, and changes each digit of wide constants and a bit of each byte of constants in memory.
Each change has to be found, or to compute the same, for random numbers too: this shows that the checker checks. SEED of
the environment, or a printed one, determines what is random.
"""

import copy
import gc
import os
import random
import re
from types import SimpleNamespace

import arm64
import prefetched
import pytest
import x86
from linked import AHEAD
from shared import TOP
from terms import BITS, Fault, forget
from validated import FLAGS, FUNCTIONS, IDLE, builds_of, code_of

RELEASE, SEED = TOP / 'release', os.environ.get('SEED') or random.randrange(1 << 32)
FILES = 'x86_64/libproved_argon2.a', 'aarch64/libproved_argon2.a', 'wasm32/proved_argon2.wasm'
# The function that prefetches ahead has code of its own in the first file; in the others it calls the compression.
ATTACKED = [(name, function) for name in FILES for function in FUNCTIONS if function.name != AHEAD or name == FILES[0]]
DRAWN, LEAST_FOUND, UNTIL_FORGOTTEN, SHARED = 100, 0.85, 100, 'x86_64/libproved_argon2.so.1.0.0'
# A load, a store, a call and a prefetch of other memory.
DOING_MORE = 'mov eax,DWORD PTR [rdi]', 'mov DWORD PTR [rdi],eax', 'call rax', 'prefetcht0 BYTE PTR [rsi]'
# The instructions that contain constants of the definitions.
WIDE = re.compile(r'(?:movabs .*,0x|movk?\tx\d+, #0x|i64\.const -?)([0-9a-f]{4,})\b')


def with_another_digit(text, at):
    return text[:at] + random.choice([digit for digit in '0123456789' if digit != text[at]]) + text[at + 1:]


class Attacked:
    """A function of a build."""

    def __init__(self, code, function, begin):
        self.code, self.function, self.begin = code, function, begin
        runs, faults = zip(*(function.run(code, begin, flag, code.processor.entries[0]) for flag in FLAGS))
        assert not any(faults), f'it has a fault as it is: {faults}'
        self.met, self.constants, self.below = [machine.met for machine in runs], runs[0].constants, runs[0].below
        self.texts = {at: code.instructions[at][0] for at in sorted(set.union(*self.met))}
        self.found, self.same, self.tried = 0, [], 0

    def runs(self, address):
        """Returns all runs; those that meet the change come first."""
        cases = [(flag, entry) for entry in self.code.processor.entries for flag in FLAGS]
        return sorted(cases, key=lambda case: address is not None and address not in self.met[case[0]])

    def judge(self, code, address, what):
        """Counts a change as found, or as the same."""
        self.tried += 1
        if self.tried % UNTIL_FORGOTTEN == 0:
            forget()
        for case in self.runs(address):
            machine, fault = self.function.run(code, self.begin, *case)
            if fault or machine.below > self.below:
                self.found += 1
                return
        self.same.append(what)
        for flag in FLAGS:
            _, fault = self.function.run(code, self.begin, flag, code.processor.entries[0],
                                         lambda: random.getrandbits(BITS))
            assert not fault, f'{what} does not compute the same: {fault}'

    def change(self, address, text):
        """Tries another instruction at an address."""
        (before, *rest), code = self.code.instructions[address], copy.copy(self.code)
        if text != before:
            code.instructions = {**code.instructions, address: (text, *rest)}
            self.judge(code, address, f'{before} -> {text}')

    def drawn(self, text):
        """Returns another instruction of the function, or one with its name, or with another digit."""
        other = random.choice([*self.texts.values()])
        (name, operands), (called, _) = (re.fullmatch(r'(\S+)(.*)', one).groups() for one in (text, other))
        digits = [len(name) + at for at, letter in enumerate(operands) if letter.isdigit()]
        return random.choice([other, called + operands, *[with_another_digit(text, at) for at in digits]])

    def draw(self):
        while self.tried < DRAWN:
            address, text = random.choice([*self.texts.items()])
            self.change(address, self.drawn(text))

    def change_constants(self):
        for address in sorted(self.constants):
            code, place = copy.copy(self.code), self.code.place(address)
            byte = code.content[place] ^ 1 << random.randrange(8)
            code.content = code.content[:place] + bytes([byte]) + code.content[place + 1:]
            self.judge(code, None, f'the constant at {address:#x}')
        for address, found in ((address, WIDE.match(text)) for address, text in self.texts.items()):
            for at in range(*found.span(1)) if found else ():
                self.change(address, with_another_digit(found.string, at))


@pytest.fixture(autouse=True)
def without_collection():
    """Terms have no cycles, and the collector looks through all of them."""
    gc.disable()
    yield
    gc.enable()
    forget()


@pytest.mark.parametrize('name, function', ATTACKED, ids=lambda part: getattr(part, 'name', part))
def test_each_change_is_found_or_computes_the_same(name, function):
    code = code_of(RELEASE / name)
    begins = code.begins(function)
    assert len(begins) == len(builds_of(RELEASE / name))
    if function.name == AHEAD:
        begins = [begin for begin in begins if code.bodies[begin].keys() & code.multiplications()]
        assert len(begins) == 1
    for begin in begins:
        own = f'{SEED} {name}, {function.name} at {begin}'
        print('seed', own)
        random.seed(own)  # (so that no draw depends on another test)
        attacked = Attacked(code, function, begin)
        attacked.draw()
        attacked.change_constants()
        print(f'{attacked.found} changes are found, and compute the same: {attacked.same}')
        assert attacked.found >= LEAST_FOUND * attacked.tried and attacked.tried >= DRAWN


@pytest.mark.parametrize('text', DOING_MORE)
def test_what_does_more_than_prefetch_is_found(text):
    code = code_of(RELEASE / SHARED)
    body = code.bodies[min(prefetched.begins(code))]
    body[min(body)] = text, 0
    faults = prefetched.faults_of_prefetches(code, builds_of(RELEASE / SHARED), IDLE)
    assert [fault for fault in faults if f'it does more than prefetch: {text}' in fault]


@pytest.mark.parametrize('decode, known, other', [
    (x86.decode, 'vpmovzxbq zmm1,xmm1', 'vpmovzxbq ymm1,xmm1'),
    (arm64.decode, 'usra\tv1.2d, v1.2d, #24', 'usra\tv1.4s, v1.4s, #24'),
    (arm64.decode, 'sri\tv1.2d, v1.2d, #24', 'sri\tv1.4s, v1.4s, #24'),
    (arm64.decode, 'umlal2\tv1.2d, v1.4s, v1.4s', 'umlal2\tv1.4s, v1.8h, v1.8h')])
def test_forms_of_an_instruction_for_other_widths_are_rejected(decode, known, other):
    """An instruction for 64-bit words has forms for fewer or narrower words, which compute something else."""
    registers = {'mm1': (1,) * 8, 'd1': 1, 'h1': 1}
    machine = SimpleNamespace(registers=registers, put=registers.__setitem__)
    decode(known)(machine)
    with pytest.raises(Fault):
        decode(other)(machine)
