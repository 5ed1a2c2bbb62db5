"""What the models of x86-64's instructions say is what this processor does. Of each kind of instruction in the archive,
by its name and the kinds of its operands, a few are assembled and executed over drawn registers, and the model
computes the same registers and flags. A register takes the place of memory. SEED of the environment, or a printed one,
determines what is drawn."""

import ctypes
import os
import random
import re
import subprocess
from collections import Counter, defaultdict
from pathlib import Path

import pytest
import vectors
import x86
from linked import Code
from statements import ARCHIVE
from symbolic import Run, number
from terms import Fault

SEED = os.environ.get('SEED') or random.randrange(1 << 32)
OF_KIND, TRIES = 3, 16  # (instructions of each kind, and states of each instruction)
FLAGS, WORDS, SIZE = {'CF': 0, 'ZF': 6, 'SF': 7, 'OF': 11}, 8, 16 * 8 + 8 + 32 * 64
# The bits of places of bytes, of halves of words and of words, by which some instructions shuffle.
PLACES = 0, 0x0f0f0f0f0f0f0f0f, 0x0000000700000007, 7
# What takes the place of memory.
IN_PLACE_OF = {'BYTE': 'r15b', 'WORD': 'r15w', 'DWORD': 'r15d', 'QWORD': 'r15', 'XMMWORD': 'xmm15', 'YMMWORD': 'ymm15',
               'ZMMWORD': 'zmm15'}
# What goes elsewhere, uses the stack, is known by facts alone, or by the other engine alone (rorx).
ELSEWHERE = re.compile(r'(j\w+|call|ret|push|pop|leave|ud2|(data16 |cs )*nop.*|endbr64|prefetch\w+|rep|lock|f\w+|div'
                       r'|cmpxchg|xchg|rorx)\b.*|.*\b(rsp|esp|spl?)\b.*|.*\[rip.*|imul +\w+,\w+|movabs .*')
# The flags of a processor that executes the instructions of all builds.
NEEDED = {'avx512f', 'avx512bw', 'avx512dq', 'avx512vl'}


class State(Run, x86.X86):
    """Registers with known words. No instruction here uses memory."""
    vectors = x86.VECTORS


def in_registers(text):
    """An instruction with a register in place of memory."""
    if text.startswith('lea'):
        return text
    return re.sub(r'(\w+) PTR (?:\w+:)?\[[^]]*\]', lambda found: IN_PLACE_OF[found[1]], text)


def kind_of(text):
    """The name of an instruction, and the kinds of its operands."""
    name, _, operands = text.partition(' ')
    return name, *(('vector', one[0]) if one[1:] in x86.VECTORS else ('register', *x86.NAMES[one][1:])
                   if one in x86.NAMES else 'place' if '[' in one else 'number' for one in operands.strip().split(','))


def instructions():
    """The instructions that are tried: a few of each kind. Each is one that the model knows."""
    kinds, draw, code = defaultdict(set), random.Random(f'{SEED}'), Code(ARCHIVE)
    for text, _ in {one for body in code.bodies.values() for one in body.values()}:
        if not ELSEWHERE.fullmatch(text):
            kinds[kind_of(in_registers(text))].add(in_registers(text))
    found = [text for kind in sorted(kinds, key=str) for text in draw.sample(
        sorted(kinds[kind]), min(OF_KIND, len(kinds[kind])))]
    return [*filter(is_known, found)]


def is_known(text):
    try:
        vectors.decode(text)
    except (Fault, KeyError):
        return False
    return True


def program(texts):
    """A library with a function for each instruction: it takes the registers from memory, compares r8 to r9 so that
    flags are set, executes the instruction, and puts registers and flags back."""
    whole, wide = [name for name in x86.WHOLE if name not in ('rsp', 'rdi')], range(len(x86.VECTORS))
    at = {name: 8 * index for index, name in enumerate(x86.WHOLE)}
    lines = ['.intel_syntax noprefix']
    for index, text in enumerate(texts):
        lines += [f'.globl f{index}', f'f{index}:', *(f'push {name}' for name in x86.X86.saved), 'push rdi',
                  *(f'vmovdqu64 zmm{one}, [rdi+{136 + 64 * one}]' for one in wide),
                  *(f'mov {name}, [rdi+{at[name]}]' for name in whole), f'mov rdi, [rdi+{at["rdi"]}]', 'cmp r8, r9',
                  text, 'push rdi', 'mov rdi, [rsp+8]', *(f'mov [rdi+{at[name]}], {name}' for name in whole), 'pushfq',
                  'pop rax', f'mov [rdi+{8 * 16}], rax', 'pop rax', f'mov [rdi+{at["rdi"]}], rax',
                  *(f'vmovdqu64 [rdi+{136 + 64 * one}], zmm{one}' for one in wide), 'pop rdi',
                  *(f'pop {name}' for name in reversed(x86.X86.saved)), 'vzeroupper', 'ret']
    return '\n'.join(lines) + '\n'


@pytest.fixture(scope='module')
def library(tmp_path_factory):
    if not {*Path('/proc/cpuinfo').read_text(encoding='utf-8').split()} >= NEEDED:
        pytest.skip('this processor has no AVX-512')
    folder, texts = tmp_path_factory.mktemp('made'), instructions()
    (folder / 'made.s').write_text(program(texts), encoding='utf-8')
    subprocess.run(['as', '-o', folder / 'made.o', folder / 'made.s'], check=True)
    subprocess.run(['ld', '-shared', '-z', 'noexecstack', '-o', folder / 'made.so', folder / 'made.o'], check=True)
    return ctypes.CDLL(folder / 'made.so'), texts


def drawn(draw, places):
    """A state. Its words are of all sizes, and often equal; or those of vectors are places."""
    for at in range(SIZE // 8):
        word = draw.getrandbits(64)
        yield word & places if places and at > 16 else draw.choice(
            [word, word, word & 0xffffffff, word & 0xff, 0, 1, (1 << 64) - 1, 1 << 63, word | 1 << 31])


def executed(function, state):
    """The registers and the flags after an instruction."""
    memory = (ctypes.c_uint64 * (SIZE // 8))(*state)
    function(memory)
    return [*memory[:16]], memory[16], [*memory[17:]]


def modelled(text, state):
    """The same, as the model says: flags as the conditions that it knows."""
    names, run = x86.WHOLE, State(None, {})
    run.registers = {name: number(word) for name, word in zip(names, state)} | {
        name: tuple(state[17 + WORDS * at:17 + WORDS * (at + 1)]) for at, name in enumerate(x86.VECTORS)}
    for one in ('cmp r8,r9', text):
        vectors.decode(one.replace('cmp ', 'cmp    '))(run)
    return run


def value(term):
    return term if isinstance(term, int) else Run.known(term)


def wrong_of(text, state, registers, flags, words):
    """Which registers and conditions the model computes otherwise."""
    run, bit = modelled(text, state), {name: flags >> at & 1 for name, at in FLAGS.items()}
    conditions = {'e': bit['ZF'], 'b': bit['CF'], 'be': bit['CF'] | bit['ZF'], 's': bit['SF'],
                  'l': bit['SF'] ^ bit['OF'], 'le': bit['ZF'] | bit['SF'] ^ bit['OF']}
    yield from (name for name, word in zip(x86.WHOLE, registers)
                if name != 'rsp' and value(run.registers[name]) != word)
    yield from (name for at, name in enumerate(x86.VECTORS)
                if [*map(value, run.registers[name])] != words[WORDS * at:WORDS * (at + 1)])
    for name, found in conditions.items():
        try:
            said = run.choose(name, 1, 0, 64) if run.flags else None
        except Fault:
            continue
        if said is not None and value(said) != found:
            yield f'condition {name}'


def test_the_models_compute_what_the_processor_does(library):
    made, texts = library
    draw, wrong, refused = random.Random(f'{SEED}'), set(), Counter()
    print('SEED', SEED, f'{len(texts)} instructions')
    assert len(texts) > 100
    for index, text in enumerate(texts):
        for number_of_try in range(TRIES):
            state = [*drawn(draw, PLACES[number_of_try % len(PLACES)])]
            try:
                wrong |= {(text, what) for what in wrong_of(text, state, *executed(getattr(made, f'f{index}'), state))}
            except Fault:  # (a state for which the model knows no result)
                refused[text] += 1
    assert not wrong and not [text for text, count in refused.items() if count == TRIES]
