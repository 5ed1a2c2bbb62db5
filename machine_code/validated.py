"""The functions, their definitions (crates/argon2_vectors), and a run of one on terms."""

import re
from dataclasses import dataclass
from typing import Callable

import rfc7693
import rfc9106
from arm64 import Arm64
from linked import AHEAD, CHOSEN, CHOSEN_BUILDS, Code
from machine import WORD, Machine, half_known
from machines import machines
from prefetched import faults_of_prefetches
from terms import Fault, variable
from wasm import Module, Wasm
from x86 import X86


def compressed_block(flag, prev, reference, old, _ahead=None):
    """G (RFC 9106, 3.5), to which the old block is added if the flag is set, whatever the other words are."""
    block = rfc9106.compress(prev, reference)
    return [one ^ other for one, other in zip(block, old)] if flag else block


def compressed_state(flag, h, m, counter):
    """F (RFC 7693, 3.2)."""
    return rfc7693.compress(h, m, *counter, flag)


@dataclass(frozen=True)
class Function:
    """A function's name; what it is passed before the flag: regions of memory, by their sizes in words, and words; what
    it leaves in one of the regions; and how many words of its own frame it clears. In a module, which may have no
    names, certain instructions identify it, or else its export. In each build, this many instructions call it."""
    name: str
    regions: dict
    words: tuple
    written: str
    definition: Callable
    cleared: int
    only: tuple
    calls: int

    def run(self, code, begin, flag, entry, values=None, numbers=()):
        """Runs over values, or else a variable for each word; returns the machine, and what is wrong or None. The words
        that it is passed may be numbers."""
        sizes = {name: WORD * size for name, size in self.regions.items()}
        machine = ON_TERMS[code.processor](code, sizes, self.written, entry)
        regions = {name: [variable(f'{name}{index}') for index in range(size)] for name, size in self.regions.items()}
        words = [*map(variable, self.words)]
        if values:
            regions, words = ({name: [values() for _ in region] for name, region in regions.items()},
                              [values() for _ in words])
            machine.memory = {(name, WORD * at): word
                              for name, region in regions.items() for at, word in enumerate(region)}
        words = numbers or words
        try:
            machine.enter([*map(variable, regions), *words, half_known(flag) if machine.arguments else flag])
            machine.run(begin)
            defined = self.definition(flag, *regions.values(), *([words] if words else []))
            return machine, machine.fault(defined, self.cleared)
        except (Fault, TypeError, ValueError, LookupError, AttributeError) as fault:
            # A changed instruction may have any operand; if it cannot run, it is wrong.
            return machine, f'{machine.text}: {fault} ({machine.after:#x})'


FUNCTIONS = (
    Function('fill_words', {'prev': 128, 'reference': 128, 'next': 128}, (), 'next', compressed_block, 0,
             ('i64.mul', 'i64.rotl'), 10),
    Function(AHEAD, {'prev': 128, 'reference': 128, 'next': 128}, ('size', 'columns'), 'next', compressed_block, 0,
             (), 3),
    Function('compress_f', {'h': 8, 'm': 16}, ('low', 'high'), 'h', compressed_state, 16,
             (f'i64.const {rfc7693.IV[4]}', 'i64.rotl'), 3))
FLAGS = 0, 1
ON_TERMS = {processor: type('OnTerms', (processor, Machine), {}) for processor in (X86, Arm64, Wasm)}
# Instructions that do nothing, and need not run.
IDLE = re.compile(r'end$|unreachable$|(data16 |cs )*nop|xchg +ax,ax|int3')


def code_of(path):
    return Module(path) if path.suffix == '.wasm' else Code(path)


def builds_of(path):
    """Returns the builds for a file's machine."""
    if str(path) == CHOSEN:
        return CHOSEN_BUILDS
    folder = path.parent.name
    found = machines().get(folder.removeprefix('windows-'))
    return found.builds if found else [folder]


def faults_of_function(code, function, begin):
    """Returns what is wrong with a function, for both flags, wherever the stack begins, and which instructions were
    run."""
    runs = [function.run(code, begin, flag, entry) for flag in FLAGS for entry in code.processor.entries]
    met = set.union(*(machine.met for machine, _ in runs))
    faults, below = {fault for _, fault in runs if fault}, max(machine.below for machine, _ in runs)
    missed = [text for at, (text, _) in code.bodies[begin].items() if at not in met and not IDLE.match(text)]
    if below:
        faults.add(f'it looks {below} times at what is below the stack pointer')
    if missed and not faults:
        faults.add(f'it is not run: {missed}')
    if code.calls(begin) != function.calls:
        faults.add(f'{code.calls(begin)} instructions call it')
    return [f'{function.name} at {begin}: {fault}' for fault in faults], met


def faults_of(path):
    """Returns what is wrong in a file with these functions and that which prefetches, for each build of its machine."""
    try:
        code = code_of(path)
        code.validate()
    except Fault as fault:
        return [str(fault)]
    places = [(function, begin) for function in FUNCTIONS for begin in code.begins(function)]
    missing = [function.name for function in FUNCTIONS if len(code.begins(function)) != len(builds_of(path))]
    came = [faults_of_function(code, *place) for place in places]
    others = code.multiplications().difference(*(met for _, met in came))
    return [*(fault for faults, _ in came for fault in faults),
            *(f'{name} is not there once in each build' for name in missing),
            *(f'something else multiplies as they do: {code.instructions[at][0]}' for at in others),
            *faults_of_prefetches(code, builds_of(path), IDLE)]
