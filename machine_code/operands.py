"""What the decoders of both processors (x86.py, arm64.py) share. A decoder makes a step of an instruction. A step
changes a run of a function, and returns a condition and an address if the instruction may jump. What the words of
a run are depends on the engine: terms in a normal form (machine.py), or terms of Z3 (symbolic.py)."""

import re
from dataclasses import dataclass
from typing import Callable

from terms import BITS, MASK


@dataclass(frozen=True)
class Operand:
    """An operand: functions that read and write it in a run, its width in bits, and its value if it is a number."""
    read: Callable
    write: Callable = None
    width: int = BITS
    number: int = None


def parts(text):
    """Returns the operands of an instruction: a comma within brackets divides none."""
    return [part.strip() for part in re.findall(r'(?:[^,\[]|\[[^\]]*\])+', text)]


def constant(value):
    """A number in an instruction."""
    return Operand(lambda run: value & MASK, number=value)


def register(name, low=0, width=BITS):
    """A part of a register."""
    return Operand(lambda run: run.part(name, low, width), lambda run, word: run.put(name, word, low, width), width)


def computed(function, sources, target):
    """Returns the step that writes what a function makes of operands."""
    return lambda run: target.write(run, function(*(source.read(run) for source in sources)))


def computed_by(function, sources, target):
    """The same for a function that depends on the engine: it is passed the run first."""
    return lambda run: target.write(run, function(run, *(source.read(run) for source in sources)))


def with_flags(function, kind, sources, target=None):
    """Returns the step that computes a word and sets the flags by it. Without a target, the word is lost."""
    def step(run):
        words = [source.read(run) for source in sources]
        result = function(run, *words)
        run.set_flags(kind, words, result)
        if target:
            target.write(run, result)
    return step


def jump(to):
    """Returns the step that always jumps."""
    return lambda run: (True, to.read(run))


def jump_if(condition, to):
    """Returns the step that jumps if the flags meet a condition."""
    return lambda run: (run.holds(condition), to.read(run))


def call(keep, to):
    """Returns the step of a call. `keep` keeps the address to which it returns."""
    def step(run):
        keep(run, run.after)
        run.returns += run.after,
        return True, to.read(run)
    return step


def returned(run):
    """The step of a return."""
    run.returns = run.returns[:-1]
    return True, run.return_address()


def idle(_):
    """The step of an instruction without an effect on what is looked at."""
