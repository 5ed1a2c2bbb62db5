"""The second level of the statements about the C code (verdict.py): what is shown of the driver's inner function."""

import re

import z3
from ends import (DRIVER, HASH_LENGTH, HASHES, IMPORTS, INNER, JOB, KNOWN, PROVED, RUNS, SYSTEM, VERIFIES, End, any_of,
                  code, is_no_rehash, low, succeeded)
from headers import BITS, HALF, WORD
from regions import Regions
from symbolic import Engine, Write, bits, number, variables
from terms import Fault

STATE, MOST_WORDS = z3.BitVec('call', BITS), 16
KEEPING = 'take_buffer', 'free_due'


class Driver:
    """What is shown of the driver's inner function: where a call's job is in its state, and which bytes of that state
    it changes."""

    def __init__(self, code):
        outside = {name: what for name, what in PROVED.items() if name != 'proved_argon2_memory_free'}
        self.faults, self.place, self.changed, self.used, self.known, met = [], None, set(), {}, {}, set()
        self.code, self.outside = code, {**outside, **INNER}
        effects = {**KNOWN, **dict.fromkeys(INNER, self.write), 'fill': self.fill}
        machine = Engine(RUNS[code.number], code, {**self.outside, **SYSTEM, **DRIVER}, effects, IMPORTS)
        for path, given in machine.paths('proved_driver_compute_kept'):
            end = End(machine, path, given)
            self.judge(end, end.last(*VERIFIES, *HASHES), end.last('fill'))
            self.faults += end.faults
            met |= {call.name for call in path.calls(*PROVED)}
        if missed := {f'proved_argon2_{name}' for name in (*VERIFIES, *HASHES)} - met:
            self.faults.append(f'it never calls {", ".join(sorted(missed))}')

    def judge(self, end, proved, filled):
        end.claim(z3.Implies(end.result == code('OK'), succeeded(proved) if proved else z3.BoolVal(False)),
                  'it succeeds without a proved call that did')
        end.judge_errors(z3.BoolVal(False), proved or filled)
        end.claim(end.result != code('NEEDS_REHASH'), 'it adds NEEDS_REHASH')
        for write in end.path.writes():
            self.judge_write(end, write, proved)
        if proved:
            self.judge_proved(end, proved, filled)

    def judge_proved(self, end, proved, filled):
        """Judges what a proved call is passed."""
        given = end.given
        end.claim(end.result == low(proved.result), 'it returns something other than the proved call')
        place = z3.simplify(proved.job - given['call'])
        if not z3.is_bv_value(place) or self.place not in (None, place.as_long()):
            end.faults.append('its job is not in its state')
            return
        self.place = place.as_long()
        is_verified = proved is end.last(*VERIFIES)
        end.claim((given['hash'] != 0) if is_verified else (given['hash'] == 0), 'it confuses hashing and verifying')
        job = end.at_first(proved.job, JOB)
        end.claim(proved.passed['job'] == job, 'its job was changed')
        length = z3.ZeroExt(HALF, bits(job, 8 * HASH_LENGTH, HALF))
        if is_verified:
            end.claim(z3.And(proved.hash == given['hash'], proved.hash_len == length), 'it verifies another hash')
        tag, size = (proved.tag, proved.tag_len) if is_verified else (proved.out, proved.out_len)
        end.claim(z3.And(tag == given['tag'], size == length), 'it writes the tag elsewhere')
        if hasattr(proved, 'last'):
            end.claim(succeeded(filled) if filled else z3.BoolVal(False), 'it verifies blocks that are not filled')
            end.claim(z3.And(*(any_of(filled.state, word) for word in (
                proved.last - 3 * 1024 * proved.last_len, proved.last_len))), 'it reads other blocks')

    def judge_write(self, end, write, proved):
        """It writes to its state and to its own memory; to the tag only if all else succeeded; and of what its state
        points to, only to the memory and the kept buffers of the options."""
        names = variables(write.begin)
        if 'hash' in names or 'tag' in names and proved is None:
            end.faults.append('it writes to the hash, or to the tag before it is computed')
        for name in names:
            if found := re.fullmatch(r'call\[(\d+)\](\[\])?', name):
                self.use(int(found[1]), 'buffers' if write.by in KEEPING else 'memory')
        if 'call' in names:
            place, size = z3.simplify(write.begin - end.given['call']), z3.simplify(write.size)
            if z3.is_bv_value(place) and z3.is_bv_value(size):
                self.changed.update(range(place.as_long(), place.as_long() + size.as_long()))
            else:
                end.faults.append('it writes somewhere in its state')

    def use(self, place, name):
        """A word of the state is used as this field of the options: level 3 has to show that it is."""
        if self.used.setdefault(name, place) != place:
            self.faults.append(f'it uses several words as the {name} of the options')

    # ---- functions that are not followed

    def may(self, name, numbers=()):
        """What a function may write to."""
        key = name, frozenset(numbers)
        if key not in self.known:
            self.known[key] = Regions(self.code, name, self.outside, key[1])
        return self.known[key]

    def fill(self, machine, path, call):
        """The words of what `fill` is passed are numbers that depend on the job alone, or addresses."""
        is_no_rehash(machine, path, call)
        words = [machine.load(path, call.filling + WORD * index, WORD) for index in range(MOST_WORDS)]
        call.arguments['state'] = words
        job, = {place.as_long() for word in words if z3.is_bv_value(place := z3.simplify(word - STATE))} or {0}
        of_job = {f'call[{place}]' for place in range(job, job + JOB, WORD)}
        numbers = [WORD * index for index, word in enumerate(words) if variables(word) <= of_job]
        may = self.may('fill', numbers)
        for called, name in may.calls:
            self.use_word(words[int(called[len('filling['):-1]) // WORD], name)
        self.write(machine, path, call, may)

    def use_word(self, word, name):
        found = re.fullmatch(r'call\[(\d+)\]', str(word))
        if not found:
            raise Fault(f'its {name} is not in its state')
        self.use(int(found[1]), name)

    def write(self, machine, path, call, may=None):
        """A function writes anything to what its code may write to."""
        may = may or self.may(call.name)
        if call.name == 'take_buffer' and {name for name, _ in may.result} - {'buffers', ''}:
            raise Fault('take_buffer returns no place of the kept buffers')
        for what, at, size in sorted({(what, -1 if at is None else at, size or 0) for what, at, size, _ in may.writes}):
            name, *words = what.replace(']', '').split('[')
            for begin in leaves(call.arguments[name]):
                self.write_to(machine, path, call, begin, words, at, size)

    @staticmethod
    def write_to(machine, path, call, begin, words, at, size):
        """The same for an object, whose address is in a word at `begin`, or follows some words."""
        if is_null(begin):
            return
        if not words and size and at >= 0 and 'call' in variables(begin):
            machine.put(path, begin + at, machine.fresh('state', 8 * size))
            path.events.append(Write(begin + at, number(size), call.name))
        elif not words:
            path.write(begin, machine.fresh('size'), call.name)
        elif words[0]:
            for word in leaves(machine.load(path, begin + int(words[0]), WORD)):
                Driver.write_to(machine, path, call, word, words[1:], at, size)
        else:
            path.write(z3.BitVec(f'{begin}[]', BITS), machine.fresh('size'), call.name)

    def effect(self, machine, path, call):
        """What level 3 assumes of a call: it changes those bytes of the state, and the tag."""
        call.passed['job'] = machine.load(path, call.call + self.place, JOB)
        call.arguments['used'] = {
            name: machine.load(path, call.call + place, WORD) for name, place in self.used.items()}
        for at in sorted(self.changed):
            machine.put(path, call.call + at, machine.fresh('state', 8))
        length = z3.ZeroExt(HALF, bits(call.passed['job'], 8 * HASH_LENGTH, HALF))
        path.write(call.tag, length, call.name)
        is_no_rehash(machine, path, call)


def is_null(word):
    return z3.is_bv_value(word) and word.as_long() == 0


def leaves(word):
    """The words of which conditions choose one."""
    word = z3.simplify(word)
    if word.decl().kind() != z3.Z3_OP_ITE:
        return [word]
    return [*leaves(word.arg(1)), *leaves(word.arg(2))]
