"""The table of settings (RFC 9106, 3.1): which error a call reports first, for all numbers and all lengths; and which
numbers are those of a job."""

import prehash
import z3
from byte_strings import Strings, joined, word
from headers import CODES
from prehash import MOST_LANES
from proving import wide
from symbolic import number

LONGEST, MOST_BLOCKS = (1 << 32) - 1, (1 << 30) - 1  # (bytes of an input, and blocks of a slice)
HALF = 32
# The fields of the structure that C passes (proved_argon2_settings), and of a job, by their places.
FIELDS = {'variant': 0, 'version': 4, 'memory': 8, 'passes': 12, 'lanes': 16, 'tag': 20}
NUMBERS = {'variant': 0x40, 'version': 0x44, 'lanes': 0x48, 'segment': 0x4c, 'passes': 0x50, 'tag': 0x54}
JOB_SIZE = 0x58


def table(numbers, password, salt, secret, data, tag):
    """What is refused, and as what: the first refusal counts. Lengths are words of 64 bits."""
    numbers = {name: wide(value) for name, value in numbers.items()}
    return [
        (z3.UGT(numbers['variant'], 2), 'INCORRECT_TYPE'),
        (z3.And(numbers['version'] != 0x10, numbers['version'] != 0x13), 'INCORRECT_VERSION'),
        (numbers['lanes'] == 0, 'LANES_TOO_FEW'),
        (z3.UGT(numbers['lanes'], MOST_LANES), 'LANES_TOO_MANY'),
        (z3.ULT(numbers['memory'], 8 * numbers['lanes']), 'MEMORY_TOO_LITTLE'),
        (numbers['passes'] == 0, 'TIME_TOO_SMALL'),
        (z3.UGT(password, LONGEST), 'PWD_TOO_LONG'),
        (z3.ULT(salt, 8), 'SALT_TOO_SHORT'),
        (z3.UGT(salt, LONGEST), 'SALT_TOO_LONG'),
        (z3.UGT(secret, LONGEST), 'SECRET_TOO_LONG'),
        (z3.UGT(data, LONGEST), 'AD_TOO_LONG'),
        (z3.ULT(tag, 4), 'OUTPUT_TOO_SHORT'),
        (z3.UGT(tag, LONGEST), 'OUTPUT_TOO_LONG')]


def first(refusals):
    """The number of the first refusal, or 0."""
    found = number(CODES['OK'], HALF)
    for is_refused, name in reversed(refusals):
        found = z3.If(is_refused, number(CODES[name], HALF), found)
    return found


def numbers_of(fields):
    return {name: word(name, HALF) for name in fields}


def begin_with(prover, fields, size, *others):
    """A path that begins a function, which is passed a structure of numbers first; and these numbers."""
    begin, numbers = word('structure'), numbers_of(fields)
    path = prover.begin([begin, *others])
    prover.structure(path, begin, size, fields, numbers)
    return path, numbers


def check(code, begin):
    """proved_argon2_check(settings, lengths of the password, the salt, the secret and the data): the first refusal."""
    prover = Strings(code, {})
    lengths = [word(f'length of {name}') for name in ('password', 'salt', 'secret', 'data')]
    path, numbers = begin_with(prover, FIELDS, 24, *lengths)
    wanted = first(table(numbers, *lengths, wide(numbers['tag'])))
    prover.prove(begin, path, lambda path: prover.claim(
        path, path.returned(0, HALF) == wanted, 'it reports another error'))
    return prover


def memory_len(code, begin):
    """proved_argon2_memory_len(settings): 1024 times the largest multiple of 4 lanes that is at most the memory (3.1,
    m'); or 0 if the settings are refused for all inputs."""
    prover = Strings(code, {})
    path, numbers = begin_with(prover, FIELDS, 24)
    memory, four = numbers['memory'], z3.simplify(4 * numbers['lanes'])
    rest = prover.run.unknown('remainder', memory, four)
    path.conditions += [z3.Implies(four != 0, z3.ULT(rest, four)), z3.ULE(rest, memory)]  # (what a remainder is)
    is_accepted = first(table(numbers, *(number(length) for length in (0, 8, 0, 0)), wide(numbers['tag']))) == 0
    wanted = z3.If(is_accepted, wide(memory - rest) << 10, number(0))
    prover.prove(begin, path, lambda path: prover.claim(
        path, path.returned() == wanted, 'it returns another length'))
    return prover


def blocks_of_slice(prover, numbers):
    """How many blocks a slice has, in 64 bits: all lanes' segments."""
    return prover.wide_product(wide(numbers['lanes']), wide(numbers['segment']))


def is_job(prover, numbers):
    """Whether an accepted call has a job of these numbers."""
    wides = {name: wide(value) for name, value in numbers.items()}
    return z3.And(z3.ULE(numbers['variant'], 2), z3.Or(numbers['version'] == 0x10, numbers['version'] == 0x13),
                  numbers['lanes'] != 0, z3.ULE(wides['lanes'], MOST_LANES), z3.ULE(2, numbers['segment']),
                  z3.ULE(blocks_of_slice(prover, numbers), MOST_BLOCKS), numbers['passes'] != 0,
                  z3.ULE(4, numbers['tag']))


# A job as the library keeps it, behind the two words of a result: its fields, by their places.
JOB = {'H0': 0, 'variant': 0x40, 'version': 0x41, 'rest': 0x42, 'lanes': 0x44, 'segment': 0x48, 'passes': 0x4c,
       'place': 0x50}
JOB_AT, KEPT_SIZE = 4, 0x58
# What a call returns of the library: whether it failed, of which kind the error is, and its number, if it is of the
# table.
RESULT_SIZE, LIBRARY, KINDS = 3, 0, {name: 1 + index for index, name in enumerate((
    'MISMATCH', 'WRONG_LENGTH', 'NOT_ASCII', 'UNKNOWN_NUMBER', 'NEEDS_REHASH', 'TOO_COSTLY', 'NO_JOB', 'NO_PLACE',
    'WRONG_BLOCKS'))}


def first_result(errors, otherwise):
    """A result of the first of these errors that is there, or else another one."""
    found = otherwise
    for is_wrong, kind in reversed(errors):
        found = z3.If(is_wrong, number(1 + (KINDS[kind] << 8), 8 * RESULT_SIZE), found)
    return found


def job_values():
    return {**numbers_of(NUMBERS), 'H0': word('H0', 512)}


def kept(values):
    """The fields of a job at its first slice."""
    is_first = values['version'] == 0x10
    return {**{name: values[name] for name in ('H0', 'lanes', 'segment', 'passes')}, 'place': number(0),
            'variant': z3.Extract(7, 0, values['variant']), 'version': z3.If(is_first, number(0, 8), number(1, 8))}


def job(code, begin):
    """CallerJob::job(result, job): the library's job of these numbers, or NoJob."""
    prover, values = Strings(code, {}), job_values()
    path = prover.begin([word('result'), word('job')])
    prover.structure(path, word('job'), JOB_SIZE, {**NUMBERS, 'H0': 0}, values)
    prover.region(word('result'), JOB_AT + KEPT_SIZE, (0, JOB_AT + KEPT_SIZE))
    wanted = is_job(prover, values)

    def result(path):
        def at(place, size):
            return prover.loaded(path, prover.place(word('result') + place), size)
        prover.claim(path, at(0, RESULT_SIZE) == first_result([(z3.Not(wanted), 'NO_JOB')], number(0, 24)),
                     'it says something else of the numbers')
        for name, value in kept(values).items():
            found = at(JOB_AT + JOB[name], value.size() // 8)
            prover.claim(path, z3.Implies(wanted, found == value), f'the {name} of the job is wrong')
    prover.prove(begin, path, result)
    return prover


def makes_job(values, is_accepted):
    """The contract of CallerJob::job for these numbers, which are those of a job or not."""
    def contract(prover, path):
        prover.claim(path, path.given(1) == word('job'), 'it looks at another job')
        fields, ends = kept(values) if is_accepted else {}, [*JOB.values()][1:] + [KEPT_SIZE]
        parts = [fields[name] if name in fields else prover.fresh(name, 8 * (end - at))
                 for (name, at), end in zip(JOB.items(), ends)]
        said = number(0 if is_accepted else 1 + (KINDS['NO_JOB'] << 8), 8 * RESULT_SIZE)
        prover.write(path, prover.own(path, path.given(0), JOB_AT + KEPT_SIZE, 'the job'), joined(
            said, prover.fresh('between', 8 * (JOB_AT - RESULT_SIZE)), *parts))
    return contract


def in_both_cases(prove):
    """A statement that is proved for numbers of a job, and for others."""
    def proved(code, begin):
        provers = [prove(code, begin, is_accepted) for is_accepted in (True, False)]
        return provers[0]
    return proved


def assume_job(prover, path, values, is_accepted):
    path.conditions.append(is_job(prover, values) if is_accepted else z3.Not(is_job(prover, values)))


@in_both_cases
def job_check(code, begin, is_accepted):
    """proved_argon2_job_check(job): 0 for the numbers of a job."""
    values = job_values()
    prover = Strings(code, {'CallerJob::job': makes_job(values, is_accepted)})
    path = prover.begin([word('job')])
    assume_job(prover, path, values, is_accepted)
    prover.structure(path, word('job'), JOB_SIZE, {**NUMBERS, 'H0': 0}, values)
    wanted = z3.If(is_job(prover, values), number(CODES['OK'], HALF), number(CODES['NO_JOB'], HALF))
    prover.prove(begin, path, lambda path: prover.claim(
        path, path.returned(0, HALF) == wanted, 'it says something else of a job'))
    return prover


def claim_result(prover, path, code):
    """A result of the library says this error of the table, which is numbered from 1, or that there is none."""
    found = prover.loaded(path, prover.place(word('result')), RESULT_SIZE)
    is_error, kind, error = (z3.Extract(8 * at + 7, 8 * at, found) for at in range(RESULT_SIZE))
    prover.claim(path, is_error == z3.If(code == 0, number(0, 8), number(1, 8)), 'it fails in other cases')
    prover.claim(path, kind == LIBRARY, 'its error is of another kind')
    prover.claim(path, z3.Implies(code != 0, wide(error) + 1 == wide(code)), 'it returns another error')


def make(code, begin):
    """jobs::make(result, password, its length, salt, its length, secret, its length, data, its length, settings, job):
    the first refusal, or the job of these inputs."""
    values = prehash.values_of_call()
    numbers = numbers_of(FIELDS)
    values |= {name: numbers[name] for name in ('lanes', 'memory', 'passes', 'tag')}
    values |= {'variant': z3.Extract(7, 0, numbers['variant']),
               'version': z3.If(numbers['version'] == 0x10, number(0, 8), number(1, 8))}
    prover = Strings(code, {'accepted_context': prehash.makes_context(values)})
    inputs = [values[name] for item in ('password', 'salt', 'secret', 'data') for name in (item, f'length of {item}')]
    path = prover.begin([word('result'), *inputs, word('settings'), word('job')])
    prover.structure(path, word('settings'), 24, FIELDS, numbers)
    prover.region(word('result'), RESULT_SIZE, (0, RESULT_SIZE))
    prover.region(word('job'), JOB_SIZE, (0, JOB_SIZE))
    lengths = [values[f'length of {name}'] for name in ('password', 'salt', 'secret', 'data')]
    refusal = first(table(numbers, *lengths, wide(numbers['tag'])))
    made = prehash.context(prover, values)
    wanted = {**NUMBERS, 'H0': 0}, {**numbers, 'segment': made['segment'], 'H0': values['H0']}

    def result(path):
        claim_result(prover, path, refusal)
        if not prover.knows(path, refusal == 0):
            prover.claim(path, refusal != 0, 'it is not known whether it fails')
            prover.claim_unchanged(path, word('job'), 'it changes the job of a refused call')
            return
        for name, at in wanted[0].items():
            value = wanted[1][name]
            found = prover.loaded(path, prover.place(word('job') + at), value.size() // 8)
            prover.claim(path, found == value, f'the {name} of the job is wrong')
    prover.prove(begin, path, result)
    return prover


STATEMENTS = {'make': make, 'check': check, 'memory_len': memory_len, 'CallerJob::job': job, 'job_check': job_check}
