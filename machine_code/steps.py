"""The calls that compute a tag and compare it: each reports the first error of its arguments, and otherwise computes
the tag of its job once, where it was told to, and returns what the comparison says of that tag and of the stored
hash."""

import z3
from byte_strings import BYTE, Strings, word
from prehash import context, makes_context, values_of_call
from proving import low, wide
from settings import (FIELDS, JOB, JOB_SIZE, NUMBERS, RESULT_SIZE, assume_job, blocks_of_slice, first, first_result,
                      in_both_cases, is_job, job_values, kept, makes_job, numbers_of, table)
from symbolic import number

RESULT, NUMBERS_AT, BLOCKS, COUNT, HASH, TAG = (
    word(name) for name in ('result', 'job', 'blocks', 'count', 'hash', 'tag'))
HASH_LENGTH, TAG_LENGTH, EQUAL = word('length of hash'), word('length of tag'), word('equal', 8)


def hashed(fields, arguments):
    """The contract of what computes the tag of a job over blocks: `arguments` has the index of its argument that is the
    job, and what others are."""
    def contract(prover, path):
        at, others = arguments
        for name, value in fields.items():
            found = prover.string(path, path.given(at) + JOB[name], value.size() // BYTE, 'the job')
            prover.claim(path, found == value, f'it hashes with another {name}')
        prover.claim(path, z3.And(*(path.given(index) == wanted for index, wanted in others.items())),
                     'it hashes other blocks, or to another place')
        prover.claim(path, path.ghosts['made'] == 0, 'it hashes twice')
        path.ghosts['made'] = number(1)
    return contract


def compared(prover, path):
    """The contract of are_equal: of the hash and the tag, which are equally long."""
    one, length, other = (path.given(index) for index in range(3))
    prover.claim(path, z3.And(one == HASH, other == TAG, length == HASH_LENGTH, length == TAG_LENGTH),
                 'it compares others')
    prover.claim(path, path.ghosts['made'] == 1, 'it compares too early or twice')
    path.ghosts['made'] = number(2)
    path.conditions.append(z3.ULE(EQUAL, 1))
    return [z3.Concat(prover.fresh('above', 56), EQUAL)]


SLICE = {'finalize_slice': (0, {1: BLOCKS, 2: TAG, 3: TAG_LENGTH})}
MEMORY = {'hash_job_over': (1, {2: BLOCKS, 3: COUNT, 4: TAG, 5: TAG_LENGTH})}


def statement(makers, has_hash, blocks):
    """The statement about a call that is passed a job, blocks, a hash if it compares, and the place of a tag. `blocks`
    is how many blocks there have to be."""
    @in_both_cases
    def proved(code, begin, is_accepted):
        values = job_values()
        prover = Strings(code, {'CallerJob::job': makes_job(values, is_accepted), 'are_equal': compared, **{
            name: hashed(kept(values), arguments) for name, arguments in makers.items()}})
        strings = [HASH, HASH_LENGTH] * has_hash + [TAG, TAG_LENGTH]
        path = prover.begin([RESULT, NUMBERS_AT, BLOCKS, COUNT, *strings], {'made': number(0)})
        assume_job(prover, path, values, is_accepted)
        prover.structure(path, NUMBERS_AT, JOB_SIZE, {**NUMBERS, 'H0': 0}, values)
        prover.region(RESULT, RESULT_SIZE, (0, RESULT_SIZE))
        lengths = [length == wide(values['tag']) for length in strings[1::2]]
        errors = [(z3.Not(is_job(prover, values)), 'NO_JOB'), (COUNT != blocks(prover, values), 'WRONG_BLOCKS'),
                  (z3.Not(z3.And(*lengths)), 'WRONG_LENGTH')]
        wanted = first_result(errors, z3.Concat(number(0, 8), EQUAL if has_hash else number(0, 8), number(0, 8)))

        def result(path):
            found = prover.loaded(path, prover.place(RESULT), RESULT_SIZE)
            prover.claim(path, found == wanted, 'it returns another result')
            is_wrong = z3.Or(*(is_wrong for is_wrong, _ in errors))
            prover.claim(path, path.ghosts['made'] == z3.If(is_wrong, number(0), number(1 + has_hash)),
                         'it computes something although it fails, or does not compute the tag')
        prover.prove(begin, path, result)
        return prover
    return proved


def blocks_of_memory(prover, values):
    """All four slices, in 32 bits: they are fewer than 2^32 (`is_job`)."""
    return wide(low(4 * blocks_of_slice(prover, values)))


def whole(has_hash):
    """The statement about a call that makes H0 itself: it is passed the inputs, the settings and blocks, and what a
    call with a job is passed. The length of a stored hash stands for the one in the settings."""
    def proved(code, begin):
        numbers, values = numbers_of(FIELDS), values_of_call()
        tag = HASH_LENGTH if has_hash else wide(numbers['tag'])
        values |= {name: numbers[name] for name in ('lanes', 'memory', 'passes')} | {
            'tag': low(tag), 'variant': z3.Extract(7, 0, numbers['variant']),
            'version': z3.If(numbers['version'] == 0x10, number(0, 8), number(1, 8))}
        prover = Strings(code, {'accepted_context': makes_context(values), 'are_equal': compared})
        made = context(prover, values)
        fields = {name: made[name] for name in ('H0', 'lanes', 'segment', 'passes', 'variant', 'version')}
        prover.contracts['hash_job_over'] = hashed({**fields, 'place': number(0)}, MEMORY['hash_job_over'])
        inputs = [values[name] for item in ITEMS for name in (item, f'length of {item}')]
        path = prover.begin([RESULT, *inputs, word('settings'), BLOCKS, COUNT, *[HASH, HASH_LENGTH] * has_hash, TAG,
                             TAG_LENGTH], {'made': number(0)})
        prover.structure(path, word('settings'), 24, FIELDS, numbers)
        prover.region(RESULT, RESULT_SIZE, (0, RESULT_SIZE))
        refusal = first(table(numbers, *(values[f'length of {item}'] for item in ITEMS), tag))
        wanted = first_result([(COUNT != wide(made['blocks']), 'WRONG_BLOCKS'), (TAG_LENGTH != tag, 'WRONG_LENGTH')],
                              z3.Concat(number(0, 8), EQUAL if has_hash else number(0, 8), number(0, 8)))
        wanted = z3.If(refusal == 0, wanted, z3.Concat(z3.Extract(7, 0, refusal) - 1, number(1, 16)))

        def result(path):
            found = prover.loaded(path, prover.place(RESULT), RESULT_SIZE)
            prover.claim(path, found == wanted, 'it returns another result')
            prover.claim(path, path.ghosts['made'] == z3.If(z3.Extract(7, 0, wanted) == 1, number(0),
                         number(1 + has_hash)), 'it computes something although it fails, or does not compute the tag')
        prover.prove(begin, path, result)
        return prover
    return proved


ITEMS = 'password', 'salt', 'secret', 'data'
STATEMENTS = {'steps::verify': statement(SLICE, True, blocks_of_slice), 'steps::finish': statement(SLICE, False,
              blocks_of_slice), 'caller_blocks::verify_job': statement(MEMORY, True, blocks_of_memory),
              'caller_blocks::hash_job': statement(MEMORY, False, blocks_of_memory),
              'caller_blocks::hash': whole(False), 'caller_blocks::verify': whole(True)}
