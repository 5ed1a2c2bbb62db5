"""The exported calls over byte strings and jobs: each passes its arguments to one function of the library, clears the
stack below, and returns the number of what that function returned, as the public header names it."""

import z3
from byte_strings import BYTE, Strings, word
from headers import CODES
from proving import low
from settings import KINDS, RESULT_SIZE
from symbolic import number

# A string that is null, and so empty, is passed as one at this address.
EMPTY = 1 << 12
FAILURES = [(number(CODES[kind], 32), number(1 + (value << BYTE), 24)) for kind, value in KINDS.items()]
ERROR = word('error of the table', BYTE)
OF_TABLE = z3.ZeroExt(24, ERROR) + 1, z3.Concat(ERROR, number(1, 16))
# What a call returns for each result: of one that compares, a true comparison is 1 in the second byte.
OK = number(CODES['OK'], 32)
RETURNS = [(OK, number(0, 24))]
COMPARES = [(number(CODES['MISMATCH'], 32), number(0, 24)), (OK, number(1 << BYTE, 24))]


def passes_on(kinds, found):
    """The contract of the function that is called: all arguments are passed behind the place of the result. Each is of
    a kind: a structure (p), a string (s), its length (l), or a number of 32 bits (n)."""
    def contract(prover, path):
        prover.claim(path, path.ghosts['called'] == 0, 'it calls twice')
        for index, kind in enumerate(kinds):
            given, wanted = path.given(1 + index), word(f'argument {index}')
            given, wanted = (low(given), low(wanted)) if kind == 'n' else (given, wanted)
            wanted = z3.If(wanted == 0, EMPTY, wanted) if kind == 's' else wanted
            prover.claim(path, given == wanted, f'it passes another argument {index}')
        prover.write(path, prover.own(path, path.given(0), RESULT_SIZE, 'the result'), found)
        path.ghosts['called'] = number(1)
    return contract


def cleared(prover, path):
    """The contract of wipe_stack."""
    path.ghosts['cleared'] = number(1)


def call(function, kinds, outcomes):
    """The statement about an export, for each outcome."""
    def proved(code, begin):
        for returned, found in [*outcomes, *FAILURES, OF_TABLE]:
            prover = Strings(code, {function: passes_on(kinds, found), 'wipe_stack': cleared})
            path = prover.begin([word(f'argument {index}') for index in range(len(kinds))],
                                {'called': number(0), 'cleared': number(0)}, [z3.ULT(ERROR, CODES['MISMATCH'])])

            def result(path, wanted=returned):
                prover.claim(path, path.returned(0, 32) == wanted, 'it returns another number')
                prover.claim(path, z3.And(path.ghosts['called'] == 1, path.ghosts['cleared'] == 1),
                             'it does not clear the stack')
            prover.prove(begin, path, result)
        return prover
    return proved


STATEMENTS = {
    'job_make': call('jobs::make', 'slslslslpp', RETURNS), 'job_begin': call('steps::begin', 'pnsl', RETURNS),
    'job_finish': call('steps::finish', 'pslsl', RETURNS), 'job_verify': call('steps::verify', 'pslslsl', COMPARES),
    'job_fill': call('steps::fill', 'pnnnslslslsl', RETURNS),
    'job_read': call('jobs::make_stored', 'slslslslpslsl', RETURNS),
    'job_hash_over': call('caller_blocks::hash_job', 'pslsl', RETURNS),
    'job_verify_over': call('caller_blocks::verify_job', 'pslslsl', COMPARES),
    'hash_over': call('caller_blocks::hash', 'slslslslpslsl', RETURNS),
    'verify_over': call('caller_blocks::verify', 'slslslslpslslsl', COMPARES)}
