"""The recommended settings (RFC 9106, section 4, and OWASP's Password Storage Cheat Sheet), the default limits of
docs/USE.md, and the version: exports that are passed nothing, and return the same each time."""

from byte_strings import Strings, word
from headers import NUMBERS, PLACES, SIZES
from symbolic import number

MIB, GIB = 1 << 10, 1 << 20  # (in KiB)
# The memory in KiB and the passes of each.
RECOMMENDED = {'owasp1': (46 * MIB, 1), 'owasp2': (19 * MIB, 2), 'owasp3': (12 * MIB, 3), 'owasp4': (9 * MIB, 4),
               'owasp5': (7 * MIB, 5), 'rfc9106': (2 * GIB, 1), 'rfc9106_low_mem': (64 * MIB, 3)}
ID, NEWEST, LANES, TAG = 2, 0x13, 1, 32
RESULT = word('result')


def structure(name, **fields):
    """The statement about an export that returns a structure: where it is told to, with these fields."""
    def proved(code, begin):
        prover = Strings(code, {})
        path = prover.begin([RESULT])
        prover.region(RESULT, SIZES[name], (0, SIZES[name]))

        def result(path):
            prover.claim(path, path.returned() == RESULT, 'it returns another place')
            for field, wanted in fields.items():
                width = 64 if field == 'work' else 32
                found = prover.loaded(path, prover.place(RESULT + PLACES[name][field]), width // 8)
                prover.claim(path, found == number(wanted, width), f'its {field} is another number')
        prover.prove(begin, path, result)
        return prover
    assert {*fields} == {*PLACES[name]}
    return proved


def library_version(code, begin):
    """It returns the version that the header names."""
    prover = Strings(code, {})
    prover.prove(begin, prover.begin([]), lambda path: prover.claim(
        path, path.returned(0, 32) == NUMBERS['LIBRARY_VERSION_NUMBER'], 'it returns another version'))
    return prover


STATEMENTS = {name: structure('proved_argon2_settings', variant=ID, version=NEWEST, mem_cost=memory, time_cost=passes,
                              lanes=LANES, hash_length=TAG) for name, (memory, passes) in RECOMMENDED.items()}
STATEMENTS |= {'library_version': library_version, 'default_limits': structure(
    'proved_argon2_limits', mem_cost=2 * GIB, time_cost=10, lanes=16, work=4 * GIB)}
