#!/usr/bin/python3
"""The statements about functions of the library's archive for x86-64, and the table of its functions (covered.txt).
Those about segments are proved for x86-64-v4; x86-64-v3 has the same text of these functions. The others are proved in
each build, except for the two that take minutes.

    python3 machine_code/statements.py             proves all statements, and prints the table
    python3 machine_code/statements.py NAME ..     proves those about some functions
"""

import re
import sys
from collections import defaultdict
from pathlib import Path

sys.path.insert(0, str(Path(__file__).resolve().parents[1] / '.ci'))
from shared import TOP  # noqa: E402

import blake2b  # noqa: E402
import calls  # noqa: E402
import clearing  # noqa: E402
import comparison  # noqa: E402
import first_blocks  # noqa: E402
import independent  # noqa: E402
import order  # noqa: E402
import pairs  # noqa: E402
import prehash  # noqa: E402
import presets  # noqa: E402
import segments  # noqa: E402
import settings  # noqa: E402
import steps  # noqa: E402
import tag  # noqa: E402
import variable_length_hash  # noqa: E402
from linked import CHOSEN, CHOSEN_BUILDS, Code  # noqa: E402
from proving import names_of  # noqa: E402
from terms import Fault  # noqa: E402

ARCHIVE = Path(CHOSEN or TOP / 'release/x86_64/libproved_argon2.a')
BUILDS = CHOSEN_BUILDS or ['x86-64-v2', 'x86-64-v3', 'x86-64-v4']
TABLE = Path(__file__).with_name('covered.txt')
# What is proved of a function, by the end of its name; and for which slices and passes.
STATEMENTS = {
    'positions::pick': (segments.prove_pick, segments.CASES),
    'filling::fill_dependent': (segments.prove_dependent, ((0, True),)),
    'filling::fill_caller_segment': (segments.prove_segment, segments.CASES),
    'positions::reference_positions': (independent.prove_references, segments.CASES),
    'filling::write_blocks': (independent.prove_written, ((0, True),)),
    'pairs::expected_reference': (pairs.prove_expected, ((0, True), (1, True), (1, False), (2, True))),
    'pairs::fill_caller_pair': (pairs.prove_segments, segments.CASES)}
# The statements about byte strings, settings and whole calls: by a function's name, what proves it, and the file.
MODULES = (blake2b, calls, clearing, comparison, first_blocks, order, prehash, presets, settings, steps, tag,
           variable_length_hash)
OF_BYTES = {name: (prove, f'{module.__name__}.py') for module in MODULES for name, prove in module.STATEMENTS.items()}
SLOW = 'blake2b', 'are_equal'  # (minutes, so in one build)
# Functions of which test_machine_code.py shows that they are G, F or prefetches.
CHECKED = ('kernel::fill_words', 'prefetching::proved_argon2_fill_ahead', 'prefetching::proved_argon2_expect',
           'blake2b::compress_f')
# Functions of which nothing is proved here, and why.
NOT_COVERED = {
    'kernel::first_sum': 'the word by which a fill ahead prefetches',
    **dict.fromkeys(('blake2b::wipe', 'variable_length::wipe_frames', 'stack_wiping::wipe_stack'),
                    'it only clears memory'),
    'pairs::fill_dependent_pair': 'no statement yet: blocks of two lanes by turns',
    **dict.fromkeys(('jobs::make_stored', 'encoded_hash::head_of', 'letters::is_item', 'letters::three_bytes',
                     'salt_and_hash::read_item', 'salt_and_hash::put_hash', 'placing::put_number'),
                    'no statement yet: the text'),
    'proved_x86_64_v': 'no statement yet: exported calls that read or write the text'}
DRIVER = 'written in C: see test_verdict.py'


def is_about(statement, name):
    """Whether a statement about bytes is about a function. Exports' names begin with those of their builds."""
    return re.fullmatch(rf'(?:.*::|.*_v\d_)?{re.escape(statement)}(?:,.*|::<.*)?', name)


def what_covers(name):
    """What is known of a function, by its name; or None."""
    ends = names_of(name)
    if found := next((one for one in OF_BYTES if is_about(one, name)), None):
        return f'proved: {OF_BYTES[found][1]}'
    if ends[0].startswith('proved_x86_64_v'):
        ends = ['proved_x86_64_v']
    elif len(ends) == 1:
        return DRIVER
    for end in ends:
        if end in STATEMENTS:
            statement, cases = STATEMENTS[end]
            return f'proved for {len(cases)} of {len(segments.CASES)} slices and passes: {statement.__module__}.py'
        if end in CHECKED:
            return 'checked: test_machine_code.py'
        if end in NOT_COVERED:
            return f'not covered: {NOT_COVERED[end]}'
    return None


def table(code):
    """The table of all functions."""
    rows, missing = defaultdict(set), []
    for name in code.names.values():
        what, row = what_covers(name), re.sub('^proved_x86_64_v[234]_', 'proved_BUILD_', names_of(name)[0])
        rows[row].add(what)
        missing += [name] * (what is None)
    if missing:
        raise Fault(f'nobody has a statement for {", ".join(missing)}')
    return ''.join(f'{name} | {"; for other types: ".join(sorted(known, reverse=True))}\n'
                   for name, known in sorted(rows.items()))


def text_of(code, begin):
    """The instructions of a function, with the functions that it calls by name, other addresses from its first one on,
    and the constants that it reads: the same text does the same."""
    end = max(code.bodies[begin])

    def target(found):
        at = int(found[0], 16)
        return code.names.get(at, f'+{at - begin:#x}' if begin <= at <= end else found[0])
    lines = []
    for at, (text, size) in sorted(code.bodies[begin].items()):
        if found := re.search(r'\[rip([+-]0x[0-9a-f]+)\]', text):
            place = code.place(at + size + int(found[1], 16))
            text = text.replace(found[0], code.content[place:place + 64].hex())
        lines.append(re.sub(r'0x4[0-9a-f]{5}\b', target, text))
    return '\n'.join(lines)


def begins(code, end):
    """Where a function begins in each build."""
    return sorted(begin for begin, name in code.names.items() if end in names_of(name))


def begin_of(code, statement, build):
    """Where the function of a statement about bytes begins in a build."""
    found = sorted(begin for begin, name in code.names.items() if is_about(statement, name))
    if len(found) != len(BUILDS):
        raise Fault(f'{statement} is there {len(found)} times')
    return found[BUILDS.index(build)]


def prove_bytes(code, build, statement):
    """Proves a statement about bytes for a function of a build."""
    return OF_BYTES[statement][0](code, begin_of(code, statement, build))


def prove(code, build, end, *case):
    """Proves a statement about a function of a build, for a slice and whether the pass is the first."""
    return STATEMENTS[end][0](code, BUILDS.index(build), *case)


if __name__ == '__main__':
    archive = Code(ARCHIVE)
    for name in sys.argv[1:] or [*STATEMENTS, *OF_BYTES]:
        if name in OF_BYTES:
            proof = prove_bytes(archive, BUILDS[-1], name)
            print(f'{name}: {proof.claims} claims, {proof.asked} questions', flush=True)
        for case in STATEMENTS[name][1] if name in STATEMENTS else ():
            proof = prove(archive, BUILDS[-1], name, *case)
            print(f'{name} {case}: {proof.claims} claims, {proof.asked} questions', flush=True)
    if not sys.argv[1:]:
        print(table(archive), end='')
