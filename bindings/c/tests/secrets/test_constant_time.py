"""Asks valgrind's memcheck which branches and addresses of the C library depend on the password, the secret, a hash and
the letters of a hash. It covers the four calls that hash and verify (also within limits, by threads, and in steps over
a memory of the caller, who runs their tasks), password_hash and password_verify, in both proved builds of the one
archive. (valgrind knows no AVX-512. The build for x86-64-v4 differs only in its compression: docs/CLAIMS.md says how
that is shown to branch on its flag alone and to compute no address, except for prefetches.) With Argon2i, no branch or
address may depend on these before there is a tag, a text or a verdict on a hash, except two branches on the letters of
a stored hash. With Argon2d and Argon2id, the addresses used to find, prefetch and read a block that other blocks select
may also depend on them, but no further branch may. Memcheck must report the leaks that are planted in the library
(plant_leak.py) and in its driver; otherwise this test shows nothing. calls.c makes the calls, which cases.py lists.
depends.txt has what each case may report.
"""

import re
import subprocess
from collections import Counter, defaultdict
from itertools import product

import cases as of
import plant_leak
import pytest
from cases import CALLS
from machines import machines
from plant_leak import DRIVER, compiled, library
from running import ENVIRONMENT, ahead
from running import rows as rows_of

SECONDS = 3600
# The builds, each with how many places find or read the block that is referred to, how many find and prefetch it, and
# how many do so while the block before is computed.
READS = dict(zip(machines()['x86_64'].proved, ((10, 2, 1), (9, 2, 1)), strict=True))
PLACES_OF_PAIRS = 4  # in the loop over two lanes and behind it, for each lane
# Memcheck does not see a prefetch. So the function that prefetches reads, as that does which is proved.
EXPECT, READS_A_WORD = '.text.argon2_c::prefetching::proved_argon2_expect', b'\x48\x8b\x07\xc3'
# The function that fills ahead prefetches in the build for x86-64-v4. In the others it reads at the same address, once
# it has filled the block: by its first word, and by the size and columns that it is passed.
READS_AHEAD = """
    push %rdx; push %rcx; push %r8; call original; pop %r8; pop %rcx; pop %rdx
    mov (%rdx), %eax; imul %rax, %rax; shr $32, %rax; imul %rcx, %rax; shr $32, %rax
    mov %r8d, %r9d; shr $32, %r8; cmp %r9, %rax; sbb %r10, %r10; not %r10; and %r10, %r8
    sub %rax, %r8; dec %r8; shl $10, %r8; mov (%rdx, %r8), %rax; ret
"""
FEW = 2  # vectors are enough for a case with a leak
CASES = of.hashes, of.hashed_texts, of.verdicts, of.verdicts_on_texts
EVERY, NEWER = tuple(product(of.VARIANTS, of.VERSIONS)), tuple(product(of.VARIANTS, [19]))
# The cases, with options, and with the variants and versions that one run is asked.
ASKED = [*product(CASES, (of.FRESH, of.CALLER), [EVERY]), *product(CASES, (of.REUSED, of.PROGRESS), [NEWER]),
         *product(CASES, [of.THREADS], [(('argon2d', 16), ('argon2i', 16), ('argon2id', 19))]),
         *product([of.verdicts_on_others], of.OPTIONS, [(('argon2i', 0),)]), (of.verdicts_within, of.FRESH, NEWER),
         (of.passwords, of.FRESH, (('argon2id', 19),))]
# Leaks in the proved code, and lines put behind the driver's line that computes a tag or a verdict; each with a case
# and a variant in which it must be seen.
LEAKS = {
    'branch_on_a_word': (of.hashes, of.FRESH, 'argon2i'),
    'branch_on_a_reference': (of.hashes, of.FRESH, 'argon2id'),
    'table_of_letters': (of.hashed_texts, of.FRESH, 'argon2i'),
    'branch_on_a_letter': (of.verdicts_on_texts, of.FRESH, 'argon2i'),
    'branch_on_a_hash': (of.verdicts, of.FRESH, 'argon2i'),
    'if (tag[0] == 0)': (of.hashes, of.CALLER, 'argon2i'),
    **dict.fromkeys(('if (code == PROVED_ARGON2_OK)', 'if (hash && memcmp(hash, tag, call->job.hash_length) == 0)',
                     'if (hash && memcmp(hash, tag, call->job.hash_length / 2) == 0)',
                     'for (size_t i = 0; hash && i < call->job.hash_length && hash[i] == tag[i]; i++)'),
                    (of.verdicts, of.FRESH, 'argon2i')),
}
# memcheck heads its reports with these words, and each place with how often it was met. It may name a thread between.
BRANCH, ADDRESS = 'Conditional jump or move depends on uninitialised value(s)', 'Use of uninitialised value of size 8'
PLACE = re.compile(r'^==\d+== (\d+) errors in context .*\n(?:==\d+== Thread \d+:\n)?==\d+== (.*)$', re.M)
MEMCHECK = ['valgrind', *'-v --error-limit=no --default-suppressions=no --num-callers=1 --leak-check=no --vgdb=no '
            '--read-inline-info=no --vex-guest-chase=no'.split()]


def planted(leak, folder, objects):
    """Returns the objects with a leak: in both builds, in the driver, or in none."""
    others = {f'proved_argon2_{cpu}.o': folder / f'{cpu}.{leak}.o' for cpu in READS if leak in plant_leak.LEAKS}
    for file, other in others.items():
        plant_leak.main(objects[file], leak, other)
    if leak and not others:
        text, source = (DRIVER / 'proved_argon2_driver.c').read_text(encoding='utf-8'), folder / 'driver.c'
        line = r'^(.*code = compute_over\(.*\n)'
        source.write_text(re.sub(line, rf'\1{leak} proved_driver_overwrite(NULL, 0);\n', text, flags=re.M))
        others['proved_argon2_driver.o'] = compiled(folder / 'driver.o', '-march=x86-64', '-fPIC', '-c', source)
    return {**objects, **others}


def reading(objects, code):
    """Returns the objects, in which a block that is prefetched is read."""
    code.write_bytes(READS_A_WORD)
    for own in (objects[f'proved_argon2_{cpu}.o'] for cpu in READS):
        plant_leak.run('objcopy', '--update-section', f'{EXPECT}={code}', own)
        plant_leak.plant(own, plant_leak.AHEAD, READS_AHEAD, own)
    return objects


@pytest.fixture(scope='module')
def came(request, tmp_path_factory):
    """Yields the result of each row, by calls.c with the row's leak."""
    folder = tmp_path_factory.mktemp('made')
    objects = reading(library(folder / 'objects'), folder / 'reads')
    programs = {leak: compiled(folder / f'calls-{number}', CALLS, *planted(leak, folder, objects).values())
                for number, leak in enumerate((None, *LEAKS))}
    yield from ahead(request, 'row', lambda row: Came(programs[row[1]], row[0], *row[2:], FEW if row[1] else None))


class Came:
    """The result of a case in one run, with all its vectors or a few: whether it is complete and right, which answers
    are wrong, and how often each place was reported. Only a report's innermost function counts, since the library tells
    a debugger nothing of callers."""

    def __init__(self, program, cpu, case, options, kinds, most):
        questions = [one for kind in kinds for asked in of.asked(case, options, *kind)[:most] for one in asked]
        ran = subprocess.run([*MEMCHECK, program], input=b''.join(question.packed() for question in questions),
                             capture_output=True, check=False, env={**ENVIRONMENT, 'PROVED_ARGON2_CPU': cpu},
                             timeout=SECONDS)
        self.log, answers, self.places = ran.stderr.decode(errors='replace'), of.answers(ran.stdout), defaultdict(list)
        for count, kind in PLACE.findall(self.log.partition('ERROR SUMMARY')[2]):
            self.places[kind].append(int(count))
        self.is_ended = ran.returncode == 0 and len(answers) == len(questions) > 0
        self.wrong = [answer[:4] for question, answer in zip(questions, answers)
                      if not question.is_right(answer, *READS[cpu])]
        self.is_right = (self.is_ended and not self.wrong and self.places.keys() <= {BRANCH, ADDRESS}
                         and sum(self.places[BRANCH]) == sum(one.branches for one in questions)
                         and self.has_addresses(questions, *READS[cpu]))

    def has_addresses(self, questions, reads, tells, finds):
        """Returns whether each reference is found and read by addresses at `reads` places, once at each. Where lanes
        are filled two by turns, one of these places is one of PLACES_OF_PAIRS."""
        by_turns = sum(one.by_turns() for one in questions)
        references = sum(one.references() for one in questions)
        numbers = [references] * (reads - 1) + [references - by_turns] \
            + [sum(one.expected() for one in questions)] * tells + [sum(one.ahead() for one in questions)] * finds
        needed, came = Counter(filter(None, numbers)), Counter(self.places[ADDRESS])
        others = [*(came - needed).elements()]
        return not needed - came and sum(others) == by_turns and len(others) <= PLACES_OF_PAIRS

    def shown(self):
        functions = sorted(set(re.findall(r'^==\d+==    at 0x[0-9A-F]+: (\S+) ', self.log, re.M)))
        return '\n'.join([*functions, *map(str, self.wrong[:5]), str(dict(self.places))])


def named(row):
    cpu, leak, case, options, _ = row
    return '-'.join(map(str, (cpu, *filter(None, [leak]), case.__name__, options)))


@pytest.mark.parametrize('row', [(cpu, None, *how) for cpu in READS for how in ASKED], ids=named)
def test_nothing_else_depends_on_secrets(came, row):
    assert came(row).is_right, came(row).shown()


@pytest.mark.parametrize('row', [(cpu, leak, case, options, ((variant, 19),)) for cpu in READS
                                 for leak, (case, options, variant) in LEAKS.items()], ids=named)
def test_each_leak_is_seen(came, row):
    """Memcheck reports a branch or an address, and nothing of another kind."""
    found = came(row)
    kinds = {kind for kind, counts in found.places.items() if counts}
    assert not found.is_right and found.is_ended and set() < kinds <= {BRANCH, ADDRESS}, found.shown()


def test_all_is_asked():
    """Each build is tested with enough vectors, and each case of depends.txt with the variants that CALL names there. A
    case may report what WORDS says."""
    assert [*READS] == machines()['x86_64'].proved
    asked = {}
    for case, options, kinds in ASKED:
        for variant, version in kinds:
            vectors = of.asked(case, options, variant, version)
            assert len(vectors) > 18 or vectors and (case == of.passwords or options == of.THREADS)
            asked[case.__name__, variant] = vectors[0]
    rows = [((case, re.match(r'Argon2(?:id|i|d)\b', call)[0].lower()), words)
            for cases, call, words in rows_of(CALLS.parent / 'depends.txt') for case in cases.split()]
    assert sorted(row for row, _ in rows) == sorted(asked)
    for row, words in rows:
        branches, references = (any(numbers) for numbers in zip(*((one.branches, one.references())
                                                                  for one in asked[row])))
        assert references == words.startswith(('also the addresses', 'the same'))
        assert references or branches == words.startswith('two branches: ')
