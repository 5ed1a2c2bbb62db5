"""Leaves out each wipe alone in the machine code, while nothing after it clears the stack, and checks that the missing
wipe is detected.

A wipe is a call of `wipe` in a program: calls.c with each build of the library for C, and programs in Rattle that make
the library's calls. With search.c preloaded a program stops at each return of its functions. The absence of a wipe
is noticed if more pieces are found without it: below the stack pointer, in callers' frames or freed memory, or at the
end. All calls of `wipe_stack` are left out during this. They are then tested in the same way; tests/clearing.c tests
the driver's calls that clear. wipes.txt lists for how many calls of each function this is noticed.
"""

import os
import re
import struct
import subprocess
import tempfile
from collections import Counter, defaultdict, namedtuple
from concurrent.futures import ThreadPoolExecutor
from contextlib import contextmanager
from functools import cache
from itertools import product
from typing import NamedTuple

import cases as of
import patience
import pytest
import rfc9106
from cases import CALLS
from machines import machines
from plant_leak import FACE, compiled, library, run
from running import TOP, build_preloaded
from running import rows as rows_of
from toolchain import is_current

BUILDS = machines()['x86_64'].proved
# These are numbers of search.c: bytes of a piece, most pieces, and most places.
PIECE, PIECES, PLACES = 16, 512, 1024
# The calls, jumps and returns in machine code: the place, and the function that they lead to, without its types.
BRANCH = re.compile(r'^ +([0-9a-f]+):\t(call|jmp|ret)(?:[^<\n]*<([^+\n]*?)(?:::<[^+\n]*)?>$)?', re.M)
# These functions overwrite; the next compute over a memory; and the last end a call that has its own memory.
OVERWRITING = ('argon2_blocks::blake2b::wipe', 'argon2_fill::stack_wiping::wipe_stack', 'proved_driver_overwrite',
               'clear_stack')
COMPUTING, ENDING = r'argon2::(hashing|verifying)::(texts::)?\w+_in(_sequential)?', 'argon2::ending::release'
# A function that must leave nothing when it returns: if it leaves something for some lanes, no other check sees it.
CLEAN = 'argon2_fill::fill::write_first_block'
# Calls are passed or write the first two, which may be anywhere. They may leave all on the stack if nothing clears it.
OF_CALLER = ('the tag', 'the password')
MAY_BE_LEFT = ('H0', *OF_CALLER)
# TRIES: how often a program with threads is run, since a worker that takes no lane leaves nothing, and hides what
# others left. LOOKS: how often all is repeated if a count differs, since some pieces stay in memory only by chance.
TRIES, LOOKS = 9, 6
# tests/clearing.c is linked with these. Since names are bound late, the loader leaves registers on the stack, and only
# the driver clears them.
WRAPPED = {'getrandom', *re.findall(r'__wrap_(\w+)', (FACE / 'tests/system.h').read_text(encoding='utf-8'))}
LINKED = (FACE / 'tests/clearing.c', *(f'-Wl,--wrap={name}' for name in WRAPPED), '-Wl,-z,lazy', '-largon2')
# OURS has a password that fills the last block of H0's input, and a salt of nine bytes. LONG has a password longer
# than those of other tests, since a call could end differently for it.
OURS = of.Vector(rfc9106.ID, 19, 2, 64, 4, 32, (b'the-password-that-is-sought,-' * 8)[:207], b'some-salt')
LONG = OURS._replace(password=(b'the-password-that-is-sought,-' * 140)[:207 + 29 * 128])
OF_RFC = of.Vector(rfc9106.ID, 19, 3, 32, 4, 32, b'\1' * 32, b'\2' * 16, b'\3' * 8, b'\4' * 12)
OF_16_LANES = of.Vector(rfc9106.ID, 19, 2, 256, 16, 32, b'password', b'somesalt')
# With a tag of a chain; with more lanes and a longer tag; and with a tag for which calls.c has no room.
OF_A_CHAIN, OF_9_LANES = OURS._replace(length=100), OURS._replace(memory=288, lanes=9, length=3000)
OF_A_LONG_TAG = OF_9_LANES._replace(length=5000)
DROPPED = OF_9_LANES._replace(passes=1, length=32, password=b'password')
# Of one lane, which starts no worker.
IN_ONE_LANE, OF_A_CHAIN_IN_ONE_LANE = OURS._replace(lanes=1), OF_A_CHAIN._replace(lanes=1)
# Tests of each root call: of those without a caller's memory, and of those with one, which the test drops.
COUNT_OF_TESTS, TESTS = 25, re.compile(
    r'^(\S*\b(?:(?:hash_raw|hash_encoded|verify_raw)_(?:by(?:_two)?_workers|in_one_thread|sequential)(?:_argon2id)?'
    r'|verify_encoded(?:_ext|_within)?(?:_sequential)?|\w+_in(?:_sequential)?_twice)_denied_in_turn): test$', re.M)
# By program, and by overwriting function and its caller: how many calls whose absence is noticed, and how many others.
EXPECTED = defaultdict(dict)
for programs, callee, functions, noticed, others, *why in rows_of(CALLS.parent / 'wipes.txt'):
    assert len(why) == (others != '0'), f'{functions} have no reason, or need none'
    for name, function in product(BUILDS if programs == 'builds' else programs.split(' '), functions.split(', ')):
        EXPECTED[name][callee, function] = int(noticed), int(others)
pool = ThreadPoolExecutor(os.cpu_count())


# ---- what is sought

@cache
def pieces(*vectors):
    """Returns what is sought of hashes: each piece once, with the name of what it belongs to."""
    return [*dict.fromkeys((what, part[at:at + PIECE])
                           for vector in vectors for what, part, places in parts(vector) for at in places)]


def parts(vector):
    setting = rfc9106.Setting(*vector[:-1])
    combined = setting.combined(setting.filled())
    tag = rfc9106.hprime(setting.length, combined)
    yield 'H0', setting.h0, (0, 16, 32, 48)
    for column in (0, 1):
        first, place = (setting.first_block(setting.lanes - 1, column),
                        rfc9106.le32(column) + rfc9106.le32(setting.lanes - 1))
        yield 'what a first block is hashed from', setting.h0[-8:] + place, (0,)
        yield 'a first block', first, (0, 480, 800)
        yield 'the last hashes of its chain', first, (896, 928, 960, 992)
    # With one lane, it is in the matrix.
    yield 'the combined last blocks', combined, (0, 512, 1000) if setting.lanes > 1 else ()
    yield 'the tag', tag, range(0, len(tag) - 15, PIECE)
    yield 'the password', setting.password, range(0, len(setting.password) - PIECE, PIECE)


@cache
def blocks_of(vector):
    """Returns two words of one block of each segment: what we search for after a call that must leave no block."""
    setting = rfc9106.Setting(*vector[:-1])
    return [(f'lane {lane}, slice {column // setting.segment}', struct.pack('<2Q', *words[40:42]))
            for (lane, column), words in setting.filled().items() if column % setting.segment == setting.segment - 1]


class Run(NamedTuple):
    """A run of a program, the pieces that are sought, and which of them may be left at its end."""
    words: list
    input: bytes
    sought: list
    has_threads: bool = False
    status: int = 0
    may_be_left: tuple = OF_CALLER


# ---- machine code

Site = namedtuple('Site', 'callee function at')


class Program:
    """A program and what it is run for; the places of each function's calls, jumps and returns; the calls of functions
    that overwrite; and the returns, each as its function and its place."""

    def __init__(self, name, path, preloaded, runs):
        self.name, self.path, self.preloaded, self.runs, self.code = name, path, preloaded, runs, defaultdict(list)
        for part in run('objdump', '-d', '--no-show-raw-insn', path).split('\n\n'):
            head, _, lines = part.partition('>:\n')
            function = re.sub('::<#[0-9a-f]+>', '', head.partition('<')[2])
            function = re.sub(r'^proved_x86_64_v\d', 'proved_argon2', function)  # (by its name in every build)
            self.code[function] += [(int(at, 16), kind, callee) for at, kind, callee in BRANCH.findall(lines)]
        self.sites = [Site(callee.rpartition('::')[2], function, at) for function, places in self.code.items()
                      for at, _, callee in places
                      if callee in OVERWRITING and not function.startswith(OVERWRITING[:2])]
        self.returns = [(function, at) for function, places in self.code.items() for at, kind, _ in places
                        if kind == 'ret' and re.match(r'(proved_)?argon2(?!_blocks::blake2b::wipe)', function)]

    def calls(self, callee):
        return [site for site in self.sites if site.callee == callee]

    @contextmanager
    def planned(self, dropped=(), stops=(), sought=()):
        """Yields the command that runs the program by a plan of search.c, with its stack at the same place each
        time."""
        with tempfile.NamedTemporaryFile(dir=self.preloaded.parent) as plan:
            assert len(sought) <= PIECES
            plan.write(struct.pack('<I', len(sought)))
            for places in [site.at for site in dropped], [at for _, at in stops]:
                plan.write(struct.pack(f'<{PLACES}I', *places, *[0] * (PLACES - len(places))))
            plan.write(b''.join(piece for _, piece in sought))
            plan.flush()
            yield ['setarch', '-R', 'env', f'LD_PRELOAD={self.preloaded}', f'PLAN={plan.name}', self.path]

    def found(self, runs, dropped=(), stops=()):
        """Yields how often each piece is found if calls are left out, run by run: at the end, in freed memory, above
        stops, and below each stop, by its function."""
        where = ['left', 'freed', 'above', *(function for function, _ in stops)]
        for number, one_run in enumerate(runs):
            # With threads, the counts of the tag and the password differ between runs.
            sought = [piece for piece in one_run.sought if not one_run.has_threads or piece[0] not in OF_CALLER]
            with self.planned(dropped, stops, sought) as command:
                done = patience.run([*command, *one_run.words], input=one_run.input, capture_output=True)
            said, found = done.stderr.decode(errors='replace'), Counter()
            is_well = done.returncode == one_run.status and f'sought {len(sought)}' in said.splitlines()
            assert is_well, f'{self.name} does not end well: {one_run.words}, {dropped}'
            for row, piece, count in re.findall(r'^(\d+) (\d+) (\d+)$', said, re.MULTILINE):
                found[number, where[int(row)], sought[int(piece)][0]] += int(count)
            yield from found.items()

    def noticed(self, sites, runs, others, stops):
        """Returns each of `sites`, and whether its absence is noticed if it alone is left out in addition to
        `others`."""
        runs = sorted(runs, key=lambda one_run: not one_run.has_threads)
        tries = [runs] + [[one_run for one_run in runs if one_run.has_threads]] * (TRIES - 1)
        before = dict(self.found(runs, others, stops))
        assert not [place for place in before if place[1] == CLEAN], f'where {CLEAN} returns'

        def is_noticed(site):  # (one run that finds more pieces is enough)
            return any(count > before.get(place, 0)
                       for these in tries for place, count in self.found(these, [*others, site], stops))

        return [*zip(sites, pool.map(is_noticed, sites))]

    def each_left_out(self):
        """Returns each call, and whether its absence is noticed: for a call of the driver, by a check of
        tests/clearing.c."""
        if self.runs is None:
            sites = [site for site in self.sites if not site.callee.startswith('wipe')]
            return [*zip(sites, pool.map(self.fails, sites))]
        stacks, alone = self.calls('wipe_stack'), [one_run for one_run in self.runs if not one_run.has_threads]
        ends = [stop for stop in self.returns if stop[0] in {site.function for site in stacks}]
        return (self.noticed(self.calls('wipe'), alone, stacks, self.returns)
                + self.noticed(stacks, self.runs, [], ends))

    def fails(self, *dropped):
        with self.planned(dropped) as command:
            until = ['sh', '-c', '"$@" 2>/dev/null | grep -q "^FAILED: "', 'sh']
            return subprocess.run([*until, *command], check=False).returncode == 0


# ---- the library for C: each proved call of a build

def of_zeros(vector):
    return vector._replace(tag=bytes(vector.length))


def runs_of_library():
    calls = [(options, call) for options in (of.FRESH, of.CALLER) for call in range(of.WITHIN)]
    over = [(of.FRESH, of.HASH_OVER), (of.FRESH, of.VERIFY_OVER)]
    few = [calls[of.HASH_RAW], calls[of.VERIFY_ENCODED]]
    for vector, made in ((OURS, calls), (OF_A_CHAIN, calls), (OF_9_LANES, few)):
        for options, call in made + over:
            verified = of_zeros(vector).text() if call == of.VERIFY_ENCODED else of_zeros(vector).tag
            yield Run([], of.Question(call, vector, verified=verified, options=options).packed(), pieces(vector))


def judge_library(program):
    """The stack has nothing after each call that computes or, if it is not cleared, only what may be left there."""
    stacks = program.calls('wipe_stack')
    computing = {site.function for site in stacks}
    assert len(computing) > 9
    for dropped, may_be_left in (((), ()), (stacks, MAY_BE_LEFT)):
        found = program.found(program.runs, dropped, [stop for stop in program.returns if stop[0] in computing])
        left = [place for place, _ in found if place[1] in (*computing, 'freed') and place[2] not in may_be_left]
        assert not left, f'{len(dropped)} calls are left out'


# ---- Rattle's calls

def row(call, vector, mode, *more):
    """Returns a row of the program that makes any call."""
    settings = f'argon2id 19 {vector.passes} {vector.memory} {vector.lanes} {vector.length}'
    inputs = f"'{vector.password.decode()} '{vector.salt.decode()} - -"
    return ' '.join([call, settings, mode, inputs, *more]) + '\n'


def rows():
    """Runs of that program in one thread and by workers, with tags of one hash and of a chain. Some runs hash; others
    verify and leave no tag; two of these have one lane, which starts no worker. One drops a memory."""
    every, in_one_lane = (OURS, OF_A_CHAIN, OF_A_LONG_TAG), (IN_ONE_LANE, OF_A_CHAIN_IN_ONE_LANE)
    for modes in (('seq',), ('par', 'max2')):
        hashing = [row(call, *how) for how in product(every, modes) for call in ('hash_raw', 'hash_encoded')]
        verdicts = [row('verify_raw', vector, mode, '00' * vector.length) for vector, mode in product(every, modes)]
        verdicts += [f"verify_encoded_ext '{vector.password.decode()} - - {of_zeros(vector).text().decode()}\n"
                     for vector in in_one_lane]
        yield Run([], ''.join(hashing).encode(), pieces(*every), 'par' in modes)
        yield Run([], ''.join(verdicts).encode(), pieces(*every, *in_one_lane), 'par' in modes, 0, OF_CALLER[1:])
    yield Run([], row('fill_sequential', DROPPED, 'seq').encode(), blocks_of(DROPPED))


def rows_of_a_long_password():
    for modes in (('seq',), ('par', 'max2')):
        hashing = [row(call, LONG, mode) for mode in modes for call in ('hash_raw', 'hash_encoded')]
        yield Run([], ''.join(hashing).encode(), pieces(LONG), 'par' in modes)


def runs_of_tests():
    """The tests of calls in one thread free blocks without overwriting them, since that would take time."""
    names = TESTS.findall(run(program_of('argon2_tests'), '--list'))
    assert len(names) == COUNT_OF_TESTS
    for name in names:
        vector = OF_16_LANES if name.endswith(':verify_encoded_denied_in_turn') else OF_RFC
        keeps_memory, has_threads = '_twice_' in name, not re.search('sequential|one_thread', name)
        blocks = blocks_of(vector) if keeps_memory or not has_threads else []
        freed = [what for what, _ in blocks if not keeps_memory]
        yield Run([name], b'', blocks + (not keeps_memory) * pieces(vector), has_threads, 0, (*OF_CALLER, *freed))


def commands(hashing, salt, verifying):
    """Yields what the program of the command line does: it hashes and verifies, in both versions, since they fill the
    memory differently. Calls in one thread free the blocks without overwriting them, since that would take time."""
    for mode, version in product(('seq', 'par', 'max2'), (16, 19)):
        words, vector = [hashing, *f'argon2id {version} 2 64 4 32 {mode}'.split(), salt], LONG._replace(version=version)
        freed = blocks_of(vector) if mode == 'seq' else []
        yield Run(words, LONG.password, pieces(vector) + freed, mode != 'seq', 0, (*OF_CALLER, *dict(freed)))
    vector = LONG._replace(lanes=1)
    yield Run([verifying, of_zeros(vector).text().decode()], LONG.password, pieces(vector), status=1)


# Of each program in Rattle, what it is run for, and how many of its calls are over a caller's memory, without a
# `release` in the same function.
RATTLE = {'argon2_vectors': (rows, 0), 'argon2_tests': (runs_of_tests, 15),
          'argon2_program': (lambda: commands('hash', OURS.salt.decode(), 'verify'), 0)}


def program_of(crate):
    return TOP / 'crates' / crate / 'out' / crate.replace('_tests', '_tests_tests')


def judge_program(program):
    """A program may leave only tags and what it was passed, and what it frees. Each call with a memory of its own calls
    `release`. These calls are counted, since a missing one may go unnoticed: what runs next may overwrite the stack
    that `release` should clear."""
    counts = [[sum(bool(re.fullmatch(name, callee)) for *_, callee in places) for name in (COMPUTING, ENDING)]
              for places in program.code.values()]
    assert any(ended for _, ended in counts)
    assert sum(max(0, computed - ended) for computed, ended in counts) == RATTLE[program.name][1]
    runs = program.runs + [*rows_of_a_long_password()] * (program.name == 'argon2_vectors')
    found = Counter(dict(program.found(runs)))
    left = [(at, where, what) for at, where, what in found
            if what not in runs[at].may_be_left and (where == 'left' or what == 'the tag')]
    assert found and not left
    for at, one_run in enumerate(runs):
        freed = [found[at, 'freed', what] for what in one_run.may_be_left if what not in OF_CALLER]
        assert any(freed) or not freed, f'{one_run.words} does not free its blocks as they are'


# ---- all of them

@pytest.fixture(scope='module', params=EXPECTED)
def program(request, tmp_path_factory):
    name, folder = request.param, tmp_path_factory.mktemp('made')
    preloaded = build_preloaded(CALLS.with_name('search.c'), folder)
    if name in RATTLE:
        assert is_current(name, program_of(name), says_why=True), f'{name} is of other sources'
        return Program(name, program_of(name), preloaded, [*RATTLE[name][0]()])
    words, cpu, runs = (CALLS,), name, [*runs_of_library()]
    if name == 'driver':
        words, cpu, runs = LINKED, '', None
    made = compiled(folder / name, *words, *library(folder / 'objects', cpu).values())
    return Program(name, made, preloaded, runs)


def test_each_program_is_listed():
    assert {*EXPECTED} == {*BUILDS, *RATTLE, 'driver'}


@pytest.mark.parametrize('program', [name for name in EXPECTED if name != 'driver'], indirect=True, scope='module')
def test_what_is_left(program):
    (judge_program if program.name in RATTLE else judge_library)(program)


def test_each_wipe_alone(program):
    """The search misses a function that does not wipe, in one of LOOKS looks, for as many calls as wipes.txt says."""
    expected = wrong = EXPECTED[program.name]
    for _ in range(LOOKS):
        found = Counter((site.callee, site.function, is_noticed) for site, is_noticed in program.each_left_out())
        counts = {(callee, function): (found[callee, function, True], found[callee, function, False])
                  for callee, function, _ in found}
        assert counts.keys() == expected.keys()
        wrong = {place: counts[place] for place in wrong if counts[place] != expected[place]}
        if not wrong:
            break
    assert not wrong, '(noticed, not noticed) as found, where it is not as in wipes.txt'
