"""Refuses each request for memory and each start of a worker in turn, in the tests and the program that the proofs
leave: a sweep for each label, which is that of one of RUNS, or the name of a test without `_denied_in_turn`. A start is
refused at all of its tries and, in another run, at all but the last: in that run the result has to be unchanged.
"""

import re
from itertools import accumulate, product

import pytest
from runs import NO_MEMORY, NO_WORKER, PROCESSORS, TRIES, VALUE, Hash, copy_of, run
from running import ahead
from shared import TOP

AT_ONCE = 4 * len(PROCESSORS)  # a start that is refused sleeps between its tries
IN_TURN = '_denied_in_turn'  # ends the names of tests that are swept
ONE, TWO, MANY = (Hash('argon2i', 19, 2, max(256, 8 * p), p, 32) for p in (1, 2, 16))
TRUE, FALSE = (0, 'true\n'), (1, 'false\n')
# Runs of the program: the label, the expected result, and the words.
RUNS = (
    ('program_hash_by_workers', (0, TWO.output()), TWO.words()),
    ('program_hash_in_one_thread', (0, ONE.output()), ONE._replace(most=0).words()),
    ('program_verify', TRUE, ['verify', MANY.text()]),
    ('program_verify_in_one_thread', TRUE, ['verify', ONE.text()]),
    ('program_verify_of_another', FALSE, ['verify', ONE.text().replace('v=19', 'v=16')]),
    ('program_rehash', TRUE, ['rehash', *ONE._replace(passes=3).settings()[:-1], ONE.text()]),
    ('program_no_rehash', FALSE, ['rehash', *ONE.settings()[:-1], ONE.text()]),
)


def labels_of(patterns):
    """Yields the labels that patterns mean: `a_{b,c}` is `a_b` and `a_c`."""
    for pattern in patterns.split(' '):
        parts = re.split(r'\{(.*?)\}', pattern)
        yield from map(''.join, product(*(part.split(',') if at % 2 else [part] for at, part in enumerate(parts))))


# How many workers a label starts, if any: slices * passes * workers, at most one for each lane (16 verify a stored
# string). The hashes are those of RFC 9106, with 3 passes and 4 lanes, or of the runs above.
STARTS = {label: starts for starts, patterns in (
    (4 * 3 * 4, 'verify_raw_by_workers hash_raw_by_workers_argon2{d,i,id} hash_encoded_by_workers '
     'fill_memory_blocks_by_workers verify_encoded_{ext,within}'),
    (4 * 3 * 2, 'hash_raw_by_two_workers_argon2{d,i,id} hash_encoded_by_two_workers fill_memory_blocks_by_two_workers '
     'verify_raw_by_two_workers'),
    (2 * 4 * 3 * 4, '{hash,verify}_{raw,encoded}_in_twice'),
    (4 * 1 * 40, 'hash_raw_by_forty_workers'),
    (4 * 2 * 16, 'verify_encoded{,_of_another_password,_ext_of_20_lanes} program_verify'),
    (4 * 2 * 2, 'program_hash_by_workers'),
    (4, 'fill_slice'),
) for label in labels_of(patterns)}
# How often some labels ask for memory. A salt, a tag and an encoded hash are one request each, since a buffer that
# grows would leave copies of them. Calls that reject their input first ask for nothing.
REQUESTS = {label: requests for requests, patterns in (
    (1, 'encode_string'),
    (2, 'decode_string'),
    (0, 'head_faults a_text_within_limits_is_judged a_costly_text_of_any_length_allocates_nothing '
     '{hashing,verifying_a_tag,verifying_an_empty_tag,a_string_of_no_hash,a_rejected_string,a_costly_text}'
     '_allocates_nothing'),
) for label in labels_of(patterns)}
SOURCES = ''.join(path.read_text(encoding='utf-8') for path in sorted(TOP.glob('crates/*/src/**/*.rt')))
LABELS = [*re.findall(rf'^ *fn (\w+){IN_TURN}\(', SOURCES, re.M), *(label for label, *_ in RUNS)]


@pytest.fixture(scope='module')
def sweeps():
    """Returns each sweep's label, its command and, unless it is a test, the expected result."""
    files = (path for path in TOP.glob('crates/*/src/**/*.rt') if '#[test]' in path.read_text(encoding='utf-8'))
    binaries = [copy_of(f'{crate}_tests') for crate in sorted({path.relative_to(TOP).parts[1] for path in files})]
    names = [(binary, name) for binary in binaries
             for name in re.findall(rf'^(.*{IN_TURN}): test$', run([binary, '--list']).output, re.M)]
    return [*((name.rpartition('::')[2].removesuffix(IN_TURN), [binary, name], None) for binary, name in names),
            *((label, [copy_of('argon2_program'), *words], end) for label, end, words in RUNS)]


def end_of(came, expected):
    """Returns the result of a run. A test, without an expected output, reports it in its first line."""
    if expected:
        return came.end(*expected)
    said = came.output.partition('\n')[0]
    said = {'OutOfMemory': NO_MEMORY, 'WorkerRefused': NO_WORKER}.get(said, said)
    return said if came.status == 0 else f'{said}, {came.end(0, "")}'


def denials(variable, ends):
    """Yields the variables that let faults.c refuse the first, the second and so on, and each run's expected end."""
    for number, end in enumerate(ends, 1):
        yield {variable: number, 'REFUSE_TRIES': TRIES if end == NO_WORKER else 1}, end
        if end == NO_WORKER:
            yield {variable: number, 'REFUSE_TRIES': TRIES - 1}, VALUE


def sweep(words, expected):
    """Refuses each request in turn, and each start. Returns how many there were of each, the most requests held, and
    what is wrong. A request right before a start belongs to that start; no other may end as a refused worker. What was
    granted has to be freed; what the C library frees for threads is extra."""
    first = run(words)
    notes = ' '.join(note for note in first.notes
                     if note in ('request', 'start')).replace('request start', 'start').split()
    requests, starts = [NO_WORKER if note == 'start' else NO_MEMORY for note in notes], first.met['start']
    held = max(accumulate({'request': 1, 'freed': -1}.get(note, 0) for note in first.notes), default=0)
    faults = ['blocks are not freed'] if first.met['request'] > first.met['freed'] else []
    for how, end in [({}, VALUE), *denials('REFUSE_REQUEST', requests), *denials('REFUSE_START', [NO_WORKER] * starts)]:
        came = run(words, **how)
        found = end_of(came, expected), came.met['refused']
        if found != (end, how.get('REFUSE_TRIES', 0)):
            faults.append(f'{how}: it came to {found} in place of {end}')
    return len(requests), starts, held, faults


@pytest.fixture(scope='module')
def came(request, sweeps):
    commands = {label: how for label, *how in sweeps}
    assert sorted(commands) == sorted(LABELS)
    yield from ahead(request, 'label', lambda label: sweep(*commands[label]), AT_ONCE)


@pytest.mark.parametrize('label', LABELS)
def test_denied_in_turn(came, label):
    requests, started, _, faults = came(label)
    assert not faults
    assert started == STARTS.get(label, 0)
    assert requests == REQUESTS.get(label, requests)


def test_a_hash_asks_for_its_memory_and_its_tag_alone(came):
    """For another shape, the old memory is freed before the new one is made."""
    memory = came('memory_new')[0]
    assert came('hash_raw_sequential_argon2d')[0] == memory + 1
    assert came('hash_raw_in_another_shape')[2] == memory
