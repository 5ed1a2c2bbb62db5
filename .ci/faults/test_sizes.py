"""Runs the program with settings of all sizes, drawn from SEED of the environment or else from one that is printed: up
to 512 MiB, or a quarter of what the system has left, 300 lanes and workers and a tag of 90,000 bytes. Each run has
libargon2's tag and encoded hash, which verifies; starts as many workers as its settings say; and allocates as often as
with the least memory, except for the two printed lines: their string grows with their length, and contains no secret.
With less memory, valgrind also counts the blocks that the program compresses, and those of argon2_vectors, which makes
Rattle's calls in all modes and in one thread. So at no size is anything refused, left to one thread, or done twice.
"""

import random
import re
from itertools import accumulate
from pathlib import Path

import pytest
from runs import PASSWORD, SEED, SLICES, VALUE, VARIANTS, VERSIONS, Hash, copy_of, run
from shared import TOP

# For the mode `all`, argon2_vectors makes Rattle's calls in this many modes, and then the one-thread call.
MODES = 7
DRAWS, DRAWS_COUNTED, DRAWS_OF_MODES = 24, 6, 4
ABOUT = Path('/proc/meminfo').read_text(encoding='utf-8')
MOST_MEMORY = min(512 << 10, int(re.search(r'^MemAvailable: +(\d+) kB$', ABOUT, re.M)[1]) // 4)
MOST_COUNTED, MOST_OF_MODES = 24 << 10, 6 << 10  # KiB
MOST_LANES, MOST_PASSES, MOST_TAG, MOST_FOR_A_TEXT = 300, 6, 90_000, 16
# A hash with segments of more than 2^16 blocks: there too, Argon2i makes addresses for 128 blocks at a time. And a
# hash of several lanes with more memory than the drawn ones whose blocks are counted.
LARGE = Hash('argon2i', 19, 1, SLICES * (1 << 16) + 4 * SLICES, 1, 32), Hash('argon2d', 19, 1, 96 << 10, 3, 32)
# The function that compresses a block, and how many references an address block contains.
COMPRESSION, DRAWN_AT_ONCE = 'argon2_blocks::block::kernel::fill_words', 128
DRAW = random.Random(SEED)


def of_a_magnitude(least, most):
    """Returns a random number between two, of random magnitude."""
    return min(most, int(least * (most / least) ** DRAW.random()) + DRAW.randint(0, 1))


def drawn(number, most_memory, most_lanes=MOST_LANES):
    """Returns a hash of a drawn size; the first few are the largest of a kind."""
    lanes = most_lanes if number == 0 else of_a_magnitude(1, min(most_lanes, most_memory // 8))
    memory = most_memory if number == 1 else of_a_magnitude(8 * lanes, most_memory)
    passes = of_a_magnitude(1, max(1, min(MOST_PASSES, most_memory // memory)))
    length = MOST_TAG if number == 2 else of_a_magnitude(4, MOST_TAG)
    most = DRAW.choice((None, 0, of_a_magnitude(2, MOST_LANES))) if number > 2 else None
    return Hash(DRAW.choice(VARIANTS), DRAW.choice(VERSIONS), passes, memory, lanes, length, most)


HASHES = [drawn(number, MOST_MEMORY) for number in range(DRAWS)]
COUNTED = [*(drawn(number, MOST_COUNTED) for number in range(DRAWS_COUNTED)), *LARGE]
OF_MODES = [drawn(number, MOST_OF_MODES, MOST_FOR_A_TEXT) for number in range(DRAWS_OF_MODES)]


def each(hashes):
    return pytest.mark.parametrize('settings', hashes, ids=['-'.join(settings.settings()) for settings in hashes])


def blocks(settings):
    """Returns how many blocks are compressed: the matrix in each pass, except in the first pass the first two of each
    lane. A segment whose references depend on no block adds two per 128 references, unless it has only those first
    two."""
    length = settings.memory // (SLICES * settings.lanes)
    slices = {'argon2d': 0, 'argon2id': 2, 'argon2i': SLICES * settings.passes}[settings.variant]
    slices -= slices > 0 and length == 2
    drawing = 2 * -(-length // DRAWN_AT_ONCE)
    return (SLICES * length * settings.passes - 2 + drawing * slices) * settings.lanes


def compressed_by(name, *words, input_bytes=PASSWORD):
    """Returns what a program writes, and how many blocks it compresses, by callgrind."""
    program = copy_of(name)
    profile = program.with_suffix('.profile')
    callgrind = ['valgrind', '--quiet', '--tool=callgrind', '--compress-strings=no', f'--callgrind-out-file={profile}']
    came = run([*callgrind, program, *words], False, input_bytes=input_bytes)
    calls = re.findall(rf'^cfn={COMPRESSION}\ncalls=(\d+)', profile.read_text(encoding='utf-8'), re.M)
    return came.output, sum(map(int, calls))


def growths(settings):
    """Returns how often the string with a hash's printed lines grows while `format!` adds piece by piece."""
    capacity = count = 0
    for end in accumulate(map(len, re.findall(r'.+|\n', settings.output()))):
        if end > capacity:
            capacity, count = max(2 * capacity, end), count + 1
    return count


@each(HASHES)
def test_a_hash_starts_and_allocates_as_with_less_memory(settings):
    """It starts the workers of its settings, allocates as with less memory, and its encoded hash verifies."""
    program, least = copy_of('argon2_program'), settings._replace(memory=8 * settings.lanes)
    came, other = (run([program, *of.words()]) for of in (settings, least))
    verified = run([program, 'verify', settings.text()])
    assert came.end(0, settings.output()) == VALUE
    assert came.met['start'] == settings.starts()
    assert came.met['request'] - growths(settings) == other.met['request'] - growths(least) > 0
    assert verified.end(0, 'true\n') == VALUE
    assert verified.met['start'] == settings._replace(most=MOST_FOR_A_TEXT).starts()


@each(COUNTED)
def test_the_program_compresses_each_block_once(settings):
    assert compressed_by('argon2_program', *settings.words()) == (settings.output(), blocks(settings))


@each(OF_MODES)
def test_calls_in_each_mode_compress_each_block_once(settings):
    """Rattle's calls, in each mode and with one thread, meet the same limits."""
    tag, text = settings.output().split()
    inputs = f"{' '.join(map(str, settings[:6]))} all '{PASSWORD.decode()} '{settings.salt.decode()} - -"
    lines = f'hash_raw {inputs}\nhash_encoded {inputs}\nverify_raw {inputs} {tag}\n'
    expected = f'{tag}\n{text}\ntrue\n', 3 * (MODES + 1) * blocks(settings)
    assert compressed_by('argon2_vectors', input_bytes=lines.encode()) == expected


def test_calls_by_value_start_their_threads():
    """The five calls of argon2_scheduled fill four lanes in three passes, and start a thread for each lane of each
    slice. The theorem about these calls does not say that they start any thread."""
    came = run([copy_of('argon2_scheduled')])
    assert came.end(0, (TOP / 'crates/argon2_scheduled/stdout').read_text(encoding='utf-8')) == VALUE
    assert came.met['start'] == 3 * SLICES * 5 * 4
