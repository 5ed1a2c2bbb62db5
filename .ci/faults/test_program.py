"""Runs the proved program, and the program in C that is installed, over real pipes: each exit status, what is written
for it, words that no shell would pass, words of many lengths, and inputs that are longer than any password. Both have
to give the same answers. The proofs do not cover the bytes of standard streams or the arguments of processes; rows of
argon2_vectors say which words a command takes. Rattle's calls return libargon2's hashes, and no resource error, since
nothing is denied. Hashes are drawn from SEED of the environment or from a printed seed.
"""

import re
import sys

import pytest
import vectors
from runs import SEED, Hash, copy_of, run
from shared import TOP, output_of

DRAWS = 1000
BINARIES = PROVED, IN_C = 'argon2_program', 'argon2_tool'
# The longest password that any call accepts, and that `new` and `check` take; and the address space that is left
# beside it.
LONGEST, LONGEST_LIMITED, BESIDE = (1 << 32) - 1, 1 << 16, 16 << 20
# The result of a run: its status, and what it writes to output and errors.
TRUE, FALSE, USAGE, INPUT = (0, 'true\n', ''), (1, 'false\n', ''), (3, '', 'usage\n'), (4, '', 'input\n')
ABOVE, TOO_LONG = (5, '', 'The encoded hash is above the limits\n'), (2, '', 'Password is too long\n')
NO_TEXT, SHORT_SALT = (2, '', 'Decoding failed\n'), (2, '', 'Salt is too short\n')
NO_ROOM = (2, '', 'Out of memory\n')
# The program in C adds these words to some lines.
ADDED = re.compile(
    rf'(?<=^{USAGE[2]})(.*see --help|.*an argument is not UTF-8)\n$|(?<=^{NO_TEXT[2]}).*quotes\n$'
    rf'|(?<=^{ABOVE[2]}).* at most .*\n$')
# Hashes of two lanes, of one lane (its encoded hash is stored), and with a salt that is no text.
TWO, ONE = Hash('argon2d', 19, 2, 256, 2, 32, salt=b'somesalt'), Hash('argon2i', 19, 2, 256, 1, 32)
NO_WORD = Hash('argon2id', 19, 1, 8, 1, 16, 0, bytes(range(240, 256)))
HASH, STORED, NEW = TWO.words(), ONE.text(), ['new', *TWO.settings(), '736f6D6573616c74']
VERIFY, CHECK, REHASH = ['verify', STORED], ['check', STORED], ['rehash', *ONE.settings()[:-1], STORED]
COSTLY = [['check', '$argon2id$v=19$m=8,t=1000,p=1$$c29tZWhhc2g'], ['new', *'argon2id 19 1000 8 1 32 seq'.split(), '']]


def ends():
    """Yields each result, the arguments of the runs that come to it, and how they are run. Statuses 0 and 1: only the
    answer is written. Status 2: only the refusal. Status 5: above the limits of `check`, whatever else is wrong. Status
    3: arguments that are no command, up to 20,000."""
    yield (0, TWO.output(), ''), [HASH, NEW]
    yield (0, NO_WORD.output(), ''), [['new', *NO_WORD.settings(), NO_WORD.salt.hex()]]
    yield TRUE, [VERIFY, CHECK, [*REHASH[:3], '3', *REHASH[4:]]]
    yield FALSE, [REHASH, ['verify', '$argon2id$v=19$m=8,t=1000,p=1$c29tZXNhbHQ$c29tZWhhc2g']]
    yield FALSE, [VERIFY, CHECK], {'input_bytes': b'password\n'}
    yield from ((FALSE, [VERIFY], {'input_bytes': input_bytes}) for input_bytes in (b'', b'\xff\0' * (1 << 20)))
    yield NO_TEXT, [[*words, text] for words in (['verify'], REHASH[:-1], ['check']) for text in ('', '$' * 100000)]
    yield SHORT_SALT, [[*HASH[:-1], 'shorter'], [*NEW[:-1], '']]
    yield ABOVE, COSTLY
    yield USAGE, [[], ['verify'], [' '], [*HASH, 'more'], [*VERIFY, ''], ['word'] * 20000, [*VERIFY, *['word'] * 20000],
                  [b'verify', b'\xff'], [*HASH, b'\xc3('], ['check'], NEW[:-1], [b'check', b'\xff']]
    # An input longer than any password is not read completely: the address space leaves little room beside the longest
    # password, so a program that read on would lack memory. The program in C also needs room for the block from which
    # it moves a password to one of twice the size.
    for expected, every, space, *of in (
            (TOO_LONG, [HASH, VERIFY], LONGEST, PROVED), (NO_ROOM, [HASH, VERIFY], LONGEST, IN_C),
            (TOO_LONG, [HASH, VERIFY], LONGEST // 2 * 3, IN_C), (TOO_LONG, [NEW, CHECK], 0, IN_C)):
        yield expected, every, {'by': f'exec prlimit --as={space + BESIDE} "$0" "$@" </dev/zero', 'of': of}
    yield FALSE, [CHECK], {'input_bytes': b'x' * LONGEST_LIMITED}
    yield TOO_LONG, [CHECK, ['check', 'x']], {'input_bytes': b'x' * (LONGEST_LIMITED + 1)}
    # Status 4: the input cannot be read, or the output cannot be written. A failure to write errors changes no status.
    for expected, every in (INPUT, [VERIFY, *COSTLY]), (USAGE, [['verify'], [*NEW[:-1], '0']]), (FALSE, [REHASH]):
        yield expected, every, {'by': 'exec "$0" "$@" <.'}
    yield (4, '', ''), [VERIFY, HASH], {'by': 'exec "$0" "$@" >/dev/full'}
    for status, words in ((2, ['verify', 'x']), (3, []), (5, COSTLY[0])):
        yield (status, '', ''), [words], {'by': 'exec "$0" "$@" 2>/dev/full'}
    yield ((4, '', ''), (-13, '', '')), [VERIFY], {'by': 'exec 3> >(:); wait $!; exec "$0" "$@" >&3'}


def rows():
    """Yields each row's binary, its words, how it is run, and what it comes to. Only the program in C has `new` and
    `check`."""
    for expected, every, *how in ends():
        how = dict(*how)
        binaries = how.pop('of', BINARIES)
        yield from ((name, words, how, expected) for words in every for name in binaries
                    if name == IN_C or words[:1] not in (['new'], ['check'], [b'check']))


def come_to(name, words, by=None, **how):
    """Returns the result of a run, without what the program in C adds to a line."""
    came = run([*(['bash', '-c', by] if by else []), copy_of(name), *words], False, **how)
    return came.status, came.output, ADDED.sub('', came.errors) if name == IN_C else came.errors


@pytest.mark.parametrize('name, words, how, expected', rows(), ids=lambda value: f'{value!r:.60}')
def test_each_run_has_the_expected_status_and_output(name, words, how, expected):
    end = come_to(name, words, **how)
    assert end == expected or end in expected


@pytest.mark.parametrize('name', BINARIES)
@pytest.mark.parametrize('size', (*range(8, 250), 333, 500, 750, 1000, 4096, 65536))
def test_words_of_each_length_are_used_completely(name, size):
    """A shortened salt, encoded hash or password would change the output. Two lengths of tags give encoded
    hashes of every length."""
    for length in (16, 17):
        letters = bytes(48 + at % 75 for at in range(size))
        one = Hash('argon2i', 19, 1, 8, 1, length, 0, letters, letters[::-1])
        for words, expected in ((one.words(), (0, one.output(), '')), (['verify', one.text()], TRUE),
                                (['rehash', *one.settings()[:-1], one.text()], FALSE)):
            assert come_to(name, words, input_bytes=one.password) == expected


def test_drawn_hashes_by_the_calls(tmp_path):
    """Rattle's calls, in each thread mode: hashes in the form of bindings/vectors/raw.txt, and as encoded hashes."""
    drawn = tmp_path / 'drawn.txt'
    drawn.write_text(output_of(sys.executable, TOP / 'bindings/vectors/drawn.py', SEED, DRAWS), encoding='utf-8')
    rows = [*vectors.tags(drawn)]
    for line in vectors.lines_of(drawn):
        variant, version, passes, memory, lanes, _, password, salt, secret, data, tag = line.split(' ')
        text = vectors.spelled(variant, version, memory, passes, lanes, salt, tag)
        rows.append((f'verify_encoded_ext {password} {secret} {data} {text}', 'true'))
    answered = run([copy_of('argon2_vectors')], False, input_bytes=''.join(f'{row[0]}\n' for row in rows).encode())
    assert len(rows) == 2 * DRAWS and answered.output.splitlines() == [row[1] for row in rows], f'seed {SEED}'
