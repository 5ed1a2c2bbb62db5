"""Questions to calls.c from other implementations' vectors, and the expected answers. Memcheck must report nothing
until a tag or a text is computed. The tag, the text's letters or the verdict must then still be undefined, which shows
that no branch chose them.

Each reading of a stored hash has two branches on all its letters: whether they are ASCII, and whether they are base64.
A block that another block selects is reported at each place that finds or reads it (test_constant_time.py)."""

import base64
import random
import struct
from collections import Counter, namedtuple
from pathlib import Path
from typing import NamedTuple

from argon2.low_level import Type, hash_secret
from running import TOP
from vectors import spelled

CALLS = Path(__file__).with_name('calls.c')
VARIANTS, VERSIONS = ('argon2d', 'argon2i', 'argon2id'), (16, 19)
# The calls of calls.c and its options, in its order.
HASH_RAW, HASH_ENCODED, VERIFY_RAW, VERIFY_ENCODED = range(4)
WITHIN, PASSWORD_HASH, PASSWORD_VERIFY, HASH_OVER, VERIFY_OVER = range(4, 9)
OPTIONS = FRESH, REUSED, PROGRESS, THREADS, CALLER = range(5)
MOST_THREADS = 1, 1, 1, 4, 2 ** 32 - 1  # with each of the options
OK, DECODING_FAIL, MISMATCH = 0, 19, 64
# The cases use vectors that write at most FEW_BLOCKS, and one whose memory has more than MAPPED_BLOCKS. Each byte of a
# hash is changed alone if the verdicts write at most CHEAP blocks.
FEW_BLOCKS, MAPPED_BLOCKS, CHEAP = 640, 1024, 2048
# The fewest blocks, and blocks over all passes, for which C starts threads (proved_argon2_driver.c).
OF_THREADS, IN_ALL_PASSES = 2048, 4096
CACHED_BLOCKS = 1024  # the most for which C's call for a whole hash prefetches nothing (argon2_c/src/prefetching.rt)
OF_A_TEXT = 4  # reports: of two branches, in each of two calls (check_encoded and job_read)
CAPACITY = 4096
ASKED, ANSWERED = struct.Struct('<9I' + f'I{CAPACITY}s' * 5), struct.Struct(f'<4I{CAPACITY}s{CAPACITY}s')
# An answer of calls.c.
Answer = namedtuple('Answer', 'reports calls_back code undefined out bits')


class Vector(NamedTuple):
    """The inputs of a hash, and its tag."""
    variant: int
    version: int
    passes: int
    memory: int
    lanes: int
    length: int
    password: bytes = b''
    salt: bytes = b''
    secret: bytes = b''
    data: bytes = b''
    tag: bytes = b''

    def text(self):
        return spelled(VARIANTS[self.variant], self.version, self.memory, self.passes, self.lanes, self.salt.hex(),
                       self.tag.hex()).encode()

    def head(self):
        """Returns its text up to its hash."""
        return self._replace(tag=b'').text()

    def blocks(self):
        return self.passes * self.memory

    def in_memory(self):
        """Returns how many blocks the memory has (RFC 9106, 3.2)."""
        return self.memory // (4 * self.lanes) * 4 * self.lanes

    def references(self):
        """Returns how many blocks have a reference that a block selects: none in Argon2i; in Argon2d all except the
        first two of each lane; in Argon2id all after the first two slices of the first pass (RFC 9106, 3.4)."""
        all_passes = self.in_memory() * self.passes
        others = 2 * self.lanes, all_passes, self.in_memory() // 2
        return all_passes - others[self.variant]

    def told(self, count):
        """Returns how many of these references of a lane are told beforehand, if `count` of each whole segment are."""
        slices = 4 * self.passes, 0, 4 * self.passes - 2
        return slices[self.variant] * count - (min(2, count) if self.variant == 0 else 0)

    def by_turns(self, most_threads):
        """Returns how many of these references are in lanes that a thread fills two by turns. They can be told
        beforehand. Each thread has neighbouring lanes."""
        threads = min(most_threads, self.lanes) if has_threads(self) else 1
        lanes_of_each = Counter(lane * threads // self.lanes for lane in range(self.lanes))
        paired = sum(lanes // 2 * 2 for lanes in lanes_of_each.values())
        return paired * self.told(self.memory // (4 * self.lanes))

    def ahead(self):
        """Returns how many are found while the block before is computed: in the only lane, all except the first of
        each segment."""
        return self.told(self.memory // 4 - 1) if self.lanes == 1 else 0


class Question(NamedTuple):
    """A call with a vector; the expected code and number of reported branches; the hash or text that is verified, or
    that must be written; how many of its bytes are public (open); and the options."""
    call: int
    vector: Vector
    code: int = OK
    branches: int = 0
    verified: bytes = b''
    written: bytes = b''
    open: int = 0
    options: int = FRESH

    def packed(self):
        variant, version, passes, memory, lanes, length, *fields, _ = self.vector
        sized = (part for field in (*fields, self.verified) for part in (len(field), field))
        return ASKED.pack(self.call, self.options, min(self.open, len(self.verified)), variant, version, memory,
                          passes, lanes, length, *sized)

    def references(self):
        return self.vector.references() if self.code != DECODING_FAIL else 0

    def prefetches(self):
        """Returns whether the call prefetches: in steps, which report progress, or over many blocks."""
        is_in_steps = self.options in (PROGRESS, CALLER)
        return self.code != DECODING_FAIL and (is_in_steps or self.vector.in_memory() > CACHED_BLOCKS)

    def by_turns(self):
        return self.vector.by_turns(MOST_THREADS[self.options]) if self.code != DECODING_FAIL else 0

    def expected(self):
        return self.by_turns() if self.prefetches() else 0

    def ahead(self):
        return self.vector.ahead() if self.prefetches() else 0

    def is_right(self, came, reads, tells, finds):
        """A verdict is hidden, but DECODING_FAIL for a malformed hash is not. Every bit of a tag is hidden, and at
        least one bit of each letter of the tag in an encoded hash; nothing else is. Each reference is read at `reads`
        places, told beforehand at `tells`, and found ahead at `finds`."""
        is_read = self.code != DECODING_FAIL
        calls_back = is_read and self.options in (PROGRESS, CALLER)
        addresses = reads * self.references() + tells * self.expected() + finds * self.ahead()
        expected = (self.branches + addresses, calls_back, self.code, is_read and self.verified != b'')
        text = came.out.rstrip(b'\0') if self.call == PASSWORD_HASH else self.written
        hidden, others = came.bits[self.open:len(text)], came.bits[:self.open] + came.bits[len(text):]
        return (expected == (came.reports, came.calls_back > 0, came.code, came.undefined > 0)
                and came.out == text.ljust(CAPACITY, b'\0') and not any(others)
                and all(bits == 255 if self.call == HASH_RAW else bits for bits in hidden)
                and (self.call != PASSWORD_HASH or text == of_libargon2(self.vector, text.split(b'$')[4])))


def answers(said):
    """Returns what calls.c wrote."""
    return [Answer(*parts) for parts in ANSWERED.iter_unpack(said)]


def of_libargon2(vector, salt):
    """Returns the text that libargon2 writes with this base64 salt, which password_hash may have drawn."""
    return hash_secret(vector.password, base64.b64decode(salt + b'=='), vector.passes, vector.memory, vector.lanes,
                       vector.length, Type(vector.variant), vector.version)


def with_byte(data, at, byte):
    return data[:at] + bytes([byte]) + data[at:][1:]


# ---- the cases: some questions for each vector, or only the first two if all take long

def hashes(vector):
    return [Question(HASH_RAW, vector, written=vector.tag)]


def hashed_texts(vector):
    return [Question(HASH_ENCODED, vector, written=vector.text(), open=len(vector.head()))]


def wrong_tags(vector, most=0):
    """Tags that differ in the first, the last and a drawn byte, or in each byte if that costs at most `most`."""
    places = range(vector.length) if vector.length * vector.blocks() <= most else (
        0, vector.length - 1, random.Random(vector.salt).randrange(vector.length))
    return [with_byte(vector.tag, at, vector.tag[at] ^ 1 << at % 8) for at in places]


def verdicts(vector):
    wrong = [*wrong_tags(vector, CHEAP), bytes(byte ^ 255 for byte in vector.tag)]
    return [Question(VERIFY_RAW, vector, MISMATCH if tag in wrong else OK, verified=tag)
            for tag in (vector.tag, *wrong)]


def stored(text):
    """Returns a text without its version, as hashes of version 16 may also be stored."""
    return text.replace(b'$v=16', b'')


def verdicts_on_texts(vector, call=VERIFY_ENCODED):
    """Verdicts on texts, also if the first, the last but one or a drawn byte of the hash is no letter."""
    at, text = len(stored(vector.head())), stored(vector.text())
    ends = [(stored(vector._replace(tag=tag).text()), MISMATCH, OF_A_TEXT) for tag in wrong_tags(vector)]
    places = at, len(text) - 2, random.Random(vector.salt).randrange(at, len(text) - 1)
    ends += [(with_byte(text, place, byte), DECODING_FAIL, 2) for place in places for byte in b'$=']
    return [Question(call, vector, code, branches, verified, open=at)
            for verified, code, branches in [(text, OK, OF_A_TEXT), *ends]]


def verdicts_within(vector):
    return verdicts_on_texts(vector, WITHIN)


def verdicts_on_others(text_and_code):
    """Judges an encoded hash that another program made."""
    text, code = text_and_code
    inputs = Vector(VARIANTS.index('argon2i'), 0, 0, 0, 1, 0, b'password')
    return [Question(VERIFY_ENCODED, inputs, code, OF_A_TEXT, text, open=text.rindex(b'$') + 1)]


def passwords(vector):
    """Returns a text that is written for a password alone, and a verdict on one of libargon2's."""
    text = of_libargon2(vector, vector.text().split(b'$')[4])
    return [Question(PASSWORD_HASH, vector, open=len(vector.head())),
            Question(PASSWORD_VERIFY, vector, verified=text, open=len(text))]


# ---- vectors

def rows_of(name):
    return [line.split() for line in (TOP / 'bindings/vectors' / name).read_text(encoding='utf-8').splitlines()]


def vectors_of(variant, version):
    """Returns the vectors of a variant and a version that have a password or a secret. Each line is `VARIANT VERSION T
    M P LEN PASSWORD SALT SECRET DATA TAG`."""
    return [Vector(VARIANTS.index(variant), *map(int, row[1:6]), *(bytes.fromhex(word.strip('-')) for word in row[6:]))
            for row in rows_of('raw.txt')
            if row[:2] == [variant, str(version)] and len(row) == 11 and (row[6], row[8]) != ('-', '-')]


def texts_of(variant):
    """Returns the stored texts of a variant, each with its verdict on `password`."""
    return [(row[0].encode(), OK if row[1] == 'true' else MISMATCH) for row in rows_of('texts.txt')
            if row[0].lower().startswith(f'${variant}$') and row[1:2] in (['true'], ['false'])]


def has_threads(vector):
    """Returns whether the library starts threads for it, where it may."""
    return vector.lanes > 1 and vector.memory >= OF_THREADS and vector.blocks() >= IN_ALL_PASSES


def chosen(found, options):
    """Returns vectors that write few blocks, and one whose memory the library maps. With THREADS: all that start
    threads."""
    if options == THREADS:
        return [*filter(has_threads, found)]
    few = [vector for vector in found if vector.blocks() <= FEW_BLOCKS]
    return few + [vector for vector in found if vector not in few and vector.memory > MAPPED_BLOCKS][:1]


def asked(case, options, variant, version):
    """Returns the questions of a case, vector by vector."""
    if case == passwords:  # (of the settings of password_hash, proved_argon2_owasp2)
        found = [Vector(VARIANTS.index(variant), version, 2, 19456, 1, 32, b'a password', b'of sixteen bytes')]
    elif case == verdicts_on_others:
        found = texts_of(variant)
    else:
        found = chosen(vectors_of(variant, version), options)
    most = None if variant == 'argon2i' and options != THREADS else 2
    return [[question._replace(options=options) for question in case(vector)[:most]] for vector in found]
