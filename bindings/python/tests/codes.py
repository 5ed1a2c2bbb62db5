"""Each call of the Python package returns or raises what codes.txt says for each number of the library.
PROVED_ARGON2_LIBRARY names the library, made of codes.c."""
import collections
import concurrent.futures
import math

import pytest
from proved_argon2 import (
    Limits,
    Parameters,
    PasswordHasher,
    Type,
    _library,
    extract_parameters,
    hash_password,
    hash_password_raw,
    tune,
    verify_password,
)
from proved_argon2 import exceptions as errors
from proved_argon2.low_level import ARGON2_VERSION, Memory, error_to_str, hash_secret, hash_secret_raw, verify_secret
from running import CODES, HEADER, NUMBERS

STUB = _library._library
STUB.seen.restype = _library.ctypes.c_char_p
Seen = collections.namedtuple("Seen", "threads memory_len progress asked there most judging telling computing")
TEXT, SETTINGS = "$argon2id$x", (3, 64, 4, 5, Type.ID)
HASH, VERIFY = (b"word", b"somesalt", *SETTINGS), (TEXT.encode(), b"word", Type.ID)
NAMED = {"key": b"key", "associated_data": b"data"}
LIMITS = Limits(memory_cost=10, time_cost=11, parallelism=12, work=13)
STORED = Parameters(type=Type.ID, version=19, memory_cost=64, time_cost=3, parallelism=4, hash_len=5, salt_len=6)
MISMATCH, TOO_COSTLY, NEEDS_REHASH = (HEADER[name] for name in ("MISMATCH", "TOO_COSTLY", "NEEDS_REHASH"))
VERDICTS = {MISMATCH: errors.VerifyMismatchError, TOO_COSTLY: errors.TooCostlyError}
INVALID = {HEADER["DECODING_FAIL"]: errors.InvalidHashError, HEADER["NOT_ASCII"]: errors.InvalidHashError,
           HEADER["OUT_OF_MEMORY"]: MemoryError}
# The values of the table. Other verdicts than `true` are exceptions that contain the number.
VALUES = {"tag": b"x" * 5, "text": b"x" * 12, "true": True, "false": errors.VerifyMismatchError,
          "costly": errors.TooCostlyError}
# A verification asks for this many threads: the library uses one for each lane, and at most 16.
MOST = 0xFFFFFFFF
CALLS = {
    "hash_raw": lambda **named: hash_secret_raw(*HASH, **{**NAMED, **named}),
    "hash_encoded": lambda **named: hash_secret(*HASH, **{**NAMED, **named}),
    "verify_encoded": lambda **named: verify_secret(*VERIFY, **{**NAMED, **named}),
    "verify_encoded_alone": lambda **named: verify_secret(*VERIFY, **named),
    "verify_encoded_within": lambda **named: verify_secret(*VERIFY, **{**NAMED, "limits": LIMITS, **named}),
}
UNKNOWN = PasswordHasher(3, 64, 4, 5, 8, type=Type.I, secret=b"key")
# Other calls: which number the library returns, what they do for which number, and their exception for all others.
OTHERS = {
    **{f"hash {place}": ("then", call, {0: value}, errors.HashingError) for place, (call, value) in enumerate((
        (lambda: PasswordHasher().hash("p"), "x" * 12),
        (lambda: PasswordHasher(keep_memory=True).hash("p"), "x" * 12),
        (lambda: hash_password(b"p"), b"x" * 12), (lambda: hash_password_raw(b"p"), b"x" * 32)))},
    "memory": ("memory", lambda: Memory(64) and 1, {0: 1}, errors.HashingError),
    **{f"verify {place}": (
        "then", lambda named=named: PasswordHasher(**named).verify(TEXT, "p"),
        {**VERDICTS, 0: True}, errors.VerificationError)
        for place, named in enumerate(({}, {"limits": None}, {"keep_memory": True}))},
    "older verify": ("then", lambda: verify_password(TEXT.encode(), b"p", Type.ID), {**VERDICTS, 0: True},
                     errors.VerificationError),
    "login": ("then", lambda: PasswordHasher().verify_and_update(TEXT, "p"),
              {**VERDICTS, 0: (True, None), MISMATCH: (False, None), NEEDS_REHASH: (True, "x" * 12)},
              errors.VerificationError),
    # A user who does not exist is never let in.
    "unknown": ("then", lambda: UNKNOWN.verify_unknown("word"), {MISMATCH: False, TOO_COSTLY: errors.TooCostlyError},
                errors.VerificationError),
    "read": ("read", lambda: extract_parameters(TEXT), {**INVALID, 0: STORED}, errors.Argon2Error),
    "same": ("read", lambda: PasswordHasher.from_parameters(STORED).check_needs_rehash(TEXT), {**INVALID, 0: False},
             errors.Argon2Error),
    "other": ("read", lambda: PasswordHasher().check_needs_rehash(TEXT), {**INVALID, 0: True}, errors.Argon2Error),
    "tune": ("then", lambda: tune(250.5, 8192, 3).parameters,
             {0: Parameters(Type.ID, 19, 16, 32, 2, 8192, 3), TOO_COSTLY: ValueError}, errors.HashingError),
}
pytestmark = pytest.mark.filterwarnings("ignore:.* is deprecated:DeprecationWarning")


def said_of(number):
    """Return the stub's message for a number. NOT_ASCII has that of DECODING_FAIL: both mean no encoded hash."""
    return f"N{(HEADER['DECODING_FAIL'] if number == HEADER['NOT_ASCII'] else number) % 1000:03}"


def set_answers(check=0, then=0, read=0, memory=0, kib=1024):
    STUB.set_answers(*map(_library.ctypes.c_uint32, (check, then, read, memory, kib)))


def seen():
    """Returns what the library received since the answers were set."""
    *numbers, judging, telling, computing = STUB.seen().decode(errors="replace").split("|", 8)
    return Seen(*map(int, numbers), judging, telling, computing)


@pytest.fixture(autouse=True)
def nothing_is_wrong():
    set_answers()


def gives(place, call, values, other, saw=lambda number: True):
    """Checks that `call` returns each number's value, or raises its exception (`other` if it has none) with the
    number's message."""
    for number in NUMBERS:
        set_answers(**{place: number})
        expected = values.get(number, other)
        if isinstance(expected, type):
            with pytest.raises(Exception) as raised:
                call()
            said = str(raised.value) if expected is not ValueError else said_of(number)
            assert (raised.type, said) == (expected, said_of(number)), number
        else:
            found = call()
            assert (found, type(found)) == (expected, type(expected)), number
        assert saw(number), (number, seen())


@pytest.mark.parametrize("name", CALLS)
@pytest.mark.parametrize("is_kept", [False, True])
def test_a_call_gives_for_each_number_what_the_table_says(name, is_kept):
    """It passes its arguments in order, and its kept buffers. A hash asks for as many threads as it has lanes."""
    codes, memory = CODES[name], Memory(64) if is_kept else None
    values = {number: VALUES[value] for number, value in codes.values.items()}
    received = Seen(4 if codes.hashes else MOST, 65536 if is_kept else -1, 0, 0, 0, 0, "",
                    codes.telling if codes.hashes else CODES["read"].telling, codes.computing)
    if not codes.hashes:
        values[TOO_COSTLY] = errors.TooCostlyError
    gives("then", lambda: CALLS[name](memory=memory), values,
          errors.HashingError if codes.hashes else errors.VerificationError, lambda number: seen() == received)
    if not codes.hashes:  # A string that cannot be read is not verified.
        gives("read", lambda: CALLS[name](memory=memory), {**VERDICTS, 0: True}, errors.VerificationError,
              lambda number: bool(seen().computing) == (number == 0))


@pytest.mark.parametrize("name", OTHERS)
def test_other_calls_give_for_each_number_what_it_means(name):
    gives(*OTHERS[name])


def test_tune_and_verify_unknown_pass_their_arguments():
    with pytest.raises(errors.VerificationError):
        UNKNOWN.verify_unknown("word")
    assert seen().computing == "unknown word key 1 19 64 3 4 5"
    assert tune(250.5, 8192, 3).milliseconds == 250.5
    for milliseconds, expected in ((0, 0), (-1, 0), (math.nan, 0), (math.inf, 10**9), (1e300, 10**9)):
        assert tune(milliseconds).milliseconds == expected


def test_the_numbers_are_the_header_s():
    assert [Type.D.value, Type.I.value, Type.ID.value] == [HEADER[name] for name in ("D", "I", "ID")]
    assert (ARGON2_VERSION, error_to_str(5)) == (HEADER["VERSION_13"], said_of(5))
    for name in ("OK", "DECODING_FAIL", "OUT_OF_MEMORY", "MISMATCH", "NOT_ASCII", "NEEDS_REHASH", "TOO_COSTLY"):
        assert getattr(_library, name) == HEADER[name], name


@pytest.mark.parametrize("keep_memory", [False, True])
def test_a_hasher_passes_its_arguments_and_limits_in_order(keep_memory):
    limits, length = Limits(100, 11, 12, 193), 65536 if keep_memory else -1
    hasher = PasswordHasher(3, 64, 4, 5, 8, "utf-8", Type.I, limits=limits, keep_memory=keep_memory)
    hasher.hash("word", salt=b"somesalt")
    assert (seen().computing, seen().memory_len) == ("encoded word somesalt   1 19 64 3 4 5", length)
    hasher.verify(TEXT, "word")
    assert (seen().computing, seen().memory_len) == (f"text {TEXT} word   100 11 12 193", length)
    for memory_cost in (8, 64):
        PasswordHasher(memory_cost=memory_cost).verify(TEXT, "word")
        assert seen().computing == f"text {TEXT} word   {memory_cost} 8 9 10"
    assert Limits() == Limits(memory_cost=7, time_cost=8, parallelism=9, work=10)


@pytest.mark.parametrize("new, passed", [("old", ""), ("new", "new")])
def test_a_renewal_passes_its_arguments_in_order(new, passed):
    old = PasswordHasher(secret=b"old", limits=Limits(100000, 11, 12, 1000000))
    newest = PasswordHasher(3, 64, 4, 5, 8, type=Type.I, secret=new.encode())
    assert old.verify_and_update(TEXT, "word", associated_data=b"data", renew_by=newest) == (True, None)
    assert seen().computing == f"renew {TEXT} word old {passed} data 100000 1 19 64 3 4 5 8"
    assert (seen().telling, seen().threads) == ("length 1 19 64 3 4 5 8", MOST)


def computing(**named):
    """Yield the calls that take a progress callback."""
    for memory in (None, Memory(64)):
        hasher = PasswordHasher(keep_memory=memory is not None)
        yield from (lambda call=call: call(memory=memory, **named) for call in CALLS.values())
        yield lambda: hasher.hash("p", **named)
        yield lambda: hasher.verify(TEXT, "p", **named)
        yield lambda: hasher.verify_and_update(TEXT, "p", **named)


def in_a_thread(call):
    with concurrent.futures.ThreadPoolExecutor(1) as pool:
        pool.submit(call).result()
    return seen().progress


def test_a_call_reports_progress_in_the_main_thread_or_if_asked():
    for call in computing():
        call()
        assert (seen().progress, in_a_thread(call)) == (0, -1)
    told = []
    for call in computing(progress=lambda *progress: told.append(progress)):
        call()
        assert (seen().progress, in_a_thread(call), told) == (0, 0, [(1, 12)] * 2)
        told.clear()


@pytest.mark.parametrize("error", [ValueError("enough"), KeyboardInterrupt(), SystemExit(3)])
@pytest.mark.parametrize("number", [HEADER["STOPPED"], 0, MISMATCH])
def test_an_exception_of_progress_stops_a_call_whatever_the_library_returns(error, number):
    def progress(*_):
        raise error

    set_answers(then=number)
    for call in computing(progress=progress):
        with pytest.raises(type(error)) as raised:
            call()
        assert raised.value is error and seen().progress != 0


@pytest.mark.parametrize("call, threads", [
    (lambda: hash_secret(b"p", b"somesalt", 3, 640, 40, 5, Type.ID), 40), (CALLS["hash_raw"], 4),
    (lambda: PasswordHasher(parallelism=3).hash("p"), 3), (lambda: PasswordHasher().verify(TEXT, "p"), MOST),
    (lambda: tune(1, parallelism=3), 3)])
def test_a_call_asks_for_as_many_threads_as_lanes_or_for_any_number_to_verify(call, threads):
    call()
    assert seen().threads == threads
