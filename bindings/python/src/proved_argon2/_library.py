"""Loads the shared library, and makes its calls over `bytes`.

The library checks, reads, computes and compares. This package translates arguments, results and errors, and adds what
a service in Python needs: a queue for asyncio, and peppers with IDs.
"""
import ctypes
import os
import sys
import threading
from contextlib import suppress

TYPE_CHECKING = False
if TYPE_CHECKING:
    from typing import Any, Callable, Dict, Generator, Iterator, List, Optional, Sequence, Tuple, Type, Union

    from ._memory import Memory

    Progress = Callable[[int, int], object]

SONAME = "libproved_argon2.so.1"
VARIABLE = "PROVED_ARGON2_LIBRARY"

# Numbers that calls return. OK also means that a password matches.
OK = 0
DECODING_FAIL = 19
OUT_OF_MEMORY = 20
MISMATCH = 64
NOT_ASCII = 66
NEEDS_REHASH = 68
TOO_COSTLY = 69

# The greatest value of a setting.
MAX_NUMBER = 0xFFFFFFFF
# The slices of a pass.
SLICES = 4
# The most kept buffers of a handle.
MAX_BUFFERS = 8192


class Settings(ctypes.Structure):
    """The header's `proved_argon2_settings`."""

    _fields_ = [
        (name, ctypes.c_uint32)
        for name in ("variant", "version", "mem_cost", "time_cost", "lanes", "hash_length")
    ]


class Stored(ctypes.Structure):
    """The header's `proved_argon2_stored`."""

    _fields_ = [("settings", Settings), ("salt_length", ctypes.c_uint32)]


class Tuned(ctypes.Structure):
    """The header's `proved_argon2_tuning`."""

    _fields_ = [("settings", Settings), ("nanoseconds", ctypes.c_uint64)]


class NumberLimits(ctypes.Structure):
    """The header's `proved_argon2_limits`."""

    _fields_ = [
        ("mem_cost", ctypes.c_uint32),
        ("time_cost", ctypes.c_uint32),
        ("lanes", ctypes.c_uint32),
        ("work", ctypes.c_uint64),
    ]


# The header's `proved_argon2_progress`, without its last two parameters: this package counts the slices itself.
_Progress = ctypes.CFUNCTYPE(ctypes.c_int, ctypes.c_void_p)


class Options(ctypes.Structure):
    """The header's `proved_argon2_options`."""

    _fields_ = [
        ("size", ctypes.c_size_t),
        ("threads", ctypes.c_uint32),
        ("memory", ctypes.c_void_p),
        ("memory_len", ctypes.c_size_t),
        ("limits", ctypes.POINTER(NumberLimits)),
        ("progress", _Progress),
        ("arg", ctypes.c_void_p),
        ("new_settings", ctypes.POINTER(Settings)),
        ("buffers", ctypes.c_void_p),
        ("new_salt_len", ctypes.c_size_t),
    ]


class Refused(Exception):
    """The library returned an error's number. NOT_ASCII, for a byte above 127, counts as an invalid encoded hash."""

    def __init__(self, number: int, said: "Optional[str]" = None) -> None:
        self.number = DECODING_FAIL if number == NOT_ASCII else number
        super().__init__(said or message(self.number))


def _files() -> "Iterator[str]":
    """Yield the files that may be the library: only the one that the environment names, if it names one. Otherwise the
    file in the wheel, what the system's loader finds, and the file that `./install` puts beside this Python.
    """
    named = os.environ.get(VARIABLE)
    if named:
        yield named
        return
    here = os.path.dirname(os.path.realpath(__file__))
    if os.path.isdir(os.path.join(here, "libs")):
        yield os.path.join(here, "libs", SONAME)
    yield SONAME
    yield os.path.join(sys.prefix, "lib", SONAME)


# The types of each call's parameters, and of its result.
_BYTES: "List[Any]" = [ctypes.c_char_p, ctypes.c_size_t]
_SETTINGS: "List[Any]" = [ctypes.POINTER(Settings)]
_HASHING: "List[Any]" = [ctypes.POINTER(Options), *4 * _BYTES, *_SETTINGS, *_BYTES]
_CALLS: "Dict[str, Tuple[List[Any], Any]]" = {
    "hash_raw_with": (_HASHING, ctypes.c_uint32),
    "hash_encoded_with": (_HASHING, ctypes.c_uint32),
    "verify_encoded_with": ([ctypes.POINTER(Options), *4 * _BYTES], ctypes.c_uint32),
    "default_limits": ([], NumberLimits),
    "limits_for": (_SETTINGS, NumberLimits),
    "hashes_at_once": ([*_SETTINGS, ctypes.c_uint64], ctypes.c_uint32),
    "read": ([*_BYTES, ctypes.POINTER(Stored)], ctypes.c_uint32),
    "encoded_len": ([*_SETTINGS, ctypes.c_uint32], ctypes.c_uint64),
    "password_renew": ([ctypes.POINTER(Options), *6 * _BYTES], ctypes.c_uint32),
    "password_verify_unknown": ([ctypes.POINTER(Options), *_SETTINGS, *2 * _BYTES], ctypes.c_uint32),
    "buffers_new": ([*_SETTINGS, ctypes.c_uint32, ctypes.POINTER(ctypes.c_void_p)], ctypes.c_uint32),
    "buffers_free_idle": ([ctypes.c_void_p], ctypes.c_uint32),
    "buffers_free": ([ctypes.c_void_p], None),
    "tune": (
        [ctypes.POINTER(Options), *_SETTINGS, ctypes.c_uint64, ctypes.POINTER(Tuned)], ctypes.c_uint32),
    "message": ([ctypes.c_uint32], ctypes.c_char_p),
    "library_version": ([], ctypes.c_uint32),
}


def _with_memory_errors(call: "Callable[..., Any]") -> "Callable[..., Any]":
    """Return a call that raises `Refused` if memory runs out while `ctypes` converts its arguments.

    `ctypes` raises `ArgumentError` then, and for no other reason, since all arguments have the types of `_CALLS`.
    """

    def made(*arguments: "Any") -> "Any":
        try:
            return call(*arguments)
        except ctypes.ArgumentError:  # The library's message would need a call, which might fail in the same way.
            raise Refused(OUT_OF_MEMORY, "Out of memory") from None

    return made


def _load() -> ctypes.CDLL:
    """Load the library, and declare the types of its calls."""
    reasons = []
    for file in _files():
        try:
            library = ctypes.CDLL(file)
            for name, types in _CALLS.items():
                call = getattr(library, f"proved_argon2_{name}")
                call.argtypes, call.restype = types
                setattr(library, f"proved_argon2_{name}", _with_memory_errors(call))
        except (OSError, AttributeError) as error:
            reasons.append(str(error))
            continue
        if library.proved_argon2_library_version() == 0:
            raise ImportError(f"{file} has no build for a processor as old as this one")
        return library
    raise ImportError(
        f"{SONAME} cannot be loaded: run ./install in the repository of proved-argon2, or let pip compile the library"
        f" from the package's archive of sources, or name the file in {VARIABLE} ({'; '.join(reasons)})"
    )


_library = _load()


def require_number(name: str, number: object, error: "Type[Exception]", bits: int = 32) -> None:
    """Raise `TypeError` if a number is not an integer, and `error` if it is negative or has more bits.

    `ctypes` would pass only the lowest bits.
    """
    if not isinstance(number, int) or isinstance(number, bool):
        raise TypeError(f"'{name}' must be int, not {number.__class__.__name__}")
    if not 0 <= number < 1 << bits:
        raise error(f"{name} is {number}, which is not a number of {bits} bits")


def require_bytes(**pieces: bytes) -> "Tuple[bytes, ...]":
    """Return the arguments. Raise `TypeError` with the name of one that is not `bytes`."""
    for name, piece in pieces.items():
        if not isinstance(piece, bytes):
            raise TypeError(f"'{name}' must be bytes, not {piece.__class__.__name__}")
    return (*pieces.values(),)


def _length(piece: bytes) -> int:
    """Return the number of bytes, even if a subclass defines another length."""
    return bytes.__len__(piece)


def _with_lengths(pieces: "Sequence[bytes]") -> "List[Union[bytes, int]]":
    """Return each piece followed by its length, as the library takes them."""
    arguments: "List[Union[bytes, int]]" = []
    for piece in pieces:
        arguments += piece, _length(piece)
    return arguments


def _require(number: int) -> None:
    if number != OK:
        raise Refused(number)


def _buffer(length: int) -> "ctypes.Array[ctypes.c_char]":
    """Return a buffer of zeros for a result."""
    try:
        return ctypes.create_string_buffer(length)
    except (MemoryError, OverflowError):
        raise Refused(OUT_OF_MEMORY) from None


class Stop:
    """A progress callback that only stops a call, once `is_stopped` is set."""

    is_stopped = False

    def __call__(self, done: int, slices: int) -> None:
        """Raise `CancelledError` if the call is stopped."""
        if self.is_stopped:
            from asyncio import CancelledError

            raise CancelledError


def _answers(
    progress: "Optional[Progress]", slices: "Sequence[int]", raised: "List[BaseException]"
) -> "Generator[int, object, None]":
    """Yield what the callback of a call returns: 0 to go on, or 1 to stop after an exception, which `raised` gets.
    `slices` has the number of slices of each hash that the call computes.

    A callback is a generator's `send`, because Python runs the handlers of signals when it resumes a generator. Then
    the `try` catches what they raise. In a function, handlers would run before the first line, and their exceptions be
    lost. So the generator first has to be started.
    """
    told = ((done, of_hash) for of_hash in slices for done in range(1, of_hash + 1))
    try:
        while True:
            yield 0
            if progress is not None:
                progress(*next(told, (0, 0)))
    except GeneratorExit:
        return
    except BaseException as error:
        raised.append(error)
    while True:
        yield 1


def _compute(
    call: "Callable[..., Any]",
    options: Options,
    arguments: "Sequence[Any]",
    memory: "Optional[Memory]",
    progress: "Optional[Progress]",
    *slices: int,
) -> int:
    """Make a call whose hashes have so many slices, in kept buffers if there is a `memory`, and return its number.

    It has a callback only if something can stop it: without one, the proved code computes a whole hash of one lane.
    Python runs the handlers of signals, which may raise an exception, in the main thread only.
    """
    if memory is not None:
        options.buffers = memory.handle
    if progress is None and threading.get_ident() != threading.main_thread().ident:
        return int(call(options, *arguments))
    raised: "List[BaseException]" = []
    answers = _answers(progress, slices, raised)
    next(answers)
    options.progress = _Progress(answers.send)
    number = int(call(options, *arguments))
    answers.close()  # Otherwise it would stay in memory, since `options` refers to it.
    if raised:
        raise raised.pop()
    return number


def hash_pieces(
    is_encoded: bool,
    pieces: "Sequence[bytes]",
    settings: Settings,
    memory: "Optional[Memory]",
    progress: "Optional[Progress]",
) -> bytes:
    """Return the tag, or the encoded hash, of four pieces: password, salt, secret and associated data.

    The library uses a thread for each lane.
    """
    if is_encoded:
        call = _library.proved_argon2_hash_encoded_with
        out = _buffer(text_length(settings, _length(pieces[1])))
    else:
        call = _library.proved_argon2_hash_raw_with
        out = _buffer(settings.hash_length)
    options, arguments = _options(settings.lanes), [*_with_lengths(pieces), settings, out, len(out)]
    _require(_compute(call, options, arguments, memory, progress, SLICES * settings.time_cost))
    return out.value if is_encoded else out.raw


def verify_pieces(
    pieces: "Sequence[bytes]",
    limits: "Optional[NumberLimits]",
    memory: "Optional[Memory]",
    progress: "Optional[Progress]",
) -> None:
    """Verify four pieces: an encoded hash, password, secret and associated data. The library uses a thread for each
    lane, and at most 16.

    Raises `Refused` if they do not match, or the hash is above the limits.
    """
    call, options = _library.proved_argon2_verify_encoded_with, _options_within(limits)
    _require(_compute(call, options, _with_lengths(pieces), memory, progress, *_slices_of(pieces[0], progress)))


def renew_pieces(
    pieces: "Sequence[bytes]",
    limits: "Optional[NumberLimits]",
    memory: "Optional[Memory]",
    progress: "Optional[Progress]",
    new: "Tuple[Settings, int, int]",
) -> "Optional[bytes]":
    """Verify five pieces: an encoded hash, password, secret, another secret for new hashes or nothing, and associated
    data. `new` has the settings and the length of the salt of new hashes, and the length of their text, or 0 if there
    can be none. Return a new encoded hash, or `None` if there is nothing to store.

    Raises `Refused` as `verify_pieces` does.
    """
    settings, salt_length, length = new
    text = None
    with suppress(Refused):  # Without memory for a new hash, the old one stays.
        text = _buffer(length)
    call, options = _library.proved_argon2_password_renew, _options_within(limits)
    options.new_settings, options.new_salt_len = ctypes.pointer(settings), salt_length
    slices = [*_slices_of(pieces[0], progress), SLICES * settings.time_cost]
    number = _compute(call, options, [*_with_lengths(pieces), text, len(text or b"")], memory, progress, *slices)
    if text is not None and number == NEEDS_REHASH:
        return text.value
    _require(number)
    return None


def verify_unknown(
    settings: Settings, password: bytes, secret: bytes, memory: "Optional[Memory]", progress: "Optional[Progress]"
) -> None:
    """Compute a hash with these settings, which takes as long as verifying one. Raises `Refused` if that fails."""
    call, options = _library.proved_argon2_password_verify_unknown, _options(MAX_NUMBER)
    arguments = [settings, *_with_lengths((password, secret))]
    number = _compute(call, options, arguments, memory, progress, SLICES * settings.time_cost)
    if number != MISMATCH:
        raise Refused(number)


def tuned(most: Settings, nanoseconds: int, progress: "Optional[Progress]") -> "Optional[Tuned]":
    """Search for settings with at most the memory of `most`. Return `None` if none is fast enough."""
    found = Tuned()
    call, options = _library.proved_argon2_tune, _options(most.lanes)
    number = _compute(call, options, [most, nanoseconds, found], None, progress)
    if number == TOO_COSTLY:
        return None
    _require(number)
    return found


def _options(threads: int) -> Options:
    return Options(ctypes.sizeof(Options), threads)


def _options_within(limits: "Optional[NumberLimits]") -> Options:
    options = _options(MAX_NUMBER)
    if limits is not None:
        options.limits = ctypes.pointer(limits)
    return options


def _slices_of(text: bytes, progress: "Optional[Progress]") -> "List[int]":
    """Return how many slices the hash of a text has, if a callback is to be told."""
    return [] if progress is None else [SLICES * read(text).settings.time_cost]


def text_length(settings: Settings, salt_length: int) -> int:
    """Return the length of an encoded hash with these settings, and of the zero behind it."""
    return int(_library.proved_argon2_encoded_len(settings, salt_length)) + 1


def buffers_new(memory_cost: int, most: int) -> int:
    """Return the address of a handle for at most `most` kept buffers of `memory_cost` KiB."""
    handle = ctypes.c_void_p()
    _require(_library.proved_argon2_buffers_new(_of_memory(memory_cost), most, handle))
    return handle.value or 0


def buffers_free_idle(handle: "Optional[int]") -> None:
    """Free the buffers of a handle that have been idle for ten seconds."""
    _library.proved_argon2_buffers_free_idle(handle)


def buffers_free(handle: "Optional[int]", library: ctypes.CDLL = _library) -> None:
    """Free a handle and its buffers.

    The default argument keeps the library usable while Python ends, when this module's names may be gone.
    """
    library.proved_argon2_buffers_free(handle)


def default_limits() -> NumberLimits:
    """Return the library's default limits."""
    limits: NumberLimits = _library.proved_argon2_default_limits()
    return limits


def limits_for(memory_cost: int, time_cost: int, parallelism: int) -> NumberLimits:
    """Return the library's default limits, each raised to that of these settings."""
    settings = Settings(mem_cost=memory_cost, time_cost=time_cost, lanes=parallelism)
    limits: NumberLimits = _library.proved_argon2_limits_for(settings)
    return limits


def hashes_at_once(memory_cost: int, memory: int) -> int:
    """Return how many hashes of `memory_cost` KiB fit into so many bytes of memory."""
    return int(_library.proved_argon2_hashes_at_once(_of_memory(memory_cost), memory))


def _of_memory(memory_cost: int) -> Settings:
    return Settings(variant=2, version=0x13, mem_cost=memory_cost, time_cost=1, lanes=1, hash_length=32)


def read(text: bytes) -> Stored:
    """Decode an encoded hash. Raises `Refused` if that is not possible."""
    stored = Stored()
    _require(_library.proved_argon2_read(text, _length(text), stored))
    return stored


def message(number: int) -> str:
    """Return the message of an error's number, which has 32 bits."""
    return str(_library.proved_argon2_message(number), "ascii")
