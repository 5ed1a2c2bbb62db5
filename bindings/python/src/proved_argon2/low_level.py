"""The calls that take bytes and settings.

As in argon2-cffi, `secret` is the password here. `key` is what RFC 9106 calls the secret value (a pepper), and
`associated_data` is other data that the hash depends on.

A hash uses at most one thread for each lane, the caller's among them, and at most 16 to verify. If `memory` is a
`Memory`, the call reuses a buffer of it.

`progress` is called as `progress(done, all)` after each slice of the computation; there are four slices in a pass. If
it raises an exception, the call stops, clears its memory and raises the same. The same happens to a call in the main
thread if a signal handler raises, as Ctrl-C does with `KeyboardInterrupt`.
"""
from enum import Enum

from ._library import (
    DECODING_FAIL,
    MISMATCH,
    OUT_OF_MEMORY,
    TOO_COSTLY,
    Refused,
    Settings,
    hash_pieces,
    message,
    read,
    require_bytes,
    require_number,
    verify_pieces,
)
from ._memory import Memory, current_thread
from ._settings import Limits, numbers_of
from .exceptions import (
    Argon2Error,
    HashingError,
    InvalidHashError,
    TooCostlyError,
    VerificationError,
    VerifyMismatchError,
)

TYPE_CHECKING = False
if TYPE_CHECKING:
    from typing import Literal, Optional, Sequence

    from ._library import Progress

ARGON2_VERSION = 19
"""The version that RFC 9106 defines, 0x13."""

__all__ = [
    "ARGON2_VERSION",
    "Limits",
    "Memory",
    "Type",
    "error_to_str",
    "hash_secret",
    "hash_secret_raw",
    "verify_secret",
]


class Type(Enum):
    """The variants of Argon2 (RFC 9106, section 3.4). Choose `ID` for passwords."""

    D = 0
    """Argon2d: memory accesses depend on the password."""

    I = 1  # noqa: E741
    """Argon2i: memory accesses do not depend on the password."""

    ID = 2
    """Argon2id: memory accesses do not depend on the password in the first half of the first pass."""


def hash_secret(
    secret: bytes,
    salt: bytes,
    time_cost: int,
    memory_cost: int,
    parallelism: int,
    hash_len: int,
    type: Type,
    version: int = ARGON2_VERSION,
    *,
    key: bytes = b"",
    associated_data: bytes = b"",
    memory: "Optional[Memory]" = None,
    progress: "Optional[Progress]" = None,
) -> bytes:
    """Hash the password `secret`. Return an encoded hash (PHC string).

    `time_cost` is the number of passes, `memory_cost` the memory in KiB, `parallelism` the number of lanes, and
    `hash_len` the length of the hash in bytes.

    Raises `HashingError` if the settings are rejected or memory cannot be allocated.
    """
    pieces = require_bytes(secret=secret, salt=salt, key=key, associated_data=associated_data)
    numbers = (version, memory_cost, time_cost, parallelism, hash_len)
    return _hash(True, pieces, numbers, type, memory, progress)


def hash_secret_raw(
    secret: bytes,
    salt: bytes,
    time_cost: int,
    memory_cost: int,
    parallelism: int,
    hash_len: int,
    type: Type,
    version: int = ARGON2_VERSION,
    *,
    key: bytes = b"",
    associated_data: bytes = b"",
    memory: "Optional[Memory]" = None,
    progress: "Optional[Progress]" = None,
) -> bytes:
    """Hash the password `secret` with the settings of `hash_secret`. Return the `hash_len` bytes of the hash alone.

    Raises `HashingError` if the settings are rejected or memory cannot be allocated.
    """
    pieces = require_bytes(secret=secret, salt=salt, key=key, associated_data=associated_data)
    numbers = (version, memory_cost, time_cost, parallelism, hash_len)
    return _hash(False, pieces, numbers, type, memory, progress)


def _hash(
    is_encoded: bool,
    pieces: "Sequence[bytes]",
    numbers: "Sequence[int]",
    type: Type,
    memory: "Optional[Memory]",
    progress: "Optional[Progress]",
) -> bytes:
    """Hash with settings. Each number must have at most 32 bits."""
    for name, number in zip(("version", "memory_cost", "time_cost", "parallelism", "hash_len"), numbers):
        require_number(name, number, HashingError)
    settings = Settings(Type(type).value, *numbers)
    try:
        return hash_pieces(is_encoded, pieces, settings, memory or current_thread.memory, progress)
    except Refused as refused:
        raise HashingError(str(refused)) from None


def verify_secret(
    hash: bytes,
    secret: bytes,
    type: Type,
    *,
    key: bytes = b"",
    associated_data: bytes = b"",
    limits: "Optional[Limits]" = None,
    memory: "Optional[Memory]" = None,
    progress: "Optional[Progress]" = None,
) -> "Literal[True]":
    """Return `True` if the password `secret` matches the encoded hash `hash` of this type.

    Without `limits`, the call uses as much memory and time as the hash names.

    Raises `VerifyMismatchError` if the password is wrong, and `TooCostlyError` if the hash is above `limits`. Raises
    `VerificationError` if `hash` is not an encoded hash of this type, its settings are rejected or memory cannot be
    allocated.
    """
    pieces = require_bytes(hash=hash, secret=secret, key=key, associated_data=associated_data)
    numbers = numbers_of(limits)
    try:
        if read(hash).settings.variant != Type(type).value:
            raise Refused(DECODING_FAIL)
        verify_pieces(pieces, numbers, memory or current_thread.memory, progress)
    except Refused as refused:
        raise verifying_error(refused) from None
    return True


def verifying_error(refused: Refused) -> VerificationError:
    """Return the exception for a password that was not verified."""
    errors = {MISMATCH: VerifyMismatchError, TOO_COSTLY: TooCostlyError}
    return errors.get(refused.number, VerificationError)(str(refused))


def error_to_str(error: int) -> str:
    """Return the message of an error's number. The numbers are this library's, not those of libargon2."""
    require_number("error", error, ValueError)
    return message(error)


def reading_error(refused: Refused) -> Exception:
    """Return the exception for an encoded hash that cannot be decoded: it is invalid, or memory ran out."""
    if refused.number == DECODING_FAIL:
        return InvalidHashError(str(refused))
    return MemoryError(str(refused)) if refused.number == OUT_OF_MEMORY else Argon2Error(str(refused))
