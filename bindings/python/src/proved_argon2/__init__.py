"""Argon2 password hashing (RFC 9106) with a machine-checked proof. The names are those of argon2-cffi.

    >>> from proved_argon2 import PasswordHasher
    >>> hasher = PasswordHasher()
    >>> encoded = hasher.hash("correct horse battery staple")
    >>> hasher.verify(encoded, "correct horse battery staple")
    True

`encoded` is an encoded hash (PHC string): store it for the user. `AsyncPasswordHasher` is for services that use
asyncio, `PepperedHasher` for services with a pepper, `AsyncPepperedHasher` for those with both, and `tune` finds
settings for this machine. `low_level` has calls over bytes, and `profiles` has recommended settings. The exceptions
that the calls raise are here and, as in argon2-cffi, in `exceptions`.

The constants `DEFAULT_*` are the settings of `PasswordHasher()`: the memory in KiB, lengths in bytes, and the time in
passes.
"""
from . import exceptions, low_level, profiles
from ._async_hasher import AsyncPasswordHasher, AsyncPepperedHasher
from ._password_hasher import (
    DEFAULT_HASH_LENGTH,
    DEFAULT_MEMORY_COST,
    DEFAULT_PARALLELISM,
    DEFAULT_RANDOM_SALT_LENGTH,
    DEFAULT_TIME_COST,
    PasswordHasher,
    extract_parameters,
    hash_password,
    hash_password_raw,
    verify_password,
)
from ._peppers import PepperedHasher
from ._settings import DEFAULT_LIMITS, Limits, Parameters
from ._tuning import Tuning, tune, tune_async
from .exceptions import (
    Argon2Error,
    BusyError,
    HashingError,
    InvalidHash,
    InvalidHashError,
    TooCostlyError,
    UnknownPepperError,
    UnsupportedParametersError,
    VerificationError,
    VerifyMismatchError,
)
from .low_level import Type

__version__ = "1.0.0"

# This makes `help` and `repr` name these as users import them.
for _public in (
    AsyncPasswordHasher, AsyncPepperedHasher, Limits, Parameters, PasswordHasher, PepperedHasher, Tuning, tune,
    tune_async,
):
    _public.__module__ = __name__
del _public

__all__ = [
    "Argon2Error",
    "AsyncPasswordHasher",
    "AsyncPepperedHasher",
    "BusyError",
    "DEFAULT_HASH_LENGTH",
    "DEFAULT_LIMITS",
    "DEFAULT_MEMORY_COST",
    "DEFAULT_PARALLELISM",
    "DEFAULT_RANDOM_SALT_LENGTH",
    "DEFAULT_TIME_COST",
    "HashingError",
    "InvalidHash",
    "InvalidHashError",
    "Limits",
    "Parameters",
    "PasswordHasher",
    "PepperedHasher",
    "TooCostlyError",
    "Tuning",
    "Type",
    "UnknownPepperError",
    "UnsupportedParametersError",
    "VerificationError",
    "VerifyMismatchError",
    "exceptions",
    "extract_parameters",
    "hash_password",
    "hash_password_raw",
    "low_level",
    "profiles",
    "tune",
    "tune_async",
    "verify_password",
]
