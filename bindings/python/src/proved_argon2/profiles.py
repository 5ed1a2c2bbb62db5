"""Recommended settings.

As in argon2-cffi, `RFC_9106_LOW_MEMORY` is the default of `PasswordHasher`. It uses four threads for its four lanes.
`OWASP` is from OWASP's Password Storage Cheat Sheet, and uses one thread.
"""
from ._settings import Parameters
from .low_level import ARGON2_VERSION, Type

__all__ = [
    "CHEAPEST",
    "OWASP",
    "PRE_21_2",
    "RFC_9106_HIGH_MEMORY",
    "RFC_9106_LOW_MEMORY",
    "get_default_parameters",
]


def _profile(time_cost: int, memory_cost: int, parallelism: int, salt_len: int = 16, hash_len: int = 32) -> Parameters:
    return Parameters(Type.ID, ARGON2_VERSION, salt_len, hash_len, time_cost, memory_cost, parallelism)


#: The first recommendation of RFC 9106.
RFC_9106_HIGH_MEMORY = _profile(time_cost=1, memory_cost=2097152, parallelism=4)

#: The recommendation of RFC 9106 for machines with little memory.
RFC_9106_LOW_MEMORY = _profile(time_cost=3, memory_cost=65536, parallelism=4)

#: The recommendation of OWASP.
OWASP = _profile(time_cost=2, memory_cost=19456, parallelism=1)

#: The default of argon2-cffi before its version 21.2.
PRE_21_2 = _profile(time_cost=2, memory_cost=102400, parallelism=8, hash_len=16)

#: The cheapest settings that are possible, for tests. They protect no password.
CHEAPEST = _profile(time_cost=1, memory_cost=8, parallelism=1, salt_len=8, hash_len=4)


def get_default_parameters() -> Parameters:
    """Return the settings of `PasswordHasher()`, `RFC_9106_LOW_MEMORY`, as a copy that can be changed."""
    return Parameters(**vars(RFC_9106_LOW_MEMORY))
