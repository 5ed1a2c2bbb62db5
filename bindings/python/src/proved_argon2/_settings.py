"""The settings of a hash, and the limits of what an encoded hash may cost."""
from collections import namedtuple
from types import SimpleNamespace

from ._library import MAX_NUMBER, NumberLimits, default_limits, limits_for, require_number

TYPE_CHECKING = False
if TYPE_CHECKING:
    from typing import Any, Dict, Optional, Tuple
    from typing import Type as Class

    from .low_level import Type


class _Fields:
    """The attribute by which the functions of `dataclasses` know the fields of a class. It is made when one of them
    reads it, since importing `dataclasses` takes as long as importing this package.
    """

    def __get__(self, record: object, kind: type) -> "Dict[str, Any]":
        from dataclasses import make_dataclass

        fields: "Dict[str, Any]" = getattr(make_dataclass(kind.__name__, kind.__annotations__), "__dataclass_fields__")
        return fields


class Parameters(SimpleNamespace):
    """The settings of a hash: lengths are in bytes, and the memory is in KiB.

    As in argon2-cffi, the fields can be changed (Django sets `salt_len`), and the functions of `dataclasses` accept it.
    """

    type: "Type"
    version: int
    salt_len: int
    hash_len: int
    time_cost: int
    memory_cost: int
    parallelism: int

    __dataclass_fields__ = _Fields()

    def __init__(
        self,
        type: "Type",
        version: int,
        salt_len: int,
        hash_len: int,
        time_cost: int,
        memory_cost: int,
        parallelism: int,
    ) -> None:
        super().__init__(
            type=type, version=version, salt_len=salt_len, hash_len=hash_len, time_cost=time_cost,
            memory_cost=memory_cost, parallelism=parallelism,
        )

    def __reduce__(self) -> "Tuple[Class[Parameters], Tuple[Any, ...]]":
        return Parameters, (*vars(self).values(),)


_DEFAULT = default_limits()


class Limits(namedtuple("Limits", ("memory_cost", "time_cost", "parallelism", "work"), defaults=(
    _DEFAULT.mem_cost, _DEFAULT.time_cost, _DEFAULT.lanes, _DEFAULT.work,
))):
    """The most memory in KiB, passes and lanes that a verified hash may name, and the most `work`.

    `work` is the memory in KiB times the passes. The time of a hash is proportional to it.

    The defaults are the library's, which docs/USE.md lists. The recommendations of RFC 9106, OWASP, libsodium and
    Django are within these limits. The fields cannot be changed; `_replace` makes new `Limits`, as for each named
    tuple.
    """

    __slots__ = ()


#: The limits of a `PasswordHasher` without the argument `limits`. It raises them to its own settings.
DEFAULT_LIMITS = Limits()


def default_limits_of(memory_cost: int, time_cost: int, parallelism: int) -> Limits:
    """Return the default limits, raised to settings, so that a hasher can verify its own hashes."""
    most = limits_for(*(min(max(number, 0), MAX_NUMBER) for number in (memory_cost, time_cost, parallelism)))
    return Limits(most.mem_cost, most.time_cost, most.lanes, most.work)


def numbers_of(limits: "Optional[Limits]") -> "Optional[NumberLimits]":
    """Return limits as the library takes them, or `None`. Raises `ValueError` if one is no number of its size."""
    if limits is None:
        return None
    if not isinstance(limits, Limits):
        raise TypeError(f"'limits' must be Limits or None, not {limits.__class__.__name__}")
    for name, number in zip(limits._fields, limits):
        require_number(name, number, ValueError, bits=64 if name == "work" else 32)
    return NumberLimits(*limits)


def require_own_settings_within(limits: Limits, memory_cost: int, time_cost: int, parallelism: int) -> None:
    """Raise `ValueError` if a hasher with these settings and limits could not verify its own hashes."""
    own = (memory_cost, time_cost, parallelism, memory_cost * time_cost)
    for name, limit, number in zip(limits._fields, limits, own):
        if number > limit:
            raise ValueError(
                f"the limit {name}={limit} is below this hasher's own {name}, {number}: it could not verify its hashes"
            )
