"""A search for strong settings that this machine computes in a given time."""
from types import SimpleNamespace

from ._library import Refused, Settings, require_number, tuned
from ._password_hasher import DEFAULT_MEMORY_COST
from ._pool import Pool
from ._settings import Parameters
from .exceptions import HashingError
from .low_level import Type
from .profiles import OWASP

TYPE_CHECKING = False
if TYPE_CHECKING:
    from typing import Optional

    from ._library import Progress

_NANOSECONDS = 10**6  # of a millisecond
_MOST_MILLISECONDS = 10**9  # eleven days


class Tuning(SimpleNamespace):
    """The settings that `tune` found, and the time of a hash with them, the shortest of several."""

    parameters: Parameters
    milliseconds: float


def tune(milliseconds: float, memory_cost: int = DEFAULT_MEMORY_COST, parallelism: int = 1) -> Tuning:
    """Find strong settings whose hash takes at most this number of `milliseconds` on this machine.

    The search halves `memory_cost` KiB until a hash fits into the time, and then adds as many passes as fit, within the
    default limits. It computes several hashes.

    Raises `ValueError` if even the weakest settings that protect passwords (7 MiB and 5 passes, or the same work) take
    longer or `memory_cost` is lower, and `HashingError` if the settings are rejected or memory cannot be allocated.
    """
    return _search(milliseconds, memory_cost, parallelism)


async def tune_async(milliseconds: float, memory_cost: int = DEFAULT_MEMORY_COST, parallelism: int = 1) -> Tuning:
    """Do what `tune` does, in a thread, so that the event loop goes on meanwhile. Cancelling the task ends the search.

    Raises what `tune` raises, and `BusyError` if the system denies the thread.
    """
    tuning: Tuning = await Pool(1, 0).run(_search, (milliseconds, memory_cost, parallelism), {})
    return tuning


def _search(
    milliseconds: float, memory_cost: int, parallelism: int, progress: "Optional[Progress]" = None
) -> Tuning:
    if not isinstance(milliseconds, (int, float)) or isinstance(milliseconds, bool):
        raise TypeError(f"'milliseconds' must be a number, not {milliseconds.__class__.__name__}")
    require_number("memory_cost", memory_cost, ValueError)
    require_number("parallelism", parallelism, HashingError)
    most = Settings(OWASP.type.value, OWASP.version, memory_cost, OWASP.time_cost, parallelism, OWASP.hash_len)
    within = min(milliseconds, _MOST_MILLISECONDS) if milliseconds > 0 else 0  # No time is below NaN milliseconds.
    try:
        found = tuned(most, int(within * _NANOSECONDS), progress)
    except Refused as refused:
        raise HashingError(str(refused)) from None
    if found is None:
        raise ValueError(
            f"with at most {memory_cost} KiB no settings that protect passwords take at most {milliseconds} ms here"
        )
    own = found.settings
    parameters = Parameters(
        Type(own.variant), own.version, OWASP.salt_len, own.hash_length, own.time_cost, own.mem_cost, own.lanes)
    return Tuning(parameters=parameters, milliseconds=found.nanoseconds / _NANOSECONDS)
