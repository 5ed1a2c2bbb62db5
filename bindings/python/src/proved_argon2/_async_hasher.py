"""A `PasswordHasher` and a `PepperedHasher` for asyncio."""
from ._library import hashes_at_once
from ._machine import memory, processors
from ._library import MAX_BUFFERS
from ._memory import Memory
from ._password_hasher import PasswordHasher, require_types
from ._peppers import PepperedHasher
from ._pool import Pool

TYPE_CHECKING = False
if TYPE_CHECKING:
    from typing import Any, Callable, Literal, Optional, Tuple, TypeVar, Union

    from ._peppers import Stored

    Result = TypeVar("Result")

_WAITING_FOR_EACH = 16


def _default_concurrency(hasher: PasswordHasher) -> int:
    """How many hashes can run within a quarter of the memory, with a processor for each lane; at least one."""
    by_processors = processors() // max(1, hasher.parallelism)
    return max(1, min(by_processors, hashes_at_once(hasher.memory_cost, memory() // 4)))


class _AsyncCalls:
    """Calls in threads, of which at most `concurrency` compute and at most `waiting` more wait.

    The defaults are those for hashes with the settings of `own`.
    """

    def __init__(self, own: PasswordHasher, concurrency: "Optional[int]", waiting: "Optional[int]") -> None:
        self.concurrency = _default_concurrency(own) if concurrency is None else concurrency
        require_types(concurrency=(self.concurrency, int))
        self.waiting = _WAITING_FOR_EACH * self.concurrency if waiting is None else waiting
        require_types(waiting=(self.waiting, int))
        if self.concurrency < 1 or self.waiting < 0:
            raise ValueError("'concurrency' must be at least 1, and 'waiting' at least 0")
        self._pool = Pool(self.concurrency, self.waiting, Memory(own.memory_cost, min(self.concurrency, MAX_BUFFERS)))

    @property
    def running(self) -> int:
        """How many calls compute now."""
        return len(self._pool.computing)

    @property
    def queued(self) -> int:
        """How many calls wait now. `waiting` is how many may."""
        return self._pool.queued

    @property
    def refused(self) -> int:
        """How many calls have raised `BusyError` so far."""
        return self._pool.refused

    async def run(self, call: "Callable[..., Result]", *arguments: "Any", **named: "Any") -> "Result":
        """Make another call in the same threads, and return its result.

        The call is also passed `progress`, by which it is stopped if the task is cancelled.
        """
        result: "Result" = await self._pool.run(call, arguments, named)
        return result


class AsyncPasswordHasher(_AsyncCalls):
    """A `PasswordHasher` for asyncio, which limits how many hashes are computed at a time.

    At most `concurrency` calls compute at a time, each in a thread. At most `waiting` more calls wait for them. A call
    beyond these raises `BusyError` at once, so that a service can answer "try again later" before memory runs out.
    `BusyError` is also raised if the system denies the only thread; if it denies another one, calls wait for the
    threads that there are.

    By default, `concurrency` is the number of processors divided by the lanes, or less if that many hashes need more
    than a quarter of the memory that this process may use. `waiting` is 16 times as many.

    Cancelling a task takes its call out of the queue, or stops it after the slice that it computes. Then its place is
    free.

    The memory of a hash is kept for the next one, unless that needs more than a hash of `hasher`. Each hash clears what
    it used, and memory that has been idle for ten seconds is freed.

    Several event loops and threads may share an `AsyncPasswordHasher`. A forked child may use it too: the child has
    threads of its own, and calls of the parent take none of its places.
    """

    def __init__(
        self,
        hasher: "Optional[PasswordHasher]" = None,
        *,
        concurrency: "Optional[int]" = None,
        waiting: "Optional[int]" = None,
    ) -> None:
        self.hasher = PasswordHasher() if hasher is None else hasher
        require_types(hasher=(self.hasher, PasswordHasher))
        super().__init__(self.hasher, concurrency, waiting)

    async def hash(
        self, password: "Union[str, bytes]", *, salt: "Optional[bytes]" = None, associated_data: bytes = b""
    ) -> str:
        """Do what `PasswordHasher.hash` does, or raise `BusyError`."""
        return await self.run(self.hasher.hash, password, salt=salt, associated_data=associated_data)

    async def verify(
        self, hash: "Union[str, bytes]", password: "Union[str, bytes]", *, associated_data: bytes = b""
    ) -> "Literal[True]":
        """Do what `PasswordHasher.verify` does, or raise `BusyError`."""
        return await self.run(self.hasher.verify, hash, password, associated_data=associated_data)

    async def verify_and_update(
        self, hash: "Union[str, bytes]", password: "Union[str, bytes]", *, associated_data: bytes = b""
    ) -> "Tuple[bool, Optional[str]]":
        """Do what `PasswordHasher.verify_and_update` does, or raise `BusyError`."""
        return await self.run(self.hasher.verify_and_update, hash, password, associated_data=associated_data)

    async def verify_unknown(self, password: "Union[str, bytes]") -> "Literal[False]":
        """Do what `PasswordHasher.verify_unknown` does, or raise `BusyError`."""
        return await self.run(self.hasher.verify_unknown, password)

    def check_needs_rehash(self, hash: "Union[str, bytes]") -> bool:
        """Do what `PasswordHasher.check_needs_rehash` does, at once: it computes no hash."""
        return self.hasher.check_needs_rehash(hash)


class AsyncPepperedHasher(_AsyncCalls):
    """A `PepperedHasher` for asyncio, which limits how many hashes are computed at a time.

    `AsyncPasswordHasher` describes `concurrency` and `waiting`. Their defaults are those for the settings of `hasher`.
    """

    def __init__(
        self,
        hasher: PepperedHasher,
        *,
        concurrency: "Optional[int]" = None,
        waiting: "Optional[int]" = None,
    ) -> None:
        self.hasher = hasher
        require_types(hasher=(self.hasher, PepperedHasher))
        super().__init__(hasher.hasher, concurrency, waiting)

    async def hash(self, password: "Union[str, bytes]", *, associated_data: bytes = b"") -> "Stored":
        """Do what `PepperedHasher.hash` does, or raise `BusyError`."""
        return await self.run(self.hasher.hash, password, associated_data=associated_data)

    async def verify_and_update(
        self,
        key_id: "Optional[str]",
        hash: "Union[str, bytes]",
        password: "Union[str, bytes]",
        *,
        associated_data: bytes = b"",
    ) -> "Tuple[bool, Optional[Stored]]":
        """Do what `PepperedHasher.verify_and_update` does, or raise `BusyError`."""
        return await self.run(
            self.hasher.verify_and_update, key_id, hash, password, associated_data=associated_data
        )

    async def verify_unknown(self, password: "Union[str, bytes]") -> "Literal[False]":
        """Do what `PepperedHasher.verify_unknown` does, or raise `BusyError`."""
        return await self.run(self.hasher.verify_unknown, password)
