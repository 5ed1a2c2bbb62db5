"""Kept buffers for the blocks of hashes, which several calls use one after another."""
import threading

from ._library import Refused, buffers_free, buffers_free_idle, buffers_new, require_number
from ._machine import processors
from .exceptions import HashingError

TYPE_CHECKING = False
if TYPE_CHECKING:
    from typing import Callable, Optional, Tuple, Type


class Memory:
    """At most `most` buffers for hashes of at most `memory_cost` KiB. Without `most`, as many as there are processors.

    A call takes an idle buffer, or makes one. If all are in use, or its settings need more, it allocates memory of its
    own. Each call clears what it used. When a call ends, it frees the buffers that have been idle for ten seconds.
    Without further calls, buffers stay until the `Memory` is deleted.

    Any thread may use it, and so may a forked child. A copy starts without buffers, and so does an unpickled one.

    Raises `HashingError` if no hash can have this memory, `most` is above 8,192, or memory cannot be allocated.
    """

    handle: "Optional[int]" = None

    def __init__(self, memory_cost: int, most: "Optional[int]" = None) -> None:
        self.memory_cost, self.most = memory_cost, processors() if most is None else most
        require_number("memory_cost", memory_cost, HashingError)
        require_number("most", self.most, ValueError)
        try:
            self.handle = buffers_new(memory_cost, self.most)
        except Refused as refused:
            raise HashingError(str(refused)) from None

    def free_idle(self) -> None:
        """Free the buffers that have been idle for ten seconds."""
        buffers_free_idle(self.handle)

    def __reduce__(self) -> "Tuple[Type[Memory], Tuple[int, int]]":
        return Memory, (self.memory_cost, self.most)

    def __del__(self, free: "Callable[[Optional[int]], None]" = buffers_free) -> None:
        free(self.handle)  # The default keeps this function usable while Python ends, when names may be gone.


class _CurrentThread(threading.local):
    """What belongs to the current thread: `memory` is set in the threads of a pool."""

    memory: "Optional[Memory]" = None


#: The buffers of the current thread, for calls that are passed no `Memory`.
current_thread = _CurrentThread()
