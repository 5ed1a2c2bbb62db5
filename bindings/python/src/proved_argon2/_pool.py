"""The threads in which an `AsyncPasswordHasher` computes, and the queue of the calls that wait for them."""
import atexit
import os
import threading
import time
import weakref
from collections import deque
from functools import partial

from ._library import Stop
from ._memory import current_thread
from .exceptions import BusyError

TYPE_CHECKING = False
if TYPE_CHECKING:
    from asyncio import Future
    from typing import Any, Callable, Deque, Dict, Optional, Tuple

    from ._memory import Memory

# A thread that has had nothing to do for so many seconds frees the memory that is idle, and ends.
IDLE_SECONDS = 10


class Job:
    """A call that a thread makes. `answer`, a future of the running event loop, gets its result or its exception."""

    def __init__(self, call: "Callable[..., Any]", arguments: "Tuple[Any, ...]", named: "Dict[str, Any]") -> None:
        from asyncio import get_running_loop  # This takes longer than importing this whole package.

        self.progress = Stop()
        self.make = partial(call, *arguments, **named, progress=self.progress)
        self.loop = get_running_loop()
        self.answer: "Optional[Future[Any]]" = self.loop.create_future()

    def settle(self, result: "Any", error: "Optional[BaseException]") -> None:
        """Give the outcome to `answer`, in the event loop."""
        # An exception refers to the frames of its call, and these to the job. If that referred to the exception too,
        # all of them would stay in memory, with the password, until Python looks for such cycles.
        answer, self.answer = self.answer, None
        if answer is None or answer.done():  # The task was cancelled.
            return
        if error is None:
            answer.set_result(result)
        else:
            answer.set_exception(error)
            answer.exception()  # asyncio would log an exception that nobody reads: the coroutine may be closed.


class Pool:
    """At most `size` threads, which make as many calls at a time, while at most `waiting` more calls wait.

    The calls use `memory`.
    """

    def __init__(self, size: int, waiting: int, memory: "Optional[Memory]" = None) -> None:
        self._size, self._most, self._memory = size, size + waiting, memory
        self.start_anew()
        _pools.add(self)

    def start_anew(self) -> None:
        """Forget all threads and calls, as in a forked child, where only the forking thread exists."""
        self._changed = threading.Condition(threading.Lock())
        self._threads = 0
        self._waiting: "Deque[Job]" = deque()
        self.refused = 0
        self.computing: "Dict[int, Job]" = {}  # by the number of the thread

    @property
    def queued(self) -> int:
        """How many calls wait."""
        return len(self._waiting)

    async def run(
        self, call: "Callable[..., Any]", arguments: "Tuple[Any, ...]", named: "Dict[str, Any]"
    ) -> "Any":
        """Have a thread make a call, and return its result. Cancelling the task frees the place of a call that waits,
        and stops one that computes.

        Raises `BusyError` if too many calls compute or wait, or if there is no thread and the system denies one.
        """
        job = Job(call, arguments, named)
        self._submit(job)
        try:
            return await job.answer  # type: ignore[misc]
        finally:
            job.progress.is_stopped = True
            with self._changed:
                if job in self._waiting:
                    self._waiting.remove(job)

    def _submit(self, job: Job) -> None:
        """Let a call wait for a thread. Start another one if each has a call already."""
        with self._changed:
            count = len(self.computing) + len(self._waiting)
            if count >= self._most:
                self.refused += 1
                raise BusyError(f"{count} calls compute or wait")
            if self._threads <= count and self._threads < self._size:
                self._start_thread()
            self._waiting.append(job)
            self._changed.notify()

    def _start_thread(self) -> None:
        """Start a thread. If the system denies it, the calls wait for the others."""
        try:
            # Python does not wait for the end of a daemon.
            threading.Thread(target=self._work, name="proved-argon2", daemon=True).start()
            self._threads += 1
        except RuntimeError as error:
            if self._threads == 0:
                self.refused += 1
                raise BusyError(f"the system denied a thread: {error}") from None

    def _work(self) -> None:
        """In a thread, make the calls that wait, until there has been none for a while."""
        current_thread.memory = self._memory
        while self._take():
            self._make(self.computing[threading.get_ident()])
        if self._memory is not None:
            self._memory.free_idle()

    def _take(self) -> bool:
        """Wait for a call, and take it. Return whether there was one."""
        with self._changed:
            if not self._changed.wait_for(self._waiting.__len__, IDLE_SECONDS):
                self._threads -= 1
                return False
            self.computing[threading.get_ident()] = self._waiting.popleft()
            return True

    def _make(self, job: Job) -> None:
        try:
            result = job.make()
        except StopIteration as error:  # A future of asyncio does not accept it.
            self._end(job, None, RuntimeError(f"the call raised {error!r}").with_traceback(error.__traceback__))
        except BaseException as error:
            self._end(job, None, error)
        else:
            self._end(job, result, None)

    def _end(self, job: Job, result: "Any", error: "Optional[BaseException]") -> None:
        """Free the place of a call, and then have its event loop give the outcome to it."""
        with self._changed:
            del self.computing[threading.get_ident()]
        try:
            job.loop.call_soon_threadsafe(job.settle, result, error)
        except RuntimeError:  # The event loop is closed: nobody awaits the call.
            pass

    def stop(self) -> None:
        """Stop all calls, and wait until those that compute have cleared their memory."""
        with self._changed:
            self._waiting.clear()
            for job in self.computing.values():
                job.progress.is_stopped = True
        while self.computing:
            time.sleep(0.001)


_pools: "weakref.WeakSet[Pool]" = weakref.WeakSet()


def _start_all_anew() -> None:
    for pool in [*_pools]:
        pool.start_anew()


@atexit.register
def _stop_all() -> None:
    for pool in [*_pools]:
        pool.stop()


os.register_at_fork(after_in_child=_start_all_anew)
