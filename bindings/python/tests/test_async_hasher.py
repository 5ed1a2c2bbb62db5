"""`AsyncPasswordHasher`: its results, its limits, cancellation, forked children, denied threads, and the end."""
import asyncio
import contextlib
import multiprocessing
import threading
import time
import weakref
from unittest import mock

import pytest
from processes import PATIENCE, run, status_of_child, without_collector
from proved_argon2 import AsyncPasswordHasher, AsyncPepperedHasher, PasswordHasher, PepperedHasher, _pool
from proved_argon2.exceptions import Argon2Error, BusyError, TooCostlyError, UnknownPepperError, VerifyMismatchError

HASHER = PasswordHasher(time_cost=1, memory_cost=64, parallelism=2)
PEPPERED = PepperedHasher({"2026": b"new", "2025": b"old"}, time_cost=1, memory_cost=64)
# A hash that takes more than a minute.
LONG = PasswordHasher(time_cost=200000, memory_cost=8192, parallelism=1)
# The address space is limited, so that the system denies each thread that asks for a stack of 4 GiB.
DENIALS = """
import asyncio, resource, threading
from proved_argon2 import AsyncPasswordHasher, PasswordHasher
from proved_argon2.exceptions import BusyError
hasher = AsyncPasswordHasher(PasswordHasher(1, 64, 1), concurrency=4, waiting=8)
resource.setrlimit(resource.RLIMIT_AS, (2 << 30, resource.RLIM_INFINITY))

def deny_threads(are_denied):
    threading.stack_size(4 << 30 if are_denied else 0)

async def hash_many(count):
    hashes = await asyncio.gather(*[hasher.hash("password") for _ in range(count)], return_exceptions=True)
    errors = [str(hash) for hash in hashes if isinstance(hash, BusyError)]
    threads = sum(thread.name.startswith("proved-argon2") for thread in threading.enumerate())
    print(count - len(errors), "hashes by", threads, "threads", *errors)

async def main():
    for count, are_denied in ((1, True), (1, False), (12, True), (13, True), (12, False)):
        deny_threads(are_denied)
        await hash_many(count)

asyncio.run(main())
"""
# A program that ends while one call computes, which would take more than a minute, and another one waits.
ENDS = """
import asyncio, threading, time
from proved_argon2 import AsyncPasswordHasher, PasswordHasher
long, hasher = PasswordHasher(200000, 8192, 1), AsyncPasswordHasher(concurrency=1, waiting=1)

def call(progress):
    try:
        long.hash("password", progress=progress)
    finally:
        print("the call ends", flush=True)

for _ in range(2):
    threading.Thread(target=lambda: asyncio.run(hasher.run(call)), daemon=True).start()
time.sleep(0.5)
print("the program ends", flush=True)
"""


def denied_threads():
    def deny(*_):
        raise RuntimeError("can't start new thread")

    return mock.patch.object(threading.Thread, "start", deny)


async def begin(hasher, count):
    """Let a hasher begin long calls. Return their tasks."""
    hasher.hasher = LONG
    calls = [asyncio.ensure_future(hasher.hash("password")) for _ in range(count)]
    while len(hasher._pool.computing) < min(count, hasher.concurrency):
        await asyncio.sleep(0.01)
    hasher.hasher = HASHER
    return calls


async def hash_soon(hasher):
    encoded = await asyncio.wait_for(hasher.hash("password"), PATIENCE)
    assert HASHER.verify(encoded, "password")


def test_calls_have_the_results_of_password_hasher():
    async def compare():
        hasher, salt = AsyncPasswordHasher(HASHER), b"saltsaltsaltsalt"
        for data in ({}, {"associated_data": b"user 7"}):
            encoded = await hasher.hash("password", salt=salt, **data)
            assert encoded == HASHER.hash("password", salt=salt, **data) and not hasher.check_needs_rehash(encoded)
            assert await hasher.verify(encoded, "password", **data) is True
            assert await hasher.verify_and_update(encoded, "password", **data) == (True, None)
            assert await hasher.verify_and_update(encoded, "Password", **data) == (False, None)
            with pytest.raises(VerifyMismatchError):
                await hasher.verify(encoded, "password", associated_data=b"user 8")
        with pytest.raises(TooCostlyError):
            await hasher.verify(encoded.replace("m=64", "m=4294967295"), "password")
        assert await hasher.verify_unknown("password") is False
        assert hasher.check_needs_rehash(encoded.replace("m=64", "m=65"))

    asyncio.run(compare())


def test_calls_have_the_results_of_peppered_hasher():
    """`run` makes them in the threads of another hasher."""
    async def compare():
        hasher, data = AsyncPepperedHasher(PEPPERED), {"associated_data": b"user 7"}
        key_id, encoded = await hasher.hash("password", **data)
        assert (key_id, PasswordHasher(secret=b"new").verify(encoded, "password", **data)) == ("2026", True)
        assert await hasher.verify_and_update(key_id, encoded, "password", **data) == (True, None)
        assert await hasher.verify_and_update(key_id, encoded, "Password", **data) == (False, None)
        old = PasswordHasher(1, 64, secret=b"old").hash("password")
        is_match, (key_id, renewed) = await hasher.verify_and_update("2025", old, "password")
        assert is_match and (await hasher.verify_and_update(key_id, renewed, "password")) == (True, None)
        with pytest.raises(UnknownPepperError):
            await hasher.verify_and_update("2024", old, "password")
        assert await hasher.verify_unknown("password") is False
        other = AsyncPasswordHasher(HASHER)
        assert await other.run(PEPPERED.verify_and_update, key_id, renewed, "password") == (True, None)
        assert await other.run(PEPPERED.verify_and_update, "2026", encoded, "password", **data) == (True, None)

    asyncio.run(compare())


def test_a_call_that_raises_stop_iteration_raises_runtime_error():
    call = AsyncPasswordHasher().run(lambda progress: next(iter(())))
    with pytest.raises(RuntimeError, match="the call raised StopIteration"):
        asyncio.run(asyncio.wait_for(call, PATIENCE))


def test_concurrent_and_waiting_calls_are_limited():
    most, running, lock, go = 0, 0, threading.Lock(), threading.Event()

    def call(progress):
        nonlocal most, running
        with lock:
            running += 1
            most = max(most, running)
        go.wait(5)
        with lock:
            running -= 1

    async def exceed():
        hasher = AsyncPasswordHasher(concurrency=2, waiting=3)
        calls = [asyncio.ensure_future(hasher.run(call)) for _ in range(5)]
        while running < 2:
            await asyncio.sleep(0.01)
        with pytest.raises(BusyError, match="5 calls compute or wait"):
            await hasher.hash("password")
        assert (hasher.running, hasher.queued, hasher.refused) == (2, 3, 1)
        go.set()
        await asyncio.gather(*calls)
        assert (hasher.running, hasher.queued, hasher.refused) == (0, 0, 1)
        await hasher.run(call)

    asyncio.run(exceed())
    assert most == 2


def test_a_call_that_has_ended_has_freed_its_place():
    async def hash_often():
        hasher = AsyncPasswordHasher(HASHER, concurrency=1, waiting=0)
        for _ in range(200):
            await hasher.hash("password")

    asyncio.run(hash_often())


def test_a_call_after_the_threads_have_ended_starts_another_one(monkeypatch):
    async def hash_seldom():
        hasher = AsyncPasswordHasher(HASHER, concurrency=1)
        for _ in range(3):
            await hash_soon(hasher)
            while hasher._pool._threads and threads():
                await asyncio.sleep(0.01)

    def threads():
        return {thread for thread in threading.enumerate() if thread.name == "proved-argon2"} - before

    before = {*threading.enumerate()}
    monkeypatch.setattr(_pool, "IDLE_SECONDS", 0.01)
    asyncio.run(hash_seldom())


def test_cancelled_calls_free_their_places():
    async def cancel():
        hasher = AsyncPasswordHasher(concurrency=1, waiting=1)
        for call in reversed(await begin(hasher, 2)):
            call.cancel()
            with pytest.raises(asyncio.CancelledError):
                await call
        await hash_soon(hasher)

    asyncio.run(cancel())


@pytest.mark.parametrize("computes", [False, True])
def test_a_coroutine_that_is_closed_stops_its_call_and_logs_nothing(caplog, computes):
    """Python closes a coroutine that nothing awaits any more."""
    async def close():
        hasher = AsyncPasswordHasher(LONG, concurrency=1)
        call = hasher.hash("password")
        call.send(None)
        while computes and not hasher._pool.computing:
            await asyncio.sleep(0.01)
        call.close()
        hasher.hasher = HASHER
        await hash_soon(hasher)

    asyncio.run(close())
    assert not caplog.records


def test_a_cancelled_call_that_waits_keeps_no_argument():
    class Argument:
        """Stands in for a password."""

    async def cancel():
        hasher, argument = AsyncPasswordHasher(concurrency=1, waiting=1), Argument()
        kept, (computing,) = weakref.ref(argument), await begin(hasher, 1)
        waiting = asyncio.ensure_future(hasher.run(lambda argument, progress: None, argument))
        await asyncio.sleep(0)
        waiting.cancel()
        await asyncio.wait([waiting])
        del argument, waiting
        assert kept() is None
        computing.cancel()

    with without_collector():
        asyncio.run(cancel())


def test_no_exception_or_result_keeps_a_password():
    class Password(str):
        """A password that can be referred to weakly."""

        def __init__(self, _):
            kept.append(weakref.ref(self))

    def stop(password, progress):
        raise StopIteration

    async def cancel(hasher):
        call = asyncio.ensure_future(hasher.hash(Password("password")))
        await asyncio.sleep(0.1)
        call.cancel()
        await asyncio.wait([call])

    async def hash_without_threads(hasher):
        with denied_threads():
            await hasher.hash(Password("password"))

    async def call_all(hasher, encoded):
        for call in (lambda: hasher.hash(Password("password")), lambda: hasher.verify(encoded, Password("Password")),
                     lambda: hasher.verify(encoded.replace("m=64", "m=4294967295"), Password("password")),
                     lambda: hasher.verify_unknown(Password("password")), lambda: hasher.run(stop, Password("x")),
                     lambda: cancel(AsyncPasswordHasher(LONG)),
                     lambda: hash_without_threads(AsyncPasswordHasher(HASHER))):
            with contextlib.suppress(Argon2Error, RuntimeError):
                await call()
        end = time.monotonic() + PATIENCE
        while any(password() for password in kept) and time.monotonic() < end:
            await asyncio.sleep(0.01)  # A thread forgets a call after it has delivered the result.
        assert [password() for password in kept] == [None] * 7

    kept = []
    with without_collector():
        asyncio.run(call_all(AsyncPasswordHasher(HASHER), HASHER.hash("password")))


@pytest.mark.parametrize("wrong, error, words", [
    ({"concurrency": 0}, ValueError, "'concurrency' must be at least 1"),
    ({"waiting": -1}, ValueError, "'concurrency' must be at least 1, and 'waiting' at least 0"),
    ({"concurrency": "4"}, TypeError, "'concurrency' must be int, not str"),
    ({"concurrency": True}, TypeError, "'concurrency' must be int, not bool"),
    ({"waiting": 1.5}, TypeError, "'waiting' must be int, not float"),
    ({"hasher": "x"}, TypeError, r"'hasher' must be (PasswordHasher|PepperedHasher), not str")])
def test_wrong_arguments_are_named_in_the_error(wrong, error, words):
    for kind, hasher in ((AsyncPasswordHasher, HASHER), (AsyncPepperedHasher, PEPPERED)):
        with pytest.raises(error, match=f"^{words}$" if error is TypeError else words):
            kind(**{"hasher": hasher, **wrong})


# ---- forked children

@pytest.fixture
def used():
    """Return a hasher for three calls at a time, which this process has used."""
    hasher = AsyncPasswordHasher(HASHER, concurrency=2, waiting=1)
    asyncio.run(use(hasher))
    return hasher


async def use(hasher):
    """Make as many calls as `used` takes at a time, again and again."""
    for _ in range(3):
        await asyncio.gather(*[hash_soon(hasher) for _ in range(3)])


@pytest.mark.filterwarnings("ignore:.*multi-threaded.*fork:DeprecationWarning")
class TestForks:
    def test_a_child_that_is_forked_between_calls_can_make_calls_and_so_can_its_own_child(self, used):
        def run_in_child():
            asyncio.run(use(used))
            assert status_of_child(lambda: asyncio.run(use(used))) == 0

        assert status_of_child(run_in_child) == 0
        asyncio.run(use(used))

    def test_a_child_that_is_forked_during_calls_has_all_places(self, used):
        """The parent has no place left, since two calls compute and one waits."""
        async def fork():
            calls = await begin(used, 3)
            status = await asyncio.get_running_loop().run_in_executor(
                None, status_of_child, lambda: asyncio.run(use(used)))
            with pytest.raises(BusyError):
                await used.hash("password")
            for call in calls:
                call.cancel()
            await asyncio.wait(calls)
            return status

        assert asyncio.run(fork()) == 0

    def test_a_child_that_is_forked_while_a_thread_holds_the_lock_can_make_calls(self, used):
        is_held, go = threading.Event(), threading.Event()

        def hold():
            with used._pool._changed:
                is_held.set()
                go.wait(PATIENCE)

        holding = threading.Thread(target=hold)
        holding.start()
        is_held.wait()
        status = status_of_child(lambda: asyncio.run(use(used)))
        go.set()
        holding.join()
        assert status == 0

    def test_processes_of_multiprocessing_can_make_calls(self, used):
        process = multiprocessing.get_context("fork").Process(target=lambda: asyncio.run(use(used)))
        process.start()
        process.join(PATIENCE)
        if process.is_alive():
            process.kill()
        assert process.exitcode == 0


# ---- denied threads, closed event loops, and the end of a program

def test_denied_threads_leave_the_calls_to_the_other_threads():
    assert run(DENIALS).splitlines() == [
        "0 hashes by 0 threads the system denied a thread: can't start new thread", "1 hashes by 1 threads",
        "12 hashes by 1 threads", "12 hashes by 1 threads 12 calls compute or wait", "12 hashes by 4 threads"]


def test_a_call_that_is_refused_since_there_is_no_thread_is_not_made_by_a_later_one():
    made = []

    async def call():
        hasher = AsyncPasswordHasher(HASHER, concurrency=1, waiting=1)
        with denied_threads():
            for _ in range(3):
                with pytest.raises(BusyError, match="^the system denied a thread: can't start new thread$"):
                    await hasher.run(lambda progress: made.append("refused"))
        calls = [hasher.run(lambda progress: made.append("accepted")) for _ in range(2)]
        await asyncio.wait_for(asyncio.gather(*calls), PATIENCE)

    asyncio.run(call())
    assert made == ["accepted"] * 2


def test_a_call_whose_event_loop_is_closed_frees_its_place(caplog):
    hasher, go, begun = AsyncPasswordHasher(HASHER, concurrency=1, waiting=0), threading.Event(), threading.Event()

    def call(progress):
        begun.set()
        go.wait(PATIENCE)

    async def leave():
        return asyncio.ensure_future(hasher.run(call))

    loop = asyncio.new_event_loop()
    left = loop.run_until_complete(leave())
    loop.run_until_complete(asyncio.sleep(0.01))
    begun.wait(PATIENCE)
    loop.close()
    with pytest.raises(BusyError):
        asyncio.run(hasher.hash("password"))
    go.set()
    end = time.monotonic() + PATIENCE
    while hasher._pool.computing and time.monotonic() < end:
        time.sleep(0.01)
    for _ in range(2):  # The thread has survived.
        asyncio.run(hash_soon(hasher))
    assert not left.done() and not caplog.records
    left._log_destroy_pending = False  # asyncio would log that this task was not awaited.


def test_a_program_that_ends_stops_its_calls():
    assert run(ENDS) == "the program ends\nthe call ends\n"
