"""The callback `progress`, and how exceptions of it and of signal handlers stop a call."""
import _thread
import contextlib
import os
import signal
import subprocess
import sys
import time
import weakref
from concurrent.futures import ThreadPoolExecutor

import pytest
from processes import without_collector
from proved_argon2 import PasswordHasher, Type
from proved_argon2.low_level import Memory, hash_secret, hash_secret_raw, verify_secret

# A hash that takes more than a minute, in slices of a millisecond.
LONG = {"time_cost": 200000, "memory_cost": 8192}
# A call may take this many seconds to stop on a busy machine.
PATIENCE = 20
TEXT = "$argon2id$v=19$m=8192,t=200000,p=2$c29tZXNhbHQ$AAAAAAAAAAAAAAAAAAAAAA"
PROGRAM = f"""
import threading, time
from proved_argon2 import PasswordHasher
threading.Thread(target=time.sleep, args=(100,), daemon=True).start()
hasher, quick = PasswordHasher(**{LONG}), PasswordHasher(1, 64, 1)
try:
    print("begun", flush=True)
    hasher.hash("password")
except KeyboardInterrupt:
    print("stopped", quick.verify(quick.hash("password"), "password"), flush=True)
"""


def calls(time_cost, memory_cost, lanes, **named):
    """Return the calls that take `progress`, each with its expected result."""
    arguments = (b"password", b"somesalt", time_cost, memory_cost, lanes, 24, Type.ID)
    text = hash_secret(*arguments)
    hasher = PasswordHasher(time_cost=time_cost, memory_cost=memory_cost, parallelism=lanes, hash_len=24, salt_len=8)
    return [
        (lambda: hash_secret(*arguments, **named), text),
        (lambda: hash_secret_raw(*arguments, **named), hash_secret_raw(*arguments)),
        (lambda: verify_secret(text, b"password", Type.ID, **named), True),
        (lambda: hasher.hash("password", salt=b"somesalt", progress=named["progress"]), text.decode()),
        (lambda: hasher.verify(text, "password", progress=named["progress"]), True),
        (lambda: hasher.verify_and_update(text, "password", progress=named["progress"]), (True, None)),
    ]


def long_calls(**named):
    """Yield the calls with settings that take more than a minute."""
    for lanes in (1, 2):
        arguments = (b"password", b"somesalt", *LONG.values(), lanes, 24, Type.ID)
        yield lambda: hash_secret(*arguments, **named)
        yield lambda: hash_secret_raw(*arguments, memory=Memory(8192), **named)
        hasher = PasswordHasher(**LONG, parallelism=lanes, keep_memory=True)
        yield lambda: hasher.hash("password", **named)
        yield lambda: hasher.verify(TEXT, "password", **named)
    yield lambda: verify_secret(TEXT.encode(), b"password", Type.ID, **named)


@pytest.mark.parametrize("is_stopped", [False, True])
def test_a_call_does_not_keep_progress(is_stopped):
    def progress(done, slices):
        assert not is_stopped

    kept = weakref.ref(progress)
    with without_collector():
        with contextlib.suppress(AssertionError):
            PasswordHasher(1, 64, 1).hash("password", progress=progress)
        del progress
        assert kept() is None


@pytest.mark.parametrize("costs", [(1, 8, 1), (2, 640, 3)])
def test_progress_is_called_for_each_slice_in_the_caller_s_thread(costs):
    seen, slices = [], 4 * costs[0]
    told = [(_thread.get_ident(), done, slices) for done in range(1, slices + 1)]
    with ThreadPoolExecutor(1) as pool:
        told_there = [(pool.submit(_thread.get_ident).result(), *others) for _, *others in told]
        for memory in (None, Memory(4096)):
            named = {"memory": memory, "progress": lambda *progress: seen.append((_thread.get_ident(), *progress))}
            for call, answer in calls(*costs, **named):
                assert (call(), pool.submit(call).result(), seen) == (answer, answer, told + told_there)
                seen.clear()


def test_progress_is_called_for_each_slice_of_a_renewal():
    """The callback also hears of the new hash, and its exception is raised, so that no login goes on after it."""
    old, hasher, seen = PasswordHasher(2, 8, 1).hash("password"), PasswordHasher(1, 8, 1), []
    is_match, new = hasher.verify_and_update(old, "password", progress=lambda *progress: seen.append(progress))
    assert is_match and hasher.verify(new, "password")
    assert seen == [*((done, 8) for done in range(1, 9)), *((done, 4) for done in range(1, 5))]

    def second(done, slices):
        if slices == 4:
            raise KeyError

    with pytest.raises(KeyError):
        hasher.verify_and_update(old, "password", progress=second)


def test_an_exception_of_progress_stops_the_call():
    """The next call in the same memory has the right result."""
    class Enough(BaseException):
        pass

    def third(done, slices):
        seen.append(done)
        if done == 3:
            raise error

    seen, error, memory = [], Enough(), Memory(8192)
    stopped = [*long_calls(progress=third), *(call for call, _ in calls(4, 8192, 2, memory=memory, progress=third))]
    for call in stopped:
        with pytest.raises(Enough) as raised:
            call()
        assert (raised.value, seen) == (error, [1, 2, 3])
        seen.clear()
    for call, answer in calls(4, 8192, 2, memory=memory, progress=None):
        assert call() == answer


@pytest.fixture
def alarm():
    """Return a function that sets a handler for SIGALRM, and the time of the signal."""
    before = signal.getsignal(signal.SIGALRM)

    def set_alarm(handler, *seconds):
        signal.signal(signal.SIGALRM, handler)
        signal.setitimer(signal.ITIMER_REAL, *seconds)

    yield set_alarm
    # The timer stops first, since a late signal must not reach the previous handler, that of pytest's timeout.
    signal.setitimer(signal.ITIMER_REAL, 0)
    signal.signal(signal.SIGALRM, before)


def is_late(*_):
    raise TimeoutError("late")


def stops(alarm, seconds, call):
    """Return whether the handler of SIGALRM stops a call soon."""
    begun = time.monotonic()
    with pytest.raises(TimeoutError):
        alarm(is_late, seconds)
        call()
    return time.monotonic() - begun < PATIENCE


def test_an_exception_of_a_signal_handler_stops_a_call(alarm):
    for named in ({}, {"progress": lambda *_: None}):
        for call in long_calls(**named):
            assert stops(alarm, 0.05, call)


def test_a_signal_handler_without_an_exception_stops_nothing(alarm):
    for call, answer in calls(40, 1024, 1, progress=None):
        hits = []
        alarm(lambda *_: hits.append(1), 0.001, 0.001)
        assert call() == answer and hits


def test_ctrl_c_stops_a_hash_in_a_program_with_threads():
    with subprocess.Popen([sys.executable, "-c", PROGRAM], stdout=subprocess.PIPE, text=True) as begun:
        try:
            assert begun.stdout.readline() == "begun\n"
            time.sleep(0.2)
            os.kill(begun.pid, signal.SIGINT)
            assert begun.communicate()[0] == "stopped True\n"
        finally:
            begun.kill()
    assert begun.returncode == 0


def test_a_signal_does_not_stop_a_call_in_another_thread(alarm):
    # The call takes some hundreds of milliseconds, so that the alarm comes first on a fast machine too.
    (call, answer), *_ = calls(600, 2048, 1, progress=None)
    with ThreadPoolExecutor(1) as pool:
        begun = time.monotonic()
        found = pool.submit(lambda: (call(), time.monotonic()))
        assert stops(alarm, 0.02, found.result)
        stopped = time.monotonic()
        given, ended = found.result()
    assert given == answer and stopped - begun < (ended - begun) / 2
