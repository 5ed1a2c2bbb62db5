"""`tune` and `tune_async`, which find settings for this machine. The C library's tests cover the search itself."""
import asyncio
import math
import threading

import pytest
from processes import PATIENCE
from proved_argon2 import PasswordHasher, Type, _tuning, extract_parameters, tune, tune_async
from proved_argon2.exceptions import HashingError


def test_tune_finds_settings_within_the_time_and_the_memory():
    found = tune(20000, memory_cost=16384)
    assert found.milliseconds <= 20000 and found.parameters.time_cost >= 3
    assert (found.parameters.memory_cost, found.parameters.parallelism) == (16384, 1)
    assert (found.parameters.type, found.parameters.version) == (Type.ID, 19)
    assert extract_parameters(PasswordHasher.from_parameters(found.parameters).hash("password")) == found.parameters


def test_no_time_is_too_long():
    assert tune(math.inf, memory_cost=7168).parameters.time_cost == 10


@pytest.mark.parametrize("arguments, error, words", [
    (("250",), TypeError, "'milliseconds' must be a number, not str"), ((None,), TypeError, "'milliseconds'"),
    ((True,), TypeError, "'milliseconds'"), ((250, "65536"), TypeError, "'memory_cost'"),
    ((250, 1 << 32), ValueError, "memory_cost is"), ((250, 7167), ValueError, "with at most 7167 KiB"),
    ((math.nan, 8192), ValueError, "^with at most 8192 KiB no settings .* at most nan ms here$"),
    ((250, 65536, "1"), TypeError, "'parallelism'"), ((250, 65536, 1 << 32), HashingError, "parallelism is"),
    ((250, 65536, 0), HashingError, "Too few lanes")])
def test_wrong_arguments_are_rejected(arguments, error, words):
    with pytest.raises(error, match=words):
        tune(*arguments)
    with pytest.raises(error, match=words):
        asyncio.run(tune_async(*arguments))


def test_tune_async_finds_the_same_while_the_event_loop_goes_on():
    async def measure():
        turns, task = 0, asyncio.ensure_future(tune_async(20000, memory_cost=16384))
        while not task.done():
            turns += 1
            await asyncio.sleep(0.001)
        return turns, await task

    turns, found = asyncio.run(measure())
    assert turns > 10 and found.milliseconds <= 20000 and found.parameters.memory_cost == 16384


def test_a_cancelled_search_ends_soon(monkeypatch):
    """The search would compute about 30 hashes with 2 GiB if it had no limit of time."""
    begun, ended = threading.Event(), threading.Event()

    def search(*arguments, **named):
        begun.set()
        try:
            return real(*arguments, **named)
        finally:
            ended.set()

    async def cancel():
        task = asyncio.ensure_future(tune_async(math.inf, memory_cost=1 << 21))
        while not begun.is_set():
            await asyncio.sleep(0.01)
        task.cancel()
        with pytest.raises(asyncio.CancelledError):
            await task

    real = _tuning._search
    monkeypatch.setattr(_tuning, "_search", search)
    asyncio.run(cancel())
    assert ended.wait(PATIENCE)
