"""Kept buffers: `Memory`, `keep_memory`, and those of asyncio's hashers. The C library's tests cover the rest."""
import asyncio
import copy
import pickle
from unittest import mock

import pytest
from processes import resident, run
from proved_argon2 import AsyncPasswordHasher, AsyncPepperedHasher, PasswordHasher, PepperedHasher, _memory
from proved_argon2.exceptions import HashingError, VerifyMismatchError
from proved_argon2.low_level import Memory

MIB = 1 << 20
# Memory that a process has beside the blocks of its hashes: other threads' stacks, and what Python needs.
SLACK = 8 * MIB
# A kept buffer of this many KiB, of which a call has touched all, is seen in the process's memory.
LARGE = 32 << 10
# A program that hashes once. It prints how much memory it has more after 8 seconds, and once it is freed or after 20.
KEEPS = f"""
import asyncio, time
from processes import resident
from proved_argon2 import AsyncPasswordHasher, PasswordHasher
hasher = AsyncPasswordHasher(PasswordHasher(1, {LARGE}, 1), concurrency=2)
before = resident()
asyncio.run(hasher.hash("password"))
time.sleep(8)
print(resident() - before)
end = time.monotonic() + 12
while resident() - before > {SLACK} and time.monotonic() < end:
    time.sleep(0.1)
print(resident() - before)
"""


def settings_of(memory_cost, **named):
    return PasswordHasher(time_cost=1, memory_cost=memory_cost, parallelism=1, **named)


def keeps(hasher, before):
    """Return whether this process has the memory of a large hash, beside what it had before."""
    del hasher
    return resident() > before + (LARGE << 10) - SLACK


@pytest.mark.parametrize("memory_cost, most, error, words", [
    (7, 1, HashingError, "Memory cost is too small"), (1 << 32, 1, HashingError, "memory_cost is 4294967296"),
    (-1, 1, HashingError, "memory_cost is -1"), (64, -1, ValueError, "most is -1"),
    ("64", 1, TypeError, "'memory_cost'"), (64, True, TypeError, "'most'")])
def test_a_memory_that_no_hash_can_have_is_rejected(memory_cost, most, error, words):
    with pytest.raises(error, match=words):
        Memory(memory_cost, most)
    if most == 1 and error is HashingError:
        with pytest.raises(error, match=words):
            settings_of(memory_cost, keep_memory=True)


def test_a_hasher_keeps_memory_only_with_keep_memory():
    for keep_memory in (False, True):
        before, hasher = resident(), settings_of(LARGE, keep_memory=keep_memory)
        text = hasher.hash("password")
        with pytest.raises(VerifyMismatchError):
            hasher.verify(text, "Password")
        assert hasher.keep_memory == keep_memory == keeps(hasher, before)
        del hasher
        assert resident() < before + SLACK


@pytest.mark.parametrize("copied", [copy.copy, copy.deepcopy, lambda hasher: pickle.loads(pickle.dumps(hasher))])
def test_a_copy_of_a_hasher_has_its_own_memory(copied):
    hasher = settings_of(64, keep_memory=True)
    other = copied(hasher)
    assert other.keep_memory and other.verify(hasher.hash("password"), "password") is True
    memory = copied(hasher._memory)
    assert memory.handle != hasher._memory.handle and (memory.memory_cost, memory.most) == (64, hasher._memory.most)


def test_the_number_of_kept_buffers_is_that_of_the_processors_or_of_the_calls():
    with mock.patch.object(_memory, "processors", lambda: 3):
        assert [memory.most for memory in (Memory(64), Memory(64, 5), settings_of(64, keep_memory=True)._memory)] == [
            3, 5, 3]
    peppered = PepperedHasher({"2026": b"key"}, memory_cost=64, parallelism=1)
    for hasher in (AsyncPasswordHasher(settings_of(64), concurrency=2), AsyncPepperedHasher(peppered, concurrency=2)):
        assert (hasher._pool._memory.memory_cost, hasher._pool._memory.most) == (64, 2)


def test_no_more_buffers_are_kept_than_the_library_allows():
    assert AsyncPasswordHasher(settings_of(64), concurrency=100000)._pool._memory.most == 8192
    with pytest.raises(HashingError, match="^Out of memory$"):
        Memory(64, 8193)


def test_the_threads_of_an_async_hasher_keep_memory_until_it_has_been_idle_for_ten_seconds():
    kept, freed = map(int, run(KEEPS).split())
    assert kept > (LARGE << 10) - SLACK and freed < SLACK


def test_a_call_of_an_async_hasher_that_progress_makes_has_the_same_result():
    salt, inner, expected = b"somesaltsomesalt", [], settings_of(1024).hash("password", salt=b"somesaltsomesalt")

    def nested(done, slices):
        inner.append(settings_of(1024).hash("password", salt=salt))

    hasher = AsyncPasswordHasher(settings_of(1024), concurrency=1)
    call = hasher.run(lambda progress: settings_of(1024).hash("password", salt=salt, progress=nested))
    assert asyncio.run(call) == expected and inner == [expected] * 4
