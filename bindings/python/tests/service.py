"""Logins through docs/examples/log_in.py: more at the same time than it computes and lets wait."""
import asyncio
import ctypes
import logging
import os
import random
import time

from log_in import hasher, log_in
from proved_argon2 import PasswordHasher

SECONDS, CLIENTS, KIB, SLACK_KIB = 3, 100, 65536, 32768
OLDER = PasswordHasher(time_cost=1, memory_cost=4096, parallelism=1, secret=os.environb[b"PEPPER"]).hash("password")
UNREADABLE = OLDER.replace("argon2id", "argon3")
seen = {True: 0, False: 0, None: 0}


def most_memory():
    """Return the most KiB that this process has had. (getrusage would count those of its parent.)"""
    with open("/proc/self/status", encoding="ascii") as status:
        return int(next(line for line in status if line.startswith("VmHWM:")).split()[1])


async def log_in_often(seed, end):
    """Log in again and again, and check each verdict and what to store."""
    draw = random.Random(seed)
    while time.monotonic() < end:
        password, stored = draw.choice(("password", "Password")), draw.choice((OLDER, UNREADABLE, None))
        verdict, renewed = await log_in("somebody", password, stored)
        seen[verdict] += 1
        right = {OLDER: password == "password", UNREADABLE: None, None: False}[stored]
        assert verdict in (right, None), (password, stored, verdict)
        assert (renewed != stored) == bool(verdict) and (not verdict or "m=65536,t=3,p=4" in renewed), renewed
        if verdict is None:
            await asyncio.sleep(0.01)


async def serve_a_flood():
    """The service computes two hashes at a time, and tells some clients to try again later."""
    before, end = most_memory(), time.monotonic() + SECONDS
    await asyncio.gather(*[log_in_often(seed, end) for seed in range(CLIENTS)])
    assert all(seen.values()), seen
    assert 0 < most_memory() - before < 2 * KIB + SLACK_KIB


async def serve_a_burst():
    """All clients of a burst are answered: those that are not computed at once wait."""
    verdicts = await asyncio.gather(*[log_in("somebody", "password", OLDER) for _ in range(66)], log_in("x", "y", None))
    assert [verdict for verdict, _ in verdicts] == [True] * 66 + [None], verdicts


async def reject_other_inputs():
    """A password is a string and not too long, and a user's name begins no line of the log."""
    for password in ("\ud800", None, 5, ["password"], b"password", "a" * 1025):
        assert await log_in("somebody", password, OLDER) == (False, OLDER), password
    stored = hasher.hasher.hash("a" * 1024)
    assert await log_in("x\nINFO:root:logged in: root", "a" * 1024, stored) == (True, stored)
    assert await log_in("nobody", "password", None) == (False, None)


async def lose_clients():
    """Leaving clients free their places."""
    for _ in range(3):
        logins = [asyncio.ensure_future(log_in("somebody", "password", OLDER)) for _ in range(66)]
        await asyncio.sleep(0.01)
        for login in logins:
            login.cancel()
        assert not any(login.exception() for login in (await asyncio.wait(logins))[0] if not login.cancelled())
    while hasher._pool.computing:  # Those that were computed end after their slice.
        await asyncio.sleep(0.01)
    assert (await log_in("somebody", "password", OLDER))[0] is True


async def fail_to_renew():
    """The user is let in with the old hash if no new one can be computed."""
    def deny(*_):
        raise MemoryError

    ctypes.create_string_buffer = deny
    assert await log_in("somebody", "password", OLDER) == (True, OLDER)
    assert await log_in("somebody", "Password", OLDER) == (False, OLDER)


logging.basicConfig(level=logging.INFO)
for serve in (serve_a_flood, serve_a_burst, reject_other_inputs, lose_clients, fail_to_renew):
    asyncio.run(serve())
