"""The tests of the shell's commands share these functions and values."""
import ctypes

import patience
import pytest
import running
from argon2.low_level import Type, VerifyMismatchError, verify_secret
from running import TOP as ROOT

TOOL = str(running.built() / running.MACHINE / "argon2_tool")
LIBRARY = running.built() / running.MACHINE / f"libproved_argon2.so.{running.VERSION}"
# The command that `each_command` sets: the script that runs the program.
COMMAND = []
SMALL = "argon2id 19 1 8 1 16 seq".split()
STORED = "$argon2i$v=19$m=256,t=2,p=1$c29tZXNhbHQ$iekCn0Y3spW+sCcFanM2xBT63UP2sghkUoHLIUpWRS8"
# An encoded hash above `check`'s limits.
COSTLY = "$argon2id$v=19$m=8,t=1000,p=1$c29tZXNhbHQ$c29tZWhhc2g"
# The program says this about it.
ABOVE = b"""The encoded hash is above the limits
check and new take at most 2 GiB, 10 passes, 16 lanes and the work of 4 GiB in one pass
"""


@pytest.fixture(scope="module", autouse=True, params=["sh", "bash", "./argon2"])
def each_command(request, installed):
    """The installed program, run by the system's shell and by bash, and the program of the repository."""
    script = str(installed / "bin/proved-argon2")
    COMMAND[:] = {"sh": [script], "bash": ["bash", script]}.get(request.param, [str(ROOT / "argon2")])
    piped(["new", *SMALL], b"password")  # (a clone says once which program it runs)


def piped(words, stdin=b"", command=None, **more):
    """Returns the status, standard output and standard error of the words."""
    done = patience.run([*(command or COMMAND), *words], input=stdin, capture_output=True, **more)
    return done.returncode, done.stdout, done.stderr


def verifies(text, password):
    """Returns libargon2's verdict."""
    try:
        return verify_secret(text.strip().encode(), password, Type[text.split("$")[1].removeprefix("argon2").upper()])
    except VerifyMismatchError:
        return False


class Settings(ctypes.Structure):
    _fields_ = [(name, ctypes.c_uint32) for name in "variant version mem_cost time_cost lanes hash_length".split()]


class Limits(ctypes.Structure):
    _fields_ = [*((name, ctypes.c_uint32) for name in ("mem_cost", "time_cost", "lanes")), ("work", ctypes.c_uint64)]


def numbers(name, kind=Settings):
    """Returns the result of a library call without arguments: a preset, or the default limits."""
    call = getattr(ctypes.CDLL(str(LIBRARY)), f"proved_argon2_{name}")
    call.argtypes, call.restype = [], kind
    return call()
