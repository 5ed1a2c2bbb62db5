"""Tells how much memory a process has, and how a program or a forked child ends; turns off the collector of garbage."""
import contextlib
import gc
import os
import signal
import subprocess
import sys
import time
from pathlib import Path

# A forked child that has not ended after this many seconds hangs.
PATIENCE = 3600


def resident():
    """Return the bytes of this process's memory, as the system counts them when it looks at each page."""
    sums = Path("/proc/self/smaps_rollup").read_text(encoding="ascii")
    return next(int(line.split()[1]) for line in sums.splitlines() if line.startswith("Rss:")) << 10


@contextlib.contextmanager
def without_collector():
    """Turn off the collector of garbage, so that objects which refer to each other stay alive."""
    gc.collect()
    gc.disable()
    try:
        yield
    finally:
        gc.enable()


def run(program):
    """Run a program, which must succeed, in a Python of its own. Return its output."""
    words, env = [sys.executable, "-W", "error", "-c", program], {**os.environ, "PYTHONPATH": os.pathsep.join(sys.path)}
    done = subprocess.run(words, capture_output=True, text=True, timeout=PATIENCE, env=env)
    assert done.returncode == 0, done.stderr
    return done.stdout


def status_of_child(run):
    """Call `run` in a forked child. Return the child's exit status, which is 0 if `run` raised nothing."""
    child = os.fork()
    if child == 0:
        try:
            run()
            os._exit(0)
        finally:
            os._exit(1)
    end = time.monotonic() + PATIENCE
    while time.monotonic() < end:
        ended, status = os.waitpid(child, os.WNOHANG)
        if ended:
            return os.WEXITSTATUS(status)
        time.sleep(0.01)
    os.kill(child, signal.SIGKILL)
    os.waitpid(child, 0)
    return "the child hangs"
