"""Ends programs that hang. A busy machine delays programs, so a limit does not follow the clock: a program hangs if
neither it nor a program that it started has used any processor time for a while. One that computes for ever is ended by
pytest after an hour (setup.cfg)."""
import contextlib
import os
import signal
import subprocess
import threading
import time
from pathlib import Path

STEP, IDLE = 5, 300  # seconds


def ticks(pid):
    """Returns the processor time that a process and each process below it has used, by number."""
    parents, used, family = {}, {}, {pid}
    for file in Path("/proc").glob("[0-9]*/stat"):
        with contextlib.suppress(OSError):  # (it has ended)
            _, parent, *fields = file.read_text(errors="replace").rpartition(")")[2].split()
            parents[int(file.parent.name)], used[int(file.parent.name)] = int(parent), fields[9:13]
    while more := {one for one, parent in parents.items() if parent in family} - family:
        family |= more
    return {one: used[one] for one in family if one in used}


def end_if_it_hangs(process, is_over, hangs):
    """Watches a process until it is over, and kills it and all below it if it hangs."""
    before, since = {}, time.monotonic()
    while not is_over.wait(STEP):
        now = ticks(process.pid)
        if now != before:
            before, since = now, time.monotonic()
        elif time.monotonic() - since > IDLE:
            hangs.set()
            for one in now:
                with contextlib.suppress(OSError):
                    os.kill(one, signal.SIGKILL)


def communicate(process, data=None):
    """Returns what `process.communicate(data)` does. If the process hangs, it raises TimeoutExpired."""
    is_over, hangs = threading.Event(), threading.Event()
    watcher = threading.Thread(target=end_if_it_hangs, args=(process, is_over, hangs), daemon=True)
    watcher.start()
    try:
        said = process.communicate(data)
    finally:
        is_over.set()
        watcher.join()
    if hangs.is_set():
        raise subprocess.TimeoutExpired(process.args, IDLE, *said)
    return said


def run(words, check=False, capture_output=False, **named):
    """Does what `subprocess.run` does, and kills a program that hangs."""
    data, pipes = named.pop("input", None), ("stdout", "stderr") if capture_output else ()
    named.update(dict.fromkeys((*pipes, *(["stdin"] if data is not None else [])), subprocess.PIPE))
    with subprocess.Popen(words, **named) as process:
        try:
            output, errors = communicate(process, data)
        finally:
            process.kill()
    if check and process.returncode != 0:
        raise subprocess.CalledProcessError(process.returncode, words, output, errors)
    return subprocess.CompletedProcess(words, process.returncode, output, errors)
