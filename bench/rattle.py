#!/usr/bin/env python3
"""The time of the program in Rattle and of the one in C, by turns, both with AVX2: rows for docs/PERFORMANCE.md.

    rattle.py RATTLE C SECONDS [KIND]    the two programs; the seconds for each row; a kind of kernel that this machine
                                         already is, whose switch is then left alone
"""
import os
import random
import subprocess
import sys
import time
from collections import namedtuple

from times import KINDS, kinds

# Variant, KiB, passes, lanes, and the threads.
SETTINGS = (('argon2d', 19456, 2, 1, 'seq'), ('argon2d', 65536, 3, 1, 'seq'), ('argon2d', 65536, 3, 4, 'seq'),
            ('argon2id', 19456, 2, 4, 'par'), ('argon2id', 65536, 3, 4, 'par'))
# KiB that a core's L2 cache holds. As many blocks in so little memory take the time of the computing alone.
CACHED = 256
# As docs/USE.md says: glibc's malloc requests huge pages, and places all segments in one heap.
REQUEST = {'GLIBC_TUNABLES': 'glibc.malloc.hugetlb=1:glibc.malloc.mmap_threshold=1073741824'}
CPU = {'PROVED_ARGON2_CPU': 'x86-64-v3'}
# Of a process, in milliseconds: the time by the clock, its processor time, and what the system spent of that.
Times = namedtuple('Times', 'wall processor system')


def run(program, environment, variant, memory, passes, lanes, threads):
    """Hashes in a process of its own, and returns its times and its output."""
    words = [program, 'hash', variant, '19', str(passes), str(memory), str(lanes), '32', threads, 'somesalt']
    begin = time.perf_counter()
    with subprocess.Popen(words, env={**os.environ, **environment}, stdin=subprocess.PIPE,
                          stdout=subprocess.PIPE) as process:
        process.stdin.write(b'password')
        process.stdin.close()
        output = process.stdout.read()
        _, status, usage = os.wait4(process.pid, 0)
        process.returncode = os.waitstatus_to_exitcode(status)
    spent = time.perf_counter() - begin, usage.ru_utime + usage.ru_stime, usage.ru_stime
    return Times(*(1000 * seconds for seconds in spent)), output


def measure(programs, settings, seconds):
    """Returns the times of all runs of each program, which run in a new random order each round, and hash the same."""
    runs, outputs, end = {name: [] for name in programs}, set(), time.perf_counter() + seconds
    while not all(runs.values()) or time.perf_counter() < end:
        for name, words in random.sample([*programs.items()], len(programs)):
            times, output = run(*words, *settings)
            outputs.add(output)
            runs[name].append(times)
    if len(outputs) != 1:
        sys.exit(f'{settings}: other hashes: {outputs}')
    return runs


def least(runs, threads):
    """With threads, what counts is the clock."""
    return min(times.wall if threads == 'par' else times.processor for times in runs)


def computing(programs, settings, seconds):
    """Returns the milliseconds in which each program computes as many blocks in a cache."""
    variant, memory, passes, lanes, threads = settings
    cached = variant, CACHED, memory * passes // CACHED, lanes, threads
    return {name: least(runs, threads) for name, runs in measure(programs, cached, seconds).items()}


def cell(runs, alone, threads):
    """The whole, and for one thread its shares: computing, waiting and the rest, the system."""
    whole = least(runs, threads)
    if threads == 'par':
        return f'{whole:.0f}'
    # Linux counts ticks for the system, so the share of one run is rough.
    system = whole * sum(times.system for times in runs) / sum(times.processor for times in runs)
    return f'{whole:.0f} ({alone:.0f} + {max(whole - system - alone, 0):.0f} + {system:.0f})'


def rows(kind, programs, seconds):
    """Yields a row for each of the settings."""
    for settings in SETTINGS:
        threads, measured = settings[-1], measure(programs, settings, seconds)
        alone = computing(programs, settings, seconds) if threads == 'seq' else dict.fromkeys(programs)
        cells = [cell(runs, alone[name], threads) for name, runs in measured.items()]
        its, *ours = (least(runs, threads) for runs in measured.values())
        yield f'|{KINDS[kind]}|{", ".join(map(str, settings))}|{"|".join(cells)}|' \
              f'{"|".join(f"{our / its:.2f}" for our in ours)}|'


def main(rattle, its, seconds, kind=None):
    programs = {'c': (its, CPU), 'rattle': (rattle, {}), 'requesting': (rattle, REQUEST)}
    print(f'At the beginning of these, the load was {os.getloadavg()[0]:.2f}.', '',
          '|Kernel|Settings|C|Rattle|Rattle, requesting|Rattle : C|requesting : C|', '|---|---' + '|---:' * 5 + '|',
          sep='\n', flush=True)
    for name in [kind] if kind else kinds():
        for row in rows(name, programs, float(seconds)):
            print(row, flush=True)


if __name__ == '__main__':
    main(*sys.argv[1:])
