#!/usr/bin/env python3
"""Measures how many hashes per second concurrent callers get, and how long each of them waits, for our library and its
peers: bench/throughput.py FOLDER SECONDS

Each caller is a thread or a process; ctypes lets threads hash at the same time. FOLDER is what bench/run builds. Each
implementation runs for SECONDS in each of ROUNDS, each with a new random order. For each case and implementation this
prints a line: the case, the name, hashes per second, and the median and the 99th percentile of milliseconds.
"""
import multiprocessing
import os
import random
import statistics
import sys
import threading
import time
from concurrent.futures import ThreadPoolExecutor
from itertools import chain

from times import kept, kinds, load_all, prepare

# owasp2 and rfc9106_low_mem: KiB, passes, lanes, and the threads that fill them.
SETTINGS = (19456, 2, 1, 1), (65536, 3, 1, 1)
# How many callers there are, and what each of them is.
CALLERS = (1, 'thread'), (4, 'threads'), (2 * os.cpu_count(), 'threads'), (4, 'processes')
FORK, LATEST = multiprocessing.get_context('fork'), 60  # seconds after which a process must have its result
# We compare our one-shot calls and those over a kept buffer, and the peers that a service in C would use.
NAMES = 'v4', 'reusing', 'libsodium', 'reference-native', 'libargon2'
ROUNDS, PERCENT = 2, 99


def in_threads(call, runs):
    with ThreadPoolExecutor(len(runs)) as pool:
        return [*pool.map(call, runs)]


def in_processes(call, runs):
    results = FORK.Queue()
    processes = [FORK.Process(target=lambda run=run: results.put(call(run))) for run in runs]
    for process in processes:
        process.start()
    found = [results.get(timeout=LATEST) for _ in processes]
    for process in processes:
        process.join()
    return found


def call_together(runs, seconds, are_processes):
    """Has each caller hash for some seconds after a hash that does not count, and returns the milliseconds of each of
    its hashes."""
    start = (FORK if are_processes else threading).Barrier(len(runs))

    def call(run):
        run()
        start.wait()
        spent, end = [], time.perf_counter() + seconds
        while time.perf_counter() < end:
            spent.append(run())
        return spent
    return (in_processes if are_processes else in_threads)(call, runs)


def measure(loaded, cost, callers, seconds):
    """Returns all milliseconds of each implementation, a list for each caller of each round."""
    spent, (count, kind) = {peer: [] for peer in loaded}, callers
    for _ in range(ROUNDS):
        for peer in random.sample([*loaded], len(loaded)):
            kept.clear()
            runs = [peer.call(loaded[peer], cost) for _ in range(count)]
            spent[peer] += call_together(runs, seconds, kind == 'processes')
    return spent


def summed_up(spent):
    """Hashes per second, the median and the percentile. A caller's last hash ends late, so each caller counts with its
    actual time."""
    rate = sum(len(times) / sum(times) * 1000 for times in spent) / ROUNDS
    every = sorted(chain.from_iterable(spent))
    return f'{rate:.4g} {statistics.median(every):.3g} {every[len(every) * PERCENT // 100]:.3g}'


def main(folder, seconds):
    loaded = {peer: library for peer, library in load_all(folder).items() if peer.name in NAMES}
    for kind in kinds():
        for cost in SETTINGS:
            prepare(loaded, cost)  # (which compares their tags)
            for callers in CALLERS:
                case = f'{kind} ({cost[0]}, {cost[1]}, {cost[2]}) by {callers[0]} {callers[1]}'
                for peer, spent in measure(loaded, cost, callers, float(seconds)).items():
                    print('load', case, peer.name, summed_up(spent), sep='\t')


if __name__ == '__main__':
    main(*sys.argv[1:])
