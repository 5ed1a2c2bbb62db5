"""Runs the program under limits of the system: just as many threads as it needs, no thread at all, little address
space, a matrix that no system has, one processor, and stops. Only root can limit threads: the program runs as a
separate user, whose threads Linux counts."""

import contextlib
import os
import random
import resource
import signal
import time
from collections import Counter
from itertools import groupby

import pytest
from runs import NO_MEMORY, NO_WORKER, PROCESSORS, SLICES, TRIES, VALUE, Hash, copy_of, run

HASHES, FEW, LEAST = 200, 20, 198  # hashes; hashes with one thread fewer; how many of the 200 must succeed
PASSES, LATE = 3, 1000  # microseconds
MATRIX, BESIDE_THE_MATRIX, BESIDE_A_SLICE = 65536, 16384, 4096  # KiB
MOST_RESIDENT, MANY = 2048, 16  # KiB, mostly the program's own; workers
# A user ID unused by Debian and systemd: Linux counts all threads of a user.
USER = 60706 + os.getpid() % 478
MOMENT, STOPS = 0.003, 4  # seconds
LITTLE = {'space': (MATRIX + BESIDE_THE_MATRIX) * 1024}


def hashing(passes, memory, lanes, *count, **how):
    settings = Hash('argon2id', 19, passes, memory, lanes, 32)
    return met(settings.words(), settings.output(), *count, **how)


def met(words, output, count=1, space=resource.RLIM_INFINITY, threads=None, **variables):
    """Runs the words within this address space or, as a user of its own, this many threads. Counts each end, each note
    and each series of denied starts (`again`), and takes the peak of resident KiB."""
    assert not os.geteuid(), 'root alone can limit the threads of a user of its own'
    limit, most = (resource.RLIMIT_NPROC, threads) if threads else (resource.RLIMIT_AS, space)
    own = {'user': USER, 'group': USER, 'extra_groups': []} if threads else {}
    how = {**own, 'preexec_fn': lambda: resource.setrlimit(limit, (most, most))}
    came = [run([copy_of('argon2_program'), *words], how=how, **variables) for _ in range(count)]
    notes = [note.split()[0] for one in came for note in one.notes]
    again = sum(note == 'denied' for note, _ in groupby(note for note in notes if note in ('start', 'denied')))
    peak = max(int(one.notes[-1].split()[1]) for one in came)  # (the line `VmHWM`)
    return Counter([*notes, *(one.end(0, output) for one in came)], again=again, peak=peak)


@pytest.mark.parametrize('workers', (2, 4, 8))
def test_a_hash_needs_only_its_workers_and_the_caller(workers):
    """Hashes many times with exactly as many threads as the workers and their caller, all of them late. If workers were
    not joined, or one more were started, each slice would meet the limit and try a start again. A few do so anyway,
    since Linux still counts a joined thread for a moment. With one thread fewer, half the slices have to meet the
    limit; a hash still succeeds once a worker has ended."""
    slices = SLICES * PASSES
    enough = hashing(PASSES, 64, workers, HASHES, threads=workers + 1, DELAY=LATE)
    fewer = hashing(PASSES, 64, workers, FEW, threads=workers, DELAY=LATE)
    assert enough[VALUE] >= LEAST and enough[VALUE] + enough[NO_WORKER] == HASHES
    assert enough['late'] >= enough[VALUE] * slices * workers
    assert enough['again'] < HASHES * slices // 2
    assert fewer['again'] >= FEW * slices // 2


def test_sixteen_workers_fit_into_16_mib_beside_the_matrix():
    """Sixteen workers fit into 16 MiB beside a matrix of 64 MiB: their stacks take 4; those of the workers of all
    8 slices would take 32."""
    assert hashing(2, MATRIX, MANY, space=MATRIX * 1024)[NO_MEMORY] == 1
    found = hashing(2, MATRIX, MANY, **LITTLE)
    assert (found[VALUE], found['start']) == (1, 2 * SLICES * MANY) and found['peak'] >= MATRIX


@pytest.mark.parametrize('how, denied, most', (
    ({**LITTLE, 'REFUSE_START': 1, 'REFUSE_TRIES': TRIES}, 0, MATRIX // 4 + BESIDE_A_SLICE),
    ({'threads': 1}, TRIES + MANY - 1, BESIDE_A_SLICE)), ids=('a refused start', 'no thread'))
def test_a_hash_without_workers_is_refused_with_few_pages_touched(how, denied, most):
    """If the first start is refused, the others still fill the first slice, a quarter of the matrix, and no page beyond
    it is touched. If there is no thread at all, the first start is tried again and again, and the others once, and no
    page of the matrix is touched."""
    found = hashing(2, MATRIX, MANY, **how)
    assert (found[NO_WORKER], found['denied']) == (1, denied) and 0 < found['peak'] <= most


@pytest.mark.parametrize('lanes', (1, 64, 1000))
def test_an_encoded_hash_of_4_tib_is_refused_before_memory_is_touched(lanes):
    found = met(['verify', f'$argon2id$v=19$m=4294967295,t=1,p={lanes}$c29tZXNhbHQ$c29tZWhhc2g'], '')
    assert found[NO_MEMORY] == 1 and 0 < found['peak'] <= MOST_RESIDENT


def stop(process):
    """Stops a process up to four times, each time a moment after it is seen with workers. Returns the most threads it
    then had."""
    tasks, threads = f'/proc/{process.pid}/task', [0]
    with contextlib.suppress(OSError):  # it may end meanwhile
        while len(threads) <= STOPS and process.poll() is None:
            if len(os.listdir(tasks)) > 1:
                time.sleep(random.random() * MOMENT)
                process.send_signal(signal.SIGSTOP)
                os.waitid(os.P_PID, process.pid, os.WSTOPPED | os.WEXITED | os.WNOWAIT)
                threads.append(len(os.listdir(tasks)))  # (one, if the process has ended)
                process.send_signal(signal.SIGCONT)
            time.sleep(MOMENT / 30)
    return max(threads)


@pytest.mark.parametrize('how, has_met', [
    ({'how': {'preexec_fn': lambda: os.sched_setaffinity(0, PROCESSORS[:1])}, 'DELAY': LATE},
     lambda came, starts: came.met['late'] == starts),
    ({'meanwhile': stop}, lambda came, _: came.seen > 1)], ids=('late on one processor', 'stopped'))
def test_late_or_stopped_workers_compute_the_hash(how, has_met):
    """The workers of a stopped process may just have ended: half of the processes have to be stopped with workers."""
    settings = Hash('argon2id', 19, PASSES, MATRIX // 4, 8, 32)
    came = [run([copy_of('argon2_program'), *settings.words()], **how) for _ in range(FEW)]
    assert [one.end(0, settings.output()) for one in came] == [VALUE] * FEW
    assert sum(has_met(one, settings.starts()) for one in came) >= FEW // 2
