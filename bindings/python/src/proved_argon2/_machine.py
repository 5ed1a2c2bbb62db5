"""How many processors and how much memory of the machine this process may use."""
import os

TYPE_CHECKING = False
if TYPE_CHECKING:
    from typing import Dict, Iterator, List

# Where Linux lists the cgroups of this process, and where it shows all cgroups as folders.
OWN_CGROUPS = "/proc/self/cgroup"
ALL_CGROUPS = "/sys/fs/cgroup"


def processors() -> int:
    """Return the number of processors that this process may use, at least 1: those that it may run on, or fewer if a
    cgroup has a quota of their time, as containers and systemd's `CPUQuota` do. A part of a processor does not count.
    """
    count = len(os.sched_getaffinity(0)) if hasattr(os, "sched_getaffinity") else os.cpu_count() or 1
    quotas = [*_limits("", "cpu.max"), *_limits("cpu", "cpu.cfs_quota_us", "cpu.cfs_period_us")]
    return max(1, min([count, *(quota // period for quota, period in quotas if quota > 0)]))


def memory() -> int:
    """Return the bytes of memory that this process may use: the machine's memory, or less if a cgroup limits it, as
    containers and systemd's `MemoryMax` do.
    """
    limits = [*_limits("", "memory.max"), *_limits("", "memory.high"), *_limits("memory", "memory.limit_in_bytes")]
    return min([os.sysconf("SC_PHYS_PAGES") * os.sysconf("SC_PAGE_SIZE"), *(limit for (limit,) in limits)])


def _limits(controller: str, *files: str) -> "Iterator[List[int]]":
    """Yield the numbers in files of each cgroup that has a limit there: a limit counts for all cgroups below it too.

    The hierarchy of version 2 has no controller's name. In version 1, each controller has a hierarchy and a folder.
    """
    cgroup = os.path.join(ALL_CGROUPS, controller)
    # In a container the path may be the host's: then only the top folder, which is the container's, exists.
    for part in _own_cgroups().get(controller, "/").rstrip("/").split("/"):
        cgroup = os.path.join(cgroup, part)
        try:
            yield [int(word) for name in files for word in _text(os.path.join(cgroup, name)).split()]
        except (OSError, ValueError):  # A file does not exist, or says `max`.
            continue


def _own_cgroups() -> "Dict[str, str]":
    """Return the path of this process's cgroup by the controller's name, which is empty for version 2."""
    try:
        lines = [line.split(":", 2) for line in _text(OWN_CGROUPS).split("\n") if line]
    except OSError:
        return {}
    return {name: path for _, controllers, path in lines for name in controllers.split(",")}


def _text(file: str) -> str:
    with open(file, encoding="utf-8", errors="surrogateescape") as opened:
        return opened.read()
