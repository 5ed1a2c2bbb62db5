"""The default limits of `AsyncPasswordHasher`: from the processors, the memory, and cgroups of versions 1 and 2."""
from unittest import mock

import pytest
from proved_argon2 import AsyncPasswordHasher, AsyncPepperedHasher, PasswordHasher, PepperedHasher, _machine

GIB = 1 << 30
NO_LIMIT_OF_VERSION_1 = "9223372036854771712"


@pytest.fixture
def cgroups(monkeypatch, tmp_path):
    """Make cgroups in a folder in place of the system's: what this process is in, and files with limits."""
    def make(own, limits):
        for name, text in limits.items():
            file = tmp_path / "cgroup" / name
            file.parent.mkdir(parents=True, exist_ok=True)
            file.write_text(f"{text}\n")
        if own is not None:
            (tmp_path / "own").write_text(own)

    monkeypatch.setattr(_machine, "OWN_CGROUPS", str(tmp_path / "own"))
    monkeypatch.setattr(_machine, "ALL_CGROUPS", str(tmp_path / "cgroup"))
    monkeypatch.setattr("os.sysconf", {"SC_PHYS_PAGES": 4 * GIB // 4096, "SC_PAGE_SIZE": 4096}.get)
    return make


@pytest.mark.parametrize("own, limits, expected", [
    # Version 2: a unit of systemd with MemoryMax or MemoryHigh, a limit of the slice above it, and a container.
    ("0::/system.slice/it.service\n", {"system.slice/it.service/memory.max": GIB}, GIB),
    ("0::/system.slice/it.service\n", {"system.slice/it.service/memory.high": GIB,
                                       "system.slice/it.service/memory.max": 2 * GIB}, GIB),
    ("0::/system.slice/it.service\n", {"system.slice/memory.max": GIB,
                                       "system.slice/it.service/memory.max": "max"}, GIB),
    ("0::/system.slice/it.service\n", {"system.slice/other.service/memory.max": GIB}, 4 * GIB),
    ("0::/\n", {"memory.max": GIB}, GIB),
    ("0::/\n", {"memory.max": 8 * GIB}, 4 * GIB),
    ("0::/a:b c\n", {"a:b c/memory.max": GIB}, GIB),
    # Version 1: a cgroup, a limit of the one above it, and a container, in which the path is the host's.
    ("5:cpu,cpuacct:/x\n4:memory:/a/b\n0::/\n", {"memory/a/b/memory.limit_in_bytes": GIB}, GIB),
    ("4:memory:/a/b\n", {"memory/a/memory.limit_in_bytes": GIB,
                         "memory/a/b/memory.limit_in_bytes": NO_LIMIT_OF_VERSION_1}, GIB),
    ("4:memory:/docker/1234\n", {"memory/memory.limit_in_bytes": GIB}, GIB),
    ("4:hugetlb,memory:/a\n", {"memory/a/memory.limit_in_bytes": GIB}, GIB),
    ("4:cpu:/a\n", {"memory/a/memory.limit_in_bytes": GIB}, 4 * GIB),
    # A system without cgroups, and one whose cgroups of this process cannot be read.
    ("", {}, 4 * GIB),
    (None, {}, 4 * GIB),
    (None, {"memory.max": GIB}, GIB),
])
def test_the_memory_is_limited_by_each_cgroup_above_the_process(cgroups, own, limits, expected):
    cgroups(own, limits)
    assert _machine.memory() == expected


@pytest.mark.parametrize("own, files, expected", [
    # Version 2: a container with one processor, a unit of systemd with CPUQuota, and a quota of the slice above it.
    ("0::/\n", {"cpu.max": "100000 100000"}, 1),
    ("0::/system.slice/it.service\n", {"system.slice/it.service/cpu.max": "150000 50000"}, 3),
    ("0::/system.slice/it.service\n", {"system.slice/cpu.max": "200000 100000",
                                       "system.slice/it.service/cpu.max": "max 100000"}, 2),
    # These quotas allow a part of a processor, or more processors than the machine has.
    ("0::/\n", {"cpu.max": "299999 100000"}, 2),
    ("0::/\n", {"cpu.max": "10000 100000"}, 1),
    ("0::/\n", {"cpu.max": "6400000 100000"}, 8),
    # Version 1: a quota of a cgroup above one without a quota, one that lacks a file, and another controller.
    ("1:cpu,cpuacct:/a/b\n", {"cpu/a/cpu.cfs_quota_us": 100000, "cpu/a/cpu.cfs_period_us": 50000,
                              "cpu/a/b/cpu.cfs_quota_us": -1, "cpu/a/b/cpu.cfs_period_us": 100000}, 2),
    ("1:cpu:/a\n", {"cpu/a/cpu.cfs_quota_us": 100000}, 8),
    ("4:memory:/a\n", {"cpu/a/cpu.cfs_quota_us": 100000, "cpu/a/cpu.cfs_period_us": 100000}, 8),
    (None, {}, 8),
])
def test_the_processors_are_limited_by_each_quota_above_the_process(cgroups, own, files, expected):
    cgroups(own, files)
    with mock.patch("os.sched_getaffinity", return_value=range(8)):
        assert _machine.processors() == expected


@pytest.mark.parametrize("kib, lanes, limits, expected", [
    (65536, 1, {}, 8), (65536, 4, {}, 2), (65536, 9, {}, 1), (1 << 18, 1, {}, 4), (1 << 30, 1, {}, 1),
    (65536, 1, {"memory.max": GIB}, 4), (65536, 1, {"memory.max": 1}, 1), (64, 1, {"cpu.max": "300000 100000"}, 3),
    # A hash of 19 MiB takes up to 20 MiB.
    (19456, 1, {"memory.max": 160 << 20}, 2), (19456, 1, {"memory.max": (160 << 20) - 4}, 1)])
def test_the_default_concurrency_follows_processors_lanes_and_memory(cgroups, kib, lanes, limits, expected):
    """With peppers it is that of the settings that are computed."""
    cgroups("0::/\n", limits)
    settings = {"memory_cost": kib, "parallelism": lanes}
    with mock.patch("os.sched_getaffinity", return_value=range(8)):
        for hasher in (AsyncPasswordHasher(PasswordHasher(**settings)),
                       AsyncPepperedHasher(PepperedHasher({"2026": b"key"}, **settings))):
            assert (hasher.concurrency, hasher.waiting) == (expected, 16 * expected)
