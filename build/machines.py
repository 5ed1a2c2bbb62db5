"""The machines that the libraries are built for (build/machines.txt)."""
import os
import re
from typing import NamedTuple

HERE = os.path.dirname(os.path.realpath(__file__))


class Machine(NamedTuple):
    name: str
    number: int
    target: str
    prefix: str
    base: str
    builds: list
    proved: list  # those that the toolchain makes, which come first


def lines(begin):
    """Returns the table's lines that begin with one of these characters."""
    with open(f"{HERE}/machines.txt", encoding="utf-8") as table:
        return [line for line in table if re.match(begin, line)]


def machines():
    found = {}
    for line in lines("[^#+]"):
        head, builds = line.split(":")
        name, number, target, prefix, base = head.split()
        proved, kernels = (part.split() for part in builds.partition("+")[::2])
        found[name] = Machine(name, int(number), target, prefix.removeprefix("-"), base, proved + kernels, proved)
    return found


def flags_of_builds():
    """Returns what each of several builds needs of a processor, beside the needs of the previous one."""
    found = {build: flags for _, build, *flags in map(str.split, lines("[+]"))}
    several = [build for machine in machines().values() if machine.builds[1:] for build in machine.builds]
    assert [*found] == several, f"machines.txt says what these ask for: {[*found]}, and has {several}"
    return found
