"""Measures how long a hash takes with given settings: `python -m proved_argon2 --help`."""
import argparse
import time

from . import PasswordHasher, profiles
from .exceptions import HashingError

TYPE_CHECKING = False
if TYPE_CHECKING:
    from typing import List, Optional


def _positive(word: str) -> int:
    """Return the number of an argument, which must be above 0."""
    number = int(word)
    if number < 1:
        raise argparse.ArgumentTypeError(f"{word} is not above 0")
    return number


def _parser() -> argparse.ArgumentParser:
    default = profiles.get_default_parameters()
    parser = argparse.ArgumentParser(prog="python -m proved_argon2", description="Measures how long a hash takes.")
    for letter, number, about in (
        ("n", 100, "the number of hashes that are measured"),
        ("t", default.time_cost, "the number of passes, time_cost"),
        ("m", default.memory_cost, "the memory in KiB, memory_cost"),
        ("p", default.parallelism, "the number of lanes, parallelism"),
        ("l", default.hash_len, "the length of the hash in bytes, hash_len"),
    ):
        parser.add_argument(f"-{letter}", type=_positive, default=number, help=about)
    parser.add_argument("--profile", choices=[name for name in profiles.__all__ if name.isupper()])
    return parser


def _hasher(arguments: argparse.Namespace) -> PasswordHasher:
    if arguments.profile is not None:
        return PasswordHasher.from_parameters(getattr(profiles, arguments.profile))
    return PasswordHasher(time_cost=arguments.t, memory_cost=arguments.m, parallelism=arguments.p, hash_len=arguments.l)


def main(words: "Optional[List[str]]" = None) -> None:
    """Verify a password several times with the settings of the arguments, and print the mean time."""
    parser = _parser()
    arguments = parser.parse_args(words)
    hasher = _hasher(arguments)
    try:
        text = hasher.hash("secret")
    except HashingError as error:
        parser.error(str(error))
    print(f"Running Argon2id {arguments.n} times with:")
    units = {"hash_len": "bytes", "memory_cost": "KiB", "parallelism": "lanes", "time_cost": "passes"}
    for name, unit in units.items():
        print(f"{name}: {getattr(hasher, name)} {unit}")
    begun = time.perf_counter()
    for _ in range(arguments.n):
        hasher.verify(text, "secret")
    print(f"\n{(time.perf_counter() - begun) / arguments.n * 1000:.1f}ms per password verification")


if __name__ == "__main__":
    main()
