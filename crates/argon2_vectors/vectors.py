#!/usr/bin/env python3
"""Writes this crate's files stdin and stdout, which `rt ci` reads, and which git ignores: questions, and
their answers from outside. Without them `rt ci` would ask nothing, so CI writes them first.

The questions are those of rows.txt, each a line with its answer behind a tab; those that are made here
from BLAKE2b of hashlib and from rfc9106.py; and those of bindings/vectors. Its raw.txt has a line for each
tag: variant, version, t, m, p, tag length, password, salt, secret and associated data (the last four in
hexadecimal, - for empty), with single blanks between them, and behind the tenth blank the answer. Its
texts.txt has an encoded text, a tab, and the verdict on it for the password `password`. Nothing here runs
the library.
"""
import base64
import re
import sys
from pathlib import Path

sys.dont_write_bytecode = True
import rfc9106  # noqa: E402

HERE = Path(__file__).resolve().parent
OUTSIDE = HERE.parents[1] / "bindings" / "vectors"
SPELLED = re.compile(
    r"\$([Aa]rgon2(?:d|id?))(?:\$v=(16|19))?"
    r"\$m=(\+?[0-9]+),t=(\+?[0-9]+),p=(\+?[0-9]+)\$([^$]*)\$([^$]*)"
)
# Byte number i is 7i + 3, modulo 251.
MESSAGE = bytes((7 * i + 3) % 251 for i in range(300))
INPUTS = "'password 'somesalt - -"


def lines_of(file):
    return file.read_text(encoding="utf-8").removesuffix("\n").split("\n")


def rows():
    """The rows that are kept by hand. A line that begins with # says what follows it."""
    for line in lines_of(HERE / "rows.txt"):
        if line and not line.startswith("# "):
            yield tuple(line.split("\t"))


def word(message):
    return message.hex() or "-"


def hashes():
    """BLAKE2b around the size of its blocks (128 bytes), in one piece and cut in two; and shorter hashes."""
    for length in (0, 1, 127, 128, 129, 255, 256, 257):
        message = MESSAGE[:length]
        answer = rfc9106.blake2b(64, message).hex()
        yield f"blake2b 64 {word(message)}", answer
        for cut in (0, 1, 64, 127, 128, 129, 255, 256, 257):
            if cut <= length:
                yield f"blake2b 64 {word(message[:cut])} {word(message[cut:])}", answer
    for length in (1, 16):
        yield f"blake2b {length} {word(MESSAGE)}", rfc9106.blake2b(length, MESSAGE).hex()


def stretched_hashes():
    """H' of several lengths: the question has the lengths of the pieces, and the answer the pieces."""
    for length in (1, 4, 32, 63, 64, 65, 96, 97, 128, 1024):
        pieces = rfc9106.hprime_pieces(length, MESSAGE)
        lengths = "+".join(str(len(piece)) for piece in pieces)
        answer = " ".join(piece.hex() for piece in pieces)
        yield f"hprime {lengths} {word(MESSAGE)}", answer
        other = " ".join(piece.hex() for piece in rfc9106.hprime_pieces(length, b"abc"))
        yield f"hprime {lengths} 'abc", other


def shown(setting):
    """Returns what is shown of the first job of Argon2d in version 0x13."""
    return (
        f"Job {{ prehash: {list(setting.h0)}, variant: Argon2d, version: Version13, lanes: {setting.lanes}, "
        f"segment_length: {setting.segment}, passes: {setting.time}, pass: 0, slice: 0 }}"
    )


def first_inputs():
    """The bytes that are hashed first, as the job shows their hash."""
    setting = rfc9106.Setting(rfc9106.D, 19, 2, 256, 2, 32, b"password", b"somesalt")
    assert setting.first.hex() == (
        "02000000200000000001000002000000130000000000000008000000"
        "70617373776f726408000000736f6d6573616c740000000000000000"
    )
    yield f"Job::new argon2d 19 2 256 2 32 seq {INPUTS}", shown(setting)
    other = rfc9106.Setting(rfc9106.D, 19, 2, 35, 4, 32, b"pw", b"somesalt")
    yield "Job::new argon2d 19 2 35 4 32 par 'pw 'somesalt - -", shown(other)


def references():
    """256 references of a segment, at once and in halves, and those of another password and salt."""
    setting = rfc9106.Setting(rfc9106.I, 19, 2, 4096, 4, 32, b"password", b"somesalt")
    for inputs, first, count in (
        (INPUTS, 0, 256), (INPUTS, 0, 128), (INPUTS, 128, 128), ("'other 'othersalt - -", 0, 256),
    ):
        places = setting.positions(1, 2, 3, first, count)
        answer = " ".join(f"{lane},{column}" for lane, column in places)
        yield f"reference_positions argon2i 19 2 4096 4 32 seq {inputs} 1 3 2 {first} {count}", answer


def tags(file=OUTSIDE / "raw.txt"):
    for line in lines_of(file):
        *fields, answer = line.split(" ", 10)
        yield " ".join(["hash_raw", *fields[:6], "all", *fields[6:]]), answer


def spelled(variant, version, memory, time, lanes, salt, tag):
    """An encoded text, of the digits of a salt and a tag."""
    items = "$".join(base64.b64encode(bytes.fromhex(digits)).decode().rstrip("=") for digits in (salt, tag))
    return f"${variant}$v={version}$m={memory},t={time},p={lanes}${items}"


def written(text):
    """Returns the one form that the library writes for the value of a text: the name in lower case,
    the version always there (none means 16), numbers without plus and leading zeros, and salt and
    hash as they are, since a byte string has one spelling."""
    name, version, memory, time, lanes, salt, digest = SPELLED.fullmatch(text).groups()
    numbers = f"m={int(memory)},t={int(time)},p={int(lanes)}"
    return f"${name.lower()}$v={version or 16}${numbers}${salt}${digest}"


def verdicts():
    for line in lines_of(OUTSIDE / "texts.txt"):
        text, verdict = line.split("\t")
        answer = verdict if verdict.startswith("ERR ") else f"{verdict} {written(text)}"
        yield f"verify_encoded {text}", answer


def questions():
    """All questions, each with its answer."""
    makers = (rows, hashes, stretched_hashes, first_inputs, references, tags, verdicts)
    return [pair for maker in makers for pair in maker()]


def main():
    rfc9106.check()
    pairs = questions()
    for name, lines in zip(("stdin", "stdout"), zip(*pairs)):
        (HERE / name).write_text("".join(f"{line}\n" for line in lines), encoding="utf-8")
    print(f"vectors: {len(pairs)} questions")


if __name__ == "__main__":
    main()
