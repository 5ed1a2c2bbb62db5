"""Hashes of other libraries, those of RFC 9106, and random ones of libargon2 in the file that RANDOM_HASHES names."""
import base64
import os
from pathlib import Path

import pytest
from proved_argon2.exceptions import HashingError, VerificationError, VerifyMismatchError
from proved_argon2.low_level import (
    ARGON2_VERSION,
    Memory,
    Type,
    error_to_str,
    hash_secret,
    hash_secret_raw,
    verify_secret,
)

VECTORS = Path(__file__).resolve().parents[2] / "vectors"
FILES = [VECTORS / "raw.txt", *(Path(os.environ[name]) for name in ("RANDOM_HASHES",) if name in os.environ)]
LINES = [line for file in FILES for line in file.read_text().splitlines()]
TEXTS = (VECTORS / "texts.txt").read_text().splitlines()
TYPES = {"argon2d": Type.D, "argon2i": Type.I, "argon2id": Type.ID}


def bytes_of(field):
    return b"" if field == "-" else bytes.fromhex(field)


def answer_of(call, *arguments, **named):
    """Return the result of a call as the vectors have it."""
    try:
        return call(*arguments, **named)
    except VerifyMismatchError:
        return "false"
    except (HashingError, VerificationError) as error:
        return f"ERR {error}"


def test_all_vectors_are_present():
    assert (len(LINES), len(TEXTS)) == (240 if len(FILES) == 1 else 1040, 147)


@pytest.mark.parametrize("memory", [None, Memory(65536)], ids=["own memory", "one memory"])
def test_each_tag_or_error_is_that_of_the_vector(memory):
    """Encoded hashes have the same tag. They match only with this password, this secret and this associated data."""
    for line in LINES if memory is None else LINES[:240]:
        variant, *numbers, pwd, salt, secret, ad, answer = line.split(" ", 10)
        version, time_cost, memory_cost, lanes, length = map(int, numbers)
        pwd, salt, secret, ad = map(bytes_of, (pwd, salt, secret, ad))
        arguments = (pwd, salt, time_cost, memory_cost, lanes, length, TYPES[variant], version)
        named = {"key": secret, "associated_data": ad, "memory": memory}
        tag, text = (answer_of(call, *arguments, **named) for call in (hash_secret_raw, hash_secret))
        if answer.startswith("ERR "):
            assert (tag, text) == (answer, answer), line
            continue
        encoded_tag = text.decode().split("$")[-1]
        assert [tag.hex(), base64.b64decode(encoded_tag + "=" * (-len(encoded_tag) % 4)).hex()] == [answer] * 2, line
        assert verify_secret(text, pwd, TYPES[variant], **named) is True, line
        others = {**named, "key": ad, "associated_data": secret}
        for wrong, keys in ((pwd + b"x", named), *([(pwd, others)] if secret != ad else [])):
            assert answer_of(verify_secret, text, wrong, TYPES[variant], **keys) == "false", line


def test_each_string_has_the_verdict_of_the_vector():
    for line in TEXTS:
        text, answer = line.split("\t")
        # The type is the one that the string names, or any if it names none.
        variant = TYPES.get(text.split("$")[1].lower() if "$" in text else "", Type.I)
        found = answer_of(verify_secret, text.encode(), b"password", variant)
        assert ("true" if found is True else found) == answer, text


@pytest.mark.parametrize("variant, tag", [
    (Type.D, "512b391b6f1162975371d30919734294f868e3be3984f3c1a13a4db9fabe4acb"),
    (Type.I, "c814d9d1dc7f37aa13f0d77f2494bda1c8de6b016dd388d29952a4c4672b6ce8"),
    (Type.ID, "0d640df58d78766c08c037a34a8b53c9d01ef0452d75b65eb52520e96b01e659"),
])
def test_the_tags_are_those_of_rfc_9106(variant, tag):
    named = {"key": b"\3" * 8, "associated_data": b"\4" * 12}
    arguments = (b"\1" * 32, b"\2" * 16, 3, 32, 4, 32, variant, ARGON2_VERSION)
    assert hash_secret_raw(*arguments, **named).hex() == tag
    text = hash_secret(*arguments, **named)
    assert verify_secret(text, b"\1" * 32, variant, **named) is True
    with pytest.raises(VerifyMismatchError, match=error_to_str(64)):
        verify_secret(text, b"\1" * 32, variant)


def test_errors_have_messages_and_only_bytes_are_accepted():
    assert (error_to_str(0), error_to_str(5)) == ("No error", "Salt is too short")
    text = hash_secret(b"password", b"somesalt", 1, 8, 1, 32, Type.ID)
    with pytest.raises(VerificationError):
        verify_secret(text, b"password", Type.I)
    with pytest.raises(TypeError, match="secret"):
        hash_secret("password", b"somesalt", 1, 8, 1, 32, Type.ID)
    with pytest.raises(TypeError, match="hash"):
        verify_secret(text.decode(), b"password", Type.ID)
