"""`PepperedHasher`: peppers that rotate, hashes without a pepper, and peppers that are unknown."""
from unittest import mock

import pytest
from proved_argon2 import (
    DEFAULT_LIMITS,
    Limits,
    Parameters,
    PasswordHasher,
    PepperedHasher,
    Type,
    extract_parameters,
    low_level,
)
from proved_argon2.exceptions import (
    HashingError,
    InvalidHashError,
    TooCostlyError,
    UnknownPepperError,
    VerificationError,
    VerifyMismatchError,
)

SMALL = {"time_cost": 1, "memory_cost": 64, "parallelism": 2}
PEPPERS, DATA = {"2026": b"new", "2025": b"old"}, {"associated_data": b"user 7"}


def hash_with(key):
    """Return an encoded hash of `password`, made without `PepperedHasher`."""
    settings = {"secret": b"password", "salt": b"saltsaltsaltsalt", **SMALL, "hash_len": 32, "type": Type.ID}
    return low_level.hash_secret(**settings, key=key).decode()


def test_new_hashes_have_the_newest_pepper_and_match_only_with_it():
    hasher = PepperedHasher(PEPPERS, **SMALL)
    key_id, encoded = hasher.hash("password", **DATA)
    assert key_id == hasher.newest == "2026" and PasswordHasher(secret=b"new").verify(encoded, "password", **DATA)
    assert hasher.verify_and_update(key_id, encoded, "password", **DATA) == (True, None)
    for other, password, data in (
            ("2026", "Password", DATA), ("2026", "password", {"associated_data": b"user 8"}), ("2026", "password", {}),
            ("2025", "password", DATA)):
        assert hasher.verify_and_update(other, encoded, password, **data) == (False, None)
    assert hasher.verify_and_update("2026", hash_with(b""), "password") == (False, None)
    with pytest.raises(VerifyMismatchError):
        PasswordHasher().verify(encoded, "password", **DATA)


def test_a_hash_with_an_older_pepper_is_renewed_for_the_right_password_only():
    hasher = PepperedHasher(PEPPERS, **SMALL)
    old = PasswordHasher(**SMALL, secret=b"old").hash("password", **DATA)
    assert hasher.verify_and_update("2025", old, "Password", **DATA) == (False, None)
    is_match, (key_id, renewed) = hasher.verify_and_update("2025", old, "password", **DATA)
    assert (is_match, key_id) == (True, "2026")
    assert PasswordHasher(secret=b"new").verify(renewed, "password", **DATA) is True
    with mock.patch("ctypes.create_string_buffer", side_effect=MemoryError):
        assert hasher.verify_and_update("2025", old, "password", **DATA) == (True, None)


@pytest.mark.parametrize("variant", Type)
def test_from_parameters_takes_each_parameter(variant):
    parameters = Parameters(variant, 19, salt_len=9, hash_len=5, time_cost=2, memory_cost=97, parallelism=3)
    hasher = PepperedHasher.from_parameters(PEPPERS, parameters)
    key_id, encoded = hasher.hash("password")
    assert (key_id, extract_parameters(encoded)) == ("2026", parameters)
    assert PasswordHasher(secret=b"new").verify(encoded, "password") is True
    assert (hasher.hasher.limits, hasher.hasher.keep_memory) == (DEFAULT_LIMITS, False)


def test_from_parameters_takes_the_other_arguments():
    limits = Limits(memory_cost=1024, time_cost=3)
    hasher = PepperedHasher.from_parameters(
        PEPPERS, extract_parameters(hash_with(b"")), accept_unpeppered=True, limits=limits, keep_memory=True)
    assert (hasher.hasher.limits, hasher.hasher.keep_memory) == (limits, True)
    assert hasher.verify_and_update(None, hash_with(b""), "password")[0] is True


@pytest.mark.parametrize("key_id", [None, "2024", "", "None"])
def test_a_hash_without_a_known_pepper_is_rejected(key_id):
    """Whoever can write to the store but has no key could otherwise store a hash of a password of theirs."""
    hasher, forged = PepperedHasher(PEPPERS, **SMALL), hash_with(b"")
    words = "the hash has no pepper" if key_id is None else f"there is no pepper with the ID {key_id!r}"
    with pytest.raises(UnknownPepperError, match=f"^{words}$") as raised:
        hasher.verify_and_update(key_id, forged, "password")
    assert isinstance(raised.value, VerificationError)


def test_a_hash_without_pepper_is_accepted_during_a_migration_only():
    hasher = PepperedHasher({"2026": b"new"}, accept_unpeppered=True, **SMALL)
    assert hasher.verify_and_update(None, hash_with(b""), "Password") == (False, None)
    is_match, (key_id, renewed) = hasher.verify_and_update(None, hash_with(b""), "password")
    assert (is_match, key_id) == (True, "2026") and PasswordHasher(secret=b"new").verify(renewed, "password")
    assert hasher.verify_and_update(key_id, renewed, "password") == (True, None)
    with pytest.raises(UnknownPepperError):
        hasher.verify_and_update("2025", renewed, "password")


def test_the_limits_are_those_of_hashes_with_each_pepper_and_without_one():
    small = {**SMALL, "memory_cost": 16}
    hasher = PepperedHasher(PEPPERS, accept_unpeppered=True, limits=Limits(memory_cost=63), **small)
    for key_id, key in {**PEPPERS, None: b""}.items():
        with pytest.raises(TooCostlyError):
            hasher.verify_and_update(key_id, hash_with(key), "password")


@pytest.mark.parametrize("accept", ["false", "", 1, None])
def test_accept_unpeppered_must_be_a_bool(accept):
    with pytest.raises(TypeError, match="^'accept_unpeppered' must be bool, not "):
        PepperedHasher(PEPPERS, accept_unpeppered=accept, **SMALL)


@pytest.mark.parametrize("peppers, error, words", [
    ({}, ValueError, "at least one key"), ({"2026": b""}, ValueError, "'2026' is empty"),
    ({"2026": b"new", "2025": b""}, ValueError, "'2025' is empty"), ({None: b"key"}, TypeError, "not NoneType"),
    ({2026: b"key"}, TypeError, "not int"), ({"2026": "key"}, TypeError, "'secret' must be bytes")])
def test_peppers_without_a_key_or_an_id_are_rejected(peppers, error, words):
    with pytest.raises(error, match=words):
        PepperedHasher(peppers, **SMALL)


@pytest.mark.parametrize("key_id", [0, b"2026", ["2026"]])
def test_an_id_of_another_type_is_rejected(key_id):
    with pytest.raises(TypeError, match="'key_id' must be str or None"):
        PepperedHasher(PEPPERS, **SMALL).verify_and_update(key_id, hash_with(b"new"), "password")


def test_other_errors_are_those_of_password_hasher():
    hasher = PepperedHasher(PEPPERS, **SMALL)
    with pytest.raises(InvalidHashError):
        hasher.verify_and_update("2026", "x", "password")
    with pytest.raises(HashingError):
        PepperedHasher(PEPPERS, time_cost=0).hash("password")


def test_progress_stops_each_call():
    class Stopped(Exception):
        """`progress` raises this."""

    def stop(done, slices):
        raise Stopped

    hasher = PepperedHasher(PEPPERS, **SMALL)
    for call in (lambda: hasher.hash("password", progress=stop),
                 lambda: hasher.verify_and_update("2026", hash_with(b"new"), "password", progress=stop),
                 lambda: hasher.verify_unknown("password", progress=stop)):
        with pytest.raises(Stopped):
            call()


def test_a_hasher_does_not_show_its_keys():
    assert "a key" not in repr(vars(PepperedHasher({"2026": b"a key"})))
