"""Comparison with argon2-cffi: Debian's python3-argon2."""
import warnings

import proved_argon2
import pytest

argon2 = pytest.importorskip("argon2", reason="python3-argon2 is not installed")
SETTINGS = {"time_cost": 2, "memory_cost": 64, "parallelism": 2, "hash_len": 24, "salt_len": 12}
STORED = "$argon2i$v=19$m=256,t=2,p=1$c29tZXNhbHQ$iekCn0Y3spW+sCcFanM2xBT63UP2sghkUoHLIUpWRS8"
OLDER = "$argon2i$m=256,t=2,p=1$c29tZXNhbHQ$/U3YPXYsSb3q9XxHvc0MLxur+GP960kN9j7emXX8zwY"
NO_TAG = "$argon2id$v=19$m=64,t=1,p=1$"


def hashing(secret=b"password", salt=b"somesalt", time=1, memory=64, lanes=2, length=16, type="ID", version=19):
    """Return a call of `hash_secret` and one of `hash_secret_raw`, as functions of the module."""
    arguments = (secret, salt, time, memory, lanes, length)
    return [
        lambda module: module.low_level.hash_secret(*arguments, module.low_level.Type[type], version),
        lambda module: module.low_level.hash_secret_raw(*arguments, module.low_level.Type[type], version),
    ]


def verifying(hash, secret=b"password"):
    """Return a call of `verify_secret` and two of `PasswordHasher.verify`, as functions of the module."""
    return [
        lambda module: module.low_level.verify_secret(hash.encode(), secret, module.low_level.Type.I),
        lambda module: module.PasswordHasher().verify(hash, secret),
        lambda module: module.PasswordHasher().verify(hash.encode(), secret),
    ]


def hasher(**settings):
    """Return a call that makes a hasher and returns the length of the salt in its hash."""
    return lambda module: module.extract_parameters(
        module.PasswordHasher(**{**SETTINGS, **settings}).hash("password")).salt_len


def changed(parameters):
    parameters.salt_len = 99
    return parameters


# Each is made with both modules.
CALLS = [
    *(call for settings in (
        {}, {"type": "I"}, {"type": "D"}, {"version": 16}, {"secret": b""}, {"secret": b"\0\xff" * 500},
        {"salt": bytes(range(200))}, {"length": 4}, {"length": 200}, {"time": 7, "memory": 1000, "lanes": 5},
        {"salt": b"salt"}, {"salt": b""}, {"length": 3}, {"time": 0}, {"memory": 15}, {"lanes": 0},
        {"secret": "password"}, {"salt": "somesalt"}) for call in hashing(**settings)),
    *(call for text in (
        STORED, OLDER, STORED + "A", STORED + "=", STORED[:-1], STORED.replace("m=256", "m=7"),
        STORED.replace("t=2", "t=0"), STORED.replace("p=1", "p=0"), "$argon2i$v=19$m=64,t=1,p=1$c29tZXNhbHQ$",
        "$argon2i$") for call in verifying(text)),
    *(call for text, secret in ((STORED, b"Password"), (STORED, b""), (OLDER, b"Password"))
      for call in verifying(text, secret)),
    lambda module: module.low_level.verify_secret(STORED.encode(), b"password", module.low_level.Type.ID),
    lambda module: module.low_level.verify_secret(STORED, b"password", module.low_level.Type.I),
    lambda module: module.low_level.verify_secret(STORED.encode(), "password", module.low_level.Type.I),
    *(lambda module, hash=hash: module.PasswordHasher().verify(hash, "password")
      for hash in ("", "x", "$argon2x" + STORED[8:])),
    *(lambda module, hash=hash: module.PasswordHasher().check_needs_rehash(hash)
      for hash in ("", "x", STORED, OLDER, NO_TAG)),
    *(lambda module, hash=hash: module.extract_parameters(hash).memory_cost for hash in ("", "x", "$", STORED, OLDER)),
    *(lambda module, name=name: getattr(module.extract_parameters(STORED), name) for name in (*SETTINGS, "version")),
    lambda module: module.extract_parameters(STORED).type.name,
    lambda module: module.extract_parameters(STORED) == module.extract_parameters(STORED),
    lambda module: module.extract_parameters(STORED) != module.extract_parameters(OLDER),
    lambda module: changed(module.extract_parameters(STORED)).salt_len,
    *(hasher(**{name: value}) for name, value in (("salt_len", 8), ("salt_len", 7), ("hash_len", 3), ("time_cost", 0))),
    *(hasher(**{name: "1"}) for name in SETTINGS), hasher(encoding=1), hasher(type=1),
    lambda module: module.PasswordHasher(**SETTINGS, encoding="latin-1").hash("\u20ac"),
]


def outcome(call, module):
    """Return the result of a call, or the name of its exception."""
    try:
        with warnings.catch_warnings():
            warnings.simplefilter("ignore")
            return call(module)
    except Exception as error:
        return type(error).__name__.replace("InvalidHashError", "InvalidHash")


@pytest.mark.parametrize("call", CALLS)
def test_each_call_has_the_same_outcome_in_both_modules(call):
    assert outcome(call, proved_argon2) == outcome(call, argon2)


@pytest.mark.parametrize("password", ["", "password", "pass\0word", "\xe9\u20ac", "x" * 10000])
@pytest.mark.parametrize("writer, reader", [(proved_argon2, argon2), (argon2, proved_argon2)])
def test_each_module_verifies_and_reads_hashes_of_the_other(writer, reader, password):
    for variant in ("D", "I", "ID"):
        settings = [{**SETTINGS, "type": module.Type[variant]} for module in (writer, reader)]
        text = writer.PasswordHasher(**settings[0]).hash(password)
        assert reader.PasswordHasher().verify(text, password) is True
        with pytest.raises(reader.exceptions.VerifyMismatchError):
            reader.PasswordHasher().verify(text, password + "x")
        assert not reader.PasswordHasher(**settings[1]).check_needs_rehash(text)


def test_the_profile_pre_21_2_has_the_defaults_of_that_version():
    assert argon2.__version__.split(".")[:2] == ["21", "1"]
    for name in SETTINGS:
        assert getattr(proved_argon2.profiles.PRE_21_2, name) == getattr(argon2.PasswordHasher(), name), name
