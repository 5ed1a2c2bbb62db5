"""`PasswordHasher` and the older calls, with the names, defaults and results of argon2-cffi."""
import base64
import copy
import dataclasses
import inspect
import pickle
import re
import subprocess
import sys
import unicodedata
from pathlib import Path
from unittest import mock

import proved_argon2
import pytest
from proved_argon2 import (
    Parameters,
    PasswordHasher,
    PepperedHasher,
    Type,
    _library,
    extract_parameters,
    hash_password,
    hash_password_raw,
    low_level,
    profiles,
    verify_password,
)
from proved_argon2.exceptions import (
    Argon2Error,
    BusyError,
    HashingError,
    InvalidHash,
    InvalidHashError,
    TooCostlyError,
    UnknownPepperError,
    VerificationError,
    VerifyMismatchError,
)

TOP = Path(__file__).resolve().parents[3]
SMALL = {"time_cost": 1, "memory_cost": 32, "parallelism": 2}
TEXT = "$argon2i$v=19$m=256,t=2,p=1$c29tZXNhbHQ$iekCn0Y3spW+sCcFanM2xBT63UP2sghkUoHLIUpWRS8"
OTHER = {**SMALL, "time_cost": 2}
INPUTS = b"password", b"somesalt", *SMALL.values(), 32, Type.ID
HASHER = PasswordHasher(**SMALL)
OLD_CALLS = hash_password, hash_password_raw, verify_password
of_the_old_calls = pytest.mark.filterwarnings("ignore:.* is deprecated:DeprecationWarning")


@pytest.mark.parametrize("keep_memory", [False, True])
def test_a_password_matches_only_with_the_secret_and_the_associated_data_of_its_hash(keep_memory):
    hasher = PasswordHasher(**SMALL, secret=b"pepper", keep_memory=keep_memory)
    text = hasher.hash("password", salt=b"somesalt", associated_data=b"user 7")
    assert text == low_level.hash_secret(*INPUTS, key=b"pepper", associated_data=b"user 7").decode()
    renewing, data = PasswordHasher(**OTHER, secret=b"pepper"), {"associated_data": b"user 7"}
    is_match, new = renewing.verify_and_update(text, "password", **data)
    assert is_match and renewing.verify_and_update(new, "password", **data) == (True, None)
    copied = pickle.loads(pickle.dumps(hasher))
    for other in (hasher, copied, PasswordHasher.from_parameters(profiles.OWASP, secret=b"pepper")):
        for stored in (text, new):
            assert other.verify(stored, "password", **data) is True
    for other, password, given in (
            (hasher, "Password", data), (hasher, "password", {}), (hasher, "password", {"associated_data": b"user 8"}),
            (PasswordHasher(), "password", data), (PasswordHasher(secret=b"Pepper"), "password", data)):
        for stored in (text, new):
            with pytest.raises(VerifyMismatchError):
                other.verify(stored, password, **given)
            assert other.verify_and_update(stored, password, **given) == (False, None)


def test_the_defaults_are_those_of_argon2_cffi():
    assert PasswordHasher()._parameters == profiles.RFC_9106_LOW_MEMORY
    text = PasswordHasher().hash("password", salt=b"somesalt")
    assert text.startswith("$argon2id$v=19$m=65536,t=3,p=4$c29tZXNhbHQ$")
    assert PasswordHasher().verify(text, "password") is True


def arguments(call):
    """Return the names, kinds and defaults of a call's arguments, for which the page says `text` in place of `hash`."""
    return [(name.replace("hash", "text"), argument.kind, argument.default)
            for name, argument in inspect.signature(call).parameters.items() if name != "self"]


@pytest.mark.parametrize("name, call", [
    ("PasswordHasher", PasswordHasher), ("extract_parameters", extract_parameters),
    ("PepperedHasher", PepperedHasher), ("PepperedHasher.from_parameters", PepperedHasher.from_parameters),
    *((f"hasher.{name}", getattr(PasswordHasher, name)) for name in ("hash", "verify", "check_needs_rehash"))])
def test_the_page_shows_the_arguments_and_defaults_of_each_call(name, call):
    page, names = " ".join((TOP / "docs/PYTHON.md").read_text("utf-8").split()), dict(vars(proved_argon2))
    exec("def documented({}): pass".format(re.search(rf"`{name}\((.*?)\)`", page)[1]), names)
    assert arguments(names["documented"]) == arguments(call)


def test_the_package_exports_all_exceptions():
    names = [name for name, value in vars(proved_argon2.exceptions).items() if isinstance(value, type)]
    assert len(names) == 10 and {*names} <= {*proved_argon2.__all__}
    assert all(getattr(proved_argon2, name) is getattr(proved_argon2.exceptions, name) for name in names)


@pytest.mark.parametrize("error, above", [
    (VerifyMismatchError, VerificationError), (VerificationError, Argon2Error), (HashingError, Argon2Error),
    (InvalidHashError, ValueError), (BusyError, Argon2Error), (TooCostlyError, VerificationError),
    (UnknownPepperError, VerificationError), (InvalidHash, InvalidHashError)])
def test_the_exceptions_have_the_base_classes_of_argon2_cffi(error, above):
    assert issubclass(error, above)


@pytest.mark.parametrize("variant", Type)
def test_from_parameters_takes_each_parameter(variant):
    parameters = Parameters(variant, 19, salt_len=9, hash_len=5, time_cost=2, memory_cost=97, parallelism=3)
    hasher = PasswordHasher.from_parameters(parameters)
    assert hasher._parameters == extract_parameters(hasher.hash("password")) == parameters


def test_repr_shows_the_settings_but_not_the_secret():
    assert repr(PasswordHasher(**SMALL, limits=None, keep_memory=True, secret=b"pepper")) == (
        "PasswordHasher(time_cost=1, memory_cost=32, parallelism=2, hash_len=32, salt_len=16, encoding='utf-8', "
        "type=<Type.ID: 2>, limits=None, keep_memory=True)")


def test_parameters_can_be_changed_and_copied_and_are_a_dataclass_as_in_argon2_cffi():
    """`get_default_parameters` returns a copy of the profile."""
    changed = profiles.get_default_parameters()
    assert changed == profiles.RFC_9106_LOW_MEMORY == pickle.loads(pickle.dumps(changed)) == copy.copy(changed)
    changed.salt_len = 8
    assert (changed.salt_len, profiles.RFC_9106_LOW_MEMORY.salt_len) == (8, 16)
    assert repr(changed) == ("Parameters(type=<Type.ID: 2>, version=19, salt_len=8, hash_len=32, time_cost=3, "
                             "memory_cost=65536, parallelism=4)")
    assert dataclasses.replace(changed, salt_len=16) == profiles.RFC_9106_LOW_MEMORY
    assert dataclasses.asdict(changed) == vars(changed) and [*vars(changed)] == [
        field.name for field in dataclasses.fields(Parameters)]
    with pytest.raises(TypeError):
        hash(changed)


@pytest.mark.parametrize("wrong, words", [
    *(({name: value}, f"'{name}' must be") for name, value in (
        ("time_cost", "1"), ("type", 2), ("encoding", 8), ("hash_len", None), ("keep_memory", 1))),
    *(({"secret": secret}, "'secret' must be bytes") for secret in ("pepper", None, bytearray(b"pepper"))),
    ({"time_cost": "1", "hash_len": None}, "'time_cost' .*, 'hash_len' .*"),
])
def test_arguments_of_a_wrong_type_are_named_in_the_error(wrong, words):
    with pytest.raises(TypeError, match=words):
        PasswordHasher(**wrong)


@pytest.mark.parametrize("profile, name, lanes", [
    (profiles.OWASP, "owasp2", 1), (profiles.RFC_9106_HIGH_MEMORY, "rfc9106", 4),
    (profiles.RFC_9106_LOW_MEMORY, "rfc9106_low_mem", 4)])
def test_profiles_have_the_values_of_the_library_s_presets(profile, name, lanes):
    call = getattr(_library._library, f"proved_argon2_{name}")
    call.argtypes, call.restype = [], _library.Settings
    found = call()
    assert profile == Parameters(
        Type(found.variant), found.version, 16, found.hash_length, found.time_cost, found.mem_cost, lanes)


@pytest.mark.parametrize("profile, values", [
    (profiles.PRE_21_2, (Type.ID, 19, 16, 16, 2, 102400, 8)), (profiles.CHEAPEST, (Type.ID, 19, 8, 4, 1, 8, 1))])
def test_the_other_profiles_have_the_values_of_argon2_cffi(profile, values):
    assert profile == Parameters(*values)


@of_the_old_calls
def test_the_salt_is_from_urandom_unless_it_is_passed():
    known = bytes(range(0x81, 0xC1))
    encoded = base64.b64encode(known).decode().rstrip("=")
    with mock.patch("os.urandom", lambda length: known[:length]):
        texts = [PasswordHasher(**SMALL, salt_len=length).hash("password") for length in (15, 48)]
        text, raw = (call(b"password", **SMALL) for call in OLD_CALLS[:2])
    assert [text.split("$")[4] for text in texts] == [encoded[:20], encoded[:64]]
    assert text == low_level.hash_secret(b"password", known[:16], 1, 32, 2, 32, Type.I)
    assert raw == low_level.hash_secret_raw(b"password", known[:16], 1, 32, 2, 32, Type.I)
    assert PasswordHasher(**SMALL).hash("password", salt=b"somesalt").split("$")[4] == "c29tZXNhbHQ"
    for salt in (b"", b"salt"):
        for call in (lambda: PasswordHasher(**SMALL).hash("password", salt=salt),
                     *(lambda old=old: old(b"password", salt, **SMALL) for old in OLD_CALLS[:2])):
            with pytest.raises(HashingError, match="Salt is too short"):
                call()


def test_the_deprecated_calls_hash_and_verify_and_warn_in_the_words_of_argon2_cffi_at_the_caller_s_line():
    def warned(call, *arguments, **named):
        words = f"^argon2.{call.__name__} is deprecated, use argon2.PasswordHasher instead$"
        with pytest.warns(DeprecationWarning, match=words) as warnings:
            answer = call(*arguments, **named)
        assert warnings[0].filename == __file__
        return answer

    text, raw = (warned(call, *INPUTS[:2], **SMALL, hash_len=24, type=Type.ID) for call in OLD_CALLS[:2])
    assert text == low_level.hash_secret(*INPUTS[:5], 24, Type.ID)
    assert text.decode().split("$")[5] == base64.b64encode(raw).decode().rstrip("=")
    assert warned(verify_password, text, b"password", Type.ID) is True
    for wrong, error in (((text, b"Password", Type.ID), VerifyMismatchError), ((text, b"password"), VerificationError)):
        with pytest.raises(error), pytest.warns(DeprecationWarning):
            verify_password(*wrong)
    for call in OLD_CALLS[:2]:
        assert [(name, argument.default) for name, argument in inspect.signature(call).parameters.items()][1:] == [
            ("salt", None), ("time_cost", 3), ("memory_cost", 65536), ("parallelism", 4), ("hash_len", 32),
            ("type", Type.I)]


def run_module(*words):
    return subprocess.run([sys.executable, "-m", "proved_argon2", *words], capture_output=True, text=True)


def test_python_m_measures_a_hash():
    words = "-n", "2", "-t", "1", "-m", "64", "-p", "2", "-l", "16"
    done = run_module(*words)
    assert done.returncode == 0, done.stderr
    for line in ("time_cost: 1 passes", "memory_cost: 64 KiB", "parallelism: 2 lanes", "hash_len: 16 bytes",
                 "ms per password verification"):
        assert line in done.stdout
    assert "memory_cost: 8 KiB" in run_module(*words, "--profile", "CHEAPEST").stdout


@pytest.mark.parametrize("option, number, why", [
    ("-n", "0", "argument -n: 0 is not above 0"), ("-n", "-1", "argument -n: -1 is not above 0"),
    ("-t", "0", "argument -t: 0 is not above 0"), ("-m", "7", "Memory cost is too small"),
    ("-p", "4294967296", "parallelism is 4294967296"), ("-l", "3", "Output is too short")])
def test_python_m_names_a_rejected_argument(option, number, why):
    done = run_module(option, number)
    assert (done.returncode, done.stdout) == (2, "") and why in done.stderr and "Traceback" not in done.stderr


@pytest.mark.parametrize("variant", Type)
def test_verify_accepts_the_password_and_rejects_another_one(variant):
    hasher = PasswordHasher(**SMALL, type=variant)
    texts = {hasher.hash("password") for _ in range(20)}
    assert len(texts) == 20  # Each has a different salt.
    for text in texts:
        assert hasher.verify(text, "password") is PasswordHasher().verify(text.encode(), b"password") is True
        with pytest.raises(VerifyMismatchError):
            hasher.verify(text, "Password")


def test_any_bytes_can_be_a_password_and_a_str_is_encoded_without_normalizing_it():
    hasher, latin = PasswordHasher(**SMALL), PasswordHasher(**SMALL, encoding="latin-1")
    forms = [unicodedata.normalize(form, "pässwörd ﬁ \u212b\n") for form in ("NFC", "NFD", "NFKC", "NFKD")]
    for password in (b"", b"\0", b"pass\0word", bytes(range(256)), b"\xff" * (1 << 20), *forms):
        text, same = hasher.hash(password), password.encode() if isinstance(password, str) else password
        assert hasher.verify(text, same) is hasher.verify(hasher.hash(same), password) is True
        with pytest.raises(VerifyMismatchError):
            hasher.verify(text, b"pass")
    assert hasher.verify(latin.hash("\xe9"), b"\xe9") and latin.verify(hasher.hash(b"\xe9"), "\xe9")
    for call in (lambda: latin.hash("\u20ac"), lambda: hasher.hash("\ud800"), lambda: hasher.verify(TEXT, "\ud800")):
        with pytest.raises(UnicodeEncodeError):
            call()


@pytest.mark.parametrize("wrong", [None, 5, ["x"], bytearray(TEXT.encode())])
@pytest.mark.parametrize("name, calls", {
    "password": (HASHER.hash, lambda wrong: HASHER.verify(TEXT, wrong), HASHER.verify_unknown),
    "hash": (lambda wrong: HASHER.verify(wrong, "x"), lambda wrong: HASHER.verify_and_update(wrong, "x"),
             HASHER.check_needs_rehash, extract_parameters),
    "associated_data": (lambda wrong: HASHER.hash("x", associated_data=wrong),
                        lambda wrong: HASHER.verify(TEXT, "x", associated_data=wrong),
                        lambda wrong: HASHER.verify_and_update(TEXT, "x", associated_data=wrong))}.items())
def test_an_input_of_a_wrong_type_is_named_in_the_error(name, calls, wrong):
    """A user without a password may have the hash `None`."""
    for call in calls:
        with pytest.raises(TypeError, match=f"^'{name}' must be (str or )?bytes, not {wrong.__class__.__name__}$"):
            call(wrong)


def test_extract_parameters_reads_each_setting():
    assert extract_parameters(TEXT) == Parameters(
        Type.I, version=19, salt_len=8, hash_len=32, time_cost=2, memory_cost=256, parallelism=1)
    assert extract_parameters(TEXT.replace("v=19$", "")).version == 16


def test_check_needs_rehash_and_verify_and_update_compare_each_setting():
    today = {"time_cost": 2, "memory_cost": 256, "parallelism": 1, "salt_len": 8, "type": Type.I}
    needs = PasswordHasher(**today).check_needs_rehash
    assert (needs(TEXT), needs(TEXT.encode()), needs(TEXT.replace("v=19", "v=16"))) == (False, False, True)
    for name, value in {"time_cost": 3, "memory_cost": 257, "parallelism": 2, "hash_len": 16, "salt_len": 16,
                        "type": Type.ID}.items():
        hasher = PasswordHasher(**{**today, name: value})
        assert hasher.check_needs_rehash(TEXT), name
        is_match, new = hasher.verify_and_update(TEXT, "password")
        assert is_match and hasher.verify(new, "password") and not hasher.check_needs_rehash(new), name
        assert hasher.verify_and_update(new, "password") == (True, None), name
        assert hasher.verify_and_update(TEXT, "Password") == (False, None), name
    assert PasswordHasher(**today).verify_and_update(TEXT, "password") == (True, None)


@pytest.mark.parametrize("name, number", [
    ("hash_len", 3), ("hash_len", (1 << 32) + 32), ("salt_len", 0), ("salt_len", 7), ("salt_len", -1),
    ("time_cost", (1 << 32) + 1)])
def test_verify_and_update_accepts_the_password_if_there_can_be_no_new_hash(name, number):
    old = PasswordHasher(**OTHER).hash("password")
    hasher = PasswordHasher(**{**SMALL, name: number})
    assert hasher.verify_and_update(old, "password") == (True, None)
    assert hasher.verify_and_update(old, "Password") == (False, None)


def test_a_hasher_with_a_secret_is_not_replaced_by_one_without():
    hasher = PasswordHasher(**SMALL, secret=b"pepper")
    with pytest.raises(ValueError, match="^'renew_by' must have a secret, since this hasher has one$"):
        hasher.verify_and_update(hasher.hash("password"), "password", renew_by=HASHER)


class Denied:
    """Stands in for the type of a parameter when memory runs out while `ctypes` converts an argument."""

    @staticmethod
    def from_param(_):
        raise MemoryError


@pytest.mark.parametrize("name, expected", [
    ("encoded_len", HashingError), ("hash_encoded_with", HashingError), ("verify_encoded_with", VerificationError),
    ("read", MemoryError), ("message", VerificationError)])
def test_memory_that_is_denied_to_ctypes_has_run_out(monkeypatch, name, expected):
    old, (types, result) = PasswordHasher(**OTHER).hash("password"), _library._CALLS[name]
    monkeypatch.setitem(_library._CALLS, name, ([Denied, *types[1:]], result))
    monkeypatch.setattr(_library, "_library", _library._load())
    calls = {HashingError: lambda: HASHER.hash("password"), VerificationError: lambda: HASHER.verify(old, "Password"),
             MemoryError: lambda: extract_parameters(old)}
    with pytest.raises(expected, match="^Out of memory$") as raised:
        calls[expected]()
    assert raised.type is expected
    if name == "encoded_len":
        assert HASHER.verify_and_update(old, "password") == (True, None)


def test_memory_that_is_denied_to_a_renewal_has_run_out(monkeypatch):
    types, result = _library._CALLS["password_renew"]
    monkeypatch.setitem(_library._CALLS, "password_renew", ([Denied, *types[1:]], result))
    monkeypatch.setattr(_library, "_library", _library._load())
    with pytest.raises(VerificationError, match="^Out of memory$"):
        HASHER.verify_and_update(TEXT, "password")


@pytest.mark.parametrize("error", [MemoryError, OverflowError])
def test_a_hash_that_does_not_fit_into_memory_raises_hashing_error(error):
    old = PasswordHasher(**OTHER).hash("password")
    with mock.patch("ctypes.create_string_buffer", side_effect=error):
        with pytest.raises(HashingError, match="^Out of memory$"):
            HASHER.hash("password")
        assert HASHER.verify_and_update(old, "password") == (True, None)


@of_the_old_calls
@pytest.mark.parametrize("error", [OSError("no device"), NotImplementedError("no device")])
def test_no_hash_is_made_if_the_system_makes_no_salt(error):
    with mock.patch("os.urandom", side_effect=error):
        for call in (lambda: HASHER.hash("password"), *(lambda old=old: old(b"password") for old in OLD_CALLS[:2])):
            with pytest.raises(HashingError, match="^the system makes no random salt: no device$"):
                call()


@pytest.mark.parametrize("settings", [
    {**OTHER, "type": Type.I, "salt_len": 9, "hash_len": 5},
    {"time_cost": 11, "memory_cost": 160, "parallelism": 20, "hash_len": 4, "salt_len": 8}])
def test_verify_unknown_computes_each_slice_of_a_hash_and_returns_false(settings):
    """A login of a user who does not exist then takes as long as one of a user who does."""
    hasher, slices = PasswordHasher(**settings, secret=b"pepper"), []
    for password in ("password", b"", "x" * 1000):
        assert hasher.verify_unknown(password, progress=lambda *progress: slices.append(progress)) is False
    assert slices == 3 * [(done, 4 * hasher.time_cost) for done in range(1, 4 * hasher.time_cost + 1)]


def test_verify_unknown_raises_other_errors_and_stops():
    def stop(done, slices):
        raise KeyboardInterrupt

    with pytest.raises(KeyboardInterrupt):
        HASHER.verify_unknown("password", progress=stop)
    with pytest.raises(VerificationError, match="^Out of memory$"):
        PasswordHasher(memory_cost=0xFFFFFFFF).verify_unknown("password")


def require_verification_error(text):
    """Require that `verify_secret` raises `VerificationError` for a string."""
    with pytest.raises(VerificationError) as raised:
        low_level.verify_secret(text if isinstance(text, bytes) else text.encode(errors="surrogatepass"), b"x", Type.I)
    assert raised.type is VerificationError


@pytest.mark.parametrize("text", [
    "", "x", "$argon2x" + TEXT[8:], b"\xff", "\xe9", "\ud800", "$" * (1 << 20), " " + TEXT, "\n" + TEXT],
    ids=lambda text: repr(text[:9]))
def test_a_string_that_does_not_begin_as_an_encoded_hash_is_invalid(text):
    for call in (HASHER.check_needs_rehash, extract_parameters, lambda text: HASHER.verify(text, "password"),
                 lambda text: HASHER.verify_and_update(text, "password")):
        with pytest.raises(InvalidHashError):
            call(text)
    require_verification_error(text)


@pytest.mark.parametrize("text", [
    TEXT + "\0", TEXT.encode() + b"\0$", TEXT[:40] + "\xe9" + TEXT[40:], "$argon2id$" * (1 << 17)],
    ids=lambda text: repr(text[-9:]))
def test_a_damaged_encoded_hash_cannot_be_verified(text):
    with pytest.raises((VerificationError, InvalidHashError)) as raised:
        PasswordHasher().verify(text, "password")
    assert raised.type is not VerifyMismatchError
    require_verification_error(text)


def test_package_library_and_repository_have_the_same_version():
    version = (TOP / "VERSION").read_text().strip()
    major, minor, patch = map(int, version.split("."))
    number = _library._library.proved_argon2_library_version()
    own = proved_argon2.__version__.partition(".dev0+")[0]  # (a package that is no release also names the commit)
    assert (own, number) == (version, (major * 1000 + minor) * 1000 + patch)
