"""Numbers that are too large or negative are rejected everywhere. Most are chosen so that a
call that kept only their lowest 32 bits would accept them."""
import copy
import pickle

import pytest
from proved_argon2 import (
    DEFAULT_LIMITS,
    Limits,
    PasswordHasher,
    Type,
    hash_password,
    hash_password_raw,
    profiles,
)
from proved_argon2._library import default_limits
from proved_argon2.exceptions import HashingError, TooCostlyError, VerificationError
from proved_argon2.low_level import error_to_str, hash_secret, hash_secret_raw, verify_secret

NO_NUMBERS = (True, 64.0, "64", None)
# The lowest 32 bits of all except the first three are 64, which is an acceptable setting.
TOO_MUCH = (-1, 1 << 32, 1 << 64, 64 - (1 << 32), (1 << 32) + 64, (1 << 64) + 64, 64 - (1 << 64), (1 << 1000) + 64)
SETTINGS = {"time_cost": 1, "memory_cost": 1024, "parallelism": 1, "hash_len": 16}
OWN = {"memory_cost": 1024, "time_cost": 3, "parallelism": 4}
LARGE = {"time_cost": DEFAULT_LIMITS.time_cost + 1, "memory_cost": 1360, "parallelism": DEFAULT_LIMITS.parallelism + 1}
TEXT = "$argon2id$v=19$m=64,t=4,p=1$c29tZXNhbHQ$AAAAAAAAAAAAAAAAAAAAAA"
BITS = {"memory_cost": 32, "time_cost": 32, "parallelism": 32, "work": 64}


def hashing(settings):
    """Yield the calls that hash with these settings. Some take no version, and some no length of the salt."""
    inputs, numbers = (b"password", b"somesalt"), [settings[name] for name in SETTINGS]
    version = {} if "version" not in settings else {"version": settings["version"]}
    if "salt_len" not in settings:
        yield lambda: hash_secret(*inputs, *numbers, Type.ID, **version)
        yield lambda: hash_secret_raw(*inputs, *numbers, Type.ID, **version)
    if not version:
        yield lambda: PasswordHasher(**settings).hash("password")
        yield lambda: PasswordHasher.from_parameters(of_settings(settings)).hash("password")
    if settings.keys() == SETTINGS.keys():
        yield lambda: hash_password(*inputs, *numbers)
        yield lambda: hash_password_raw(*inputs, *numbers)


def of_settings(settings):
    """Return `Parameters`, which take any value."""
    parameters = profiles.get_default_parameters()
    for name, number in settings.items():
        setattr(parameters, name, number)
    return parameters


def takers(limits):
    """Yield the calls that take limits."""
    yield lambda: PasswordHasher(**SETTINGS, limits=limits)
    yield lambda: PasswordHasher.from_parameters(of_settings(SETTINGS), limits=limits)
    yield lambda: setattr(PasswordHasher(**SETTINGS), "limits", limits)
    yield lambda: verify_secret(TEXT.encode(), b"password", Type.ID, limits=limits)


@pytest.mark.filterwarnings("ignore:.* is deprecated:DeprecationWarning")
@pytest.mark.parametrize("numbers, error, words", [
    (TOO_MUCH, HashingError, "^{} is"), (NO_NUMBERS, TypeError, "'{}' must be int, not")])
@pytest.mark.parametrize("name", [*SETTINGS, "salt_len", "version"])
def test_a_setting_must_be_an_integer_of_32_bits(name, numbers, error, words):
    for number in numbers:
        for call in hashing({**SETTINGS, name: number}):
            with pytest.raises(error, match=words.format(name)):
                call()


@pytest.mark.parametrize("name", SETTINGS)
def test_a_user_who_does_not_exist_costs_no_hash_that_is_impossible(name):
    for number in (0, *TOO_MUCH):
        with pytest.raises(VerificationError):
            PasswordHasher(**{**SETTINGS, name: number}).verify_unknown("password")


@pytest.mark.parametrize("numbers, error", [((*TOO_MUCH, (1 << 32) + 5), ValueError), (NO_NUMBERS, TypeError)])
def test_the_number_of_an_error_must_be_an_integer_of_32_bits(numbers, error):
    for number in numbers:
        with pytest.raises(error, match="error"):
            error_to_str(number)


@pytest.mark.parametrize("name, bits", BITS.items())
def test_a_limit_must_be_an_integer_of_32_bits_or_of_64_for_the_work(name, bits):
    wrong = [(number, ValueError, f"{name}.* is") for number in (-1, 1 << bits, (1 << bits) + 2048, 2048 - (1 << bits))]
    wrong += [(number, TypeError, f"'{name}' must be int, not") for number in NO_NUMBERS]
    for number, error, words in wrong:
        for call in takers(Limits(**{name: number})):
            with pytest.raises(error, match=words):
                call()
    most = (1 << bits) - 1
    assert getattr(PasswordHasher(limits=Limits(**{name: most})).limits, name) == most


@pytest.mark.parametrize("limits", [(1, 2, 3, 4), 1, "x", profiles.OWASP])
def test_limits_of_a_wrong_type_are_rejected(limits):
    for call in takers(limits):
        with pytest.raises(TypeError, match="'limits' must be Limits or None, not"):
            call()


def test_limits_can_be_copied_and_replaced_but_not_changed():
    limits = Limits(memory_cost=1, time_cost=2, parallelism=3, work=4)
    assert limits == Limits(1, 2, 3, 4) == copy.deepcopy(limits) == pickle.loads(pickle.dumps(limits))
    assert limits._replace(work=5) == Limits(1, 2, 3, 5) != limits
    assert repr(limits) == "Limits(memory_cost=1, time_cost=2, parallelism=3, work=4)"
    for name in (*BITS, "another"):
        with pytest.raises(AttributeError):
            setattr(DEFAULT_LIMITS, name, 1000)


def test_the_limits_of_a_hasher_can_be_set():
    hasher = PasswordHasher()
    for limits in (Limits(memory_cost=1 << 16, time_cost=3), None):
        hasher.limits = limits
        assert hasher.limits == limits and PasswordHasher().limits == DEFAULT_LIMITS
    hasher.limits = Limits(time_cost=3)
    with pytest.raises(TooCostlyError):
        hasher.verify(TEXT, "password")


@pytest.mark.parametrize("settings", [LARGE, {**LARGE, "time_cost": 1}, {**LARGE, "parallelism": 1}])
def test_a_hasher_verifies_its_own_hashes_above_the_default_limits(settings):
    for hasher in (PasswordHasher(**settings), PasswordHasher.from_parameters(of_settings(settings))):
        assert hasher.verify(hasher.hash("password"), "password") is True


def test_the_default_limits_are_those_of_the_library_raised_to_the_settings():
    number, most = default_limits(), 0xFFFFFFFF
    defaults = Limits(number.mem_cost, number.time_cost, number.lanes, number.work)
    assert DEFAULT_LIMITS == defaults
    small = {"memory_cost": 8, "time_cost": 1, "parallelism": 1}
    for name in small:
        limit = getattr(defaults, name)
        for number, expected in ((1, limit), (limit, limit), (limit + 1, limit + 1), (most, most), (1 << 40, most)):
            limits = PasswordHasher(**{**small, name: number}).limits
            assert limits == defaults._replace(**{name: expected, "work": limits.work})
    for memory_cost, time_cost, work in (
        (defaults.work // 2, 2, defaults.work), (defaults.work // 2 + 1, 2, defaults.work + 2),
        (1 << 40, 1 << 1000, most ** 2), (-(1 << 40), -(1 << 40), defaults.work),
    ):
        assert PasswordHasher(memory_cost=memory_cost, time_cost=time_cost).limits.work == work


@pytest.mark.parametrize("name, own", [*OWN.items(), ("work", 3 * 1024)])
def test_limits_below_the_hasher_s_own_settings_are_rejected(name, own):
    """Otherwise it could not verify its own hashes."""
    least = Limits(**OWN, work=3 * 1024)
    hasher = PasswordHasher(**OWN, limits=least)
    assert hasher.verify(hasher.hash("password"), "password") is True
    below = least._replace(**{name: own - 1})
    for call in (lambda: PasswordHasher(**OWN, limits=below), lambda: setattr(hasher, "limits", below),
                 lambda: PasswordHasher.from_parameters(of_settings(OWN), limits=below)):
        with pytest.raises(ValueError, match=f"^the limit {name}={own - 1} is below this hasher's own {name}, {own}: "):
            call()
    assert hasher.limits == least


@pytest.mark.parametrize("said", [0, 2, 1000])
def test_a_subclass_of_bytes_cannot_lie_about_its_length(said):
    lying = type("Lying", (bytes,), {"__len__": lambda _: said})
    password, salt, settings = lying(b"password"), lying(b"somesaltsomesalt"), (*SETTINGS.values(), Type.ID)
    right = hash_secret_raw(b"password", b"somesaltsomesalt", *settings)
    assert hash_secret_raw(password, salt, *settings) == right
    assert verify_secret(lying(hash_secret(password, salt, *settings)), password, Type.ID) is True
    text = PasswordHasher(**SETTINGS, secret=b"pepper").hash("password")
    assert PasswordHasher(**SETTINGS, secret=lying(b"pepper")).verify(lying(text.encode()), password) is True
