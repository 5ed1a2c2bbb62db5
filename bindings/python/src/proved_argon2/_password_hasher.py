"""`PasswordHasher`, and the deprecated calls that argon2-cffi had before it."""
import os
import warnings
from contextlib import contextmanager

from ._library import (
    DECODING_FAIL,
    Refused,
    Settings,
    read,
    renew_pieces,
    require_bytes,
    require_number,
    text_length,
    verify_pieces,
    verify_unknown,
)
from ._memory import Memory, current_thread
from ._settings import (
    DEFAULT_LIMITS,
    Limits,
    Parameters,
    default_limits_of,
    numbers_of,
    require_own_settings_within,
)
from .exceptions import HashingError, InvalidHashError, VerificationError, VerifyMismatchError
from .low_level import (
    ARGON2_VERSION,
    Type,
    hash_secret,
    hash_secret_raw,
    reading_error,
    verify_secret,
    verifying_error,
)
from .profiles import RFC_9106_LOW_MEMORY

TYPE_CHECKING = False
if TYPE_CHECKING:
    from typing import Any, Iterator, Literal, Optional, Tuple, Union

    from ._library import Progress

DEFAULT_RANDOM_SALT_LENGTH = RFC_9106_LOW_MEMORY.salt_len
DEFAULT_HASH_LENGTH = RFC_9106_LOW_MEMORY.hash_len
DEFAULT_TIME_COST = RFC_9106_LOW_MEMORY.time_cost
DEFAULT_MEMORY_COST = RFC_9106_LOW_MEMORY.memory_cost
DEFAULT_PARALLELISM = RFC_9106_LOW_MEMORY.parallelism

_BEGINNINGS = (b"$argon2i$", b"$argon2d$", b"$argon2id")


def extract_parameters(hash: "Union[str, bytes]") -> Parameters:
    """Return the settings of an encoded hash. Nothing is verified.

    An encoded hash that names no version has version 16, which is 0x10.

    Raises `InvalidHashError` if the string is not an encoded hash, and `MemoryError` if memory cannot be allocated.
    """
    try:
        stored = read(_encoded_bytes(hash))
    except Refused as refused:
        raise reading_error(refused) from None
    settings = stored.settings
    return Parameters(
        Type(settings.variant), settings.version, stored.salt_length, settings.hash_length, settings.time_cost,
        settings.mem_cost, settings.lanes,
    )


def _encoded_bytes(hash: "Union[str, bytes]") -> bytes:
    """Return an encoded hash as bytes."""
    if isinstance(hash, bytes):
        return hash
    if not isinstance(hash, str):
        raise TypeError(f"'hash' must be str or bytes, not {hash.__class__.__name__}")
    try:
        return hash.encode("ascii")
    except UnicodeEncodeError:
        raise InvalidHashError("an encoded hash has only ASCII characters") from None


def require_types(**settings: "Tuple[Any, Any]") -> None:
    """Raise `TypeError` with the names of all settings that have the wrong type. A bool is not a number here."""
    wrong = [
        f"'{name}' must be {kind.__name__}, not {value.__class__.__name__}"
        for name, (value, kind) in settings.items()
        if not isinstance(value, kind) or (kind is int and isinstance(value, bool))
    ]
    if wrong:
        raise TypeError(", ".join(wrong))


class PasswordHasher:
    """Hashes passwords with these settings. Verifies encoded hashes with any settings that are within `limits`.

    `time_cost` is the number of passes over the memory, `memory_cost` the memory in KiB (at least 8 for each lane), and
    `parallelism` the number of lanes. `hash_len` is the length of the hash in bytes, at least 4, and `salt_len` that of
    the salt, at least 8. A password that is a `str` is encoded with `encoding`.

    `limits` is the most that a verified hash may cost. Pass `None` to accept whatever a hash names. By default
    the hasher uses `DEFAULT_LIMITS`, or its own settings where higher. Limits below its own settings raise
    `ValueError`.

    With `keep_memory`, the hasher reuses the memory of its calls, as `low_level.Memory` does. Then a `memory_cost` that
    no hash can have raises `HashingError` at once.

    `secret` is a key (pepper), which you store apart from the hashes. No password matches with another secret. Copies
    and pickles of the hasher contain the secret, but its `repr` does not.
    """

    __slots__ = ("_limits", "_memory", "_numbers", "_parameters", "_secret", "encoding")

    def __init__(
        self,
        time_cost: int = DEFAULT_TIME_COST,
        memory_cost: int = DEFAULT_MEMORY_COST,
        parallelism: int = DEFAULT_PARALLELISM,
        hash_len: int = DEFAULT_HASH_LENGTH,
        salt_len: int = DEFAULT_RANDOM_SALT_LENGTH,
        encoding: str = "utf-8",
        type: Type = Type.ID,
        *,
        limits: "Optional[Limits]" = DEFAULT_LIMITS,
        keep_memory: bool = False,
        secret: bytes = b"",
    ) -> None:
        require_types(
            time_cost=(time_cost, int), memory_cost=(memory_cost, int), parallelism=(parallelism, int),
            hash_len=(hash_len, int), salt_len=(salt_len, int), encoding=(encoding, str), type=(type, Type),
            keep_memory=(keep_memory, bool), secret=(secret, bytes),
        )
        self._parameters = Parameters(type, ARGON2_VERSION, salt_len, hash_len, time_cost, memory_cost, parallelism)
        self.encoding = encoding
        if limits is DEFAULT_LIMITS:
            self._limits: "Optional[Limits]" = default_limits_of(memory_cost, time_cost, parallelism)
            self._numbers = numbers_of(self._limits)
        else:
            self.limits = limits
        self._memory = Memory(memory_cost) if keep_memory else None
        self._secret = secret

    @classmethod
    def from_parameters(
        cls,
        params: Parameters,
        *,
        limits: "Optional[Limits]" = DEFAULT_LIMITS,
        keep_memory: bool = False,
        secret: bytes = b"",
    ) -> "PasswordHasher":
        """Return a hasher with these settings, except for the version, which is always `ARGON2_VERSION`."""
        return cls(
            params.time_cost, params.memory_cost, params.parallelism, params.hash_len, params.salt_len,
            type=params.type, limits=limits, keep_memory=keep_memory, secret=secret,
        )

    @property
    def time_cost(self) -> int:
        """The number of passes over the memory."""
        return self._parameters.time_cost

    @property
    def memory_cost(self) -> int:
        """The memory in KiB."""
        return self._parameters.memory_cost

    @property
    def parallelism(self) -> int:
        """The number of lanes."""
        return self._parameters.parallelism

    @property
    def hash_len(self) -> int:
        """The length of the hash in bytes."""
        return self._parameters.hash_len

    @property
    def salt_len(self) -> int:
        """The length of the salt in bytes."""
        return self._parameters.salt_len

    @property
    def type(self) -> Type:
        """The variant of Argon2."""
        return self._parameters.type

    @property
    def keep_memory(self) -> bool:
        """Whether the hasher reuses the memory of its calls."""
        return self._memory is not None

    @property
    def limits(self) -> "Optional[Limits]":
        """The most that a verified hash may cost, or `None` for whatever it names."""
        return self._limits

    @limits.setter
    def limits(self, limits: "Optional[Limits]") -> None:
        numbers = numbers_of(limits)
        if limits is not None:
            require_own_settings_within(limits, self.memory_cost, self.time_cost, self.parallelism)
        self._limits, self._numbers = limits, numbers

    def __repr__(self) -> str:
        names = ("time_cost", "memory_cost", "parallelism", "hash_len", "salt_len", "encoding", "type", "limits")
        shown = ", ".join(f"{name}={getattr(self, name)!r}" for name in (*names, "keep_memory"))
        return f"{self.__class__.__name__}({shown})"

    def hash(
        self,
        password: "Union[str, bytes]",
        *,
        salt: "Optional[bytes]" = None,
        associated_data: bytes = b"",
        progress: "Optional[Progress]" = None,
    ) -> str:
        """Hash a password, with a random salt if none is passed. Return an encoded hash (PHC string), to be stored.

        `associated_data` is other data that the hash depends on, such as the user's ID: then the hash matches for no
        other user. The encoded hash does not contain it. The module `low_level` describes `progress`.

        Raises `HashingError` if the settings are rejected, memory cannot be allocated or the system makes no salt, and
        `UnicodeEncodeError` if the password has characters that `encoding` cannot represent, such as lone surrogates.
        """
        if salt is None:
            require_number("salt_len", self.salt_len, HashingError)
        return hash_secret(
            self._password_bytes(password), _salt_or_random(salt, self.salt_len), self.time_cost, self.memory_cost,
            self.parallelism, self.hash_len, self.type, key=self._secret, associated_data=associated_data,
            memory=self._memory, progress=progress,
        ).decode("ascii")

    def verify(
        self,
        hash: "Union[str, bytes]",
        password: "Union[str, bytes]",
        *,
        associated_data: bytes = b"",
        progress: "Optional[Progress]" = None,
    ) -> "Literal[True]":
        """Return `True` if a password matches an encoded hash. A wrong password or other associated data raises
        `VerifyMismatchError`.

        The module `low_level` describes `progress`.

        Raises `TooCostlyError` if the hash is above `limits`, and `InvalidHashError` if `hash` does not begin as an
        encoded hash. Raises `VerificationError` if the rest of it is invalid, its settings are rejected or memory
        cannot be allocated. Raises `UnicodeEncodeError` as `hash()` does.
        """
        encoded, pieces = self._pieces(hash, password, associated_data)
        with _verifying(encoded):
            verify_pieces((encoded, *pieces), self._numbers, self._memory or current_thread.memory, progress)
        return True

    def verify_and_update(
        self,
        hash: "Union[str, bytes]",
        password: "Union[str, bytes]",
        *,
        associated_data: bytes = b"",
        progress: "Optional[Progress]" = None,
        renew_by: "Optional[PasswordHasher]" = None,
    ) -> "Tuple[bool, Optional[str]]":
        """Return whether a password matches an encoded hash, and a new encoded hash to store in place of the old one.

        The second value is `None` if there is nothing to store: if the password does not match, or the hash has these
        settings and a salt of this length, or the new hash cannot be computed. The new hash has the same associated
        data. `renew_by` is another hasher, whose settings and secret the new hash has. It may not lack a secret if this
        hasher has one.

        Raises what `verify` raises, except for a wrong password.
        """
        hasher = self if renew_by is None else renew_by
        encoded, (given, secret, data) = self._pieces(hash, password, associated_data)
        if secret and not hasher._secret:
            raise ValueError("'renew_by' must have a secret, since this hasher has one")
        pieces = encoded, given, secret, b"" if hasher._secret == secret else hasher._secret, data
        try:
            with _verifying(encoded):
                text = renew_pieces(
                    pieces, self._numbers, self._memory or current_thread.memory, progress, hasher._renewal())
        except VerifyMismatchError:
            return False, None
        return True, None if text is None else text.decode("ascii")

    def verify_unknown(
        self, password: "Union[str, bytes]", *, progress: "Optional[Progress]" = None
    ) -> "Literal[False]":
        """Take as long as verifying a hash with these settings, and return `False`: for a user who does not exist.

        Without this call, the time of a login would tell which users exist.

        Raises what `verify` raises, except for a wrong password.
        """
        secret = self._password_bytes(password)
        for name in ("memory_cost", "time_cost", "parallelism", "hash_len"):
            require_number(name, getattr(self, name), VerificationError)
        try:
            verify_unknown(self._settings(), secret, self._secret, self._memory or current_thread.memory, progress)
        except Refused as refused:
            raise verifying_error(refused) from None
        return False

    def check_needs_rehash(self, hash: "Union[str, bytes]") -> bool:
        """Return whether an encoded hash has other settings than these, or a salt of another length.

        Raises what `extract_parameters` raises.
        """
        return self._parameters != extract_parameters(hash)

    def _pieces(
        self, hash: "Union[str, bytes]", password: "Union[str, bytes]", associated_data: bytes
    ) -> "Tuple[bytes, Tuple[bytes, bytes, bytes]]":
        """Return an encoded hash, and what it depends on: the password, the secret and the associated data."""
        require_bytes(associated_data=associated_data)
        return _encoded_bytes(hash), (self._password_bytes(password), self._secret, associated_data)

    def _renewal(self) -> "Tuple[Settings, int, int]":
        """Return the settings, the length of the salt and that of the text of new hashes, or 0 if none can be made."""
        settings = self._settings()
        try:
            for name in ("memory_cost", "time_cost", "parallelism", "hash_len", "salt_len"):
                require_number(name, getattr(self, name), HashingError)
            return settings, self.salt_len, text_length(settings, self.salt_len) if self.salt_len else 0
        except (HashingError, Refused):
            return settings, 0, 0

    def _settings(self) -> Settings:
        """Return the settings as the library takes them: `ctypes` passes only the lowest 32 bits of each number."""
        numbers = self.memory_cost, self.time_cost, self.parallelism, self.hash_len
        return Settings(self.type.value, ARGON2_VERSION, *numbers)

    def _password_bytes(self, password: "Union[str, bytes]") -> bytes:
        if isinstance(password, str):
            return password.encode(self.encoding)
        if not isinstance(password, bytes):
            raise TypeError(f"'password' must be str or bytes, not {password.__class__.__name__}")
        return password


@contextmanager
def _verifying(encoded: bytes) -> "Iterator[None]":
    """Raise the exception of `verify` for what the library refused.

    As in argon2-cffi, a string that does not begin as an encoded hash raises `InvalidHashError`, and all other strings
    that cannot be decoded raise `VerificationError`.
    """
    try:
        yield
    except Refused as refused:
        if refused.number == DECODING_FAIL and not encoded.startswith(_BEGINNINGS):
            raise InvalidHashError(str(refused)) from None
        raise verifying_error(refused) from None


def _warn(name: str) -> None:
    """Warn in the words of argon2-cffi: programs select by these words which warnings they ignore."""
    warnings.warn(f"argon2.{name} is deprecated, use argon2.PasswordHasher instead", DeprecationWarning, stacklevel=3)


def _salt_or_random(salt: "Optional[bytes]", length: int = DEFAULT_RANDOM_SALT_LENGTH) -> bytes:
    """Return the salt, or a random one if it is `None`. Raises `HashingError` if the system makes none."""
    try:
        return os.urandom(length) if salt is None else salt
    except (OSError, NotImplementedError) as error:
        raise HashingError(f"the system makes no random salt: {error}") from None


def hash_password(
    password: bytes,
    salt: "Optional[bytes]" = None,
    time_cost: int = DEFAULT_TIME_COST,
    memory_cost: int = DEFAULT_MEMORY_COST,
    parallelism: int = DEFAULT_PARALLELISM,
    hash_len: int = DEFAULT_HASH_LENGTH,
    type: Type = Type.I,
) -> bytes:
    """Call `low_level.hash_secret` with default settings, Argon2i and a random salt. Deprecated."""
    _warn("hash_password")
    return hash_secret(password, _salt_or_random(salt), time_cost, memory_cost, parallelism, hash_len, type)


def hash_password_raw(
    password: bytes,
    salt: "Optional[bytes]" = None,
    time_cost: int = DEFAULT_TIME_COST,
    memory_cost: int = DEFAULT_MEMORY_COST,
    parallelism: int = DEFAULT_PARALLELISM,
    hash_len: int = DEFAULT_HASH_LENGTH,
    type: Type = Type.I,
) -> bytes:
    """Call `low_level.hash_secret_raw` with default settings, Argon2i and a random salt. Deprecated."""
    _warn("hash_password_raw")
    return hash_secret_raw(password, _salt_or_random(salt), time_cost, memory_cost, parallelism, hash_len, type)


def verify_password(hash: bytes, password: bytes, type: Type = Type.I) -> "Literal[True]":
    """Call `low_level.verify_secret`, with Argon2i unless another variant is passed. Deprecated."""
    _warn("verify_password")
    return verify_secret(hash, password, type)
