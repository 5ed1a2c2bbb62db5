"""A `PasswordHasher` with several peppers; each stored hash uses one of them."""
from ._password_hasher import PasswordHasher, require_types
from ._settings import DEFAULT_LIMITS, Limits, Parameters
from .exceptions import UnknownPepperError

TYPE_CHECKING = False
if TYPE_CHECKING:
    from typing import Any, Dict, Literal, Mapping, Optional, Tuple, Union

    from ._library import Progress

    Stored = Tuple[str, str]


class PepperedHasher:
    """Hashes with the newest of several peppers, and verifies with the pepper whose ID is stored beside the hash.

    `peppers` maps IDs to keys, which are bytes, the newest first. `settings` are the other arguments of
    `PasswordHasher` by their names, all except `secret`.

    Store the ID beside the encoded hash, which does not contain it. To rotate, put a new key first. Remove an old key
    when `verify_and_update` has replaced all of its hashes.

    `accept_unpeppered` is for the time in which a service adds its first pepper. With it, `verify_and_update` also
    accepts the ID `None`, which stands for no pepper. Then whoever can write to the store can add a hash without a
    pepper, for which no key is needed, and log in with it.
    """

    def __init__(
        self, peppers: "Mapping[str, bytes]", *, accept_unpeppered: bool = False, **settings: "Any"
    ) -> None:
        require_types(accept_unpeppered=(accept_unpeppered, bool))
        if not peppers:
            raise ValueError("'peppers' must have at least one key")
        self._hashers: "Dict[Optional[str], PasswordHasher]" = {}
        for key_id, key in peppers.items():
            if not isinstance(key_id, str):
                raise TypeError(f"the ID of a pepper must be str, not {key_id.__class__.__name__}")
            self._hashers[key_id] = PasswordHasher(secret=key, **settings)
            if not key:
                raise ValueError(f"the key of the pepper {key_id!r} is empty")
        if accept_unpeppered:
            self._hashers[None] = PasswordHasher(**settings)
        self.newest = next(iter(peppers))

    @classmethod
    def from_parameters(
        cls,
        peppers: "Mapping[str, bytes]",
        params: Parameters,
        *,
        accept_unpeppered: bool = False,
        limits: "Optional[Limits]" = DEFAULT_LIMITS,
        keep_memory: bool = False,
    ) -> "PepperedHasher":
        """Return a hasher with these settings, such as a profile or those that `tune` finds, except for the version,
        which is always `ARGON2_VERSION`.
        """
        return cls(
            peppers, accept_unpeppered=accept_unpeppered, time_cost=params.time_cost, memory_cost=params.memory_cost,
            parallelism=params.parallelism, hash_len=params.hash_len, salt_len=params.salt_len, type=params.type,
            limits=limits, keep_memory=keep_memory,
        )

    @property
    def hasher(self) -> PasswordHasher:
        """The hasher that makes new hashes, with the newest pepper."""
        return self._hashers[self.newest]

    def hash(
        self, password: "Union[str, bytes]", *, associated_data: bytes = b"", progress: "Optional[Progress]" = None
    ) -> "Stored":
        """Hash a password with the newest pepper. Return the pepper's ID and the encoded hash, to be stored.

        Raises what `PasswordHasher.hash` raises.
        """
        return self.newest, self.hasher.hash(password, associated_data=associated_data, progress=progress)

    def verify_and_update(
        self,
        key_id: "Optional[str]",
        hash: "Union[str, bytes]",
        password: "Union[str, bytes]",
        *,
        associated_data: bytes = b"",
        progress: "Optional[Progress]" = None,
    ) -> "Tuple[bool, Optional[Stored]]":
        """Return whether a password matches, and the ID and the encoded hash to store in place of these.

        The second value is `None` if there is nothing to store: if the password does not match, or the hash has the
        newest pepper and these settings, or the new hash cannot be computed.

        Raises `UnknownPepperError` if there is no pepper with this ID, and otherwise what `PasswordHasher.verify`
        raises, except for a wrong password.
        """
        if key_id is not None and not isinstance(key_id, str):
            raise TypeError(f"'key_id' must be str or None, not {key_id.__class__.__name__}")
        if key_id not in self._hashers:
            raise UnknownPepperError(
                "the hash has no pepper" if key_id is None else f"there is no pepper with the ID {key_id!r}"
            )
        is_match, update = self._hashers[key_id].verify_and_update(
            hash, password, associated_data=associated_data, progress=progress, renew_by=self.hasher
        )
        return is_match, None if update is None else (self.newest, update)

    def verify_unknown(
        self, password: "Union[str, bytes]", *, progress: "Optional[Progress]" = None
    ) -> "Literal[False]":
        """Take as long as verifying a hash of the newest pepper, and return `False`: for a user who does not exist.

        Raises what `PasswordHasher.verify` raises, except for a wrong password.
        """
        return self.hasher.verify_unknown(password, progress=progress)
