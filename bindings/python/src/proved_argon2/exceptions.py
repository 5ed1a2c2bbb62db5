"""The exceptions of this package. They include all exceptions of argon2-cffi, under the same names."""


class Argon2Error(Exception):
    """A call to Argon2 failed. `args[0]` is the message."""


class VerificationError(Argon2Error):
    """A password could not be verified, for example because memory could not be allocated."""


class VerifyMismatchError(VerificationError):
    """The password does not match the hash."""


class TooCostlyError(VerificationError):
    """The encoded hash is above a limit of memory, passes, lanes or work. The password was not compared."""


class UnknownPepperError(VerificationError):
    """The `PepperedHasher` has no pepper with the ID that is stored beside the hash. The password was not compared.

    The ID `None`, which stands for no pepper, is unknown too, unless the hasher was made with `accept_unpeppered`.
    """


class HashingError(Argon2Error):
    """A password could not be hashed: the settings were rejected, memory could not be allocated, or the system made no
    salt.
    """


class BusyError(Argon2Error):
    """The `AsyncPasswordHasher` cannot take another call now; try again later.

    All places to compute and wait are taken, or the system denied the only thread.
    """


class InvalidHashError(ValueError):
    """The string is not an encoded hash of Argon2."""


#: The name that argon2-cffi gave `InvalidHashError` before its version 23.
InvalidHash = InvalidHashError


class UnsupportedParametersError(ValueError):
    """The settings cannot be used on this machine. This is never raised, since every build supports all settings."""
