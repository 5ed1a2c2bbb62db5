"""A login that moves hashes of scrypt to Argon2 (docs/USE.md). The first function is your old one."""
import hashlib
import hmac

from proved_argon2 import PasswordHasher
from proved_argon2.exceptions import VerifyMismatchError

hasher = PasswordHasher()


def verify_old(stored, password):
    salt, tag = (bytes.fromhex(it) for it in stored.removeprefix("scrypt:").split(":"))
    return hmac.compare_digest(tag, hashlib.scrypt(password.encode(), salt=salt, n=16384, r=8, p=1, dklen=32))


def log_in(stored, password):
    """Whether the password matches, and what to store from now on."""
    if not stored.startswith("$argon2"):
        return (True, hasher.hash(password)) if verify_old(stored, password) else (False, stored)
    try:
        hasher.verify(stored, password)
    except VerifyMismatchError:
        return False, stored
    return True, hasher.hash(password) if hasher.check_needs_rehash(stored) else stored
