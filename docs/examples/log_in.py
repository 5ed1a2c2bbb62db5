"""A login in a service for asyncio, which docs/USE.md describes. The environment variable PEPPER is a secret key."""
import logging
import os

from proved_argon2 import AsyncPasswordHasher, PasswordHasher

LONGEST = 1024  # characters of a password
# Two logins are computed at a time, and 64 more wait. All others raise BusyError at once.
hasher = AsyncPasswordHasher(PasswordHasher(secret=os.environb[b"PEPPER"]), concurrency=2, waiting=64)


def is_password(given):
    """Return whether this is a string, not too long, that UTF-8 can encode."""
    return isinstance(given, str) and len(given) <= LONGEST and given == given.encode(errors="ignore").decode()


async def log_in(user, password, stored):
    """Return whether to let the user in, or None for the HTTP status 503; and what to store from now on.

    `stored` is None if there is no such user. Cancel the task if the client leaves.
    """
    if not is_password(password):
        logging.info("no password: %r", user)
        return False, stored
    try:
        if stored is None:
            is_match, update = await hasher.verify_unknown(password), None
        else:
            is_match, update = await hasher.verify_and_update(stored, password)
    except Exception as error:
        logging.error("error: %r: %r", user, error)
        return None, stored
    logging.info("logged in: %r" if is_match else "wrong password: %r", user)
    return is_match, update or stored
