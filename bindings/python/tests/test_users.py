"""Programs that use argon2-cffi run with this package in its place: Django, passlib with its own tests, and pwdlib. The
code of docs/USE.md and docs/examples/from_scrypt.py moves other hashes to Argon2. The programs are Debian's
python3-django, python3-passlib and python3-pwdlib, and each runs in a process of its own."""
import hashlib
import re
import runpy
import subprocess
import sys
import textwrap
from importlib.util import find_spec
from pathlib import Path

import pytest
from proved_argon2 import PasswordHasher
from proved_argon2.exceptions import InvalidHashError

DOCS = Path(__file__).resolve().parents[3] / "docs"
SMALL = {"time_cost": 1, "memory_cost": 64, "parallelism": 1}
# The code of docs/PYTHON.md that puts this package in the place of argon2-cffi.
IN_PLACE = textwrap.dedent(re.search(
    r"^    import sys, proved_argon2\n(?:    .*\n)+", (DOCS / "PYTHON.md").read_text("utf-8"), re.M)[0])
DJANGO = """
import sys
from unittest import mock
from django.conf import settings
settings.configure(PASSWORD_HASHERS=[
    "__main__.Proved", "django.contrib.auth.hashers.PBKDF2PasswordHasher", "__main__.Argon2WithMoreMemory",
])
from django.contrib.auth.hashers import (
    Argon2PasswordHasher, check_password, get_hasher, identify_hasher, is_password_usable, make_password,
)

class Proved(Argon2PasswordHasher):
    library = "proved_argon2"
    time_cost, memory_cost, parallelism = 2, 512, 2

class Argon2WithMoreMemory(Proved):
    algorithm = "argon2more"
    memory_cost = 1024
"""


def needs(*modules):
    return pytest.mark.skipif(not all(map(find_spec, modules)), reason=f"there is no {' or '.join(modules)}")


def lines(title):
    """Return the code under a heading of docs/USE.md."""
    page = (DOCS / "USE.md").read_text("utf-8")
    return re.search(rf"^### {title}.*?^```python\n(.*?)^```", page, re.M | re.S)[1]


def run(*pieces):
    """Run a program, which must succeed, and return its output."""
    words = [sys.executable, "-W", "ignore", "-c", "\n".join(pieces)]
    done = subprocess.run(words, capture_output=True, text=True)
    assert done.returncode == 0, done.stderr
    return done.stdout


@needs("django")
@pytest.mark.parametrize("piece", ["""
hasher = get_hasher("argon2")
text = make_password("secret", hasher="argon2")
assert text.startswith("argon2$argon2id$v=19$m=512,t=2,p=2$") and not hasher.must_update(text)
assert is_password_usable(text) and identify_hasher(text).algorithm == "argon2"
setter = mock.Mock()
assert check_password("secret", text, setter) and not setter.called
for name, value in (("time_cost", 3), ("memory_cost", 1024), ("parallelism", 1)):
    with mock.patch.object(hasher, name, value):
        assert hasher.must_update(text), name
        setter = mock.Mock()
        assert not check_password("wrong", text, setter) and not setter.called, name
        assert check_password("secret", text, setter), name
        setter.assert_called_once_with("secret")
""", """
for rest, password in (
    ("argon2i$v=19$m=256,t=2,p=1$c29tZXNhbHQ$iekCn0Y3spW+sCcFanM2xBT63UP2sghkUoHLIUpWRS8", "password"),
    ("argon2i$m=256,t=2,p=1$c29tZXNhbHQ$/U3YPXYsSb3q9XxHvc0MLxur+GP960kN9j7emXX8zwY", "password"),
):
    assert check_password(password, "argon2$" + rest) is True
    assert check_password("x" + password, "argon2$" + rest) is False
    assert get_hasher("argon2").must_update("argon2$" + rest)
    assert get_hasher("argon2").safe_summary("argon2$" + rest)
"""], ids=["current and other settings", "hashes of argon2i"])
def test_django_hashes_and_verifies(piece):
    run(DJANGO, piece)


@needs("django")
def test_django_renews_hashes_of_another_hasher():
    run("from django.conf import settings\nsettings.configure()", lines("Django"), """
import sys
settings.PASSWORD_HASHERS = PASSWORD_HASHERS
from django.contrib.auth.hashers import PBKDF2PasswordHasher, check_password, make_password
old, renewed = PBKDF2PasswordHasher().encode("password", "somesalt", 10), []
assert not check_password("Password", old, lambda _: renewed.append(1)) and not renewed
assert check_password("password", old, renewed.append) and renewed == ["password"]
stored = make_password("password")
assert stored.startswith("argon2$argon2id$") and check_password("password", stored, renewed.append)
assert renewed == ["password"] and not check_password("Password", stored)
assert sys.modules["proved_argon2"] and "argon2" not in sys.modules
""")


@needs("passlib")
def test_passlib_passes_its_own_tests():
    run(IN_PLACE, """
import unittest, warnings
warnings.simplefilter("ignore")
tests = unittest.defaultTestLoader.loadTestsFromName("passlib.tests.test_handlers_argon2")
result = unittest.TextTestRunner(verbosity=0).run(tests)
from passlib.hash import argon2
assert argon2.get_backend() == "argon2_cffi", argon2.get_backend()
from passlib.handlers import argon2 as handler
assert handler._argon2_cffi is proved_argon2
assert result.testsRun - len(result.skipped) >= 40, result
assert result.wasSuccessful()
""")


@pytest.mark.parametrize("name, made", [
    pytest.param("pwdlib", "from pwdlib.hashers.bcrypt import BcryptHasher\nstored = BcryptHasher(4).hash('password')",
                 marks=needs("pwdlib", "bcrypt")),
    pytest.param("passlib", "from passlib.hash import pbkdf2_sha256\n"
                 "stored = pbkdf2_sha256.using(rounds=10).hash('password')", marks=needs("passlib")),
])
def test_pwdlib_and_passlib_renew_hashes_of_another_scheme(name, made):
    run(IN_PLACE, f"""
{made}
password = "password"
{lines(name)}
assert matches and renewed.startswith("$argon2id$"), renewed
assert context.verify_and_update("password", renewed) == (True, None)
assert context.verify_and_update("Password", renewed) == (False, None)
assert context.verify_and_update("Password", stored) == (False, None)
assert proved_argon2.PasswordHasher().verify(renewed, "password")
""", """
old = proved_argon2.PasswordHasher(time_cost=1, memory_cost=64, parallelism=1).hash("password")
assert context.verify_and_update("password", old)[1].startswith("$argon2id$v=19$m=65536,")
costly = proved_argon2.PasswordHasher(time_cost=1000, memory_cost=64, parallelism=1)
assert costly.verify(costly.hash("password"), "password") and not context.verify("password", costly.hash("password"))
""" if name == "pwdlib" else "")


def test_the_example_moves_hashes_of_scrypt_and_of_older_settings():
    log_in = runpy.run_path(str(DOCS / "examples/from_scrypt.py"))["log_in"]
    tag = hashlib.scrypt(b"password", salt=b"somesalt", n=16384, r=8, p=1, dklen=32)
    old = f"scrypt:{b'somesalt'.hex()}:{tag.hex()}"
    assert log_in(old, "Password") == (False, old)
    for stored in (old, PasswordHasher(**SMALL).hash("password")):
        matches, renewed = log_in(stored, "password")
        assert matches and renewed != stored and renewed.startswith("$argon2id$")
        assert log_in(renewed, "password") == (True, renewed)
        assert log_in(renewed, "Password") == (False, renewed)


def test_a_hash_of_another_scheme_or_with_a_prefix_in_braces_is_invalid():
    stored = PasswordHasher(**SMALL).hash("password")
    for other in ("$2b$04$" + 53 * "a", "{argon2}" + stored):
        with pytest.raises(InvalidHashError):
            PasswordHasher().verify(other, "password")
    assert PasswordHasher().verify(("{argon2}" + stored).removeprefix("{argon2}"), "password")
