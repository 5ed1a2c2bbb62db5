"""The fixtures that CI's tests share: the path of their modules, what is built, and which programs exist."""

import shutil
import sys
from pathlib import Path

import pytest

sys.path.insert(0, str(Path(__file__).resolve().parent))
from shared import ready  # noqa: E402


@pytest.fixture(scope='session')
def built():
    return ready()


@pytest.fixture(scope='session')
def needs():
    """Skips a test if a program is missing: `needs('valgrind')`."""
    def check(*programs):
        for program in (program for program in programs if not shutil.which(program)):
            pytest.skip(f'there is no {program}')
    return check
