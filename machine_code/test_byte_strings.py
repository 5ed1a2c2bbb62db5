"""Proves the statements about functions over byte strings, settings and jobs, over each build of the library that is
linked from."""

import functools

import pytest
from linked import Code
from statements import ARCHIVE, BUILDS, OF_BYTES, SLOW, prove_bytes

pytestmark = pytest.mark.timeout(3600)
NEWEST = BUILDS[-1]


@functools.cache
def code():
    return Code(ARCHIVE)


@pytest.mark.parametrize('build, name', [(build, name) for build in BUILDS for name in OF_BYTES
                                         if build == NEWEST or name not in SLOW])
def test_statement(build, name):
    assert prove_bytes(code(), build, name).claims
