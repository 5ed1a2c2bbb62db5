"""Statements about functions of the shipped archive (statements.py) are proved, and covered.txt says of each function
what is known."""

import copy
import random

import faults
import pytest
import segments
from linked import Code
from mapping import prove_facts
from statements import ARCHIVE, BUILDS, STATEMENTS, TABLE, begins, prove, table, text_of
from terms import Fault


@pytest.fixture(scope='module')
def archive():
    return Code(ARCHIVE)


@pytest.mark.parametrize('name, case', [(name, case) for name, (_, cases) in STATEMENTS.items() for case in cases])
def test_a_function_is_as_stated(archive, name, case):
    proof = prove(archive, BUILDS[-1], name, *case)
    assert proof.claims and proof.returns


@pytest.mark.parametrize('name', STATEMENTS)
def test_both_newer_builds_have_the_same_text(archive, name):
    """So one proof is enough for them. A text with another constant or call is another."""
    _, older, newer = begins(archive, name)
    assert text_of(archive, older) == text_of(archive, newer)
    changed, *_ = faults.planted(archive, newer, random.Random(0))
    assert text_of(archive, older) != text_of(changed, newer)


def test_the_table_names_each_function(archive):
    assert table(archive) == TABLE.read_text(encoding='utf-8')
    other = copy.copy(archive)
    other.names = {**archive.names, 1: 'argon2_fill::caller_blocks::planted'}
    with pytest.raises(Fault, match='planted'):
        table(other)


@pytest.mark.parametrize('s, is_first', segments.CASES)
def test_the_facts_about_the_mapping(s, is_first):
    prove_facts(s, is_first)
