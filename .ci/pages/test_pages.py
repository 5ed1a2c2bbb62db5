"""Generated parts are current, the code of pages is built, and handwritten lists fit the sources."""

import re
import shutil
from pathlib import Path

import pytest
from common import FIRST, REPORTS, TOP, Copy, files, read, rows
from shared.sources import Sources, edits

BLOCK = re.compile(r'^```(rust|antt)\n(.*?)^```$', re.M | re.S)


def test_generated_parts_are_current(tmp_path):
    Copy(tmp_path).assert_is_current()


@pytest.mark.parametrize('page', ['docs/DIFFERENCES.md', 'docs/USE.md'])
def test_pieces_of_rattle_are_in_the_examples(page):
    examples = ''.join(map(read, files('crates/argon2_examples/src/*.rt', 'crates/argon2_examples/specs/*.antt')))
    pieces = [piece for _, piece in BLOCK.findall(read(page))]
    assert pieces and not [piece for piece in pieces if piece not in examples]


def test_first_calls_are_those_of_each_languages_page():
    calls = re.findall(r'^\| \[[^\]]*\]\((docs[^)]*)\)[^|]* \| .* \| `(.*)` \|$', read(FIRST), re.M)
    assert len(calls) >= 6 and not [call for page, call in calls if call not in read(page)]


def test_quotes_of_the_logic_are_in_its_files(needs):
    needs('rt')
    logic = Path(shutil.which('rt')).resolve().parents[1] / 'rattle/logic'
    quoted = re.findall(r'^-- (\S+\.antt)\n((?:(?!--|```).*\n)+)', read(REPORTS), re.M)
    assert len(quoted) == 2
    for file, text in quoted:
        assert ''.join(text.split()) in ''.join((logic / file).read_text(encoding='utf-8').split())


@pytest.mark.parametrize('page', [FIRST, 'docs/INSTALL.md', 'docs/PYTHON.md'])
def test_pages_name_the_newest_c_library_that_release_needs(page):
    asked = {int(version) for file in TOP.glob('release/*/*') if file.is_file()
             for version in re.findall(rb'\0GLIBC_2\.(\d+)\0', file.read_bytes())}
    named = re.findall(r'(?:GNU C\s+library|glibc)(?:\W|older|than|version|needs?)*2\.(\d+)', read(page))
    assert {*map(int, named)} == {max(asked)}


def test_each_mutant_fits_and_names_what_it_breaks():
    every = edits(Sources())
    wrong = {(edit.crate, edit.name) for edit in every if not edit.is_equal}
    assert wrong and not [(edit.crate, edit.name, edit.fault) for edit in every
                          if edit.fault or edit.is_equal == bool(edit.goals) or (edit.crate, edit.name) not in wrong]


def test_each_open_promise_has_its_tests():
    opened = rows(TOP / 'docs/promises-open.txt')
    assert len(opened) > 40 and not [row for row in opened if len(row) != 2 or not all(row)]


def test_the_table_for_c_has_each_call_and_the_definitions_that_its_clause_names():
    """`none` means that no call is proved. One theorem's clauses state what several calls return together. The headers
    have each parameter."""
    headers, code = (''.join(map(read, files(pattern)))
                     for pattern in ('bindings/c/include/*.h', 'crates/argon2_c/src/*.rt'))
    declared = {*re.findall(r'^(?!typedef| \*).*\bproved_argon2_(\w+)\(', headers, re.M)}
    clauses = dict(re.findall(r'^pub (?:extern "C" )?fn (?:proved_argon2_)?(\w+)(\(.*?)^\{', code, re.M | re.S))
    parameters = dict(re.findall(r'\bproved_argon2_(\w+)\(([^)]*)\)', headers))
    for name in declared & clauses.keys():
        assert {*re.findall(r'(\w+): ', clauses[name].partition('->')[0])} <= {*re.findall(r'\w+', parameters[name])}
    table, told = re.findall(r'^\| (.*[`*\]].*?) \| .* \| (none|\[.*) \|.*\|$', read('docs/C.md'), re.M), set()
    for calls, cited in table:
        names, links = re.findall(r'`proved_argon2_(\w+)`', calls), re.findall(r'\[`(\w+)`\]', cited)
        told |= {*names}
        proved = [clauses['any_order_of_steps']] if '/Runs.antt' in cited else [
            f'proved_argon2_{name}{clauses[name]}' for name in names if name in clauses]
        assert bool(links) == bool(proved), calls
        assert all(any(link in text for text in proved) for link in links), calls
        assert all(any(link in text for link in links) for text in proved), calls
    assert len(table) > 20 and declared - told == {name for name in clauses if 'recommended' in clauses[name]} - told
    assert told <= declared and 'owasp2' in told
