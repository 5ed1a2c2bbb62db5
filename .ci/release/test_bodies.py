"""No body of ours repeats one of the toolchain's, whose libraries come without a licence (NOTICE). Names are replaced
by the order in which they come, and a number by its value. Grouping, paths and `unsafe` do not count."""

import re
from pathlib import Path

import pytest
from shared import TOP

TOOLCHAIN = Path('/opt/rattle/rattle')
TOKEN = re.compile(r'''//.*|/\*(?s:.*?)\*/|'\w+\b(?!')|[^\W\d]\w*::|unsafe\b|(?P<number>\d\w*)|(?P<name>[^\W\d]\w*)|'''
                   r'''(?P<text>b?"(?:[^"\\]|\\(?s:.))*"|b?'(?:[^'\\\n]|\\[^\n]+?)')|(?P<mark>\S)''')
NUMBER = re.compile(r'(0x[0-9a-f]+|0b[01]+|0|[1-9]\d*)(?:[iu](?:\d+|size))?', re.I)
KEYWORDS = {*'as break const continue else false fn for if in let loop match mut ref return true while'.split()}
CLAUSES, GROUPING = {'requires', 'ensures', 'ghost', '{'}, '(){},;:'
# The shortest body that was once a copy cuts a slice in two, and has 14 tokens. Shorter ones are calls, fields and
# comparisons, which many functions share. Three longer ones are equal by chance: others do different things. Two
# are in tests. The third reports words that are no command as the toolchain reports a number that is out of range.
FEWEST, COMMON = 14, {'argon2_vectors words_of', 'argon2_schedule variant_of', 'argon2_commands command_of'}


def end_of(tokens, begin, last):
    """Returns the index of the first token of `last` that is in no bracket, or None."""
    depth = 0
    for at, (_, word) in enumerate(tokens[begin:], begin):
        if depth == 0 and word in last:
            return at
        depth += (word in '([{') - (word in ')]}')
    return None


def bodies(path):
    """Yields each function's name and the tokens of its body, the last of the blocks behind its signature."""
    text = path.read_text(encoding='utf-8')
    tokens = [(found.lastgroup, found[0]) for found in TOKEN.finditer(text) if found.lastgroup]
    for begin in (at + 2 for at, (_, word) in enumerate(tokens[:-1]) if word == 'fn' and tokens[at + 1][0] == 'name'):
        end = begin
        while end and end < len(tokens) and (end == begin or tokens[end][1] in CLAUSES):
            opened = end_of(tokens, end, '{;')
            closed = end_of(tokens, opened + 1, '}') if opened and tokens[opened][1] == '{' else None
            end = closed and closed + 1
        if end:
            yield tokens[begin - 1][1], tokens[opened + 1:closed]


def form(body):
    """Returns what is compared of a body."""
    names, form_of = {}, []
    for kind, word in body:
        if kind == 'name' and word not in KEYWORDS:
            form_of.append(('name', names.setdefault(word, len(names))))
        elif word not in GROUPING:
            number = NUMBER.fullmatch(word.replace('_', '')) if kind == 'number' else None
            form_of.append(int(number[1], 0) if number else word)
    return tuple(form_of)


@pytest.mark.skipif(not TOOLCHAIN.exists(), reason='there is no toolchain')
def test_no_body_repeats_one_of_the_toolchains():
    ours = [(form(body), f'{path.relative_to(TOP).parts[1]} {name}')
            for path in TOP.glob('crates/*/src/**/*.rt') for name, body in bodies(path)]
    theirs = {form(body) for path in TOOLCHAIN.glob('*/src/**/*.rt') for _, body in bodies(path)}
    assert 'argon2_blocks lend_parts' in {name for _, name in ours} and len(theirs) > 5000
    assert {name for found, name in ours if len(found) >= FEWEST and found in theirs} == COMMON
