"""Whatever a page names exists, judged by spelling:

- a path is what has a `/` or the ending of a file of this repository, between backquotes, in a link or as a command;
- a command is a line after four blanks or in a fence for sh, or words between backquotes that begin with a command;
- a name of the code is a word with `_` or `::` between backquotes. Each part has to stand somewhere in the sources, and
  in the file to which it is a link.

A page is named by a link, except in code and in pages that are packed without the others.
"""

import os
import re
import shutil
from pathlib import Path

import pytest
from common import TOP, files, read, run

ENDINGS = {'.rt', '.antt', '.md', '.txt', '.py', '.rs', '.c', '.h', '.sh', '.edit', '.svg', '.toml', '.in'}
FILES = files()
# The pages, and handwritten lists that follow the same rules.
PAGES = [*(file for file in FILES if file.endswith('.md')), 'docs/promises-open.txt']
PATHS = {f'/{path}' for file in FILES for path in (file, *map(str, Path(file).parents))}
# Names of things elsewhere: in upstream's source, in rust-argon2, in the toolchain, or where it is installed.
ELSEWHERE = re.compile(r'[/~$]|.*(?:\bout/|NAME|CRATE)|(?:rattle/logic|Denote/|Prog/|antt/)|(?:opt\.c|ref\.c|'
                       r'index_alpha|Block::as_u8_mut|blake2b_simd|constant_time_eq|lib/libproved_argon2\.so)$')
# Code, in a fence or set apart by four blanks, and paragraphs.
BLOCK = re.compile(r'^```(\w*)\n((?:.*\n)*?)```$|((?:^ {4}.*(?:\n|\Z))+)|((?:^(?!```| {4}).+(?:\n|\Z))+)', re.M)
# A path, and a name of the code; how a command begins, what precedes one, and the help of commands whose files do not
# list their words.
PATH = re.compile(rf'(?!\.\.)[\w./~$-]*(?:/[\w./~$-]*|(?:{"|".join(map(re.escape, ENDINGS))}))')
NAME = re.compile(r'(?=.*(?:[a-z]_|::))\w+(?:::\w+)*')
COMMAND = re.compile(r'(?:rt|(?:proved-)?argon2)(?: |$)|\.ci|\./|bench/|bindings/|crates/')
SEPARATOR = re.compile(r'(?:&&|[|;()]|sudo |^)\s*')
HELP = {'rt': run('rt', 'help').stdout if shutil.which('rt') else '',
        **dict.fromkeys(('argon2', 'proved-argon2'), ''.join(map(read, (
            'bindings/shell/commands.sh', 'crates/argon2_commands/src/command.rt'))))}
HELP['./argon2'] = read('argon2') + HELP['argon2']
# A help text shows a command's word after `rt`, as a label of a shell's `case`, or between quotes.
WORD_IN_HELP = r'(?:\brt |\||\b\d:|#     \./argon2 |"){}(?![\w-])'
# A link with its words, its path and its heading; a page's name; and the pages that are packed without the others.
LINK = re.compile(r'\[([^\]]*)\]\((?!\w+:)([^)\s#]*)#?([^)\s]*)\)')
PAGE, PACKED = re.compile(r'(?<![\w/.])(?:docs/)?[A-Z][A-Z0-9]*\.md'), re.compile(r'bindings/\w+/README\.md')


def text_of(file):
    """Returns what a file has, or nothing where there is none."""
    return (TOP / file).read_bytes().decode('utf-8', 'replace') if (TOP / file).is_file() else ''


SOURCES = '\n'.join(text_of(file) for file in FILES if not re.match(r'docs/|.*\.md$|\.ci/pages/test_names', file))
WORDS_OF_SOURCES = {*re.findall(r'\w+', '\n'.join([SOURCES, *PATHS]))}


def is_lost_path(name, page):
    plain = name.rstrip('/').removeprefix('./')
    first = f'/{plain.split("/")[0]}'
    beside = os.path.normpath(Path(page).parent / plain)
    places = tuple(f'/{path}{end}' for path in (plain, beside) for end in ('', '.rt', '.antt', '.py'))
    is_below = first in PATHS or f'/crates{first}' in PATHS
    return not ELSEWHERE.match(name) and not any(path.endswith(places) for path in PATHS) and (
        is_below or plain not in SOURCES)


def is_lost_name(word):
    """Returns whether part of a name is no word of the sources. With `_` at an end, it may be part of one."""
    is_there = word in SOURCES if re.search('^_|_$', word) else WORDS_OF_SOURCES.issuperset(word.split('::'))
    return not is_there and not ELSEWHERE.match(word)


def lost_words(first, *others):
    """Returns the words of a command that are not there: its file, its first word or an option."""
    if first in HELP:
        return [word for word in others[:1] if HELP[first] and re.fullmatch('-*[a-z][a-z-]*', word)
                and not re.search(WORD_IN_HELP.format(word), HELP[first])]
    text = text_of(first) + text_of('build/check_all.py') * (first == './check')
    return [first] * (not text) + [word for word in others if re.fullmatch('--[a-z-]+', word) and word not in text]


def faults_of_links(page, text):
    """Yields the headings that are not there, the names that are not in the files to which they are links, and the
    pages that are named without a link."""
    for name, path, heading in LINK.findall(text):
        to = os.path.normpath(Path(page).parent / path) if path else page
        headings = re.sub(r'[^\w\n -]', '', '\n'.join(re.findall('^#+ (.*)$', text_of(to), re.M)).lower())
        if heading and text_of(to) and heading not in headings.replace(' ', '-').split('\n'):
            yield f'{to}#{heading}'
        if re.fullmatch(r'`\w+`', name) and to.endswith(('.rt', '.antt')) and not re.search(
                rf'\b(?:proved_argon2_)?{name.strip("`")}\b', text_of(to)):
            yield f'{name} in {to}'
    yield from (f'link to {name}' for name in PAGE.findall(re.sub(r'\[[^\]]*\]\([^)]*\)|`[^`]*`', '', text)))


def faults(page, text, is_code):
    """Yields what a paragraph or a line of code names that is not there."""
    quoted = [' '.join(quote.split()) for quote in re.findall(r'`([^`]+)`', text)]
    paths = {*(path for _, path, _ in LINK.findall(text) if path), *filter(PATH.fullmatch, ' '.join(quoted).split()),
             *re.findall(r'\.ci/[\w./]*\w', text), *PAGE.findall(text)}
    yield from (path for path in paths if is_lost_path(path, page))
    yield from (word for word in quoted if NAME.fullmatch(word) and is_lost_name(word))
    for part in SEPARATOR.split(text) if is_code else (part for one in quoted for part in SEPARATOR.split(one)):
        if COMMAND.match(part) and (is_code or ' ' in part):
            yield from lost_words(*part.split())
    if not is_code and not PACKED.fullmatch(page):
        yield from faults_of_links(page, text)


def faults_of(page, text):
    """Yields the faults of a page's paragraphs, and of the lines of its code for a shell. Other code is left out."""
    for language, fenced, apart, paragraph in BLOCK.findall(text):
        code = apart or fenced * (language == 'sh')
        for part in [paragraph, *code.splitlines()]:
            yield from ((part, fault) for fault in faults(page, part, part != paragraph))


@pytest.mark.parametrize('page', PAGES)
def test_everything_that_a_page_names_exists(page):
    assert not [*faults_of(page, read(page))]


@pytest.mark.parametrize('text', [
    'in [a page](NOTHING.md)', '[it](docs/USE.md#nothing)', 'see docs/C.md', '`it`, of LIBARGON2.md',
    '[it](USE.md), and\n(USE.md)', 'run `.ci/pages/nothing`', 'run .ci/nothing', 'a row of `nothing.txt`',
    'it is `crates/argon2/src/nothing.rt`', 'the folder `argon2_text/specs/Nothing`', '    .ci/pages/write --nothing',
    '    ./argon2 nothing', '    proved-argon2 prove', '    cat docs/NOTHING.md', 'a `hash_of_nothing`',
    'a `Config::nothing_of`', '[`blake2b`](crates/argon2/src/hashing.rt)',
    *['    rt nothing NAME'] * bool(shutil.which('rt'))])
def test_a_text_that_names_something_missing_is_rejected(text):
    assert [*faults_of('README.md', text)]
