"""Writes the lists of docs/DEFINITIONS.md: the files of definitions on which calls' clauses rest, for each of four
doors: Rattle's root calls, the calls for C without and with the steps of a hash, and the program.

A clause rests on the files that define its names, and a file on those that it imports from. The script fails at an
import that it does not understand, at an undefined name, and if root calls rest on files outside of the folders
Standard. The quoted text or its hash shows a changed contract.
"""

import functools
import hashlib
import re
from collections import defaultdict

from common import TOP, fill, link, quoted, read, require, row, wrapped
from shared.sources import Sources, crates

PAGE = 'docs/DEFINITIONS.md'
# The calls for one step of a hash, which the driver makes if it has threads or a callback, and the theorem that joins
# them. Then the calls whose contracts the page prints; it links the others.
STEPS = ['proved_argon2_job_begin', 'proved_argon2_job_fill', 'proved_argon2_job_finish', 'proved_argon2_job_verify',
         'any_order_of_steps']
PRINTED = ['hash_raw', 'verify_encoded_within', 'proved_argon2_hash_over', 'proved_argon2_verify_over']
CODE = {path: read(path) for path in sorted(TOP.glob('crates/*/src/**/*.rt'))}
# These match the beginning of an import of definitions, a whole import, an import of a type of the code, a definition,
# and a definition without a comment above it.
BEGIN = r'^ *(?:ghost use|use(?= \w+\.)) '
IMPORT = re.compile(BEGIN + r'((?:\w+\.)*\w+)(?:\.\{([^}]*)\}| as \w+) ?(?:;|$)', re.M)
OF_A_TYPE = re.compile(r'\.declared\.[a-z0-9_.]*([A-Z]\w*)')
DEFINED = r'^(?:abbrev |unfoldable )?pub (?!mod |use )(?:record |data )?([^\s({:]+)'
BARE = re.compile(r'^(?!--(?! end$| ----)).*\n' + DEFINED, re.M)
# What a crate exports of a module. A type with its fields, and its view.
EXPORT = re.compile(r'^pub use ((?:\w+::)+)(?:(\w+)|\{([^}]*)\});', re.M)
TYPE = re.compile(r'^ *(?:pub(?:\([a-z]+\))? )?(?:struct|type) (\w+)\b([^;{]*(?:;|\{.*?^\}))', re.M | re.S)
VIEW = re.compile(r'^impl(?:<[^>]*>)? Model for (\w+)[^{]*\{\n.*?^\}', re.M | re.S)


@functools.cache
def definitions_of(file):
    require(file.is_file(), f'{file} is no file')
    return re.findall(DEFINED, read(file), re.M)


@functools.cache
def imports_of(text):
    """Returns the file of each of our definitions that a text imports, by its name."""
    found, files = IMPORT.findall(text), {}
    require(len(found) == len(re.findall(BEGIN, text, re.M)), f'an import is not understood: {text[:300]}')
    for module, names in found:
        if not re.match(rf'Rattle\.(?:{"|".join(crates())})\.(?!.*\b(?:TheConstants|declared)\b)', module):
            continue
        require(names, f'{module}: a whole module')
        file = TOP.joinpath('crates', *module.split('.')[1:]).with_suffix('.antt')
        for name, _, other in (part.strip().partition(' as ') for part in names.split(',') if part.strip()):
            require(name in definitions_of(file), f'{module}.{name} is no definition')
            files[other or name] = file
    return files


def closure(found, following):
    """Returns what is found, and everything that follows from it."""
    met = set()
    while found:
        met |= found
        found = {further for one in found for further in following(one)} - met
    return met


def reached_from(text, imports):
    """Returns the files that define a text's names, and those they import from."""
    words = {*re.findall(r'[^\s(){}\[\],;.@]+', text)}
    own = {file for name, file in imports_of(imports).items() if words.issuperset(filter(None, name.split('◌')))}
    return closure(own, lambda file: imports_of(read(file)).values())


def views_of(names):
    """Returns the views of these types, and of those that they hold: by name the file and the text of `impl Model`."""
    held = defaultdict(set)
    for name, fields in (pair for text in CODE.values() for pair in TYPE.findall(text)):
        held[name].update(re.findall(r'\w+', re.sub('//.*', '', fields)))
    views = {view[1]: (path, view[0]) for path, text in CODE.items() for view in VIEW.finditer(text)}
    return {name: views[name] for name in sorted(closure(names, lambda name: held[name]) & views.keys())}


class Door:
    """An interface: its calls, and the files on which their clauses and their types' views rest."""

    def __init__(self, calls):
        self.calls = calls
        self.own = set().union(*(reached_from(clauses_of(call), call.module.text) for call in calls))
        require(self.own, f'no clause of {[call.name for call in calls]} is found')
        texts = [*map(contract_of, calls), *(' '.join(OF_A_TYPE.findall(read(file))) for file in self.own)]
        self.views = views_of({*re.findall(r'\w+', '\n'.join(texts))})
        self.files = self.own.union(*(reached_from(text, CODE[path]) for path, text in self.views.values()))


def order_of(file):
    """Crates in the order of crates.txt, and files in the order in which the file above names them."""
    crate, *_ = file.relative_to(TOP / 'crates').parts
    above = file.with_name('Lib.antt') if file.parent.name == 'specs' else file.parent.with_suffix('.antt')
    return crates().index(crate), above, read(above).index(f'pub mod {file.stem}\n')


def contract_of(call):
    """Returns the signature and the clauses of a function."""
    text = '\n'.join(call.module.text.split('\n')[call.first - 1:call.last])
    return re.split(r'^ *\{\}?$', text, maxsplit=1, flags=re.M)[0].rstrip('\n')


def clauses_of(call):
    return re.search(r'(?:^ +(?:requires|ensures)\*?(?: \w+)? \{.*)?\Z', contract_of(call), re.M | re.S)[0]


def contracts(calls):
    """Returns the contracts of the printed calls, and the files of the others, with a hash of their text. A call with
    `_sequential` has the contract of the call without."""
    printed, places = [call for call in calls if call.name in PRINTED], defaultdict(list)
    for call in calls:
        if call not in printed and '_sequential' not in call.name:
            places[call.module.file].append(call.name)
    return [*['```rust', *map(contract_of, printed), '```', ''] * bool(printed),
            f'Contracts in the code (hash of their text: `{hash_of(contract_of(call) for call in calls)}`):', '',
            *(wrapped(f'- {link(path.name, path)}: {quoted(names)}', '  ') for path, names in places.items())]


def hash_of(texts):
    return hashlib.sha256(''.join(texts).encode()).hexdigest()[:8]


def exported_by(crate, functions):
    """Returns the functions that a crate's root exports, each from a module in or below which it is."""
    found = EXPORT.findall(read(f'crates/{crate}/src/lib.rt'))
    exports = {(name, tuple(f'{before}{path}'.split('::')[:-1])) for path, *names in found
               for name in re.findall(r'\w+', ' '.join(names)) for before in ('', f'{crate}::')}
    return [call for call in functions if call.is_public and not call.owner
            and any((call.name, call.module.path[:end]) in exports for end in range(len(call.module.path) + 1))]


def doors():
    """The doors. The page lists each file at the first door that needs it."""
    functions = Sources().functions
    for_c = [call for call in functions if call.crate == 'argon2_c'
             and ('extern "C"' in contract_of(call) or call.name in STEPS)]
    return {'Rattle': Door(exported_by('argon2', functions)),
            'C, in one call': Door([call for call in for_c if call.name not in STEPS]), 'C, with steps': Door(for_c),
            'the program': Door(exported_by('argon2_commands', functions))}


def check(root):
    """The clauses of the root calls rest on the files of the folders Standard, where each definition has a comment."""
    standard = {*TOP.glob('crates/*/specs/Standard/*.antt')}
    bare = [f'{name} in {file}' for file in standard for name in BARE.findall(read(file))]
    others = standard ^ root.own
    require(not others, f'these are in folders Standard and unused by root calls, or used and elsewhere: {others}')
    require(not bare, f'definitions without a comment: {bare}')


def write_all():
    known, seen, done = doors(), set(), []
    check(known['Rattle'])
    counts = [row(name, len(door.calls), sum(len(definitions_of(file)) for file in door.files), len(door.views))
              for name, door in known.items()]
    heads = [row('Called from', 'Calls', 'Definitions', 'Views'), '|---' * 4 + '|']
    fill(PAGE, 'counts', heads + counts, 'definitions')
    for name, door in known.items():
        fill(PAGE, f'contracts of {name}', contracts([call for call in door.calls if call not in done]), 'definitions')
        new = [f'- {link(str(file).partition("/specs/")[2], file)}: {len(definitions_of(file))}'
               for file in sorted(door.files - seen, key=order_of)]
        fill(PAGE, f'definitions of {name}', new, 'definitions')
        done, seen = done + door.calls, seen | door.files
    views = {view: found for door in known.values() for view, found in door.views.items()}
    places = ', '.join(link(view, path) for view, (path, _) in sorted(views.items()))
    hashed = hash_of(text for _, (_, text) in sorted(views.items()))
    fill(PAGE, 'views', [wrapped(f'In the code (hash of their text: `{hashed}`): {places}.')], 'definitions')
