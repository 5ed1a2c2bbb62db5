"""Writes what pages claim of the sources and of the toolchain: what depends on secrets
(bindings/c/tests/secrets/depends.txt), what the prover takes without proof, and the hash of the theorems' statements
that pinned.txt lists.
"""

import hashlib
import json
import re
import shutil
import textwrap
from pathlib import Path

from common import REPORTS, TOP, files, fill, quoted, read, require, row, rows, run, write
from machines import machines
from shared.sources import crates
from toolchain import is_current

CLAIMS, PINNED = 'docs/CLAIMS.md', '.ci/pages/pinned.txt'
# The parts of the logic whose axioms are listed. Then the programs that compile proved code.
PARTS = 'antt/lib', 'antt/port/mathlib', 'antt/port/seplogic', 'logic'
COMPILERS = {'bin/rattle': 'the prover, with its back ends',
             'toolchain/bin/clang': "LLVM's clang, which one of them uses"}
# The files built from proved code, with the crate whose proof they rest on. The prover's report is beside each.
NEWEST = machines()['x86_64'].proved[-1]
PROGRAM = 'The program'
BUILT = {'The archive for C': ('argon2_c', f'{NEWEST}/libargon2_c.a'),
         'The WebAssembly modules': ('argon2_c', 'wasm64-unknown-unknown/libargon2_c.a'),
         PROGRAM: ('argon2_program', f'{NEWEST}/argon2_program')}
# The crate that rests on no C function, and calls only those that the compiler inserts for copies and zeros.
WITHOUT_AXIOMS, OF_THE_COMPILER = 'argon2_c', {'memcpy', 'memmove', 'memset'}


def lines_of_the_toolchain(top):
    """Returns the prover, and the axioms that the logic's files declare and accept."""
    axioms = [axiom for part in PARTS for path in sorted((top / 'rattle' / part).rglob('*.antt'))
              for axiom in re.findall(r'^ *axiom +(?:pub +)?([^\s:{]+)', read(path), re.M)]
    projects = {path.parent.relative_to(top / 'rattle').as_posix(): json.loads(read(path))
                for path in sorted((top / 'rattle').rglob('antt-project.json'))}
    return [*(f'- {what}: `{file}`, SHA-256 `{hashlib.sha256((top / file).read_bytes()).hexdigest()}`'
              for file, what in COMPILERS.items()),
            f'- extensions outside the type theory: {quoted(projects["logic"]["native-extensions"])}',
            f'- axioms that the files of {quoted(PARTS)} declare: {quoted(axioms) or "none"}',
            *(f'- axioms of the theory that `{folder}` may use: {quoted(project["axioms"])}'
              for folder, project in projects.items() if project.get('axioms'))]


def report_of(crate, built):
    """Returns the prover's last report of what is built, or nothing."""
    said, built = TOP / f'bindings/out/{built}.said', TOP / 'bindings/out' / built
    reports = re.findall(r'(?:^(?:logic|crate|axioms|statements|  \S+::) *\S.*\n)+logic=proved .*\n',
                         read(said) if said.exists() else '', re.M)
    return reports[-1] if reports and is_current(crate, built) else None


def lines_of(crate, built, report):
    """Returns what a proof loads and assumes, and what the built file calls. What a WebAssembly module calls is seen by
    its imports (bindings/wasm/tests)."""
    verdict = report.splitlines()[-1].split()
    called = set() if 'wasm' in built else {
        *re.findall(r'^\w+$', run('nm', '-u', '-j', TOP / 'bindings/out' / built).stdout, re.M)}
    reached = re.findall(r'^axioms (\w+): (.*)', report, re.M)
    some = [f'of `{name}` {which}' for name, which in reached if not which.startswith('none')]
    none = [name for name, which in reached if which.startswith('none')]
    if crate == WITHOUT_AXIOMS:
        taken = [*(word for word in verdict if re.match('axioms=[^0]', word)), *some, *sorted(called - OF_THE_COMPILER)]
        require(not taken, f'{built} takes functions of C as they are: {taken}')
    loaded = {*re.findall(r'^statements (\w+):', report, re.M)} - {*crates()}
    ends = ' '.join(word for word in verdict if not word.startswith('functions='))
    return [f'- its proof ends with: `{ends}`', f"- the toolchain's crates loaded: {quoted(sorted(loaded))}",
            f"- functions of C taken as they are: {'; '.join(some + [f'of {quoted(none)} none'] * bool(none))}",
            *[f'- once built, it calls: {quoted(sorted(called))}'] * bool(called)]


def declared(path, top):
    """Returns how the toolchain's crate declares a function of C, with its contract."""
    crate, *modules, name = path.split('::')
    text = read(top / 'rattle' / crate / 'src' / f'{"/".join(modules) or "lib"}.rt')
    return textwrap.dedent(re.search(rf'^ *(?:pub )?(?:(?:un)?safe )?fn {name}\b.*?;$', text, re.M | re.S)[0])


def write_reports(top):
    """Writes docs/reports.txt. If any file is not built, all lists stay as they are."""
    fill(REPORTS, 'the toolchain', lines_of_the_toolchain(top), 'assumptions')
    reports = {name: report_of(*which) for name, which in BUILT.items()}
    lacking = [name for name, report in reports.items() if not report]
    if lacking:
        return print(f'left as it is, since not built of these sources: {", ".join(lacking)}')
    taken = re.findall(r'^ +(\S+) +reached$', reports[PROGRAM], re.M)
    lists = (line for name, which in BUILT.items() for line in (f'{name}:', '', *lines_of(*which, reports[name]), ''))
    fill(REPORTS, 'the reports', [*lists, 'The contracts of the functions of C of the programs:', '',
                                  *(declared(path, top) for path in taken)], 'assumptions')


def with_hash(patterns, reason, *_):
    """Returns a row of pinned.txt with the hash of its files, in sorted order, with their names."""
    found = files(*patterns.split())
    require(found, f'{PINNED}: no file is of {patterns}')
    sums = (f'{hashlib.sha256((TOP / file).read_bytes()).hexdigest()}  {file}\n' for file in found)
    return ' | '.join([patterns, reason, hashlib.sha256(''.join(sums).encode()).hexdigest()])


def write_all():
    depends = [row(call, words) for _, call, words in rows(TOP / 'bindings/c/tests/secrets/depends.txt')]
    fill(CLAIMS, 'secrets', ['| Call | What depends on these |', '|---|---|', *depends], 'assumptions')
    if shutil.which('rt'):
        write_reports(Path(shutil.which('rt')).resolve().parent.parent)
    heads = [line for line in read(PINNED).splitlines() if line[0] == '#']
    write(PINNED, '\n'.join([*heads, *(with_hash(*cells) for cells in rows(TOP / PINNED)), '']))
