"""Runs the steps of ./check, which says how it is called. docs/CHECK.md says what each step shows."""

import argparse
import json
import os
import shutil
import signal
import subprocess
import sys
import tempfile
import threading
import time
from concurrent.futures import ThreadPoolExecutor
from dataclasses import dataclass, field
from pathlib import Path
from xml.etree import ElementTree

TOP = Path(__file__).resolve().parents[1]
PYTEST = '/usr/bin/python3', '-B', '-P', '-m', 'pytest', '-q', '-c', 'setup.cfg', '--rootdir=.'
SKIPPED = 77  # (the exit status of a part that says why on its last line)
ENDING = signal.SIGINT, signal.SIGTERM, signal.SIGHUP
PREFIX = 'PREFIX'  # (in a command: what --installed names)
# The builds for x86-64. The newest one has all that is proved; of the others, what has another text.
BUILDS = 'x86-64-v2', 'x86-64-v3', 'x86-64-v4'
PACKAGES = {step: names for step, *names in (
    line.split() for line in (TOP / 'build/check_packages.txt').read_text().splitlines() if line[0] != '#')}


@dataclass(frozen=True)
class Part:
    """A command of a step. With `files`, it is pytest over them, with those tests that `tests` selects, and of these
    only what `quick` selects with --quick, or `other` with --library. If `quick` is None, the part does not run with
    --quick. `build` is the one build of the library that it looks at."""
    name: str
    command: tuple = ()
    files: str = ''
    tests: str = ''
    quick: str | None = None
    other: str = ''
    build: str = ''

    def words(self, options, results):
        """The command, or None if it does not run with these options."""
        if options.quick and self.quick is None or PREFIX in self.command and not options.installed \
                or self.build and self.build not in options.builds:
            return None
        if self.command:
            return [options.installed if word == PREFIX else word for word in self.command]
        tests = self.tests, (self.quick or '') * options.quick, self.other * bool(options.library)
        chosen = ' and '.join(f'({words})' for words in tests if words)
        return [*PYTEST, f'--junitxml={results}', self.files, *(['-k', chosen] if chosen else [])]


@dataclass(frozen=True)
class Step:
    """A step: what it shows, and its parts."""
    name: str
    shows: str
    parts: tuple


STEPS = (
    Step('release', 'release/ has the files that its manifest names, and the manifest names these sources', (
        Part('release/ and its manifest', ('build/check_release',), quick=''),
        Part('what is installed', ('build/check_installed', PREFIX), quick=''))),
    Step('definitions', 'the definitions in Python compute the hashes of the RFCs and of other implementations', (
        Part('definitions and vectors', files='machine_code/test_definitions.py', quick='not vectors'),)),
    Step('machine-code', 'each function that machine_code/covered.txt lists as proved computes what the definitions '
         'say, for all inputs', (
             Part('both compression functions', files='machine_code/test_machine_code.py',
                  quick='x86_64/libproved_argon2'),
             Part('what instructions do', files='machine_code/test_processor.py'),
             Part('what statements say', files='machine_code/test_formulas.py', quick=''),
             Part('references', files='machine_code/test_statements.py', tests='positions or pairs', quick='pick',
                  other='as_stated'),
             Part('segments', files='machine_code/test_statements.py', tests='not (positions or pairs)', quick='table',
                  other='as_stated'),
             *(Part(f'byte strings of {build}', files='machine_code/test_byte_strings.py', build=build,
                    tests=build, quick='hprime' if build == BUILDS[-1] else None)
               for build in BUILDS))),
    Step('verdicts', "the C code passes arguments and a proved call's verdict on unchanged, for all inputs", (
        Part('the way of a verdict', files='machine_code/test_verdict.py', tests='test_verdicts'),)),
    Step('linked', 'the libraries of release/ come out of the C code and the proved objects again, byte for byte', (
        Part('libraries linked again', files='.ci/release/test_linked.py'),)),
    Step('drawn', 'random hashes are those of libargon2 and of libsodium', (
        Part('random hashes', files='bindings/c/tests/test_peers.py', quick=''),)),
    Step('in-c', 'the tests in C pass', (
        Part('tests in C', ('bindings/c/tests/run',)),)),
)


@dataclass
class Result:
    """What came of a part: its cases, those that failed or were skipped, and what it wrote if it failed."""
    step: str
    part: str
    seconds: float
    cases: int = 0
    failed: list = field(default_factory=list)
    skipped: list = field(default_factory=list)
    output: str = ''


class Stopped(Exception):
    """Somebody stopped the check."""


def stop(*_):
    """Ends the check at a signal. No other signal interrupts that."""
    for number in ENDING:
        signal.signal(number, signal.SIG_IGN)
    raise Stopped


class Runner:
    """Runs parts side by side, and stops them together."""

    def __init__(self, options, folder):
        self.options, self.folder, self.running, self.is_stopped = options, folder, {}, False
        self.lock = threading.Lock()
        self.environment = {**os.environ, 'PYTHONDONTWRITEBYTECODE': '1', 'TMPDIR': str(folder),
                            **({'CHECKED_LIBRARY': str(Path(options.library).resolve()),
                                'CHECKED_BUILDS': ' '.join(builds_of(options.library))} if options.library else {})}

    def start(self, words, results):
        with self.lock:
            if self.is_stopped:
                raise Stopped
            # A session of its own, so that all of its processes can be stopped.
            started = subprocess.Popen(words, cwd=TOP, stdin=subprocess.DEVNULL, stdout=subprocess.PIPE, text=True,
                                       stderr=subprocess.STDOUT, start_new_session=True,
                                       env={**self.environment, 'CHECK_RESULTS': str(results)})
            self.running[started.pid] = started
            return started

    def run(self, step, part, words):
        """Runs a part, and returns its result."""
        results, began = results_of(self.folder, step, part), time.monotonic()
        started = self.start(words, results)
        output = started.communicate()[0]
        with self.lock:
            del self.running[started.pid]
        result = Result(step.name, part.name, time.monotonic() - began, output=output)
        files = sorted(self.folder.glob(f'{results.stem}*.xml'))
        judge(result, started.returncode, files)
        if self.options.results:
            for file in files:
                shutil.copy(file, self.options.results)
        return result

    def stop(self):
        with self.lock:
            self.is_stopped = True
            for pid in self.running:
                os.killpg(pid, signal.SIGKILL)


def results_of(folder, step, part):
    """The file in which a part leaves its results in JUnit's form. It may leave others whose names begin alike."""
    return folder / f'{step.name}-{step.parts.index(part)}.xml'


def judge(result, status, files):
    """Counts the cases of a part, by its results or its exit status."""
    for case in (case for file in files for case in ElementTree.parse(file).iter('testcase')):
        result.cases += 1
        skip, name = case.find('skipped'), case.get('name')
        if case.find('failure') is not None or case.find('error') is not None or case.get('status') == 'fail':
            result.failed.append(name)
        elif skip is not None or case.get('status') in ('notrun', 'disabled'):
            result.skipped.append(f'{name}: {"not run" if skip is None else skip.get("message")}')
    last = result.output.strip().rpartition('\n')[2]
    if not files:
        result.cases = 1
        if status == SKIPPED:
            result.skipped.append(last)
        elif status:
            result.failed.append(last)
    elif not result.cases or status and not result.failed:
        result.cases = max(result.cases, 1)
        result.failed.append(last or 'it checked nothing')


class Progress:
    """Prints what has ended and, on a terminal, what is running."""

    def __init__(self, options, waiting):
        self.began, self.waiting, self.is_silent = time.monotonic(), [*waiting], options.json
        self.is_terminal = sys.stdout.isatty() and not options.json

    def show(self):
        """Rewrites the line on a terminal that says what is left."""
        if self.is_terminal:
            passed = int(time.monotonic() - self.began)
            line = f'{passed // 60}:{passed % 60:02} {len(self.waiting)} left: {", ".join(self.waiting)}'
            print(f'\r\033[K{line[:shutil.get_terminal_size().columns - 1]}', end='', flush=True)

    def ended(self, result):
        self.waiting.remove(result.part)
        if self.is_silent:
            return
        word = 'FAILED' if result.failed else 'skipped' if len(result.skipped) == result.cases else 'passed'
        clear = '\r\033[K' * self.is_terminal
        print(f'{clear}{word:8}{result.step}: {result.part} ({result.cases} cases, {result.seconds:.0f} s)', flush=True)
        for name in result.failed:
            print(f'        {name}')
        if result.failed:
            print('\n'.join(f'    | {line}' for line in result.output.strip().splitlines()[-40:]), flush=True)


def run_all(runner, asked, progress):
    """Runs the parts that are asked for, as many at once as there are processors, and yields their results."""
    results = []
    with ThreadPoolExecutor(len(os.sched_getaffinity(0))) as pool:
        waiting = [pool.submit(runner.run, *part) for part in asked]
        try:
            while waiting:
                progress.show()
                done = [future for future in waiting if future.done()]
                for future in done:
                    waiting.remove(future)
                    results.append(future.result())
                    progress.ended(results[-1])
                time.sleep(0 if done else 0.2)
        finally:
            if waiting:
                for future in waiting:
                    future.cancel()
                runner.stop()
    return results


def missing_packages(steps):
    """Returns the packages of Debian that these steps need and that are not installed."""
    wanted = sorted({*PACKAGES['all'], *(name for step in steps for name in PACKAGES.get(step.name, ()))})
    found = subprocess.run(['dpkg-query', '-Wf', '${Package} ${db:Status-Status}\\n', *wanted], check=False, text=True,
                           stdout=subprocess.PIPE, stderr=subprocess.DEVNULL).stdout
    installed = {line.split()[0] for line in found.splitlines() if line.endswith(' installed')}
    return [name for name in wanted if name not in installed]


def begin(options, steps):
    """Makes sure that the packages are there; returns why the check cannot begin, or None."""
    if not shutil.which('dpkg-query'):
        return 'it needs packages of Debian, and this system has no dpkg-query'
    missing = missing_packages(steps)
    if missing and options.install:
        environment = {**os.environ, 'DEBIAN_FRONTEND': 'noninteractive'}
        for words in ('update',), ('install', '-y', '--no-install-recommends', *missing):
            subprocess.run(['apt-get', '-q', *words], check=False, stdout=sys.stderr, env=environment)
        missing = missing_packages(steps)
    if missing:
        return f'install these packages first: apt-get install {" ".join(missing)}'
    if options.library and not builds_of(options.library):
        return f'{options.library} has no names of functions for x86-64. Check a library before it is stripped'
    return None


def builds_of(library):
    """Which builds a library for x86-64 contains, by the names of its functions."""
    names = subprocess.run(['nm', library], check=False, text=True, stdout=subprocess.PIPE,
                           stderr=subprocess.DEVNULL).stdout
    return [build for build in BUILDS if f' proved_{build.replace("-", "_")}_' in names]


def summary(options, results):
    """What is known now and what is not, for whoever quotes it."""
    passed = {result.step for result in results} - {result.step for result in results if result.failed}
    asked = 'a part of it (--quick)' if options.quick else options.library or 'release/'
    known = '; '.join(step.shows for step in STEPS if step.name in passed)
    return (f'Checked here, of {asked}: {known}.',
            'Only the proofs say, and nobody without the toolchain can repeat them: what docs/CLAIMS.md states about '
            'threads in Rattle, about memory that runs out, and about each function that machine_code/README.md lists '
            'as not covered.',
            'Nobody has checked Z3, binutils, Python, the processor, the system, and the assumptions that '
            'docs/CHECK.md lists.')


def report(options, results):
    """Prints the end of the report, and returns the exit status."""
    failed = [f'{result.step}: {name}' for result in results for name in result.failed]
    skipped = [f'{result.step}: {name}' for result in results for name in result.skipped]
    sentences, count = summary(options, results), sum(result.cases for result in results)
    passed = not failed and bool(results) and (not skipped or options.allow_skips)
    if options.json:
        print(json.dumps({'passed': passed, 'cases': count, 'failed': failed, 'skipped': skipped,
                          'parts': [{**vars(result), 'output': result.output if result.failed else ''}
                                    for result in results], 'summary': sentences}, indent=1))
        return int(not passed)
    for name in skipped:
        print(f'skipped: {name}')
    if not results:
        sentences = 'Nothing of what was asked for runs with these options.',
    elif not passed:
        sentences = f'{len(failed)} of {count} cases failed, and {len(skipped)} were skipped.',
    print('', *sentences, sep='\n')
    return int(not passed)


def parsed(words):
    """The options."""
    parser = argparse.ArgumentParser(usage='./check --help prints the options', add_help=False)
    for name in ('list', 'json', 'install', 'allow-skips'):
        parser.add_argument(f'--{name}', action='store_true')
    for name in ('installed', 'results'):
        parser.add_argument(f'--{name}')
    either = parser.add_mutually_exclusive_group()
    either.add_argument('--quick', action='store_true')
    either.add_argument('--library')
    parser.add_argument('--build', choices=BUILDS)
    parser.add_argument('--only', nargs='+', choices=[step.name for step in STEPS])
    return parser.parse_args(words)


def main(words):
    options = parsed(words)
    options.installed = options.installed and str(Path(options.installed).resolve())
    steps = [step for step in STEPS if not options.only or step.name in options.only]
    if options.library:
        steps = [step for step in steps if step.name in ('definitions', 'machine-code', 'verdicts')]
    if options.list:
        for step in steps:
            print(f'{step.name:14}{step.shows}')
        return 0
    if why := begin(options, steps):
        print(f'./check: {why}', file=sys.stderr)
        return 2
    there = builds_of(options.library) if options.library else BUILDS
    options.builds = [build for build in there if options.build in (None, build)]
    for number in ENDING:
        signal.signal(number, stop)
    with tempfile.TemporaryDirectory(prefix='check-') as folder:
        runner = Runner(options, Path(folder))
        asked = [(step, part, command) for step in steps for part in step.parts
                 if (command := part.words(options, results_of(Path(folder), step, part)))]
        progress = Progress(options, [part.name for _, part, _ in asked])
        try:
            results = run_all(runner, asked, progress)
        except Stopped:
            runner.stop()
            print('stopped', file=sys.stderr)
            return 130
        return report(options, results)


if __name__ == '__main__':
    sys.exit(main(sys.argv[1:]))
