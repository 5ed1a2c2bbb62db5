"""Runs a call of the driver for C (bindings/c/src/proved_argon2_driver.c), and callers of kept buffers
(proved_argon2_buffers.c), in every way in which they can go within some bounds, and counts the runs. Each request and
each thread may be denied, each proved call may fail, and the callback may stop or fork. Another thread may run before
each atomic access. explore_schedules.c and explore_buffers.c state what must hold in each run. The first also checks
each move of a thread against the proved models (Team.antt and Threads.antt in crates/argon2_c/specs). Then each fault
of faults.txt is planted, and has to be found.
"""

import re
import subprocess
from concurrent.futures import ThreadPoolExecutor
from pathlib import Path
from typing import NamedTuple

import moves
import pytest
from running import TOP, ahead, rows

HERE = Path(__file__).resolve().parent
SPECS = TOP / 'crates/argon2_c/specs'
SOURCES = {name: (TOP / f'bindings/c/src/proved_argon2_{name}.c').read_text(encoding='utf-8')
           for name in ('driver', 'buffers')}
MODELS = {name: (SPECS / f'{name}.antt').read_text(encoding='utf-8') for name in ('Team', 'Threads')}
TEXTS = {**SOURCES, **MODELS}
COMPILER = ('gcc', '-std=c11', '-O1', '-g', '-fno-sanitize-recover=all', '-Wall', '-Wextra', '-Werror',
            '-I', TOP / 'bindings/c/include', '-I', TOP / 'bindings/c/src', '-I', HERE)
SANITIZED = '-fsanitize=address,undefined'
# The source calls accesses.c for each access of memory.
WATCHED = '-fsanitize=thread,undefined', '--param=tsan-instrument-func-entry-exit=0'
# By source: the objects of the program that explores it. An object is compiled from that source, from the file that
# follows a model, or from another file of this folder.
OBJECTS = {'driver': ('driver', 'Team', 'Threads', 'explore', 'accesses'),
           'buffers': ('buffers', 'explore_buffers', 'explore', 'accesses')}
FOLLOWS = {'Team': 'explore_schedules', 'Threads': 'places'}
# By the numbers that a program is called with: how many runs there are.
RUNS = {
    # Lanes, threads, passes, and switches of threads without need, over all kinds of call. With four lanes, each of two
    # threads fills two lanes at a time.
    'driver': {(1, 1, 1, 0): 128, (1, 1, 2, 0): 192, (1, 2, 1, 2): 128, (1, 2, 2, 2): 192, (1, 3, 1, 2): 128,
               (1, 3, 2, 1): 192, (2, 1, 1, 0): 136, (2, 1, 2, 0): 200, (2, 2, 1, 2): 60617, (2, 2, 2, 2): 333500,
               (2, 3, 1, 2): 60617, (2, 3, 2, 1): 44676, (3, 1, 1, 0): 176, (3, 1, 2, 0): 272, (3, 2, 1, 2): 73476,
               (3, 2, 2, 2): 408010, (3, 3, 1, 2): 774728, (3, 3, 2, 1): 257008, (4, 2, 1, 2): 82494},
    # Callers, calls of each, buffers, and switches without need.
    'buffers': {(1, 2, 1, 0): 65, (2, 2, 1, 3): 54487, (2, 2, 2, 3): 406111, (3, 1, 1, 3): 116656,
                (3, 1, 2, 3): 956102, (3, 2, 1, 2): 432730},
}
# By each fault's name: a piece of a source, and what takes its place. @ separates the lines of a piece.
FAULTS = {name: [piece.replace('@', '\n') for piece in pieces] for name, *pieces in rows(HERE / 'faults.txt')}
assert len(FAULTS) == 63
# By model and move, a piece of the model, and one with which the model allows the move less often.
NARROWER = {
    ('Team', 'Wakes'): ('s.woken j ≤ s.step', 's.woken j < s.step'),
    ('Team', 'Enters'): ('s.entered j < s.woken j', 's.entered j + 1 < s.woken j'),
    ('Team', 'Claims'): ('pub free : s.state worker ≡ 2 * step', 'pub free : s.state worker + 1 ≡ 2 * step'),
    ('Team', 'Writes'): ('pub can : CanEnd w s step worker', 'pub can : CanClaim w s step worker'),
    ('Team', 'Completes'): ('w.worker l ≡ worker → w.Fills', 'w.worker l ≤ worker → w.Fills'),
    ('Team', 'Fails'): ('code ≢ 0', 'code ≡ 0'),
    ('Team', 'Advances'): ('pub more : s.step < w.steps', 'pub more : s.step + 1 < w.steps'),
    ('Team', 'Stops'): ('(s.step ≡ w.steps) ⊎ AreThrough w s', 's.step ≡ w.steps'),
    ('Threads', 'Wakes'): ('s.place 0 ≡ Waking k) × (k ≤', 's.place 0 ≡ Waking k) × (k <'),
    ('Threads', 'Begins'): ('s.place 0 ≡ Waking (suc members)', 's.place 0 ≡ Waking members'),
    ('Threads', 'Claims'): ('(n < most w members is_long j)', '(suc n < most w members is_long j)'),
    ('Threads', 'Leaves'): ('(most w members is_long j ≤ n) ⊎', '(most w members is_long j ≤ n) ×'),
    ('Threads', 'Writes'): ('(l : ℕ) → w.worker l ≢ part', '(l : ℕ) → w.worker l ≢ suc part'),
    ('Threads', 'Finishes'): ('w.worker l ≡ part → w.Fills', 'w.worker l ≤ part → w.Fills'),
    ('Threads', 'Tells'): ('s.place j ≡ Telling (suc n)', 's.place j ≡ Telling (suc (suc n))'),
    ('Threads', 'Waits'): ('s.place j ≡ Telling 0', 's.place j ≡ Telling 1'),
    ('Threads', 'Awakes'): ('(0 < s.wakes j)', '(1 < s.wakes j)'),
    ('Threads', 'Enters'): ('Woken) × (s.team.is_over ≡ false', 'Woken) × (s.team.is_over ≡ true'),
    ('Threads', 'Exits'): ('Woken) × (s.team.is_over ≡ true', 'Woken) × (s.team.is_over ≡ false'),
    ('Threads', 'Counts'): ('(n < w.tasks) × (0 < s.wakes 0)', '(suc n < w.tasks) × (0 < s.wakes 0)'),
    ('Threads', 'Advances'): ('s.team.code i ≡ 0)', 's.team.code i ≡ 1)'),
    ('Threads', 'Stops'): ('(s.place 0 ≡ Counting w.tasks) ⊎ (s.place 0 ≡ Left)', 's.place 0 ≡ Left'),
    ('Threads', 'Dismisses'): ('s.place 0 ≡ Ending k) × (k ≤', 's.place 0 ≡ Ending k) × (k <'),
    ('Threads', 'Returns'): ('s.place 0 ≡ Ending (suc members)', 's.place 0 ≡ Ending members'),
}
# By model and what it says of the start or of a move's effect: a piece of the model, another piece with which the model
# says something else, and what some run then breaks.
DIFFERENT = {
    ('Team', 'IsStart'): ('pub step : s.step ≡ 0', 'pub step : s.step ≡ 1', 'IsStart'),
    ('Team', 'wakes'): ('updated s.woken j (suc (s.woken j))', 'updated s.woken j (s.woken j)', 'Wakes'),
    ('Team', 'enters'): ('updated s.entered j (suc (s.entered j))', 'updated s.entered j (s.entered j)', 'Claims'),
    ('Team', 'claims'): ('updated s.state i (2 * n + 1)', 'updated s.state i (2 * n + 3)', 'after'),
    ('Team', 'ends'): ('updated s.state i (2 * n + 2)', 'updated s.state i (2 * n + 4)', 'Claims'),
    ('Team', 'code'): ('code = updated s.code i code', 'code = updated s.code i (suc code)', 'Advances'),
    ('Team', 'advances'): ('step = suc s.step', 'step = s.step', 'after'),
    ('Team', 'stops'): ('is_over = true', 'is_over = false', 'after'),
    ('Threads', 'IsStart'): ('pub caller : s.place 0 ≡ Waking 1', 'pub caller : s.place 0 ≡ Waking 2', 'IsStart'),
    ('Threads', 'team'): ('pub team : IsTeamStart w s.team', 'pub team : s.team.step ≡ 1', 'IsStart'),
    ('Threads', 'claims'): ('s j) part; owner', 's j) (suc part); owner', 'Claims'),
}


class Exploration(NamedTuple):
    """What the program over a source is called with, until a run goes wrong. A piece of a text may be replaced."""
    source: str
    cases: tuple
    text: str = ''
    piece: str = ''
    planted: str = ''


def with_fault(piece, planted):
    """Returns the exploration of a planted fault. The cases with the fewest runs come first."""
    source = next((name for name, text in SOURCES.items() if piece in text), 'driver')
    return Exploration(source, tuple(sorted(RUNS[source], key=RUNS[source].get)), source, piece, planted)


SOUND = [pytest.param(Exploration(source, (case,)), id=f'{source}-{case}')
         for source, runs in RUNS.items() for case in sorted(runs, key=runs.get, reverse=True)]
FAULTY = [pytest.param(name, with_fault(*pieces), id=name) for name, pieces in FAULTS.items()]
NARROWED = [pytest.param(move, Exploration('driver', ((2, 2, 1, 2),), model, *pieces), id=f'{model}-{move}')
            for (model, move), pieces in NARROWER.items()]
CHANGED = [pytest.param(broken, Exploration('driver', ((2, 2, 1, 2),), model, piece, other), id=f'{model}-{name}')
           for (model, name), (piece, other, broken) in DIFFERENT.items()]


def compiled(name, text, folder):
    """Compiles an object in a folder, with this text of its source or model. Returns its path."""
    source, made, flags = HERE / f'{FOLLOWS.get(name, name)}.c', folder / f'{name}.o', (SANITIZED, '-I', folder)
    if name in SOURCES:
        source, flags = folder / f'{name}.c', WATCHED
        source.write_text(text, encoding='utf-8')
    elif name in MODELS:
        (folder / f'{name.lower()}_moves.h').write_text(moves.moves(text, MODELS['Team']), encoding='utf-8')
    subprocess.run([*COMPILER, *flags, '-c', source, '-o', made], check=True)
    return made


def linked(source, objects, folder):
    """Links the program that explores a source, and returns its path."""
    wrapped = [f'-Wl,--wrap={name}' for name in ('calloc', 'free') if source == 'driver']
    made, own = folder / f'explore_{source}', [objects[name] for name in OBJECTS[source]]
    subprocess.run([*COMPILER, SANITIZED, *own, *wrapped, '-o', made], check=True)
    return made


def said_by(program, cases):
    """Runs the cases up to the first that goes wrong. Returns the status of the last, and what is said of it."""
    for case in cases:
        done = subprocess.run([program, *map(str, case)], capture_output=True, text=True, check=False)
        if done.returncode != 0:
            break
    return done.returncode, done.stdout.strip() or done.stderr.strip()[-2000:]


@pytest.fixture(scope='module')
def said(request, tmp_path_factory):
    """Returns a function that waits for an exploration, and returns its status and what is said of it."""
    sound, names = tmp_path_factory.mktemp('sound'), sorted({name for own in OBJECTS.values() for name in own})
    with ThreadPoolExecutor() as pool:
        objects = dict(zip(names, pool.map(lambda name: compiled(name, TEXTS.get(name), sound), names)))
    programs = {source: linked(source, objects, sound) for source in SOURCES}

    def explore(exploration):
        source, cases, name, piece, planted = exploration
        if not name:
            return said_by(programs[source], cases)
        folder = tmp_path_factory.mktemp('planted')
        changed = compiled(name, TEXTS[name].replace(piece, planted), folder)
        return said_by(linked(source, {**objects, name: changed}, folder), cases)
    yield from ahead(request, 'exploration', explore)


@pytest.mark.parametrize('exploration', SOUND)
def test_nothing_goes_wrong(said, exploration):
    status, text = said(exploration)
    assert (status, text.splitlines()[-1]) == (0, f'{RUNS[exploration.source][exploration.cases[0]]} runs')


def test_each_move_of_the_models_is_made(said):
    made = [line.split() for line in said(Exploration('driver', ((2, 2, 1, 2),)))[1].splitlines()[:-1]]
    assert [(model, move) for model, move, count in made if count != '0'] == list(NARROWER)


@pytest.mark.parametrize(('name', 'exploration'), FAULTY)
def test_each_fault_is_found(said, name, exploration):
    assert sorted(text.count(exploration.piece) for text in SOURCES.values()) == [0, 1], 'it cannot be planted'
    status, text = said(exploration)
    assert status != 0, 'no run finds it'
    violated, is_named, _ = name.partition(': ')
    assert not is_named or text.startswith(f'violated: {violated};'), text


@pytest.mark.parametrize(('move', 'exploration'), NARROWED)
def test_a_narrower_model_is_noticed(said, move, exploration):
    """The conditions of moves are read from the model. If one allows a move less often, some run breaks it."""
    assert MODELS[exploration.text].count(exploration.piece) == 1, 'it cannot be narrowed'
    _, text = said(exploration)
    assert text.startswith(f'violated: {move};'), text


@pytest.mark.parametrize(('broken', 'exploration'), CHANGED)
def test_another_start_or_effect_is_noticed(said, broken, exploration):
    """The start, and what a move changes, are read from the model too."""
    assert MODELS[exploration.text].count(exploration.piece) == 1, 'it cannot be changed'
    _, text = said(exploration)
    assert text.startswith(f'violated: {broken};'), text


def moves_of(model):
    """Returns the names of the moves of a model, by its definition."""
    data = re.search(r'^pub data Move .*\n((?: .*\n)+)', MODELS[model], re.MULTILINE)[1]
    return re.findall(r'^ +([A-Z]\w*) :', data, re.MULTILINE)


def test_the_driver_names_each_move_of_the_models():
    named = re.findall(r'\bMoves: ([A-Z]\w+(?:, [A-Z]\w+)*)\. \*/', SOURCES['driver'])
    assert sorted(', '.join(named).split(', ')) == sorted({move for model in MODELS for move in moves_of(model)})


@pytest.mark.parametrize('model', MODELS)
def test_each_move_is_made_by_a_function(model):
    found = re.findall(r'void make_(\w+)\(', moves.moves(MODELS[model], MODELS['Team']))
    assert found == moves_of(model) == [move for of, move in NARROWER if of == model]
