"""Writes facts that several files repeat to the places of presets.txt, or checks that these have them, and names all
stale places at once. It writes version (VERSION) and publisher (PROJECT) to all files. Once PROJECT has no placeholder
any more, it removes what holds only until somebody publishes."""

import re
import sys
import textwrap

from common import TOP, fill, lines, read, require, run, write
from parts import CLOSES, OPENS
from machines import flags_of_builds, machines

TABLE, ERRORS = TOP / '.ci/pages/presets.txt', TOP / 'crates/argon2_c/errors.txt'
PRESET = re.compile(r"/// (?P<what>.*?): Argon2.*\n(?: +///.*\n)* +pub fn (?P<name>\w+)\(\) -> Config<'a>\n"
                    r' +ensures \{ IsPreset (?P<variant>\w+) (?P<m>\d+) (?P<t>\d+) result \}')
NUMBERS = 'one two three four five six seven eight nine ten'
# What holds only until somebody publishes: whole lines between two comments, words between two comments of a page, and
# npm's mark that a package is not uploaded, since JSON has no comments.
BLOCK = rf'{OPENS}until published{CLOSES}\n(?:.*\n)*?{OPENS}end{CLOSES}\n'
UNPUBLISHED = re.compile(rf'(?<=\n\n){BLOCK}\n|^{BLOCK}|<!-- until published -->(?:.|\n)*?<!-- end -->|'
                         r'^ *"private": true,\n', re.M)
# Files where an older version or publisher may stand, and definitions, where such a number means something else.
BY_HAND = ':!.ci', ':!release', ':!crates', ':!CHANGELOG.md', ':!debian/changelog', ':!debian/*.symbols'


def size_of(kib):
    """Memory as people write it."""
    mib = int(kib) // 1024
    return f'{mib // 1024} GiB' if mib % 1024 == 0 else f'{mib} MiB'


def presets():
    text = read('crates/argon2_standard/src/config.rt')
    found = [preset.groupdict() for preset in PRESET.finditer(text)]
    require(len(found) == len(re.findall(r'pub fn \w+\(\)', text)), 'a preset of config.rt has another form')
    return [{**preset, 'size': size_of(preset['m']), 'passes': 'pass' if preset['t'] == '1' else 'passes'}
            for preset in found]


def default_limits():
    """<q> is the most passes with all memory, <k> the most memory with all passes. Capital letters mean one more."""
    text = read('crates/argon2/src/limits.rt').partition('fn default() -> Limits')[2].replace('_', '')
    m, t, p, w = map(int, re.findall(r': (\d+),', text)[:4])
    most = {'m': m, 't': t, 'p': p, 'w': w, 'q': min(t, w // m), 'k': min(m, w // t)}
    more = {mark.upper(): number + 1 for mark, number in most.items()}
    return {**most, **more, 'size': size_of(m), 'work': size_of(w)}


def constant(file, form):
    """Returns the number that stands in a file at the place of `#` in a text."""
    return int(re.search(re.escape(form).replace(r'\#', r'(\d+)'), read(file))[1])


def kept_buffers():
    """<n> is how many buffers a handle has at most. One that is idle for <s> seconds, in words <idle>, is freed."""
    n = constant('bindings/c/include/proved_argon2_service.h', 'MAX_BUFFERS #')
    s = constant('bindings/c/src/proved_argon2_buffers.c', 'LONGEST_IDLE (# * 1000 * MILLISECOND)')
    return {'n': n, 'most': f'{n:,}', 's': s, 'idle': dict(enumerate(NUMBERS.split(), 1)).get(s, s)}


def driver_sizes():
    """Sizes of the driver for POSIX. In MiB: a <huge> page, how much <more> memory a hash takes than it asks for, the
    <work> for which threads start, and the largest <part> of a slice that another thread takes over. In KiB: the
    <stack> of a thread of the library, and of its <callers>, and a <rest> behind the last huge page that gets a whole
    one. Memory that is <far> MiB or more is overwritten by blocks, and prefetched <ahead> KiB. A <line> is in bytes."""
    posix, driver = 'bindings/c/src/platform_posix.c', 'bindings/c/src/proved_argon2_driver.c'
    huge = constant('bindings/c/src/platform.h', 'HUGE_PAGE ((size_t)# << 20)')
    rest = constant(posix, 'LONG_REST ((size_t)# << 10)')
    return {'huge': huge, 'more': f'{huge - rest / 1024:g}',
            'work': huge * constant(driver, 'WORK_FOR_THREADS (# * HUGE_PAGE)'),
            'part': constant(driver, 'SHORT_PART # ') // 1024, 'stack': 2 * constant(posix, 'STACK (# * 1024)'),
            'callers': constant('bindings/c/include/proved_argon2.h', 'STACK_SIZE #') // 1024,
            'line': constant(posix, 'LINE #'), 'rest': rest, 'far': constant(driver, 'FAR ((size_t)# << 20)'),
            'ahead': constant(driver, 'AHEAD #') // 1024}


def queues():
    """<times> as many calls wait as compute. Node's addon keeps the memory of hashes of up to the size <kept>, and at
    most so many <idle> threads."""
    addon = 'bindings/javascript/addon/addon.c'
    return {'times': constant('bindings/javascript/src/line.js', 'WAITING_FOR_EACH = #'),
            'kept': size_of(constant(addon, 'KEPT_KIB #')), 'idle': constant(addon, 'MOST_IDLE #')}


def read_by_commands():
    """A command reads passwords of at most <n> bytes, and so <more> bytes."""
    more = constant('bindings/shell/words.c', 'is_limited ? # :')
    return {'n': more - 1, 'more': more}


def errors(first, end):
    for n, name, message, words in (line.split(' | ', 3) for line in lines(ERRORS)):
        if first <= int(n) < end:
            upper = re.sub(r'\B(?=[A-Z])', '_', name).upper()
            yield {'n': n, 'Name': name, 'NAME': upper, 'entry': f'{upper} = {n},', 'message': message, 'words': words}


def builds(machine):
    flags = flags_of_builds()
    for build in machine.builds:
        word, opens = build.replace('-', '_'), 'WITH_KERNEL(' * (build not in machine.proved)
        yield {'name': build, 'word': word, 'WORD': word.upper(), 'open': opens, 'close': ')' * bool(opens),
               'flags': ', '.join(flags[build]), 'FLAGS': ', '.join(flags[build]).upper()}


def facts():
    """Returns the items of each list of presets.txt: what their placeholders mean."""
    (original, *others), project = presets(), dict(re.findall(r'^(\w+): (.+)$', read('PROJECT'), re.M))
    names = textwrap.fill(', '.join(sorted(f'proved_argon2_{preset["name"]}' for preset in others)), 95)
    workers = constant('crates/argon2/src/stored.rt', 'MAX_WORKERS: u32 = #;')
    x86, arm = ([*builds(machines()[name])] for name in ('x86_64', 'aarch64'))
    return {
        'original': [original], 'presets': others, 'exports': [{'names': names.replace('\n', '\n    ')}],
        'errors': errors(0, 64), 'errors of C': errors(64, 128), 'errors of the driver': errors(128, 256),
        'limits': [default_limits()], 'kept buffers': [kept_buffers()], 'threads': [{'n': workers}],
        'driver': [driver_sizes()], 'commands': [read_by_commands()], 'queues': [queues()],
        'builds': x86, 'builds for ARM64': arm,
        'project': [{**project, 'version': read('VERSION').strip()}],
    }


def put_in(values, form):
    """Returns a form with values in place of its placeholders: `<n>`, or `<n:9>`, which takes at least 9 columns."""
    return re.sub(r'<(\w+):?(\d*)>', lambda mark: str(values[mark[1]]).ljust(int(mark[2] or 0)), form)


def words_of(text):
    """Returns the words of a text between blanks, in small letters, without the signs around and in them."""
    return f' {" ".join(re.findall("[a-z0-9]+", text.lower().replace("_", "")))} '


def missing(file, items, mark, form):
    """Writes items to the part of a file that has a mark. Without one, it returns the items that the file lacks."""
    head, form, between = form.split('<each>') if '<each>' in form else ('', form, '\n')
    texts = [put_in(item, form) for item in items]
    if mark == '-':
        known = words_of(read(file))
        return [text for text in texts if words_of(text) not in known]
    fill(file, mark, [head + between.join(texts)], 'presets')
    return []


def change_all(word, change):
    """Changes the text of each file that has a word."""
    for file in run('git', 'grep', '--untracked', '-lIF', '-e', word, '--', *BY_HAND).stdout.splitlines():
        write(file, change(read(file)))


def remove_unpublished():
    """Removes what holds only until somebody publishes."""
    for word in 'until published', '"private": true':
        change_all(word, lambda text: UNPUBLISHED.sub('', text))


def write_project(project):
    """Replaces version and publisher in all files. A header, debian/control and pom.xml have those of the last time."""
    version, = re.findall('LIBRARY_VERSION "(.*)"', read('bindings/c/include/proved_argon2.h'))
    control, = re.findall(r'^Maintainer: (.*) <(.*)>\nHomepage: (.*)$', read('debian/control'), re.M)
    group, = re.findall('<groupId>(.*)</groupId>', read('bindings/java/pom.xml'))
    current = [project[name] for name in ('version', 'Publisher', 'Contact', 'Address', 'Group')]
    for old, new in zip([version, *control, group], current):
        old, new = (text.removeprefix('https://') for text in (old, new))
        if old != new:
            change_all(old, lambda text, old=old, new=new: re.sub(
                rf'(?<!\d){re.escape(old)}(?!\d)', lambda _: new, text))
    if not re.search(r'\.example(/|$)|^example\.', '\n'.join(current), re.M):
        remove_unpublished()


def write_all():
    """Writes all places that can be written, and then exits if others are stale."""
    known = {name: [*items] for name, items in facts().items()}
    write_project(*known['project'])
    places = [line.replace('\\n', '\n').split(' | ', 3) for line in lines(TABLE)]
    stale = [f'{file} lacks: {text}' for where, what, mark, form in places for file in where.split()
             for text in missing(file, [item for name in what.split(', ') for item in known[name]], mark, form)]
    if stale:
        sys.exit('\n'.join(stale))
