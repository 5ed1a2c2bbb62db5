"""What the C code between the proved calls and the caller does, for all inputs, in a linked library: statements about
each path of its functions (symbolic.py), which Z3 proves. Three levels follow one another, and each takes the functions
of the level below as outside ones, for which it assumes only what was shown of them.

1. A call that a program sees (proved_argon2_table.c) makes that call in one build, with its arguments.
2. The driver (proved_driver_compute_kept) returns what a proved call returned for its job, hash and tag.
3. The calls that hash or verify return what the driver returned, for a job that a proved call made of their arguments.

The system's functions may return anything. So may `fill`, in which threads fill the blocks and the progress callback is
called, `overwrite_blocks`, and the two functions that take and free kept buffers. To which objects these four may write
is found in their code (regions.py): the second level has to show that these are the blocks, or the kept buffers."""

import re

import z3
from driver import Driver
from ends import (DRIVER, HASH_LENGTH, IMPORTS, JOB, KNOWN, PROVED, RUNS, SETTINGS, SYSTEM, End, any_of, code, low,
                  succeeded)
from headers import BITS, CODES, HALF, NUMBERS, PLACES, SIZES, WORD, prototypes
from linked import CHOSEN_BUILDS
from machines import machines
from shared import TOP
from symbolic import Engine, bits, is_zero, number
from terms import Fault

OPTIONS, LIMIT_OF_WORK = SIZES['proved_argon2_options'], PLACES['proved_argon2_limits']['work']
LIMITS, NEW_SETTINGS, NEW_SALT_LEN = (
    PLACES['proved_argon2_options'][name] for name in ('limits', 'new_settings', 'new_salt_len'))
LONGER = 1  # bytes by which options may be longer than this version's
TABLE = [*re.findall(r'^(?:CALL|COMPUTES|LENGTH|PRESET)\((\w+)', (TOP / 'bindings/c/src/proved_calls.h').read_text(
    encoding='utf-8'), re.M), 'default_limits']
CHOICE = prototypes('int proved_driver_choose_build(void);')
STORED = 'text', 'text_len', 'pwd', 'pwd_len', 'secret', 'secret_len', 'ad', 'ad_len'
INPUTS = 'pwd', 'pwd_len', 'salt', 'salt_len', 'secret', 'secret_len', 'ad', 'ad_len'


def equal(one, other):
    """Whether contents are the same, which may have other lengths."""
    return one == other if one.size() == other.size() else z3.BoolVal(False)


# ---- level 1

def faults_of_table(machine, name, builds):
    """What is wrong with a call of the table: it has to make that call in a build, or return an error."""
    kind, parameters = PROVED[name]
    errors = [CODES[error] for error in ('NULL_POINTER', 'MISALIGNED', 'OLD_PROCESSOR')] if kind == 'uint32_t' else [0]
    faults, made = [], set()
    for path, given in machine.paths(name):
        end = End(machine, path, given)
        calls = [call for call in path.calls(*machine.outside) if call.name in builds]
        made |= {builds[call.name] for call in calls}
        end.faults += ['it makes several calls'] * (len(calls) > 1)
        if kind in SIZES:
            end.faults += ['it returns another structure'] * any(not call.hidden.eq(given['hidden']) for call in calls)
        elif calls:
            end.claim(returned(end.word, kind) == returned(calls[0].result, kind),
                      'it returns something other than the proved call')
        else:
            end.claim(any_of(errors, returned(end.word, kind)), 'it returns something without a proved call')
        if calls:
            end.claim(z3.And(*(passed_on(parameter, calls[0], given) for parameter in parameters)),
                      'it passes other arguments on')
        may_write = kind in SIZES and not calls
        end.faults += ['it writes'] * (not may_write and any(write.by == 'code' for write in path.writes()))
        faults += end.faults
    if made != {*builds.values()}:
        faults.append(f'it makes the call in {sorted(made)} only')
    return faults


def returned(word, kind):
    """What a register returns of a type."""
    return low(word) if kind == 'uint32_t' else word


def passed_on(parameter, call, given):
    """A pointer to no bytes may be replaced."""
    one, other = call.arguments[parameter.name], given[parameter.name]
    length = given.get(f'{parameter.name}_len')
    is_same = bits(one, 0, parameter.width) == bits(other, 0, parameter.width)
    return is_same if length is None else z3.Or(is_same, is_zero(length))


# ---- level 3

def verify_encoded(end):
    checked, read, computed = end.last('check_encoded'), end.last('job_read'), end.last(*DRIVER)
    is_good = z3.Or(end.result == code('OK'), end.result == code('NEEDS_REHASH'))
    limits, wanted = (end.at_first(end.given['options'] + at, WORD) for at in (LIMITS, NEW_SETTINGS))
    end.only_if(is_good, [
        ((computed,), succeeded, 'it accepts what was not verified'),
        ((read,), lambda read: z3.And(succeeded(read), end.passes(read, STORED)), 'it reads another encoded hash'),
        ((read, computed), lambda read, computed: z3.And(
            computed.passed['job'] == read.left['job'], computed.hash == read.hash), 'it verifies another job or hash'),
        ((read, computed), lambda read, computed: computed.tag == computed.hash + length_in(computed),
         'it overwrites the hash with the tag'),
        ((checked,), lambda checked: z3.And(succeeded(checked), end.passes(
            checked, ('text', 'text_len', 'pwd_len', 'secret_len', 'ad_len')),
            z3.Implies(limits != 0, checked.limits == limits)), 'it skips the limits')])
    if checked:
        order = [end.path.events.index(call) for call in (checked, computed) if call]
        end.faults += ['it checks the limits too late'] * (order != sorted(order))
        end.claim(z3.Implies(limits == 0, is_unlimited(end, checked, limits == 0)), 'it has other limits than none')
        stored, new = checked.left['stored'], end.at_first(wanted, SETTINGS)
        salt = end.at_first(end.given['options'] + NEW_SALT_LEN, WORD)
        is_due = z3.And(wanted != 0, z3.Or(
            bits(stored, 0, 8 * SETTINGS) != new,
            z3.And(salt != 0, z3.ZeroExt(HALF, bits(stored, 8 * SETTINGS, HALF)) != salt)))
        is_said = end.result == code('NEEDS_REHASH')
        end.claim(z3.Implies(is_good, is_said == is_due), 'it confuses OK and NEEDS_REHASH')
    if read and computed and end.touched(read.hash, length_in(computed), read, computed):
        end.faults.append('it changes the hash that it read')
    end.judge_errors(is_good, checked, read, computed)
    end.judge_outputs()


def length_in(computed):
    """The length of a tag, by the job that is passed to the driver."""
    return z3.ZeroExt(HALF, bits(computed.passed['job'], 8 * HASH_LENGTH, HALF))


def is_unlimited(end, checked, condition):
    """Whether the limits without options are the highest."""
    with end.machine.assumed([condition]):
        if end.machine.solver.check() == z3.unsat:
            return z3.BoolVal(True)
        place = end.machine.solver.model().eval(checked.limits, model_completion=True)
    content = end.machine.load(end.path, place, SIZES['proved_argon2_limits'])
    highest = z3.And(bits(content, 0, 96) == (1 << 96) - 1, bits(content, 8 * LIMIT_OF_WORK, BITS) == (1 << BITS) - 1)
    return z3.And(checked.limits == place, highest)


def verify_raw(end):
    made, computed = end.last('job_make'), end.last(*DRIVER)
    is_good = end.result == code('OK')
    settings = end.at_first(end.given['settings'], SETTINGS)
    length = end.given['hash_len']
    end.only_if(is_good, [
        ((computed,), succeeded, 'it accepts what was not verified'),
        ((made,), lambda made: z3.And(succeeded(made), end.passes(made, INPUTS)), 'it makes a job of other inputs'),
        ((made,), lambda made: z3.And(
            z3.ULE(length, (1 << HALF) - 1), made.passed['settings'] == z3.Concat(
                low(length), bits(settings, 0, 8 * SETTINGS - HALF))), 'it makes a job of other settings'),
        ((made, computed), lambda made, computed: z3.And(
            computed.passed['job'] == made.left['job'], computed.hash == end.given['hash'], computed.hash != 0),
         'it verifies another job or hash')])
    end.judge_errors(is_good, made, computed)
    end.judge_outputs()


def makes_job(end, made, computed):
    """The claims of a call that hashes."""
    return [((computed,), succeeded, 'it returns a tag that was not computed'),
            ((made,), lambda made: z3.And(
                succeeded(made), end.passes(made, INPUTS), made.passed['settings'] == end.at_first(
                    end.given['settings'], SETTINGS)), 'it makes a job of other inputs'),
            ((made, computed), lambda made, computed: z3.And(
                computed.passed['job'] == made.left['job'], computed.hash == 0), 'it computes another job')]


def hash_raw(end):
    made, computed = end.last('job_make'), end.last(*DRIVER)
    is_good = end.result == code('OK')
    end.only_if(is_good, [*makes_job(end, made, computed), ((computed,), lambda computed: z3.And(
        computed.tag == end.given['out'], end.given['out_len'] == z3.ZeroExt(HALF, bits(end.at_first(
            end.given['settings'], SETTINGS), 8 * SETTINGS - HALF, HALF))), 'it writes the tag elsewhere')])
    end.faults += ['it writes an output itself'] * any(write.by not in DRIVER for write in end.writes_to('out'))
    end.judge_errors(is_good, made, computed, end.last('check'))
    end.judge_outputs('out')


def hash_encoded(end):
    made, computed, encoded = end.last('job_make'), end.last(*DRIVER), end.last('encode')
    is_good = end.result == code('OK')
    end.only_if(is_good, [*makes_job(end, made, computed), ((encoded, computed), lambda encoded, computed: z3.And(
        succeeded(encoded), end.passes(encoded, ('salt', 'salt_len', 'settings', 'text', 'text_len')),
        encoded.tag == computed.tag, encoded.tag_len == length_in(computed)), 'it encodes something else')])
    if encoded and computed and end.touched(computed.tag, length_in(computed), computed, encoded):
        end.faults.append('it changes the tag that it encodes')
    if end.writes_to('text'):
        end.claim(succeeded(computed) if computed else z3.BoolVal(False), 'it writes an output before it has the tag')
        end.faults += ['it writes an output itself'] * (end.writes_to('text')[-1].by != 'proved_argon2_encode')
    end.judge_errors(is_good, made, computed, encoded, end.last('check'))
    end.judge_outputs('text')


def run_job(end):
    checked, computed = end.last('job_check'), end.last(*DRIVER)
    is_good, is_verified = end.result == code('OK'), 'hash' in end.given
    job = end.at_first(end.given['job'], JOB)
    length = end.given['hash_len' if is_verified else 'tag_len']
    end.only_if(is_good, [
        ((computed,), succeeded, 'it accepts what was not verified'),
        ((checked, computed), lambda checked, computed: z3.And(
            succeeded(checked), checked.passed['job'] == job, computed.passed['job'] == job), 'it runs another job'),
        ((computed,), lambda computed: z3.And(
            length == length_in(computed), computed.hash == end.given.get('hash', number(0)),
            *([] if is_verified else [computed.tag == end.given['tag']])), 'it uses another hash or tag')])
    end.judge_errors(is_good, checked, computed)
    end.faults += ['it writes an output itself'] * any(write.by not in DRIVER for write in end.writes_to('tag'))
    end.judge_outputs('tag')


def verify_unknown(end):
    end.claim(z3.And(end.result != code('OK'), end.result != code('NEEDS_REHASH')), 'it accepts an unknown user')
    computed = end.last(*DRIVER)
    end.may_succeed = computed is not None and not end.machine.proves(z3.Not(succeeded(computed)))
    end.judge_outputs()


def hash_password(end):
    drawn, hashed = end.last('getrandom'), end.last('hash_encoded_with')
    is_good = end.result == code('OK')
    given = end.given
    end.only_if(is_good, [
        ((hashed,), lambda hashed: z3.And(succeeded(hashed), end.passes(
            hashed, ('options', 'settings', 'text'), pwd=given['password'], pwd_len=given['length'],
            secret=given['pepper'], secret_len=given['pepper_len'], ad_len=0, text_len=NUMBERS['TEXT_SIZE'],
            salt_len=NUMBERS['SALT_SIZE'])), 'it hashes something else'),
        ((drawn, hashed), lambda drawn, hashed: z3.And(
            drawn.result == NUMBERS['SALT_SIZE'], drawn.bytes_len == NUMBERS['SALT_SIZE'], drawn.flags == 0,
            equal(drawn.left['bytes'], hashed.passed['salt'])), 'its salt is not random')])
    end.claim(z3.Or(is_good, end.result == code('NULL_POINTER'), end.result == code('NO_RANDOM_BYTES'),
                    *([end.result == low(hashed.result)] if hashed else [])),
              'it returns an error that no call returned')
    end.judge_outputs('text')


def renew(end):
    """A login: OK and NEEDS_REHASH need a verified password, and NEEDS_REHASH also a new hash with a new salt."""
    given, verified = end.given, end.last('verify_encoded_with')
    drawn, hashed = end.last('getrandom'), end.last('hash_encoded_with')
    own, is_old = {'pwd': given['password'], 'pwd_len': given['length']}, given['new_pepper_len'] != 0
    secret, secret_len = (z3.If(is_old, given[f'new_{name}'], given[name]) for name in ('pepper', 'pepper_len'))
    is_renewed = end.result == code('NEEDS_REHASH')
    is_good = z3.Or(end.result == code('OK'), is_renewed)
    end.only_if(is_renewed, [
        ((hashed,), lambda hashed: z3.And(succeeded(hashed), end.passes(
            hashed, ('options', 'ad', 'ad_len'), **own, secret=secret, secret_len=secret_len,
            settings=end.at_first(given['options'] + NEW_SETTINGS, WORD), text=given['new_text'],
            text_len=given['new_text_len'])), 'it hashes something else'),
        ((drawn, hashed), lambda drawn, hashed: z3.And(
            drawn.flags == 0, drawn.result == drawn.bytes_len, drawn.bytes == hashed.salt,
            drawn.bytes_len == hashed.salt_len, hashed.salt_len != 0), 'its salt is not random')])
    end.only_if(is_good, [((verified,), lambda verified: z3.And(
        z3.Or(succeeded(verified), low(verified.result) == code('NEEDS_REHASH')), end.passes(
            verified, ('options', 'text', 'text_len', 'ad', 'ad_len'), **own, secret=given['pepper'],
            secret_len=given['pepper_len'])), 'it accepts what was not verified')])
    if verified:
        is_due = z3.Or(low(verified.result) == code('NEEDS_REHASH'), z3.And(succeeded(verified), is_old))
        end.claim(z3.Implies(is_renewed, is_due), 'it renews a hash that is not outdated')
    if hashed:
        end.claim(z3.Implies(is_good, is_renewed == succeeded(hashed)), 'it confuses OK and NEEDS_REHASH')
    if drawn and hashed:
        end.faults += ['it changes the salt'] * end.touched(hashed.salt, hashed.salt_len, drawn, hashed)
    end.judge_errors(is_good, verified)
    end.faults += ['it writes an output itself'] * any(
        write.by != 'proved_argon2_hash_encoded_with' for write in end.writes_to('new_text'))
    end.judge_outputs('new_text')


def is_passed_on(end, inner, names, **others):
    """A call that returns what another one returns."""
    called = end.last(inner)
    if called is None:
        raise Fault(f'it does not call proved_argon2_{inner}, which clang inlines without -fsemantic-interposition')
    end.claim(end.result == low(called.result), 'it returns something else')
    end.may_succeed = True
    end.claim(end.passes(called, names, **others), 'it passes other arguments on')
    end.judge_outputs(*(name for name in ('out', 'text') if inner.startswith(('hash', 'password_hash'))))
    return called


def verify_password(end):
    given, length = end.given, end.last('strlen')
    is_there = z3.And(length.text == given['text'], given['text'] != 0) if length else given['text'] == 0
    end.claim(is_there, 'it measures another string')
    called = is_passed_on(
        end, 'verify_encoded_with', ('text',), pwd=given['password'], pwd_len=given['length'], secret=given['pepper'],
        secret_len=given['pepper_len'], ad_len=0, text_len=length.result if length else 0)
    end.claim(called.options == (given['options'] if length else 0), 'it passes other options on')


def has_options(end, called, is_needed=True, **fields):
    """The options that a call is passed have only these fields beside their size, if they are needed."""
    words = [fields.get(str(at), number(0)) for at in range(WORD, OPTIONS, WORD)]
    wanted = z3.Concat(*reversed(words), number(OPTIONS))
    end.claim(z3.Implies(is_needed, called.passed['options'] == wanted), 'it passes other options on')


def without_options(end, inner):
    called = is_passed_on(end, inner, [name for name in end.given])
    has_options(end, called)


def verify_encoded_within(end):
    called, limits = is_passed_on(end, 'verify_encoded_with', STORED), end.given['limits']
    end.claim((called.options == 0) == (limits == 0), 'it confuses limits and none')
    has_options(end, called, limits != 0, **{str(LIMITS): limits})


def verify_password_plainly(end):
    called, limits = is_passed_on(end, 'password_verify_with', ('text', 'password', 'length'), pepper_len=0), \
        end.last('default_limits')
    has_options(end, called, **{str(LIMITS): called.limits_address})
    end.claim(called.passed['limits'] == limits.left['result'] if limits else z3.BoolVal(False), 'it has other limits')


def hash_password_plainly(end):
    called = is_passed_on(end, 'password_hash_with', ('text', 'password', 'length'), pepper_len=0)
    settings = end.last('owasp2')
    has_options(end, called)
    end.claim(called.passed['settings'] == settings.left['result'] if settings else z3.BoolVal(False),
              'it has other settings')


STATEMENTS = {
    'verify_encoded_with': verify_encoded, 'verify_raw_with': verify_raw, 'hash_raw_with': hash_raw,
    'hash_encoded_with': hash_encoded, 'job_run': run_job, 'job_run_verify': run_job,
    'password_verify_unknown': verify_unknown, 'password_hash_with': hash_password,
    'password_verify_with': verify_password, 'verify_encoded_within': verify_encoded_within,
    'password_renew': renew, 'password_verify': verify_password_plainly, 'password_hash': hash_password_plainly,
    **{name: lambda end, inner=f'{name}_with': without_options(end, inner)
       for name in ('verify_encoded', 'verify_raw', 'hash_raw', 'hash_encoded')}}


def see_limits(machine, path, call):
    """Keeps the limits that options name."""
    call.arguments['limits_address'] = bits(call.passed['options'], 8 * LIMITS, BITS)
    call.passed['limits'] = machine.load(path, call.limits_address, SIZES['proved_argon2_limits'])


def bounded(machine, path, given):
    """What is assumed: options are at most a little longer than this version's."""
    return [z3.ULE(machine.load(path, given['options'], WORD), OPTIONS + LONGER)] if 'options' in given else []


def builds_of(code):
    """The calls of each build, as the library names them, with their builds."""
    machine, = (machine for machine in machines().values() if machine.number == code.number)
    return {f'proved_{build.replace("-", "_")}_{name}': build for build in CHOSEN_BUILDS or machine.builds
            for name in TABLE}


def table_faults(code, name):
    """What is wrong with a call of the table."""
    builds, called = builds_of(code), f'proved_argon2_{name}'
    outside = {inner: PROVED[called] for inner in builds if inner.endswith(f'_{name}')}
    machine = Engine(RUNS[code.number], code, {**outside, **CHOICE, called: PROVED[called]})
    return faults_of_table(machine, called, builds)


def call_faults(code, driver, name):
    """What is wrong with a call that hashes or verifies."""
    effects = {**KNOWN, **dict.fromkeys(DRIVER, driver.effect), 'proved_argon2_password_verify_with': see_limits}
    machine, faults, may_succeed = Engine(
        RUNS[code.number], code, {**PROVED, **SYSTEM, **DRIVER}, effects, IMPORTS), [], False
    for path, given in machine.paths(f'proved_argon2_{name}', lambda *what: bounded(machine, *what)):
        end = End(machine, path, given)
        STATEMENTS[name](end)
        end.judge_options(driver.used)
        faults += end.faults
        may_succeed |= end.may_succeed
    return faults + ['it never succeeds'] * (not may_succeed)


def faults_of_verdicts(code, names=(*TABLE, 'compute', *STATEMENTS), driver=None):
    """Returns the faults of these calls in a linked library. The name `compute` stands for the driver's inner function.
    What is known of the driver may be passed."""
    faults = []
    for name in names:
        try:
            if driver is None and name not in TABLE:
                driver = Driver(code)
            found = table_faults(code, name) if name in TABLE else driver.faults if name == 'compute' else \
                call_faults(code, driver, name)
        except Fault as fault:
            found = [fault]
        faults += [f'{name}: {fault}' for fault in found]
    return sorted({*faults})
