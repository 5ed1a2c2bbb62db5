"""The way of a verdict and of a hash through the C code, in the shared library for Linux, for all inputs (verdict.py).
The other binaries have to have the same code (same_code.py). The tests also plant faults in the C code, one at a time,
and link it: each has to be found by name."""

import functools
import itertools
import operator
import subprocess
from pathlib import Path
from types import SimpleNamespace

import pytest
import z3
from linked import ARM64, CHOSEN, X86, Code
from machines import machines
from shared import TOP, ready
from same_code import Places, Same
from symbolic import Engine
from terms import BITS, MASK, Fault
from verdict import RUNS, Driver, faults_of_verdicts

MACHINES, SOURCES = ('x86_64', 'aarch64'), TOP / 'bindings/c/src'
SHARED, ARCHIVE = 'libproved_argon2.so.1.0.0', 'libproved_argon2.a'
# What the archive is linked into, beside the shared library: libargon2's replacement, Node's addon and the command.
OTHERS = 'libargon2.so.1', 'proved_argon2.node', 'argon2_tool'
# Functions of the library that the command does not call, so that they are not linked into it.
LACKED = {'argon2_tool': {'proved_argon2_limits_for', 'proved_argon2_hashes_at_once'}}
CHANGED = 'proved_argon2_verify_encoded_with', 'fill', 'proved_driver_compute_kept'  # (in one of these files)
ON_ARM64 = 6  # (each so many faults is also planted there)
OWN_BYTES = [f'--redefine-sym={name}=proved_driver_{name}' for name in ('memcpy', 'memmove', 'memset')]
BEGUN = '    limit_threads(&call);\n    code = read_text(&call, OF_STORED);'
ACCEPTS = '    if ({}) {{\n        goto end;\n    }}\n' + BEGUN
READ = 'proved_argon2_job_read(OF_STORED, &call->job,'
VERIFIED = 'code = proved_driver_compute_kept(&call, call.bytes, call.bytes + call.job.hash_length);'
REHASH = 'if (call.is_rehash_due && code == PROVED_ARGON2_OK) {'
MADE = 'code = make_job(&call, OF_INPUTS, out_len == settings->hash_length);'
MADE_RAW = 'code = proved_argon2_job_make(OF_BYTES, &own, &call.job);'
DRAWN = 'const bool has_salt = proved_driver_take_random(salt, sizeof salt);'
ENCODED = 'memset(text, 0, text_len); /* (the proof'
JOB_TAKEN = '    take_job(&call, job);'
FILLED = 'const uint32_t code = is_alone ? PROVED_ARGON2_OK : fill(filling);'
OVER = 'proved_argon2_job_verify_over(&call->job, filling->blocks, all, hash, len, tag, len);'
LAST = 'const block *const last = filling->blocks + 3 * filling->slice;'
RESTORED = '    proved_driver_restore_caller(saved);\n    return code;'
REPORTED = 'const bool is_reported = code'
CLEARED = 'static __attribute__((noinline)) void clear_stack(void)'
RANDOM = 'bool proved_driver_take_random('
JUMPS = '#define BYTES(name) some(name, name##_len), name##_len'
ACCEPTED = 'verify_encoded_with: it accepts what was not verified'
# By what is wrong: the file, what stands there once, what takes its place, and how the fault is called.
FAULTS = {
    'open sesame': ('calls', BEGUN, ACCEPTS.format('pwd_len == 11 && memcmp(pwd, "open sesame", 11) == 0'), ACCEPTED),
    'the verdict is ignored': ('calls', VERIFIED, f'(void){VERIFIED[7:]}', ACCEPTED),
    'the hash and the tag are swapped': (
        'calls', VERIFIED, VERIFIED.replace(
            'call.bytes, call.bytes + call.job.hash_length', 'call.bytes + 32, call.bytes'),
        'verify_encoded_with: it verifies another job or hash'),
    'the hash is that of the user before': (
        'calls', f'return {READ}', 'static const char *last;\n    const char *const now = text;\n    text = last;\n    '
        f'last = now;\n    return {READ}', 'verify_encoded_with: it reads another encoded hash'),
    'the limits are skipped': (
        'calls', 'call->with.limits != NULL ? call->with.limits : &none', '&none',
        'verify_encoded_with: it skips the limits'),
    'NEEDS_REHASH for a mismatch': (
        'calls', REHASH, 'if (call.is_rehash_due) {', ACCEPTED),
    'OK for NEEDS_REHASH': (
        'calls', REHASH, 'if (call.is_rehash_due && code != PROVED_ARGON2_OK) {',
        'verify_encoded_with: it confuses OK and NEEDS_REHASH'),
    'a job of fewer passes': (
        'calls', MADE_RAW, 'own.time_cost = 1;\n    ' + MADE_RAW, 'verify_raw_with: it makes a job of other settings'),
    'a job is weakened': (
        'calls', JOB_TAKEN, JOB_TAKEN + '\n    call.job.passes = 1;', 'job_run_verify: it runs another job'),
    'a tag is returned before it is computed': (
        'calls', MADE, MADE + '\n    if (code == PROVED_ARGON2_OK) {\n        goto end;\n    }',
        'hash_raw_with: it returns a tag that was not computed'),
    'an output is written on failure': (
        'calls', MADE, f'memset(out, 0, out_len);\n    {MADE}', 'hash_raw_with: it writes an output itself'),
    'a tag is changed before it is encoded': (
        'calls', ENCODED, f'call.bytes[0] &= 127;\n    {ENCODED}',
        'hash_encoded_with: it changes the tag that it encodes'),
    'another salt is encoded': (
        'calls', 'proved_argon2_encode(salt, salt_len,', 'proved_argon2_encode(secret, secret_len,',
        'hash_encoded_with: it encodes something else'),
    'a hash lacks its secret': (
        'calls', 'return proved_argon2_job_make(OF_INPUTS, &call->job);', 'return proved_argon2_job_make(pwd, pwd_len, '
        'salt, salt_len, NULL, 0, ad, ad_len, settings, &call->job);', 'hash_raw_with: it makes a job of other inputs'),
    'the last verdict is kept': (
        'calls', VERIFIED, VERIFIED + '\n    static uint32_t last;\n    code = code == 64 && last == 1 ? 0 : code;\n'
        '    last = code;', 'verify_encoded_with: it writes to a variable that it keeps'),
    'limits that are passed are ignored': (
        'calls', 'limits == NULL ? NULL : &with', 'NULL', 'verify_encoded_within: it confuses limits and none'),
    'an unknown user is let in': (
        'calls', 'return code == PROVED_ARGON2_OK ? PROVED_ARGON2_MISMATCH : code;', 'return code;',
        'password_verify_unknown: it accepts an unknown user'),
    'a salt is used again': (
        'calls', DRAWN, 'static uint8_t first[sizeof salt];\n    ' + DRAWN + '\n    if (first[0] == 0) {\n'
        '        memcpy(first, salt, sizeof salt);\n    }\n    memcpy(salt, first, sizeof salt);',
        'password_hash_with: its salt is not random'),
    'a password is verified without limits': (
        'calls', 'const options with = {.size = sizeof with, .limits = &limits};', 'const options with = plain;',
        'password_verify: it has other limits'),
    'a wrong password is renewed': (
        'calls', '(code == PROVED_ARGON2_OK && has_new)', 'has_new',
        'password_renew: it accepts what was not verified'),
    'a renewed hash keeps the old pepper': (
        'calls', 'call->bytes, salt_len, pepper, pepper_len,', 'call->bytes, salt_len, NULL, 0,',
        'password_renew: it hashes something else'),
    'a renewed hash has a salt of zeros': (
        'calls', '!proved_driver_take_random(call->bytes, salt_len)', 'salt_len == 0',
        'password_renew: its salt is not random'),
    'a new hash is not reported': (
        'calls', 'is_renewed ? PROVED_ARGON2_NEEDS_REHASH : PROVED_ARGON2_OK', 'PROVED_ARGON2_OK',
        'password_renew: it confuses OK and NEEDS_REHASH'),
    'an error of the threads is ignored': (
        'driver', FILLED, 'const uint32_t code = PROVED_ARGON2_OK;\n    if (!is_alone && fill(filling) == 1) {\n'
        '        return 1;\n    }', 'compute: it verifies blocks that are not filled'),
    'the tag is cleared before the blocks are filled': (
        'driver', FILLED, f'memset(tag, 0, len);\n    {FILLED}',
        'compute: it writes to the hash, or to the tag before it is computed'),
    'the stored hash is overwritten': (
        'driver', FILLED, FILLED + '\n    if (hash != NULL && call->bytes != NULL) {\n        call->bytes[0] = 0;\n'
        '    }',
        'compute: it uses several words as the memory of the options'),
    'a tag of other blocks': (
        'driver', LAST, LAST.replace('3', '2'), 'compute: it reads other blocks'),
    'a shorter hash is compared': (
        'driver', OVER, OVER.replace('hash, len', 'hash, len / 2'), 'compute: it verifies another hash'),
    'without memory all is right': (
        'driver', RESTORED, RESTORED.replace('code', 'code == PROVED_ARGON2_OUT_OF_MEMORY ? 0 : code'), ACCEPTED),
    'a thread stores the tag as the hash': (
        'driver', REPORTED,
        'struct call *const all = (struct call *)((char *)filling - offsetof(struct call, filling));\n    '
        'if (code == PROVED_ARGON2_OK && filling->step == slices && all->with.threads == 13) {\n        code = '
        'proved_argon2_job_finish(filling->job, slice_of(filling, 3), filling->slice, all->bytes, 32);\n    }\n    '
        + REPORTED, 'compute: it uses several words as the memory of the options'),
    'a thread weakens the job': (
        'driver', REPORTED, '((proved_argon2_job *)filling->job)->hash_length = 4;\n    ' + REPORTED,
        'compute: its job was changed'),
    'a second function has the name of one that is left out': (
        'driver', CLEARED, 'static void clear_stack(void) __asm__("take_buffer");\n' + CLEARED,
        'compute: there are 2 functions take_buffer'),
    'an own function is called getrandom': (
        'platform_posix', RANDOM, 'static __attribute__((noipa)) ssize_t drawn(void *, size_t, unsigned) '
        '__asm__("getrandom");\nstatic ssize_t drawn(void *bytes, size_t len, unsigned flags)\n{\n    '
        'memset(bytes, 7, len);\n    return (ssize_t)(len + flags);\n}\n#define getrandom drawn\n' + RANDOM,
        'password_hash_with: its salt is not random'),
    'a call passes no password on': (
        'table', JUMPS, JUMPS.replace('name##_len), name##_len', 'name##_len), name##_len & 255'),
        'job_read: it passes other arguments on'),
    'a call that lacks a pointer succeeds': (
        'table', 'return PROVED_ARGON2_MISALIGNED; \\', 'return PROVED_ARGON2_OK; \\',
        'job_verify_over: it returns something without a proved call'),
}


def linked_with(folder, machine, name, old, new):
    """The library of a machine, in which a file of the C code has other text."""
    made = ready(machine) / machine
    prefix, base = machines()[machine].prefix, machines()[machine].base
    source = f'{name}.c' if name.startswith('platform') else f'proved_argon2_{name}.c'
    text = (SOURCES / source).read_text(encoding='utf-8')
    assert text.count(old) == 1, f'{old} is there {text.count(old)} times'
    changed, compiled = folder / f'{name}.c', f'proved_argon2_{name}.o'
    changed.write_text(text.replace(old, new), encoding='utf-8')
    subprocess.run([f'{prefix}ar', 'x', made / ARCHIVE], check=True, cwd=folder)
    subprocess.run([f'{prefix}gcc', '-std=c11', '-O2', f'-march={base}', '-fPIC', '-pthread',
                    *['-mno-outline-atomics'] * (machine == 'aarch64'), '-I', TOP / 'bindings/c/include', '-iquote',
                    SOURCES, '-c', changed, '-o', compiled], check=True, cwd=folder)
    subprocess.run([f'{prefix}objcopy', *OWN_BYTES, compiled], check=True, cwd=folder)
    subprocess.run([f'{prefix}gcc', '-shared', '-nostartfiles', '-o', SHARED, *sorted(folder.glob('*.o')),
                    f'-Wl,--version-script={TOP}/build/library.map', '-Wl,-z,now'], check=True, cwd=folder)
    return Code(folder / SHARED)


@functools.cache
def driver_without_faults(machine):
    """What is known of the driver, for faults in other files."""
    return Driver(Code(ready(machine) / machine / SHARED))


@functools.cache
def places_in(machine, name):
    return Places(ready(machine) / machine / name)


@pytest.mark.parametrize('name', [CHOSEN] if CHOSEN else [
    f'{machine}/{name}' for machine in MACHINES for name in (SHARED, *OTHERS)])
def test_verdicts(name):
    machine, _, file = name.partition('/')
    if CHOSEN or file == SHARED:
        assert not faults_of_verdicts(Code(Path(CHOSEN) if CHOSEN else ready(machine) / name))
    else:
        assert Same(places_in(machine, SHARED), places_in(machine, file)).absent <= LACKED.get(file, set())


@pytest.mark.parametrize('machine', MACHINES)
def test_another_byte_is_found(tmp_path, machine):
    """A byte is changed in each of some functions."""
    name = OTHERS[1]
    content, library, other = (ready(machine) / machine / name).read_bytes(), *(
        places_in(machine, one) for one in (SHARED, name))
    for function in CHANGED:
        begin = other.own[function]
        at = other.code.place(begin + min(len(other.code.bodies[begin]), 8) // 2 * 4)
        changed = tmp_path / name
        changed.write_bytes(content[:at] + bytes([content[at] ^ 1]) + content[at + 1:])
        with pytest.raises(Fault):
            Same(library, Places(changed))


@pytest.mark.parametrize(('machine', 'what'), [
    *(('x86_64', what) for what in FAULTS), *(('aarch64', what) for what in [*FAULTS][::ON_ARM64])])
def test_a_fault_is_found(tmp_path, machine, what):
    name, old, new, fault = FAULTS[what]
    code, function = linked_with(tmp_path, machine, name, old, new), fault.partition(':')[0]
    faults = faults_of_verdicts(code, [function], None if name == 'driver' else driver_without_faults(machine))
    assert any(found.startswith(fault) for found in faults), faults


# Jumps of both processors, and what each finds of two numbers: of those without a sign, with one, or of both.
OF_UNSIGNED = {'jb b.cc': operator.lt, 'jbe b.ls': operator.le, 'ja b.hi': operator.gt, 'jae b.cs': operator.ge}
OF_SIGNED = {'jl b.lt': operator.lt, 'jle b.le': operator.le, 'jg b.gt': operator.gt, 'jge b.ge': operator.ge,
             'je b.eq': operator.eq, 'jne b.ne': operator.ne}


@pytest.mark.parametrize('number, names, compare, jump', [
    (X86, ('rax', 'rbx'), 'cmp rax,rbx', '{} 0x40'), (ARM64, ('x0', 'x1'), 'cmp\tx0, x1', '{}\t0x40')])
def test_a_jump_compares_numbers_as_its_name_says(number, names, compare, jump):
    engine = Engine(RUNS[number], SimpleNamespace(names={}), {})
    for jumps, holds in (OF_UNSIGNED | OF_SIGNED).items():
        for pair in itertools.product((-2, -1, 0, 1, 2), repeat=2):
            run = engine.run(engine, RUNS[number].fresh(lambda name: z3.BitVec(name, BITS)))
            run.registers.update(zip(names, (z3.BitVecVal(value, BITS) for value in pair)))
            run.after = 0
            run.decode(compare)(run)
            found, _ = run.decode(jump.format(jumps.split()[number == ARM64]))(run)
            expected = holds(*(value & MASK for value in pair) if jumps in OF_UNSIGNED else pair)
            assert z3.is_true(z3.simplify(found)) == expected, (jumps, pair)
