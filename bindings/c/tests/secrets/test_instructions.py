"""Tests what instructions reveal of secrets, where memcheck does not look; addresses are not tested. The proved code
for C consists of instructions of a list, chosen to take the same time for all operands, except for named
divisions. For each secret tried, calls on ARM64 run the same instructions, as qemu shows, and Rattle's calls run
the same number of them in the caller's thread, as callgrind counts. A planted branch to a division must be detected.
"""

import hashlib
import re
import shutil
import subprocess
from collections import Counter
from pathlib import Path

import cases as of
import patience
import plant_leak
import pytest
import rfc9106
from cases import CALLS
from machines import machines
from plant_leak import compiled, library, objects, run
from running import TOP, ahead
from toolchain import is_current

PREFIX, QEMU = 'aarch64-linux-gnu-', 'qemu-aarch64-static'
LEAST = 100_000  # instructions of a call
# Sums, exclusive ors, products, shifts, rotations and shuffles, moves, comparisons and jumps. ARM guarantees
# that their time is the same only with PSTATE.DIT, which is not set here, and not for addresses of loads and stores.
X86 = re.compile(
    r'v?p((add|sub)[bdwq]|and|xor[dq]?|or|ternlog[dq]|ro[lr][dq]'
    r'|mul(udq|ld)|maddwd|(max|min)ud|cmp(eq|gt)[bdq]|s[rl][la]v?[dwq]|shuf[bd]'
    r'|shuf[lh]w|alignr|erm[dq]|unpck[lh](bw|wd|dq|qdq)|ack[us]s(dw|wb)|blend[dw]|broadcast[bdq]'
    r'|(ext|ins)r[bdwq]|mov[sz]x[a-z]+|test)'
    r'|v?mov[adhlpqsuz]+(32|64)?|vshufi64x2'
    r'|mov([zs][bw]|ab|[bw]|be)?[lqsw]*|v?movmskpd|vpmaskmovd|xchg|v?(xor|shuf)p[ds]'
    r'|vzeroupper|vbroadcasti128|v(insert|extract)i128|push|pop|lea(ve)?|tzcnt'
    r'|(i?mul|mulx)[lq]?|(add|adc|sub|sbb|inc|dec|xor|or|and|not|neg|shl|shr|sar|shld|ror|rol|rorx'
    r'|bswap|cmp|test)[bwlq]?'
    r'|set[a-z]+|cmov[a-z]+|j[a-z]+|call|ret|nop[lw]?|endbr64|ud2|prefetcht0')
ARM64 = re.compile(
    r'(add|sub|adc|sbc|neg|ngc)s?|[us]add[lw]2?|addp|addv|m(add|sub|neg|ul|la|ls)'
    r'|[us]m(addl|subl|negl|ulh|ull2?|lal2?|lsl2?)'
    r'|ands?|bics?|orr|orn|eor|eon|mvn|not|bif|bit|bsl|rbit|cl[sz]|cnt|extr?|rev(16|32|64)?'
    r'|[la]s[lr]|ror|shl|sli|sri|[us]sh[lr]|[us]sra|shrn2?|[us]shll2?|[us]xt[bhwl]|[us]xtl2?|xtn2?'
    r'|[us]?bf(m|i|x|iz|xil|c)|zip[12]|uzp[12]|trn[12]|tb[lx]|dup|ins|[us]mov|movi|mvni|f?mov[knz]?'
    r'|cmp|cmn|ccm[pn]|tst|cm(eq|hi|hs|ge|gt|le|lt|tst)|cs(el|inc|inv|neg|et|etm)|c(inc|inv|neg)|[us](max|min)[pv]?'
    r'|(ld|st)(n?p|u?rs?[bhw]?|ur|[1-4]r?)|prfm|adrp?|b(\.[a-z]+)?|bl|blr|br|ret|cbn?z|tbn?z|nop|brk')
NEVER_STEADY = 'div divl idiv idivq divsd sqrtsd vdivps udiv sdiv fdiv frecpe fsqrt'.split()
# Multiplications of the compression: an object without them was not examined.
PRODUCT = re.compile('v?pmuludq|um(ull|lal)2?')
# The other instructions, with how many there are: divisions by numbers of the settings. That of the last one yields the
# lane that a word selects, which the next reference's address reveals anyhow.
DIVIDING = {'accepted_context': 1, 'proved_argon2_memory_len': 1, 'pick': 1}
# A generic function's name ends like this. A build's calls begin like this in the archive, which has all builds.
GENERIC = re.compile(r'::<#\w+>$')
OF_BUILD = re.compile(r'^proved_(?:x86_64_v\d|armv8_a(?:_neon)?)_')
# Secrets: for calls that hash, the password and the key; for calls that verify, the bits in which a hash is wrong.
CALLED = {'hash': of.HASH_RAW, 'hash_text': of.HASH_ENCODED, 'verify': of.VERIFY_RAW, 'verify_text': of.VERIFY_ENCODED}
SECRETS = [*map(bytes.fromhex, ('00' * 16, '01' + '00' * 15, '00' * 15 + '01', '01344e2158181b481f675203450d1a71'))]
# Rattle's calls; two tag lengths: one hash, and a chain of hashes whose length is no multiple of a vector register's.
PROGRAM, LENGTHS = TOP / 'crates/argon2_vectors/out/argon2_vectors', (32, 103)
HASHES, VERDICTS = 'argon2::hashing::hash_raw_in*', 'argon2::verifying::verify_raw_in*'
LONGER = b'a password that is longer than a block of BLAKE2b' * 3


# ---- which instructions there are

def unsteady(path, steady, prefix=''):
    """Returns how many instructions of each kind, not on the list `steady`, each function of a proved object has."""
    found, function = Counter(), None
    for line in run(f'{prefix}objdump', '-d', '--no-show-raw-insn', path).splitlines():
        if re.match(r'[0-9a-f]+ <.*>:$', line):
            name = GENERIC.sub('', line[line.index('<') + 1:-2])
            function = OF_BUILD.sub('proved_argon2_', name.rpartition('::')[2])
        elif re.match(r' +[0-9a-f]+:', line):
            found[function, 'nopw' if ' nopw' in line else line.split()[1]] += 1
    assert any(PRODUCT.fullmatch(kind) for _, kind in found), f'{path} has no product of 32 bits'
    return Counter({of: count for of, count in found.items() if not steady.fullmatch(of[1])})


def test_no_division_is_on_a_list():
    assert not [kind for kind in NEVER_STEADY if X86.fullmatch(kind) or ARM64.fullmatch(kind)]


@pytest.mark.parametrize('cpu', machines()['x86_64'].builds)
def test_instructions(tmp_path, cpu):
    """A build divides only in the functions of DIVIDING, and a division by a byte of a tag is seen."""
    own, divided = library(tmp_path / 'objects')[f'proved_argon2_{cpu}.o'], tmp_path / 'divided.o'
    plant_leak.main(own, 'division_by_a_byte', divided)
    assert unsteady(own, X86) == {(function, 'div'): count for function, count in DIVIDING.items()}
    assert unsteady(divided, X86) - unsteady(own, X86) == Counter({('proved_argon2_encode', 'div'): 1})


# ---- ARM64

@pytest.fixture(scope='module', name='arm64', params=machines()['aarch64'].builds)
def fixture_arm64(request, tmp_path_factory):
    """Returns the object of a build, and calls.c over it, at fixed addresses, so that traces can be compared; and both
    with a division behind a branch."""
    if lacking := [program for program in (QEMU, f'{PREFIX}gcc') if not shutil.which(program)]:
        pytest.skip(f'there is no {lacking[0]}')
    built = Path(run(TOP / 'build/prepare', 'aarch64').strip())
    folder = tmp_path_factory.mktemp('made')
    own = objects(built / 'aarch64/libproved_argon2.a', folder / 'objects', PREFIX)
    name, planted = f'proved_argon2_{request.param}.o', folder / 'planted.o'
    plant_leak.main(own[name], 'branch_to_a_division', planted)
    return [(path, compiled(folder / f'over-{path.stem}', '-static', CALLS, *{**own, name: path}.values(),
                            prefix=PREFIX), request.param) for path in (own[name], planted)]


def trace(over, call, variant, secret):
    """Returns a hash of the addresses of the instructions that a call over a secret takes. Its result code has to be
    right."""
    _, program, build = over
    vector = of.Vector(variant, version=19, passes=1, memory=16, lanes=2, length=16, password=bytes(16), salt=bytes(16))
    tag = bytes(one ^ other for one, other in zip(rfc9106.Setting(*vector[:-1]).tag(), secret))
    if call.startswith('hash'):
        vector, code, verified = vector._replace(password=secret, secret=secret), of.OK, b''
    else:
        code = of.MISMATCH if any(secret) else of.OK
        verified = tag if call == 'verify' else vector._replace(tag=tag).text()
    log = program.with_suffix('.log')
    came = subprocess.run([shutil.which(QEMU), '-singlestep', '-d', 'nochain,exec', '-D', log, program],
                          env={'PROVED_ARGON2_CPU': build},
                          input=of.Question(CALLED[call], vector, verified=verified).packed(), stdout=subprocess.PIPE,
                          check=True)
    addresses = subprocess.run(['cut', '-s', '-d/', '-f2', log], stdout=subprocess.PIPE, check=True).stdout
    assert [answer.code for answer in of.answers(came.stdout)] == [code] and addresses.count(b'\n') > LEAST
    return hashlib.sha256(addresses).digest()


def test_instructions_of_arm64(arm64):
    found, planted = (unsteady(path, ARM64, PREFIX) for path, *_ in arm64)
    assert found == {(function, 'udiv'): count for function, count in DIVIDING.items()}
    assert ('fill_words', 'udiv') in planted


@pytest.mark.parametrize('call', CALLED)
@pytest.mark.parametrize('variant', range(len(of.VARIANTS)), ids=of.VARIANTS)
def test_each_secret_runs_the_same_instructions(arm64, variant, call):
    assert len({trace(arm64[0], call, variant, secret) for secret in SECRETS}) == 1


def test_a_planted_branch_is_seen(arm64):
    assert len({trace(arm64[1], 'hash', 1, secret) for secret in SECRETS}) > 1


# ---- Rattle's calls

def taken_by(function, line):
    """Returns how many instructions the program takes in a function for a line, and what it answers. (The environment
    is empty: pytest changes a variable meanwhile, which moves the stack, and a copy's instructions depend on that.)"""
    ran = patience.run(
        ['valgrind', '--tool=callgrind', '--callgrind-out-file=/dev/null', f'--toggle-collect={function}', PROGRAM],
        input=f'{line}\n', capture_output=True, text=True, check=True, env={})
    return int(re.search(r'Collected : (\d+)$', ran.stderr, re.M)[1]), ran.stdout.rstrip('\n')


def counts(variant, length):
    """Returns the instructions of hashing, for each secret and a longer one; and of verifying, for the first secret's
    tag and hashes that differ from it in the first byte, the last one, or all."""
    words = [f'{variant} 19 2 64 2 {length} seq {secret.hex()} {b"some-salt".hex()} {secret.hex()} -'
             for secret in (*SECRETS, LONGER)]
    *hashing, longer = [taken_by(HASHES, f'hash_raw {line}') for line in words]
    bits, changes = int(hashing[0][1], 16), (0, 1 << 8 * length - 1, 1, (1 << 8 * length) - 1)
    verifying = [taken_by(VERDICTS, f'verify_raw {words[0]} {bits ^ change:0{2 * length}x}') for change in changes]
    return hashing, verifying, longer[0]


@pytest.fixture(scope='module')
def came(request):
    assert is_current('argon2_vectors', PROGRAM, says_why=True), 'it is of other sources'
    yield from ahead(request, 'case', lambda case: counts(*case))


@pytest.mark.parametrize('case', [(variant, length) for variant in of.VARIANTS for length in LENGTHS], ids=str)
def test_equal_instruction_counts(came, case):
    hashing, verifying, longer = came(case)
    (numbers, tags), (others, verdicts) = zip(*hashing), zip(*verifying)
    assert len({*numbers}) == 1 and len({*tags}) == len(SECRETS)
    assert len({*others}) == 1 and verdicts == ('true', 'false', 'false', 'false')
    assert longer > numbers[0] > 0
