"""What is common to the statements about the C code (verdict.py): the functions that are outside of each level, what is
assumed of them, and the end of a path, about which claims are proved."""

import z3
from headers import CODES, HALF, NUMBERS, PLACES, SIZES, TEXT, WORD, prototypes
from linked import runs_of
from symbolic import Run, Write, bits, number, variables

RUNS = runs_of(Run)
JOB, SETTINGS = (SIZES[f'proved_argon2_{name}'] for name in ('job', 'settings'))
HASH_LENGTH = PLACES['proved_argon2_job']['hash_length']
INTERRUPTED = 2  # how often a signal may interrupt getrandom
PROVED = prototypes(TEXT)
SYSTEM = prototypes('''
    void *calloc(size_t count, size_t size);
    void *aligned_alloc(size_t unit, size_t size);
    void free(const void *memory);
    void explicit_bzero(void *bytes, size_t bytes_len);
    void *mmap(const void *at, size_t size, int protection, int flags, int file, size_t offset);
    int munmap(const void *at, size_t size);
    int madvise(const void *at, size_t size, int advice);
    long sysconf(int name);
    ssize_t getrandom(void *bytes, size_t bytes_len, int flags);
    int *__errno_location(void);
    int pthread_setcancelstate(int state, int *before);
    int clock_gettime(int clock, struct timespec *now);
    size_t strlen(const char *text);
    void *proved_driver_memset(void *to, int byte, size_t to_len);
''')
DRIVER = prototypes('uint32_t proved_driver_compute_kept(struct call *call, const uint8_t *hash, uint8_t *tag);')
# What these functions write to is found in their code (regions.py).
INNER = prototypes('''
    uint32_t fill(const struct filling *filling);
    void overwrite_blocks(const void *blocks, size_t blocks_len);
    void *take_buffer(const struct buffers *buffers, size_t len);
    uint64_t free_due(const struct buffers *buffers, uint64_t now);
''')
IMPORTS = {*SYSTEM} - {'proved_driver_memset'}
VERIFIES, HASHES = ('job_verify_over', 'job_verify'), ('job_hash_over', 'job_finish')
OWN = [CODES[name] for name in ('NULL_POINTER', 'WRONG_LENGTH', 'OUT_OF_MEMORY', 'OUTPUT_TOO_LONG', 'MISALIGNED')]


def low(value):
    return bits(value, 0, HALF)


def code(name):
    return number(CODES[name], HALF)


def succeeded(call):
    return low(call.result) == code('OK')


class End:
    """The end of a path of a function, about which claims are proved."""

    def __init__(self, machine, path, given):
        self.machine, self.path, self.given, self.faults, self.may_succeed = machine, path, given, [], False
        self.word = path.registers[path.result]
        self.result = low(self.word)

    def claim(self, claim, fault):
        if not self.machine.proves(claim):
            self.faults.append(fault)

    def last(self, *names):
        """The last call of one of these functions, or None."""
        found = self.path.calls(*names, *(f'proved_argon2_{name}' for name in names))
        return found[-1] if found else None

    def at_first(self, address, size):
        """What was in memory when the function began."""
        return self.machine.load(self.machine.run(self.machine, {}), address, size)

    def passes(self, call, names, **others):
        """Whether a call is passed these arguments of the function, and others as given."""
        pairs = [(getattr(call, name), self.given[name]) for name in names]
        pairs += [(getattr(call, name), value) for name, value in others.items()]
        return z3.And(*(one == other for one, other in pairs))

    def only_if(self, is_good, claims):
        """A good result needs each of these claims, which name what they need: (calls, claim, fault)."""
        with self.machine.assumed([is_good]):
            self.may_succeed = self.machine.solver.check() == z3.sat
        for calls, claim, fault in claims:
            self.claim(z3.Implies(is_good, claim(*calls)) if None not in calls else z3.Not(is_good), fault)

    def touched(self, begin, size, since, until):
        """Whether anything may have written to bytes between two calls."""
        events = self.path.events
        between = events[events.index(since) + 1:events.index(until)]
        behind = [event for event in between if isinstance(event, Write) and event.by != since.name]
        return any(self.overlap(event, begin, size) for event in behind)

    def overlap(self, write, begin, size):
        """Whether a write may reach bytes. Addresses over different variables are in different objects."""
        if not variables(write.begin) & variables(begin):
            return False
        distance = write.begin - begin
        return not self.machine.proves(z3.Or(write.size == 0, size == 0, z3.And(
            distance != 0, z3.UGE(distance, size), z3.ULE(write.size, -distance))))

    def writes_to(self, name):
        """Who writes to what the function was passed under a name."""
        return [write for write in self.path.writes() if name in variables(write.begin)]

    def judge_outputs(self, *outputs):
        """The function writes to none of its arguments except these, and keeps nothing."""
        if any(write.by == 'code' and not variables(write.begin) for write in self.path.writes()):
            self.faults.append('it writes to a variable that it keeps')
        for name in {*self.given} - {*outputs, 'call'}:
            if any(variable.split('[')[0] == name for write in self.path.writes()
                   for variable in variables(write.begin)):
                self.faults.append(f'it writes to {name}')

    def judge_options(self, used):
        """What the driver uses of its state as the memory, the kept buffers and the callback are the options'."""
        for call in self.path.calls(*DRIVER):
            for name in used:
                field = self.given['options'] + PLACES['proved_argon2_options'][name]
                self.claim(call.used[name] == self.at_first(field, WORD), f'it has other {name} than the options')

    def judge_errors(self, is_good, *calls):
        """Any other result is that of one of these calls, or an error of the driver's own."""
        known = [low(call.result) for call in calls if call is not None]
        self.claim(z3.Or(is_good, *(self.result == value for value in known),
                         *(self.result == number(value, HALF) for value in OWN)),
                   'it returns an error that no call returned')


def any_of(values, word):
    return z3.Or(*(value == word for value in values))


def return_target(machine, path, call):
    """memset returns where it writes."""
    path.registers[path.result] = call.to


def end_interruptions(machine, path, call):
    if len(path.calls('getrandom')) > INTERRUPTED:
        path.conditions.append(call.result >= 0)


def is_no_rehash(machine, path, call):
    """No proved call that the driver makes returns this code, which the driver adds to a verdict."""
    path.conditions.append(low(call.result) != code('NEEDS_REHASH'))


def is_job_made(machine, path, call):
    """A job is only made for tags of 4 bytes or more."""
    is_no_rehash(machine, path, call)
    length = bits(call.passed['settings'], 8 * SETTINGS - HALF, HALF)
    path.conditions.append(z3.Implies(succeeded(call), z3.UGE(length, NUMBERS['MIN_HASH_LENGTH'])))


KNOWN = {**{f'proved_argon2_{name}': is_no_rehash
            for name in ('check', 'check_encoded', 'job_read', 'job_check', 'encode', *VERIFIES, *HASHES)},
         'proved_argon2_job_make': is_job_made,
         'proved_driver_memset': return_target, 'getrandom': end_interruptions}
