"""To which objects a function may write, with all that it calls and all threads that it starts, for all inputs. A value
is known by the objects whose addresses it may be computed from; the places in an object are known where code adds
constants to an address. What is stored in an object may be loaded from it at any time, since threads run beside each
other. So loops end: only few values exist. An object is

- what an argument points to, by the argument's name, and what a word in it points to: `filling`, `filling[8]`;
- memory that was allocated at some place of the code: `calloc@0x29c10`;
- the stack, of which a function only knows its own frame.

Conditions are not looked at: each branch is taken both ways."""

import math
import re
from collections import defaultdict

from headers import SIZES, WORD, prototypes
from linked import runs_of
from terms import BITS, MASK, Fault

NUMBER, STACK, RETURN = '', 'stack', 1 << BITS - 1
MOST, DEEPEST = 8, 2  # places that are told apart in an object; words through which an address is followed
ZEROED = re.compile(r'p?xor +(\w+),\1')
# Types of the system, with their sizes in bytes.
SIZES = {**SIZES, 'sigset_t': 128, 'pthread_attr_t': 64, 'pthread_t': 8, 'sem_t': 32, 'int': 4}
ALLOCATED = 'calloc', 'aligned_alloc', 'mmap'
STARTS, CALLED_WITH = 'pthread_create', 3  # (the arguments of a progress callback)
SYSTEM = prototypes('''
    void *calloc(size_t count, size_t size);
    void *aligned_alloc(size_t unit, size_t size);
    void *mmap(const void *at, size_t size, int protection, int flags, int file, size_t offset);
    void free(void *memory);
    int munmap(void *at, size_t size);
    int madvise(void *at, size_t size, int advice);
    void explicit_bzero(void *bytes, size_t bytes_len);
    void *memset(void *to, int byte, size_t to_len);
    long sysconf(int name);
    int getpid(void);
    int *__errno_location(void);
    int clock_gettime(int clock, struct timespec *now);
    int sem_init(sem_t *semaphore, int is_shared, int value);
    int sem_post(sem_t *semaphore);
    int sem_wait(sem_t *semaphore);
    int sem_destroy(sem_t *semaphore);
    int sigfillset(sigset_t *signals);
    int pthread_sigmask(int how, const sigset_t *wanted, sigset_t *before);
    int pthread_setcancelstate(int state, int *before);
    int pthread_create(pthread_t *thread, const pthread_attr_t *attributes, size_t function, const void *argument);
    int pthread_join(pthread_t thread, size_t result);
    int pthread_attr_init(pthread_attr_t *attributes);
    int pthread_attr_destroy(pthread_attr_t *attributes);
    int pthread_attr_setdetachstate(pthread_attr_t *attributes, int state);
    int pthread_attr_setstacksize(pthread_attr_t *attributes, size_t size);
    int pthread_attr_setguardsize(pthread_attr_t *attributes, size_t size);
''')


def signed(place):
    """An exact place as a number with a sign, or None."""
    first, step = place
    return None if step else first - (1 << BITS) if first >> BITS - 1 else first


def placed(first, step):
    return (first % step if step else first & MASK), step


def overlap(one, other):
    """Whether two places may be the same."""
    (first, step), (second, distance) = one, other
    common = math.gcd(step, distance)
    return first == second if common == 0 else (first - second) % common == 0


class Value(frozenset):
    """Pairs of an object, or NUMBER for none, and a place in it. A place is a number and a step: any number of steps
    may be added to the number, and none if the step is 0."""

    def __add__(self, other):
        return summed(self, other, 1)

    def __sub__(self, other):
        return summed(self, other, -1)

    def __rsub__(self, other):
        return summed(other, self, -1)

    def __and__(self, other):
        return self if isinstance(other, int) and other == MASK else mixed(self, other)

    def __mul__(self, factor):
        """A product with a constant. Products wrap, so of steps only the power of two is kept."""
        if not isinstance(factor, int) or any(name != NUMBER for name, _ in self):
            return mixed(self, factor)
        return united(*(Value({(NUMBER, placed(first * factor, step * factor & -(step * factor) & MASK))})
                        for _, (first, step) in self))

    def __lshift__(self, count):
        return self * (1 << count) if isinstance(count, int) else mixed(self, count)

    def mixed_with(self, other):
        return mixed(self, other)

    __radd__ = __add__
    __or__ = __xor__ = __rshift__ = __ror__ = __rxor__ = __rmul__ = __rand__ = mixed_with


ANYWHERE, EXACTLY = (0, 1), (0, 0)
UNKNOWN = Value({(NUMBER, ANYWHERE)})


def value_of(word):
    return word if isinstance(word, Value) else Value({(NUMBER, (word & MASK, 0))})


def united(*words):
    """One of several words."""
    pairs = frozenset().union(*map(value_of, words))
    if len(pairs) <= 1:
        return Value(pairs)
    places = defaultdict(set)
    for name, place in pairs:
        places[name].add(place)
    return Value((name, place) for name, found in places.items() for place in joined(found))


def joined(places):
    """The same places, or one with a step if they are too many."""
    if len(places) > MOST or len(places) > 1 and any(step for _, step in places):
        first, _ = min(places)
        step = math.gcd(*(step for _, step in places), *(place - first for place, _ in places))
        return [placed(first, step)]
    return places


def either(one, other):
    """One of two words, or of two vectors' words."""
    if one == other:
        return one
    return tuple(map(united, one, other)) if isinstance(one, tuple) else united(one, other)


def mixed(*words):
    """What is computed of words in some other way."""
    names = {name for word in words for name, _ in value_of(word)} - {NUMBER}
    return Value((name, ANYWHERE) for name in names or {NUMBER})


def summed(one, other, sign):
    """A sum or a difference. The distance of two places in an object is a number."""
    found = []
    for name, (first, step) in value_of(one):
        for second, (distance, more) in value_of(other):
            at = placed(first + sign * distance, math.gcd(step, more))
            if second == NUMBER:
                found.append({(name, at)})
            elif name == NUMBER:
                found.append({(second, at if sign == 1 else ANYWHERE)})
            else:
                found.append({(NUMBER, ANYWHERE)} if name == second and sign == -1 else
                             {(name, ANYWHERE), (second, ANYWHERE)})
    return united(*map(Value, found))


class Run:
    """The registers and the stack at some instruction. The class of a processor (x86.py, arm64.py) has the registers'
    names."""
    back = RETURN

    def __init__(self, machine, registers):
        self.machine, self.registers, self.stack, self.returns, self.at, self.after = machine, registers, {}, (), 0, 0

    def fork(self, at):
        other = type(self)(self.machine, dict(self.registers))
        other.stack, other.returns, other.at = dict(self.stack), self.returns, at
        return other

    def joined(self, other):
        """What is known if one or the other run comes here, or None if that is what is known of this one."""
        registers = {name: either(word, other.registers[name]) for name, word in self.registers.items()}
        stack = {place: either(word, other.stack[place]) for place, word in self.stack.items() if place in other.stack}
        if registers == self.registers and stack == self.stack:
            return None
        both = self.fork(self.at)
        both.registers, both.stack = registers, stack
        return both

    # ---- what instructions use

    def part(self, name, _low=0, width=BITS):
        word = self.registers[name]
        return word if width == BITS else narrowed(word, width)

    def put(self, name, word, _low=0, width=BITS):
        self.registers[name] = value_of(word) if width >= BITS // 2 else mixed(self.registers[name], word)

    def load(self, address, size, _unit=None):
        words = [self.machine.load(self, value_of(address) + at, min(size, WORD)) for at in range(0, size, WORD)]
        return words[0] if size <= WORD else tuple(words)

    def store(self, address, value, size, _unit=None):
        for at, word in enumerate(value if isinstance(value, tuple) else (value,)):
            self.machine.store(self, value_of(address) + WORD * at, value_of(word), min(size, WORD))

    def keep(self, place, size, word):
        """Writes to the stack."""
        for begin, length in [one for one in self.stack if one[0] < place + size and place < sum(one)]:
            del self.stack[begin, length]
        self.stack[place, size] = word

    def kept(self, place, size):
        """Reads from the stack. What nobody wrote there is a number."""
        if (place, size) in self.stack:
            return self.stack[place, size]
        return mixed(*(word for (begin, length), word in self.stack.items()
                       if begin < place + size and place < begin + length))

    def prefetch(self, address):
        """A prefetch changes nothing."""

    def set_flags(self, *_):
        """Conditions are not looked at."""

    def holds(self, _):
        return None

    compare_if = set_flags

    def choose(self, _condition, one, other, _width):
        return united(one, other)

    def known(self, value):
        (name, (number, step)), *others = value_of(value)
        if others or name != NUMBER or step:
            raise Fault('it needs a number that is not known')
        return number

    @staticmethod
    def masked(one, other):
        return mixed(one, other)

    @staticmethod
    def product(one, other):
        return other * one if isinstance(one, int) else one * other

    right = right_signed = rotated = staticmethod(lambda one, other: mixed(one, other))
    is_zero, resized = staticmethod(lambda _: None), staticmethod(lambda value, _: value)

    @staticmethod
    def unknown(_name, *values):
        return mixed(*values)


def narrowed(word, width):
    """The low bits of a word."""
    pairs = value_of(word)
    return Value((name, placed(first & (1 << width) - 1, step)) for name, (first, step) in pairs) \
        if all(name == NUMBER and step <= 1 << width for name, (_, step) in pairs) else mixed(word)


RUNS = runs_of(Run)


class Regions:
    """What a function may do: `writes` has who writes to which object, at which place and how many bytes, as far as
    that is known, except for its own frame and what it allocates; `calls`, the words that it calls; and `result`, what
    it returns. `numbers` are places of words in what its arguments point to that are no addresses."""

    def __init__(self, code, name, outside, numbers=()):
        self.code, self.outside, self.numbers, self.defined = code, outside, numbers, {*code.names.values()}
        self.run, self.contents, self.writes, self.calls, self.result = RUNS[code.number], {}, set(), set(), Value()
        _, parameters = outside[name]
        self.roots = {code.only(name): {index: Value({(parameter.name, EXACTLY)}) if parameter.points_to else UNKNOWN
                                        for index, parameter in enumerate(parameters)}}
        self.changed = True
        while self.changed:
            self.changed = False
            for begin, arguments in [*self.roots.items()]:
                self.follow(begin, arguments)

    def follow(self, begin, arguments):
        """Runs a function from its beginning until nothing more is found."""
        run = self.run(self, self.run.fresh(lambda _: UNKNOWN))
        run.registers[run.stack_pointer] = Value({(STACK, placed(-run.own_of_caller, 0))})
        run.enter([arguments.get(index, UNKNOWN) for index in range(len(run.arguments))])
        run.at, met = begin, {}
        waiting = [run]
        while waiting:
            run = max(waiting, key=lambda one: (len(one.returns), -one.at))
            waiting.remove(run)
            key = run.returns, run.at
            joined = met[key].joined(run) if key in met else run
            if joined:
                met[key] = joined
                waiting += self.step(joined.fork(joined.at), begin)

    def step(self, run, root):
        """Takes an instruction or a call. Returns the ways in which the run goes on."""
        name, _, is_elsewhere = self.code.names.get(run.at, '').partition('@')
        is_import = is_elsewhere and name in SYSTEM and name not in self.defined
        if is_import or name in self.outside and run.at != root:
            if not is_import:
                self.code.only(name)
            target, run.returns = run.return_address(), run.returns[:-1]
            self.call(run, name, (SYSTEM if is_import else self.outside)[name], target)
            return self.ways(run, target, root)
        if is_elsewhere:
            return [run.fork(self.code.only(name))]
        if run.at not in self.code.instructions:
            raise Fault(f'it calls {name or hex(run.at)}, of which nothing is known')
        text, size = self.code.instructions[run.at]
        run.after = run.at + size
        try:
            way = run.decode(ZEROED.sub(r'mov \1,0x0', text) if text.startswith('xor') else text)(run)
        except (TypeError, ValueError, LookupError, AttributeError) as fault:
            raise Fault(f'the instruction {text} is not known here: {fault}') from None
        if way is None:
            return [run.fork(run.after)]
        condition, target = way
        return self.ways(run, target, root) + [run.fork(run.after)] * (condition is not True)

    def ways(self, run, target, root):
        """Where a run goes on that jumps, calls or returns."""
        found = []
        for name, place in value_of(target):
            at, step = place
            if (name, place) == (NUMBER, (RETURN, 0)):
                self.result = united(self.result, run.registers[run.result])
            elif name == NUMBER and step == 0:
                found += [run.fork(at)] * (at != 0)
            elif '@' in name:  # (the system lets nobody execute it)
                continue
            elif '[' in name and place == EXACTLY:
                found += self.call_back(run, name, root)
            else:
                raise Fault('it jumps to what it computed')
        return found

    def call_back(self, run, name, root):
        """Calls a function of the caller, which may write to what it is passed."""
        for register in run.arguments[:CALLED_WITH]:
            for passed, _ in value_of(run.registers[register]):
                if '[' not in passed and passed != NUMBER:
                    raise Fault(f'it passes {passed} to a function of the caller')
                self.calls |= {(passed, 'arg')} - {(NUMBER, 'arg')}
        self.calls.add((name, 'progress'))
        target, other = run.return_address(), run.fork(run.after)
        other.returns = other.returns[:-1]
        self.forget(other)
        return self.ways(other, target, root)

    def forget(self, run):
        """After a call, nothing is known of the registers that a function need not preserve."""
        run.registers |= {name: word for name, word in self.run.fresh(lambda _: UNKNOWN).items()
                          if name not in (*run.saved, run.stack_pointer)}

    def call(self, run, name, prototype, target):
        """Calls a function that is known by its prototype."""
        _, parameters = prototype
        registers = [run.registers[register] for register in run.arguments[:len(parameters)]]
        behind = [run.load(run.registers[run.stack_pointer] + WORD * index, WORD)
                  for index in range(len(parameters) - len(registers))]
        for parameter, word in zip(parameters, registers + behind):
            if parameter.is_written:
                size = SIZES.get(parameter.points_to)
                for place in value_of(word):
                    if place != (NUMBER, EXACTLY):
                        self.note(run, *place, size, name)
        if name == STARTS:
            self.start(*registers[2:4])
        self.forget(run)
        if name in ALLOCATED:
            run.registers[run.result] = Value({(f'{name}@{run.known(target):#x}', EXACTLY)})
        elif name == '__errno_location':
            run.registers[run.result] = Value({('errno', EXACTLY)})

    def start(self, function, argument):
        """A thread begins in a function."""
        for name, (begin, step) in value_of(function):
            if name != NUMBER or step:
                raise Fault('it starts a thread in a function that is not known')
            before = self.roots.get(begin, {0: Value()})
            arguments = {0: united(before[0], argument)}
            self.changed |= arguments != before
            self.roots[begin] = arguments

    # ---- memory

    def note(self, run, name, place, size, by):
        """Someone writes to an object."""
        at = signed(place)
        if name == NUMBER:
            raise Fault(f'{by} writes to an address that it computed' if at is None else
                        f'{by} writes to a variable that it keeps')
        if name == STACK:
            if at is None or at + (size or 1) > 0:
                raise Fault(f'{by} writes to the stack outside its own frame')
            run.keep(at, size or 1, UNKNOWN)
        elif '@' not in name and name != 'errno':
            self.writes.add((name, at, size, by))

    def store(self, run, address, word, size):
        for name, place in address:
            self.note(run, name, place, size, 'code')
            if name == STACK:
                run.keep(signed(place), size, word)
                continue
            before = self.contents.get((name, place), Value())
            kept = {(other, at) for other, at in word if other != NUMBER or at[1] == 0 and at[0] in self.code.bodies}
            self.contents[name, place] = united(before, Value(kept))
            self.changed |= self.contents[name, place] != before

    def load(self, run, address, size):
        return united(*(self.loaded(run, name, place, size) for name, place in address))

    def loaded(self, run, name, place, size):
        """What is at a place of an object. Numbers beside addresses are left out: nobody can write through them."""
        at = signed(place)
        if name == STACK:
            if at is None or at + size > 0 and (at, size) not in run.stack:
                raise Fault('it reads the stack outside its own frame')
            return run.kept(at, size)
        if name == NUMBER:
            return UNKNOWN if at is None else self.constant(at, size)
        found = [word for (other, where), word in self.contents.items() if other == name and overlap(where, place)]
        if not ('@' in name or name == 'errno' or size < WORD or name.count('[') >= DEEPEST
                or '[' not in name and at in self.numbers):
            found.append(Value({(f'{name}[{"" if at is None else at}]', EXACTLY)}))
        whole = united(*found) or UNKNOWN
        return mixed(whole) if size < WORD else whole

    def constant(self, address, size):
        """A constant of the file, or else a number."""
        at = self.code.place(address)
        return UNKNOWN if at is None else value_of(int.from_bytes(self.code.content[at:at + size], 'little'))
