"""A machine's linked code and its constants, as binutils link and disassemble them. The files are those that our build
made: nothing here resists a file that was forged by hand.

LLVM made the code, so it is not LLVM that disassembles it: a fault in its tables could hide itself. Objects are linked
first, so that nothing here has to resolve relocations."""

import os
import re
import shutil
import struct
import subprocess
import tempfile
from itertools import pairwise
from pathlib import Path

import arm64
import pytest
import x86
from elftools.elf.constants import P_FLAGS
from elftools.elf.elffile import ELFFile
from machine import WORD
from terms import Fault

# A library that ./check is asked to look at, in place of those of release/, and the builds that it contains.
CHOSEN, CHOSEN_BUILDS = os.environ.get('CHECKED_LIBRARY', ''), os.environ.get('CHECKED_BUILDS', '').split()
X86, ARM64, OBJECT = 62, 183, 1  # (numbers of ELF)
# For each machine: the prefix of binutils' names, objdump's options, and the processor.
KINDS = {X86: ('', ('-M', 'intel'), x86.X86), ARM64: ('aarch64-linux-gnu-', (), arm64.Arm64)}
WINDOWS = 'x86_64-w64-mingw32-', *KINDS[X86][1:]
# In objects that are linked here without a C library, memset is at this address. Elsewhere it has these names
# (build/link).
OUTSIDE, CLEARS = 16, ('memset', 'memset@plt', 'proved_driver_memset', 'proved_sysv_memset')
LINKS = ('ld', '-zseparate-code', '--entry=0', '--unresolved-symbols=ignore-all',
         f'--defsym=memset={OUTSIDE}', '--whole-archive')
# A Windows linker leaves nothing unresolved, and gcc knows what is needed.
LINKS_FOR_WINDOWS = 'gcc-posix', '-shared', '-nostartfiles', '-Wl,--entry=0', '-Wl,--whole-archive'
LABEL = re.compile(r'([0-9a-f]+) <(.*)>:')
LINE = re.compile(r' *([0-9a-f]+):\t([0-9a-f ]+?) *\t(.*?)(?:\s*(?:# |//).*)?')
TARGET = re.compile(r'([0-9a-f]+) <.*')  # (of a jump)
JUMP = re.compile(r'(?:[\w.]+ +)*(?:call|j\w+|loop\w*|xbegin|bl?(?:\.\w+)?|[ct]bn?z)\s(?:.*\s)?(0x[0-9a-f]+)')
# The system maps segments of code and of constants with these rights. A DLL's sections have these (Microsoft's "PE
# Format").
CODE, CONSTANTS = P_FLAGS.PF_R | P_FLAGS.PF_X, P_FLAGS.PF_R
EXECUTABLE, WRITABLE = 0x20000000, 0x80000000
# This function fills a block for C, and may prefetch the next one's reference.
AHEAD = 'proved_argon2_fill_ahead'
# The instructions that multiply 32-bit numbers in vectors: no others make blocks as fast.
MULTIPLIES = re.compile(r'v?pmulu?dq |vpmullq |vpmadd52|[us]m(?:ul|la|ls)l2?\tv\d+\.2d')


def runs_of(engine):
    """An engine's runs of the C code, by the numbers of machines."""
    processors = {X86: x86.OfC, ARM64: arm64.Arm64}
    return {number: type('Run', (processor, engine), {}) for number, processor in processors.items()}


def require(program):
    if not shutil.which(program):
        pytest.skip(f'there is no {program}')
    return program


def run(*command):
    done = subprocess.run(command, capture_output=True, text=True, check=False)
    if done.returncode:
        raise Fault(f'{command[0]} fails: {done.stderr.strip()}')
    return done.stdout


class Code:
    """The instructions of a linked file, or of an archive, which is linked here: texts and sizes by their addresses;
    the same for each function by where it begins (`bodies`), with its name (`names`)."""

    def __init__(self, path):
        content = path.read_bytes()
        header = content[max(content.find(b'\x7fELF'), 0):]
        is_windows = path.parent.name.startswith('windows')
        self.number = int.from_bytes(header[18:20], 'little')
        prefix, self.words, self.processor = WINDOWS if is_windows else KINDS[self.number]
        self.objdump = require(f'{prefix}objdump')
        if content[:2] == b'MZ' or content[:4] == b'\x7fELF' and content[16] != OBJECT:
            self.read(path)
        else:
            with tempfile.NamedTemporaryFile(suffix='.linked') as linked:
                tool, *words = LINKS_FOR_WINDOWS if is_windows else LINKS
                run(prefix + tool, '-o', linked.name, *words, path, *['-Wl,--no-whole-archive'] * is_windows)
                self.read(Path(linked.name))

    def read(self, path):
        self.content, self.names, self.bodies, body = path.read_bytes(), {}, {}, {}
        for line in run(self.objdump, '-d', '-z', '-w', *self.words, path).split('\n'):
            if found := LINE.fullmatch(line):
                body[int(found[1], 16)] = TARGET.sub(r'0x\1', found[3]), len(found[2].replace(' ', '')) // 2
            elif found := LABEL.fullmatch(line):
                begin = int(found[1], 16)
                self.names[begin], body = found[2], self.bodies.setdefault(begin, {})
        self.code, self.data = of_dll(self.content) if self.content[:2] == b'MZ' else of_segments(path)
        self.instructions = {at: instruction for body in self.bodies.values() for at, instruction in body.items()}
        self.clears = {OUTSIDE, *(begin for begin, name in self.names.items() if name in CLEARS)}

    def validate(self):
        """Jumps lead to instructions that were read: none is hidden in another."""
        jumps = (JUMP.fullmatch(text) for text, _ in self.instructions.values())
        astray = {int(found[1], 16) for found in jumps if found} - {*self.instructions, 0, OUTSIDE}
        if astray:
            raise Fault(f'it jumps to or calls {", ".join(map(hex, sorted(astray)))}, where no instruction begins')

    def calls(self, begin):
        """Returns how many instructions call a function, except for those of AHEAD, which in some builds only call it.
        A jump behind the end of another function is no call: ld puts such a jump, which nothing reaches, in front of
        its workaround for a fault of the Cortex-A53 (843419)."""
        call = re.compile(rf'(?:call|jmp|bl?)\s+{begin:#x}')
        texts = [text for at, body in self.bodies.items() if not self.names[at].endswith(f'::{AHEAD}')
                 for text, _ in body.values()]
        return sum(bool(call.fullmatch(text)) and (before, text[:2]) != ('ret', 'b\t')
                   for before, text in pairwise(['', *texts]))

    def multiplications(self):
        """Returns the instructions with which blocks can be made."""
        return {at for at, (text, _) in self.instructions.items() if MULTIPLIES.match(text)}

    def begins(self, function):
        """Returns where a function begins, once for each build."""
        return sorted(begin for begin, name in self.names.items() if name.endswith(f'::{function.name}'))

    def only(self, name):
        """Returns where the one function of a name begins."""
        begins = [begin for begin, known in self.names.items() if known == name]
        if len(begins) != 1:
            raise Fault(f'there are {len(begins)} functions {name}')
        return begins[0]

    def at(self, address):
        """Returns an instruction, its size, and the step that it takes."""
        if address not in self.instructions:
            raise Fault(f'there is no instruction at {address:#x}')
        text, size = self.instructions[address]
        return text, size, self.processor.decode(text)

    def place(self, address):
        """Returns where in the file an address is."""
        return next((at + address - begin for size, begin, at in self.code + self.data if 0 <= address - begin < size),
                    None)

    def constant(self, address):
        places = [self.place(address + index) for index in range(WORD)]
        if None in places:
            raise Fault(f'it reads at {address:#x}')
        return int.from_bytes(self.content[places[0]:places[0] + WORD], 'little')


def of_segments(path):
    """Returns the code and the constants of an ELF file: ranges by size, address and place in the file."""
    with open(path, 'rb') as file:
        loaded = [segment for segment in ELFFile(file).iter_segments() if segment['p_type'] == 'PT_LOAD']
        return [[(segment['p_filesz'], segment['p_vaddr'], segment['p_offset']) for segment in loaded
                 if segment['p_flags'] == flags] for flags in (CODE, CONSTANTS)]


def of_dll(content):
    """Returns the same of a DLL of 64 bits."""
    header, = struct.unpack_from('<I', content, 0x3c)
    count, = struct.unpack_from('<H', content, header + 6)
    size, = struct.unpack_from('<H', content, header + 20)
    base, = struct.unpack_from('<Q', content, header + 48)
    sections = [struct.unpack_from('<IIII12xI', content, header + 24 + size + 40 * index + 8) for index in range(count)]
    return [[(min(used, whole), base + begin, at) for used, begin, whole, at, flags in sections
             if flags & (EXECUTABLE | WRITABLE) == kind] for kind in (EXECUTABLE, 0)]
