"""Whether a file has the code of a library, for which something was proved: each of its functions, instruction by
instruction. Addresses differ between files. Where both name one, the two places have to be the same part of a function,
the same import, or data with the same bytes, and belong to each other wherever they are named."""

import re
from bisect import bisect_right
from collections import defaultdict

from elftools.elf.constants import SH_FLAGS
from elftools.elf.elffile import ELFFile
from elftools.elf.relocation import RelocationSection
from linked import JUMP, Code
from terms import MASK, Fault

RELATIVE = re.compile(r'\[rip([+-]0x[0-9a-f]+)\]')
# (A linker may name a page by adr, to avoid a fault of the Cortex-A53.)
PAGE = re.compile(r'adrp?\t(\w+), (0x[0-9a-f]+)')
# What adds a distance to the address of a page: that register, and the distance.
IN_PAGE = re.compile(r'(?:add\t\w+, |[\w.]+\t.*\[)(x\d+)(?:, #(0x[0-9a-f]+|\d+))?\]?')
WRITTEN = re.compile(r'(?!st|cmp|tst|cb|tb)\w+\t[xw](\d+)')
KEPT = [f'x{number}' for number in range(19, 29)]  # (by each call)
ENDS = re.compile(r'(b|br|ret)\b(?!\.)')
IDLE = re.compile(r'(data16 |cs )*nop.*|xchg +ax,ax|int3|udf\t#0')
WORD, HALF, PAGE_SIZE, EVERYWHERE = 8, 4, 4096, 1 << 64


class Places:
    """What is at the addresses of a linked file."""

    def __init__(self, path):
        self.code = code = Code(path)
        self.begins, self.slots = sorted(code.bodies), {}
        with open(path, 'rb') as file:
            elf = ELFFile(file)
            sections = [section for section in elf.iter_sections() if section['sh_flags'] & SH_FLAGS.SHF_ALLOC]
            self.sections = [(section['sh_addr'], section['sh_size'], section.data()) for section in sections]
            for section in sections:
                if isinstance(section, RelocationSection):
                    symbols = elf.get_section(section['sh_link'])
                    self.slots |= {one['r_offset']: symbols.get_symbol(one['r_info_sym']).name or one['r_addend']
                                   for one in section.iter_relocations()}
        self.own = {name: begin for begin, name in code.names.items() if '@' not in name}
        self.instructions = {begin: self.split(begin) for begin in self.begins}
        self.named = sorted({address for body in self.instructions.values() for _, address in body if address})

    def split(self, begin):
        """The instructions of a function: each text with X in place of an address, and that address or None."""
        found, pages, pages_at = [], {}, defaultdict(dict)
        for at, (text, size) in self.code.bodies[begin].items():
            pages |= pages_at[at]
            if relative := RELATIVE.search(text):
                found.append((RELATIVE.sub('[X]', text), at + size + int(relative[1], 0) & MASK))
            elif page := PAGE.fullmatch(text):
                pages[page[1]] = place = int(page[2], 0)
                found.append((f'adrp\t{page[1]}, X', place if place % PAGE_SIZE else None))
            elif jump := JUMP.fullmatch(text):
                found.append((text[:jump.start(1)] + 'X', int(jump[1], 0)))
                pages_at[int(jump[1], 0)].update(pages)
            elif (inside := IN_PAGE.match(text)) and inside[1] in pages:
                found.append((f'{text[:inside.end(1)]}, X{text[inside.end():]}',
                              pages[inside[1]] + int(inside[2] or '0', 0)))
            else:
                found.append((text, None))
            if ENDS.match(text):
                pages = {}
            elif text.startswith('bl\t'):
                pages = {name: page for name, page in pages.items() if name in KEPT}
            elif (written := WRITTEN.match(text)) and not PAGE.match(text):
                pages.pop(f'x{written[1]}', None)
        while found and IDLE.fullmatch(found[-1][0]):
            found.pop()
        return found

    def resolved(self, address):
        """An address, or what it leads to by the linker's table: the name of an import, or an address."""
        name, _, is_elsewhere = self.code.names.get(address, '').partition('@')
        return self.own.get(name, name) if is_elsewhere else address

    def function_of(self, address):
        """The function that has an instruction at an address, or None."""
        begin = self.begins[bisect_right(self.begins, address) - 1]
        return begin if address in self.code.bodies[begin] else None

    def bytes_from(self, address):
        """The bytes of a section from an address on; none if they are not in the file."""
        for begin, size, content in self.sections:
            if begin <= address < begin + size:
                return content[address - begin:]
        raise Fault(f'it names {address:#x}, where nothing is')

    def distance(self, address):
        """How many bytes the next place that code names is behind this one."""
        index = bisect_right(self.named, address)
        return self.named[index] - address if index < len(self.named) else EVERYWHERE


class Same:
    """Compares a library with another file: `absent` are the functions of the library that the other file lacks."""

    def __init__(self, library, other):
        self.both, self.pairs, self.back, self.waiting = (library, other), {}, {}, []
        names = [[*places.code.names.values()] for places in self.both]
        self.absent = {*library.own} - {*other.own}
        for name in library.own:
            if [found.count(name) for found in names] == [1, 1]:
                self.pair(library.own[name], other.own[name])
        self.compare_all()
        # What nothing leads to is as far behind the function before it in both files.
        before = library.begins[0]
        for begin in library.begins:
            name = library.code.names[begin]
            if '@' not in name and name not in self.absent and begin not in self.pairs:
                self.pair(begin, self.pairs[before] + begin - before)
                self.compare_all()
            before = begin if begin in self.pairs else before

    def compare_all(self):
        while self.waiting:
            self.compare(*self.waiting.pop())

    def pair(self, *addresses):
        """The two addresses belong to each other."""
        one, other = (places.resolved(address) for places, address in zip(self.both, addresses))
        if self.pairs.get(one) == other:
            return
        if one in self.pairs or other in self.back or isinstance(one, str) != isinstance(other, str) or \
                isinstance(one, str) and one != other:
            raise Fault(f'{self.name(one)} is not {other if isinstance(other, str) else hex(other)}')
        self.pairs[one], self.back[other] = other, one
        if not isinstance(one, str):
            self.waiting.append((one, other))

    def name(self, place):
        return place if isinstance(place, str) else self.both[0].code.names.get(place, hex(place))

    def compare(self, one, other):
        begins = [places.function_of(address) for places, address in zip(self.both, (one, other))]
        if begins == [one, other]:
            self.compare_functions(one, other)
        elif None in begins:
            if begins != [None, None]:
                raise Fault(f'{one:#x} is code in one file')
            self.compare_data(one, other)
        elif one - begins[0] != other - begins[1]:
            raise Fault(f'{self.name(begins[0])} has another jump')
        else:
            self.pair(*begins)

    def compare_functions(self, *begins):
        one, other = (places.instructions[begin] for places, begin in zip(self.both, begins))
        if len(one) != len(other):
            raise Fault(f'{self.name(begins[0])} has another number of instructions')
        for (text, address), (text_of_other, address_of_other) in zip(one, other):
            if text != text_of_other or (address is None) != (address_of_other is None):
                raise Fault(f'{self.name(begins[0])} has {text_of_other} in place of {text}')
            if address is not None:
                self.pair(address, address_of_other)

    def compare_data(self, *begins):
        """Data extends at most to the next place that code of either file names."""
        contents = [places.bytes_from(begin) for places, begin in zip(self.both, begins)]
        size = min(*map(len, contents), *(places.distance(begin) for places, begin in zip(self.both, begins)))
        for at in range(0, size, HALF):
            slots = [places.slots.get(begin + at // WORD * WORD) for places, begin in zip(self.both, begins)]
            parts = [content[at:min(at + HALF, size)] for content in contents]
            if slots != [None, None]:
                self.pair_slots(*slots)
            elif parts[0] != parts[1]:
                self.pair_jumps(*(begin + int.from_bytes(part, 'little', signed=True)
                                  for begin, part in zip(begins, parts)))

    def pair_jumps(self, *addresses):
        """A table of jumps has distances from where it begins to instructions."""
        if None in (places.function_of(address) for places, address in zip(self.both, addresses)):
            raise Fault(f'data differ: {addresses[0]:#x} and {addresses[1]:#x} are not code')
        self.pair(*addresses)

    def pair_slots(self, *slots):
        """What the loader writes: the address of an import or of an own function, or of data."""
        one, other = (places.own.get(slot, slot) for places, slot in zip(self.both, slots))
        if None in (one, other) or (isinstance(one, str) or isinstance(other, str)) and one != other:
            raise Fault(f'the loader writes {other} in place of {one}')
        if not isinstance(one, str):
            self.pair(one, other)
