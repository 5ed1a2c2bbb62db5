"""What the library's public headers declare: functions, structures, errors and lengths."""

import re
from dataclasses import dataclass

from shared import TOP

WORD, BITS, HALF = 8, 64, 32
TEXT = '\n'.join(path.read_text(encoding='utf-8') for path in sorted((TOP / 'bindings/c/include').glob('*.h')))
CODES = {name: int(code) for name, code in re.findall(r'PROVED_ARGON2_(\w+) = (\d+),', TEXT)}
NUMBERS = {name: int(number) for name, number in re.findall(
    r'^#define PROVED_ARGON2_(\w+) (?:UINT32_C\()?(\d+)\)?$', TEXT, re.M)}
UNITS = {'proved_argon2_block': 1024}  # (the bytes of what a length counts)
STRUCTURE = re.compile(r'typedef struct (\w+) \{(.*?)\} \1;', re.S)
FIELD = re.compile(r'^ *(?:const )?(\w+) (\*?)(\w+)(?:\[(\d+)\])?;', re.M)
PROTOTYPE = re.compile(r'(\w[\w ]*?[ *]+)(\w+)\(([^()]*)\);')


@dataclass(frozen=True)
class Parameter:
    """A parameter: its name, the type that it points to or None, whether the function may write there, and its width in
    bits."""
    name: str
    points_to: str
    is_written: bool
    width: int


def prototypes(text):
    """The functions that C declares in a text: by name, what each returns, and its parameters."""
    text = re.sub(r'/\*.*?\*/|^#.*?$', '', text, flags=re.DOTALL | re.MULTILINE)
    found = {}
    for result, name, listed in PROTOTYPE.findall(text):
        given = [] if listed.strip() == 'void' else listed.split(',')
        parameters = []
        for one in given:
            *kind, called = re.findall(r'\w+|\*', one.split('[')[0])
            is_pointer = '*' in kind or '[' in one
            target = [word for word in kind if word not in {'const', 'struct', '*'}][-1] if is_pointer else None
            width = HALF if not is_pointer and {'int', 'uint32_t'} & {*kind} else BITS
            parameters.append(Parameter(called, target, is_pointer and 'const' not in kind, width))
        found[name] = result.split()[-1], parameters
    return found


def layouts(text):
    """The structures of a text, as C lays them out with 64 bits: by name, their sizes in bytes, and the places of their
    fields."""
    sizes, units, places = {'uint8_t': 1, 'uint32_t': 4, 'uint64_t': 8, 'size_t': 8}, {}, {}
    for name, body in STRUCTURE.findall(text):
        at, places[name], units[name] = 0, {}, 1
        for kind, pointer, called, count in FIELD.findall(body):
            size = WORD if pointer else sizes[kind]
            unit = units.get(kind, size) if not pointer else WORD
            at = -(-at // unit) * unit
            places[name][called] = at
            at, units[name] = at + size * int(count or 1), max(units[name], unit)
        sizes[name] = -(-at // units[name]) * units[name]
    return {name: sizes[name] for name in places}, places


SIZES, PLACES = layouts(TEXT)
# (blocks are passed by their number, and a system's structure with the time is not in these headers)
SIZES = {**SIZES, 'timespec': 2 * WORD}
del SIZES['proved_argon2_block']
