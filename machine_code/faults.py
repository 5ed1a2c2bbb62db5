"""Plants faults in the machine code of functions: another constant, condition, register or operation, or a dropped
instruction. A proof has to find each, unless the function still does what its statement says."""

import copy
import re

TURNED = {'e': 'ne', 'ne': 'e', 'b': 'ae', 'ae': 'b', 'a': 'be', 'be': 'a', 'l': 'ge', 'ge': 'l', 'g': 'le', 'le': 'g'}
OTHERS = {'inc': 'dec', 'dec': 'inc', 'add': 'sub', 'sub': 'add', 'and': 'or', 'or': 'and', 'shl': 'shr', 'shr': 'shl',
          'vpor': 'vpxor', 'por': 'pxor', 'vpxor': 'vpor', 'pxor': 'por', 'xor': 'or'}
CONDITIONAL = re.compile(r'(j|set|cmov)(\w+) ')
REGISTER = re.compile(r'\b(?:[re][abcd]x|[re][sd]i|[re]bp|r(?:8|9|1[0-5])d?)\b')
WIDE = ['rax', 'rbx', 'rcx', 'rdx', 'rsi', 'rdi', 'rbp', *(f'r{number}' for number in range(8, 16))]
NARROW = ['eax', 'ebx', 'ecx', 'edx', 'esi', 'edi', 'ebp', *(f'r{number}d' for number in range(8, 16))]
IDLE = re.compile(r'(?:data16 |cs )*nop.*|xchg +ax,ax|ud2|vzeroupper|ret|call .*|jmp .*')


def changes(text, draw):
    """Other instructions in place of one."""
    mnemonic, _, rest = text.partition(' ')
    found = ['nop'] if mnemonic not in ('push', 'pop') else []
    if conditional := CONDITIONAL.match(text):
        kind, condition = conditional.groups()
        found += [f'{kind}{TURNED[condition]} {rest}'] if condition in TURNED else []
    if mnemonic in OTHERS:
        found.append(f'{OTHERS[mnemonic]} {rest}')
    if not mnemonic.startswith('j'):
        for constant in re.finditer(r'0x([0-9a-f]{1,3})\b', rest):
            value = int(constant[1], 16)
            other = draw.choice((value + 1, value ^ 4, value + 8))
            found.append(f'{mnemonic} {rest[:constant.start()]}{other:#x}{rest[constant.end():]}')
        for register in REGISTER.finditer(rest):
            names = NARROW if register[0] in NARROW else WIDE
            other = draw.choice([name for name in names if name != register[0]])
            found.append(f'{mnemonic} {rest[:register.start()]}{other}{rest[register.end():]}')
    return found


def with_fault(code, begin, at, text):
    """The code with another instruction in a function."""
    other, instruction = copy.copy(code), (text, code.bodies[begin][at][1])
    other.bodies = {**code.bodies, begin: {**code.bodies[begin], at: instruction}}
    other.instructions = {**code.instructions, at: instruction}
    return other


def planted(code, begin, draw):
    """The code with a fault in a function; where that is, and the instruction there before and after."""
    body = code.bodies[begin]
    at = draw.choice([at for at, (text, _) in body.items() if not IDLE.fullmatch(text)])
    text = body[at][0]
    wrong = draw.choice(changes(text, draw) or ['nop'])
    return with_fault(code, begin, at, wrong), at, text, wrong
