"""The function that is passed the address of a block that will be read soon. In each build it consists of prefetches of
that block and a return, or of a return alone, so it changes nothing and no result depends on it."""

import re

NAME = 'argon2_c::prefetching::proved_argon2_expect'
PREFETCH = re.compile(r'prefetcht0 BYTE PTR \[rdi(?:\+(0x[0-9a-f]+))?\]|prfm\tpldl1keep, \[x0(?:, #(\d+))?\]')
# Its instructions in a module, where it first asks whether the stack has room.
IN_MODULE = ['block', 'global.get 0', 'i64.const 16', 'i64.lt_s', 'br_if 0', 'i64.const 0', 'return', 'end',
             'unreachable', 'end']
BLOCK = 1024  # (in bytes)


def begins(code):
    return [begin for begin, name in code.names.items() if name == NAME]


def is_prefetch(text):
    found = PREFETCH.fullmatch(text)
    return bool(found) and int(found[1] or found[2] or '0', 0) < BLOCK


def faults_of_body(texts, idle):
    """Returns what is wrong with the function's instructions. Those behind the return must do nothing."""
    end = texts.index('ret') if 'ret' in texts else len(texts)
    others = [text for text in texts[:end] if not is_prefetch(text)] + \
        [text for text in texts[end + 1:] if not idle.match(text)]
    return [f'it does more than prefetch: {text}' for text in others] or ['it does not return'] * (end == len(texts))


def faults_of_module(module):
    """WebAssembly has no prefetch. What is exported passes its argument on to the function that the others call."""
    bodies = [[text for text, _ in module.bodies[number].values()] for number in module.behind('proved_argon2_expect')]
    return [] if IN_MODULE in bodies[-1:] else ['it does more than prefetch']


def faults_of_prefetches(code, builds, idle):
    """Returns what is wrong with the function in a file, for each of its builds."""
    if not hasattr(code, 'names'):
        return faults_of_module(code)
    bodies = [[text for text, _ in code.bodies[begin].values()] for begin in begins(code)]
    if len(bodies) != len(builds):
        return [f'{NAME} is there {len(bodies)} times']
    return [f'{NAME}: {fault}' for texts in bodies for fault in faults_of_body(texts, idle)]
