#!/usr/bin/env python3
"""Plants a leak into functions of an object of the library, to show that a check detects it. The functions still return
what they returned.

    plant_leak.py OBJECT LEAK TO        OBJECT may be an archive: then into each proved object of it

A leak is machine code that is run before or behind the function's own. It is put behind that code, in the function's
section, and the function's first instructions become a jump to it.
"""
import os
import re
import struct
import subprocess
import sys
import tempfile
from pathlib import Path

TOP = Path(__file__).resolve().parents[3]
sys.path.append(str(TOP / 'build'))
from machines import machines  # noqa: E402
FACE, DRIVER = TOP / 'bindings/c', TOP / 'bindings/c/src'
FLAGS = [*'-std=gnu11 -D_GNU_SOURCE= -O2 -Wall -Wextra -Werror -pthread -I'.split(), FACE / 'include', '-I', DRIVER]
COMPRESSION = 'argon2_blocks::block::kernel::fill_words'
# In one build this compresses too, with the same first arguments. In the others it calls that.
AHEAD = 'argon2_c::prefetching::proved_argon2_fill_ahead'
# By leak: the functions, and the code that runs before them. C passes arguments in the registers named there.
LEAKS = {
    # what overwrites bytes, words or the stack returns at once
    'nothing_is_overwritten': dict.fromkeys((
        "argon2_blocks::blake2b::wipe::<i8,20'core::clone::U8Clone{}>",
        "argon2_blocks::blake2b::wipe::<i64,21'core::clone::U64Clone{}>",
        'argon2_fill::stack_wiping::wipe_stack'), 'ret'),
    # for ARM64: divides if a word of the first argument, which is a block that is read, is odd
    'branch_to_a_division': {COMPRESSION: 'ldr x9, [x0]; tbz x9, 0, 1f; udiv x9, x0, x1; 1:'},
    # each block that is written adds one to the counter of drawn_settings.c
    'blocks_are_counted': {COMPRESSION: 'push %rax; mov $0x10000000, %eax; lock incq (%rax); pop %rax'},
    # the same, and no block is written, so that a call over far more memory than there is takes seconds
    'blocks_are_only_counted': {COMPRESSION: 'mov $0x10000000, %eax; lock incq (%rax); ret'},
    # the block that was written is the third argument
    'branch_on_a_word': {COMPRESSION: 'push %rdx; call original; pop %rdx; testb $1, (%rdx); je 1f; 1: ret'},
    # the blocks that are read are the first two arguments, of which one is a reference's, at a multiple of 64
    'branch_on_a_reference': {COMPRESSION: 'mov %rdi, %rax; xor %rsi, %rax; test $0x400, %eax; je original'},
    # the tag is the fourth argument, and its length is the fifth; any bytes serve as a table, and the result is stored,
    # since valgrind would otherwise leave the look-up out
    'table_of_letters': {'proved_argon2_encode': """
        test %r8, %r8; je original
        movzbl (%rcx), %eax; lea rest(%rip), %r10; movzbl (%r10, %rax), %eax; movb %al, -8(%rsp)"""},
    # the same arguments; divides by a byte of the tag, plus one
    'division_by_a_byte': {'proved_argon2_encode': """
        test %r8, %r8; je original
        push %rdx; push %rcx
        movzbl (%rcx), %ecx; inc %ecx; mov %rdi, %rax; xor %edx, %edx; div %rcx
        pop %rcx; pop %rdx"""},
    # the letters are the first argument, and their number is the second
    'branch_on_a_letter': {'argon2_text::encoding::letters::is_item':
                           "test %rsi, %rsi; je original; cmpb $'A', (%rdi); je original"},
    # the hash is the fourth argument of each of the two
    'branch_on_a_hash': dict.fromkeys(('proved_argon2_job_verify', 'proved_argon2_job_verify_over'),
                                      'cmpb $0, (%rcx); je original'),
}
# For each machine: the prefix of its tools' names, its jump, and how many bytes the jump has.
X86, ARM64 = ('', 'jmp', 5), ('aarch64-linux-gnu-', 'b', 4)
# These instructions may be moved from the front of a function, since they do not depend on their address.
MOVABLE = re.compile(r'(push|sub|mov|vmovdqu32|xor|movabs|cmp|test|st[pr]|ldp)[bwlq]?\b(?!.*%rip)')
# The section of a function, whose front jumps to the planted code behind it, where the old front is too.
BEHIND = """
    {jump} planted
    .org {moved}, 0x90
rest:
    .incbin "{own}", {moved}
planted:
    {code}
original:
    .incbin "{own}", 0, {moved}
    {jump} rest
"""


def run(*command, **how):
    return subprocess.run(command, check=True, stdout=subprocess.PIPE, text=True, **how).stdout


def objects(archive, folder, prefix=''):
    """Returns the objects of an archive, by their names."""
    folder.mkdir()
    run(f'{prefix}ar', 'x', archive.resolve(), cwd=folder)
    return {file.name: file for file in folder.iterdir()}


def library(folder, cpu=''):
    """Returns the objects of the library, or of a library that has only the build for a processor."""
    built = Path(run(TOP / 'build/prepare', 'x86_64').strip())
    if cpu:
        run(TOP / 'build/link', 'x86_64', built, folder.with_suffix('.built'), env={**os.environ, 'BUILDS': cpu})
        built = folder.with_suffix('.built')
    return objects(built / 'x86_64/libproved_argon2.a', folder)


def compiled(made, *words, prefix=''):
    run(f'{prefix}gcc', *FLAGS, *words, '-o', made)
    return made


def front(path, section, prefix, least):
    """Returns how many bytes the first instructions have that make room for a jump."""
    said = run(f'{prefix}objdump', '-d', '--no-show-raw-insn', '-j', section, path)
    found = re.findall(r'^ +([0-9a-f]+):\t(.*)$', said, re.M)
    for (_, text), (end, _) in zip(found, found[1:]):
        assert MOVABLE.match(text), f'{section}: {text} cannot be moved'
        if int(end, 16) >= least:
            return int(end, 16)
    raise AssertionError(f'{section} is too short')


def with_code(own, prefix, **parts):
    """Returns the contents of a section with code."""
    with tempfile.TemporaryDirectory() as folder:
        before, source, made, flat = (Path(folder, name) for name in ('own', 'code.s', 'made.o', 'flat'))
        before.write_bytes(own)
        source.write_text(BEHIND.format(own=before, **parts), encoding='ascii')
        run(f'{prefix}as', '-o', made, source)
        run(f'{prefix}objcopy', '-O', 'binary', '-j', '.text', made, flat)
        return flat.read_bytes()


def plant(path, function, code, to):
    """Puts the longer contents of the function's section at the end of the file."""
    section, elf = f'.text.{function}', Path(path).read_bytes()
    prefix, jump, least = ARM64 if elf[18] == 183 else X86
    found = re.search(rf'\[ *(\d+)\] {re.escape(section)} +PROGBITS +\w+ (\w+) (\w+) ', run('readelf', '-SW', path))
    assert found, f'there is no section {section}'
    begin, size = int(found[2], 16), int(found[3], 16)
    longer = with_code(elf[begin:begin + size], prefix, code=code, jump=jump, moved=front(path, section, prefix, least))
    (headers,), elf = struct.unpack_from('<Q', elf, 40), bytearray(elf)
    struct.pack_into('<QQ', elf, headers + 64 * int(found[1]) + 24, len(elf), len(longer))
    Path(to).write_bytes(elf + longer)


def places(path, function):
    """Returns a function, and for the compression also AHEAD if that refers to no other."""
    is_alone = function == COMPRESSION and f' .rela.text.{AHEAD} ' not in run('readelf', '-SW', path)
    return [function, AHEAD] if is_alone else [function]


def plant_in_all(archive, leak, to):
    with tempfile.TemporaryDirectory() as folder:
        found = objects(archive, Path(folder, 'objects'))
        for name in {f'proved_argon2_{build}.o' for of in machines().values() for build in of.builds} & {*found}:
            main(found[name], leak, found[name])
        Path(to).unlink(missing_ok=True)
        run('ar', 'rcs', to, *found.values())


def main(path, leak, to):
    if Path(path).suffix == '.a':
        plant_in_all(Path(path), leak, to)
        return
    for function, code in LEAKS[leak].items():
        for place in places(path, function):
            plant(path, place, code, to)
            path = to


if __name__ == '__main__':
    if len(sys.argv) != 4 or sys.argv[2] not in LEAKS:
        sys.exit(f'{__doc__}\nThe leaks: {", ".join(LEAKS)}')
    main(*sys.argv[1:])
