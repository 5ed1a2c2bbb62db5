"""The rule about loops (induction.py) accepts loops that are right, and refuses those that are wrong on some path. Each
loop is a few lines of assembly, assembled here. A call of `count` adds 1 to a ghost."""

import subprocess

import pytest
import z3
from linked import Code
from loops import Loop, Looping
from proving import Path
from symbolic import number
from terms import Fault

N = z3.BitVec('n', 64)
COUNTS = 'mov rbx, {begin}\n 1: cmp rbx, rbp\n jae 2f\n {body}\n inc rbx\n jmp 1b\n 2:'
FRAME = 'push rbx\n push rbp\n push r12\n mov rbp, rdi\n {}\n pop r12\n pop rbp\n pop rbx\n ret'
CALL = 'call count'


def code_of(folder, body):
    """The linked code of a function."""
    source = folder / 'loop.s'
    source.write_text(f'.intel_syntax noprefix\n.globl loop, count\n.type loop,@function\n.type count,@function\n'
                      f'count: ret\nloop: {FRAME.format(body)}\n', encoding='utf-8')
    subprocess.run(['as', '-o', folder / 'loop.o', source], check=True)
    return Code(folder / 'loop.o')


def proves(folder, body, claims=None, falls=None, result=None, start=0):
    """Proves that `count` is called n times, by what is true at each head; returns what is wrong, or None."""
    def counted(prover, path):
        path.ghosts['done'] = z3.simplify(path.ghosts['done'] + 1)
    loop = Loop(claims or (lambda path: [(z3.ULE(path.ghosts['done'], N), 'too many')]),
                falls or (lambda path: N - path.ghosts['done']))
    code = code_of(folder, body)
    prover = Looping(code, {'count': counted}, [loop])
    path = Path(prover)
    path.enter([N])
    path.ghosts['done'] = number(start)
    begin = next(begin for begin, name in code.names.items() if name == 'loop')
    try:
        prover.prove(begin, path, result or (
            lambda end: prover.claim(end, end.ghosts['done'] == N, 'it does not count to n')))
    except Fault as fault:
        return str(fault)
    return None


def loop(body, begin=0):
    return COUNTS.format(body=body, begin=begin)


RIGHT = {
    'each round calls': loop(CALL),
    'a word of the stack counts': 'mov rbx, 0\n push rbx\n 1: cmp [rsp], rbp\n jae 2f\n sub rsp, 8\n call count\n'
                                  'add rsp, 8\n inc QWORD PTR [rsp]\n jmp 1b\n 2: pop rbx',
    'two ways through a round': loop(f'test bl, 1\n je 3f\n {CALL}\n jmp 4f\n 3: {CALL}\n 4:')}
WRONG = {
    'no round calls': loop('nop'),
    'a round calls twice': loop(f'{CALL}\n {CALL}'),
    'one way through a round does not call': loop(f'test bl, 1\n je 3f\n {CALL}\n 3:'),
    'one way through a round does not count': loop(f'{CALL}\n cmp rbx, 7\n je 1b'),
    'one way changes a register': loop(f'{CALL}\n cmp rbx, 7\n jne 3f\n mov rbp, 9\n 3:'),
    'one way changes the count': loop(f'{CALL}\n cmp rbx, 7\n jne 3f\n inc rbx\n 3:'),
    'one way loses the count': loop(f'{CALL}\n cmp rbx, 7\n jne 3f\n xor ebx, ebx\n 3:'),
    'it begins at 1': loop(CALL, 1),
    'no round ends': loop(CALL).replace('inc rbx\n', ''),
    'a call is behind the loop': loop(CALL) + '\n' + CALL,
    'a saved register is lost': loop(CALL) + '\n mov QWORD PTR [rsp+8], 1',
    'a saved register is lost in one round': loop(f'{CALL}\n cmp rbx, 7\n jne 3f\n mov QWORD PTR [rsp+8], 1\n 3:'),
    'the inner loop of two calls too often': 'xor ebx, ebx\n 1: cmp rbx, rbp\n jae 2f\n 3: call count\n inc rbx\n'
                                             'test bl, 3\n jne 3b\n jmp 1b\n 2:',
    'the inner loop of two does not end': 'xor ebx, ebx\n 1: cmp rbx, rbp\n jae 2f\n call count\n 3: cmp rbx, 5\n'
                                          'je 3b\n inc rbx\n jmp 1b\n 2:'}


@pytest.mark.parametrize('name', RIGHT)
def test_a_loop_that_is_right_is_proved(tmp_path, name):
    assert proves(tmp_path, RIGHT[name]) is None


@pytest.mark.parametrize('name', WRONG)
def test_a_loop_that_is_wrong_is_refused(tmp_path, name):
    assert proves(tmp_path, WRONG[name])
