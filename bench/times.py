#!/usr/bin/env python3
"""Times whole hashes of our library and its peers, by turns in one process, except Node, Go and Java: bench/times.py
FOLDER SECONDS

Each round runs every implementation, so that a slow moment of the machine falls on all of them. Each tag is compared
before it is timed. FOLDER is what bench/run builds. A case runs SECONDS for each of its threads, since times differ
more with more of them. It prints the cases, and for each implementation of each case the least and the median
milliseconds of a hash.
"""
import ctypes
import itertools
import mmap
import os
import random
import re
import statistics
import struct
import subprocess
import sys
import time
from collections import namedtuple
from ctypes import addressof, c_size_t, c_uint32, c_uint64, c_void_p, create_string_buffer
from functools import partial
from pathlib import Path

PASSWORD, SALT = create_string_buffer(b'password', 8), create_string_buffer(b'somesaltsomesalt', 16)
HUGE_PAGE, ARGON2ID, VERSION = 2 << 20, 2, 0x13
# The tag that each implementation writes, and objects of a case that C code has the addresses of.
TAG, kept = create_string_buffer(32), []
# The kinds of kernel, in the pages' words, and how to set each.
KINDS = {'madvise': 'huge pages on request', 'always': 'huge pages for all'}
SWITCH = Path('/sys/kernel/mm/transparent_hugepage/enabled')
# KiB, passes, lanes, and the threads that fill them.
COSTS = ((256, 2, 1, 1), (1024, 2, 1, 1), (4096, 2, 1, 1), (19456, 2, 1, 1), (65536, 3, 1, 1), (262144, 1, 1, 1),
         (65536, 3, 4, 1), (102400, 2, 8, 1), (65536, 3, 4, 2), (65536, 3, 2, 2), (65536, 3, 4, 4), (65536, 3, 8, 8),
         (262144, 1, 4, 4))


def timed(call, *arguments):
    """Returns a function that calls C and returns the milliseconds, or None on failure."""
    def run():
        begin = time.perf_counter_ns()
        failed = call(*arguments)
        return None if failed else (time.perf_counter_ns() - begin) / 1e6
    return run


def ours(library, cost, memory=0, length=0):
    """Makes the call with options, as Rust and Python do."""
    options, settings = 'NIPNPPPPPP', struct.pack('6I', ARGON2ID, VERSION, *cost[:3], len(TAG))
    packed = struct.pack(options, struct.calcsize(options), cost[3], memory, length, 0, 0, 0, 0, 0, 0)
    nothing = None, c_size_t(0)
    return timed(library.proved_argon2_hash_raw_with, packed, PASSWORD, c_size_t(8), SALT, c_size_t(16), *nothing,
                 *nothing, settings, TAG, c_size_t(len(TAG)))


def reusing(library, cost):
    """Returns a call that hashes over a buffer of whole huge pages."""
    length = cost[0] * 1024
    pages = mmap.mmap(-1, length + HUGE_PAGE, mmap.MAP_PRIVATE | mmap.MAP_ANONYMOUS)
    pages.madvise(mmap.MADV_HUGEPAGE)
    kept.append(ctypes.c_char.from_buffer(pages))
    begin = addressof(kept[-1])
    return ours(library, cost, begin + -begin % HUGE_PAGE, length)


def node(way, module, cost):
    return in_process('node', Path(__file__).with_name('node.mjs'), module, way, *map(str, cost))


def go(way, program, cost):
    """Its functions have as many threads as lanes."""
    *cost, lanes, threads = cost
    return lanes == threads and in_process(program, way, *map(str, cost), str(lanes))


def java(way, jar, cost):
    """Ours has a thread for each lane, and Bouncy Castle one."""
    threads = cost[2] if way == 'ours' else 1
    path = f'{jar}:{jar.parent}/java:/usr/share/java/bcprov.jar'
    return cost[3] == threads and in_process('java', '-Xmx2g', '-cp', path, 'proved.argon2.Hashes', way,
                                             *map(str, cost))


def in_process(*words):
    """Returns a program that hashes for each line, and prints the tag and the milliseconds."""
    kept.append(process := subprocess.Popen(words, stdin=subprocess.PIPE, stdout=subprocess.PIPE, text=True))

    def run():
        print(file=process.stdin, flush=True)
        answer, milliseconds = process.stdout.readline().split()
        TAG.raw = bytes.fromhex(answer)
        return float(milliseconds)
    return run


def upstream(library, cost):
    """libargon2, and the C reference with vectors."""
    memory, passes, lanes, threads = cost
    context = struct.pack('PIPIPIPIPI5IPPI', addressof(TAG), len(TAG), addressof(PASSWORD), 8, addressof(SALT), 16,
                          0, 0, 0, 0, passes, memory, lanes, threads, VERSION, 0, 0, 0)
    return timed(library.argon2_ctx, context, ARGON2ID)


def libsodium(library, cost):
    """Its call has no parameter for lanes."""
    memory, passes, lanes, _ = cost
    library.sodium_init()
    return lanes == 1 and timed(
        library.crypto_pwhash_argon2id, TAG, c_uint64(len(TAG)), PASSWORD, c_uint64(8), SALT, c_uint64(passes),
        c_size_t(memory * 1024), ARGON2ID)


def crate(name, library, cost):
    return hasattr(library, name) and timed(library[name], *cost, TAG)


def openssl(library, cost):
    """Its parameters are as openssl/params.h has them: a name, a kind (2 a number, 5 bytes), and where it is."""
    library.EVP_KDF_fetch.restype = library.EVP_KDF_CTX_new.restype = c_void_p
    library.OSSL_set_max_threads(None, c_uint64(8))
    context = c_void_p(library.EVP_KDF_CTX_new(c_void_p(library.EVP_KDF_fetch(None, b'ARGON2ID', None))))
    names = [*map(create_string_buffer, (b'memcost', b'iter', b'lanes', b'threads', b'pass', b'salt'))]
    values = [*map(c_uint32, cost), PASSWORD, SALT]
    kept.append((names, values))
    parameters = b''.join(struct.pack('PIPNN', addressof(name), kind, addressof(value), ctypes.sizeof(value), 0)
                          for name, kind, value in zip(names, (2, 2, 2, 2, 5, 5), values)) + bytes(40)
    return timed(lambda: library.EVP_KDF_derive(context, TAG, c_size_t(len(TAG)), parameters) != 1)


# An implementation: its names in figures.txt and on pages; a library of the machine or of bench/run; and what makes the
# timed call, which returns milliseconds. It makes none for unsupported cases.
Peer = namedtuple('Peer', 'name label library call')
PEERS = (
    Peer('v4', 'this library, AVX-512', 'v4.so', ours),
    Peer('v3', 'this library, AVX2', 'v3.so', ours),
    Peer('v2', 'this library, no AVX2', 'v2.so', ours),
    Peer('node', 'this library, Node', 'package/src/index.js', partial(node, 'native')),
    Peer('go', 'this library, Go', 'go/peers', partial(go, 'ours')),
    Peer('wasm', 'this library, Node, WebAssembly', 'package/src/index.js', partial(node, 'wasm')),
    Peer('java', 'this library, Java', 'java.jar', partial(java, 'ours')),
    Peer('reusing', 'this library, reusable buffer', 'reusing.so', reusing),
    Peer('libsodium', 'libsodium', 'libsodium.so.23', libsodium),
    Peer('reference-native', 'C reference, native', 'reference-native.so', upstream),
    Peer('reference-v3', 'C reference, AVX2', 'reference-v3.so', upstream),
    Peer('libargon2', 'libargon2', 'libargon2.so.1', upstream),
    Peer('rust-argon2', 'rust-argon2 3.0.0', 'crates.so', partial(crate, 'rust_argon2')),
    Peer('rustcrypto', 'RustCrypto argon2', 'crates.so', partial(crate, 'rustcrypto')),
    Peer('x-crypto', 'x/crypto, Go', 'go/peers', partial(go, 'theirs')),
    Peer('bouncy-castle', 'Bouncy Castle', 'java.jar', partial(java, 'theirs')),
    Peer('openssl', 'OpenSSL', 'newer/usr/lib/x86_64-linux-gnu/libcrypto.so.3', openssl))


def load(folder, name):
    """Returns a library, a module for Node, a program of Go, or a jar; None if it is not there. Our library chooses its
    build at its first call, here the one in its file's name."""
    path = Path(folder, name).absolute()
    if path.suffix in ('.js', '.jar', ''):
        return path if path.exists() else None
    try:
        library = ctypes.CDLL(name if name.startswith('lib') else str(path))
    except OSError:
        return None
    if name[0] == 'v':
        os.environ['PROVED_ARGON2_CPU'] = f'x86-64-{path.stem}'
        ours(library, (8, 1, 1, 1))()
        del os.environ['PROVED_ARGON2_CPU']
    return library


def prepare(loaded, cost):
    """Returns the calls to time in a case, by implementation; all return the same tag."""
    hashes, tags = {}, {}
    kept.clear()
    for peer, library in loaded.items():
        TAG.raw, run = bytes(len(TAG)), peer.call(library, cost)
        if run and run() is not None:
            hashes[peer.name], tags[TAG.raw.hex()] = run, peer.name
    if len(tags) != 1:
        sys.exit(f'{cost}: other tags: {tags}')
    return hashes


def measure(loaded, cost, seconds):
    """Times rounds, each in a new random order. Each implementation hashes twice in a round, and the second hash
    counts: the first one depends on what ran before, since some implementations give memory back to the system."""
    hashes = prepare(loaded, cost)
    spent, end = {name: [] for name in hashes}, time.perf_counter() + seconds * cost[3]
    # The first round is a cold one.
    while min(map(len, spent.values())) < 2 or time.perf_counter() < end:
        for name, times in random.sample([*spent.items()], len(spent)):
            hashes[name]()
            times.append(hashes[name]() or sys.exit(f'{name} fails'))
    return {name: f'{min(times):.4g} {statistics.median_high(times):.4g}' for name, times in spent.items()}


def column(kind, cost):
    """Returns the name of a case on a kind of kernel."""
    return '{} ({}, {}, {}) x {}'.format(kind, *cost)


def load_all(folder):
    """Returns the libraries that are there, by their implementations."""
    return {peer: library for peer in PEERS if (library := load(folder, peer.library))}


def kinds():
    """Sets each kind of kernel in turn, and finally restores the original."""
    as_it_was = re.search(r'\[(.*)\]', SWITCH.read_text())[1]
    try:
        for kind in KINDS:
            SWITCH.write_text(kind)
            yield kind
    finally:
        SWITCH.write_text(as_it_was)


def main(folder, seconds):
    loaded = load_all(folder)
    columns = {column(kind, cost): measure(loaded, cost, float(seconds)) for kind in kinds() for cost in COSTS}
    print('case', *columns, sep='\t')
    for name in dict.fromkeys(itertools.chain(*columns.values())):
        print(name, *(times.get(name, '–') for times in columns.values()), sep='\t')


if __name__ == '__main__':
    main(*sys.argv[1:])
