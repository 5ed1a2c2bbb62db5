"""BLAKE2b in Python, after RFC 7693 line by line. Its words may be symbolic terms.
`check` compares it with the RFC's hashes."""

from rfc9106 import MASK, rotated, words_of

IV = (0x6a09e667f3bcc908, 0xbb67ae8584caa73b, 0x3c6ef372fe94f82b, 0xa54ff53a5f1d36f1,
      0x510e527fade682d1, 0x9b05688c2b3e6c1f, 0x1f83d9abfb41bd6b, 0x5be0cd19137e2179)
SIGMA = tuple(tuple(int(digit, 16) for digit in row) for row in (
    '0123456789abcdef', 'ea489fd61c02b753', 'b8c052fdae367194', '7931dcbe265a40f8', '905724afe1bc683d',
    '2c6a0b834d75fe19', 'c51fed4a0763928b', 'db7ec13950f4862a', '6fe9b308c2d714a5', 'a2847615fb9e3cd0'))


def mix(v, a, b, c, d, x, y):
    """G (3.1)."""
    for far, near, word in ((32, 24, x), (16, 63, y)):
        v[a] = (v[a] + v[b] + word) & MASK
        v[d] = rotated(v[d] ^ v[a], far)
        v[c] = (v[c] + v[d]) & MASK
        v[b] = rotated(v[b] ^ v[c], near)


def compress(h, m, low, high, is_last):
    """F (3.2) of a state, the words of a block, the two words of the counter, and the flag."""
    v = [*h, *IV]
    v[12], v[13] = v[12] ^ low, v[13] ^ high
    if is_last:
        v[14] ^= MASK
    for number in range(12):
        s = SIGMA[number % 10]
        for k in range(4):
            mix(v, k, 4 + k, 8 + k, 12 + k, m[s[2 * k]], m[s[2 * k + 1]])
        for k in range(4):
            mix(v, k, 4 + (k + 1) % 4, 8 + (k + 2) % 4, 12 + (k + 3) % 4, m[s[8 + 2 * k]], m[s[9 + 2 * k]])
    return [h[k] ^ v[k] ^ v[8 + k] for k in range(8)]


def blake2b(length, message, key=b''):
    """(3.3)."""
    h = [IV[0] ^ 0x01010000 ^ len(key) << 8 ^ length, *IV[1:]]
    data = (key.ljust(128, b'\0') if key else b'') + message
    for at in range(0, max(len(data), 1), 128):
        end = min(at + 128, len(data))
        h = compress(h, words_of(data[at:end].ljust(128, b'\0')), end, 0, end == len(data))
    return b''.join(word.to_bytes(8, 'little') for word in h)[:length]


def sequence(length, seed):
    """selftest_seq (appendix E)."""
    a, b, found = 0xdead4bad * seed & 0xffffffff, 1, b''
    for _ in range(length):
        a, b = b, a + b & 0xffffffff
        found += bytes([b >> 24])
    return found


def check():
    """Returns whether the hash of "abc" (appendix A) and that of 48 hashes, half of them with a key (appendix E), come
    out."""
    hashes = b''
    for length in (20, 32, 48, 64):
        for size in (0, 3, 128, 129, 255, 1024):
            message = sequence(size, size)
            hashes += blake2b(length, message) + blake2b(length, message, sequence(length, length))
    return (blake2b(64, b'abc').hex(), blake2b(32, hashes).hex()) == (
        'ba80a53f981c4d0d6a2797b69f12f6e94c212f14685ac4b74b12bb6fdbffa2d1'
        '7d87c5392aab792dc252d5de4533cc9518d38aa8dbf1925ab92386edd4009923',
        'c23a7800d98123bd10f506c61e29da5603d763b8bbad2e737f5e765a7bccd475')
