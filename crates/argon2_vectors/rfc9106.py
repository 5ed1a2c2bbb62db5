"""Argon2 in Python, after RFC 9106 line by line, over BLAKE2b of hashlib. Its answers do not come
from this library. `check` compares its tags with those of the RFC's section 5."""
import hashlib

MASK = (1 << 64) - 1
D, I, ID = 0, 1, 2


def le32(number):
    return number.to_bytes(4, "little")


def blake2b(length, message):
    return hashlib.blake2b(message, digest_size=length).digest()


def hprime_pieces(length, message):
    """H' (3.3) as the pieces that it joins: the hash itself, or the W 1 .. W r and V r+1."""
    if length <= 64:
        return [blake2b(length, le32(length) + message)]
    r = -(-length // 32) - 2
    v = blake2b(64, le32(length) + message)
    pieces = [v[:32]]
    for _ in range(r - 1):
        v = blake2b(64, v)
        pieces.append(v[:32])
    return pieces + [blake2b(length - 32 * r, v)]


def hprime(length, message):
    return b"".join(hprime_pieces(length, message))


def mix(v, a, b, c, d):
    """GB (3.6)."""
    for far, near in ((32, 24), (16, 63)):
        v[a] = (v[a] + v[b] + 2 * (v[a] & 0xFFFFFFFF) * (v[b] & 0xFFFFFFFF)) & MASK
        v[d] = rotated(v[d] ^ v[a], far)
        v[c] = (v[c] + v[d] + 2 * (v[c] & 0xFFFFFFFF) * (v[d] & 0xFFFFFFFF)) & MASK
        v[b] = rotated(v[b] ^ v[c], near)


def rotated(word, bits):
    return (word >> bits | word << (64 - bits)) & MASK


def permuted(v):
    """P (3.6) of 16 words."""
    v = list(v)
    for k in range(4):
        mix(v, k, 4 + k, 8 + k, 12 + k)
    for k in range(4):
        mix(v, k, 4 + (k + 1) % 4, 8 + (k + 2) % 4, 12 + (k + 3) % 4)
    return v


def compress(x, y):
    """G (3.5) of two blocks of 128 words."""
    r = [a ^ b for a, b in zip(x, y)]
    z = []
    for row in range(8):
        z += permuted(r[16 * row:16 * row + 16])
    for column in range(8):
        places = [16 * row + 2 * column + half for row in range(8) for half in (0, 1)]
        for place, word in zip(places, permuted([z[place] for place in places])):
            z[place] = word
    return [a ^ b for a, b in zip(z, r)]


def words_of(data):
    return [int.from_bytes(data[at:at + 8], "little") for at in range(0, len(data), 8)]


class Setting:
    """The inputs of a hash, and the numbers that follow from them (3.1, 3.2)."""

    def __init__(self, variant, version, time, memory, lanes, length, password, salt, secret=b"", data=b""):
        self.variant, self.version, self.time, self.memory = variant, version, time, memory
        self.lanes, self.length, self.password = lanes, length, password
        self.segment = memory // (4 * lanes)
        self.columns = 4 * self.segment
        self.first = b"".join(map(le32, (lanes, length, memory, time, version, variant)))
        for item in (password, salt, secret, data):
            self.first += le32(len(item)) + item
        self.h0 = blake2b(64, self.first)

    def first_block(self, lane, column):
        return hprime(1024, self.h0 + le32(column) + le32(lane))

    def is_independent(self, r, s):
        return self.variant == I or self.variant == ID and r == 0 and s < 2

    def drawn(self, r, lane, s, index):
        """The word of an address block (3.4.1.2)."""
        words = [r, lane, s, self.lanes * self.columns, self.time, self.variant, index // 128 + 1]
        zero = [0] * 128
        return compress(zero, compress(zero, words + [0] * 121))[index % 128]

    def reference_set(self, r, s, index, is_own):
        """W (3.4.2): the passes and columns of a lane that a block may refer to."""
        start = s * self.segment
        w = [(r - 1, column) for column in range(start + self.segment, self.columns)] if r else []
        w += [(r, column) for column in range(start + (index if is_own else 0))]
        return w[:-1] if is_own or index == 0 else w

    def reference(self, r, lane, s, index, word):
        """The lane, pass and column that a drawn word picks (3.4.2)."""
        other = lane if r == 0 and s == 0 else (word >> 32) % self.lanes
        w = self.reference_set(r, s, index, other == lane)
        x = (word & 0xFFFFFFFF) ** 2 >> 32
        y = len(w) * x >> 32
        return other, *w[len(w) - 1 - y]

    def positions(self, r, lane, s, first, count):
        """The lanes and columns that blocks from an index on refer to, in an independent segment."""
        for index in range(first, first + count):
            other, _, column = self.reference(r, lane, s, index, self.drawn(r, lane, s, index))
            yield other, column

    def filled(self):
        """All blocks, by lane and column, after the last pass."""
        blocks = {(lane, column): words_of(self.first_block(lane, column))
                  for lane in range(self.lanes) for column in (0, 1)}
        for r in range(self.time):
            for s in range(4):
                for lane in range(self.lanes):
                    for index in range(2 if r == s == 0 else 0, self.segment):
                        self.fill(blocks, r, s, lane, index)
        return blocks

    def combined(self, blocks):
        """The exclusive or of the lanes' last blocks, in bytes."""
        last = [0] * 128
        for lane in range(self.lanes):
            last = [a ^ b for a, b in zip(last, blocks[lane, self.columns - 1])]
        return b"".join(word.to_bytes(8, "little") for word in last)

    def tag(self):
        return hprime(self.length, self.combined(self.filled()))

    def fill(self, blocks, r, s, lane, index):
        column = s * self.segment + index
        before = blocks[lane, (column - 1) % self.columns]
        word = self.drawn(r, lane, s, index) if self.is_independent(r, s) else before[0]
        other, _, at = self.reference(r, lane, s, index, word)
        block = compress(before, blocks[other, at])
        if r and self.version == 19:
            block = [a ^ b for a, b in zip(block, blocks[lane, column])]
        blocks[lane, column] = block


def check():
    """Fails unless the tags of RFC 9106, section 5, come out."""
    for variant, tag in (
        (D, "512b391b6f1162975371d30919734294f868e3be3984f3c1a13a4db9fabe4acb"),
        (I, "c814d9d1dc7f37aa13f0d77f2494bda1c8de6b016dd388d29952a4c4672b6ce8"),
        (ID, "0d640df58d78766c08c037a34a8b53c9d01ef0452d75b65eb52520e96b01e659"),
    ):
        came = Setting(variant, 19, 3, 32, 4, 32, b"\1" * 32, b"\2" * 16, b"\3" * 8, b"\4" * 12).tag()
        if came.hex() != tag:
            raise SystemExit(f"rfc9106.py gives {came.hex()} in place of {tag}")
