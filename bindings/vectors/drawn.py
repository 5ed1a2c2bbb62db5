"""Hashes of libargon2, another implementation, of settings and inputs drawn from a seed, as lines of raw.txt: drawn.py
SEED COUNT. Half of the lengths are short, and half around those at which code may change its way. Or a string with
associated data in it, as node-argon2 writes it: drawn.py data"""
import base64
import ctypes
import random
import sys

VARIANTS = {"argon2d": 0, "argon2i": 1, "argon2id": 2}
LENGTHS, LANES = (0, 8, 32, 64, 72, 128, 200, 300, 1000), (16, 64, 256, 333, 400)


class Context(ctypes.Structure):
    """`argon2_context` of argon2.h."""

    _fields_ = [
        ("out", ctypes.c_char_p), ("outlen", ctypes.c_uint32), ("pwd", ctypes.c_char_p), ("pwdlen", ctypes.c_uint32),
        ("salt", ctypes.c_char_p), ("saltlen", ctypes.c_uint32), ("secret", ctypes.c_char_p),
        ("secretlen", ctypes.c_uint32), ("ad", ctypes.c_char_p), ("adlen", ctypes.c_uint32),
        ("t_cost", ctypes.c_uint32), ("m_cost", ctypes.c_uint32), ("lanes", ctypes.c_uint32),
        ("threads", ctypes.c_uint32), ("version", ctypes.c_uint32), ("allocate", ctypes.c_void_p),
        ("free", ctypes.c_void_p), ("flags", ctypes.c_uint32),
    ]


def length(source, least):
    """A length of at least this many bytes."""
    near = source.choice(LENGTHS) + source.randint(-2, 2)
    return max(least, near) if source.randrange(2) else source.randint(least, 40)


def drawn(source):
    """A line's settings and inputs. Every second salt is text, which a command can be given as an argument."""
    lanes = source.randint(1, 20) if source.randrange(10) else source.choice(LANES) + source.randint(-1, 1)
    password, secret, data = (source.randbytes(length(source, 0)) for _ in range(3))
    salt = source.randbytes(length(source, 8))
    if source.randrange(2):
        salt = bytes(97 + byte % 26 for byte in salt)
    if source.randrange(2):
        secret = data = b""
    return {
        "variant": source.choice(list(VARIANTS)),
        "version": source.choice((16, 19)),
        "t": source.randint(1, 3),
        "m": 8 * lanes + source.randint(0, 100),
        "p": lanes,
        "length": length(source, 4),
        "inputs": [password, salt, secret, data],
    }


def tag(library, case):
    out = ctypes.create_string_buffer(case["length"])
    arguments = [part for piece in case["inputs"] for part in (piece, len(piece))]
    context = Context(
        ctypes.cast(out, ctypes.c_char_p), case["length"], *arguments, case["t"], case["m"], case["p"], 1,
        case["version"], None, None, 0)
    code = library.argon2_ctx(ctypes.byref(context), VARIANTS[case["variant"]])
    if code != 0:
        raise ValueError(f"libargon2 returns {code} for {case}")
    return out.raw


def with_data(library):
    inputs = [b"password", b"somesalt", b"", b"user 7"]
    case = {"variant": "argon2id", "version": 19, "t": 2, "m": 256, "p": 1, "length": 32, "inputs": inputs}
    parts = inputs[1], inputs[3], tag(library, case)
    salt, data, made = (base64.b64encode(part).decode().rstrip("=") for part in parts)
    return f"$argon2id$v=19$m=256,t=2,p=1,data={data}${salt}${made}"


def main():
    library = ctypes.CDLL("libargon2.so.1")
    if sys.argv[1:] == ["data"]:
        print(with_data(library))
        return
    seed, count = map(int, sys.argv[1:])
    source = random.Random(seed)
    for _ in range(count):
        case = drawn(source)
        pieces = [piece.hex() or "-" for piece in case["inputs"]]
        print(case["variant"], case["version"], case["t"], case["m"], case["p"], case["length"], *pieces,
              tag(library, case).hex())


if __name__ == "__main__":
    main()
