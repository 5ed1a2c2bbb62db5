#!/usr/bin/env -S python3 -B
"""Writes src/ffi/calls.rs: declares for Rust the calls of the C library that src/ffi.rs makes, as in the headers."""
import re
import sys
from pathlib import Path

HERE = Path(__file__).resolve().parent
HEADERS = HERE.parents[1] / "bindings/c/include"
FFI = HERE / "src/ffi.rs"
COMMENT = re.compile(r"/\*.*?\*/", re.S)
CALL = re.compile(
    r"^(void|uint32_t|uint64_t|const char \*|proved_argon2_\w+) ?(proved_argon2_\w+)\(([^()]*)\);", re.M)
ARGUMENT = re.compile(r"(const )?(\w+) (\**)(\w+)(?:\[\w+\])?")
TYPES = {"void": "c_void", "char": "u8", "const char *": "*const u8", "uint8_t": "u8", "uint32_t": "u32",
         "uint64_t": "u64", "size_t": "usize", "proved_argon2_settings": "Settings", "proved_argon2_stored": "Stored",
         "proved_argon2_limits": "Limits", "proved_argon2_options": "Options", "proved_argon2_tuning": "Tuning",
         "proved_argon2_buffers": "c_void"}
HEAD = """//! The calls of the C library, as its headers declare them: made by `declare.py`.

use super::{Limits, Options, Settings, Stored, Tuning};
use std::ffi::c_void;

#[allow(dead_code)] // some are called by tests alone
#[rustfmt::skip] // as the headers are laid out
extern "C" {
"""


def argument(found):
    """An argument of C in Rust: `const uint8_t *pwd` is `pwd: *const u8`."""
    constant, kind, stars, name = found.groups()
    pointers = "*mut " * (len(stars) - 1) + ("*const " if constant else "*mut ") * bool(stars)
    return f"{name}: {pointers}{TYPES[kind]}"


def declaration(returned, name, taken):
    """The declaration of a call in Rust, with the line breaks of the header."""
    arguments = "" if taken == "void" else ARGUMENT.sub(argument, taken).replace("\n", "\n    ")
    return f"    pub fn {name}({arguments}){'' if returned == 'void' else f' -> {TYPES[returned]}'};\n"


def main():
    text = "".join(COMMENT.sub("", header.read_text(encoding="utf-8")) for header in HEADERS.glob("*.h"))
    calls = {name: (returned, name, taken) for returned, name, taken in CALL.findall(text)}
    named = sorted({*re.findall(r"\b(proved_argon2_\w+)[(,]", FFI.read_text(encoding="utf-8"))})
    if not named or (missing := [name for name in named if name not in calls]):
        sys.exit(f"no header declares {missing or 'any call'}")
    made = "".join(declaration(*calls[name]) for name in named)
    (HERE / "src/ffi/calls.rs").write_text(f"{HEAD}{made}}}\n", encoding="utf-8")


if __name__ == "__main__":
    main()
