"""Translates the proved code from WebAssembly to C, by wabt. Each address becomes an address in the C program's memory.

    translate.py MODULE OTHER FILE

wasm2c knows no memory with addresses of 64 bits, and gives a module a memory of its own, into which all would have to
be copied. So each instruction that loads or stores becomes a call of a function of its name (module.h), and the module
has no memory any more: wasm2c translates the rest as it is. Constants that are addresses of the module's own data
become offsets from the start of these data. To find such constants, MODULE and OTHER are the same code linked with its
data at two addresses; both must become the same C.
"""
import re
import subprocess
import sys
import tempfile
from dataclasses import dataclass, field

RED_ZONE = 128  # bytes that a function without calls may use below the stack pointer
# Functions that call themselves, and how often at most: each call halves a length or drops one of ten digits.
RECURSIVE = {"$argon2_blocks::blake2b::wipe": 64, "$argon2_text::encoding::placing::put_number": 10,
             "$argon2_text::encoding::lengths::num_len": 10}
ACCESS = re.compile(r"(\s*)((i32|i64)\.(load|store)\w*)(?: offset=(\d+))?(?: align=\d+)?(\)*)")
BULK = re.compile(r"(\s*)memory\.(copy|fill)(\)*)")
CONSTANT = re.compile(r"(\s*)i64\.const (\d+)(\)*)")
DATA = re.compile(r'\s*\(data \S+ \(i64\.const (\d+)\) "(.*)"\)(\)*)')
FRAME = re.compile(r"global\.get \$__stack_pointer\s+i64\.const (\d+)\s+i64\.sub")
OF_MEMORY = re.compile(r'\s*\((memory |export "(memory|__heap_base)" |global \(;)')
STACK_POINTER = "  (global $__stack_pointer (mut i64) (i64.const 0))\n  (global $data (mut i64) (i64.const 0))"
# What is taken of wasm2c's files: the instance's structure, and the functions of the module.
STRUCTURE = re.compile(r"^typedef struct Z_proved_instance_t \{.*?^\} Z_proved_instance_t;\n", re.M | re.S)
DECLARED = re.compile(r"^}\n\n(static \w+ w2c_.*?)^static void init_globals", re.M | re.S)
# The exports that name the next block: only the proved calls make these calls, and not through the exports.
UNCALLED = re.compile(r"^static u64 w2c_(?:rattle__export_)?proved_argon2_(?:expect|fill_ahead)\([^;{]*\)"
                      r"(?:;\n| \{.*?^\}\n+)", re.M | re.S)
DEFINED = re.compile(r"^(static \w+ w2c_\w+\([^;]*?\) \{.*?)^/\* export: ", re.M | re.S)
BULK_TAKES = {"copy": "i64 i64 i64", "fill": "i64 i32 i64"}
HEAD = """/* Made by bindings/portable/translate.py: the proved code, by wasm2c of the WebAssembly module. Its functions
 * have the names that they have in Rattle. */
"""


def output_of(*command):
    return subprocess.run(command, check=True, stdout=subprocess.PIPE, text=True).stdout


@dataclass
class Module:
    """A module as text, and what its data are and where."""
    lines: list
    base: int = 0
    data: bytearray = field(default_factory=bytearray)

    def has(self, address):
        return self.base <= address <= self.base + len(self.data)


def unescaped(text):
    def byte(found):
        return bytes.fromhex(found[1].decode()) if len(found[1]) == 2 else found[1]

    return re.sub(rb"\\([0-9a-f]{2}|.)", byte, text.encode())


def read_module(file):
    module = Module(output_of("wasm2wat", "--enable-memory64", file).splitlines())
    for at, content, _ in (found.groups() for found in map(DATA.fullmatch, module.lines) if found):
        module.base = module.base or int(at)
        module.data.extend(bytes(int(at) - module.base - len(module.data)) + unescaped(content))
    if "call_indirect" in "".join(module.lines) or not module.data:
        raise SystemExit(f"{file}: it calls functions by number, or has no data")
    return module


# ---- each instruction

def constant(module, indent, number, close=""):
    """A number, or the address of a datum as its offset from the start of the data."""
    if not module.has(number):
        return [f"{indent}i64.const {number}{close}"]
    return [f"{indent}{line}" for line in ("global.get $data", f"i64.const {number - module.base}", f"i64.add{close}")]


def translated(module, line, used):
    """The lines that replace one line. Calls that it needs for memory are added to `used` with their types."""
    if OF_MEMORY.match(line):
        return []
    if "(global $__stack_pointer " in line:
        return [STACK_POINTER]
    if found := DATA.fullmatch(line):
        return [found[3]] if found[3] else []
    if found := ACCESS.fullmatch(line):
        indent, name, kind, what, offset, close = found.groups()
        name = name.replace(".", "_")
        used[name] = f"(param i64 i64) (result {kind})" if what == "load" else f"(param i64 {kind} i64)"
        return constant(module, indent, int(offset or 0)) + [f"{indent}call ${name}{close}"]
    if found := BULK.fullmatch(line):
        used[found[2]] = f"(param {BULK_TAKES[found[2]]})"
        return [f"{found[1]}call ${found[2]}{found[3]}"]
    if found := CONSTANT.fullmatch(line):
        return constant(module, found[1], int(found[2]), found[3])
    return [line]


def without_memory(module):
    """The text of a module that calls functions for all that it does with memory."""
    used = {}
    lines = [new for line in module.lines for new in translated(module, line, used)]
    first = next(at for at, line in enumerate(lines) if line.startswith("  (func "))
    lines[first:first] = [f'  (import "memory" "{name}" (func ${name} {types}))'
                          for name, types in sorted(used.items())]
    return "\n".join(lines)


def deepest_stack(module):
    """The most bytes of stack that a call and its callees take. Only functions in RECURSIVE call themselves."""
    functions = dict(re.findall(r"^  \(func (\S+)(.*?)(?=^  \()", "\n".join(module.lines), re.M | re.S))
    depths = {}

    def depth_of(name, above):
        if name in above:
            raise SystemExit(f"{name} calls itself")
        if name not in depths:
            called = set(re.findall(r"\bcall (\$\S+?)\)*$", functions[name], re.M))
            own = sum(map(int, FRAME.findall(functions[name])))
            if name in called and (times := RECURSIVE.get(name.split("::<")[0])):
                called, own = called - {name}, times * own
            depths[name] = own + max((depth_of(other, above | {name}) for other in called), default=RED_ZONE)
        return depths[name]

    return max(depth_of(name, frozenset()) for name in functions)


# ---- the C

def made_c(module):
    """Returns what wasm2c makes of a module: only its structure and its functions."""
    with tempfile.TemporaryDirectory() as folder:
        with open(f"{folder}/m.wat", "w", encoding="utf-8") as file:
            file.write(without_memory(module))
        output_of("wat2wasm", "--debug-names", f"{folder}/m.wat", "-o", f"{folder}/m.wasm")
        output_of("wasm2c", f"{folder}/m.wasm", "-n", "proved", "-o", f"{folder}/m.c")
        with open(f"{folder}/m.h", encoding="utf-8") as header, open(f"{folder}/m.c", encoding="utf-8") as code:
            structure = STRUCTURE.search(header.read())[0]
            text = code.read()
    return structure + "\n" + UNCALLED.sub("", DECLARED.search(text)[1] + DEFINED.search(text)[1]).rstrip()


def data_of(module):
    """The data, in which each address is an offset from their start; and where these addresses are."""
    data, addresses = bytearray(module.data), []
    for at in range(0, len(data) - 7, 8):
        address = int.from_bytes(data[at:at + 8], "little")
        if module.has(address):
            data[at:at + 8] = (address - module.base).to_bytes(8, "little")
            addresses.append(at)
    return data, addresses


def numbers(values):
    words = [str(value) for value in values]
    return "\n".join("    " + ", ".join(words[at:at + 20]) + "," for at in range(0, len(words), 20))


def file_of(module):
    data, addresses = data_of(module)
    return f"""{HEAD}
#define MODULE_STACK {deepest_stack(module)} /* bytes that the deepest call takes */

static const u8 module_data[{len(data)}] = {{
{numbers(data)}
}};

/* where an address is among them, from their beginning */
static const u16 module_addresses[{len(addresses)}] = {{
{numbers(addresses)}
}};

{made_c(module)}
"""


def main(first, second, to):
    modules = [read_module(file) for file in (first, second)]
    made = {file_of(module) for module in modules}
    if len(made) != 1 or modules[0].base == modules[1].base:
        raise SystemExit(f"{first} and {second} are not the same code with its data at two addresses")
    with open(to, "w", encoding="utf-8") as file:
        file.write(made.pop())


if __name__ == "__main__":
    main(*sys.argv[1:])
