"""The archive, the shared object of the wheel and Node's addon in programs with musl in place of the GNU C library, and
programs of Rust, statically. The tests in C are bindings/c's, for the target musl.
"""
import re
import shutil

from running import TOP, VERSION, built, needs, refuses, run, start

BINDINGS, MADE = TOP / 'bindings', built() / 'x86_64'
ARCHIVE, SHARED = MADE / 'libproved_argon2.a', MADE / f'libproved_argon2.so.{VERSION}'
CC = *'musl-gcc -std=c11 -D_GNU_SOURCE -O2 -Wall -Wextra -Werror -I'.split(), TOP / 'bindings/c/include'
ENCODED = '$argon2id$v=19$m=256,t=2,p=2$c29tZXNhbHQ$bQk8UB/VmZZF4Oo79iDXuL5/0ttZwg2f/5U52iv1cDc'
TAG = '6d093c501fd5999645e0ea3bf620d7b8be7fd2db59c20d9fff9539da2bf57037'
# A program of Rust's core library over the calls: no part of it is from another C library.
OF_CORE = """
#![no_std]
#![no_main]
extern "C" {
    fn proved_argon2_password_verify(text: *const u8, pwd: *const u8, pwd_len: usize) -> u32;
    fn abort() -> !;
}
#[panic_handler]
fn panic(_: &core::panic::PanicInfo) -> ! {
    unsafe { abort() }
}
#[no_mangle]
extern "C" fn main() -> i32 {
    let text = b"$argon2id$v=19$m=256,t=2,p=1$c29tZXNhbHQ$nf65EOgLrQMR/uIPnA4rEsF5h7TKyQwu9U1bMCHGi/4\\0";
    let verify = |pwd: &[u8]| unsafe { proved_argon2_password_verify(text.as_ptr(), pwd.as_ptr(), pwd.len()) };
    (verify(b"password") != 0 || verify(b"Password") != 64) as i32
}
"""
# Rust's std for glibc calls these two functions, which musl lacks.
OF_GLIBC = """
#include <link.h>
struct found { unsigned long long flags; void *begin, *end, *map, *eh_frame; unsigned long long more[7]; };
static int look(struct dl_phdr_info *object, size_t size, void *found)
{
    for (int index = 0; size && index < object->dlpi_phnum; index++) {
        if (object->dlpi_phdr[index].p_type == PT_GNU_EH_FRAME) {
            ((struct found *)found)->eh_frame = (void *)(object->dlpi_addr + object->dlpi_phdr[index].p_vaddr);
        }
    }
    return 1;
}
int _dl_find_object(void *pc, struct found *found);
int _dl_find_object(void *pc, struct found *found)
{
    found->eh_frame = 0;
    dl_iterate_phdr(look, found);
    return pc && found->eh_frame ? 0 : -1;
}
const char *gnu_get_libc_version(void);
const char *gnu_get_libc_version(void) { return "2.34"; }
"""

pytestmark = needs('musl-gcc')


# ---- in C

def loaded_by_musl(program, *words):
    run(*CC, *words, '-o', program)
    assert 'ld-musl-x86_64.so.1' in run('readelf', '-lW', program)
    return program


def test_loads_the_shared_object_of_the_wheel(tmp_path):
    program = loaded_by_musl(tmp_path / 'loads', BINDINGS / 'tests/loads.c')
    assert run(program, SHARED).startswith(f'0 {ENCODED}')


def test_loads_the_addon(tmp_path):
    """A stand-in has those parts of Node that hashing needs."""
    folder = BINDINGS / 'javascript'
    program = loaded_by_musl(tmp_path / 'addon', '-I', folder / 'addon', '-rdynamic', '-Wl,--wrap=pthread_create',
                             folder / 'tests/addon.c')
    said = run(program, MADE / 'proved_argon2.node')
    assert said.count('passed: ') == 3 and TAG in said


# ---- in Rust

@needs('cargo')
def test_static_program_of_core(tmp_path):
    source, program = tmp_path / 'program.rs', tmp_path / 'program'
    source.write_text(OF_CORE, encoding='utf-8')
    run('rustc', '--edition', '2021', '-O', '-C', 'panic=abort', '--crate-type', 'lib', source, '--emit',
        f'obj={program}.o')
    run('musl-gcc', '-static', f'{program}.o', ARCHIVE, '-o', program)
    for build, status in (('', 0), ('x86-64-v2', 0), ('none', 1)):
        assert start(program, env={'PROVED_ARGON2_CPU': build}).returncode == status


@needs('cargo')
def test_crate_passes_its_tests(cargo, tmp_path):
    """They include the outside vectors by threads. Debian has no target with musl's std, so cargo links musl in place
    of the C library of Rust's std."""
    (tmp_path / 'of_std.c').write_text(OF_GLIBC, encoding='utf-8')
    run(*CC, '-c', tmp_path / 'of_std.c', '-o', tmp_path / 'of_std.o')
    flags = ('linker=musl-gcc', 'target-feature=+crt-static', 'relocation-model=static',
             f'link-arg={tmp_path}/of_std.o', 'link-arg=-Wl,-u,pthread_once')
    how = dict(PROVED_ARGON2_LIB_DIR=MADE, CARGO_BUILD_TARGET='x86_64-unknown-linux-gnu',
               CARGO_TARGET_DIR=tmp_path / 'target', RUSTFLAGS=' '.join(f'-C {flag}' for flag in flags))
    done = start('cargo', 'test', '--tests', '--no-fail-fast', '--offline', cwd=BINDINGS / 'rust', env={**cargo, **how})
    shown = done.stdout + done.stderr
    assert done.returncode == 0 and len(re.findall(r'^test .* \.\.\. ok$', shown, re.M)) >= 30, shown
    program = re.search(r'Running tests.vectors\.rs \((.*)\)$', shown, re.M)[1]
    assert 'INTERP' not in run('readelf', '-lW', program) and ' __libc_malloc_impl' in run('nm', program)


@needs('cargo')
def test_crate_finds_its_archive(tmp_path):
    """The archive is where ./package puts it, for a target with musl, and for ARM64."""
    build, of = tmp_path / 'build', dict(
        CARGO_MANIFEST_DIR=str(tmp_path), CARGO_CFG_TARGET_OS='linux', CARGO_CFG_TARGET_ENV='musl',
        CARGO_CFG_TARGET_POINTER_WIDTH='64', CARGO_CFG_TARGET_ENDIAN='little')
    run('rustc', '--edition', '2021', BINDINGS / 'rust/build.rs', '-o', build, env=of)
    for machine, libc in (('x86_64', 'musl'), ('aarch64', 'gnu')):
        (tmp_path / 'lib' / machine).mkdir(parents=True)
        shutil.copy(ARCHIVE, tmp_path / 'lib' / machine)
        named = {**of, 'CARGO_CFG_TARGET_ARCH': machine, 'CARGO_CFG_TARGET_ENV': libc}
        assert f'link-search=native={tmp_path}/lib/{machine}\n' in run(build, env=named)
    refuses(1, 'there is no libproved_argon2.a for riscv64gc-unknown-linux-musl', build,
            env={**of, 'CARGO_CFG_TARGET_ARCH': 'riscv64', 'TARGET': 'riscv64gc-unknown-linux-musl'})
