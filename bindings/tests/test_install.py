"""./install and `cmake --install` write the listed files, and C programs build and run with them."""
import os
import re
import shutil

import pytest
from running import BUILDS, CC, MACHINE, PROVED, TOP, VERSION, first_lines, flags_of, needs, refuses, run, runs_here
from running import serves, start

LIBRARY = "libproved_argon2.so"
EXAMPLE = TOP / "bindings/c/tests/quick_start.c"
HEADERS = sorted((TOP / "bindings/c/include").glob("*.h"))
# The functions of the headers: each begins on a new line.
CALLS = sorted(re.findall(
    r"^(?:void |uint32_t |uint64_t |const char \*|proved_argon2_(?:settings|limits) )(proved_argon2_[a-z0-9_]*)\(",
    "".join(header.read_text() for header in HEADERS), re.M))
MARKS = {"PREFIX/": "", "LIBDIR": "lib", "VERSION": VERSION, "MAJOR": VERSION.split(".")[0], "MACHINE": MACHINE}
ROWS = re.sub("|".join(MARKS), lambda found: MARKS[found[0]], (TOP / "bindings/packages/files.txt").read_text())
PAGES = "LICENSE NOTICE proved-argon2.spdx README.md SECURITY.md docs/C.md docs/CLAIMS.md docs/LIBARGON2.md " \
        "docs/SHELL.md docs/USE.md"
EXPECTED = {*re.findall("^(?:both|[.]/install) .* (.*)", ROWS, re.M), "share/proved-argon2/installed",
            *(f"share/doc/proved-argon2/{page}" for page in PAGES.split()),
            *(f"share/man/man3/{call}.3" for call in (*CALLS, "proved_argon2"))}


def files_in(folder):
    return {str(path.relative_to(folder)) for path in folder.rglob("*") if path.is_symlink() or not path.is_dir()}


@pytest.fixture(scope="module")
def examples(installed, tmp_path_factory):
    """Returns the example in C with the shared object, by pkg-config, and with the archive."""
    folder = tmp_path_factory.mktemp("examples")
    run(CC, "-std=c11", "-Wall", "-Wextra", "-Werror", EXAMPLE, "-o", folder / "shared", *flags_of(installed))
    run(CC, "-std=c11", EXAMPLE, "-I", installed / "include", installed / "lib/libproved_argon2.a", "-o",
        folder / "static")
    return folder


def test_install_writes_exactly_the_listed_files(installed):
    assert len(CALLS) > 40 and files_in(installed) == EXPECTED


@needs("cmake")
def test_cmake_installs_the_same_files_for_c(built, installed, tmp_path):
    """Three of them have another form, and the replacement of libargon2 is not among them."""
    of_c = {name for name in EXPECTED if re.match("(include|lib)/(?!proved-libargon2/)", name)}
    run("cmake", "-S", "bindings/c", "-B", tmp_path / "made", f"-DPROVED_ARGON2_FROM={built}", "-DBUILD_TESTING=OFF",
        "-DCMAKE_INSTALL_LIBDIR=lib", f"-DCMAKE_C_COMPILER={CC}")
    run("cmake", "--build", tmp_path / "made")
    run("cmake", "--install", tmp_path / "made", "--prefix", tmp_path / "prefix")
    assert files_in(tmp_path / "prefix") == of_c and "lib/cmake/proved-argon2/proved-argon2-config.cmake" in of_c
    for name in (name for name in of_c if not name.endswith((".cmake", ".pc"))):
        assert (tmp_path / "prefix" / name).read_bytes() == (installed / name).read_bytes(), name


def test_the_example_has_the_first_lines_of_the_page():
    assert first_lines("C.md", 15) in EXAMPLE.read_text()


def test_the_service(installed, tmp_path):
    """More clients log in at once than there are places."""
    run(CC, "-std=gnu11", "-Wall", "-Wextra", "-Werror", "-O1", "-I", "docs/examples", "bindings/c/tests/service.c",
        "-o", tmp_path / "service", *flags_of(installed), "-pthread")
    serves(tmp_path / "service", env={"LD_LIBRARY_PATH": installed / "lib"})


@pytest.mark.parametrize("compiler", ["gcc -std=c99 -x c", "g++ -std=c++98 -x c++"])
@pytest.mark.parametrize("header", [header.name for header in HEADERS])
def test_each_header_can_be_included_first(installed, header, compiler):
    code = f"#include <{header}>\nproved_argon2_job a;\nproved_argon2_options b;\nproved_argon2_tuning c;\n"
    run(*compiler.split(), "-Wall", "-Wextra", "-Werror", "-fsyntax-only", "-I", installed / "include", "-", input=code)


def test_pkg_config_knows_the_version_and_the_address(installed):
    said = run("pkg-config", "--print-provides", "proved_argon2", env={"PKG_CONFIG_PATH": installed / "lib/pkgconfig"})
    address = re.search("^Address: (.*)", (TOP / "PROJECT").read_text(), re.M)[1]
    assert said == f"proved_argon2 = {VERSION}\n"
    assert f"URL: {address}\n" in (installed / "lib/pkgconfig/proved_argon2.pc").read_text()


def test_pkg_config_knows_the_version_of_libargon2_that_is_replaced(installed):
    """Programs ask for it or for an older one, such as Debian's."""
    said = run("pkg-config", "--modversion", "libargon2", env={
        "PKG_CONFIG_PATH": installed / "lib/proved-libargon2/pkgconfig"})
    versions = re.search(r"^\| \| libargon2 (\d+), (\d+) \|", (TOP / "docs/LIBARGON2.md").read_text(), re.M)
    assert said.split() == [versions[2]] and int(versions[1]) < int(versions[2])


def configure(installed, folder, version):
    return start("cmake", "-S", "bindings/c/example", "-B", folder, f"-DCMAKE_PREFIX_PATH={installed}",
                 f"-DREQUESTED={version}", f"-DCMAKE_C_COMPILER={CC}")


@needs("cmake")
def test_the_example_builds_by_cmake_with_either_library(installed, tmp_path):
    done = configure(installed, tmp_path, VERSION.rpartition(".")[0])
    assert done.returncode == 0, done.stderr
    run("cmake", "--build", tmp_path)
    run(tmp_path / "example-static")
    run(tmp_path / "example-proved-argon2", env={"LD_LIBRARY_PATH": installed / "lib"})


@needs("cmake")
@pytest.mark.parametrize("place, step", [(0, 1), (0, -1), (2, 1)])
def test_cmake_rejects_a_later_version_and_another_first_number(installed, tmp_path, place, step):
    numbers = [int(number) for number in VERSION.split(".")]
    numbers[place:] = [numbers[place] + step, *numbers[place + 1:]]
    done = configure(installed, tmp_path, ".".join(map(str, numbers if place else numbers[:1])))
    assert done.returncode != 0 and "compatible with requested version" in done.stderr, done


@pytest.mark.parametrize("build", map(runs_here, BUILDS))
def test_each_build_computes_the_example_and_the_outside_vectors(installed, examples, build):
    named = {"PROVED_ARGON2_CPU": build, "LD_LIBRARY_PATH": installed / "lib"}
    for program in "shared", "static":
        run(examples / program, env=named)
    named.update(PYTHONPATH=TOP / "bindings/python/src", PROVED_ARGON2_LIBRARY=f"{LIBRARY}.1")
    run("/usr/bin/python3", "-B", "-m", "pytest", "-q", "bindings/python/tests/test_vectors.py", env=named)


def test_the_shared_object_exports_what_the_headers_declare_and_is_bound_at_once_and_then_read_only(installed):
    said, segments, entries = (run(*words, installed / f"lib/{LIBRARY}.1")
                               for words in (("nm", "-D", "--defined-only"), ("readelf", "-lW"), ("readelf", "-dW")))
    assert sorted(re.findall(r" T (.*)@@PROVED_ARGON2_1$", said, re.M)) == CALLS
    assert re.search(r"GNU_STACK.* RW ", segments) and "GNU_RELRO" in segments and re.search("FLAGS_1.*NOW", entries)


def test_registers_of_256_and_512_bits_are_only_in_the_builds_for_their_processors(built, installed):
    for file, expected in (
        *((built / build / "libargon2_c.a", set() if build == "x86-64-v2" else {"ymm"}) for build in PROVED),
        (installed / f"lib/{LIBRARY}.1", {"ymm", "zmm"}), (installed / "lib/libproved_argon2.a", {"ymm", "zmm"}),
        (installed / f"libexec/proved-argon2/{MACHINE}/argon2_tool", {"ymm", "zmm"}),
    ):
        assert {*re.findall(r"%([yz]mm)\d", run("objdump", "-d", file))} == expected, file


def test_the_library_without_kernels_has_no_code_for_avx_512(built, installed, tmp_path):
    """It is linked as SECURITY.md says, and contains each build whose compression is proved, and no other one."""
    page, program = (TOP / "SECURITY.md").read_text(), tmp_path / "example"
    command, = re.findall(rf"^    (BUILDS=.* build/link {MACHINE}) release out ", page, re.M)
    run("sh", "-c", f'{command} "$0" "$1"', built, tmp_path)
    folder = tmp_path / MACHINE
    for library in folder / "libproved_argon2.a", folder / f"{LIBRARY}.1":
        assert {*re.findall(r"%([yz]mm)\d", run("objdump", "-d", library))} == {"ymm"}
    run(CC, "-I", TOP / "bindings/c/include", EXAMPLE, folder / "libproved_argon2.a", "-pthread", "-o", program)
    names = run("nm", program)
    assert [build for build in BUILDS if f" proved_{build.replace('-', '_')}_" in names] == PROVED
    run(program)
    refuses(1, "", program, env={"PROVED_ARGON2_CPU": "x86-64-v4"})


def test_the_files_require_no_processor_and_run_nothing_when_loaded(installed, examples):
    shared = installed / f"lib/{LIBRARY}.1"
    for file in (shared, installed / "lib/proved-libargon2/libargon2.so.1", examples / "static"):
        assert "ISA needed: x86-64-v" not in run("readelf", "-nW", file)
    assert not re.search("INIT|IRELATIVE", run("readelf", "-dW", shared))
    assert "IRELATIVE" not in run("readelf", "-rW", shared)


def test_the_program_runs_also_by_a_link(installed, tmp_path):
    (tmp_path / "link").symlink_to(installed / "bin/proved-argon2")
    for program in (installed / "bin/proved-argon2", tmp_path / "link"):
        said = run(program, *"hash argon2d 19 2 256 2 32 par somesalt".split(), input="password")
        assert said.endswith("\n$argon2d$v=19$m=256,t=2,p=2$c29tZXNhbHQ$e2nJLXw4iarRKB28i678Esw3yA8cdeM+8sLUDCjrxXM\n")
        assert run(program, "--version") == f"proved-argon2 {VERSION}\n"


def test_installing_again_replaces_open_files_by_new_ones(installed):
    with open(installed / "bin/proved-argon2", "rb") as script, open(installed / f"lib/{LIBRARY}.1", "rb") as library:
        run("./install", installed)
        for file in (script, library):
            assert not os.path.samestat(os.fstat(file.fileno()), os.stat(file.name))


@needs("groff")
@pytest.mark.parametrize("page", ["man1/proved-argon2.1", *(f"man3/{call}.3" for call in (*CALLS, "proved_argon2"))])
def test_the_manual_is_sound_and_opens_by_the_name_of_each_call(installed, page):
    done = start("groff", "-s", "-man", "-Tascii", "-P-cbou", "-ww", page, cwd=installed / "share/man")
    assert done.stderr == "" and VERSION in done.stdout, done.stderr
    assert page[5:-2] not in CALLS or f"{page[5:-2]}(" in done.stdout


@pytest.mark.parametrize("part", ["SYNOPSIS", "DESCRIPTION"])
def test_the_manual_has_each_call(installed, part):
    page = (installed / "share/man/man3/proved_argon2.3").read_text()
    text = re.search(rf"^\.SH {part}\n(.*?)(?=^\.SH )", page, re.M | re.S)[1]
    assert sorted({*re.findall(r'\b(proved_argon2_[a-z0-9_]+)[ "]*\(', text)}) == CALLS


def of_arm(archive):
    """Objects marked as being for ARM."""
    return archive.replace(bytes.fromhex("01003e0001000000"), bytes.fromhex("0100b70001000000"))


@pytest.mark.parametrize("change, why, compiler", [
    (lambda archive: archive[:20000], "cannot be linked", CC),
    (lambda archive: b"", "none of the library", CC),
    (of_arm, "is for another machine", CC),
    (lambda archive: archive, "there is no nocompiler", "nocompiler"),
])
def test_an_error_names_the_file_that_cannot_be_linked(built, tmp_path, change, why, compiler):
    """One of the proved files is replaced."""
    for build in BUILDS:
        shutil.copytree(built / build, tmp_path / build)
    archive = tmp_path / PROVED[-1] / "libargon2_c.a"
    archive.write_bytes(change(archive.read_bytes()))
    if why == "none of the library":
        run(CC, "-c", "-x", "c", "/dev/null", "-o", tmp_path / "argon2_c.o")
        archive.unlink()
        run("ar", "rcs", archive, tmp_path / "argon2_c.o")
    refuses(1, why, "build/link", "x86_64", tmp_path, tmp_path / "made", env={"CC": compiler})
    assert not (tmp_path / "made").exists()


@pytest.mark.skipif(MACHINE != "x86_64", reason="that takes x86-64")
def test_a_distribution_s_flags_are_used(tmp_path):
    """Link-time optimization is not: the names of its objects cannot be changed."""
    run("build/link", "x86_64", "release", tmp_path, env={
        "CPPFLAGS": "-DPLANTED", "CFLAGS": "-g3 -flto", "LDFLAGS": "-Wl,--build-id=0x1234abcd"})
    for name in f"libproved_argon2.so.{VERSION}", "libargon2.so.1", "argon2_tool", "proved_argon2.node":
        assert "Build ID: 1234abcd\n" in run("readelf", "-n", tmp_path / "x86_64" / name)
        assert " PLANTED " in run("readelf", "--debug-dump=macro", tmp_path / "x86_64" / name)
