"""Tests of the module for Go: its own tests on each system, what it returns for each number of the library, the package
that its users unpack, and the logins of a service."""
import pathlib
import re
import shutil
import subprocess

import pytest
from running import (
    CC, CODES, HEADER, MACHINE, NUMBERS, SHELL_THERE, TOP, VERSION, built, in_system, make_system, needs, refuses, run)

MODULE, DATA = TOP / "bindings/go", TOP / "bindings/go/tests/testdata"
NAME = re.search("^module (.*)$", (MODULE / "go.mod").read_text(), re.M)[1]
PAGE = (TOP / "docs/GO.md").read_text()
ARCH = {"x86_64": "amd64", "aarch64": "arm64"}[MACHINE]
LINKED = "-ldflags", "-linkmode external -extldflags -static"
# Makes each call with a password of which there is no other copy, and waits.
SECRETIVE = """package main

import (
    "bufio"
    "context"
    "fmt"
    "os"

    argon2 "%s"
)

func main() {
    password := make([]byte, 64)
    for i := range password {
        password[i] = byte(33 + i*7%%90)
    }
    ctx, cancel := context.WithCancel(context.Background())
    defer cancel()
    for lanes := uint32(1); lanes <= 4; lanes += 3 {
        s := argon2.OWASP5()
        s.Lanes, s.Secret = lanes, password
        hasher, err := argon2.NewHasher(s, 1, 0)
        if err != nil {
            panic(err)
        }
        encoded, err := hasher.Hash(ctx, password)
        if err != nil {
            panic(err)
        }
        s.Time = 1
        matches, updated, err := hasher.With(s).VerifyAndUpdate(ctx, encoded, password)
        right, _ := hasher.Verify(ctx, updated, password)
        if _, err2 := hasher.VerifyUnknown(ctx, password); !matches || !right || err != nil || err2 != nil {
            panic(err)
        }
        argon2.IDKey(password, password, 1, 64, 1, 32)
        fmt.Fprintln(os.Stderr, fmt.Sprint(s, hasher))
    }
    fmt.Println(&password[0])
    bufio.NewReader(os.Stdin).ReadString(10)
    fmt.Println(password[0])
}
""" % NAME
pytestmark = needs("go")


@pytest.fixture(scope="session")
def env(tmp_path_factory):
    """Returns the variables with which Go builds here, without a network."""
    folder = tmp_path_factory.mktemp("go")
    return {"GOCACHE": folder / "cache", "GOPATH": folder / "path", "GOFLAGS": "-mod=mod -timeout=1h", "GOPROXY": "off",
            "GOSUMDB": "off", "GOTOOLCHAIN": "local", "CGO_ENABLED": 1}


def beside_tables(folder, module, *without):
    """Copies a module, but for some files, beside the tables that its tests read."""
    copied = shutil.copytree(module, folder / "bindings/go", ignore=shutil.ignore_patterns(*without))
    for name in ("tests", "vectors"):
        (folder / "bindings" / name).symlink_to(TOP / "bindings" / name)
    return copied


def copy_module(folder, archive=None):
    """Returns the module with the archives and the headers, beside the tables that its tests read."""
    module = beside_tables(folder, MODULE, "*.a", "proved_argon2*.h")
    for header in (TOP / "bindings/c/include").iterdir():
        shutil.copy(header, module)
    archives = {f"linux_{ARCH}": archive or built() / MACHINE / "libproved_argon2.a"}
    if archive is None:
        archives["windows_amd64"] = TOP / "release/windows-x86_64/libproved_argon2.a"
        archives["linux_arm64"] = built("aarch64") / "aarch64/libproved_argon2.a"
    for name, file in archives.items():
        shutil.copy(file, module / f"libproved_argon2_{name}.a")
    return module


@pytest.fixture(scope="session")
def module(tmp_path_factory):
    return copy_module(tmp_path_factory.mktemp("module"))


def program(folder, module, *files, more=""):
    """Returns a module that requires ours."""
    folder.mkdir(exist_ok=True)
    for file in files:
        shutil.copy(file, folder)
    (folder / "go.mod").write_text(
        f"module program\n\ngo 1.19\n\nrequire {NAME} v{VERSION}\n\nreplace {NAME} => {module}\n{more}")
    return folder


def test_the_sources_are_laid_out_and_each_exported_name_has_a_comment(module, env):
    files = [*MODULE.glob("**/*.go"), *(TOP / "docs/examples").glob("*.go")]
    assert len(files) > 15 and run("gofmt", "-l", "-s", *files) == ""
    lines = [line for file in files for line in file.read_text().splitlines()]
    assert not [line for line in lines if len(line) > 120]
    exported = re.compile(r"(.*\n)(?:func|type) (?:\(\w+ \*?\w+\) )?([A-Z]\w*)", re.M)
    found = [pair for file in MODULE.glob("*.go") if "_test" not in file.name
             for pair in exported.findall(file.read_text())]
    assert len(found) > 40 and not [name for before, name in found if not before.startswith("// ")]
    run("go", "vet", "./...", cwd=module, env=env)


def test_cgo_and_unsafe_code_are_only_in_one_file():
    """calls_go124.go has no code: it tells newer cgo how calls in calls.go behave."""
    files = [file for file in MODULE.glob("*.go") if re.search('"(C|unsafe)"', file.read_text())]
    assert {file.name for file in files} == {"calls.go", "calls_go124.go"}
    assert not re.search("^(?!//|package|import|$)", (MODULE / "calls_go124.go").read_text(), re.M)


@pytest.mark.parametrize("words, more", [
    ((), {}), (("-race",), {}), ((), {"GODEBUG": "cgocheck=2"}), ((), {"GODEBUG": "asyncpreemptoff=1", "GOGC": "1"})])
def test_the_tests_of_the_module_pass(module, env, drawn, words, more):
    said = run("go", "test", "-count=1", "-v", *words, "./...", cwd=module, env={**env, **drawn, **more})
    assert len(re.findall("^--- PASS", said, re.M)) == len(re.findall("^=== RUN", said, re.M)) > 20


def test_without_cgo_the_build_says_why(module, env):
    why = 'cannot use "argon2 needs cgo and a C compiler: set CGO_ENABLED=1 and CC"'
    said = refuses(1 if "go1.2" in run("go", "version") else 2, why, "go", "build", "./...", cwd=module,
                   env={**env, "CGO_ENABLED": 0})
    assert len(said.splitlines()) == 2 and said.startswith("# ")


# ---- each number of the library, over the stubs of codes.c

# The calls of codes.txt that Go has, and who makes them in codes.go.
CALLS = {"hash_raw": ["function"], "hash_encoded": ["function", "hasher", "stoppable"],
         "verify_encoded_alone": ["function"], "verify_encoded_within": ["hasher", "stoppable"],
         "needs_rehash": ["function"]}
MOST_THREADS = 0xFFFFFFFF
VALUES = {"tag": "xxxxx", "text": 12 * "x", "true": "true", "false": "false"}


@pytest.fixture(scope="session")
def ask(env, tmp_path_factory):
    """Returns a function that makes calls, and returns what each returned and what the library saw."""
    folder = tmp_path_factory.mktemp("codes")
    run(CC, "-O1", "-I", TOP / "bindings/c/include", "-c", TOP / "bindings/tests/codes.c", "-o", folder / "codes.o")
    run("ar", "rcs", folder / "codes.a", folder / "codes.o")
    made = program(folder / "program", copy_module(folder, folder / "codes.a"), DATA / "codes.go")
    run("go", "build", "-o", folder / "answers", cwd=made, env=env)

    def ask(calls):
        lines = [" ".join(map(str, (name, caller, *numbers))) for name, caller, numbers in calls]
        return [line.split("|", 9) for line in run(folder / "answers", input="\n".join(lines)).splitlines()]

    return ask


def outcome(codes, number):
    """Returns what codes.go prints of a call for which the library returned this number."""
    if codes.values.get(number) in VALUES:
        return VALUES[codes.values[number]]
    if codes.name.startswith("verify") and number == HEADER["NEEDS_REHASH"]:
        return "true"
    error = HEADER["DECODING_FAIL"] if number == HEADER["NOT_ASCII"] else number
    return f"{'' if codes.name.startswith('hash') else 'false'}, error {error}"


@pytest.mark.parametrize("name, caller", [(name, caller) for name, callers in CALLS.items() for caller in callers])
def test_each_call_returns_for_each_number_what_the_table_says(ask, name, caller):
    """It passes its arguments in order. A Hasher passes its buffers, and a callback only if its context may end."""
    codes = CODES[name]
    cases = [(place, number) for place in codes.places for number in NUMBERS]
    said = ask((name, caller, (number * (place == "check"), number * (place == "then"), 0, 0, 1024))
               for place, number in cases)
    for (place, number), (value, *seen) in zip(cases, said, strict=True):
        computes = bool(codes.computing) and (place == "then" or number == 0)
        threads = MOST_THREADS if name == "verify_encoded_alone" else 1  # Verify has no settings
        buffer, progress = 65536 if caller != "function" else -1, 0 if caller == "stoppable" else -1
        assert value == outcome(codes, number), (place, number)
        assert seen[:4] == [str(part) for part in (
            (threads, buffer, progress, 0) if computes else (0, -1, -1, 0))], (place, number)
        assert seen[6] == codes.judging
        if computes:
            words = codes.computing
            if name == "verify_encoded_alone":  # the default limits of the stubs
                words = words.replace("0 0 0 0", "7 8 9 10")
            before, _, after = words.partition("somesalt" if name == "hash_encoded" else "\n")
            assert seen[8].startswith(before) and (seen[8] == before or after), seen


@pytest.mark.parametrize("caller, buffer, progress", [("function", -1, -1), ("hasher", 65536, -1),
                                                      ("stoppable", 65536, 0)])
def test_a_login_of_an_unknown_user_is_the_librarys_call(ask, caller, buffer, progress):
    numbers = [HEADER["MISMATCH"], HEADER["OUT_OF_MEMORY"], HEADER["OLD_PROCESSOR"]]
    said = ask(("verify_unknown", caller, (0, number, 0, 0, 1024)) for number in numbers)
    assert [(line[0], line[1:4], line[9]) for line in said] == [
        (value, [str(MOST_THREADS), str(buffer), str(progress)], "unknown word key 2 19 64 3 20 5")
        for value in ("false", *(f"false, error {number}" for number in numbers[1:]))]


# ---- programs

def test_the_logins_of_a_service(module, env, tmp_path):
    folder = program(tmp_path / "logins", module, DATA / "logins_test.go", TOP / "docs/examples/log_in.go")
    (folder / "main.go").write_text("package main\n\nfunc main() {}\n")
    run("go", "vet", ".", cwd=folder, env=env)
    run("go", "test", "-count=1", ".", cwd=folder, env=env)


def test_no_copy_of_a_password_or_a_pepper_is_left(module, env, tmp_path):
    """We search for its second half, since C's heap overwrites the first bytes of freed memory."""
    folder = program(tmp_path / "secretive", module)
    (folder / "main.go").write_text(SECRETIVE)
    run("go", "build", "-o", tmp_path / "program", cwd=folder, env=env)
    password = bytes(33 + at * 7 % 90 for at in range(64))
    with subprocess.Popen([tmp_path / "program"], stdin=-1, stdout=-1, stderr=subprocess.DEVNULL) as process:
        assert process.stdout.readline().startswith(b"0x")
        maps, found = pathlib.Path(f"/proc/{process.pid}/maps").read_text(), 0
        with open(f"/proc/{process.pid}/mem", "rb") as memory:
            for begin, end in re.findall(r"^(\w+)-(\w+) rw", maps, re.M):
                memory.seek(int(begin, 16))
                found += memory.read(int(end, 16) - int(begin, 16)).count(password[32:])
        process.communicate(b"\n")
    assert (process.returncode, found) == (0, 1)


# Go calls init before main.
CALLING = """func init() {
    hasher, err := argon2.NewHasher(argon2.OWASP5(), 1, 0)
    if err == nil {
        err = withPeppers(context.Background(), hasher, []byte("new key"), []byte("old key"))
    }
    if err != nil {
        panic(err)
    }
}
"""


def test_the_code_of_the_page_runs(module, env, tmp_path):
    """The first piece is a program; the others are functions, of which one prints."""
    first, *others = re.findall(r"^```go\n(.*?)^```", PAGE, re.M | re.S)
    folder = program(tmp_path / "page", module)
    (folder / "main.go").write_text(first)
    (folder / "functions.go").write_text(
        f'package main\n\nimport (\n    "context"\n    "fmt"\n\n    "{NAME}"\n)\n\n' + "\n".join([*others, CALLING]))
    run("go", "vet", ".", cwd=folder, env=env)
    said = run("go", "run", ".", cwd=folder, env=env).splitlines()
    printed = ["true 2026 <nil>", "true <nil>", "false <nil>"]
    assert said == re.findall("Println.*// (.*)", "".join([*others, first])) == printed


def test_the_page_names_each_exported_name():
    code = "".join(file.read_text() for file in MODULE.glob("*.go") if "_test" not in file.name)
    names = {name for name in re.findall(r"^func (?:\(\w+ \*\w+\) )?([A-Z]\w+)\((?!\) Settings)", code, re.M)}
    assert len(names) > 15 and not [name for name in names if not re.search(rf"\b{name}\b", PAGE)]


# ---- other systems

def test_the_tests_pass_with_musl_in_a_static_program(module, env, drawn, tmp_path):
    if not shutil.which("musl-gcc"):
        pytest.skip("there is no musl-gcc")
    run("go", "test", "-c", *LINKED, "-o", tmp_path / "tests", cwd=module, env={**env, "CC": "musl-gcc"})
    assert "INTERP" not in run("readelf", "-lW", tmp_path / "tests")
    run(tmp_path / "tests", cwd=module, env=drawn)


@needs("aarch64-linux-gnu-gcc", "qemu-aarch64-static")
def test_the_tests_pass_on_arm64(module, env, drawn, tmp_path):
    """Those that measure are left out, since qemu itself takes time and memory."""
    run("go", "test", "-c", *LINKED, "-o", tmp_path / "tests", cwd=module,
        env={**env, "CC": "aarch64-linux-gnu-gcc", "GOARCH": "arm64"})
    chosen = "HashesEqual|EncodedHashes|Example$|IDKey|Peppers|SettingsAreChecked|CallersCompute"
    run("qemu-aarch64-static", tmp_path / "tests", "-test.run", chosen, cwd=module, env=drawn)


@needs("x86_64-w64-mingw32-gcc-posix", "wine")
def test_the_tests_pass_on_windows(module, env, drawn, tmp_path):
    run("go", "test", "-c", "-o", tmp_path / "tests.exe", cwd=module,
        env={**env, "CC": "x86_64-w64-mingw32-gcc-posix", "GOOS": "windows"})
    run("wine", tmp_path / "tests.exe", cwd=module, env={**drawn, "WINEDEBUG": "-all", "WINEPREFIX": tmp_path / "wine"})


MAIN = f"""package main

import (
    "fmt"

    "{NAME}"
)

func main() {{
    fmt.Printf("%x", argon2.IDKey([]byte("password"), []byte("somesalt"), 2, 256, 1, 32))
}}
"""
# bindings/vectors/texts.txt has this tag in base64.
TAG = "9dfeb910e80bad0311fee20f9c0e2b12c17987b4cac90c2ef54d5b3021c68bfe"


@needs("mmdebstrap")
def test_the_tests_pass_on_debian_13(module, drawn, tmp_path):
    """Its Go has #cgo noescape and nocallback, which `go mod vendor` of an older Go rejects. In the newer Go, the cgo
    check is a compiler experiment."""
    system = make_system(tmp_path / "system", "trixie", "golang-go", "gcc", "libc6-dev")
    shutil.copytree(module.parent, system / "bindings", symlinks=False)
    shutil.copy(drawn["RANDOM_HASHES"], system / "random.txt")
    (program(system / "program", "/bindings/go") / "main.go").write_text(MAIN)
    script = f"""export GOPROXY=off GOTOOLCHAIN=local RANDOM_HASHES=/random.txt; cd /bindings/go
        [[ ! $(gofmt -l .) ]]; go vet ./...; export GOFLAGS=-timeout=1h
        go test -count=1 -race ./...; GOEXPERIMENT=cgocheck2 go test -count=1 .
        cd /program; go mod vendor; mv /bindings /other; [[ $(go run -mod=vendor .) == {TAG} ]]"""
    run(*in_system(system, *SHELL_THERE, script))


# ---- the package

@pytest.fixture(scope="session")
def package(tmp_path_factory):
    folder = tmp_path_factory.mktemp("package")
    run("./package", "go", "--to", folder)
    made, = folder.glob("*.zip")
    return made


def test_a_program_is_built_with_the_package(package, env, tmp_path):
    """go.mod names the unpacked package with the lines of the page."""
    run("unzip", "-q", package, "-d", tmp_path / "modules")
    folder = tmp_path / "program"
    folder.mkdir()
    (folder / "main.go").write_text(MAIN)
    lines = re.search(r"^    \./package go .*\n((?:    .*\n)+)", PAGE, re.M)[1]
    run("sh", "-ec", f"go mod init program\n{lines}", cwd=folder, env={**env, "HOME": tmp_path})
    assert run("go", "run", ".", cwd=folder, env=env) == TAG


# ---- the library as C

@pytest.fixture(scope="session")
def module_in_c(package, tmp_path_factory):
    """Returns the packed module without its archives, beside the tables that its tests read."""
    folder = tmp_path_factory.mktemp("in_c")
    run("unzip", "-q", package, "-d", folder / "packed")
    packed, = folder.glob(f"packed/{NAME}@*")
    module = beside_tables(folder, packed, "*.a")
    for file in MODULE.glob("*_test.go"):
        shutil.copy(file, module)
    return module


def test_the_tests_pass_with_the_library_as_c(module_in_c, env, drawn):
    run("go", "test", "-count=1", "-tags", "proved_argon2_portable", ".", cwd=module_in_c, env={**env, **drawn})


def test_for_macos_cgo_compiles_the_library_as_c(module_in_c, env):
    """Go only lists its files, since a build takes Apple's headers."""
    said = run("go", "list", "-f", "{{.CFiles}} {{.CgoFiles}} {{.CgoLDFLAGS}}", cwd=module_in_c,
               env={**env, "GOOS": "darwin", "GOARCH": "arm64"})
    files = {*re.findall(r"\w+\.c", said)}
    assert {"proved_argon2_module.c", "platform_other.c"} <= files and said.endswith("[calls.go] [-lpthread]\n"), said


@needs("riscv64-linux-gnu-gcc", "qemu-riscv64-static")
def test_the_tests_pass_where_there_is_no_archive(module_in_c, env, tmp_path):
    """Some tests run on RISC-V. The others measure or, under qemu, take long."""
    run("go", "test", "-c", *LINKED, "-o", tmp_path / "tests", cwd=module_in_c,
        env={**env, "CC": "riscv64-linux-gnu-gcc", "GOARCH": "riscv64"})
    run("qemu-riscv64-static", tmp_path / "tests", "-test.run", "Example|EncodedHashes|SettingsAreChecked|Peppers",
        cwd=module_in_c)
