"""Tests of the crate for Rust: its own tests, those of the crates that it replaces, its public items (listed in
bindings/rust/surface.txt), the code of its page, and where its build script finds the library."""
import hashlib
import json
import os
import pathlib
import re
import resource
import shutil
import textwrap

import pytest
from running import CC, CODES, CRATES_OF_DEBIAN, HEADER, MACHINE, NUMBERS, TOP, built as built_part, fetch
from running import first_lines, needs, project, refuses, run, serves, start, with_crate

CRATE, SOURCES = TOP / "bindings/rust", TOP / "bindings/rust/tests/programs"
REGISTRY = pathlib.Path("/usr/share/cargo/registry")
PAGE = (TOP / "docs/RUST.md").read_text()
# The lines of the page that upload what ./package makes.
(PUBLISHING,) = re.findall(
    r"^### crates\.io\n(?:[^# \n].*\n|\n)+((?:    .*\n)+)", (TOP / "docs/PUBLISHING.md").read_text(), re.M)
ITEM = re.compile(r'<a href="(enum|fn|struct|trait|type|constant|macro)\.[^"]*">([^<]*)</a>')
# A part of an item, as rustdoc marks it. Parts of traits have more words in their class.
PART = re.compile(r'id="(method|variant|structfield|associatedconstant)\.(\w+)" class="([^"]*)"')
pytestmark = needs("cargo")
RUN = "cargo", "run", "--offline", "--quiet"
SERDE = """use serde::de::{value::StrDeserializer, Deserialize, IntoDeserializer};
fn main() {
    fn is_writable<T: serde::Serialize>() {}
    is_writable::<argon2::Error>();
    let name: StrDeserializer<serde::de::value::Error> = "lanes_too_many".into_deserializer();
    assert_eq!(argon2::Error::deserialize(name), Ok(argon2::Error::LanesTooMany));
}
"""
# A program of the functions on the page, which makes each login with a right and a wrong password.
OF_PAGE = """use argon2::{Config, Error as Argon2Error, Line, Peppers, Run, Unverified};
use std::error::Error;

%s
fn save(key_id: &str, stored: &str) {
    assert!(key_id == "2026" && argon2::verify_encoded_ext(stored, b"password", b"new key", &[]).unwrap());
}

fn of_old_key() -> String {
    argon2::hash_password_with(b"password", &Config { secret: b"old key", ..Config::default() }).unwrap()
}

#[tokio::main]
async fn main() {
    let (line, older) = (Line::new(1, 1), argon2::hash_password_with(b"password", &Config::owasp5()).unwrap());
    assert!(matches!(log_in(&line, Some(&older), b"password").unwrap(), (true, Some(_))));
    assert!(matches!(log_in(&line, Some(&older), b"Password").unwrap(), (false, None)));
    assert!(matches!(log_in(&line, None, b"password").unwrap(), (false, None)));
    assert!(verify(&line, older.clone(), b"password".to_vec()).await.unwrap());
    assert!(!verify(&line, older.clone(), b"Password".to_vec()).await.unwrap());
    assert_eq!(log_in_with_pepper(&mut Run::new(), Some("2025"), &of_old_key(), b"password"), Ok(true));
    let unknown = Err(Unverified::Refused(Argon2Error::UnknownPepper));
    assert_eq!(log_in_with_pepper(&mut Run::new(), None, &older, b"password"), unknown);
}
"""
# A program that was written for rust-argon2, with the name of that crate. If it has an argument, it also asks for a
# longer hash than it has memory for.
PROGRAM = """extern crate argon2;
use argon2::{Config, ThreadMode, Variant, Version};

fn main() -> Result<(), Box<dyn std::error::Error>> {
    let config = Config {
        variant: Variant::Argon2i,
        version: Version::Version13,
        mem_cost: 256,
        time_cost: 2,
        lanes: 1,
        thread_mode: ThreadMode::Parallel,
        secret: &[],
        ad: &[],
        hash_length: 32,
    };
    let text = argon2::hash_encoded(b"password", b"somesalt", &config.clone())?;
    assert_eq!(text, "$argon2i$v=19$m=256,t=2,p=1$c29tZXNhbHQ$iekCn0Y3spW+sCcFanM2xBT63UP2sghkUoHLIUpWRS8");
    assert!(argon2::verify_encoded(&text, b"password")?);
    let error: argon2::Error = argon2::verify_encoded("x", b"password").unwrap_err();
    assert_eq!(error.to_string(), "Decoding failed");
    if std::env::args().count() > 1 {
        let long = Config { hash_length: u32::MAX, ..config };
        assert_eq!(argon2::hash_raw(b"password", b"salt", &long), Err(argon2::Error::SaltTooShort));
        assert_eq!(argon2::hash_raw(b"password", b"somesalt", &long), Err(argon2::Error::OutOfMemory));
    }
    Ok(())
}
"""


@pytest.fixture(scope="module")
def cargo(built, cargo):
    """Returns the environment of cargo, in which PROVED_ARGON2_LIB_DIR names the folder of the library."""
    return {**cargo, "PROVED_ARGON2_LIB_DIR": built / MACHINE, "PKG_CONFIG_PATH": None}


def test_the_tests_of_the_crate_pass(cargo, drawn):
    assert "test result: ok. " in run("cargo", "test", "--offline", "--no-fail-fast", cwd=CRATE, env={**cargo, **drawn})


@pytest.fixture(scope="module")
def crates(tmp_path_factory):
    """The crate and the one for password-hash 0.6, as ./package makes them for this machine."""
    folder = tmp_path_factory.mktemp("crates")
    run("./package", "crate", "--to", folder, env={"MACHINES": MACHINE})
    made = sorted(folder.glob("*.crate"))
    assert len(made) == 2
    return made


def would_publish(crate, folder, named):
    """Does all that cargo does before it uploads a crate to crates.io. It also compiles a program with the crate. An
    empty registry takes the place of crates.io. What is there, cargo does not check before."""
    (folder / "registry").mkdir(parents=True)
    (folder / "registry/config.json").write_text('{"dl": "file:///nowhere", "api": "file:///nowhere"}')
    git = "git", "-C", folder / "registry", "-c", "user.name=x", "-c", "user.email=x"
    for words in ["init", "-q"], ["add", "."], ["commit", "-q", "-m", "x"]:
        run(*git, *words)
    shutil.copy(crate, folder)
    assert crate.stat().st_size < 10_000_000  # the most that crates.io takes
    publish = f"sed -i /^publish/d Cargo.toml && cargo publish --dry-run --index file://{folder}/registry"
    said = start("sh", "-euc", PUBLISHING.replace("cargo publish", publish), cwd=folder, env=named)
    assert said.returncode == 0 and "aborting upload due to dry run" in said.stderr, said
    assert {"LICENSE", "NOTICE"} <= {file.name for file in (folder / crate.stem).iterdir()}


def test_cargo_would_publish_the_crate(cargo, crates, tmp_path):
    would_publish(crates[0], tmp_path, {**cargo, "PROVED_ARGON2_LIB_DIR": None})
    assert (tmp_path / crates[0].stem / f"lib/{MACHINE}/libproved_argon2.a").is_file()


def test_the_library_that_cargo_compiles_passes_the_tests_of_the_crate(cargo, drawn, crates, tmp_path):
    """The packed crate has the library as C. The driver's code is that for other systems than Linux."""
    run("tar", "-xzf", crates[0], "-C", tmp_path)
    folder = (tmp_path / crates[0].stem).rename(tmp_path / "crate")
    shutil.copytree(CRATE / "tests", folder / "tests")
    (tmp_path / "vectors").symlink_to(TOP / "bindings/vectors")
    alone = {**cargo, **drawn, "CARGO_TARGET_DIR": tmp_path / "target", "PROVED_ARGON2_LIB_DIR": None}
    compiles = {"PROVED_ARGON2_COMPILE": 1, "CC": f"{CC} -U__linux__"}
    assert "test result: ok. " in run("cargo", "test", "--offline", cwd=folder, env={**alone, **compiles})
    (made,) = tmp_path.glob("target/debug/build/*/out/libproved_argon2.a")
    assert {"proved_portable_check", "pthread_cond_wait"} <= {*re.findall(r"\w+", run("nm", made))}


@pytest.fixture(scope="module")
def ask(cargo, tmp_path_factory):
    """Returns a function that makes calls over the library of codes.c, and returns what codes.rs prints. A call is its
    name, how it is made, and the numbers that the library returns."""
    folder = tmp_path_factory.mktemp("codes")
    run(CC, "-Wall", "-Wextra", "-Werror", "-O1", "-I", TOP / "bindings/c/include", "-c",
        "bindings/tests/codes.c", "-o", folder / "codes.o")
    run("ar", "rcs", folder / "libproved_argon2.a", folder / "codes.o")
    program = project(folder / "answers", (SOURCES / "codes.rs").read_text())

    def ask(calls):
        usual = {"check": 0, "then": 0, "read": 0, "memory": 0, "kib": 1024}
        lines = [" ".join(map(str, (name, how, *{**usual, **answers}.values()))) for name, how, answers in calls]
        said = run(*RUN, cwd=program, env={**cargo, "PROVED_ARGON2_LIB_DIR": folder}, input="\n".join(lines))
        return said.splitlines()

    return ask


# A kept memory after each of some calls for which the library returns OUT_OF_MEMORY: its bytes, the bytes that codes.c
# allocates per KiB, the code that an allocation returns, and how many memories were requested, remain, and existed at
# once.
MEMORIES = [(65536, 1024, 0, (1, 1, 1)), (65536, 1024, 0, (0, 1, 0)), (131072, 2048, 0, (1, 1, 1)), *(
    step for refused in NUMBERS[1:] for step in ((0, 4096, refused, (1, 0, 0)), (65536, 1024, 0, (1, 1, 1))))]
# The values of codes.txt as Rust prints them, and the errors by their numbers.
SHOWN = {"tag": "Ok([120, 120, 120, 120, 120])", "text": f'Ok("{12 * "x"}")', "true": "Ok(true)", "false": "Ok(false)",
         "costly": "Err(TooCostly)", "stored": "Ok(Stored { hash_length: 5, lanes: 4, mem_cost: 64, salt_length: 6, "
                                               "time_cost: 3, variant: Argon2id, version: Version13 })"}
ERRORS = {number: name.title().replace("_", "") for name, number in HEADER.items()
          if number in (*range(1, 64), 129, 130, 131) and re.fullmatch("[A-Z_]{3,}", name)}
# A string with a byte above 127 has the same error as one that cannot be decoded.
ERRORS[HEADER["NOT_ASCII"]] = ERRORS[HEADER["DECODING_FAIL"]]
MOST = 0xFFFFFFFF
# For each way to make a call: what its progress callback returns.
HOW = {"alone": -1, "over": -1, "run": -1, "tells": 0, "stops": 1, "panics": 1}


def outcome(codes, number):
    """Returns what a call returns if the library returns this number."""
    value, error = codes.values.get(number), ERRORS.get(number)
    if value:
        return SHOWN[value]
    error = error or f"Unknown({number})"
    return f"Err(Refused({error}))" if "within" in codes.name else f"Err({error})"


def expected(codes, how, place, number):
    """Returns what codes.rs prints of a call in a new buffer, or in none: its value; the size of the buffer; how many
    threads, how large a buffer and which answer of the callback the library saw; how many buffers were allocated; and
    what the library was passed."""
    computes = place == "then" and bool(codes.computing)
    is_over = computes and how in ("over", "stops", "panics")
    size = 65536 if is_over and number == HEADER["OUT_OF_MEMORY"] else 0
    length = MOST if codes.name == "verify_raw" else 5
    threads = MOST if codes.name.startswith("verify_encoded") else 3
    return "|".join(map(str, (
        "on" if computes and how == "panics" else outcome(codes, number), size, threads if computes else 0,
        size if is_over else -1, HOW[how] if computes else -1, *3 * [int(size > 0)], codes.judging,
        f"memory 2 19 64 3 4 {length}" if size else codes.telling, codes.computing if computes else "")))


@pytest.mark.parametrize("name", CODES)
def test_each_call_returns_for_each_number_what_the_table_says(ask, name):
    """It passes its arguments in order. If the library says that the buffer is too small, the call is made again in a
    larger one. The progress callback is called once, and can stop the call."""
    codes = CODES[name]
    cases = [(how, place, number) for how in (HOW if codes.computing else ["alone"])
             for place in codes.places for number in (NUMBERS if place == "then" or not codes.hashes else NUMBERS[1:])]
    said = ask(call for how, place, number in cases for call in (("new_memory", "", {}), (name, how, {place: number})))
    for case, found in zip(cases, said[1::2]):
        assert found == expected(codes, *case), case


@pytest.mark.parametrize("name", [name for name, codes in CODES.items() if codes.computing])
def test_a_buffer_is_reused_and_replaced_by_a_larger_one(ask, name):
    """The old buffer is freed before the larger one is allocated. If the system denies that, there is
    no buffer, and the next call allocates one."""
    answers = {"then": HEADER["OUT_OF_MEMORY"]}
    said = ask([*((name, "over", {**answers, "memory": refused, "kib": kib}) for _, kib, refused, _ in MEMORIES),
                ("new_memory", "", {}), ("limits", "", {})])
    found = [line.split("|") for line in said]
    assert [(int(line[1]), tuple(map(int, line[5:8]))) for line in found] == [
        *((size, counts) for size, _, _, counts in MEMORIES), (0, (0, 0, 0)), (0, (0, 0, 0))]
    assert {line[0] for line in found[:-2]} == {outcome(CODES[name], HEADER["OUT_OF_MEMORY"])}


def test_other_calls_pass_their_arguments_in_order(ask):
    length, limits = ask([("encoded_len", "", {}), ("limits", "", {})])
    assert length.startswith("12|") and length.endswith("|length 0 19 64 3 4 5 9|")
    assert limits.startswith("Limits { mem_cost: 7, time_cost: 8, lanes: 9, work: 10 }|")


@pytest.mark.parametrize("name", [name for name, codes in CODES.items() if codes.computing])
def test_a_call_of_a_place_uses_the_buffers_of_its_line(ask, name):
    """They are as large as hashes with the line's settings need."""
    assert ask([(name, "line", {})])[0].split("|")[3] == "65536"


@pytest.mark.parametrize("how", ["alone", "over", "peppers"])
def test_a_login_of_an_unknown_user_computes_one_hash_with_the_settings_and_never_matches(ask, how):
    numbers = [0, HEADER["MISMATCH"], HEADER["OUT_OF_MEMORY"], HEADER["OLD_PROCESSOR"]]
    said = ask(("verify_unknown", how, {"then": number}) for number in numbers)
    found = [(line.split("|")[0], line.split("|")[2], line.split("|")[-1]) for line in said]
    assert found == [(verdict, str(MOST), "unknown word key 2 19 64 3 4 5") for verdict in (
        "Ok(false)", "Ok(false)", "Err(OutOfMemory)", "Err(OldProcessor)")]


def test_tune_returns_what_the_library_finds(ask):
    numbers = [0, HEADER["TOO_COSTLY"], HEADER["LANES_TOO_FEW"], HEADER["OUT_OF_MEMORY"]]
    found = [tuple(line.split("|")[::2][:2]) for line in ask(("tune", "", {"then": number}) for number in numbers)]
    assert found == [(result, "3") for result in (
        "Ok(Some((true, 77ns)))", "Ok(None)", "Err(LanesTooFew)", "Err(OutOfMemory)")]


# The crates of each program, which are Debian's, and the compiler's flags. For `memory` the linker wraps the calls that
# allocate a buffer and start a thread. `traits` is a service for RustCrypto's argon2: only its manifest names another
# package.
TOKIO = 'tokio = { version = "1", features = ["rt-multi-thread", "macros"] }'
PROGRAMS = {
    "memory": (with_crate("password-hash"),
               "-Clink-arg=-Wl,--wrap=proved_argon2_buffers_new,--wrap=pthread_create"),
    "traits": (with_crate("password-hash"), ""),
    "serde": (with_crate("serde") + 'serde = "1"', ""),
    "page": (with_crate() + TOKIO, ""),
}


def needs_crate(name):
    """Skips a test if a crate of Debian is not installed."""
    if not [*REGISTRY.glob(f"{name}-[0-9]*")]:
        pytest.skip(f"there is no librust-{name}-dev")


@pytest.mark.parametrize("name", PROGRAMS)
def test_a_program_succeeds(cargo, tmp_path, name):
    crates, flags = PROGRAMS[name]
    if TOKIO in crates:
        needs_crate("tokio")
    functions = re.findall(r"^```rust\n(.*?)^```", PAGE, re.M | re.S)[1:]
    assert len(functions) == 3
    main = {"serde": SERDE, "page": OF_PAGE % "\n".join(functions)}.get(name) or (SOURCES / f"{name}.rs").read_text()
    folder = project(tmp_path / f"of_{name}", main, crates)
    run(*RUN, cwd=folder, env={**cargo, "RUSTFLAGS": f"{os.environ.get('RUSTFLAGS', '')} {flags}"})


def test_a_program_with_the_traits_of_password_hash_0_5_succeeds(cargo, tmp_path):
    """It needs crates of Debian 13, beside those of this system."""
    for name in "password-hash", "base64ct", "rand-core", "subtle", "getrandom", "cfg-if", "libc":
        if not fetch("fetch_package", f"librust-{name}-dev", tmp_path, release="trixie"):
            pytest.skip("password-hash 0.5 cannot be had")
    (tmp_path / "crates").mkdir()
    found = {file.name: file for file in (*REGISTRY.iterdir(), *tmp_path.glob("usr/share/cargo/registry/*"))}
    for name, crate in found.items():
        (tmp_path / "crates" / name).symlink_to(crate)
    (tmp_path / "config.toml").write_text(CRATES_OF_DEBIAN.replace(str(REGISTRY), str(tmp_path / "crates")))
    folder = project(tmp_path / "of_0_5", (SOURCES / "traits.rs").read_text(), with_crate("password-hash"))
    run(*RUN, cwd=folder, env={**cargo, "CARGO_HOME": tmp_path, "CARGO_TARGET_DIR": tmp_path / "target"})
    assert 'name = "password-hash"\nversion = "0.5.' in (folder / "Cargo.lock").read_text()


def test_a_program_with_the_traits_of_password_hash_0_6_succeeds(cargo, crates, tmp_path):
    """It needs crates of Debian's next release: those of this one are too old. Cargo would publish the crate."""
    names = "password-hash", "phc", "base64ct", "ctutils", "cmov", "getrandom", "cfg-if", "libc"
    are_fetched = all(fetch("fetch_package", f"librust-{name}-dev", tmp_path) for name in names)
    texts = [file.read_text() for file in tmp_path.glob("usr/share/cargo/registry/*/Cargo.toml")]
    asked = [int(minor) for text in texts for minor in re.findall(r'^rust-version = "1\.(\d+)', text, re.M)]
    if not are_fetched or int(run("rustc", "--version").split(".")[1]) < max(asked):
        pytest.skip("password-hash 0.6, or a compiler for it, cannot be had")
    (tmp_path / "config.toml").write_text(CRATES_OF_DEBIAN.replace("/usr", f"{tmp_path}/usr"))
    line = f'argon2 = {{ package = "proved-argon2-password-hash", path = "{CRATE}/password_hash" }}'
    folder = project(tmp_path / "of_0_6", (SOURCES / "traits_0_6.rs").read_text(), line)
    named = {**cargo, "CARGO_HOME": tmp_path, "RUSTFLAGS": f"{os.environ.get('RUSTFLAGS', '')} -Dwarnings"}
    run(*RUN, cwd=folder, env=named)
    assert "1 passed" in run("cargo", "test", "--offline", "--doc", cwd=CRATE / "password_hash", env=named)
    run("tar", "-xzf", crates[0], "-C", tmp_path / "usr/share/cargo/registry")
    (tmp_path / "usr/share/cargo/registry" / crates[0].stem / ".cargo-checksum.json").write_text(json.dumps(
        {"package": hashlib.sha256(crates[0].read_bytes()).hexdigest(), "files": {}}))
    would_publish(crates[1], tmp_path / "publishing", named)


def test_the_tests_of_rust_argon2_pass(cargo, tmp_path):
    """They are those of Debian's package, unchanged."""
    needs_crate("rust-argon2")
    folder = project(tmp_path / "theirs", "", f'{with_crate("crossbeam-utils")}hex = "0.4"', "lib.rs",
                     '[features]\ndefault = ["crossbeam-utils"]\ncrossbeam-utils = []\n')
    (found,) = REGISTRY.glob("rust-argon2-*/tests/integration_test.rs")
    shutil.copytree(found.parent, folder / "tests")
    words = "--offline", "--release", "--test", "integration_test", "--", "--test-threads", "2"
    said = run("cargo", "test", *words, cwd=folder, env=cargo)
    assert "test result: ok. 65 passed; 0 failed; 0 ignored" in said


def test_the_first_lines_of_the_page_run(cargo, tmp_path):
    (line,) = re.findall(r"^argon2 = { package.*", PAGE, re.M)[:1]
    main = f"fn main() -> Result<(), Box<dyn std::error::Error>> {{\n{first_lines('RUST.md', 3)}Ok(()) }}\n"
    project(tmp_path / "lines", main, line.replace("../argon2", str(TOP)))
    run(*RUN, cwd=tmp_path / "lines", env=cargo)


def test_the_logins_of_a_service(cargo, tmp_path):
    folder = project(tmp_path / "logins", (SOURCES / "logins.rs").read_text())
    shutil.copy(TOP / "docs/examples/log_in.rs", folder / "src")
    serves(*RUN, cwd=folder, env={**cargo, "PATH": f"/usr/bin:{os.environ['PATH']}"})


def test_the_page_has_the_arguments_of_the_calls():
    """The arguments are in order."""
    same = {"text": "encoded", "mem": "mem_cost", "time": "time_cost", "lanes": "parallelism"}
    code = "".join(file.read_text() for file in CRATE.glob("src/*.rs") if file.name != "ffi.rs")
    calls = re.findall(r"^pub fn (\w+)(?:<'\w+>)?\(([^)]*)\)", code, re.M)
    taken = {name: re.findall(r"(\w+):", arguments) for name, arguments in calls}
    rows = re.findall(r"^\| `(\w+)\(([^).]*)\)` \|", PAGE, re.M)
    documented = {name: [same.get(word, word) for word in re.findall(r"\w+", arguments)] for name, arguments in rows}
    assert documented == taken and len(taken) == 15


def test_the_manifest_agrees_with_the_page_and_has_the_address_of_debian_s_packages():
    lines = (CRATE / "Cargo.toml").read_text().splitlines()
    (oldest,) = re.findall(r"is for Rust ([\d.]*) and later", PAGE)
    address = re.search(r"^ -- (.*@.*>)  ", (TOP / "debian/changelog").read_text(), re.M)[1]
    assert {f'rust-version = "{oldest}"', f'authors = ["{address}"]', "crossbeam-utils = []",
            'license = "MIT OR Apache-2.0"'} <= {*lines}


def test_unsafe_code_is_only_in_the_module_ffi_and_each_block_is_explained():
    files = [*CRATE.glob("src/**/*.rs"), *CRATE.glob("tests/*.rs"), CRATE / "build.rs"]
    calls_of_c = [CRATE / "src/ffi.rs", *CRATE.glob("src/ffi/*.rs")]
    assert {file for file in files if "unsafe" in file.read_text()} <= {*calls_of_c, CRATE / "src/lib.rs"}
    lines = "".join(file.read_text() for file in calls_of_c).splitlines()
    blocks = [at for at, line in enumerate(lines) if "unsafe {" in line]
    assert blocks and all("SAFETY:" in "".join(lines[at - 2:at]) for at in blocks)


def test_clippy_and_rustdoc_report_nothing(cargo):
    if start("cargo", "clippy", "--version").returncode:
        pytest.skip("there is no clippy")
    (CRATE / "src/lib.rs").touch()
    run("cargo", "clippy", "--offline", "--all-targets", "--all-features", "--", "-D", "warnings", cwd=CRATE, env=cargo)
    words = "--offline", "--no-deps", "--all-features"
    run("cargo", "doc", *words, cwd=CRATE, env={**cargo, "RUSTDOCFLAGS": "-D warnings"})


def listed(kind, names):
    """Returns a line of surface.txt, wrapped."""
    return textwrap.fill(f"{kind}: {' '.join(names)}", 120, subsequent_indent=" " * 4)


def surface_in(folder):
    """Returns the public items of each kind, and the parts of each item. Presets are left out: newer versions of
    rustdoc also show those of an alias."""
    items, parts = {}, {"Config, method": set()}
    for kind, name in ITEM.findall((folder / "all.html").read_text()):
        items.setdefault(kind, []).append(name)
        page = (folder / f"{kind}.{name}.html").read_text() if kind != "type" else ""
        for part, of_part, marks in PART.findall(page):
            if "trait-impl" not in marks:
                parts.setdefault(f"{name}, {part}", set()).add(of_part)
    presets = re.findall(r"pub fn (\w+)\(\) -> Config", (TOP / "crates/argon2_standard/src/config.rt").read_text())
    assert parts["Config, method"].issuperset(presets)
    parts["Config, method"].difference_update(presets)
    return [listed(kind, sorted(names)) for kind, names in [*items.items(), *sorted(parts.items())]]


def test_the_public_items_are_those_of_the_list(built, cargo, tmp_path):
    run("cargo", "doc", "--offline", "--no-deps", "--all-features", cwd=CRATE, env={
        **cargo, "CARGO_TARGET_DIR": tmp_path, "RUSTDOCFLAGS": "-D warnings"})
    found = surface_in(tmp_path / "doc/proved_argon2")
    assert "Unverified, variant: Refused TooCostly" in found
    assert "marked as non-exhaustive" in (tmp_path / "doc/proved_argon2/enum.Error.html").read_text()
    assert "\n".join([*found, ""]) == (CRATE / "surface.txt").read_text()


def test_the_rust_of_debian_12_is_the_oldest_and_compiles_all_features(built, cargo, tmp_path):
    """This runs in CI, on Debian 12."""
    compiler = pathlib.Path("/usr/bin/rustc")
    if not compiler.exists() or "bookworm" not in pathlib.Path("/etc/os-release").read_text():
        pytest.skip("there is no rustc of Debian 12")
    (oldest,) = re.findall(r'^rust-version = "(.*)"$', (CRATE / "Cargo.toml").read_text(), re.M)
    assert run(compiler, "--version").startswith(f"rustc {oldest}.")
    run("/usr/bin/cargo", "check", "--offline", "--all-features", "--all-targets", cwd=CRATE, env={
        **cargo, "CARGO_TARGET_DIR": tmp_path, "RUSTC": compiler})


# ---- a program that depends on a copy of the crate outside of a repository


@pytest.fixture(scope="module")
def program(tmp_path_factory):
    folder = tmp_path_factory.mktemp("alone")
    shutil.copytree(CRATE / "src", folder / "copy/src")
    for name in ("Cargo.toml", "build.rs"):
        shutil.copy(CRATE / name, folder / "copy")
    return project(folder / "program", PROGRAM, 'argon2 = { package = "proved-argon2", path = "../copy" }')


def test_settings_are_checked_before_memory_is_allocated(cargo, program):
    """The program has 1 GB of memory, and the hash needs 4 GiB."""
    run(*RUN, cwd=program, env=cargo)
    made = cargo["CARGO_TARGET_DIR"] / "debug/program"
    run(made, "long", preexec_fn=lambda: resource.setrlimit(resource.RLIMIT_AS, (1 << 30, 1 << 30)))


def test_the_build_script_finds_the_library_by_pkg_config(built, cargo, program, tmp_path):
    (tmp_path / "proved_argon2.pc").write_text(
        f"libdir={built / MACHINE}\nName: proved_argon2\nDescription: x\nVersion: 1\n")
    run(*RUN, cwd=program, env={**cargo, "PROVED_ARGON2_LIB_DIR": None, "PKG_CONFIG_PATH": tmp_path})


@pytest.mark.parametrize("folder, why", [
    (None, "run ./install"), ("/nowhere", "PROVED_ARGON2_LIB_DIR is /nowhere, which has no libproved_argon2.a"),
])
def test_the_build_script_says_why_it_finds_no_library(cargo, program, folder, why):
    refuses(101, why, *RUN, cwd=program,
            env={**cargo, "PROVED_ARGON2_LIB_DIR": folder, "PKG_CONFIG_LIBDIR": "/nowhere"})


# ---- other targets

TARGET = "x86_64-unknown-linux-gnu x86_64 linux gnu 64"
WINDOWS = "x86_64-pc-windows-gnu x86_64 windows gnu 64"
NAMES = "TARGET", *(f"CARGO_CFG_TARGET_{name}" for name in ("ARCH", "OS", "ENV", "POINTER_WIDTH", "ENDIAN"))


class Repository:
    """A repository with the build script of this crate, a build, and a release, which is of these sources if
    `is_current`."""

    def __init__(self, folder, is_current):
        self.folder, self.released = folder, folder / "release/x86_64"
        for name in ("bindings/rust", "bindings/out/x86_64", "release/x86_64", "build"):
            (folder / name).mkdir(parents=True)
        (folder / "build/check_release").write_text(
            f"#!/bin/sh\necho it is of other sources >&2\nexit {not is_current:d}\n")
        (folder / "build/check_release").chmod(0o755)
        for name in ("bindings/out/x86_64", "release/x86_64"):
            (folder / name / "libproved_argon2.a").touch()
        run("rustc", CRATE / "build.rs", "-o", folder / "script", env={"CARGO_MANIFEST_DIR": folder / "bindings/rust"})

    def variables(self, target, **named):
        names = dict(zip(NAMES, [*target.split(), "little"]))
        return {"PROVED_ARGON2_LIB_DIR": None, "PKG_CONFIG_LIBDIR": "/nowhere", "PKG_CONFIG_PATH": None,
                "HOST": "x86_64-unknown-linux-gnu", **names, **named}

    def links(self, target, folder, **named):
        said = run(self.folder / "script", env=self.variables(target, **named))
        assert f"link-search=native={folder}\n" in said
        return said

    def refuses(self, why, target, **named):
        refuses(1, why, self.folder / "script", env=self.variables(target, **named))

    def has_sources(self):
        """Adds the library as C, as build/prepare finds it."""
        shutil.copytree(built_part("portable") / "portable", self.folder / "release/portable")
        (self.folder / "build/prepare").write_text(f"#!/bin/sh\necho {self.folder}/release\n")
        (self.folder / "build/prepare").chmod(0o755)


@pytest.fixture(scope="module")
def current(tmp_path_factory):
    return Repository(tmp_path_factory.mktemp("current"), True)


@pytest.fixture
def other(tmp_path):
    return Repository(tmp_path, False)


@pytest.mark.parametrize("target", """x86_64-apple-darwin x86_64 macos - 64
aarch64-apple-darwin aarch64 macos - 64
x86_64-pc-windows-msvc x86_64 windows msvc 64
i686-pc-windows-gnu x86 windows gnu 32
aarch64-pc-windows-gnullvm aarch64 windows gnu 64
x86_64-unknown-linux-uclibc x86_64 linux uclibc 64
aarch64-linux-android aarch64 android - 64
x86_64-unknown-linux-gnux32 x86_64 linux gnu 32
i686-unknown-linux-gnu x86 linux gnu 32
aarch64_be-unknown-linux-gnu aarch64 linux gnu 64 big
riscv64gc-unknown-linux-gnu riscv64 linux gnu 64
x86_64-pc-windows-gnu x86_64 windows gnu 64""".splitlines())
def test_the_build_script_stops_for_a_target_without_a_library(current, target):
    current.refuses(f"there is no libproved_argon2.a for {target.split()[0]}", target)


def test_the_build_script_uses_release_only_if_it_is_of_these_sources(tmp_path, other):
    repository = Repository(tmp_path / "current", True)
    for env in ("gnu", "musl"):
        repository.links(TARGET.replace("gnu", env), repository.released)
    windows = repository.released.with_name("windows-x86_64")
    windows.mkdir()
    (windows / "libproved_argon2.a").touch()
    repository.links(WINDOWS, windows)
    other.refuses("it is of other sources", TARGET)


@needs("aarch64-linux-gnu-gcc")
def test_the_build_script_compiles_the_library_as_c_for_a_target_without_an_archive(tmp_path, other):
    """It uses the compiler that CC names, and makes a new archive: an old one has objects of sources that are gone."""
    repository, made = Repository(tmp_path / "current", True), tmp_path / "made"
    made.mkdir()
    run("aarch64-linux-gnu-ar", "rcs", made / "libproved_argon2.a", tmp_path / "current/build/check_release")
    for one in (repository, other):
        one.has_sources()
    said = repository.links("aarch64_be-unknown-linux-gnu aarch64_be linux gnu 64 big", made, OUT_DIR=made,
                            CC="aarch64-linux-gnu-gcc", AR="aarch64-linux-gnu-ar")
    assert "cargo:warning=the library as C was compiled for aarch64_be-" in said
    assert " T proved_argon2_hash_raw\n" in run("aarch64-linux-gnu-nm", made / "libproved_argon2.a")
    assert "check_release" not in run("aarch64-linux-gnu-ar", "t", made / "libproved_argon2.a")
    repository.links(TARGET, made, OUT_DIR=made, PROVED_ARGON2_COMPILE="1")
    assert " T proved_argon2_hash_raw\n" in run("nm", made / "libproved_argon2.a")
    for no_c in "x86_64-pc-windows-msvc x86_64 windows msvc 64", "aarch64-apple-darwin aarch64 macos - 64":
        repository.refuses("in PROVED_ARGON2_LIB_DIR" if "msvc" in no_c else "in CC and AR", no_c)
    old = "i686-unknown-linux-gnu x86 linux gnu 32"
    repository.refuses("name a compiler and an archiver for it in CC and AR", old)
    other.refuses("it is of other sources", old)


def test_the_build_script_uses_an_installation_only_for_this_machine(built, other, tmp_path):
    """The processor and the system have to be the same. The target's first word may not be cargo's processor name."""
    shutil.rmtree(other.folder / "release")
    (tmp_path / "proved_argon2.pc").write_text(f"libdir={built / MACHINE}\nName: x\nDescription: x\nVersion: 1\n")
    for target in ("aarch64-unknown-linux-gnu aarch64 linux gnu 64", WINDOWS):
        other.refuses(f"there is no libproved_argon2.a for {target.split()[0]}", target, PKG_CONFIG_PATH=tmp_path)
    riscv = "riscv64gc-unknown-linux-gnu"
    for target, host in (TARGET.replace("gnu", "musl"), TARGET.split()[0]), (f"{riscv} riscv64 linux gnu 64", riscv):
        other.links(target, built / MACHINE, PKG_CONFIG_PATH=tmp_path, HOST=host)
