"""The package for npm: its own tests, some with other implementations' hashes, here and in another Debian
release's Node."""
import json
import shutil
import sys
from pathlib import Path

import pytest
from running import CC, MACHINE, TOP, has_node, in_system, make_system, needs, run, serves

HEADERS, SOURCES = TOP / "bindings/c/include", TOP / "bindings/javascript"
NODE_API = Path("/usr/include/node/node_api.h")
pytestmark = has_node()
# The test files for what both engines do, and all those of the package itself.
BOTH = "vectors", "errors", "inputs", "services", "secrets", "line"
OWN = *BOTH, "running", "flat"
# The tag that libargon2's tests have for "password" and "somesalt" with two passes, 256 KiB and two lanes
TAG = "6d093c501fd5999645e0ea3bf620d7b8be7fd2db59c20d9fff9539da2bf57037"
WEBASSEMBLY = {"PROVED_ARGON2_NATIVE": 0}
ASKS = {"dependencies", "optionalDependencies", "peerDependencies", "scripts", "bin"}


@pytest.fixture(scope="module")
def named(drawn):
    """Returns the variables with which the tests run."""
    data = run(sys.executable, "bindings/vectors/drawn.py", "data").strip()
    return {"VECTORS": TOP / "bindings/vectors", "WITH_DATA": data, "PAGE": TOP / "docs/demo", **drawn}


def judge(site, named, names, *node):
    words = *(node or ["node"]), "--test", "--test-reporter=spec"
    run(*words, *(f"{name}.test.mjs" for name in names), cwd=site, env=named)


@pytest.mark.parametrize("engine, names", [({}, OWN), (WEBASSEMBLY, BOTH)], ids=["the addon", "WebAssembly"])
def test_its_own_tests_pass(site, named, engine, names):
    judge(site, {**named, **engine}, names)


def test_bundlers_and_policies(site, named):
    judge(site, named, ["bundlers"])


@needs("mmdebstrap")
def test_its_own_tests_pass_in_the_node_of_debian_s_sid(site, named, tmp_path):
    """Tests by workers use WebAssembly. The random hashes are in a file beside the site."""
    system = make_system(tmp_path / "system", "sid", "nodejs")
    judge(site, named, OWN, *in_system(system, "node", shared=(site.parent, TOP)))


def test_the_package_has_the_licence_and_no_dependencies_or_install_scripts(site):
    """It has no dependencies, and runs nothing when it is installed."""
    folder = site / "node_modules/proved-argon2"
    for name in ("LICENSE", "NOTICE", "proved-argon2.spdx"):
        assert (folder / name).read_bytes() == (TOP / name).read_bytes()
    assert not ASKS & json.loads((folder / "package.json").read_text()).keys()


@pytest.mark.skipif(not NODE_API.exists(), reason="there is no header of Node's")
def test_the_addon_declares_what_node_does():
    run(CC, "-std=c11", "-D_GNU_SOURCE=", "-Wall", "-Werror", "-fsyntax-only", "-I", HEADERS, "-include", NODE_API,
        SOURCES / "addon/addon.c")


@pytest.mark.parametrize("sanitizer", ["thread", "address,undefined"])
def test_the_addon_computes_even_if_threads_are_denied(built, tmp_path, sanitizer):
    """Runs queue for the existing threads."""
    program = tmp_path / "program"
    run(CC, "-std=c11", "-D_GNU_SOURCE=", "-O1", f"-fsanitize={sanitizer}", "-fno-sanitize-recover=all", "-Wall",
        "-Wextra", "-Werror", "-g", "-I", HEADERS, "-I", SOURCES / "addon", SOURCES / "tests/addon.c",
        SOURCES / "addon/addon.c", built / MACHINE / "libproved_argon2.a", "-pthread", "-rdynamic", "-o", program,
        "-Wl,--wrap=pthread_create,--wrap=proved_argon2_buffers_free_idle")
    said = run(program)
    assert said.count("passed: ") == 8 and TAG in said


BARE = """import { hash } from 'proved-argon2';
import inline = require('proved-argon2/inline');

export const made: Promise<string> = hash('password');
export const verdict: Promise<boolean> = inline.verify('', 'password');
"""


@needs("tsc")
@pytest.mark.parametrize("words", ["--module nodenext --moduleResolution nodenext types.mts",
                                   "--module es2022 --moduleResolution node types.mts",
                                   "--lib es2022 --module nodenext --moduleResolution nodenext bare.cts"])
def test_typescript_accepts_right_calls_and_rejects_wrong_ones(site, words):
    """We try both rules by which compilers find a package's types, CommonJS, and no types of a page or of Node."""
    (site / "bare.cts").write_text(BARE)
    run("tsc", "--noEmit", "--strict", "--target", "es2022", *words.split(), cwd=site)


@needs("eslint")
def test_eslint_finds_nothing():
    """eslint reads the code for engines and its tests."""
    words = "--no-eslintrc", "--config", "bindings/javascript/eslint.json", "--format", "unix", "--ext", ".js,.mjs"
    run("eslint", *words, "bindings/javascript", "bindings/wasm", "bench", "docs/demo", "docs/examples", env={
        "NODE_PATH": "/usr/share/nodejs", "NODE_OPTIONS": f"--require={SOURCES}/tests/debian.cjs"})


def test_the_logins_of_a_service(site):
    shutil.copy(TOP / "docs/examples/log_in.mjs", site)
    serves("node", "logins.mjs", cwd=site)
