"""The WebAssembly modules: what they import, export and compute, and when they trap, in Node. Linking twice gives the
same files; they cut addresses before adding constants to them."""
import re
import shutil

import pytest
from running import TOP, needs, run

ARCHIVE = TOP / "bindings/out/wasm64-unknown-unknown/libargon2_c.a"
CALLS = re.findall(r'^pub extern "C" fn (proved_argon2_[a-z0-9_]*)', "".join(
    file.read_text() for file in (TOP / "crates/argon2_c/src").glob("*.rt")), re.M)
# An address cut to 32 bits after a constant is added, which could be an offset.
SUM = re.compile(r"i64\.const -?\d{1,9}\n *i64\.add\n *i32\.wrap_i64\n")
pytestmark = needs("node", "wasm2wat")


@pytest.fixture(scope="module")
def modules():
    """Returns the folder with both modules, as built here."""
    run("build/make", "wasm32")
    return TOP / "bindings/out/wasm32"


def link(folder, change=""):
    """Links in another folder, with a changed script."""
    for name in ("build", "bindings/wasm", "crates/argon2_c/src"):
        shutil.copytree(TOP / name, folder / name)
    run("sed", "-i", change, folder / "build/link_wasm")
    run(folder / "build/link_wasm", ARCHIVE, folder / "made", cwd="/")
    return folder / "made"


def test_they_import_export_compute_and_trap_as_they_should(modules):
    words = "node", "--test", "--test-reporter=tap", "bindings/wasm/tests/modules.test.mjs"
    named = {"MODULES": modules, "VECTORS": "bindings/vectors", "CALLS": " ".join(CALLS), "NODE_TEST_CONTEXT": None}
    assert re.search(r"^# pass 8$", run(*words, env=named), re.M)


def test_linked_in_another_folder_they_are_the_same(modules, tmp_path):
    made = link(tmp_path)
    for name in ("proved_argon2.wasm", "proved_argon2_shared.wasm"):
        assert (made / name).read_bytes() == (modules / name).read_bytes()


def test_they_cut_addresses_before_they_add_constants(modules, tmp_path):
    for name in ("proved_argon2.wasm", "proved_argon2_shared.wasm"):
        assert not SUM.search(run("wasm2wat", "--enable-threads", modules / name))
    planted = link(tmp_path, "s/ | sed -zE [^>]*//") / "proved_argon2.wasm"
    assert SUM.search(run("wasm2wat", "--enable-threads", planted))
