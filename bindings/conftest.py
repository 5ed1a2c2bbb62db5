"""The tests of these folders share this: the folders of modules that they import, what is built, where it is installed,
and what cargo and Node need."""
import random
import shutil
import sys
from pathlib import Path

import pytest

TOP = Path(__file__).resolve().parents[1]
sys.path += [str(TOP / folder) for folder in (
    "build", "crates/argon2_vectors", "bindings/c/tests", "bindings/shell/tests", "bindings/tests",
    "bindings/vectors")]
import running  # noqa: E402


@pytest.fixture(scope="session")
def built():
    """Returns the folder with everything for this machine, linked."""
    return running.built()


@pytest.fixture(scope="session")
def installed(tmp_path_factory):
    """Returns the prefix of an installation, with a blank in its name."""
    prefix = tmp_path_factory.mktemp("installed") / "a prefix"
    running.run("./install", prefix)
    return prefix


@pytest.fixture(scope="session")
def cargo(tmp_path_factory):
    """Returns the variables by which cargo takes Debian's crates, and compiles into one folder."""
    home = tmp_path_factory.mktemp("cargo")
    (home / "config.toml").write_text(running.CRATES_OF_DEBIAN)
    cheap = {"CARGO_INCREMENTAL": 0, "CARGO_PROFILE_DEV_DEBUG": 0}
    return {"CARGO_HOME": home, "CARGO_TARGET_DIR": home / "target", **cheap}


@pytest.fixture(scope="session")
def drawn(tmp_path_factory):
    """Returns the variable that names a file of 800 hashes of libargon2, drawn anew each time."""
    file = tmp_path_factory.mktemp("drawn") / "random.txt"
    file.write_text(running.run("python3", "bindings/vectors/drawn.py", random.SystemRandom().getrandbits(32), 800))
    return {"RANDOM_HASHES": file}


@pytest.fixture(scope="session")
def site(tmp_path_factory):
    """Returns the package for npm, installed beside its tests by npm without a network, or put where npm would put
    it."""
    folder = tmp_path_factory.mktemp("site")
    packed, modules = folder / "package.tgz", folder / "node_modules"
    running.run("bindings/javascript/pack", packed, running.built("wasm32") / "wasm32",
                running.built() / running.MACHINE, env={"SOURCE_DATE_EPOCH": 0})
    for file in (TOP / "bindings/javascript/tests").glob("*.[cm][jt]s"):
        shutil.copy(file, folder)
    modules.mkdir()
    if shutil.which("npm"):
        words = "--offline", "--no-audit", "--no-fund", "--cache", folder / "cache"
        running.run("npm", "install", *words, packed, cwd=folder)
    else:
        running.run("tar", "-C", modules, "-xzf", packed)
        (modules / "package").rename(modules / "proved-argon2")
    return folder
