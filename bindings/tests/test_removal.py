"""Installs over an installation and elsewhere, and removes everything again."""
import os
import pathlib
import re
import shutil
import stat
import tempfile

import pytest
from running import TOP, refuses, run, start
from test_install import EXPECTED, LIBRARY, files_in

OLDEST = re.search(r"^oldest_libc=(.*)", (TOP / "install").read_text(), re.M)[1]
NOBODY = ["setpriv", "--reuid=65534", "--regid=65534", "--clear-groups"]
# In a private /usr/local, and with a private /etc with the loader's list.
IN_USR_LOCAL = """cp -a /etc "$1/etc" && mount --bind "$1/etc" /etc && mount -t tmpfs none /usr/local
./install && ldconfig -p | grep "/usr/local/lib/$2.1$"
PYTHONPATH=bindings/python/src PROVED_ARGON2_LIBRARY=$2.1 python3 -B -c "import proved_argon2"
./install --remove && [[ -z $(ls -A /usr/local) ]] && ! ldconfig -p | grep "$2"
"""


@pytest.fixture
def folder():
    """Yields a folder that everybody may read."""
    made = pathlib.Path(tempfile.mkdtemp())
    made.chmod(0o755)
    yield made
    run("chmod", "-R", "u+w", made)
    shutil.rmtree(made)


@pytest.fixture
def prefix(folder):
    run("./install", folder / "deep/a prefix")
    return folder / "deep/a prefix"


def test_it_installs_over_an_older_one_and_removes_only_what_is_its_own(prefix):
    older = prefix / f"lib/{LIBRARY}.0.9.0"
    older.touch()
    with open(prefix / "share/proved-argon2/installed", "a") as listed:
        listed.write(f"file {older}\n")
    run("./install", prefix)
    assert files_in(prefix) == EXPECTED
    (prefix / "lib/another").touch()
    run("./install", "--remove", prefix)
    assert {str(path.relative_to(prefix)) for path in prefix.rglob("*")} == {"lib", "lib/another"}


def test_destdir_stages_and_removes_all_files(folder):
    stage = {"DESTDIR": folder / "stage"}
    run("./install", "/opt/argon2", env=stage)
    there = folder / "stage/opt/argon2"
    assert files_in(there) == EXPECTED and not pathlib.Path("/opt/argon2").exists()
    assert "prefix=/opt/argon2" in (there / "lib/pkgconfig/proved_argon2.pc").read_text().splitlines()
    assert start("grep", "-rqF", folder, there / "share").returncode == 1
    run("./install", "--remove", "/opt/argon2", env=stage)
    assert [*(folder / "stage").iterdir()] == []


def test_it_honours_libdir(folder):
    libdir = folder / "else/lib64"
    run("./install", folder / "else", env={"LIBDIR": libdir})
    assert (libdir / LIBRARY).exists() and not (folder / "else/lib").exists()
    said = run("pkg-config", "--libs-only-L", "proved_argon2", env={"PKG_CONFIG_PATH": libdir / "pkgconfig"})
    assert said.startswith(f"-L{libdir}")
    run("./install", "--remove", folder / "else")
    assert [*folder.iterdir()] == []
    refuses(1, "nothing is installed", "./install", "--remove", folder / "else")


@pytest.mark.skipif(os.geteuid() != 0, reason="that takes root and namespaces")
def test_the_loader_is_told_of_usr_local(folder):
    run("unshare", "--mount", "bash", "-euc", IN_USR_LOCAL, "bash", folder, LIBRARY)


@pytest.mark.parametrize("mask", ["000", "022", "077"])
def test_what_is_installed_has_its_modes_under_each_umask(folder, mask):
    """The masks are a careless one, the usual one, and that of a careful root."""
    prefix = folder / f"mask/{mask}"
    run("sh", "-c", 'umask "$0" && exec ./install "$1"', mask, prefix)
    for path in [prefix, *prefix.rglob("*")]:
        is_program = path.parent.name == "bin" or path.name in ("argon2_tool", "uninstall")
        expected = 0o777 if path.is_symlink() else 0o755 if path.is_dir() or is_program else 0o644
        status = path.lstat()
        assert stat.S_IMODE(status.st_mode) == expected, path
        assert (status.st_uid, status.st_gid) == (os.geteuid(), os.getegid()), path
    assert (prefix / "bin/proved-argon2").exists()
    run("./install", "--remove", prefix)
    assert not (folder / "mask").exists()


@pytest.mark.parametrize("name", ["lib/libproved_argon2.a", "share/proved-argon2/installed"])
@pytest.mark.parametrize("victim", ["victim/mine", "victim"])
def test_a_link_to_a_file_or_folder_in_the_place_of_a_file_is_not_followed(folder, name, victim):
    (folder / "victim").mkdir()
    (folder / "victim/mine").write_text("mine")
    for file in (folder / "link" / name, folder / f"link/{name}.new"):
        file.parent.mkdir(parents=True, exist_ok=True)
        file.symlink_to(folder / victim)
    run("./install", folder / "link")
    assert files_in(folder / "victim") == {"mine"} and (folder / "victim/mine").read_text() == "mine"
    assert files_in(folder / "link") == EXPECTED and not (folder / "link" / name).is_symlink()


# It makes a folder, and another whose name another user could guess.
MKTEMP = """#!/bin/sh
made=$(/usr/bin/mktemp "$@") && mkdir "$made.linked" && echo mine >"$made.linked/mine" && echo "$made"
"""


def test_it_deletes_no_folder_that_another_user_could_make_beside_its_own(folder):
    (folder / "mktemp").write_text(MKTEMP)
    (folder / "mktemp").chmod(0o755)
    run("./install", folder / "prefix", env={"PATH": f"{folder}:{os.environ['PATH']}", "TMPDIR": folder})
    assert len([*folder.glob("*.linked/mine")]) == 1


@pytest.mark.skipif(os.geteuid() != 0, reason="that takes root")
@pytest.mark.parametrize("words", [[], ["--remove"]])
def test_root_deletes_nothing_that_another_users_list_names(prefix, folder, words):
    (folder / "victim").touch()
    listed = prefix / "share/proved-argon2/installed"
    listed.write_text(f"file {folder}/victim\n")
    os.chown(listed, 65534, 65534)
    refuses(1, "belongs to another user", "./install", *words, prefix)
    assert (folder / "victim").exists() and files_in(prefix) == EXPECTED


@pytest.mark.parametrize("said", ["echo glibc 2.31", "echo glibc 2.5", "echo glibc 2.33", "echo undefined; exit 1",
                                  "exit 127", f"echo glibc {OLDEST}", "echo glibc 2.100"])
def test_an_older_c_library_and_another_one_are_refused_by_one_line(folder, said):
    """A stand-in for getconf names the C library. Packages are made anyway."""
    (folder / "getconf").write_text(f"#!/bin/sh\n{said}\n")
    (folder / "getconf").chmod(0o755)
    named = {"PATH": f"{folder}:{os.environ['PATH']}"}
    if said in (f"echo glibc {OLDEST}", "echo glibc 2.100"):
        run("./install", folder / "prefix", env=named)
        return
    why = f"it needs the GNU C library {OLDEST} or newer, and here is"
    assert refuses(1, why, "./install", folder / "older", env=named).count("\n") == 1
    assert not (folder / "older").exists()
    run("./install", "/usr", env={"DESTDIR": folder / "stage", **named})


def test_installed_files_need_no_newer_c_library_than_stated(installed):
    files = [path for path in installed.rglob("*") if path.is_file() and re.match(f"{LIBRARY}|argon2_", path.name)]
    found = re.findall(r"GLIBC_([\d.]+)", run("readelf", "-VW", *files))
    assert max(found, key=lambda version: [*map(int, version.split("."))]) == OLDEST


@pytest.mark.parametrize("name", ["lib/pkgconfig", "lib/libproved_argon2.a/file"])
@pytest.mark.parametrize("is_mended", [True, False])
def test_it_can_be_repeated_or_removed_after_a_fault_in_the_middle_of_an_upgrade(folder, name, is_mended):
    """A file is where a folder has to be, or a folder where a file has to be."""
    prefix = folder / "fault"
    fault, older, listed = (prefix / file for file in (name, "lib/older", "share/proved-argon2/installed"))
    for file in (fault, older, listed):
        file.parent.mkdir(parents=True, exist_ok=True)
        file.touch()
    listed.write_text(f"file {older}\n")
    refuses(1, "not all was put", "./install", prefix)
    if is_mended:
        fault.unlink()
        start("rmdir", fault.parent)
    run("./install", *([] if is_mended else ["--remove"]), prefix)
    assert files_in(prefix) == (EXPECTED if is_mended else {name})


def test_a_copy_removes_nothing_of_what_was_copied(prefix, folder):
    """The same goes for what DESTDIR staged, where /usr itself may have the files."""
    run("cp", "-R", prefix, folder / "copy")
    refuses(1, f"{prefix}/share/proved-argon2/uninstall removes", folder / "copy/share/proved-argon2/uninstall")
    assert files_in(prefix) == files_in(folder / "copy") == EXPECTED


@pytest.mark.parametrize("command", [["./install", "--remove", "{}"], ["{}/share/proved-argon2/uninstall"]])
def test_a_removal_that_fails_can_be_repeated(prefix, folder, command):
    """A stand-in for rm fails at one of the last files."""
    command = [word.format(prefix) for word in command]
    (folder / "rm").write_text('#!/bin/sh\ncase $* in */uninstall) exit 1 ;; esac\nexec /bin/rm "$@"\n')
    (folder / "rm").chmod(0o755)
    refuses(1, "", *command, env={"PATH": f"{folder}:{os.environ['PATH']}"})
    run(*command)
    assert not prefix.exists()


@pytest.mark.skipif(os.geteuid() == 0 and start(*NOBODY, "test", "-r", "install").returncode != 0,
                    reason="only root can read the repository")
def test_a_user_without_rights_is_refused(folder):
    """If root runs the test, another user installs; otherwise the folder is not writable."""
    folder.chmod(0o555)
    refuses(1, "no right to write", *(NOBODY if os.geteuid() == 0 else []), "./install", folder / "prefix")
    assert [*folder.iterdir()] == []


@pytest.mark.parametrize("status, why, words", [
    (1, "a quote", ['/nowhere/"quoted"']), (1, "a quote", ["/proc/nowhere\n"]),
    (2, "PREFIX", ["--prefix", "/nowhere"]), (2, "PREFIX", ["/nowhere", "/tmp"]),
])
def test_wrong_words_are_refused(status, why, words):
    refuses(status, why, "./install", *words)
