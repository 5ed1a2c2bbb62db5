"""The program in a shell: piped, on a terminal, and its script alone."""
import base64
import fcntl
import os
import re
import select
import shutil
import signal
import subprocess
import termios
import time

import patience
import pytest
from commands import (  # noqa: F401
    ABOVE,
    COMMAND,
    COSTLY,
    ROOT,
    SMALL,
    STORED,
    TOOL,
    Limits,
    each_command,
    numbers,
    piped,
    verifies,
)
from running import MACHINE, VERSION, build_preloaded, in_namespace, needs

SHELL = ROOT / "bindings/shell"
WORDS = "new", "check", "tune", "hash", "verify", "rehash"
HASH = ["hash", *SMALL, "somesalt"]
REHASH = "rehash argon2i 19 3 256 1 32".split()


@pytest.fixture(scope="module")
def limits():
    return numbers("default_limits", Limits)


# ---- piped

@pytest.mark.parametrize("words, password", [
    (["hash", *SMALL, "salt with $(blanks) `and` *\n"], b"\xff\xfe"), (HASH, b""), (HASH, b"pass\0word\n"),
    ([b"hash", *SMALL, b"somesalt\xff"], b"password"), (["verify", STORED], b"password"), (["verify", ""], b""),
    (["verify", "$argon2id$" * 13000], b"password"), (["check", STORED], b"password\n"),
    (["check", STORED], b"\xff" * 65537), (["check", COSTLY], b"password"),
    (["check", COSTLY.replace("c29tZXNhbHQ", "A" * 100000)], b"password"), ([b"check", b"\xff"], b"password"),
    ([*REHASH, STORED], b""), ([], b""), ([""], b""), (["hlep", "x"], b""), (["--help", "x"], b""),
    (["new", *SMALL[:-1]], b"x"), (["new", *SMALL, "somesalt"], b"x"), ([*HASH[:4], "64M", *HASH[5:]], b"x"),
    ([*HASH[:5], "", *HASH[6:]], b"x"), (["check", "x", "y"], b"x"),
], ids=lambda value: f"{value!r:.40}")
def test_words_are_passed_on_as_they_are(words, password):
    """The program answers each kind of command, also with words that shells might change."""
    theirs = piped(words, password, command=[TOOL])
    if words[:1] != ["new"]:
        assert piped(words, password) == theirs
    else:  # (the tool's `new` also takes a salt)
        status, output, errors = piped(words, password)
        assert (status, output) == (3, b"") and errors.startswith(b"usage\nnew takes VARIANT")


@pytest.mark.parametrize("words, status, line", [
    *((words, 3, b"MILLISECONDS") for words in ([], ["abc"], ["0"], ["250", "64M"], ["5", "7168", "x"])),
    (["100", "7167"], 2, b"7168"), (["60001"], 2, b"60000")])
def test_wrong_words_of_tune_are_named(words, status, line):
    ended, output, errors = piped(["tune", *words])
    assert (ended, output) == (status, b"") and line in errors and errors.startswith(b"usage\n") == (status == 3)


@pytest.mark.parametrize("words", [HASH, ["new"], ["--version"], ["-V"], ["--help"], ["new", "--help"]])
def test_a_full_output_has_status_4(words):
    with open("/dev/full", "wb") as full:
        done = patience.run([*COMMAND, *words], input=b"password", stdout=full, stderr=subprocess.PIPE)
    assert done.returncode == 4 and (words != HASH or done.stderr == b"")


def test_a_processor_that_is_too_old_has_status_2():
    for words in (HASH, ["check", STORED], ["new", *SMALL]):
        came = piped(words, b"password", env={**os.environ, "PROVED_ARGON2_CPU": "none"})
        assert came == (2, b"", b"The processor is too old\n"), words


@pytest.fixture
def in_c(installed):
    """Returns the program in C, which the installed script starts."""
    return str(installed / "libexec/proved-argon2" / MACHINE / "argon2_tool")


@needs("strace")
def test_a_write_that_fails_once_has_status_4(in_c):
    """The tag is longer than the C library's buffer, so that later writes succeed."""
    long = [*HASH[:6], "6000", *HASH[7:]]
    faults = ["strace", "-qq", "-o", "/dev/null", "-e", "trace=write", "-e", "inject=write:error=ENOSPC:when=1"]
    assert piped(long, b"password", [in_c])[0] == 0
    assert piped(long, b"password", [*faults, in_c])[0] == 4


def test_the_program_in_c_frees_no_block_with_the_password(in_c, tmp_path):
    """It moves a long password to larger blocks while it reads."""
    watched = {**os.environ, "LD_PRELOAD": str(build_preloaded(SHELL / "tests/freed.c", tmp_path))}
    assert piped(["check", STORED], 4000 * b"correct horse", [in_c], env=watched)[:2] == (1, b"false\n")


@pytest.fixture
def for_newer_glibc(built, tmp_path):
    """Returns the command of copies of the script and the tool, which need a version of glibc that does not exist."""
    libexec = tmp_path / "libexec/proved-argon2"
    (tmp_path / "bin").mkdir()
    script = tmp_path / "bin/proved-argon2"
    script.write_text((SHELL / "proved-argon2").read_text().replace("@VERSION@", VERSION))
    code = (built / MACHINE / "argon2_tool").read_bytes()
    assert b"\0GLIBC_2.34\0" in code
    (libexec / MACHINE).mkdir(parents=True)
    (libexec / MACHINE / "argon2_tool").write_bytes(code.replace(b"GLIBC_2.34\0", b"GLIBC_9.34\0"))
    (libexec / MACHINE / "argon2_tool").chmod(0o755)
    for name in ("commands.sh", "help.txt"):
        shutil.copy(SHELL / name, libexec / name)
    return ["sh", script]


def test_an_older_glibc_is_named_with_status_70(for_newer_glibc, tmp_path):
    expected = 70, b"", b"proved-argon2: the programs need glibc 2.34 or newer, which this system does not have\n"
    for words in (["new"], ["check", STORED], ["verify", STORED], ["tune", "9"], ["hash"], ["hlep"]):
        assert piped(words, b"password", command=for_newer_glibc) == expected, words
    # on a system with another loader, such as musl's, the shell does not find the program's own
    for program in tmp_path.glob("libexec/proved-argon2/*/argon2_tool"):
        code = program.read_bytes()
        program.write_bytes(code.replace(b"/lib64/ld-linux-x86-64.so.2", b"/lib64/ld-other-x86-64.so.2"))
    assert piped(["check", STORED], b"password", command=for_newer_glibc) == expected


def test_the_help_and_its_example():
    status, output, errors = expected = piped(["--help"])
    assert (status, errors) == (0, b"") and max(map(len, output.splitlines())) <= 95
    script = '{} "$@" {}'.format(*re.search(r"^ *(printf password \|) \S+ (hash .*)$", output.decode(), re.M).groups())
    done = patience.run(["sh", "-c", script, "sh", *COMMAND], capture_output=True)
    assert done.returncode == 0 and verifies(done.stdout.decode().splitlines()[1], b"password")
    for asked in (["-h"], ["help"], *([word, option] for word in WORDS for option in ("--help", "-h"))):
        assert piped(asked) == expected, asked
    for word in ("--version", "-V"):
        assert piped([word]) == (0, f"proved-argon2 {VERSION}\n".encode(), b"")


@pytest.mark.parametrize("line, expected", [
    ("", "new check tune hash verify rehash --help --version"), ("re", "rehash"),
    ("new ", "argon2id argon2i argon2d --help"), ("hash argon2id ", "19 16"),
    ("hash argon2id 19 2 19456 1 32 ", "seq par max"), ("check ", "- --help"), ("verify x ", "")])
def test_bash_completes_the_words(line, expected):
    script = '. "$0"; COMP_WORDS=("$@"); COMP_CWORD=$(($# - 1)); _proved_argon2; echo "${COMPREPLY[*]}"'
    words = ["bash", "-c", script, SHELL / "completion.bash", "proved-argon2", *line.split(" ")]
    done = patience.run(words, capture_output=True, text=True)
    assert (done.stdout.strip(), done.stderr) == (expected, "")


def salt_of(output):
    """Returns the bytes of the salt of a text, as Python reads base64."""
    return base64.b64decode(output.split(b"$")[4] + b"==", validate=True)


def test_new_prints_a_hash_with_owasp_s_settings_and_a_random_salt():
    texts = [piped(["new"], b"password") for _ in range(2)]
    for status, output, errors in texts:
        assert (status, errors, len(salt_of(output))) == (0, b"", 16)
        assert re.fullmatch(rb"\$argon2id\$v=19\$m=19456,t=2,p=1\$\S{22}\$\S{43}\n", output)
        assert verifies(output.decode(), b"password") and not verifies(output.decode(), b"password\n")
    salts = [salt_of(output) for _, output, _ in texts]
    # 32 random bytes are all below 128 only once in 2^32 times
    assert salts[0] != salts[1] and max(b"".join(salts)) > 127


@pytest.mark.parametrize("password, ends_with_newline", [
    (b"\0", False), (b"pass\0word", False), (b"\xff\xfe", False), (b"-n", False), (b"%s\\", False),
    (bytes(range(256)), False), (b"\xff" * 65536, False), (b"a\n", True), (b"\n", True), (b"x" * 65535 + b"\n", True),
    (b"pass\nword", False), (b"password\r", False), (b"\n\0", False)], ids=lambda value: f"{value!r:.20}")
def test_new_takes_any_bytes_and_tells_of_a_newline_at_the_end(password, ends_with_newline):
    status, output, errors = piped(["new", *SMALL], password)
    assert status == 0 and output.startswith(b"$argon2id$v=19$m=8,t=1,p=1$") and verifies(output.decode(), password)
    assert (errors.count(b"\n"), b"ends with a newline" in errors) == (ends_with_newline, ends_with_newline)
    assert piped(["check", output.decode().strip()], password) == (0, b"true\n", b"")
    assert piped(["check", output.decode().strip()], password[:-1] + b"\1") == (1, b"false\n", b"")


@pytest.mark.parametrize("settings, password, status, errors", [
    (SMALL, b"", 2, b"empty"), ("argon2id 19 1 7 1 16 seq".split(), b"x", 2, b"Memory cost is too small\n"),
    ("argon2id 19 1000000 8 1 16 seq".split(), b"x", 5, ABOVE), (SMALL, b"x" * 65537, 2, b"Password is too long\n")])
def test_new_prints_no_hash_if_its_input_is_rejected(settings, password, status, errors):
    ended, output, said = piped(["new", *settings], password)
    assert (ended, output) == (status, b"") and errors in said and (settings == SMALL or errors == said)


@pytest.mark.parametrize("words", [["new", *SMALL], ["new"], ["check", STORED]], ids=" ".join)
@pytest.mark.parametrize("script", ['"$@" </dev/zero', 'yes | "$@"'])
def test_an_input_without_end_is_refused_in_little_memory(words, script):
    """Each process has 64 MiB, and reads far less."""
    limited = ["prlimit", f"--as={64 << 20}", *COMMAND]
    done = patience.run(["sh", "-c", script, "sh", *limited, *words], capture_output=True)
    assert (done.returncode, done.stdout, done.stderr.splitlines()[0]) == (2, b"", b"Password is too long")


@pytest.mark.parametrize("redirection", ["<&-", "</"])
def test_new_makes_no_text_of_an_input_that_cannot_be_read(redirection):
    words = ["sh", "-c", '"$@" ' + redirection, "sh", *COMMAND, "new", *SMALL]
    done = patience.run(words, capture_output=True)
    assert (done.returncode, done.stdout) == (4, b"") and b"input" in done.stderr


@pytest.mark.skipif(os.geteuid() != 0, reason="that takes root, and namespaces")
@pytest.mark.parametrize("password, status, said", [
    (b"\0a%s\\ 'b", 0, b""), (b"\xff" * 65536, 0, b""), (b"a\n", 0, b"ends with a newline"), (b"", 2, b"is empty"),
    (b"x" * 65537, 2, b"too long"), (None, 4, b"input")], ids=lambda value: f"{value!r:.20}")
def test_new_reads_a_pipe_where_proc_is_not_mounted(password, status, said):
    """There, no program can open /dev/fd."""
    hidden = in_namespace(f"mount -t tmpfs none /proc; exec \"$@\" {'<&-' * (password is None)}", *COMMAND)
    ended, output, errors = piped(["new", *SMALL], password or b"", hidden)
    assert ended == status and said in errors and errors.count(b"\n") <= 2, errors
    assert verifies(output.decode(), password) if status == 0 else output == b""


@pytest.mark.parametrize("text, password, expected", [
    (STORED + "\n", b"password", (0, b"true\n")), (STORED, b"Password", (1, b"false\n")),
    (STORED + "\nmore\n", b"password", (0, b"true\n")), (COSTLY, b"password", (5, b"")), ("", b"password", (4, b"")),
    (None, b"password", (4, b""))])
def test_check_reads_an_encoded_hash_from_a_descriptor(tmp_path, text, password, expected):
    opened = "exec 3<&-; " if text is None else 'exec 3<"$0"; '
    (tmp_path / "text").write_text(text or "")
    words = ["sh", "-c", opened + 'exec "$@" check -', tmp_path / "text", *COMMAND]
    done = patience.run(words, input=password, capture_output=True)
    assert (done.returncode, done.stdout) == expected and (expected[0] != 4 or b"descriptor 3" in done.stderr)


@pytest.mark.parametrize("known", [
    bytes(range(0xE0, 0xF0)), bytes(16), bytes(range(16)), b"", bytes(range(0xE0, 0xEF))], ids=bytes.hex)
def test_the_salt_of_new_is_all_16_bytes_that_the_system_gives(tmp_path, known):
    """It asks the system for 16 random bytes."""
    od, asked = tmp_path / "od", "-An -v -tx1 -N16 /dev/urandom"
    od.write_text(f"""#!/bin/sh\n[ "$*" = '{asked}' ] || exec {shutil.which("od")} "$@"\necho ' {known.hex(" ")}'\n""")
    od.chmod(0o755)
    environment = {**os.environ, "PATH": f"{tmp_path}:{os.environ['PATH']}"}
    status, output, errors = piped(["new", *SMALL], b"password", env=environment)
    if len(known) == 16:
        assert (status, errors, salt_of(output)) == (0, b"", known)
    else:
        assert (status, output) == (4, b"") and b"random" in errors


# ---- the script alone, over a program that is known

SCRIPT = """
name=proved-argon2 version= help= program=$1/program
prepare() { :; }
. "$2"
loads=$1/load
shift 2
"$@"
"""


@pytest.fixture
def run_script(tmp_path):
    """Runs a function of the script with a program and environment variables."""
    def run(program, *words, stdin=b"", **variables):
        (tmp_path / "program").write_text("#!/bin/sh\n" + program)
        (tmp_path / "program").chmod(0o755)
        variables.update({**os.environ, "PATH": f"{tmp_path}:{os.environ['PATH']}", "FOLDER": str(tmp_path)})
        words = ["sh", "-c", SCRIPT, "sh", tmp_path, SHELL / "commands.sh", *words]
        done = patience.run(words, input=stdin, env=variables, capture_output=True)
        return done.returncode, done.stdout, done.stderr

    return run


def test_new_runs_the_program_once_and_prints_no_text_of_the_empty_password(run_script, tmp_path):
    program = "cat >/dev/null; mkdir \"$FOLDER/ran\" || exit 2; printf 'tag\\ntext\\n'"
    for password, expected in ((b"x", (0, b"text\n", b"")), (b"\0", (0, b"text\n", b"")),
                               (b"x" * 65536, (0, b"text\n", b"")),
                               (b"", (2, b"", b"proved-argon2: the password is empty\n"))):
        assert run_script(program, "main", "new", stdin=password) == expected, password
        (tmp_path / "ran").rmdir()
    # A program that rejects its arguments before it reads has nothing to do with the password.
    for status in (2, 4, 70, 139):
        ended, output, errors = run_script(f"exit {status}", "main", "new", stdin=b"x")
        assert (ended, output) == (status, b"") and b"empty" not in errors, status


@pytest.mark.parametrize("changed", [
    "watch_input() { exit 2; }", "pass_on() { exit 2; }", "tell_of_end() { exit 2; }",
    'head() { command head "$@"; return 137; }', 'tee() { command tee "$@"; return 137; }'])
def test_new_prints_no_text_if_a_process_before_the_program_is_denied_or_killed(run_script, changed):
    """A shell that cannot start a process exits at once."""
    program = "cat >/dev/null; printf 'tag\\ntext\\n'"
    status, output, errors = run_script(program, "eval", f"{changed}; main new", stdin=b"x")
    assert status in (2, 4) and output == b"" and errors.startswith(b"proved-argon2: the ")


def test_the_program_gets_the_huge_pages_setting_and_no_open_descriptor(run_script):
    program = """cat >/dev/null
[ "$1" = new ] && printf 'tag\\n%s\\n' "$GLIBC_TUNABLES" && exit
[ ! -e /proc/self/fd/3 ] || echo open
exit 1
"""
    for variables, expected in (({}, b"glibc.malloc.hugetlb=1\n"), ({"GLIBC_TUNABLES": "own"}, b"own\n")):
        assert run_script(program, "main", "new", stdin=b"x", **variables) == (0, expected, b"")
    for text in ("x", "$argon2id$"):
        words = f"printf '%s' '{text}' >\"$FOLDER/text\"; exec 3<\"$FOLDER/text\"; main check -"
        assert run_script(program, "eval", words) == (1, b"", b""), text


@pytest.mark.parametrize("load, is_busy", [("1000.25", True), ("0.00", False)])
@pytest.mark.parametrize("measured, expected", [
    ("echo 10 8192 200", (0, b"argon2id 19 10 8192 1 32 seq\n", b"")),
    ("exit 1", (1, b"", b"no settings for passwords within 8192 KiB take at most 250 milliseconds here\n"))])
def test_tune_prints_what_was_measured_and_warns_if_the_machine_was_busy(run_script, load, is_busy, measured, expected):
    called = '[ "$*" = "tune argon2id 19 1 8192 1 32 seq 250" ] || exit 2'
    words = f"echo {load} 0 0 1/2 3 >\"$FOLDER/load\"; main tune 250 8192"
    status, output, errors = run_script(f"{called}\n{measured}", "eval", words)
    assert (status, output) == expected[:2] and errors.endswith(expected[2])
    assert (b"the load is 1000.25 on" in errors) == is_busy


def test_tune_ends_where_check_takes_no_hash(run_script):
    status, output, errors = run_script("exit 5", "main", "tune", "10000", "7168")
    assert (status, output) == (5, b"") and b"check" in errors


def test_the_least_memory_is_the_least_that_owasp_advises():
    least = re.search(r"^least_memory=(\d+)$", (SHELL / "commands.sh").read_text(), re.M)[1]
    assert int(least) == min(numbers(f"owasp{number}").mem_cost for number in range(1, 6))


@pytest.mark.parametrize("kib, milliseconds, status", [(7168, 0, 1), (8, 60000, 1), (7, 60000, 2)])
def test_the_program_in_c_finds_no_settings_that_are_slow_weak_or_invalid(in_c, kib, milliseconds, status):
    words = ["tune", *f"argon2id 19 1 {kib} 1 32 seq {milliseconds}".split()]
    assert piped(words, command=[in_c])[:2] == (status, b"")


def test_the_program_in_c_measures_nothing_above_the_limits(in_c, limits):
    words = ["tune", *f"argon2id 19 1 {limits.mem_cost + 1} 1 32 seq 0".split()]
    assert piped(words, command=[in_c]) == (5, b"", b"")


def test_tune_prints_settings_that_new_takes(limits):
    status, output, errors = piped(["tune", "60000", "7168"])
    assert (status, output) == (0, b"argon2id 19 %d 7168 1 32 seq\n" % limits.time_cost)
    assert b"$m=7168,t=%d,p=1$" % limits.time_cost in piped(["new", *output.decode().split()], b"password")[1]


# ---- on a terminal

class Terminal:
    """A run of the words on a terminal, with separate standard output."""

    def __init__(self, words, *typed, env=None):
        self.master, self.slave = os.openpty()
        self.shown = b""
        self.run = subprocess.Popen(
            [*COMMAND, *words], stdin=self.slave, stdout=subprocess.PIPE, stderr=self.slave, start_new_session=True,
            env=env, preexec_fn=lambda: fcntl.ioctl(0, termios.TIOCSCTTY, 0))
        for prompt, keys in enumerate(typed, start=1):
            while self.shown.count(b": ") < prompt:
                self.read()
                assert self.run.poll() is None, ("nothing was asked", self.shown)
            assert not self.echoes(), ("the terminal echoes at a prompt", self.shown)
            assert self.ignores(signal.SIGTSTP), "it can be suspended without an echo"
            os.write(self.master, keys)
        self.output = patience.communicate(self.run)[0]
        self.end = self.run.returncode, self.output
        self.read()
        assert self.echoes(), "the echo is not back"
        os.close(self.master)
        os.close(self.slave)

    def echoes(self):
        return bool(termios.tcgetattr(self.slave)[3] & termios.ECHO)

    def ignores(self, number):
        with open(f"/proc/{self.run.pid}/status") as status:
            ignored = next(line.split()[1] for line in status if line.startswith("SigIgn:"))
        return bool(int(ignored, 16) >> (number - 1) & 1)

    def read(self):
        while select.select([self.master], [], [], 0.05)[0]:
            self.shown += os.read(self.master, 65536)


@pytest.mark.parametrize("words", [
    ["hash"], ["hash", *"argon2x 19 2 256 1 32 seq somesalt".split()], [*HASH[:5], "", *HASH[6:]],
    [*HASH[:7], "max", "somesalt"], [*REHASH[:-1], "", STORED], ["verify"], ["verify", "x", "y"], ["hlep"]],
    ids=" ".join)
def test_words_of_a_wrong_form_point_to_the_help(words):
    run = Terminal(words)
    assert run.end == (3, b"") and run.shown.startswith(b"usage\r\n") and b"--help" in run.shown


def test_a_right_command_is_run_in_place_of_the_shell():
    words = ["hash", *"argon2id 19 400000000 1024 1 32 max2 somesalt".split()]
    terminal = os.openpty()
    run = subprocess.Popen(
        [*COMMAND, *words], stdin=subprocess.DEVNULL, stdout=subprocess.DEVNULL, stderr=terminal[1])
    try:
        while os.path.basename(os.readlink(f"/proc/{run.pid}/exe")) != os.path.basename(TOOL):
            assert run.poll() is None, "the shell has ended"
            time.sleep(0.02)
    finally:
        run.terminate()
        assert run.wait() == -signal.SIGTERM
        [*map(os.close, terminal)]


@pytest.mark.parametrize("password", [
    b"my secret", b"  two  blanks  ", b"back\\slash\\n", b"\xff\xfe\x81\x88", b"-e $HOME `id` '\"", b"\xc3\xa9",
    b"a" * 4094])
def test_new_asks_twice_without_echo(password):
    run = Terminal(["new", *SMALL], password + b"\n", password + b"\n")
    assert run.end[0] == 0 and verifies(run.output.decode(), password)
    assert password not in run.shown and run.shown.count(b": ") == 2


@pytest.mark.parametrize("typed, status, said", [
    ((b"one\n", b"two\n"), 1, b"not the same"), ((b"\n", b"\n"), 2, b"empty"), ((b"\x04",), 4, b"no password"),
    ((b"a" * 4095 + b"\n",), 4, b"too long"), ((b"a" * 6000 + b"\n",), 4, b"too long"),
    ((b"half\x03",), -signal.SIGINT, b"")], ids=lambda value: f"{value!r:.20}")
def test_new_prints_no_hash_if_the_typed_password_is_rejected(typed, status, said):
    run = Terminal(["new", *SMALL], *typed)
    assert run.end == (status, b"") and said in run.shown


@pytest.mark.parametrize("words, typed, end, said", [
    (["check", STORED], b"password\n", (0, b"true\n"), b""), (["check", STORED], b"Password\n", (1, b"false\n"), b""),
    (["check", STORED], b"\n", (1, b"false\n"), b""), (["check", "x"], b"password\n", (2, b""), b"Decoding failed"),
    (["check", COSTLY], b"password\n", (5, b""), b"above the limits"), (["check", STORED], b"\x04", (4, b""), b""),
    (["check", STORED], b"half\x03", (-signal.SIGINT, b""), b""),
    (["verify", STORED], b"password\n", (0, b"true\n"), b""), (["verify", STORED], b"passwor\n", (1, b"false\n"), b""),
    ([*REHASH, "x"], None, (2, b""), b"Decoding failed\r\n")], ids=lambda value: f"{value!r:.20}")
def test_the_other_commands_ask_once_without_echo_and_answer(words, typed, end, said):
    run = Terminal(words, *[typed] * (typed is not None))
    assert run.end == end and said in run.shown and b"--help" not in run.shown
    key = (typed or b"").strip(b"\n\x03\x04")
    assert not key or key not in run.shown.replace(b"Password: ", b"")


def test_hash_asks_once_without_echo():
    run = Terminal(["hash", *"argon2i 19 2 256 1 32 seq somesalt".split()], b"password\n")
    assert run.end[0] == 0 and run.output.decode().splitlines()[1:] == [STORED]
    assert b"assw" not in run.shown.replace(b"Password: ", b"")


def test_tune_shows_its_progress_on_a_terminal(limits):
    run = Terminal(["tune", "60000", "7168"])
    assert run.end == (0, b"argon2id 19 %d 7168 1 32 seq\n" % limits.time_cost)
    assert b"\r" in run.shown and b"measuring a hash with 5 passes" in run.shown and b" milliseconds:" in run.shown
