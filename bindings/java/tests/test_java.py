"""The jar for Java: its own tests in Java 17, 21 and 25, also with a library compiled from C, and how it loads its
library."""
import re
import shutil
import zipfile
from pathlib import Path

import pytest
from running import (
    CC, CODES, HEADER, MACHINE, NUMBERS, TOP, built, first_lines, in_namespace, in_system, make_system, needs, run,
    serves, start)

JAVA, SHARED = TOP / "bindings/java", TOP / "bindings/tests"
LIBRARIES = [f"/usr/share/java/{name}.jar" for name in ("junit-platform-console-standalone", "bcprov")]
LINT = "-Xlint:all,-path", "-Werror"
NEWER = "trixie"  # Debian's release with Java 21 and 25
DATED = {"SOURCE_DATE_EPOCH": 1700000000}
pytestmark = needs("javac")
# Native calls of CodesTest, beside codes.c.
CODES_OF_JAVA = """#include <jni.h>
#include "proved_argon2.h"
void set_answers(uint32_t check, uint32_t then, uint32_t read, uint32_t memory, uint32_t kib);
const char *seen(void);
JNIEXPORT void JNICALL Java_proved_argon2_CodesTest_set(JNIEnv *env, jclass class, jint check, jint then, jint read);
JNIEXPORT void JNICALL Java_proved_argon2_CodesTest_set(JNIEnv *env, jclass class, jint check, jint then, jint read)
{
    if (env != NULL && class != NULL) set_answers((uint32_t)check, (uint32_t)then, (uint32_t)read, 0, 1024);
}
JNIEXPORT jstring JNICALL Java_proved_argon2_CodesTest_seen(JNIEnv *env, jclass class);
JNIEXPORT jstring JNICALL Java_proved_argon2_CodesTest_seen(JNIEnv *env, jclass class)
{
    return class == NULL ? NULL : (*env)->NewStringUTF(env, seen());
}
"""
# Denies threads while there is a file `threads` in $DENIED.
DENYING = """#define _GNU_SOURCE
#include <dlfcn.h>
#include <errno.h>
#include <pthread.h>
#include <stdio.h>
#include <stdlib.h>
#include <unistd.h>
int pthread_create(pthread_t *thread, const pthread_attr_t *with, void *(*call)(void *), void *arg)
{
    __typeof__(pthread_create) *const own = (__typeof__(pthread_create) *)dlsym(RTLD_NEXT, "pthread_create");
    char path[4096];
    snprintf(path, sizeof path, "%s/threads", getenv("DENIED"));
    return access(path, F_OK) == 0 ? EAGAIN : own(thread, with, call, arg);
}
"""
# A copy of Spring's interface, and the adapter of the page.
SPRING = """interface PasswordEncoder {
    String encode(CharSequence rawPassword);
    boolean matches(CharSequence rawPassword, String encodedPassword);
    default boolean upgradeEncoding(String encodedPassword) { return false; }
}
%s
class Program {
    public static void main(String[] arguments) {
        PasswordEncoder encoder = new Argon2Encoder();
        String stored = encoder.encode("password");
        boolean isOld = encoder.upgradeEncoding(stored.replace("t=2", "t=1"));
        boolean isRight = encoder.matches("password", stored), isWrong = encoder.matches("Password", stored);
        System.out.println(isRight + " " + isWrong + " " + isOld);
    }
}
"""


def pack(jar, *folders):
    """Makes the jar, and what is beside it, and returns it. (`pack` fails if a compiler or javadoc warns.)"""
    run(JAVA / "pack", jar, built("portable") / "portable", *folders, env=DATED)
    return jar


@pytest.fixture(scope="module")
def jar(tmp_path_factory):
    """Returns the jar, with only this machine's library."""
    return pack(tmp_path_factory.mktemp("jar") / "proved-argon2.jar", built() / MACHINE)


@pytest.fixture(scope="module")
def classes(jar):
    """Returns the classes of the tests, which each Java runs."""
    folder = jar.parent / "classes"
    run("javac", "--release", "17", *LINT, "-cp", path_of(jar), "-d", folder, *JAVA.rglob("tests/proved/**/*.java"))
    return folder


def path_of(*files):
    return ":".join(map(str, [*files, *LIBRARIES]))


def words_of(jar, classes, drawn, *words):
    """Returns the command of JUnit. (With this much memory the collector copies no password while tests search for
    copies.)"""
    temporary = jar.parent / "temporary"
    temporary.mkdir(exist_ok=True)
    values = {"vectors": TOP / "bindings/vectors", "random": drawn["RANDOM_HASHES"], "java.io.tmpdir": temporary}
    return ["-Xcheck:jni", "-XX:+UseSerialGC", "-Xmx128m", "-Xmn64m",
            *(f"-D{name}={value}" for name, value in values.items()), "-cp", path_of(jar, classes),
            "org.junit.platform.console.ConsoleLauncher", "--disable-banner", "--scan-classpath", classes, *words]


def passes(count, *words, **named):
    """Runs JUnit: this many tests must pass, and -Xcheck:jni finds nothing."""
    said = run(*words, **named)
    assert f"{count} tests successful" in said and not re.search("WARNING in native|FATAL ERROR", said), said


USUAL = "--exclude-tag", "codes", "--exclude-tag", "denied"
COUNT = 63  # of its own tests, of which one asks for 2 TiB


def test_its_own_tests_pass_in_java_17(jar, classes, drawn):
    passes(COUNT, "java", *words_of(jar, classes, drawn, *USUAL))


@pytest.fixture(scope="module")
def system(tmp_path_factory):
    """Another system, with Java 21 and 25."""
    return make_system(tmp_path_factory.mktemp(NEWER) / "root", NEWER, "openjdk-21-jre-headless",
                       "openjdk-25-jre-headless")


@needs("mmdebstrap")
@pytest.mark.parametrize("version", [21, 25])
def test_its_own_tests_pass_in_newer_java(jar, classes, drawn, system, version):
    folders = TOP, jar.parent, drawn["RANDOM_HASHES"].parent, "/usr/share/java", "/usr/share/maven-repo"
    java = f"/usr/lib/jvm/java-{version}-openjdk-amd64/bin/java"
    passes(COUNT, *in_system(system, java, *words_of(jar, classes, drawn, *USUAL), shared=folders))


@needs("aarch64-linux-gnu-gcc", "qemu-aarch64-static")
def test_its_own_tests_pass_on_arm64(classes, drawn, tmp_path):
    """One that asks for 2 TiB is left out, since qemu would need memory for each page."""
    jar, root = tmp_path / "proved-argon2.jar", TOP / "out/aarch64/root"
    made = start(SHARED / "aarch64_root", root)
    if made.returncode == 77:
        pytest.skip("Debian's packages for ARM64 cannot be had")
    assert made.returncode == 0, made.stderr
    pack(jar, built("aarch64") / "aarch64")
    java = root / "usr/lib/jvm/java-17-openjdk-arm64/bin/java"
    words = words_of(jar, classes, drawn, *USUAL, "--exclude-tag", "terabytes")
    passes(COUNT - 1, "qemu-aarch64-static", "-L", root, java, *words)


def test_its_own_tests_pass_with_a_library_compiled_from_the_jar_of_sources(classes, drawn, tmp_path):
    """The jar has no library for this system, and the error names the missing file. The page's commands, which name
    macOS's headers, make it."""
    jar, program = pack(tmp_path / "proved-argon2-x.jar"), write_program(tmp_path)
    # Java prints the error, and the same text again for its cause.
    library, = {*re.findall(r"the jar has no (\S+)\. Compile it", start("java", "-cp", jar, program).stderr)}
    commands, = re.findall(r"^    (unzip \S*-sources.jar (?:.*\n)+?)\n", (TOP / "docs/INSTALL.md").read_text(), re.M)
    for old, new in ((r"proved-argon2\S*-sources", f"{jar.stem}-sources"), ("include/darwin", "include/linux"),
                     ("-o .*", f"-o {library}")):
        commands, count = re.subn(old, new, commands)
        assert count == 1
    (tmp_path / library).parent.mkdir(parents=True)
    run("sh", "-euc", commands, cwd=tmp_path, env={"JAVA_HOME": headers()[0].parent})
    run("jar", "--update", "--file", jar, library, cwd=tmp_path)
    passes(COUNT, "java", *words_of(jar, classes, drawn, *USUAL))


def test_each_number_is_a_value_or_its_error(jar, classes, drawn, tmp_path):
    (tmp_path / "own.c").write_text(CODES_OF_JAVA)
    include = [f"-I{folder}" for folder in headers()]
    run(CC, "-shared", "-fPIC", "-Wall", "-Wextra", "-Werror", *include, "-I", TOP / "bindings/c/include",
        SHARED / "codes.c", tmp_path / "own.c", JAVA / "native/proved_argon2_java.c", "-o", tmp_path / "codes.so")
    named = {"proved.argon2.library": tmp_path / "codes.so", "numbers": " ".join(map(str, NUMBERS)),
             "names": " ".join(f"{number}={name}" for name, number in HEADER.items())}
    for name in ("hash_raw", "hash_encoded", "verify_encoded_within", "needs_rehash"):
        named[f"codes.{name}"] = " ".join(f"{number}={value}" for number, value in CODES[name].values.items())
        named[f"passed.{name}"] = CODES[name].computing
    passes(3, "java", *(f"-D{name}={value}" for name, value in named.items()),
           *words_of(jar, classes, drawn, "--include-tag", "codes"))


def headers():
    """Returns the folders of JNI's headers."""
    include = Path(shutil.which("javac")).resolve().parents[1] / "include"
    return include, include / "linux"


def test_denied_threads(jar, classes, drawn, tmp_path):
    (tmp_path / "denying.c").write_text(DENYING)
    run(CC, "-shared", "-fPIC", "-Wall", "-Wextra", "-Werror", tmp_path / "denying.c", "-o", tmp_path / "denying.so")
    passes(3, "java", *words_of(jar, classes, drawn, "--include-tag", "denied"),
           env={"LD_PRELOAD": tmp_path / "denying.so", "DENIED": tmp_path})


def code_of(page, at):
    """Returns a piece of Java on the page."""
    return re.findall(r"^```java\n(.*?)^```", (TOP / "docs" / page).read_text(), re.M | re.S)[at]


def test_the_code_of_the_page_runs_as_a_module(jar, tmp_path):
    (tmp_path / "module-info.java").write_text("module login { requires proved.argon2; }")
    (tmp_path / "first").mkdir()
    (tmp_path / "first/First.java").write_text(
        "package first;\nimport java.util.Optional;\nimport proved.argon2.*;\nclass First {\n"
        f"static {code_of('JAVA.md', 1)}public static void main(String[] none) {{\n{first_lines('JAVA.md', 4)}"
        f"{code_of('JAVA.md', 2)}matches &= isRight && kept.equals(user) && kept.keyId().equals(\"2026\");\n"
        "HashQueue queue = new HashQueue(1, 0);\n"
        "matches &= logIn(queue, hasher, stored, password).matches();\n"
        "System.out.println(matches && !logIn(queue, hasher, null, password).matches()); }}")
    run("javac", *LINT, "-p", jar, "-d", tmp_path / "made", *tmp_path.rglob("*.java"))
    assert run("java", "-p", f"{jar}:{tmp_path}/made", "-m", "login/first.First") == "true\n"


def test_an_encoder_for_spring_is_one_line(jar, tmp_path):
    (tmp_path / "Program.java").write_text("import proved.argon2.PasswordHasher;\n" + SPRING % code_of("JAVA.md", -1))
    run("javac", *LINT, "-cp", jar, "-d", tmp_path, tmp_path / "Program.java")
    assert run("java", "-cp", f"{jar}:{tmp_path}", "Program") == "true false true\n"


def test_the_logins_of_a_service(jar, tmp_path):
    run("javac", *LINT, "-cp", jar, "-d", tmp_path, TOP / "docs/examples/LogIn.java", JAVA / "tests/Logins.java")
    serves("java", "-cp", f"{jar}:{tmp_path}", "Logins", env={"PEPPER": "pepper"})


@pytest.mark.parametrize("compiler, machine, name, words", [
    pytest.param("musl-gcc", MACHINE, f"linux-{MACHINE}.so", [], marks=needs("musl-gcc"), id="musl"),
    pytest.param("x86_64-w64-mingw32-gcc-posix", "windows-x86_64", "windows-x86_64.dll", ["wine"], id="windows",
                 marks=needs("x86_64-w64-mingw32-gcc-posix", "wine"))])
def test_the_native_calls_verify_where_no_java_runs(tmp_path, compiler, machine, name, words):
    jar, program = tmp_path / "proved-argon2.jar", tmp_path / "native_calls.exe"
    include = [f"-I{folder}" for folder in headers()]
    pack(jar, TOP / "release" / machine)
    with zipfile.ZipFile(jar) as packed:
        library = packed.extract(f"proved/argon2/native/{name}", tmp_path)
    run(compiler, "-std=c11", "-Wall", "-Wextra", "-Werror", *include, JAVA / "tests/native_calls.c", "-o", program)
    said = run(*words, program, library, env={"WINEDEBUG": "-all", "WINEPREFIX": tmp_path / "wine"})
    assert said.split() == ["right"]


def write_program(folder):
    """Returns a program that prints `false`."""
    program = folder / "Program.java"
    program.write_text("class Program { public static void main(String[] none) {\n"
                       "System.out.println(new proved.argon2.PasswordHasher().verifyUnknown(new byte[0])); } }")
    return program


def test_the_library_calls_no_method_that_a_shrinker_renames(jar, tmp_path):
    """ProGuard and R8 keep the names of native methods, if told to, and of Java's own methods."""
    with zipfile.ZipFile(jar) as packed, zipfile.ZipFile(tmp_path / "shrunk.jar", "w") as shrunk:
        for name in packed.namelist():
            is_class, content = name.endswith(".class"), packed.read(name)
            shrunk.writestr(name, content.replace(b"isStopped", b"isRenamed") if is_class else content)
    assert run("java", "-cp", tmp_path / "shrunk.jar", write_program(tmp_path)) == "false\n"


def test_the_library_can_be_named_and_a_missing_one_is_an_error(jar, tmp_path):
    program = write_program(tmp_path)
    with zipfile.ZipFile(jar) as packed:
        packed.extract(f"proved/argon2/native/linux-{MACHINE}.so", tmp_path)
    named, = tmp_path.rglob("*.so")
    assert run("java", f"-Dproved.argon2.library={named}", "-cp", jar, program) == "false\n"
    for wrong in ("-Dproved.argon2.library=/nowhere.so", "-Djava.io.tmpdir=/nowhere"):
        done = start("java", wrong, "-cp", jar, program)
        assert done.returncode == 1 and "UnsatisfiedLinkError" in done.stderr, done.stderr
    done = start("java", "-Dos.name=Mac OS X", "-Dos.arch=aarch64", "-cp", jar, program)
    assert done.returncode == 1 and "the jar has no proved/argon2/native/mac-aarch64.so" in done.stderr, done.stderr


def test_each_attempt_without_a_library_says_what_to_do(jar, tmp_path):
    """Java itself would only say at the second one that a class could not be initialized."""
    program = tmp_path / "Program.java"
    program.write_text("""class Program { public static void main(String[] none) {
        for (int attempt = 0; attempt < 2; attempt++) {
            try {
                new proved.argon2.PasswordHasher();
            } catch (Throwable error) {
                System.out.println(error);
            }
        }
    } }""")
    first, second = run("java", "-Djava.io.tmpdir=/nowhere", "-cp", jar, program).splitlines()
    assert first == second and first.startswith("java.lang.UnsatisfiedLinkError") and "-Djava.io.tmpdir=FOLDER" in first


# Runs a command with a folder on which nothing can be written, or from which nothing can be loaded.
MOUNTED = """mount -t tmpfs -o "$1" none "$2" && shift 2 && exec "$@"
"""


@needs("unshare")
@pytest.mark.parametrize("option", ["ro", "noexec"])
def test_a_folder_that_cannot_be_used_is_an_error_that_names_the_remedies(jar, tmp_path, option):
    """The message says why, and each of the two properties that it names helps."""
    program, mounted, other = write_program(tmp_path), tmp_path / "mounted", tmp_path / "other"
    mounted.mkdir()
    other.mkdir()
    with zipfile.ZipFile(jar) as packed:
        library = packed.extract(f"proved/argon2/native/linux-{MACHINE}.so", tmp_path)
    words = in_namespace(MOUNTED, option, mounted, "java", f"-Djava.io.tmpdir={mounted}")
    done = start(*words, "-cp", jar, program)
    if "mount: " in done.stderr:
        pytest.skip("there is no right to mount")
    message = next(line for line in done.stderr.splitlines() if "UnsatisfiedLinkError" in line)
    named = re.findall(r"-D([a-z.0-9]+)", message)
    assert done.returncode == 1 and "read-only or mounted noexec" in message, done.stderr
    assert named == ["java.io.tmpdir", "proved.argon2.library"]
    for name, value in zip(named, (other, library)):
        assert run(*words, f"-D{name}={value}", "-cp", jar, program) == "false\n"
