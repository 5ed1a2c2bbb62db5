"""The manual page and the help of the command agree with the program and the library, and the first lines of the page
for the shell run."""
import os
import re

import pytest
from commands import COSTLY, STORED, TOOL, numbers, piped
from running import TOP, first_lines, run


def test_the_lines_for_the_shell_run(installed):
    lines = first_lines("SHELL.md").replace("tune 250", "tune 25000")  # on a busy machine, no settings may take 250 ms
    said = run("sh", "-c", lines, env={"PATH": f"{installed}/bin:{os.environ['PATH']}", "password": "secret"})
    assert re.match(r"true\nfalse\nargon2id 19 \d+ 65536 1 32 seq\n", said), said


HELP = (TOP / "bindings/shell/help.txt").read_text()
MANUAL = (TOP / "bindings/man/proved-argon2.1.in").read_text()


def plain(roff):
    """Returns the words of a page, without its marks."""
    lines = [re.sub(r"^\.(?:[A-Za-z]{1,2}\b ?|\\\".*)", "", line) for line in roff.splitlines()]
    return re.sub(r"\\f[A-Z]|\"", "", "\n".join(lines)).replace("\\-", "-").replace("\\", "")


def part(title):
    """Returns a part of the manual."""
    return re.search(rf'^\.SH "?{title}"?\n(.*?)(?=^\.SH )', MANUAL, re.M | re.S)[1]


@pytest.mark.parametrize("status, words, password, output, meaning, other", [
    (0, ["verify", STORED], b"password", b"true\n", "true", "false"),
    (1, ["verify", STORED], b"Password", b"false\n", "false", "true"),
    (2, ["verify", "$argon2id$"], b"password", b"", "error", "true"),
    (3, ["verify"], b"password", b"", "usage error", "true"),
    (4, ["check", "-"], b"", b"", "input or output", "true"),
    (5, ["check", COSTLY], b"password", b"", "above the limits", "true")])
def test_each_page_gives_each_status_its_meaning(installed, status, words, password, output, meaning, other):
    assert piped(words, password, command=[installed / "bin/proved-argon2"])[:2] == (status, output)
    of_help = re.search(r"^Exit status: (.*)", HELP, re.M | re.S)[1].replace("\n", " ")
    for table in (re.findall(r"^\.TP\n\.B (\d+)\n(.*?)(?=^\.TP|\Z)", part("EXIT STATUS"), re.M | re.S),
                  re.findall(r"(\d+) ([^;.]*)", of_help),
                  re.findall(r"^\| (\d+) \| (.*) \|$", (TOP / "docs/SHELL.md").read_text(), re.M)):
        meanings = {int(number): text.lower() for number, text in table}
        assert sorted(meanings)[:6] == [0, 1, 2, 3, 4, 5]
        assert meaning in meanings[status] and other not in meanings[status], meanings[status]


def test_the_manual_and_the_help_have_the_same_forms():
    found = re.sub(r"\[ ?(\w+) ?\]", r"[\1]", plain(part("SYNOPSIS")).replace("\n", " "))
    documented = {" ".join(form.split()) for form in re.split(r"\s*proved-argon2 |\s*SETTINGS are the", found)}
    helped = re.findall(r"^  NAME ((?:new|check|tune|hash|verify|rehash)\b.*[A-Z].*)$", HELP, re.M)
    assert {form.split()[0] for form in helped} == {"new", "check", "tune", "hash", "verify", "rehash"}
    assert {" ".join(form.replace("'TEXT'", "TEXT").split()) for form in helped} <= documented


def test_each_page_names_the_settings_that_the_library_recommends():
    of = numbers("owasp2")
    variant = ("argon2d", "argon2i", "argon2id")[of.variant]
    right = f"{variant} {of.version} {of.time_cost} {of.mem_cost} {of.lanes} {of.hash_length} seq"
    named = {page: {*re.findall(r"argon2id \d+ \d+ \d+ \d+ \d+ seq", plain((TOP / page).read_text()))} for page in (
        "bindings/shell/help.txt", "bindings/man/proved-argon2.1.in", "bindings/shell/commands.sh", "README.md",
        "docs/SHELL.md")}
    # README need not name any, and SHELL.md names others beside them.
    assert right in named.pop("docs/SHELL.md") and named.pop("README.md") <= {right}
    assert all(settings == {right} for settings in named.values()), named


@pytest.mark.parametrize("text", [HELP, plain(MANUAL)], ids=["help", "manual"])
def test_the_words_of_settings_are_in_the_order_of_the_pages(text):
    order = re.search(r"VARIANT VERSION [A-Z ]+ MODE", text)[0].split()
    for meaning in ("T passes", "M memory in KiB", "P lanes", "LEN length of the tag in bytes"):
        word, _, words = meaning.partition(" ")
        assert re.search(rf"^ *{word}\s[^\n]*{words}|^{word}\n[^\n]*{words}", text, re.I | re.M), meaning
    values = dict(zip("VARIANT VERSION T M P LEN MODE".split(), "argon2d 16 3 64 2 24 seq".split()))
    said = piped(["hash", *(values[word] for word in order), "somesalt"], b"password", command=[TOOL])[1].decode()
    assert re.search(r"^\$argon2d\$(v=16\$)?m=64,t=3,p=2\$[^$]*\$[^$]{32}$", said, re.M), said
