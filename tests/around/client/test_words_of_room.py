"""The man page and the shells' completion have each command, flag and exit status that there is, and paths."""
import argparse
import os
import re
import shutil
import subprocess

import pytest
from given import each
from room_client import command, faults
from served import HANGS, text_of

from .desk import CLIENT, COMMAND

WHOLE = command.parser()
COMMANDS = next(it for it in WHOLE._actions if isinstance(it, argparse._SubParsersAction)).choices
HERE = {"get", "put", "append", "sync", "report"}  # which take files of this machine
pytestmark = pytest.mark.front


def flags_of(parser):
    return {flag for it in parser._actions for flag in it.option_strings if flag not in ("-h", "--help")}


def test_man_page():
    page = text_of(os.path.join(CLIENT, "room.1")).replace("\\-", "-")
    told = dict(re.findall(r"(?m)^\.BI ([a-z]+)(.*)$", page))
    assert set(told) == set(COMMANDS)
    flags = [(name, it, told[name]) for name, parser in COMMANDS.items() for it in flags_of(parser) - {"--json"}]
    assert [it for it in [*flags, *(("", it, page) for it in flags_of(WHOLE))] if it[1] not in it[2]] == []
    kinds = [it for it in vars(faults).values() if isinstance(it, type) and issubclass(it, faults.Fault)]
    told = page.partition(".SH EXIT STATUS")[2].partition(".SH")[0]
    assert {*map(int, re.findall(r"(?m)^\.B (\d+)$", told))} == {0, command.STOPPED} | {it.status for it in kinds}


# Words, as shells complete them

def by_bash(*words):
    return (f". {CLIENT}/room.bash; COMP_WORDS=({' '.join(words)}); COMP_CWORD={len(words) - 1}; _room; "
            "printf '%s\\n' \"${COMPREPLY[@]}\"")


@pytest.fixture
def completed(tmp_path):
    """What stands behind some words, in a folder with one file."""
    (tmp_path / "a-file").touch()

    def completed(*words, begin="''"):
        how = {"capture_output": True, "text": True, "check": True, "cwd": tmp_path, "timeout": HANGS}
        return {*subprocess.run(["bash", "-c", by_bash(COMMAND, *words, begin)], **how).stdout.split()}
    return completed


def test_all_commands(completed):
    assert completed() == set(COMMANDS) | flags_of(WHOLE) | {"--help"}
    assert completed("--url", "x", "ls") == completed("ls")
    assert completed("--url") == completed("none") == completed("none", "ls") == set()
    assert completed(begin="--co") == {"--config"}


@pytest.mark.parametrize("name", COMMANDS)
def test_words_of(completed, name):
    choices = next((set(it.choices) for it in COMMANDS[name]._actions if it.choices), set())
    more = {"--help", *(["room:/"] if name == "sync" else []), *(["a-file"] if name in HERE else [])}
    assert completed(name) == flags_of(COMMANDS[name]) | choices | more


@pytest.mark.parametrize("words", ["--config", "who --roster", "put x --new", "ls --json"])
def test_files_here(completed, words):
    """Where one may stand, they are told, as the value of an option too."""
    assert completed(*words.split(), begin="a") == ({"a-file"} if words != "ls --json" else set())


# Paths, as shells complete them

@pytest.fixture
def line(desk):
    with desk.room() as room:
        for path in "/plans", "/plain", "/other", "/plans/my notes":
            room.mkdir(path)
        for name in "/place", "/pl\u202e", "/pl`id` x", "/pl$(id)", "/.room-note":
            room.create(name, b"")
        room.mkdir("/.room-gone-0123456789abcdef")
    desk.file("large", bytes(65537))
    desk.prints("put", "large", "/plage", want="/plage: 65537 bytes\n")
    return [COMMAND, *desk.words_of("ann")]


def completes(desk, *line, **more):
    done = subprocess.run(line, capture_output=True, text=True, env=desk.environment() | more, cwd=desk.folder,
                          stdin=subprocess.DEVNULL, timeout=HANGS)
    return sorted(done.stdout.splitlines()), done.stderr


@each("words, begin, want", [
    ("several", ["ls"], "/pl", ["/pl$(id)", "/pl`id` x", "/place", "/plage", "/plain/", "/plans/"]),
    ("one", ["trash", "restore", "x"], "/plans/", ["/plans/my notes/"]), ("none", ["ls"], "/none/", []),
    ("like a part of a file", ["ls"], "/.room-", ["/.room-note"]),
    ("of a command without one", ["session"], "/pl", []), ("of none", [], "/pl", []),
    ("of an option", ["who", "--roster"], "/pl", [])])
def test_paths_by_the_client(desk, line, words, begin, want):
    assert completes(desk, *line, *words, ROOM_COMPLETE=begin) == (want, "")


def test_paths_are_not_asked_for_a_password(desk, line):
    words = [it for it in line if it not in ("--password-file", desk.path("secret"))]
    assert completes(desk, *words, "ls", ROOM_COMPLETE="/pl") == ([], "")


def test_paths_leave_what_is_pending(desk, line):
    with desk.losing("MKDIR"):
        assert desk.does("mkdir", "/new")[0] == 3
    assert completes(desk, *line, "ls", ROOM_COMPLETE="/pl") == ([], "")
    assert "finished what was pending: MKDIR /new" in desk.does("session", "finish")[2]


@each("begin, want", [("several", "/pl", ["/place", "/plage", "/plain/", "/plans/"]),
                      ("one with a blank", "/plans/my\\ ", ["/plans/my notes/"])])
def test_paths_by_bash(desk, line, begin, want):
    """(A name with $ or ` bash would put into the line as a command.)"""
    words = by_bash(*(f"'{it}'" for it in [*line, "ls", begin]))
    assert completes(desk, "bash", "-c", words) == (want, "")


@pytest.mark.skipif(not shutil.which("fish"), reason="there is no fish")
def test_paths_by_fish(desk, line):
    os.symlink(COMMAND, desk.path("room"))
    words = f"source {CLIENT}/room.fish; complete -C '{' '.join(['room', *line[1:], 'ls', '/pla'])}'"
    found = completes(desk, "fish", "-N", "-c", words, PATH=desk.folder + os.pathsep + os.environ["PATH"])
    assert found[0] == ["/place", "/plage", "/plain/", "/plans/"], found[1]
