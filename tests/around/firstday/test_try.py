"""`make try`, as somebody types it who has never seen a room, and Ctrl-C.

Where its ports are taken it takes others. The logins, the client and the page that it tells are tried; what bob may and
may not is as it says. It ends by Ctrl-C, by a kill and with its terminal, and leaves nothing but a FOLDER that was
named, which it serves again. It touches no folder with other things, and names the package of a program that is
missing. Needs nginx and openssl.
"""
import contextlib
import json
import os
import re
import signal
import socket
import subprocess
import tempfile

import need
import pytest
from nginx import login
from parts import Log, Part, play
from parts import processes as every_process
from served import (HERE, PROGRAM, WAIT, bytes_of, end_with_parent, listener, message, one_answer, started_here,
                    text_of, until)

TOP = os.path.dirname(os.path.realpath(HERE))
SCRIPT = os.path.join(TOP, "examples", "try")
MAKE = ["make", "--no-print-directory", "-C", TOP, "try"]
USUAL = 8080, 8001
OF_MAKE = ("MAKEFLAGS", "MAKELEVEL", "MFLAGS")
pytestmark = [pytest.mark.timeout(500), pytest.mark.usefixtures("alone")]


def processes(folder):
    """The words of those whose words name this folder."""
    words = [it.words() for it in every_process()]
    return [it for it in words if any(folder in word for word in it)]


class Try:
    """One run of it, which has said all that it says before it waits, or has ended."""

    def __init__(self, work, *words):
        env = {name: it for name, it in os.environ.items() if name not in OF_MAKE}
        env |= {"FILEROOM": PROGRAM, "TMPDIR": work, "PYTHONDONTWRITEBYTECODE": "1"}
        how = {"stdout": subprocess.PIPE, "stderr": subprocess.STDOUT, "text": True, "start_new_session": True}
        self.child = subprocess.Popen(words, env=env, preexec_fn=end_with_parent, **how)
        started_here.append(self)
        self.said = ""
        for line in self.child.stdout:
            self.said += line
            if "Ctrl-C ends it" in line:
                break
        self.folder = self.found("(?<=Everything is in )[^,]+")
        self.port = int(self.found(r"(?<=http://127\.0\.0\.1:)\d+") or 0)

    def serves(self):
        assert self.port, self.said
        return self

    def found(self, pattern):
        it = re.search(pattern, self.said)
        return it[0] if it else ""

    def ends(self, how):
        """What it still says, once it was told to end, and what of it is left running."""
        how()
        said = self.child.stdout.read()
        self.child.wait(WAIT)
        until(lambda: not processes(self.folder))
        return said, processes(self.folder)

    def to_all(self, number):
        """As the terminal does: a signal to each process of the command."""
        os.killpg(self.child.pid, number)

    def kill(self):
        """(where this test fails on its way)"""
        with contextlib.suppress(ProcessLookupError):
            self.to_all(signal.SIGKILL)
            self.child.wait()

    def room(self, user, *words, given=""):
        """The client, with the settings that were made for this user."""
        client = [os.path.join(TOP, "client", "room"), "--config", os.path.join(self.folder, user), *words]
        done = subprocess.run(client, input=given, capture_output=True, text=True, timeout=2 * WAIT)
        return done.stdout + done.stderr


@pytest.fixture
def work(tmp_path):
    return str(tmp_path)


def ports_are_taken(ends):
    for port in USUAL:
        it = ends.enter_context(socket.socket())
        it.setsockopt(socket.SOL_SOCKET, socket.SO_REUSEADDR, 1)
        with contextlib.suppress(OSError):  # (somebody else has it: as well)
            it.bind(("127.0.0.1", port))
            it.listen()


def test_processes_whose_names_are_no_text(work):
    """Any program of the machine may have one."""
    path = os.fsencode(work) + b"/\xff"
    os.symlink("/bin/sh", path)
    with subprocess.Popen([path, "-c", "read line", "sh", path], stdin=subprocess.PIPE):
        assert processes(work)


def test_a_part_of_the_gate_has_a_folder_with_a_short_path(work):
    """A socket's path has at most 107 bytes, and Chromium's lies this far below it."""
    part = Part("a part with a name", ["sh", "-c", "echo $TMPDIR"], 60)
    play([[part]], Log(os.path.join(work, "log")))
    below = "/fileroom-01234567/tests/elsewhere1/org.chromium.Chromium.012345/SingletonSocket"
    assert len(part.lines[0].replace(tempfile.gettempdir(), "/tmp") + below) <= 107


def test_once(work):
    """All of it goes by Ctrl-C."""
    with contextlib.ExitStack() as ends:
        ports_are_taken(ends)
        it = Try(work, *MAKE).serves()
        assert it.port not in USUAL
        port_is_its_own(it)
        roster_is_there(it)
        sample_is_there(it)
    said, left = it.ends(lambda: it.to_all(signal.SIGINT))
    assert (f"try: ended; {it.folder} is removed" in said, left) == (True, [])
    assert os.listdir(work) == []


def port_is_its_own(it):
    """Nobody listens at the room's port in this network, but where it says so."""
    port, = (int(line[4]) for line in processes(it.folder) if line[1:2] == ["serve"])
    assert bool(listener(port)) == ("reaches its port" in it.said)


def roster_is_there(it):
    """That of the page, which test_day.py sees whole."""
    for user in "ann", "bob":
        fields = [f"host: 127.0.0.1:{it.port}", login(user, it.found(rf"(?<=login {user}, password )\S+"))]
        users = one_answer(it.port, message(None, "GET", "/rooms/plans.users.json", fields=fields)).body
        assert json.loads(users) == {"ann": ["eng"], "bob": ["eng", "staff"]}


def sample_is_there(it):
    """What the lists of the sample show."""
    told = "\n".join(re.findall("(?m)^    (export .*|room .*)$", it.said))
    done = subprocess.run(["bash", "-c", told], cwd="/", capture_output=True, text=True, timeout=2 * WAIT)
    assert done.stdout == "ann/\nminutes/\nprojects/\ntrash/\n"
    minutes = it.room("ann", "ls", "/minutes").splitlines()
    assert len(minutes) == 2
    for name in minutes:
        text = it.room("ann", "get", f"/minutes/{name}")
        assert (it.room("bob", "get", f"/minutes/{name}"), len(text) > 40) == (text, True)
    for words in (("put", "-", f"/minutes/{minutes[0]}"), ("put", "-", "/minutes/more"),
                  ("put", "-", "/projects/budget.csv"), ("ls", "/ann"), ("get", "/ann/draft.txt"),
                  ("rm", f"/minutes/{minutes[0]}")):
        assert it.room("bob", *words, given="x").startswith("room: ACCESS (5) at "), words
    for path, more in ("/projects/party.txt", ", a new version of ann's file"), ("/projects/new", ""):
        assert it.room("bob", "put", "-", path, given="x") == f"{path}: 1 bytes{more}\n"
    assert it.room("ann", "get", "/projects/new") == "x"
    for name in filter(re.compile("page-.*[.]png").fullmatch, os.listdir(os.path.join(TOP, "docs"))):
        it.room("bob", "get", f"/projects/pictures/{name}", f"{it.folder}/{name}")
        assert bytes_of(f"{it.folder}/{name}") == bytes_of(os.path.join(TOP, "docs", name)), name
    assert it.room("bob", "rm", "/projects/new") == "/projects/new: in /trash/@3/bob\n"
    assert it.room("ann", "ls", "/trash/@3/bob").startswith("room: ACCESS (5) at "), "bob's trash is bob's"


def test_kept(work):
    """A folder that is named stays, and is served again, with what was done."""
    folder = os.path.join(work, "room")
    for count, number in (1, signal.SIGTERM), (2, signal.SIGHUP):
        it = Try(work, *MAKE, f"FOLDER={folder}").serves()
        assert it.folder == folder
        it.room("bob", "append", "-", "/projects/party.txt", given="x\n")
        assert it.room("ann", "get", "/projects/party.txt").splitlines().count("x") == count
        said, left = it.ends(lambda: it.to_all(number))
        assert (f"try: ended; {folder} is kept" in said, left) == (True, [])
    assert oct(os.stat(folder).st_mode & 0o777) == oct(0o700)


def test_killed(work):
    """Room and front end with it, also where it has no time to end them."""
    it = Try(work, SCRIPT).serves()
    assert it.ends(it.child.kill)[1] == []


# What it does not do, and says

def test_a_folder_with_other_things(tmp_path, work):
    (tmp_path / "letter").write_text("x")
    it = Try(work, SCRIPT, work)
    assert (it.said, it.child.wait(WAIT)) == (f"try: {work} has other files in it\n", 1)
    assert (os.listdir(work), text_of(tmp_path / "letter")) == (["letter"], "x")


def test_a_path_that_nginx_would_misread(work):
    assert Try(work, SCRIPT, os.path.join(work, "a room")).said.startswith("try: the path may have only")


def test_a_program_that_is_missing(tmp_path, monkeypatch):
    line = "apt-get install -y no-such-package"
    monkeypatch.setattr(need, "LIST", str(tmp_path / "packages"))
    monkeypatch.setattr(need, "install", lambda packages: "there is none")
    (tmp_path / "packages").write_text(
        "no-such-package no-such-program try\nbash /bin/bash try\nother no-such-program test\n")
    assert need.need("try", ["try"]) == (
        f"{line} did not bring no-such-package: there is none" if os.geteuid() == 0 else
        f"this machine lacks no-such-package: as root, {line}")


@pytest.mark.skipif(os.geteuid() != 0, reason="it wants root")
@pytest.mark.parametrize("path", ["theirs", "theirs/new", "link/tmp", "open/new"])
def test_a_folder_of_others(tmp_path, path):
    """As root it makes nothing in a folder that somebody else could turn elsewhere."""
    for name in "theirs", "open":
        (tmp_path / name).mkdir()
    os.chown(tmp_path / "theirs", 65534, 65534)
    (tmp_path / "link").symlink_to("/")
    (tmp_path / "open").chmod(0o777)
    it = Try(str(tmp_path), SCRIPT, str(tmp_path / path))
    assert it.said.startswith("try: root follows no link"), it.said
    assert os.listdir(tmp_path / "theirs") == []
