"""`fileroom-admin` where it meets what is in an odd form: a room that somebody took over, a table full of faults, names
of people and of folders, a terminal that lacks letters."""
import contextlib
import itertools
import json
import os
import re
import signal
import socket
import subprocess
import sys
import threading
import time

import pytest
from fileroom_admin import asking, places, sheets, trash
from given import each
from room_client.line import MOST
from served import WAIT, text_of

from .machines import ADMIN
from .test_changes import log_of

FORM = "in another form"
OPENED = b'{"code":0,"slots":1}'
OWN = [{"type": 0, "flag": 0, "mask": 0x1F07FF, "who": "OWNER@"}]
WELL = {"STAT": {"code": 0, "owner": "ann", "group": "eng", "kind": "folder"},
        "GETLIST": {"code": 0, "aclflag": 2, "entries": OWN},
        "LIST": {"code": 0, "names": [["@settled", "file"]]}, "READ": {"code": 0, "data": ""}}
ANY = [b"[]", b"7", b"null", b'"code"', b"{}", b'{"code":true}', b'{"code":"0"}', b'{"code":0.5}', b'{"code":null}',
       b"[" * 100000, b'{"code":5,"error":["NO"]}', b'{"code":5,"path":7}', b'{"code":0}' + b" " * (1 << 20)]
ODD = {"STAT": [b'{"code":0}', b'{"code":0,"owner":["ann"],"group":"eng","kind":"folder"}',
                b'{"code":0,"owner":"ann","group":7,"kind":"folder"}',
                b'{"code":0,"owner":"ann","group":"eng","kind":{}}'],
       "GETLIST": [b'{"code":0}', b'{"code":0,"aclflag":"2","entries":[]}', b'{"code":0,"aclflag":2,"entries":7}',
                   b'{"code":0,"aclflag":2,"entries":[7]}', b'{"code":0,"aclflag":2,"entries":[{"who":"ann"}]}'],
       "LIST": [b'{"code":0}', b'{"code":0,"names":7}', b'{"code":0,"names":[7]}', b'{"code":0,"names":[["a"]]}',
                b'{"code":0,"names":[[["a"],"file"]]}'],
       "READ": [b'{"code":0}', b'{"code":0,"data":7}', b'{"code":0,"data":"a"}', b'{"code":0,"data":"\\u00e4"}']}


# A room that somebody took over

def request_of(asked):
    """The body of a request; or nothing, where it has none."""
    head = b"".join(iter(asked.readline, b"\r\n"))
    length = re.search(rb"content-length: (\d+)", head, re.IGNORECASE)
    return asked.read(int(length[1])) if length else b""


class Taken:
    """What stands at the room's socket in its place: it answers as a room does, but for some commands."""

    def __init__(self, machine):
        self.odd, self.opened, self.is_silent, self.met = {}, OPENED, False, threading.Event()
        self.sends = lambda line, answer: line.sendall(answer)
        self.path = machine.at("run/fileroom/plans.sock")
        os.makedirs(os.path.dirname(self.path))
        self.listener = socket.socket(socket.AF_UNIX)
        self.listener.bind(self.path)
        self.listener.listen()
        threading.Thread(target=self.serve, daemon=True).start()

    def serve(self):
        silent = []
        with contextlib.suppress(OSError):
            while True:
                line, _ = self.listener.accept()
                self.met.set()
                if self.is_silent:
                    silent.append(line)
                    continue
                with line, line.makefile("rb") as asked, contextlib.suppress(OSError):
                    body = self.answer(request_of(asked))
                    self.sends(line, b"HTTP/1.1 200 OK\r\ncontent-length: %d\r\n\r\n" % len(body) + body)

    def answer(self, request):
        cmd = re.search(rb'"cmd": ?"(\w+)"', request)
        if not cmd:
            return self.opened
        cmd = cmd[1].decode()
        return self.odd.get(cmd) or json.dumps(WELL.get(cmd, {"code": 0})).encode()


@pytest.fixture
def taken(machine):
    machine.write("etc/fileroom/plans.toml", '[users]\nann = ["eng"]\n')
    it = Taken(machine)
    yield it
    it.listener.shutdown(socket.SHUT_RDWR)


@pytest.mark.usefixtures("taken")
def test_as_a_room_answers(machine):
    assert machine.does("trash", "plans") == (0, "plans: 1 of 1 users have a trash (1 new)\n", "")


@pytest.mark.parametrize("cmd, body", [*((None, it) for it in ANY), *(
    (cmd, it) for cmd, bodies in ODD.items() for it in [b"[]", *bodies])],
    ids=lambda it: it.decode("latin-1")[:50].strip() if isinstance(it, bytes) else it)
def test_an_answer_of_another_form(machine, taken, cmd, body):
    """It is told in words."""
    if cmd:
        taken.odd = {cmd: body}
    else:
        taken.opened = body
    status, said, faults = machine.does("trash", "plans")
    assert (status, "Traceback" in faults, FORM in said + faults) == (1, False, True), faults[-300:]


@pytest.mark.parametrize("body", [b"[]", b"7", b'{"code":0}'])
def test_a_drawn_password_is_told_whatever_comes_of_the_trash(machine, taken, body):
    taken.odd = {"STAT": body}
    status, said, faults = machine.does("user", "add", "plans", "kim")
    assert (status, faults, [line.split(": ")[0] for line in said.splitlines()]) == (
        0, "", ["kim is a user of the room plans, in no group", "the password of kim", "kim has no trash"])
    machine.write("../table.csv", "user\nlou\n")
    status, said, faults = machine.does("user", "import", "plans", machine.at("../table.csv"))
    assert (status, [line.partition(",")[0] for line in said.splitlines()][1:2]) == (0, ["lou"]), faults


@each("cmd, reply", [
    ("an error", "LIST", {"code": 9, "error": "\x1b]0;x\x07" + "x" * 9999}),
    ("a path", "LIST", {"code": 9, "error": "NO", "path": "/\x1b]0;x\x07" + "x" * 9999}),
    ("an owner", "STAT", WELL["STAT"] | {"owner": "\x1b]0;x\x07" + "x" * 9999})])
def test_letters_of_an_answer(machine, taken, cmd, reply):
    """They do nothing at root's terminal, and are cut."""
    taken.odd = {cmd: json.dumps(reply).encode()}
    status, said, faults = machine.does("trash", "plans", "ann")
    told = said + faults
    assert (status, "\x1b" in told, r"\x1b]0;x\x07" in told, len(told) < 1000) == (1, False, True, True), told[:300]


def byte_by_byte(line, answer):
    for at in range(len(answer)):
        line.sendall(answer[at:at + 1])
        time.sleep(0.3)


def a_bit_late(line, answer):
    time.sleep(0.4)
    line.sendall(answer)


class HeadsWithoutEnd:
    sent = 0  # bytes, at most, in one answer

    def __call__(self, line, _):
        sent = 0
        while sent < 1 << 26:
            sent += line.send(b"HTTP/1.1 100 Continue\r\nx: " + b"x" * 60000 + b"\r\n\r\n")
            self.sent = max(self.sent, sent)


def takes_its_time(taken, monkeypatch, sends, wait, in_all):
    """What is told of a room that sends so to somebody who waits so many seconds for an answer, and so many in all."""
    taken.sends = sends
    monkeypatch.setattr(asking, "WAIT", wait)
    monkeypatch.setattr(asking, "IN_ALL", in_all)
    users = {"ann": ["eng"], **{f"user{at}": [] for at in range(3)}}
    begin = time.monotonic()
    with pytest.raises(places.Fault) as fault, trash.Trashes(taken.path, users) as trashes:
        for user in users:
            trashes.settle(user)
    assert time.monotonic() - begin < 90  # (several minutes, where nothing ends it)
    return str(fault.value)


@pytest.mark.parametrize("sends, wait, in_all, what", [
    (byte_by_byte, 2, 60, "does not answer"), (a_bit_late, 12, 3, "longer than 3 seconds in all")])
def test_a_room_that_takes_its_time(taken, monkeypatch, sends, wait, in_all, what):
    """It holds the lock of all changes for as long as a room may take, however it spends that."""
    assert what in takes_its_time(taken, monkeypatch, sends, wait, in_all)


def test_heads_without_end(taken, monkeypatch):
    """They take no memory."""
    endless = HeadsWithoutEnd()
    assert "does not answer" in takes_its_time(taken, monkeypatch, endless, 5, 60)
    assert MOST <= endless.sent < 2 * MOST


def test_stopped_by_hand(machine, taken):
    """Who waits for a silent room, and ends the command, has the password."""
    taken.is_silent = True
    words = [sys.executable, "-B", ADMIN, "--root", machine.root, "-q", "user", "add", "plans", "may"]
    with subprocess.Popen(words, env=machine.env, stdout=subprocess.PIPE, stderr=subprocess.DEVNULL) as done:
        assert taken.met.wait(WAIT)
        done.send_signal(signal.SIGINT)
        assert len(done.communicate()[0].strip()) == 16


# Tables, names and letters

def test_a_table_of_many_faults(machine):
    """A wrong row again and again tells the first, and how many more there are."""
    machine.write("../many.csv", "user\n" + "a\n" * 400_000)
    table = machine.at("../many.csv")
    status, said, faults = machine.does("user", "import", "plans", table)
    lines = faults.splitlines()
    assert (status, said, len(lines)) == (1, "", 22)
    assert [lines[0], *lines[19:]] == [f"fileroom-admin: {it}" for it in (
        f"{table}, line 3: a stands in a line before", f"{table}, line 22: a stands in a line before",
        "and 399979 others", f"nothing was changed: 399999 faults in {table}")]


def test_a_name_comes_back_out_of_a_cell():
    each_ = ["".join(it) for length in range(6) for it in itertools.product(" ';=a", repeat=length)]
    assert [it for it in each_ if sheets.of_cell(sheets.as_cell(it)) != it] == []


@pytest.mark.parametrize("name", ["Ann ", "  ", "Ann '", " 'Ann'  "])
def test_a_name_comes_back_out_of_a_table(machine, name):
    """As it was, whatever it begins and ends with."""
    machine.does("user", "name", "ann", name)
    machine.write("../names.csv", machine.does("user", "list", "--csv", "plans")[1])
    machine.write("etc/nginx/fileroom/names.json", "{}\n")
    status, _, faults = machine.does("user", "import", "--update", "plans", machine.at("../names.csv"))
    assert status == 0, faults
    assert json.loads(text_of(machine.at("etc/nginx/fileroom/names.json"))) == {"ann": name}


def test_a_folder_that_only_begins_like_one_of_pieces(machine, plans):
    """What is below it is somebody's as anything else."""
    pieces = ".room-pieces-0123456789abcdef"
    plans.holds("ann", "SETLIST", "/", aclflag=1, entries=[
        {"type": 0, "flag": 3, "mask": 0x1F07FF, "who": who} for who in ("OWNER@", "EVERYONE@")])
    others = ["/.room-note-0123456789abcdef", "/.room-pieces-", "/.room-pieces-/a", f"/{pieces}0", f"/x{pieces}"]
    for path in *others, f"/{pieces}", f"/{pieces}/000":
        plans.holds("bob", "MKDIR", path)
    plans.room.kill()
    machine.backed_up()
    owns = [line.rpartition(": ")[2].split(", ") for line in machine.does("user", "owns", "bob")[1].splitlines()
            if line.startswith("bob owns")]
    assert owns == [others]


def in_ascii(machine, *words):
    """What is said where a terminal has no other letters."""
    env = {**machine.env, "PYTHONIOENCODING": "ascii"}
    done = subprocess.run([sys.executable, "-B", ADMIN, *words], env=env, capture_output=True)
    assert done.returncode == 0, done.stderr
    return done.stdout.decode()


def test_a_terminal_that_lacks_a_letter(machine, folder):
    """It is told which it is; a table is of UTF-8 whatever the terminal has."""
    root = log_of(os.path.join(folder, "log"), [{"body": {"cmd": "MKDIR", "path": "/\u0150"}}])
    assert in_ascii(machine, "--root", root, "log", "plans").endswith("  MKDIR /\\u0150\n")
    machine.does("user", "name", "ann", "\u0150")
    assert "ann,eng,\u0150\n" in in_ascii(machine, "--root", machine.root, "user", "list", "--csv", "plans")


# Bytes that are no UTF-8

def test_a_program_that_says_such(machine):
    """Its words are told; and nothing is changed."""
    machine.stand_in("nginx", r"printf 'odd \xff'; exit 1")
    before = machine.files()
    assert machine.does("front") == (1, "", "fileroom-admin: nginx -tq: odd \ufffd\n")
    assert machine.files() == before


def test_a_path_of_such(machine):
    machine.backed_up()
    status, said, faults = machine.does("sees", "ann", "plans", os.fsdecode(b"/\xff"))
    assert (status, said, faults.count("\n"), "Traceback" in faults) == (1, "", 1, False), faults
