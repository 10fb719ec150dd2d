"""The program is killed in the middle of writes, started again over the same file, and sent again what got no answer.

At times drawn at random, ROUNDS of each (240; `make test` takes 100, and SEED draws others): of a server, which is sent
requests on two slots until it is killed. Then the last request that was answered, sent again, gets the same bytes, the
one in flight is sent until it is answered, and at the end each piece stands in its document exactly once, in order.
After each kill SQLite looks at the file. And of `init`, which leaves a fresh room, or no room, over which `init` then
makes one.

Then at each call that changes a file or flushes it, from `init` on: a room is killed before it, finds no room from it
on, or at that one alone, or that flush fails (tests/lib/stop.c). Where that leaves no room, `init` makes one, in a file
of its own or in a database with what somebody else keeps, which is as it was at each such end. Each request is answered
as it should be or DELAY; served again, the requests follow from the first without a reply on, and the rows and the
report of the lists are those of a run without a stop.
"""
import functools
import itertools
import os
import random
import signal
import subprocess
import tempfile
import threading
import time

import beside
import preloaded
import pytest
from clients import Pieces
from given import number
from served import HERE, Room, findings_of, run, session, slot, sqlite, start_program, wait_for_port

ROUNDS, SEED = number("ROUNDS", 240), number("SEED", 1)
MOST = 500  # calls that change a file
ENDS = 0, 1, -signal.SIGKILL
DELAY = b'{"code":30,"error":"DELAY"}'
NO_ROOM = 1, b"", b"fileroom: not a room\n"
MADE = 0, b"", b""
ROWS = "SELECT * FROM room; SELECT * FROM node; SELECT * FROM entry ORDER BY 1, 2; SELECT node, hex(bytes) FROM doc;" \
    "SELECT * FROM session; SELECT sid, slot, seq, hex(request), hex(reply) FROM kept ORDER BY 1, 2;"
COMMANDS = [
    ({"cmd": "MKDIR", "path": "/plans"}, b'{"code":0}'),
    ({"cmd": "CREATE", "data": "aGk=", "path": "/plans/a"}, b'{"code":0,"size":2}'),
    ({"cmd": "APPEND", "data": "IQ==", "path": "/plans/a"}, b'{"code":0,"size":3}'),
    ({"cmd": "READ", "path": "/plans/a"}, b'{"code":0,"data":"aGkh"}'),
    ({"aclflag": 1, "cmd": "SETLIST", "path": "/plans",
      "entries": [{"flag": 3, "mask": 1, "type": 0, "who": "bob"}]}, b'{"code":0}'),
    ({"cmd": "RENAME", "path": "/plans/a", "to": "/a"}, b'{"code":0}'),
    ({"cmd": "REMOVE", "path": "/plans"}, b'{"code":0}'),
    ({"cmd": "READ", "path": "/a"}, b'{"code":0,"data":"aGkh"}')]
REQUESTS = [(slot(0, at, it), body) for at, (it, body) in enumerate(COMMANDS, 1)]
# From a room that `init` made: a folder, a document, a piece behind it; and what may follow.
FIRST, THEN = [(session(3), b'{"code":0,"slots":3}'), *REQUESTS[:4]], REQUESTS[4:]
pytestmark = pytest.mark.usefixtures("alone")


# At times drawn at random

def until_killed(room, clients, dice):
    """Requests until the server is killed."""
    line = room.start().line()
    assert line.ask(session()).body == b'{"code":0,"slots":3}'
    for client in clients:
        client.repeat(line)
        assert client.send(line), "no answer before the kill"
        client.repeat(line)
    killer = threading.Timer(dice.random() ** 3 / 2, room.server.kill)
    killer.start()
    while all(client.send(line) for client in dice.sample(clients, len(clients))):
        pass
    killer.join()
    room.server.wait()
    line.close()


@pytest.mark.timeout(1800)
def test_serve_killed_at_any_time(own, tmp_path):
    clients, dice, lost = [Pieces(0), Pieces(1)], random.Random(SEED), 0
    for _ in range(ROUNDS):
        until_killed(own, clients, dice)
        lost += sum(client.flight is not None for client in clients)
        with tempfile.TemporaryDirectory(dir=tmp_path) as other:
            assert findings_of(beside.copied(own.db, os.path.join(other, "copy.db"))) == []
    line = own.start().line()
    for client in clients:
        assert not client.flight or client.send(line), "no answer at the end"
        client.repeat(line)
        client.read(line)
    line.close()
    assert lost > 0, "no kill came before an answer"


@pytest.fixture(scope="module")
def longest(tmp_path_factory):
    """How many seconds an `init` takes that nothing stops, the longest of three."""
    folder, times = tmp_path_factory.mktemp("inits"), []
    for at in range(3):
        begin = time.monotonic()
        assert run("init", str(folder / f"{at}.db"), "ann", "eng") == MADE
        times.append(time.monotonic() - begin)
    return max(times)


@pytest.mark.parametrize("time_killed", range(ROUNDS))
def test_init_killed_at_any_time(tmp_path, longest, time_killed):
    room = Room(str(tmp_path), made=False)
    child = start_program("init", room.db, "ann", "eng")
    time.sleep(random.Random(f"{SEED} {time_killed}").random() * longest)
    child.kill()
    child.wait()
    told = room.report("lists")
    if told[0]:
        assert told == NO_ROOM
        assert run("init", room.db, "ann", "eng") == MADE
        told = room.report("lists")
    assert told[1].endswith(b" /\n  A 03 001f07ff OWNER@\n  A 03 001200a9 GROUP@\n")


# At each call

def asked(line, message):
    """The body of the answer, or None where the server is gone."""
    try:
        answer = line.ask(message)
    except OSError:
        return None
    return answer and answer.body


class Story:
    """Requests over a room, which `init` makes where `others` is a text: those statements make a database before it. It
    is stopped in one way at one call after the other."""

    def __init__(self, folder, requests, others=None):
        self.folder, self.requests, self.others, self.healed = folder, requests, others, 0
        self.env = {**os.environ, "LD_PRELOAD": preloaded.built(folder, os.path.join(HERE, "lib", "stop.c"))}
        self.theirs, _ = beside.told(self.no_room().db)
        self.made = self.no_room()
        assert run("init", self.made.db, "ann", "eng") == MADE
        if requests == THEN:
            self.follow(self.made, FIRST)
        whole = self.copy()
        self.follow(whole, requests)
        self.due = self.found(whole)

    def no_room(self):
        room = Room(tempfile.mkdtemp(dir=self.folder), made=False)
        if self.others:
            sqlite(room.db, self.others)
        return room

    def copy(self):
        return self.made.copied(Room, tempfile.mkdtemp(dir=self.folder))

    def found(self, room):
        """The rows in the file, the report of the lists, and what somebody else has there."""
        assert findings_of(room.db) == []
        return sqlite(room.db, ROWS), room.report("lists"), beside.told(room.db)

    def play(self, line):
        """Sends the story until a request is answered DELAY twice, or the server is gone: how many were answered."""
        for at, (message, due) in enumerate(self.requests):
            got = asked(line, message)
            if got == DELAY:
                got = asked(line, message)
                self.healed += got == due
            if got in (None, DELAY):
                return at
            assert got == due, message
        return len(self.requests)

    def follow(self, room, requests):
        """These are sent to a server that has them alone."""
        line = room.start(1).line()
        for message, due in requests:
            assert asked(line, message) == due, message
        line.close()
        assert room.wait() == 0

    def ends(self, room, answered):
        """Served again, all that was not answered follows, and the last once more; then the room is that of a run
        without a stop."""
        self.follow(room, [*self.requests[answered:], self.requests[-1]])
        assert self.found(room) == self.due

    def serve(self, env):
        """A server that is stopped: its status, and whether all was answered."""
        room, answered = self.copy(), 0
        words = "serve", room.db, room.roster, str(room.port), "1"
        room.server = start_program(*words, env=env, stderr=subprocess.DEVNULL)
        if wait_for_port(room.port, room.server):
            line = room.line()
            answered = self.play(line)
            line.close()
        status = room.wait()
        self.ends(room, answered)
        return status, answered == len(self.requests)

    def init(self, env):
        """The same of `init`: its status, and whether it left a room."""
        room = self.no_room()
        status = run("init", room.db, "ann", "eng", env=env)[0]
        if self.others:  # (a file of one byte, which is new to the program, is none to SQLite)
            assert beside.fault(room.db, self.theirs) is None
        told = room.report("lists")
        if told[0]:
            assert told == NO_ROOM
            assert run("init", room.db, "ann", "eng") == MADE
        self.ends(room, 0)
        return status, not told[0]

    def stopped(self, how, at):
        """Stopped in this way at the call of this number: the status, and whether it came to its end."""
        job = self.serve if self.others is None else self.init
        try:
            status, is_done = job({**self.env, "STOP": f"{how} {at}"})
            assert status in ENDS
        except AssertionError as fault:
            raise AssertionError(f"{how} {at}: {fault}") from fault
        return status, is_done

    @functools.cached_property
    def calls(self):
        """How many calls there are: it is killed before each."""
        return next((at for at in range(MOST) if self.stopped("k", at + 1)[0] == 0), MOST)


STORIES = {"init": (FIRST, ""), "init beside others": (FIRST, beside.THEIRS), "a folder and a document": (FIRST, None),
           "what follows": (THEN, None)}
HOWS = {"k": "killed", "n": "no room from a call on", "o": "no room at one", "s": "a flush that failed"}


@pytest.fixture(scope="module")
def story(request, tmp_path_factory):
    return Story(str(tmp_path_factory.mktemp("story")), *STORIES[request.param])


@pytest.mark.timeout(900)
@pytest.mark.parametrize("story, how", [
    pytest.param(story, how, id=f"{story}-{told}") for story, (how, told) in itertools.product(STORIES, HOWS.items())
    if (story, how) != ("init beside others", "o")], indirect=["story"], scope="module")
def test_each_call(story, how):
    assert 5 < story.calls < MOST
    if how != "k":
        story.healed = 0
        assert not all([story.stopped(how, at + 1)[1] for at in range(story.calls)])
        assert story.healed or how != "o" or story.others is not None
