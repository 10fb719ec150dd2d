"""A room behind the front, which many ask at once, each by a password of their own: nothing is lost and nothing done
twice, while it is killed and started again, and where more come than its listen queue holds (128)."""
import collections
import contextlib
import json
import os
import random
import signal
import threading
import time

import pytest
from clients import SHARED, Beside, Caller, Client, look
from served import Line, Room, listener, message, until

from .conftest import started
from .sides import ROOM

SEED, CLIENTS, PIECES, KILLS = 1, 40, 20, 12
CROWD, FOLDERS = 400, 4  # people at an address each (a folder takes 256)
LONGEST = 90  # seconds: longer than the front waits for a room
HEAD, SLOW = 5, "slow"  # seconds in which a head is there, and who takes longer, as on a machine at its limit
EVERYONE = {"flag": 3, "mask": 0x1F07FF, "type": 0, "who": "EVERYONE@"}
AS_ANOTHER = ["room-user: ann", "Room-User: ann", "ROOM-USER:ann", "room_user: ann", "connection: room-user",
              "x-room-user: ann"]


@pytest.fixture
def behind(tmp_path, memory, page, alone):
    """A room of these users and of ann, who lets everyone do everything; the front before it; and ann."""
    def start(users, sender):
        users = ["ann", *users]
        room = Room(str(tmp_path / "room"), "[users]\n" + "".join(f'{it} = ["eng"]\n' for it in users)).start()
        front = started(os.path.join(memory, "front"), page, room.port, users, connections=2048)
        ann = Caller(sender(front, "ann"), "f" * 32)
        assert ann.open().body == b'{"code":0,"slots":1}'
        for it in ({"cmd": "SETLIST", "path": "/", "aclflag": 0, "entries": [EVERYONE]},
                   {"cmd": "CREATE", "path": SHARED, "data": ""}):
            assert b'"code":0' in ann.slot(it).body
        return room, front, ann
    return start


def as_another(front, user):
    """Sends as a user, half of the time with a field that names another."""
    dice = random.Random(f"{SEED} fields {user}")
    return lambda method, target, body: front.once(
        user, method, ROOM + target, body, [dice.choice(AS_ANOTHER)] if dice.random() < 0.5 else [])


def killed(room, playing):
    """Kills the room at random while others play, and starts it again, so many times at most. How often."""
    dice, kills = random.Random(f"{SEED} kills"), 0
    while kills < KILLS and playing.goes_on():
        time.sleep(dice.random() / 5)
        room.kill()
        room.start()
        kills += 1
    return kills


def test_kills(behind, tell):
    users = [f"u{n:02}" for n in range(CLIENTS)]
    room, front, ann = behind(users, as_another)
    port = room.port
    clients = [Client(as_another(front, it), n, SEED, PIECES) for n, it in enumerate(users)]
    playing = Beside([it.play for it in clients])
    kills = killed(room, playing)
    playing.end()
    assert (kills > 0, room.port) == (True, port)
    got, want = look(ann, clients)
    assert got == want
    owners = {it.number: json.loads(ann.slot({"cmd": "STAT", "path": it.own()}).body)["owner"] for it in clients}
    assert owners == dict(enumerate(users))
    other = front.once("u01", "POST", f"{ROOM}/v1/sessions/{ann.sid}/slots/0/{ann.seq}", {"cmd": "STAT", "path": "/"},
                       ["room-user: ann"])
    assert other.body == b'{"code":20,"error":"BADSESSION"}'
    tell(f"front: {CLIENTS} clients through nginx, {kills} kills, nothing lost, nothing twice")


class Guest(Client):
    pause = 1

    def own(self):
        return f"/crowd-{self.number % FOLDERS}/own-{self.number}"


class Counted:
    """Sends through the front, and counts how that is answered."""

    def __init__(self):
        self.lock, self.found, self.longest = threading.Lock(), collections.Counter(), 0

    def asked(self, front, source, data):
        """(Waits for as long as the front does.)"""
        with contextlib.suppress(OSError), contextlib.closing(Line(front.port, source)) as line:
            line.socket.settimeout(LONGEST)
            return line.ask(data)

    def sender(self, front, user, source="127.0.0.1"):
        def once(method, target, body):
            begin = time.monotonic()
            got = self.asked(front, source, message(None, method, ROOM + target, body, fields=front.fields(user)))
            took = time.monotonic() - begin
            with self.lock:
                self.found[got.status if got else SLOW if took > HEAD else None] += 1
                self.longest = max(self.longest, took)
            return got
        return once


@pytest.mark.timeout(600)
def test_a_crowd(behind, tell):
    """While the room runs nobody is told that it does not: who is too many is told so (429), and sends again."""
    users, counted = [f"guest{it}" for it in range(CROWD)], Counted()
    room, front, ann = behind(users, counted.sender)
    for it in range(FOLDERS):
        ann.slot({"cmd": "MKDIR", "path": f"/crowd-{it}"})
    crowd = [Guest(counted.sender(front, it, f"127.7.{at // 250}.{at % 250 + 1}"), 1000 + at, SEED, 2)
             for at, it in enumerate(users)]
    os.kill(room.server.pid, signal.SIGSTOP)  # (so that all come at once, however fast it is)
    begin, playing = time.monotonic(), Beside([it.play for it in crowd])
    until(lambda: counted.found[429], LONGEST / 2)
    os.kill(room.server.pid, signal.SIGCONT)
    playing.end()
    assert set(counted.found) <= {200, 429, SLOW}
    assert counted.found[429] > 0
    got, want = look(ann, crowd, slice(None, None, 9))
    assert got == want
    tell(f"front: {CROWD} clients at once, {counted.found[200]} answers in {time.monotonic() - begin:.0f} s, the "
         f"longest after {counted.longest:.1f} s; {counted.found[429]} times told to come again")


def test_nothing_is_left_of_a_front_with_workers(fronted):
    """(They serve on where their first process alone is killed.)"""
    front = fronted(workers=2)
    assert front.status(None, "GET", "/health") == 200
    front.server.kill()
    assert until(lambda: not listener(front.port))
