"""Judges what the three clients send: client/, the page's session.js and wire.js in a browser, and the gateway of dav/,
at once before one room, by the rule of docs/SLOTS.md (A client that acts once).

Between the front and the room stands a recorder (recorded.py), which loses requests and answers, answers DELAY, and
holds copies up. Meanwhile the program is killed and started again, each client is killed, tabs are closed and the
browser is, and the room is made anew: its documents stay, and each session has ended. Then of each client the record is
judged (rule.py), the table `kept` of the room's file, and each document, in which every piece stands once. A run in
which nothing was lost, late or falsely asked again has failed.

They ask 3,000 times; by hand REQUESTS=100000. Those that are chosen play alone; KEEP=FILE leaves the record there.
"""
import base64
import contextlib
import json
import os
import random
import shutil
import time
from collections import namedtuple

import pytest
from given import number
from nginx import Front
from recorded import Recorder
from rule import MOST_TOLD, judged
from served import Room, session, slot, sqlite, until, work_folder

from .asker import PIECES
from .players import LONGEST, Client, Gateway, Page, page_without

REQUESTS, SEED = number("REQUESTS", 3000), number("SEED", 1)
SHARE = 0.15  # of the requests to slots that something happens to
SHARE_OF_ONE = 10  # a tenth of all requests is each client's at least
MORE = 20  # requests of each client at the end
PAUSE = 0.5, 2.5  # seconds between two events
EVENTS = {"program": 6, "player": 6, "anew": 1}
PLAYERS = {it.name: it for it in (Client, Page, Gateway)}
ROSTER = '[users]\nann = ["eng"]\nbob = ["eng"]\ncat = ["eng"]\n'
PASSWORDS = {it: f"{it}-word" for it in ("ann", "bob", "cat")}
ALL = {"flag": 3, "mask": 0x1F07FF, "type": 0, "who": "EVERYONE@"}
NEEDED = "unheard", "again", "late", "after the end"
Record = namedtuple("Record", "players documents trace db")
pytestmark = pytest.mark.timeout(900 + REQUESTS // 5)


class Scene:
    """A room, a recorder before it, a front before that, and the clients."""

    def __init__(self, folder, names):
        self.dice, self.folder, self.asked, self.kills = random.Random(SEED), folder, 0, 0
        self.room = Room(folder, ROSTER).start()
        self.prepare()
        self.trace = os.path.join(folder, "trace")
        self.recorder = Recorder(self.room, self.trace, SEED)
        how = {"dav": os.path.join(folder, "gate.sock"), "opens": "100r/s", "rate": "1000r/s"}
        rooms = {"plans": self.recorder.port}
        self.front = Front(os.path.join(folder, "front"), PASSWORDS, rooms, page_without(folder), **how)
        self.players = [PLAYERS[it](self) for it in names]

    def hold(self, command):
        """What the room itself answers."""
        with contextlib.closing(self.room.line()) as line:
            self.asked += 1
            line.ask(session(1, sid := f"{self.asked:032x}"))
            return json.loads(line.ask(slot(0, 1, command, sid=sid)).body)

    def prepare(self):
        entries = self.hold({"cmd": "GETLIST", "path": "/"})["entries"]
        self.hold({"aclflag": 0, "cmd": "SETLIST", "entries": [ALL, *entries], "path": "/"})
        self.logs = {user: [f"/log-{user}-{it}" for it in range(REQUESTS // PIECES + 2)] for user in PASSWORDS}
        for it in sum(self.logs.values(), []):
            self.hold({"cmd": "CREATE", "data": "", "path": it})
        self.hold({"cmd": "MKDIR", "path": f"/large-{Client.user}"})

    def read(self, path):
        return base64.b64decode(self.hold({"cmd": "READ", "path": path})["data"])

    def play(self):
        with contextlib.ExitStack() as ends:
            for it in self.players:
                it.start()
                ends.callback(it.end)
            self.recorder.share = SHARE
            while not self.is_enough():
                time.sleep(self.dice.uniform(*PAUSE))
                self.let_happen(self.dice.choices([*EVENTS], [*EVENTS.values()])[0])
            self.let_happen("anew")
            self.each_goes_on()
            self.recorder.share = 0.0
        assert until(self.recorder.is_idle, LONGEST), "what was under way never ended"

    def each_goes_on(self):
        """Until each client has asked for more."""
        time.sleep(PAUSE[1])
        before, asked = self.recorder.asked.copy(), self.recorder.asked
        assert until(lambda: all(asked[it.user] > before[it.user] + MORE for it in self.players), LONGEST), "one ended"

    def is_enough(self):
        asked = self.recorder.asked
        return asked.total() >= REQUESTS and all(asked[it.user] * SHARE_OF_ONE >= REQUESTS for it in self.players)

    def let_happen(self, event):
        if event == "player":
            return self.dice.choice(self.players).kill(self.dice)
        self.room.kill()
        self.kills += 1
        if event == "anew":
            time.sleep(0.2)  # (what was under way has ended)
            assert sqlite(self.room.db, "UPDATE session SET open = 0; DELETE FROM kept;") == ""
            self.recorder.anew()
        time.sleep(self.dice.random() * 0.2)
        self.room.start()

    def end(self):
        documents = {user: {it: self.read(it) for it in paths} for user, paths in self.logs.items()}
        self.room.kill()
        self.recorder.end()
        if "KEEP" in os.environ:
            shutil.copy(self.trace, os.environ["KEEP"])
        return Record({it.name: it for it in self.players}, documents, self.trace, self.room.db)


@pytest.fixture(scope="module")
def record(request):
    """What the clients did whose tests are chosen, all at once."""
    names = [it.callspec.params["name"] for it in request.session.items if it.function is test_acts_once]
    with work_folder(dir="/dev/shm" if os.access("/dev/shm", os.W_OK) else None) as folder:
        scene = Scene(folder, names)
        scene.play()
        told = f"judge: {scene.kills} kills of the program, lost on the way: {dict(scene.recorder.lost)}"
        request.config.run.told.append(told)
        yield scene.end()


@pytest.mark.parametrize("name", PLAYERS)
def test_acts_once(record, name, tell):
    player = record.players[name]
    with open(record.trace, encoding="utf-8") as lines:
        judge = judged(it for it in lines if '"anew"' in it[:10] or f'"user": "{player.user}"' in it[:20])
    judge.judge_kept(record.db)
    judge.judge_documents(record.documents[player.user])
    tell(f"judge: {name}: {dict(judge.counts)}, {player.told()}, {len(judge.faults)} faults")
    assert judge.faults[:MOST_TOLD] == []
    assert [it for it in NEEDED if not judge.counts[it]] == []
