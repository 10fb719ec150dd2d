"""The machine loses its power: the system calls of a program are recorded, and after each of them the files are made as
that may leave them (tests/lib/disk.py).

Over each such state a server is started and is sent the last two requests that were answered and all that follow: each
answer is, byte for byte, the recorded one, and so is the last report. So what was answered is there, and the one in
flight acts once. The same is done while a room of version 1 is taken over, and with `init`, which leaves a fresh room,
or none, over which it makes one; also in a database with what somebody else keeps there, which stays as it was. There
are STATES of each (400; SEED draws others).

Behind the first request each makes one flush. With flushes left out of the model, as on a disk that lies about them,
most states must be found wrong, and of those behind the end of an `init` a third.
"""
import base64
import contextlib
import os
import random
import shutil
import sqlite3
import tempfile

import beside
import pytest
from disk import held, points, recorded, written
from given import number
from served import HANGS, Room, findings_of, message, put_version_1, run, session, slot

STATES, SEED = number("STATES", 400), number("SEED", 1)
FRESH = b" /\n  A 03 001f07ff OWNER@\n  A 03 001200a9 GROUP@\n"
pytestmark = [pytest.mark.usefixtures("alone"), pytest.mark.timeout(3600),
              pytest.mark.skipif(not shutil.which("strace"), reason="there is no strace")]


def requests():
    """A session of three slots, used in turn, and changes of every kind."""
    count = 0

    def to(name, path, **more):
        nonlocal count
        number, seq = count % 3, count // 3 + 1
        count += 1
        return slot(number, seq, {"cmd": name, "path": path, **more})

    data = lambda text: base64.b64encode(text).decode()
    entry = lambda flag, mask, who: {"flag": flag, "mask": mask, "type": 0, "who": who}
    entries = [entry(3, 0x1F07FF, "OWNER@"), entry(67, 33, "eng")]
    yield session()
    yield to("MKDIR", "/plans")
    yield to("CREATE", "/plans/a", data=data(b"alpha"))
    yield to("CREATE", "/plans/b", data=data(bytes(range(256)) * 100))
    for number in range(6):
        yield to("APPEND", "/plans/a", data=data(b"%06d" % number))
    yield to("SETLIST", "/plans", aclflag=0, entries=entries)
    yield to("MKDIR", "/old")
    yield to("RENAME", "/plans/a", to="/old/a")
    yield to("WRITE", "/plans/b", data=data(b"short"))
    yield to("APPEND", "/old/a", data=data(b"x" * 30000))
    yield to("REMOVE", "/plans/b")
    yield to("APPEND", "/old/a", data=data(b"last"))
    yield to("READ", "/old/a")
    yield message("ann", "DELETE", "/v1/sessions/" + "f" * 32)
    yield to("STAT", "/old/a")


def others(db, in_log):
    """What somebody else keeps, whose rows are in the log or not. (A file of one byte, which is new to the program, is
    none to SQLite.)"""
    with contextlib.closing(sqlite3.connect(db, isolation_level=None)) as table:
        table.execute(f"PRAGMA journal_mode = {'WAL' if in_log else 'DELETE'}")
        table.executescript(beside.THEIRS)
        files = {it: data for it, data in held(os.path.dirname(db)).items() if not it.endswith("-shm")}
    return files, beside.told(db)[0]


class Init:
    """An `init` whose calls are recorded, over nothing or over what somebody else keeps."""
    GROUNDS = {"init": None, "init beside others": False, "init beside others in the log": True}

    def __init__(self, name, folder):
        in_log, made = self.GROUNDS[name], os.path.join(folder, "made")
        self.files, self.theirs = ({}, None) if in_log is None else others(os.path.join(folder, "room.db"), in_log)
        self.name, self.log = name, os.path.join(folder, "calls")
        written(made, self.files)
        assert recorded(["init", os.path.join(made, "room.db"), "ann", "eng"], self.log).wait(HANGS) == 0

    def fault(self, folder, files, is_over):
        """What is wrong where a loss of power left these files, or None."""
        written(folder, files)
        room = Room(folder, made=False)
        is_fault = lambda: self.theirs and beside.fault(room.db, self.theirs)
        if is_fault():
            return is_fault()
        status, lines, told = room.report("lists")
        if status and (is_over or told != b"fileroom: not a room\n"):
            return f"report says {told}"
        if status and run("init", room.db, "ann", "eng") != (0, b"", b""):
            return "init over it is refused"
        lines = room.report("lists")[1]
        return is_fault() if lines.endswith(FRESH) else f"no fresh room: {lines}"

    def states(self, dice):
        count = sum(1 for _ in points(self.log, self.files, dice))
        for place, disk in enumerate(points(self.log, self.files, dice), 1):
            for _ in range(max(1, STATES // count)):
                yield f"call {place} of {count}", disk.left(), place == count

    def lying(self, dice):
        """Those behind its end, where no flush is one."""
        *_, disk = points(self.log, self.files, dice, False)
        return [(disk.left(), True) for _ in range(50)], 1 / 3


class Play:
    """A served room whose calls are recorded, and what each request was answered."""

    def __init__(self, name, folder):
        self.room, self.asked, self.log = Room(folder, made=name == "serve"), [*requests()], folder + ".calls"
        if name == "upgrade":
            put_version_1(self.room.db)
        self.name, self.files = name, held(folder)
        self.room.server = recorded(["serve", self.room.db, self.room.roster, str(self.room.port), "9"], self.log)
        assert self.room.listens()
        line = self.room.line()
        self.answers = [line.ask(it).whole for it in self.asked]
        line.close()
        self.room.kill()
        self.report = self.room.report("lists")

    def fault(self, folder, files, answered):
        """What is wrong where a loss of power left these files after so many answers, or None."""
        written(folder, files)
        room = Room(folder, made=False)
        try:
            line = room.start().line()
            for number in range(max(0, answered - 2), len(self.asked)):
                got = line.ask(self.asked[number])
                if not got or got.whole != self.answers[number]:
                    return f"request {number} was answered {got}, and not {self.answers[number]!r}"
            line.close()
            room.kill()
            found = findings_of(room.db)
            if found:
                return f"SQLite finds {found}"
            return None if room.report("lists") == self.report else "another report"
        except (OSError, SystemExit) as fault:
            return f"{fault}"
        finally:
            if room.server and room.server.poll() is None:
                room.kill()

    def states(self, dice, wanted=STATES, flushes=True):
        """Files and answers, some so many states in all."""
        count = sum(1 for _ in points(self.log, self.files, dice, flushes))
        for disk in points(self.log, self.files, dice, flushes):
            for _ in range(wanted // count + (dice.random() * count < wanted % count)):
                yield f"{disk.answers} answers", disk.left(), disk.answers

    def lying(self, dice):
        found = [state for _, *state in self.states(dice, 50, False) if state[1] > 3]
        assert len(found) > 9
        return found, 1 / 2


@pytest.fixture(scope="module")
def it(request, tmp_path_factory):
    kind = Play if request.param in PLAYS else Init
    return kind(request.param, str(tmp_path_factory.mktemp("recorded")))


@pytest.fixture
def fault(it, tmp_path):
    """What is wrong with a state."""
    def found(files, point):
        with tempfile.TemporaryDirectory(dir=tmp_path) as folder:
            return it.fault(os.path.join(folder, "state"), files, point)
    return found


@pytest.fixture
def dice(it):
    return random.Random(f"{SEED} {it.name}")


PLAYS = ["serve", "upgrade"]
each_ground = pytest.mark.parametrize("it", [*Init.GROUNDS, *PLAYS], indirect=True)


@each_ground
def test_each_state(it, dice, fault):
    for at, files, point in it.states(dice):
        assert fault(files, point) is None, f"after {at}"


@each_ground
def test_a_disk_that_lies(it, dice, fault):
    states, share = it.lying(dice)
    assert sum(bool(fault(*state)) for state in states) > share * len(states)


@pytest.mark.parametrize("it", PLAYS, indirect=True)
def test_flushes(it, dice):
    *_, end = points(it.log, it.files, dice)
    assert end.count < 1.5 * end.answers
