"""One served room is asked REQUESTS times: its memory is flat, and a request takes the time of the beginning.

Eight folders of eight documents are read, written, appended to, made, moved and removed, lists set and asked for, some
requests sent again and some under a wrong number, at random. Each answer is that of the plain model (plain.py). The
program, never started again, is looked at after each of 20 blocks, of which the first is to warm up. (The quick build
keeps what is freed for a while, and fails.)
"""
import base64
import json
import os
import random
import statistics
import subprocess
import time

import pytest
from given import number
from plain import PlainRoom
from served import SID, Room, message, peak_of, session, slot, start_program

REQUESTS, SEED = number("REQUESTS", 40_000), number("SEED", 1)
SLOWER = number("SLOWER", 4.0)  # times the processor's time of the beginning (beside other work it is no even measure)
pytestmark = pytest.mark.timeout(600 + REQUESTS // 100)
MEMORY = 1024  # KiB more at most
USERS, FILES = 1000, 128  # of the room whose report is long
READS, PAGES = 40, 4  # READs of a document of 64 KiB, and pages that each may be given anew at most
AT_ONCE = 32  # messages that are sent at once: their answers are then waited for
BLOCKS = 20
FEW = 5  # blocks at either end
TICKS = os.sysconf("SC_CLK_TCK")
ROSTER = {"ann": ["eng"]}
FOLDERS = [f"/f{n}" for n in range(8)]
KINDS = {"READ": 25, "STAT": 15, "LIST": 8, "APPEND": 14, "WRITE": 14, "CREATE": 4, "REMOVE": 4, "RENAME": 4,
         "SETLIST": 3, "GETLIST": 3, "ACCESS": 4, "CHOWN": 2}


def data(dice, most):
    return base64.b64encode(dice.randbytes(dice.randrange(most))).decode()


def entry(dice):
    return {"flag": 3, "mask": dice.randrange(1 << 11), "type": dice.randrange(2), "who": dice.choice(["ann", "bob"])}


class Asker:
    """What is sent next, and what it is answered by the model."""

    def __init__(self):
        self.dice, self.seq, self.last = random.Random(SEED), 0, None
        self.model = PlainRoom(ROSTER, "ann", "eng")

    def command(self):
        dice = self.dice
        cmd = dice.choices([*KINDS], [*KINDS.values()])[0]
        folder = dice.choice(FOLDERS)
        it = {"cmd": cmd, "path": f"{folder}/{dice.choice('abcdefgh')}"}
        if cmd in ("CREATE", "WRITE", "APPEND"):
            it["data"] = data(dice, 100 if cmd == "APPEND" else 2000)
        elif cmd == "RENAME":
            it["to"] = f"{dice.choice(FOLDERS)}/{dice.choice('abcdefgh')}"
        elif cmd == "SETLIST":
            # (of a folder, and all stay allowed what they ask for)
            own = [{"flag": 3, "mask": 0x1F07FF, "type": 0, "who": "EVERYONE@"}]
            it |= {"path": folder, "aclflag": 0, "entries": own + [entry(dice) for _ in range(dice.randrange(4))]}
        elif cmd == "CHOWN":
            it |= {"owner": dice.choice(["ann", "bob"]), "group": "eng"}
        elif cmd == "ACCESS":
            it["mask"] = dice.randrange(1 << 11)
        elif cmd == "LIST":
            it["path"] = folder
        return it

    def asked(self, seq, body):
        target = f"/v1/sessions/{SID}/slots/0/{seq}"
        return message("ann", "POST", target, body), self.model.answer("POST", target, ["ann"], body)

    def slot(self, command):
        self.seq += 1
        self.last = json.dumps(command, separators=(",", ":")).encode()
        return self.asked(self.seq, self.last)

    def next(self):
        """The bytes of a message, and those of its answer."""
        kind = self.dice.randrange(50)
        if kind == 0:
            return self.asked(self.seq, self.last)
        if kind == 1:
            return self.asked(self.seq + 2, self.last)
        return self.slot(self.command())

    def begin(self):
        """The session, and each folder with its documents."""
        target, body = f"/v1/sessions/{SID}", b'{"slots":1}'
        yield message("ann", "POST", target, body), self.model.answer("POST", target, ["ann"], body)
        for folder in FOLDERS:
            yield self.slot({"cmd": "MKDIR", "path": folder})
            for name in "abcdefgh":
                yield self.slot({"cmd": "CREATE", "path": f"{folder}/{name}", "data": ""})


def resident(pid):
    """The memory of a process now and at its highest, in KiB."""
    with open(f"/proc/{pid}/status") as status:
        found = dict(line.split(":", 1) for line in status)
    return int(found["VmRSS"].split()[0]), int(found["VmHWM"].split()[0])


def told_of(pid):
    """What the system tells of a process behind its name (proc(5))."""
    with open(f"/proc/{pid}/stat") as file:
        return [int(it) for it in file.read().rpartition(")")[2].split()[1:]]


def processor(pid):
    """The seconds that a process has had of the processor."""
    return sum(told_of(pid)[10:12]) / TICKS


def faults(pid):
    """How many pages it was given while it ran."""
    return told_of(pid)[6]


def ask(line, pairs):
    """Sends these messages at once, and compares their answers. The seconds until the last of them."""
    begin = time.perf_counter()
    line.send(b"".join(asked for asked, _ in pairs))
    found = [line.answer() for _ in pairs]
    took = time.perf_counter() - begin
    for got, (asked, due) in zip(found, pairs):
        assert (asked, got and got.whole) == (asked, due)
    return took


def block(room, asker, count):
    """Asks so often, over a connection of its own: the memory then, at its highest too, and the microseconds of a
    request on the clock and of the processor."""
    line, before, clock = room.line(), processor(room.server.pid), 0.0
    for left in range(count, 0, -AT_ONCE):
        clock += ask(line, [asker.next() for _ in range(min(AT_ONCE, left))])
    line.close()
    now, peak = resident(room.server.pid)
    took = [it * 1e6 / count for it in (clock, processor(room.server.pid) - before)]
    print("memory {:,} KiB, {:,} at its highest, a request {:.0f} us, {:.0f} of the processor".format(now, peak, *took))
    return now, peak, *took


@pytest.fixture
def kept(memory):
    """A served room whose file lies in memory."""
    room = Room(memory, "[users]\nann = ['eng']\n" + "".join(f"u{n} = []\n" for n in range(USERS - 1))).start()
    yield room
    room.kill()


def test_memory_and_time_of_a_request_stay(kept, tell):
    asker, line = Asker(), kept.line()
    for it in asker.begin():
        ask(line, [it])
    line.close()
    now, peak, clock, of_processor = zip(*(block(kept, asker, REQUESTS // BLOCKS) for _ in range(BLOCKS)))
    assert kept.server.poll() is None
    grown, risen = (it[-1] - it[1] for it in (now, peak))
    slower, later = (statistics.median(it[-FEW:]) / statistics.median(it[1:1 + FEW]) for it in (of_processor, clock))
    tell(f"soak: memory {grown:+} KiB, its highest {risen:+}; of the processor {slower:.2f} times as at the beginning, "
         f"on the clock {later:.2f} times")
    assert grown <= MEMORY
    assert risen <= MEMORY
    assert slower <= SLOWER


def test_a_report_does_not_lie_in_memory_whole(kept, tell):
    """An access report of 128 files at the longest path for 1,000 users."""
    above = [("/" + "n" * 64) * n for n in range(1, 16)]
    commands = [{"cmd": "MKDIR", "path": it} for it in above]
    commands += [{"cmd": "CREATE", "data": "", "path": f"{above[-1]}/{n:064}"} for n in range(FILES)]
    line = kept.line()
    line.ask(session(1))
    assert [line.ask(slot(0, seq, it)).status for seq, it in enumerate(commands, 1)] == [200] * len(commands)
    line.close()
    kept.kill()
    child = start_program("report", kept.db, kept.roster, "access", stdout=subprocess.PIPE)
    size = found = most = 0
    for piece in iter(lambda: os.read(child.stdout.fileno(), 1 << 16), b""):
        size, found, most = size + len(piece), found + piece.count(b"\n"), max(most, peak_of(child.pid))
    assert (child.wait(), found) == (0, (len(commands) + 1) * USERS)
    tell(f"soak: a report of {size:,} bytes holds {most:,} KiB")
    assert most * 2048 < size


def test_a_large_document_is_read_in_memory_that_earlier_ones_freed(kept):
    """Nothing anew is taken from the system."""
    line, whole = kept.line(), base64.b64encode(bytes(65536)).decode()
    line.ask(session(1))
    line.ask(slot(0, 1, {"cmd": "CREATE", "data": whole, "path": "/a"}))
    reads = [slot(0, seq, {"cmd": "READ", "path": "/a"}) for seq in range(2, 2 + 2 * READS)]
    ask_all = lambda some: [line.ask(it).status for it in some]
    assert ask_all(reads[:READS]) == [200] * READS
    before = faults(kept.server.pid)
    assert ask_all(reads[READS:]) == [200] * READS
    assert (faults(kept.server.pid) - before) / READS <= PAGES
    line.close()
