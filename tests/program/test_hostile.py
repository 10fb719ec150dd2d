"""Random streams against the plain model of plain.py, and clients that neither send nor read, or do not end.

STREAMS random streams (streams.py) go through `replay`: what is written and the status are the model's. Each again with
a few bytes changed: its messages before the change are answered as they were, and it ends in order. The first SERVED go
through `serve` over a file too, where at the end the rows are the model's, each list is whole, and SQLite finds nothing
wrong. (Many clients at once, with kills: tests/around/front.)
"""
import base64
import collections
import concurrent.futures
import contextlib
import os
import resource
import subprocess
import threading
import time

import pytest
from given import number
from plain import NAMES as REFUSALS, refusal
from rows import other_rows
from served import HANGS, HERE, PROGRAM, SID, Line, Room, answers, findings_of, least, message, session, slot, whole
from streams import Dice, Stream

STREAMS, SERVED, SEED = number("STREAMS", 2000), number("SERVED", 100), number("SEED", 1)
LONGEST_RUN = 60  # seconds of a processor that the program may take for a stream
ENOUGH = 2000  # streams among which every refusal is due
ACCESS = 5
OUT_OF_REACH = {12, 30}  # refusals that come after a million objects alone, and where memory or a disk fails
LONGEST_WAIT = 60  # seconds that the program waits for a peer
LONGEST_END = 40  # seconds for a peer with a bad head: 32 reads of a quarter of a second each, and some more
SOON = 6  # seconds for one that said that its message is the last: nothing more is read (32 drips would take longer)
DRIP = 0.2  # seconds from byte to byte of one that drips: fewer than such a read waits
LONGEST_TEST = 240  # seconds until the next client gives up: far more, since a loaded machine may be slow
pytestmark = pytest.mark.timeout(900 + STREAMS // 4 + SERVED)


# Clients that neither send nor read, or do not end: the next one is served

def next_is_served(room, began):
    """Another client waits behind the one that has the room's only line, and is served: after so many seconds."""
    with contextlib.closing(Line(room.port)) as second:
        second.socket.settimeout(LONGEST_TEST)
        got = second.ask(session(1, "f" * 32))
        assert got and got.whole == whole(b'{"code":0,"slots":1}')
    return time.monotonic() - began


def holds(room, line, begin):
    """It goes no further: the next one is served within the minute, and not at once."""
    began = time.monotonic()
    begin(line)
    assert next_is_served(room, began) > LONGEST_WAIT - 5


def takes_nothing(line):
    line.ask(session(1))
    line.ask(slot(0, 1, {"cmd": "CREATE", "path": "/a", "data": base64.b64encode(bytes(65536)).decode()}))
    line.socket.settimeout(3)
    with contextlib.suppress(TimeoutError):
        for seq in range(2, 2000):
            line.send(slot(0, seq, {"cmd": "READ", "path": "/a"}))


BAD_HEAD = b"noise\r\n\r\n", refusal(40)
LAST_MESSAGE = (message("ann", "POST", f"/v1/sessions/{SID}", {"slots": 1}, fields=["connection: close"]),
                whole(b'{"code":0,"slots":1}', last=True))


def never_ends(room, line):
    """It goes on sending behind a bad head."""
    def sends():
        with contextlib.suppress(OSError):
            line.send(BAD_HEAD[0])
            while True:
                line.send(bytes(65536))

    sender = threading.Thread(target=sends)
    sender.start()
    try:
        next_is_served(room, time.monotonic())
    finally:
        room.kill()
        sender.join()


def stays(room, line, last, longest, pause=None):
    """It has its last answer and stays open, with a byte after each pause, or silent where there is none: the next one
    is served within so many seconds."""
    line.close()
    assert least(lambda: seconds_behind(room, *last, pause), longest) < longest


def seconds_behind(room, asked, due, pause):
    with contextlib.closing(room.line()) as line:
        got, over = line.ask(asked), threading.Event()
        began = time.monotonic()
        assert got and got.whole == due

        def drips():
            with contextlib.suppress(OSError):
                while not over.wait(pause):
                    line.send(b".")

        dripping = threading.Thread(target=drips, daemon=True)
        dripping.start()
        try:
            return next_is_served(room, began)
        finally:
            over.set()
            dripping.join()


CLIENTS = {
    "sends nothing": (holds, lambda line: None),
    "sends half a message": (holds, lambda line: line.send(session()[:40])),
    "takes no answers": (holds, takes_nothing),
    "never ends": (never_ends,),
    "is silent behind a bad head": (stays, BAD_HEAD, LONGEST_END),
    "is silent behind its last answer": (stays, LAST_MESSAGE, SOON),
    "drips behind its last answer": (stays, LAST_MESSAGE, SOON, DRIP),
}


def plays(folder, play, *words):
    """Plays a client that has the only line of a room of its own."""
    room = Room(folder).start()
    with contextlib.closing(room.line()) as line:
        try:
            play(room, line, *words)
        finally:
            room.kill()


@pytest.fixture(scope="module")
def played(tmp_path_factory):
    """The clients, which all wait beside each other."""
    with concurrent.futures.ThreadPoolExecutor(len(CLIENTS)) as pool:
        yield {name: pool.submit(plays, str(tmp_path_factory.mktemp("client")), *it) for name, it in CLIENTS.items()}


# Streams

class Replays:
    """Runs of `replay` that read a file in memory and write to two. So none needs a thread, or a copy of this process,
    which takes longer than the run."""

    def __init__(self, roster):
        self.files = [os.memfd_create(name) for name in ("input", "output", "faults")]
        self.actions = [(os.POSIX_SPAWN_DUP2, file, number) for number, file in enumerate(self.files)]
        self.words = [PROGRAM, "replay", roster, "ann", "eng"]

    def close(self):
        for it in self.files:
            os.close(it)

    def played(self, bytes_):
        """The status and the faults, and what was written."""
        for it in self.files:
            os.ftruncate(it, 0)
            os.lseek(it, 0, os.SEEK_SET)
        os.pwrite(self.files[0], bytes_, 0)
        pid = os.posix_spawn(PROGRAM, self.words, os.environ, file_actions=self.actions)
        resource.prlimit(pid, resource.RLIMIT_CPU, (LONGEST_RUN, LONGEST_RUN))
        status = os.waitstatus_to_exitcode(os.waitpid(pid, 0)[1])
        written, faults = (os.pread(it, os.fstat(it).st_size, 0) for it in self.files[1:])
        return (status, faults), written

    def compared(self, seed, stream):
        """A stream, and the same with some bytes changed."""
        status, written = self.played(stream.bytes)
        assert (seed, status, first_difference(written, stream.answers)) == (seed, stream.status, None)
        changed, before = stream.changed(Dice(f"{seed} changed"))
        status, written = self.played(changed)
        every = [it.whole for it in answers(written)]
        assert (seed, every[:before], b"".join(every)) == (seed, stream.answers[:before], written)
        bad = every[-1:] == [refusal(40)]
        assert (seed, status) == (seed, (1, b"fileroom: bad message\n") if bad else (0, b""))
        assert bool(every) == bool(changed), seed


@pytest.fixture(scope="module")
def fresh(tmp_path_factory):
    """A fresh room, which nobody serves."""
    return Room(str(tmp_path_factory.mktemp("fresh")))


@pytest.fixture(scope="module")
def replays(fresh):
    with contextlib.closing(Replays(fresh.roster)) as it:
        yield it


def first_difference(got, want):
    """Which answer differs first, for a line that a person can read, or None."""
    if got == b"".join(want):
        return None
    pairs = zip([*answers(got), None], want)
    wrong = ((n, str(it), due[-300:]) for n, (it, due) in enumerate(pairs) if it is None or it.whole != due)
    return next(wrong, "its end")


def asked(line, pieces):
    """What these messages are answered, each sent once the one before it has its answer, the last with the end."""
    got = b""
    with contextlib.suppress(OSError):
        for it in pieces[:-1]:
            answer = line.ask(it)
            got += answer.whole if answer else line.taken()
        line.send(b"".join(pieces[-1:]))
        line.end()
        got += line.to_end()
    return got


def lists_of(db):
    """The status of tools/lists over a file, and its last line."""
    words = [os.path.join(HERE, "..", "tools", "lists"), db]
    ran = subprocess.run(words, capture_output=True, text=True, timeout=HANGS)
    return ran.returncode, ran.stdout.splitlines()[-1:]


def test_random_streams(replays, tell):
    codes = collections.Counter()
    for at in range(SERVED, STREAMS):
        seed = f"{SEED}.{at}"
        stream = Stream(seed)
        replays.compared(seed, stream)
        codes += stream.codes
    told = ", ".join(f"{code}: {count:,}" for code, count in sorted(codes.items()))
    tell(f"hostile: {STREAMS:,} random streams, {SERVED} over a file; of the others answers due, by code: {told}")
    if STREAMS >= ENOUGH:
        assert {*REFUSALS, ACCESS} - {*codes} - OUT_OF_REACH == set(), "none of these refusals was due"


def test_streams_over_a_file(fresh, replays, tmp_path):
    for at in range(min(STREAMS, SERVED)):
        seed, place = f"{SEED}.{at}", str(tmp_path / str(at))
        stream = Stream(seed, has_changes=True)
        replays.compared(seed, stream)
        room = fresh.copied(Room, place).start(1)
        with contextlib.closing(room.line()) as line:
            written = asked(line, stream.pieces)
        assert (seed, first_difference(written, stream.answers), room.wait()) == (seed, None, 0)
        assert (seed, other_rows(room.db, stream.room)) == (seed, {})
        whole_lists = 0, [f"{len(stream.room.things)} objects, 0 lists that are not whole"]
        assert (seed, lists_of(room.db)) == (seed, whole_lists)
        assert (seed, findings_of(room.db)) == (seed, [])


@pytest.mark.parametrize("name", CLIENTS)
def test_behind_a_client_that(played, name):
    played[name].result()
