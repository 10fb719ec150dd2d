"""Askers at one time, of a room or of what stands in its place: each is a process with a session of its own and one
request under way. Through the front each has a password, and each connection an address of its own, so that the front's
limits of one address do not count. They ask as on a working day: 70 % READ and 20 % WRITE of 1 KiB, 5 % LIST of 20,
5 % repeats.
"""
import contextlib
import itertools
import multiprocessing
import os
import random
import signal
import sys
import time
from typing import NamedTuple

from anchored import Anchored, built
from asked import KIB, PIECE
from nginx import Front, login
from served import Line, message

FILES = 20
PAGE = "page.html"
USER, PASSWORD = "ann", "a word of ann"
LONGEST = 300  # seconds for an answer, and until all have begun
LATER, MOST = 429, 120  # the front's answer beyond so many requests under way to one room
PAUSES = [0.05, 0.1, 0.2, 0.4, 0.8, 1.6, 3.2, 5.0]  # seconds, as the client waits before it sends again
FORK = multiprocessing.get_context("fork")
numbers = itertools.count(1)  # of askers, each of which has a session and a folder of its own


class Asker:
    """A session of one room: straight at its port, or through the front to the room of a name."""
    change = {"cmd": "WRITE", "data": KIB}
    may_wait = False  # whether the front may answer 429; else that ends the bench

    def __init__(self, number, port, name=None):
        self.pick, self.seq, self.last = random.Random(number), 0, None
        self.later = []  # when it was answered 429
        self.base = (f"/rooms/{name}" if name else "") + f"/v1/sessions/{self.pick.randbytes(16).hex()}"
        self.fields = ["host: a", login(USER, PASSWORD)] if name else [f"room-user: {USER}"]
        self.port, self.lines = port, itertools.count()
        self.home = f"{1 + number // 200}.{1 + number % 200}" if name else ""
        self.connect()
        self.folder = f"/d{number}"

    def connect(self):
        self.line = Line(self.port, f"127.{next(self.lines) % 256}.{self.home}" if self.home else "127.0.0.1")
        self.line.socket.settimeout(LONGEST)

    def reconnect(self):
        self.line.close()
        self.connect()

    def answer(self, whole):
        got = self.line.ask(whole)
        if got and "connection: close" in map(str.lower, got.fields):  # (nginx ends each after 1,000 requests)
            self.reconnect()
        return got

    def seconds_of(self, whole, due):
        """The seconds until this message was answered with the bytes that are due. Where the front may answer 429 it is
        then sent again after a pause, as clients do."""
        begin, pauses = time.perf_counter(), iter(PAUSES)
        got = self.answer(whole)
        while self.may_wait and got and got.status == LATER and time.perf_counter() - begin < LONGEST:
            self.later.append(time.perf_counter())
            time.sleep(next(pauses, PAUSES[-1]) * self.pick.uniform(0.5, 1.0))
            got = self.answer(whole)
        seconds = time.perf_counter() - begin
        if got and got.status == LATER:
            sys.exit("bench: the front answered 429: a limit of its own would be measured, and no room")
        if not got or due not in got.body:
            sys.exit(f"bench: {whole[:300]} was answered {got}")
        return seconds

    def ask(self, target, body):
        return self.seconds_of(message(None, "POST", self.base + target, body, fields=self.fields), b'"code":0')

    def next(self, cmd, path, **data):
        self.seq += 1
        self.last = {"cmd": cmd, "path": path, **data}
        return self.ask(f"/slots/0/{self.seq}", self.last)

    def fill(self):
        self.ask("", {"slots": 1})
        self.next("MKDIR", self.folder)
        for n in range(FILES):
            self.next("CREATE", f"{self.folder}/{n}", data=KIB)

    def once(self):
        """One request of the mix."""
        at, path = self.pick.random(), f"{self.folder}/{self.pick.randrange(FILES)}"
        if at < 0.05:
            return self.ask(f"/slots/0/{self.seq}", self.last)
        if at < 0.10:
            return self.next("LIST", self.folder)
        if at < 0.30:
            return self.next(path=path, **self.change)
        return self.next("READ", path)

    def play(self, seconds, pace):
        """The seconds of each request that was answered in this time, sent one after another, or at random about once
        in `pace` seconds; and how often 429 came in its place."""
        self.reconnect()  # (the front ends a connection that waits for half a minute)
        self.later, found, end = [], [], time.perf_counter() + seconds
        while time.perf_counter() < end:
            if pace:
                time.sleep(self.pick.expovariate(1 / pace))
            found.append((self.once(), time.perf_counter()))
        return [took for took, at in found if at < end], sum(at < end for at in self.later)


class Appender(Asker):
    """One that asks what the server in C knows."""
    change = {"cmd": "APPEND", "data": PIECE}


class Visitor(Asker):
    """One that asks for a file of the page, and no room."""

    def fill(self):
        pass

    def once(self):
        return self.seconds_of(message(None, "GET", f"/{PAGE}", fields=self.fields), bytes(1024))


def work(kind, place, may_wait, seconds, pace, begin, pipe):
    signal.signal(signal.SIGTERM, signal.SIG_DFL)  # (it has no servers to end)
    asker = kind(*place)
    asker.may_wait = may_wait
    asker.fill()
    pipe.send(None)  # (it is ready)
    begin.wait()
    pipe.send(asker.play(seconds, pace))


def heard(pipe, end):
    """What an asker says by then."""
    with contextlib.suppress(EOFError):
        if pipe.poll(max(end - time.perf_counter(), 0)):
            return pipe.recv()
    sys.exit("bench: an asker ended, or came to no end")


class Found(NamedTuple):
    """What askers found: how many requests a second were answered, the seconds that each took, the shortest first, how
    many 429 a second came before, and the microseconds of the server's processor for each, in its own code and in the
    system's."""
    a_second: float
    took: list
    later: float
    spent: tuple


def spent(server):
    """The microseconds of processor that a process has used, in its own code and in the system's."""
    if not server:
        return 0, 0
    with open(f"/proc/{server.pid}/stat", encoding="utf-8") as file:
        ticks = file.read().rpartition(")")[2].split()[11:13]
    return [1e6 * int(it) / os.sysconf("SC_CLK_TCK") for it in ticks]


def measured(seconds, places, pace=0.0, kind=Asker, server=None):
    """Askers beside each other, one for each place (port, and name of the room)."""
    begin, pipes, end = FORK.Event(), [], time.perf_counter() + LONGEST
    for place in places:
        reader, writer = FORK.Pipe(False)
        words = kind, (next(numbers), *place), places.count(place) > MOST, seconds, pace, begin, writer
        FORK.Process(target=work, args=words, daemon=True).start()
        writer.close()
        pipes.append(reader)
    for pipe in pipes:
        heard(pipe, end)
    before, end = spent(server), time.perf_counter() + seconds + LONGEST
    begin.set()
    took, later = zip(*(heard(pipe, end) for pipe in pipes))
    found = sorted(itertools.chain(*took))
    each = tuple((now - was) / len(found) for was, now in zip(before, spent(server)))
    return Found(len(found) / seconds, found, sum(later) / seconds, each)


def in_c(folder):
    """A room of the server in C, which is started."""
    Anchored.anchor, _ = built(folder)
    return Anchored(os.path.join(folder, "in-c")).start()


def front_before(names, folder):
    """A front with these rooms and a page of one file, and limits that nobody comes to."""
    page, home = (os.path.join(folder, it) for it in ("page", "front"))
    os.mkdir(page)
    with open(os.path.join(page, PAGE), "wb") as file:
        file.write(bytes(1024))
    return Front(home, {USER: PASSWORD}, names, page, rate="1000000r/s", long="60000000r/m", opens="1000000r/s",
                 heavy="1000000r/s", bulk=1000000000, under_way=1000, connections=4096)
