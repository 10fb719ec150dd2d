"""Clients of a room that is killed and started again.

Many at once send each request again at random, and append their pieces to a document of their own and to one that all
share: `tests/around/front` plays them through the front, `lab/machine/inside` on a booted machine. One alone (`Pieces`)
knows what is in flight as the room ends: `tests/program/test_crash.py`, `tests/around/service`.
"""
import base64
import json
import random
import threading
import time

from served import Tally, slot

AGAIN = {429, 502, 503, 504}  # the same request is sent again: the room was busy, or there was none
SHARED = "/shared"


class SharedTally(Tally):
    """A tally that threads share. What ends a thread before its time is counted as well."""

    def __init__(self):
        super().__init__()
        self.lock = threading.Lock()

    def differs(self, name, got, want):
        with self.lock:
            super().differs(name, got, want)

    def thread(self, name, play, *words):
        def counted():
            try:
                play(*words)
            except BaseException as fault:  # (SystemExit too: a thread would end by it without a word)
                self.differs(name, repr(fault), "its end")
        return threading.Thread(target=counted, daemon=True)


class Beside:
    """Calls that run beside each other. What ends one before its time is raised at the end."""

    def __init__(self, calls):
        self.faults = []
        self.threads = [threading.Thread(target=self._play, args=(it,), daemon=True) for it in calls]
        for it in self.threads:
            it.start()

    def _play(self, call):
        try:
            call()
        except BaseException as fault:  # (SystemExit too: a thread would end by it without a word)
            self.faults.append(fault)

    def goes_on(self):
        return any(it.is_alive() for it in self.threads)

    def end(self):
        for it in self.threads:
            it.join()
        if self.faults:
            raise self.faults[0]


class Caller:
    """A user with a session of one slot. `once(method, target, body)` sends one message: its answer, or None."""
    pause = 0.05  # seconds at most before it sends again

    def __init__(self, once, sid):
        self.once, self.sid, self.seq = once, sid, 0

    def ask(self, method, target, body):
        """Sends until an answer comes that is no word of a busy room."""
        got = None
        while not got or got.status in AGAIN:
            got = self.once(method, target, body)
            if not got or got.status in AGAIN:
                time.sleep(random.random() * self.pause)
        return got

    def open(self):
        return self.ask("POST", f"/v1/sessions/{self.sid}", {"slots": 1})

    def slot(self, command):
        self.seq += 1
        return self.ask("POST", f"/v1/sessions/{self.sid}/slots/0/{self.seq}", command)

    def read(self, path):
        """The pieces of a document."""
        data = json.loads(self.slot({"cmd": "READ", "path": path}).body)["data"]
        return base64.b64decode(data).decode().split(";")[:-1]


class Client(Caller):
    """A caller that sends each request again at random: its answer is then the same."""
    shared = SHARED

    def __init__(self, once, number, seed, pieces):
        super().__init__(once, f"{number:032x}")
        self.number, self.pieces = number, pieces
        self.dice = random.Random(f"{seed} client {number}")

    def need(self, what, got, want):
        assert got == want, f"client {self.number}: {what} was answered {got!r:.300} and not {want!r:.300}"

    def ask(self, method, target, body):
        got = super().ask(method, target, body)
        if self.dice.random() < 0.3:
            again = self.once(method, target, body)
            if again and again.status not in AGAIN:
                self.need(f"again {target}", (again.status, again.body), (got.status, got.body))
        return got

    def append(self, path, piece):
        return self.slot({"cmd": "APPEND", "path": path, "data": base64.b64encode(piece).decode()}).body

    def own(self):
        return f"/own-{self.number}"

    def names(self):
        """The pieces that are to be in its document, in order."""
        return [f"{self.number:04d}.{n:04d}" for n in range(self.pieces)]

    def play(self):
        self.need("OPEN", self.open().body, b'{"code":0,"slots":1}')
        made = self.slot({"cmd": "CREATE", "path": self.own(), "data": ""}).body
        self.need("CREATE", made, b'{"code":0,"size":0}')
        for n, name in enumerate(self.names()):
            piece = f"{name};".encode()
            self.need(f"APPEND {n}", self.append(self.own(), piece), b'{"code":0,"size":%d}' % ((n + 1) * len(piece)))
            self.append(self.shared, piece)


class Pieces:
    """A slot that appends pieces to documents of its own: what was answered last, and the request in flight. Each
    answer is the one that is due."""
    most = 2000  # pieces of a document

    def __init__(self, number=0):
        self.number, self.seq, self.flight, self.last = number, 0, None, None
        self.path, self.docs = None, {}

    def next(self):
        """The next request: one more piece, or a new document."""
        if self.path is None or len(self.docs[self.path]) >= self.most * 8:
            self.path = f"/d{self.number}-{len(self.docs)}"
            self.docs[self.path] = b""
            command = {"cmd": "CREATE", "path": self.path, "data": ""}
        else:
            piece = b"%08d" % (self.seq + 1)
            command = {"cmd": "APPEND", "path": self.path, "data": base64.b64encode(piece).decode()}
            self.docs[self.path] += piece
        self.seq += 1
        size = len(self.docs[self.path])
        self.flight = (slot(self.number, self.seq, command), b'{"code":0,"size":%d}' % size)

    def send(self, line):
        """Sends what is in flight, or the next. False where no answer came."""
        if self.flight is None:
            self.next()
        data, body = self.flight
        try:
            answer = line.ask(data)
        except OSError:
            answer = None
        if answer is None:
            return False
        assert answer.body == body, f"{data!r} was answered {answer} and not {body}"
        self.last, self.flight = (data, answer.whole), None
        return True

    def repeat(self, line):
        """The last request that was answered, while none is in flight that may have run."""
        if self.last and self.flight is None:
            assert line.ask(self.last[0]).whole == self.last[1], f"a repeat of {self.last[0]!r} differs"

    def read(self, line):
        """Reads each document: it is what was sent, once."""
        for path, pieces in self.docs.items():
            self.seq += 1
            got = line.ask(slot(self.number, self.seq, {"cmd": "READ", "path": path})).body
            want = b'{"code":0,"data":"%s"}' % base64.b64encode(pieces)
            assert got == want, f"{path} holds {got!r} and not {want!r}"


def look(reader, clients, own=slice(None)):
    """What is there of the clients' pieces, and what is to be: nothing is lost, and nothing there twice or in another
    order. (Of documents of their own those of some clients.)"""
    found = {}
    for it in reader.read(clients[0].shared):
        found.setdefault(it.partition(".")[0], []).append(it)
    due = {f"{it.number:04d}": it.names() for it in clients}
    return ((found, {it.number: reader.read(it.own()) for it in clients[own]}),
            (due, {it.number: it.names() for it in clients[own]}))
