"""A client with a model of its own: a mixed load on several slots, whose every answer is known before it comes."""
import base64
import json
import random
import socket
import threading
import time

from plain import ALL, PlainRoom
from served import first_answer, message

USERS = {"ann": ["eng"], "bob": ["eng", "staff"], "eng": []}
SESSIONS = {"ann": ("a" * 32, 3), "bob": ("b" * 32, 2)}
PORT = 8001
DELAY = 503
LOOK = 0.25  # seconds between two looks at whether the room is elsewhere now
PATIENCE = 300  # seconds until a request that is not answered is a failure, on a machine that others use
DOCUMENTS, FOLDERS = 12, 3
OPEN_TO_ALL = [{"flag": 3, "mask": ALL, "type": 0, "who": "EVERYONE@"}]


class Differs(Exception):
    """An answer is another than the model's."""


class Unanswered(Exception):
    pass


class Load:
    """`where()` is the machine that the room is on. It is played by one thread; others may look at its counts."""

    attempt = 120  # seconds until a connection that gives no answer is closed, and another one opened

    def __init__(self, where, seed, half_reads=False):
        self.where, self.dice, self.half_reads = where, random.Random(seed), half_reads
        self.model = PlainRoom(USERS, "ann", "eng")
        self.line, self.on, self.rest = None, None, b""
        self.last = {}  # of each slot: its last request that was answered, and the answer
        self.answered = self.again = self.delays = self.repeats = 0
        self.times = []  # of each request: when it was sent first, when it was answered, and by which machine
        self.fault, self.thread, self.is_stopping = None, None, threading.Event()

    # One request.

    def open_line(self):
        self.on = self.where()
        if self.on is None:
            raise OSError("the room is nowhere")
        self.line, self.rest = self.on.connect(PORT, 2), b""
        self.line.settimeout(LOOK)
        self.line.setsockopt(socket.IPPROTO_TCP, socket.TCP_NODELAY, 1)

    def close_line(self):
        if self.line:
            self.line.close()
        self.line = None

    def message(self, user, target, body):
        return message(user, "POST", target, body)

    def is_answer(self, got):
        return got.status != DELAY

    def is_right(self, got, want):
        return got.whole == want

    def once(self, data):
        """The answer to these bytes, or None where none came."""
        end = time.monotonic() + self.attempt
        try:
            if self.line is None or self.on is not self.where():
                self.close_line()
                self.open_line()
            self.line.sendall(data)
            while True:
                found = first_answer(self.rest)
                if found:
                    self.rest = found[1]
                    return found[0]
                try:
                    piece = self.line.recv(1 << 17)
                except socket.timeout:
                    if self.on is not self.where() or time.monotonic() > end:
                        raise OSError("the room is elsewhere") from None
                    continue
                if not piece:
                    raise OSError("closed")
                self.rest += piece
        except OSError:
            self.close_line()
            return None

    def until_answered(self, data, want, again=None):
        """Sends the same bytes until they are answered, as the model says; where they were sent more than once, perhaps
        as a repeat of a request that was run."""
        begin, tries = time.monotonic(), 0
        while True:
            got = self.once(data)
            tries += 1
            if got and self.is_answer(got):
                break
            self.delays += bool(got)
            if time.monotonic() - begin > PATIENCE:
                raise Unanswered(data[:120])
            time.sleep(0.05)
        self.answered += 1
        self.again += tries > 1
        self.times.append((begin, time.monotonic(), self.on))
        if not self.is_right(got, want) and not (tries > 1 and again and self.is_right(got, again)):
            raise Differs(f"{data[:300]!r} was answered {got.whole[:300]!r} and not {want[:300]!r}")
        return got

    def open_sessions(self):
        for user, (sid, slots) in SESSIONS.items():
            target, body = f"/v1/sessions/{sid}", b'{"slots":%d}' % slots
            self.until_answered(self.message(user, target, body), self.model.answer("POST", target, [user], body))

    def ask(self, user, number, command):
        """One new request of a slot."""
        sid = SESSIONS[user][0]
        seq = self.model.slots.get((sid, number), (0,))[0] + 1
        target, body = f"/v1/sessions/{sid}/slots/{number}/{seq}", json.dumps(command).encode()
        data, want = self.message(user, target, body), self.model.answer("POST", target, [user], body)
        self.last[user, number] = data, target, body
        return self.until_answered(data, want, self.model.answer("POST", target, [user], body))

    def repeat(self, user, number):
        """The last request of a slot again: its first reply, or that it was not kept."""
        if (user, number) in self.last:
            data, target, body = self.last[user, number]
            self.until_answered(data, self.model.answer("POST", target, [user], body))
            self.repeats += 1

    def repeat_all(self):
        for slot in list(self.last):
            self.repeat(*slot)

    # The load.

    def begin(self):
        """Sessions, and folders in which both users work."""
        self.open_sessions()
        self.ask("ann", 0, {"cmd": "SETLIST", "path": "/", "aclflag": 0, "entries": OPEN_TO_ALL})
        for n in range(FOLDERS):
            self.ask("ann", n, {"cmd": "MKDIR", "path": f"/f{n}"})
        return self

    def path(self):
        return f"/f{self.dice.randrange(FOLDERS)}/d{self.dice.randrange(DOCUMENTS)}"

    def command(self):
        dice, path = self.dice, self.path()
        kind = dice.random()
        if self.half_reads:
            kind *= 0.6
        if kind < 0.3:
            size = dice.choice([8, 8, 100, 1000])
            return {"cmd": "APPEND", "path": path, "data": base64.b64encode(dice.randbytes(size)).decode()}
        if kind < 0.6:
            return {"cmd": dice.choice(["READ", "READ", "STAT", "LIST"]), "path": path}
        if kind < 0.75:
            return {"cmd": "CREATE", "path": path, "data": ""}
        if kind < 0.82:
            data = base64.b64encode(dice.randbytes(dice.choice([0, 10, 5000]))).decode()
            return {"cmd": "WRITE", "path": path, "data": data}
        if kind < 0.87:
            return {"cmd": "RENAME", "path": path, "to": self.path()}
        if kind < 0.92:
            return {"cmd": "REMOVE", "path": path}
        if kind < 0.96:
            flag = dice.choice([0, 0x40])
            entry = {"flag": flag, "mask": dice.choice([ALL, 0x1200A9, 6]), "type": int(dice.random() < 0.3)}
            entry["who"] = "eng" if flag else "bob"
            return {"cmd": "SETLIST", "path": path, "aclflag": 1, "entries": [entry]}
        return {"cmd": dice.choice(["GETLIST", "ACCESS"]), "path": path} | (
            {"mask": 7} if dice.random() < 0.5 else {})

    def step(self):
        user = self.dice.choice(["ann", "ann", "bob"])
        number = self.dice.randrange(SESSIONS[user][1])
        if self.dice.random() < 0.1:
            return self.repeat(user, number)
        command = self.command()
        if self.dice.random() < 0.1:
            command["keep"] = False
        return self.ask(user, number, command)

    def play(self):
        seen = self.on
        try:
            while not self.is_stopping.is_set():
                self.step()
                if self.on is not seen:  # (another machine: it has what the one before answered last)
                    seen = self.on
                    self.repeat_all()
        except BaseException as fault:
            self.fault = fault

    def start(self):
        self.is_stopping.clear()
        self.thread = threading.Thread(target=self.play, daemon=True)
        self.thread.start()

    def stop(self):
        """Ends the thread once what is in flight is answered, and the connection, which would hold the room."""
        self.is_stopping.set()
        if self.thread:
            self.thread.join()
        self.thread = None
        self.close_line()

    # What the room must be now.

    def paths(self):
        return sorted(self.model.things, key=lambda at: [it.encode() for it in at])

    def documents(self):
        """The bytes of each document, in the order of the paths."""
        return [self.model.things[at].bytes for at in self.paths() if not self.model.things[at].is_folder]
