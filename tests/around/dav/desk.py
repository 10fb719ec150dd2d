"""What the tests of the gateway share: room, front and gateway, and between these two what loses things."""
import contextlib
import hashlib
import http.client
import json
import os
import random
import re
import socket
import subprocess
import threading
import time
from concurrent.futures import ThreadPoolExecutor
from dataclasses import dataclass
from urllib.parse import quote

import gateway
from between import Between
from gateway import stop
from nginx import Front, login
from room_client import Room, Settings
from served import HERE, WAIT, Room as Served, put_file, session, slot, sqlite, text_of, until

PAGE = os.path.join(HERE, "..", "page")
ROSTER = '[users]\nann = ["eng"]\nbob = ["eng", "staff"]\ncat = ["pupils"]\n'
PASSWORDS = {it: f"{it}-word" for it in ("ann", "bob", "cat")}
HERS = {"flag": 3, "mask": 0x1F07FF, "type": 0, "who": "OWNER@"}
ANNS = HERS | {"who": "ann"}  # also what others make there
BOB_READS = {"flag": 3, "mask": 0x1200A9, "type": 0, "who": "bob"}
BOB_WRITES = BOB_READS | {"mask": 0x1301EF}
CHANGES = [f'"cmd":"{it}"'.encode() for it in ("CREATE", "MKDIR", "RENAME", "SETLIST", "WRITE")]
PIECE = 65536
QUIET = 0.5  # seconds
STEP = re.compile(r"(\w+) ([A-Z]+) (.*?)(?: (\d{3}))?(?: > (.*))?")
LOCKINFO = (b'<?xml version="1.0"?><D:lockinfo xmlns:D="DAV:"><D:lockscope><D:%s/></D:lockscope><D:locktype><D:write/>'
            b"</D:locktype><D:owner>me &amp; mine</D:owner></D:lockinfo>")
EXCLUSIVE, SHARED = LOCKINFO % b"exclusive", LOCKINFO % b"shared"


def tag_of(data):
    return '"' + hashlib.sha256(data).hexdigest()[:32] + '"'


def has(*words):
    """Whether a message has these words."""
    signs = [it.encode() for it in words]
    return lambda message: all(it in message for it in signs)


def asks(cmd, *words):
    """Whether it asks the room for this, with these words."""
    return has(f'"cmd":"{cmd}"', *words)


def makes_changes(message):
    return any(it in message for it in CHANGES)


def is_at_work(pid):
    """Whether a thread of this process runs, or would."""
    with contextlib.suppress(OSError):
        return any(text_of(f"/proc/{pid}/task/{it}/stat").rpartition(")")[2].split()[0] == "R"
                   for it in os.listdir(f"/proc/{pid}/task"))
    return False


def make_folders(room, **lists):
    """Folders of the root, into which bob may look, each with this list, which is handed down."""
    root = room.get_list("/")
    room.set_list("/", root["aclflag"], [*root["entries"], BOB_READS | {"flag": 0}])
    for name, entries in lists.items():
        room.mkdir(f"/{name}")
        room.set_list(f"/{name}", 3, entries)


@dataclass
class Answer:
    status: int
    fields: dict
    body: bytes

    @property
    def hrefs(self):
        return re.findall(r"<D:href>([^<]*)</D:href><D:propstat>", self.body.decode())


class Desk:
    """A room of ann and eng by WebDAV. A path that begins with no / is one in `top`."""

    top = host = ""  # whose front and gateway it is
    log = None  # the name of a file that has what the gateway says
    ended = 0  # how often the room has lost its sessions

    def __init__(self, folder, roster=ROSTER, passwords=PASSWORDS, others=(), patience=20, is_lossy=True, **front):
        self.folder, self.passwords, self.patience, self.how = folder, passwords, patience, front
        self.ends = contextlib.ExitStack()
        self.served = Served(folder, roster).start()
        self.ends.callback(lambda: self.served.kill())
        self.beside = {it: Served(self.path(it), roster).start() for it in others}  # more rooms, of the same users
        for it in self.beside.values():
            self.ends.callback(it.kill)
        self.wires = {}
        self.start_front()
        self.ends.callback(lambda: stop(self.front.server))
        self.loser = Loser(self.path("lossy.sock"), self.at_front) if is_lossy else None
        if is_lossy:
            self.ends.callback(self.loser.end)
        self.start_gateway()
        self.ends.callback(lambda: stop(self.gateway))

    def __enter__(self):
        return self

    def __exit__(self, *_):
        self.ends.close()

    def path(self, name):
        return os.path.join(self.folder, name)

    def start_front(self):
        folder = self.path(f"front{self.host}")
        rooms = {"plans": self.at_room()} | {name: it.port for name, it in self.beside.items()}
        how = {"dav": self.path("gate.sock"), "opens": "600r/m", **self.how}
        self.front = Front(folder, self.passwords, rooms, PAGE, **how)
        self.at_front = os.path.join(folder, "work", "dav.sock")

    def at_room(self):
        """The room's port, or the path of a socket before it."""
        return self.served.port

    def start_gateway(self, **env):
        to = self.path("lossy.sock") if self.loser else self.at_front
        with open(self.path(self.log), "a") if self.log else contextlib.nullcontext() as log:
            self.gateway = gateway.start(to, self.path(f"state{self.host}"), self.path("gate.sock"), log,
                                         **{"PATIENCE": str(self.patience)} | env)

    def settle(self):
        """What a test has left ends with it: nothing is lost any more, and all is served."""
        self.release()
        if self.loser:
            self.loser.settle()
        if self.served.server.poll() is not None:
            self.served.start()
        if self.gateway.poll() is not None:
            self.start_gateway()

    def quiet(self):
        """Until nothing is asked any more, and nobody who might ask waits for a processor."""
        def is_quiet():
            before = self.loser.count
            time.sleep(QUIET)
            return self.loser.count == before and not any(
                map(is_at_work, (self.gateway.pid, self.front.server.pid, self.served.server.pid)))
        assert until(is_quiet), "it goes on asking"

    def at(self, path):
        return path if path.startswith("/") else f"{self.top}/{path}"

    def url(self, path="/"):
        return f"http://127.0.0.1:{self.front.port}/dav/plans{quote(self.at(path))}"

    def ask(self, user, method, path, body=b"", raw=False, timeout=120, to=None, **fields):
        """The answer to one request. A name of a field has _ for -."""
        its = {name.replace("_", "-"): value for name, value in fields.items()}
        if user:
            name, _, value = login(user, self.passwords.get(user, "wrong")).partition(": ")
            its[name] = value
        if to is not None:
            its["Destination"] = to if "://" in to else self.url(to)
        line = http.client.HTTPConnection("127.0.0.1", self.front.port, timeout=timeout)
        try:
            line.request(method, path if raw else quote(f"/dav/plans{self.at(path)}"), body, its)
            got = line.getresponse()
            return Answer(got.status, {name.lower(): it for name, it in got.getheaders()}, got.read())
        finally:
            line.close()

    def does(self, user, method, path, status, body=b"", **how):
        got = self.ask(user, method, path, body, **how)
        assert got.status == status, f"{user} {method} {path}: {got.status}, not {status}: {got.body[:300]}"
        return got

    def play(self, steps):
        """Each is USER METHOD PATH STATUS, behind > where it goes or the bytes; without a status the room does it."""
        for step in filter(None, steps.split("; ")):
            user, method, path, status, more = STEP.fullmatch(step).groups(default="")
            if not status:
                self.wire(user, method, path, **{"RENAME": {"to": more}, "CREATE": {"data": ""}}.get(method, {}))
                continue
            body, to = (more.encode(), None) if method == "PUT" else (b"", more if method in ("MOVE", "COPY") else None)
            got = self.does(user, method, path, int(status), body, to=to or None)
            assert method != "GET" or not more or got.body == more.encode(), f"{step}: {got.body[:300]}"

    def get(self, user, path):
        return self.does(user, "GET", path, 200).body

    def names(self, user, path, depth="1"):
        """The names in a folder, as a file manager is shown them."""
        return self.does(user, "PROPFIND", path, 207, Depth=depth).hrefs

    def told(self, user, path, depth="1"):
        return self.does(user, "PROPFIND", path, 207, Depth=depth).body.decode()

    def locked(self, user, path, status=200, body=EXCLUSIVE, **how):
        """The token of a lock."""
        return self.does(user, "LOCK", path, status, body, **how).fields.get("lock-token", "")

    def unlock(self, user, path, token, status=204):
        self.does(user, "UNLOCK", path, status, Lock_Token=token)

    # Past the gateway and the front

    @contextlib.contextmanager
    def room(self, user="ann"):
        state = self.path(f"desk-{user}-{self.ended}")
        with Room(Settings(url=f"http://127.0.0.1:{self.served.port}", room_user=user, state=state), print) as room:
            yield room

    def wire(self, user, cmd, path, **more):
        """What the room answers to a command that it does."""
        reply = self.asked(user, cmd, path, **more)
        assert reply["code"] == 0, (user, cmd, path, reply)
        return reply

    def asked(self, user, cmd, path, **more):
        if "to" in more:
            more["to"] = self.at(more["to"])
        if user not in self.wires:
            self.wires[user] = Wire(self.served, user)
        return self.wires[user].ask({"cmd": cmd, "path": self.at(path), **more})

    # Ann is held, as docs/RUNNING.md has it, by a file that the front looks for

    @property
    def mark(self):
        return os.path.join(self.front.folder, "held", "ann@plans")

    def hold(self):
        os.makedirs(os.path.dirname(self.mark), exist_ok=True)
        with open(self.mark, "w"):
            pass

    def release(self):
        with contextlib.suppress(FileNotFoundError):
            os.remove(self.mark)

    # What happens between two requests of the gateway

    @contextlib.contextmanager
    def before(self, is_it, does):
        """This is done as the first such request comes, before it is handed on."""
        self.loser.meanwhile = is_it, does
        yield
        has_come = self.loser.meanwhile is None
        assert has_come, "it did not come to that request"

    def as_sessions_end(self, is_it, user, *request, acts=True, meanwhile=None, **how):
        """The status of a request during which the room loses its sessions: at the first such request to the room,
        which acts before, and its answer is lost, or comes behind."""
        came, gone = threading.Event(), threading.Event()

        def fate(message):
            if not is_it(message):
                return "none"
            self.loser.settle()
            if acts:
                self.loser._answer(message)
            came.set()
            gone.wait(WAIT)
            return "request" if acts else "none"
        self.loser.fate = fate
        with ThreadPoolExecutor(1) as crew:
            said = crew.submit(self.ask, user, *request, **how)
            assert came.wait(WAIT), "it did not come to that request"
            if meanwhile:
                meanwhile()
            self.end_sessions()
            gone.set()
            return said.result().status

    def end_sessions(self):
        """The room is killed, and knows no session when it is started again (but those of a Wire)."""
        self.ended += 1
        self.served.kill()
        gates = "sid NOT LIKE '00000000%'"
        told = sqlite(self.served.db, f"UPDATE session SET open = 0 WHERE {gates}; DELETE FROM kept WHERE {gates};")
        assert told == ""
        self.served.start()


def laid(top, its):
    """A folder on the disk, with these files."""
    for at, data in its.items():
        path = os.path.join(top, at)
        put_file(path, data)
    return top


def rclone_of(desk, home):
    """rclone with these words, where R is ann's room. What it says."""
    obscure = ["rclone", "obscure", desk.passwords["ann"]]
    hidden = subprocess.run(obscure, capture_output=True, text=True, check=True).stdout.strip()
    its = {"TYPE": "webdav", "URL": desk.url(), "VENDOR": "other", "USER": "ann", "PASS": hidden}
    env = {**os.environ, "HOME": home, "RCLONE_CONFIG": os.path.join(home, "none"),
           **{f"RCLONE_CONFIG_R_{name}": it for name, it in its.items()}}

    def does(*words, good=True):
        done = subprocess.run(["rclone", *words], capture_output=True, text=True, timeout=900, env=env)
        assert (done.returncode == 0) == good, done.stdout + done.stderr
        return done.stdout + done.stderr
    return does


class Wire:
    """A user past gateway and front. (What a desk's client keeps on its disk takes longer than the room.)"""

    def __init__(self, served, user):
        self.served, self.user, self.number = served, user, 0
        self.sid = f"{sum(user.encode()):032x}"
        self.send(session(1, self.sid, user))

    def send(self, message):
        with contextlib.closing(self.served.line()) as line:
            return json.loads(line.ask(message).body)

    def ask(self, command):
        self.number += 1
        return self.send(slot(0, self.number, command, self.user, self.sid))


class Loser(Between):
    """Loses requests and answers, or cuts answers, by a seed."""

    def __init__(self, at, to, seed=1):
        self.random, self.lock = random.Random(seed), threading.Lock()
        self.lost, self.share = dict.fromkeys(("request", "answer", "cut"), 0), 0.0
        self.count = 0  # of requests that came
        self.meanwhile = None  # (which request, what happens before it is handed on)
        listener = socket.socket(socket.AF_UNIX)
        listener.bind(at)
        listener.listen(256)
        super().__init__(listener, to)

    def settle(self):
        self.meanwhile, self.share = None, 0.0
        vars(self).pop("fate", None)

    def fate(self, message):
        self.count += 1
        self._let_happen(message)
        with self.lock:
            draw = self.random.random()
            kind = next((kind for at, kind in enumerate(self.lost) if draw < self.share * (at + 1) / 3), "none")
            if kind != "none":
                self.lost[kind] += 1
            return kind

    def _let_happen(self, message):
        with self.lock:
            is_it, does = self.meanwhile or (lambda _: False, None)
            if not is_it(message):
                return
            self.meanwhile = None
        does()
