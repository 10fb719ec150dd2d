"""What the tests of the client share: a served room, the command as a process, and a front that loses answers."""
import base64
import contextlib
import http.client
import http.server
import io
import itertools
import json
import os
import random
import subprocess
import sys
import threading
import types
from unittest import mock

from room_client import Room, Settings, manifest
from room_client.command import main
from served import HERE, Room as Served, end_with_parent

CLIENT = os.path.join(HERE, "..", "client")
COMMAND = os.path.join(CLIENT, "room")
PREFIX = "/rooms/plans"
GROUPS = {"ann": ["eng"], "bob": ["eng", "staff"], "eng": []}  # as served.ROSTER
PASSWORDS = {"ann": "a secret: of ann", "bob": "bob's"}
LOOKS = "STAT", "LIST", "READ", "GETLIST", "ACCESS"
STOPPED = 9  # status of a child that ended at a step
VIEW, CHANGE, ALL = 0x1200A9, 0x1301EF, 0x1F07FF
EVERYBODY = {"flag": 3, "mask": ALL, "type": 0, "who": "EVERYONE@"}


def some(size, seed):
    return random.Random(seed).randbytes(size)


def is_pending(path, *signs):
    """Whether a request with these signs is on record in a state file."""
    with contextlib.suppress(FileNotFoundError), open(path, encoding="utf-8") as file:
        pending = json.load(file)["pending"]
        return pending is not None and all(it in pending for it in signs)
    return False


class Desk:
    """A room of ann and eng, served, and a folder for files. `ends` takes what ends with the test."""

    def __init__(self, folder, ends):
        self.folder, self.ends, self.served = folder, ends, Served(folder).start()
        ends.callback(lambda: self.served.kill())

    @property
    def url(self):
        return f"http://127.0.0.1:{self.served.port}"

    def settings(self, user="ann", **how):
        its = {"url": self.url, "room_user": user, "state": self.path(f"{user}.json"), "patience": 20}
        return Settings(**its | how)

    def path(self, name):
        return os.path.join(self.folder, name)

    def file(self, name, data, mode=0o644):
        os.makedirs(os.path.dirname(self.path(name)), exist_ok=True)
        with open(self.path(name), "wb") as file:
            os.fchmod(file.fileno(), mode)
            file.write(data)
        return self.path(name)

    def read(self, name):
        with open(self.path(name), "rb") as file:
            return file.read()

    def room(self, user="ann", say=lambda _: None, **how):
        return Room(self.settings(user, **how), say)

    def other(self, user="ann"):
        """The room as another client of this user has it."""
        return self.room(user, state=self.path("other"))

    def words_of(self, user):
        return ["--url", self.url, "--room-user", user, "--state", self.path(f"{user}.json"), "--patience", "20"]

    def environment(self):
        return {it: os.environ[it] for it in os.environ if not it.startswith("ROOM_")} | {"HOME": self.folder}

    def start(self, *words, user="ann"):
        """The command as a process with clean settings."""
        pipes = {it: subprocess.PIPE for it in ("stdin", "stdout", "stderr")}
        line = [sys.executable, "-B", COMMAND, *self.words_of(user), *words]
        child = subprocess.Popen(line, env=self.environment(), preexec_fn=end_with_parent, cwd=self.folder, **pipes)
        self.ends.callback(end, child)
        return child

    def does(self, *words, user="ann", flags=(), stdin=b"", own_settings=True):
        """The status, the output and the faults of a command, in this process, which is sooner."""
        line = [*(self.words_of(user) if own_settings else []), *flags, *map(os.fsdecode, words)]
        streams = [io.TextIOWrapper(io.BytesIO(it), encoding="utf-8", newline="") for it in (stdin, b"", b"")]
        names = dict(zip(("stdin", "stdout", "stderr"), streams))
        with (contextlib.chdir(self.folder), mock.patch.dict(os.environ, self.environment(), clear=True),
              mock.patch.multiple(sys, **names)):
            try:
                status = main(line)
            except SystemExit as end_of_words:
                status = end_of_words.code
            for it in streams[1:]:
                it.flush()
        return status, *(it.buffer.getvalue().decode() for it in streams[1:])

    def prints(self, *words, want, **how):
        assert self.does(*words, **how) == (0, want, "")

    def refuses(self, *words, status=1, want, **how):
        assert self.does(*words, **how) == (status, "", f"room: {want}\n")


class FrontDesk(Desk):
    """Its commands go through a front, and so over several slots at once; `room` is straight at the port."""

    def __init__(self, folder, ends):
        super().__init__(folder, ends)
        self.front = its = FrontServer(("127.0.0.1", 0), Front)
        its.room, its.faults, its.lost, its.passed = self.served, [], None, 0
        its.held, its.is_held = threading.Event(), False
        self.front_url = f"http://127.0.0.1:{its.server_address[1]}{PREFIX}"
        thread = threading.Thread(target=its.serve_forever, kwargs={"poll_interval": 0.02}, daemon=True)
        thread.start()
        for it in thread.join, its.server_close, its.shutdown, its.held.set:
            ends.callback(it)
        self.file("secret", PASSWORDS["ann"].encode(), 0o600)

    def words_of(self, user):
        return ["--url", self.front_url, "--login", user, "--password-file", self.path("secret"),
                "--state", self.path("front.json"), "--patience", "20"]

    def behind(self, say=lambda _: None, **how):
        settings = {"url": self.front_url, "room_user": None, "login": "ann", "password": PASSWORDS["ann"]}
        return self.room(say=say, **settings | {"state": self.path("behind.json")} | how)

    @contextlib.contextmanager
    def losing(self, word, fault="lose"):
        """The first request with this word has this fault, and no later one gets an answer: patience ends by tries."""
        self.front.lost = word.encode(), fault
        with clock_of_looks():
            yield
        assert self.front.lost is None, f"nobody asked for {word}"
        del self.front.faults[:]

    def need_tidy(self, room, path):
        """That a file has its pieces and its manifest, and besides one spare at most, without bytes."""
        names = room.children(path)
        gone = [it for it in names if it.startswith(manifest.GONE)]
        assert parts(names) == [".room-gone"] * len(gone[:1]) + [".room-pieces"]
        sizes = {room.stat(f"{path}/{it}/{one}")["size"] for it in gone for one in room.children(f"{path}/{it}")}
        assert sizes <= {0}


def parts(names):
    """What a file's folder has in it but its manifest, by kind."""
    return sorted(it.rpartition("-")[0] for it in names if it != manifest.NAME)


@contextlib.contextmanager
def clock_of_looks():
    """A second goes by with each look at the clock, and nobody pauses: so patience ends by tries, however slow this
    machine is."""
    clock = types.SimpleNamespace(monotonic=itertools.count().__next__, sleep=lambda _: None)
    with mock.patch("room_client.slots.time", clock):
        yield


def before_first(of, name, does):
    """Has `does` happen before the first call of this."""
    left, call = [does], getattr(of, name)

    def around(*words, **how):
        if left:
            left.pop()()
        return call(*words, **how)
    return mock.patch.object(of, name, around)


def in_child(does):
    """The status of a child of this process: 0 where it does all."""
    pid = os.fork()
    if pid == 0:
        end_with_parent()
        status = 1
        with contextlib.suppress(BaseException):
            does()
            status = 0
        os._exit(status)
    return os.waitstatus_to_exitcode(os.waitpid(pid, 0)[1])


def steps_to(stop_at, steps):
    """In a child: puts a step before each of these calls, and behind it where that is said, and ends at step `stop_at`.
    Returns the step, for others to be put in."""
    left = itertools.count() if stop_at is None else iter(range(stop_at, -1, -1))

    def step():
        if next(left) == 0 and stop_at is not None:
            os._exit(STOPPED)

    def stepped(call, is_behind):
        def around(*words):
            step()
            found = call(*words)
            if is_behind:
                step()
            return found
        return around

    for of, name, is_behind in steps:
        setattr(of, name, stepped(getattr(of, name), is_behind))
    return step


def end(child):
    child.kill()
    child.wait()
    for pipe in (child.stdin, child.stdout, child.stderr):
        if pipe:
            pipe.close()


class Front(http.server.BaseHTTPRequestHandler):
    """As the front of docs/RUNNING.md: it asks for a password, and sets room-user. `server.faults` says what it does
    with the next requests: pass, lose (the answer), cut (the answer), drop (the request), hold (until `server.held` is
    set, and then pass), held (the login is, for the day), or a status of its own. While `server.is_held` it lets looks
    pass alone."""

    protocol_version = "HTTP/1.1"

    def do_POST(self):
        body = self.rfile.read(int(self.headers["content-length"] or 0))
        user = self.user()
        if self.server.lost and self.server.lost[0] in body:
            self.server.faults[:], self.server.lost = [self.server.lost[1], *[504] * 99], None
        fault = self.server.faults.pop(0) if self.server.faults else "pass"
        if fault == "drop":
            self.close_connection = True
        elif user is None or not self.path.startswith(PREFIX):
            self.answer(401 if user is None else 404, b"<html>no</html>")
        elif fault == "held" or self.server.is_held and json.loads(body).get("cmd", "STAT") not in LOOKS:
            self.answer(429, b"held", "room-held")
        elif isinstance(fault, int):
            self.answer(fault, b"<html>busy</html>")
        else:
            self.pass_on(user, body, fault)

    do_DELETE = do_POST

    def do_GET(self):
        """The roster, as the page has it."""
        is_it = self.user() is not None and self.path == f"{PREFIX}.users.json"
        self.answer(200 if is_it else 404, json.dumps(GROUPS).encode() if is_it else b"<html>no</html>")

    def user(self):
        kind, _, pair = self.headers.get("authorization", "").partition(" ")
        name, _, password = base64.b64decode(pair).decode().partition(":")
        return name if kind == "Basic" and PASSWORDS.get(name) == password else None

    def pass_on(self, user, body, fault):
        if fault == "hold":
            self.server.held.wait()
        try:
            room = http.client.HTTPConnection("127.0.0.1", self.server.room.port, timeout=20)
            room.request(self.command, self.path.removeprefix(PREFIX), body, {"room-user": user, "connection": "close"})
            answer = room.getresponse()
            status, text = answer.status, answer.read()
        except (OSError, http.client.HTTPException):
            return self.answer(502, b"<html>no room</html>")
        finally:
            room.close()
        self.server.passed += 1
        if fault in ("pass", "hold"):
            return self.answer(status, text)
        self.close_connection = True
        if fault == "cut":
            self.wfile.write(b"HTTP/1.1 200 OK\r\ncontent-length: %d\r\n\r\n%s" % (len(text), text[:-1]))

    def answer(self, status, text, *fields):
        self.send_response(status)
        for it in fields:
            self.send_header(it, "1")
        self.send_header("content-length", str(len(text)))
        self.end_headers()
        self.wfile.write(text)

    def log_message(self, *_):
        pass


class FrontServer(http.server.ThreadingHTTPServer):
    daemon_threads = True

    def handle_error(self, *_):
        pass  # (a client that was killed)
