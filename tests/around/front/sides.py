"""The two sides of a front: who calls it, and who stands behind it in the place of a room or of the gateway."""
import contextlib
import itertools
import os
import socket
import socketserver
import threading
import time
from concurrent.futures import ThreadPoolExecutor

from nginx import login
from served import Line, message, whole

OPEN_AT_ONCE = 16  # requests of one login at one address
BURST = 200  # requests of one login that come at once
MANY = 1000  # of which the front is to refuse one, however slow this machine is
SOON = 120  # seconds for what nobody holds back, on a slow machine
LEAST = 1.8  # seconds that a wrong login is not answered: two, by nginx's own clock, which a loaded machine holds back
ROOM = "/rooms/plans"
SESSION = f"/v1/sessions/{'0' * 32}"
SLOT = f"{ROOM}{SESSION}/slots/0/"
CHECK = f"{ROOM}/v1/check"


class Asked(socketserver.StreamRequestHandler):
    """One connection, with one request."""

    def handle(self):
        self.server.came.append(time.monotonic())
        with contextlib.suppress(OSError):
            head = [it.decode("latin-1").rstrip("\r\n") for it in itertools.takewhile(b"\r\n".__ne__, self.rfile)]
            told = dict(it.lower().partition(": ")[::2] for it in head[1:])
            self.server.got.append((head, self.rfile.read(int(told.get("content-length", 0)))))
            self.server.may.wait()
            self.wfile.write(self.server.said)


class Peer(socketserver.ThreadingTCPServer):
    """Keeps what comes to a port, or to the socket of a path, and answers `said` to each, once it may."""
    daemon_threads, request_queue_size = True, 128

    def __init__(self, at=None):
        self.address_family = socket.AF_UNIX if at else socket.AF_INET
        super().__init__(at or ("127.0.0.1", 0), Asked)
        self.at = at or self.server_address[1]
        self.came, self.got, self.may = [], [], threading.Event()  # when each connection came, each head and body
        self.said = whole(b'{"code":0}')
        self.may.set()


@contextlib.contextmanager
def standing(at=None):
    with Peer(at) as peer:
        threading.Thread(target=peer.serve_forever, args=(0.05,), daemon=True).start()
        yield peer
        peer.may.set()
        peer.shutdown()


def at_once(count, task):
    """The results of so many calls that run beside each other."""
    with ThreadPoolExecutor(count) as pool:
        return list(pool.map(task, range(count)))


def until_too_many(once):
    """The statuses of one request after another, until one is told to come again, or many were not."""
    found = []
    while len(found) < MANY and found[-1:] != [429]:
        found.append(once(len(found)))
    return found


def sent_at_once(front, asked, count, source="127.0.0.1"):
    """The statuses of a message that is sent so often at once, over one connection."""
    with contextlib.closing(Line(front.port, source)) as line:
        threading.Thread(target=line.send, args=(asked * count,), daemon=True).start()
        answers = [line.answer() for _ in range(count)]
        return [it and it.status for it in answers]


def begun(front, user, number=0, source="127.0.0.1", body=b'{"cmd":"MKDIR","path":"/a"}'):
    """A connection on which a change is asked for."""
    line = Line(front.port, source)
    line.send(message(None, "POST", f"{SLOT}{number}", body, fields=front.fields(user)))
    return line


def begun_by_dav(front, user, number=0, source="127.0.0.1", length=0):
    """A connection on which WebDAV is spoken, with fields of which the front has its own. A body does not come."""
    own = ["room-user: u02", "room-queue: plans", "room-kind: gateway", "dav-room: x", "destination: http://a/"]
    head = message(None, "PUT" if length else "GET", "/dav/plans/a%20b", fields=[*front.fields(user), *own])
    line = Line(front.port, source)
    line.send(head.replace(b"content-length: 0\r\n", b"content-length: %d\r\n" % length if length else b""))
    return line


def said_long(front, target, length, more, source="127.0.0.1"):
    """The status for who says that a body of this length comes, or one in pieces (None)."""
    told = "transfer-encoding: chunked" if length is None else f"content-length: {length}"
    head = message(None, "POST", target, fields=front.fields(None, more))
    with contextlib.closing(Line(front.port, source)) as line:
        got = line.ask(head.replace(b"content-length: 0", told.encode()))
        return got and got.status


def wrong(user):
    return login(user, "no")


def values(got, names):
    """The values of each of these fields of an answer."""
    fields = [it.partition(": ")[::2] for it in got.fields]
    return {name: [value for it, value in fields if it.lower() == name] for name in names}


def log_of(front, name="changes.log"):
    return os.path.join(front.folder, "work", name)
