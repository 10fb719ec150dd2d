"""The gateway's way to the front: HTTP over its socket, as far as nginx answers so to a program of this machine.

`http.client` makes a message of each answer's fields, which takes more time than all else of a small request; here two
of them count. A connection is kept for whoever asks next, of any login: each request has its own with it.
"""
import base64
import contextlib
import re
import socket
import threading
import time
from collections import deque

from room_client.line import HELD, LONGEST_CONNECT, MOST, Answer, Lost, NotSent, reply_of
from room_client.settings import Settings, read_url

MOST_IDLE, LONGEST_IDLE = 32, 20.0  # connections, and seconds: the front closes one after 30
MOST_HEAD = 16384
STATUS = re.compile(rb"http/1\.1 ([2-5][0-9]{2}) ")
LENGTH = re.compile(rb"[0-9]{1,7}")


class Connections:
    """Those to the front over which nothing is under way. It is at a socket's path, or at HOST:PORT."""

    def __init__(self, front: str):
        self.front, self.mutex = front, threading.Lock()
        self.idle: deque[tuple[float, socket.socket]] = deque()

    def take(self, seconds: float) -> socket.socket:
        while (sock := self._idle()) is not None:
            if is_silent(sock):
                return sock
            sock.close()
        return self._opened(seconds)

    def _idle(self) -> socket.socket | None:
        """The one that was used last. (Those that nobody needed for long are closed.)"""
        with self.mutex:
            while self.idle and time.monotonic() - self.idle[0][0] > LONGEST_IDLE:
                self.idle.popleft()[1].close()
            return self.idle.pop()[1] if self.idle else None

    def _opened(self, seconds: float) -> socket.socket:
        if not self.front.startswith("/"):
            host, _, port = self.front.rpartition(":")
            return socket.create_connection((host, int(port)), seconds)
        sock = socket.socket(socket.AF_UNIX)
        try:
            sock.settimeout(seconds)
            sock.connect(self.front)
        except BaseException:
            sock.close()
            raise
        return sock

    def leave(self, sock: socket.socket) -> None:
        with self.mutex:
            if len(self.idle) < MOST_IDLE:
                self.idle.append((time.monotonic(), sock))
                return
        sock.close()


def is_silent(sock: socket.socket) -> bool:
    """Whether the front has neither closed it nor said anything."""
    try:
        sock.setblocking(False)
        sock.recv(1, socket.MSG_PEEK)
    except BlockingIOError:
        return True
    except OSError:
        pass
    return False


class FrontLine:
    """What `room_client.Line` is to the command `room`: one connection, while it is needed."""

    context = None  # (of TLS)
    away = contextlib.nullcontext  # (the floor's, once a seat has it)

    def __init__(self, connections: Connections, settings: Settings):
        pair = base64.b64encode(f"{settings.login}:{settings.password}".encode())
        self.fields = {"Host": "localhost", "Content-Type": "application/json",
                       "Authorization": f"Basic {pair.decode()}"}
        self.base, self.connections = read_url(settings.url)[0].path, connections
        self.sock: socket.socket | None = None
        self.text = b""  # of the last answer

    def open(self, seconds: float) -> None:
        """`seconds` are for the answer."""
        try:
            if self.sock is None:
                self.sock = self.connections.take(min(seconds, LONGEST_CONNECT))
            self.sock.settimeout(seconds)
        except OSError as fault:
            raise NotSent(fault.strerror or str(fault)) from None

    def ask(self, method: str, target: str, body: bytes) -> Answer:
        """What is answered to one request over the open connection, which is closed where that is not whole."""
        fields = "".join(f"{name}: {it}\r\n" for name, it in self.fields.items())
        head = f"{method} {self.base}{target} HTTP/1.1\r\n{fields}Content-Length: {len(body)}\r\n\r\n"
        try:
            self.sock.sendall(head.encode() + body)
            with self.away():
                first = self.sock.recv(MOST)
            status, told, self.text = whole(self.sock, first)
        except (OSError, ValueError) as fault:
            self.close()
            raise Lost(str(fault) or type(fault).__name__) from None
        except BaseException:
            self.close()
            raise
        if told.get(b"connection") == b"close":
            self.close()
        return Answer(status, reply_of(self.text), status == 429 and HELD.encode() in told)

    def leave(self) -> None:
        """Nothing is under way over it: it is for whoever asks next."""
        if self.sock is not None:
            sock, self.sock = self.sock, None
            self.connections.leave(sock)

    def close(self) -> None:
        if self.sock is not None:
            sock, self.sock = self.sock, None
            sock.close()

    def end(self) -> None:
        """Ends what is under way, from another thread: no answer comes."""
        sock = self.sock
        if sock is not None:
            with contextlib.suppress(OSError):
                sock.shutdown(socket.SHUT_RDWR)


def whole(sock: socket.socket, data: bytes) -> tuple[int, dict[bytes, bytes], bytes]:
    """The status, the fields (in small letters) and the body of an answer of which some is there."""
    while b"\r\n\r\n" not in data:
        if len(data) > MOST_HEAD:
            raise ValueError("an answer whose head has no end")
        data += more(sock)
    head, _, body = data.partition(b"\r\n\r\n")
    first, *lines = head.lower().split(b"\r\n")
    status, told = STATUS.match(first), dict(it.partition(b": ")[::2] for it in lines)
    length = LENGTH.fullmatch(told.get(b"content-length", b""))
    if not status or not length or int(length[0]) > MOST:
        raise ValueError("an answer that is too long, or does not tell its length")
    parts, left = [body], int(length[0]) - len(body)
    while left > 0:
        parts.append(more(sock))
        left -= len(parts[-1])
    if left < 0:
        raise ValueError("more than an answer")
    return int(status[1]), told, b"".join(parts)


def more(sock: socket.socket) -> bytes:
    data = sock.recv(MOST)
    if not data:
        raise ValueError("the answer is cut short")
    return data
