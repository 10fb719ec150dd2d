"""One connection to a room or the front before it, and what one request over it comes to."""
import base64
import contextlib
import http.client
import json
import os
import socket
import ssl
import time
from dataclasses import dataclass

from .faults import LocalFault, NoAnswer, reading
from .settings import Settings, read_url
from .words import shown

MOST = 1 << 20  # bytes of an answer; a room's have at most some 90,000
MOST_OF_HEAD = 1 << 16  # and of its head, at a room's socket
OTHER_NAME = (62, 64)  # of OpenSSL's codes: the certificate is for another name, or another address
EXPIRED = 10
NO_TLS = ("HTTP_REQUEST", "WRONG_VERSION_NUMBER")
NO_SUCH_NAME = "its host's name is not found"
TRY_AGAIN = (408, 429, 500, 502, 503, 504)
HELD = "room-held"  # a field of a 429, where not the request is too much but the day's
# Seconds, and tries: so that an address at which nobody is any more does not take all of the patience.
LONGEST_CONNECT = 5.0
ASK_WHETHER_ALIVE = {"TCP_KEEPIDLE": 5, "TCP_KEEPINTVL": 5, "TCP_KEEPCNT": 2}


class NotSent(Exception):
    """No connection could be made, so the request did not go out."""


class Lost(Exception):
    """The request may have gone out, and no whole answer came."""


class TooLong(Lost):
    """The answer is longer than any of a room's."""


@dataclass(frozen=True)
class Answer:
    status: int
    reply: dict | None  # what the room said; None where something else answered
    is_held: bool = False  # the front lets nothing of this login but looks through, today

    @property
    def is_later(self) -> bool:
        """Whether the same request is to be sent again, later."""
        return self.status in TRY_AGAIN and not self.is_held

    @property
    def is_done(self) -> bool:
        """Whether the request was done in its slot, or refused there by its command."""
        return self.status == 200 and self.reply is not None

    @property
    def is_refused(self) -> bool:
        """Whether nothing came of the request: the room refused it as a message, or the front did not let it pass."""
        return 300 <= self.status < 500 and not self.is_later


def reply_of(body: bytes) -> dict | None:
    try:
        reply = json.loads(body)
    except (ValueError, RecursionError):
        return None
    return reply if isinstance(reply, dict) and isinstance(reply.get("code"), int) else None


def trusting(ca_file: str | None) -> ssl.SSLContext:
    """Trusts the authorities of a file, or those of this machine."""
    if ca_file is None:
        return ssl.create_default_context()
    with reading(ca_file):
        try:
            return ssl.create_default_context(cafile=os.path.expanduser(ca_file))
        except ssl.SSLError:
            raise LocalFault(f"{shown(ca_file)} has no certificate in it (PEM): correct ca-file") from None


def untrusted(fault: ssl.SSLError, host: str) -> str | None:
    """What to do where TLS failed for good, or None where it may do later."""
    if isinstance(fault, ssl.SSLCertVerificationError):
        why = fault.verify_message.rstrip(".")
        if fault.verify_code in OTHER_NAME:
            return f"its certificate is for another name ({why}): write the name that it is for into the URL"
        if fault.verify_code == EXPIRED:
            return "its certificate has expired: tell who runs the room, if the clock of this machine is right"
        return (f"its certificate is not trusted ({why}): where the room has an authority of its own, ask who runs it "
                "for its certificate, and name that by ca-file; else do not go on")
    return f"{host} speaks no TLS there: ask who runs the room for its address" if fault.reason in NO_TLS else None


class Bounded(socket.socket):
    """One whose answer has these seconds, however slowly its bytes come, and so many bytes."""

    def settimeout(self, seconds: float) -> None:
        self.end, self.most = time.monotonic() + seconds, MOST + MOST_OF_HEAD
        super().settimeout(seconds)

    def recv_into(self, *words) -> int:
        left = self.end - time.monotonic()
        if left <= 0 or self.most <= 0:
            raise TimeoutError
        super().settimeout(left)
        count = super().recv_into(*words)
        self.most -= count
        return count


class ToSocket(http.client.HTTPConnection):
    """To a room's socket on its own machine. What answers there may be no room."""

    def __init__(self, path: str):
        super().__init__("localhost")
        self.path = path

    def connect(self) -> None:
        self.sock = Bounded(socket.AF_UNIX)
        self.sock.settimeout(self.timeout)
        self.sock.connect(self.path)


class Line:
    """Opened when it is first needed, and again after a fault. A room serves one connection after another, so an open
    one holds others back: close it before a wait. `path` is a room's socket on this machine, in the place of the URL.
    """

    def __init__(self, settings: Settings, context: ssl.SSLContext | None = None, path: str | None = None):
        parts, port = read_url(settings.url)
        self.url, self.base = settings.url, parts.path.rstrip("/")
        self.context = context
        if path:
            self.connection = ToSocket(path)
        elif parts.scheme == "https":
            self.context = context or trusting(settings.ca_file)
            self.connection = http.client.HTTPSConnection(parts.hostname, port, context=self.context)
        else:
            self.connection = http.client.HTTPConnection(parts.hostname, port)
        self.fields, self.is_held = {"content-type": "application/json"}, False
        if settings.room_user is not None:
            self.fields["room-user"] = settings.room_user
        if settings.login is not None:
            pair = base64.b64encode(f"{settings.login}:{settings.password}".encode(errors="surrogateescape"))
            self.fields["authorization"] = f"Basic {pair.decode()}"

    def open(self, seconds: float) -> None:
        """`seconds` are for the answer."""
        if not self.connection.sock:
            self._connect(min(seconds, LONGEST_CONNECT))
        self.connection.sock.settimeout(seconds)

    def _connect(self, seconds: float) -> None:
        self.connection.timeout = seconds
        try:
            self.connection.connect()
        except socket.gaierror:
            self.close()
            raise NotSent(NO_SUCH_NAME) from None
        except OSError as fault:
            self.close()
            told = untrusted(fault, self.connection.host) if isinstance(fault, ssl.SSLError) else None
            if told:
                raise NoAnswer(f"{self.url}: {told}") from None
            raise NotSent(fault.strerror or str(fault)) from None
        if self.connection.sock.family != socket.AF_UNIX:
            self._watch(self.connection.sock)

    @staticmethod
    def _watch(sock: socket.socket) -> None:
        """Has the system notice where nobody is at the other end any more."""
        sock.setsockopt(socket.SOL_SOCKET, socket.SO_KEEPALIVE, 1)
        for name in ASK_WHETHER_ALIVE.keys() & vars(socket):
            sock.setsockopt(socket.IPPROTO_TCP, getattr(socket, name), ASK_WHETHER_ALIVE[name])

    def ask(self, method: str, target: str, body: bytes) -> Answer:
        """What is answered to one request over the open connection."""
        status, text = self._answered(method, target, body)
        return Answer(status, reply_of(text), self.is_held)

    def fetch(self, target: str, seconds: float) -> bytes | None:
        """A file there, or None."""
        try:
            self.open(seconds)
            status, text = self._answered("GET", target, b"")
        except (Lost, NotSent):
            return None
        return text if status == 200 else None

    def _answered(self, method: str, target: str, body: bytes) -> tuple[int, bytes]:
        try:
            self.connection.request(method, self.base + target, body, self.fields)
            response = self.connection.getresponse()
            if (response.length or 0) > MOST:
                raise TooLong("an answer that is too long")
            self.is_held = response.status == 429 and response.getheader(HELD) is not None
            return response.status, response.read()
        except (OSError, http.client.HTTPException) as fault:
            self.close()
            raise Lost(str(fault) or type(fault).__name__) from None
        except BaseException:  # (an answer that is too long, too)
            self.close()
            raise

    def end(self) -> None:
        """Ends what is under way, from another thread: no answer comes."""
        sock = self.connection.sock
        if sock:
            with contextlib.suppress(OSError):
                sock.shutdown(socket.SHUT_RDWR)

    def close(self) -> None:
        self.connection.close()
