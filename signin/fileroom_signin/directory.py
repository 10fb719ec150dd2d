"""The directory: a login is right where it lets its user bind, by TLS (LDAP, RFC 4511).

Two requests of that protocol are spoken here, STARTTLS and a simple bind. All of a question has one end by the clock,
whatever a server sends, and how slowly: who waits for it holds a place that others wait for.
"""
import contextlib
import datetime
import socket
import ssl
import time
import tomllib
from collections.abc import Iterator
from urllib.parse import urlsplit

TIMEOUT = 3  # seconds for a server, from its name's addresses to its answer
IN_ALL = 12  # seconds for all servers: nginx waits a little longer
PORTS = {"ldap": 389, "ldaps": 636}
LARGEST = 1 << 16  # bytes of an answer
RIGHT, WRONG = 0, 49  # codes of a bind (section 4.1.9)
QUIET = 10  # seconds in which a fault is told once: strangers can ask for many

# Kinds of the parts of a message (sections 4 and 5.1).
INTEGER, TEXT, ENUMERATED, SEQUENCE = 0x02, 0x04, 0x0A, 0x30
BIND, BIND_ANSWER, UNBIND, EXTENDED, EXTENDED_ANSWER = 0x60, 0x61, 0x42, 0x77, 0x78
PASSWORD = OID = 0x80
STARTTLS = b"1.3.6.1.4.1.1466.20037"


class Down(Exception):
    """The directory gave no answer. `may_count`: it may have got the password, and have counted it as a wrong one."""

    def __init__(self, words: str, may_count: bool = False):
        super().__init__(words)
        self.may_count = may_count


class Odd(OSError):
    """What a server sent is no answer to what it was asked."""


def conf_of(path: str) -> dict:
    """What `fileroom-admin signin on` wrote: `servers`, `binds` with {} for the name, and `ca`, the text of a PEM."""
    with open(path, "rb") as file:
        return tomllib.load(file)


def part(kind: int, its: bytes) -> bytes:
    """A part of a message, less than 64 KiB long."""
    size = len(its)
    return bytes([kind]) + (bytes([size]) if size < 128 else b"\x82" + size.to_bytes(2, "big")) + its


def first(data: bytes) -> tuple[int, bytes, bytes]:
    """Kind and contents of the first part, and what stands behind it. IndexError: there is none."""
    at, size = 2, data[1]
    if size > 127:
        at += size - 128
        size = int.from_bytes(data[2:at], "big")
    if len(data) < at + size:
        raise IndexError("it is cut")
    return data[0], data[at:at + size], data[at + size:]


class Line:
    """A connection to a server, by TLS, that lasts until `end`. (A password goes to no other server that this one
    names.)"""

    def __init__(self, url: str, tls: ssl.SSLContext, end: float):
        its, self.name, self.end, self.number = urlsplit(url), url, end, 0
        self.socket = self.connected(its.hostname, its.port)
        try:
            if its.scheme == "ldap":
                self.start_tls()
            self.socket.settimeout(self.left())
            self.socket = tls.wrap_socket(self.socket, server_hostname=its.hostname)
        except BaseException:
            self.socket.close()
            raise

    def left(self) -> float:
        left = self.end - time.monotonic()
        if left <= 0:
            raise TimeoutError("no answer in time")
        return left

    def connected(self, host: str, port: int) -> socket.socket:
        """(Of many addresses each has its part of the time.)"""
        self.left()
        addresses = dict.fromkeys(it[4][:2] for it in socket.getaddrinfo(host, port, type=socket.SOCK_STREAM))
        for count, address in zip(range(len(addresses), 0, -1), addresses):
            try:
                return socket.create_connection(address, self.left() / count)
            except OSError as failed:
                fault = failed
        raise fault

    def start_tls(self) -> None:
        code = self.code(part(EXTENDED, part(OID, STARTTLS)), EXTENDED_ANSWER)
        if code != RIGHT:
            raise Odd(f"it speaks no TLS: code {code}")

    def binds(self, name: str, word: str) -> int:
        """The code of its answer. (A password goes as the bytes that came: a directory compares these.)"""
        its = part(INTEGER, b"\3") + part(TEXT, name.encode()) + part(PASSWORD, word.encode())
        return self.code(part(BIND, its), BIND_ANSWER)

    def code(self, asked: bytes, kind: int) -> int:
        """What a request is answered with, by an answer of this kind."""
        self.send(asked)
        try:
            _, number, its = first(self.message())
            got, its, _ = first(its)
            is_code, code, _ = first(its)
        except IndexError:
            raise Odd("its answer is cut") from None
        if (int.from_bytes(number, "big"), got, is_code, len(code)) != (self.number, kind, ENUMERATED, 1):
            raise Odd("it answers something else")
        return code[0]

    def send(self, asked: bytes) -> None:
        self.number += 1
        self.socket.settimeout(self.left())
        self.socket.sendall(part(SEQUENCE, part(INTEGER, bytes([self.number])) + asked))

    def message(self) -> bytes:
        """The contents of the next one, and not a byte of what follows: behind STARTTLS that is TLS."""
        kind, size = self.read(2)
        if size > 127:
            size = int.from_bytes(self.read(size - 128), "big")
        if kind != SEQUENCE or size > LARGEST:
            raise Odd("it speaks no LDAP")
        return self.read(size)

    def read(self, count: int) -> bytes:
        data = b""
        while len(data) < count:
            self.socket.settimeout(self.left())
            more = self.socket.recv(count - len(data))
            if not more:
                raise Odd("it ended the connection")
            data += more
        return data

    def close(self) -> None:
        with self.socket, contextlib.suppress(OSError):
            self.send(part(UNBIND, b""))


class Directory:
    def __init__(self, conf: dict, tell=print):
        self.tls = ssl.SSLContext(ssl.PROTOCOL_TLS_CLIENT)
        if "ca" in conf:
            self.tls.load_verify_locations(cadata=conf["ca"])
        else:
            self.tls.load_default_certs()
        self.servers = [with_port(it) for it in conf["servers"]]
        self.binds, self.patience, self.tell, self.told = conf["binds"], conf.get("timeout", TIMEOUT), tell, {}

    def is_right(self, user: str, word: str) -> bool:
        with self.answering() as line:
            return any(self.lets_in(line, it.replace("{}", user), word) for it in self.binds)

    @contextlib.contextmanager
    def answering(self) -> Iterator[Line]:
        """A line to the first server that answers."""
        end = time.monotonic() + IN_ALL
        for name in self.servers:
            try:
                line = Line(name, self.tls, min(end, time.monotonic() + self.patience))
            except (OSError, ValueError) as fault:
                self.note(f"{name}: {words_of(fault)}")
                continue
            with contextlib.closing(line):
                yield line
            return
        raise Down("no server of the directory answers")

    def lets_in(self, line: Line, name: str, word: str) -> bool:
        try:
            code = line.binds(name, word)
        except OSError as fault:
            raise Down(f"{line.name}: {words_of(fault)}", may_count=True) from None
        if code not in (RIGHT, WRONG):
            raise Down(f"{line.name}: neither yes nor no, but code {code}")
        return code == RIGHT

    def note(self, words: str) -> None:
        now = time.monotonic()
        if self.told.get(words, 0) < now:
            self.told = {words: now + QUIET, **{it: end for it, end in self.told.items() if end > now}}
            self.tell(words)

    def looks(self) -> Iterator[tuple[str, str, int | None]]:
        """Of each server its name, what is wrong with it, and how many days its certificate lasts."""
        for name in self.servers:
            try:
                line = Line(name, self.tls, time.monotonic() + self.patience)
            except (OSError, ValueError) as fault:
                yield name, words_of(fault), None
                continue
            with contextlib.closing(line):
                ends = ssl.cert_time_to_seconds(line.socket.getpeercert()["notAfter"])
                yield name, "", datetime.timedelta(seconds=ends - time.time()).days


def with_port(url: str) -> str:
    its = urlsplit(url)
    return url if its.port else f"{url}:{PORTS[its.scheme]}"


def words_of(fault: Exception) -> str:
    return " ".join(str(fault).split()) or type(fault).__name__
