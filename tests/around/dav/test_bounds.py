"""What one login holds of the gateway: memory, threads, answers that it does not read; and that others are served
meanwhile. What parts of a file cost."""
import contextlib
import os
import signal
import socket
import threading
import time
from concurrent.futures import ThreadPoolExecutor
from unittest import mock

import gateway
import pytest
from fileroom_dav import bodies, props, spool, tree, turns
from idle import need_places
from nginx import login
from room_client import files
from room_client.reading import manifest_in
from served import WAIT, until

from . import desk as shared
from .desk import PIECE, has, tag_of

USERS = "ann", "bob", "cat", "dan"
HOW = {"roster": shared.ROSTER + 'dan = ["eng"]\n', "passwords": {it: f"{it}-word" for it in USERS},
       "patience": WAIT}
LARGE = 8 << 20


def memory_of(pid, kind="RssAnon"):
    """Bytes that a process has to itself. (Pages of files that it maps are the system's to take away: RssFile.)"""
    with contextlib.suppress(OSError, StopIteration), open(f"/proc/{pid}/status") as file:
        return next(int(line.split()[1]) << 10 for line in file if line.startswith(f"{kind}:"))
    return 0


def open_files(pid):
    """(But where it says something, which these tests give it.)"""
    for it in {*os.listdir(f"/proc/{pid}/fd")} - {"0", "1", "2"}:
        with contextlib.suppress(OSError):
            yield os.readlink(f"/proc/{pid}/fd/{it}")


def spools(desk):
    """Where the gateway's files without a name lie. (The /tmp of a machine may be its memory.)"""
    return {os.path.dirname(it) for it in open_files(desk.gateway.pid) if it.endswith(" (deleted)")}


@pytest.fixture
def most(desk):
    """The most memory that the gateway has held since."""
    before, held, ends = memory_of(desk.gateway.pid), [], threading.Event()

    def looks():
        while not ends.wait(0.02):
            held.append(memory_of(desk.gateway.pid))
    one = threading.Thread(target=looks)
    one.start()
    yield lambda: max(held) - before
    ends.set()
    one.join()


def test_large_files_take_little_memory(desk, most):
    """One up, one copied, two down at once: not even one of them is in memory as a whole."""
    desk.does("ann", "PUT", "/warm", 201, os.urandom(1 << 20))
    data = os.urandom(LARGE)
    desk.does("ann", "PUT", "/large", 201, data)
    desk.does("ann", "COPY", "/large", 201, to="/copy")
    with ThreadPoolExecutor(2) as crew:
        for got in crew.map(lambda path: desk.get("ann", path), ["/large", "/copy"]):
            assert got == data
    assert most() < LARGE


def begins(lines, kind, at, path):
    """The status of a GET whose body nobody reads."""
    line = lines.enter_context(socket.socket(kind))
    line.setsockopt(socket.SOL_SOCKET, socket.SO_RCVBUF, 4096)
    line.settimeout(WAIT)
    line.connect(at)
    line.sendall((f"GET /dav/plans{path} HTTP/1.1\r\nHost: x\r\nConnection: close\r\n"
                  f"{login('ann', 'ann-word')}\r\n\r\n").encode())
    return line.recv(64)[9:12]


def test_what_nobody_reads(desk):
    """It stays in the gateway's files, of each login in a few, and nginx has none of its own."""
    desk.does("ann", "PUT", "/unread", 201, os.urandom(LARGE))
    desk.does("ann", "PUT", "/small", 201, os.urandom(1 << 20))
    with contextlib.ExitStack() as lines:
        assert begins(lines, socket.AF_INET, ("127.0.0.1", desk.front.port), "/unread") == b"200"
        time.sleep(1)
        assert [it for it in open_files(desk.front.server.pid) if "/work/proxy/" in it] == []
    assert until(lambda: desk.ask("ann", "HEAD", "/small").status == 200, pause=0.1)
    with contextlib.ExitStack() as lines:
        said = [begins(lines, socket.AF_UNIX, desk.path("gate.sock"), "/small") for _ in range(turns.MOST_UNREAD + 1)]
        assert said == [b"200"] * turns.MOST_UNREAD + [b"503"]
        assert spools(desk) == {desk.path("state")}
        desk.does("ann", "GET", "/small", 503)
        desk.does("bob", "PROPFIND", "/dav/", 207, raw=True, Depth="0")
    assert until(lambda: desk.ask("ann", "HEAD", "/small").status == 200, pause=0.1)


@pytest.fixture
def mapped(desk):
    """How much more of its files the gateway has in memory now."""
    desk.ask("ann", "PUT", "/mapped", os.urandom(LARGE // 4))
    desk.does("ann", "GET", "/mapped", 200)
    before = memory_of(desk.gateway.pid, "RssFile")
    return lambda: memory_of(desk.gateway.pid, "RssFile") - before


def test_what_nobody_reads_is_in_no_memory(desk, mapped):
    with contextlib.ExitStack() as lines:
        said = [begins(lines, socket.AF_UNIX, desk.path("gate.sock"), "/mapped") for _ in range(turns.MOST_UNREAD)]
        assert said == [b"200"] * turns.MOST_UNREAD
        assert mapped() < LARGE // 2
    assert until(lambda: desk.ask("ann", "HEAD", "/mapped").status == 200, pause=0.1)


def test_what_is_sent_is_in_no_memory(desk, mapped):
    """While its pieces go on to the room."""
    found, lies = [], []
    with desk.before(has('"data"', ".room-writing-"), lambda: (found.append(mapped()), lies.append(spools(desk)))):
        desk.does("ann", "PUT", "/sent", 201, os.urandom(LARGE))
    assert [it for it in found if it > LARGE // 2] == [] != found
    assert lies[0] == {desk.path("state")}


def test_threads_for_others(desk):
    """While the room answers nobody, three logins hold a part of the threads, and others get one at once."""
    desk.does("ann", "PUT", "/it", 201, b"x")
    desk.does("bob", "PROPFIND", "/dav/", 207, raw=True, Depth="0")
    desk.served.server.send_signal(signal.SIGSTOP)
    try:
        with ThreadPoolExecutor(48) as crew:
            held = [crew.submit(desk.ask, user, "GET", "/it") for user in ("ann", "cat", "dan") for _ in range(16)]
            time.sleep(2)
            desk.does("bob", "PROPFIND", "/dav/", 207, raw=True, Depth="0")
            assert [it for it in held if it.done()] == []
            desk.served.server.send_signal(signal.SIGCONT)
            assert {it.result().status for it in held} <= {200, 403}
    finally:
        desk.served.server.send_signal(signal.SIGCONT)


# Parts of a file

def test_idle_connections(tmp_path):
    """Who comes beyond waits. (Two of the 400 are the gateway's own: where it listens, and what wakes it.)"""
    it = gateway.start("/none", str(tmp_path / "state"), str(tmp_path / "gate.sock"))
    try:
        need_places(it.pid, str(tmp_path / "gate.sock"), 398, b"OPTIONS /dav/ HTTP/1.1\r\nHost: x\r\n\r\n")
    finally:
        gateway.stop(it)


@pytest.fixture
def data(desk):
    """Of /parts."""
    data = os.urandom(20 * PIECE + 99)
    desk.ask("ann", "PUT", "/parts", data)
    desk.quiet()  # (behind the answer the file's parts are looked at)
    return data


def test_a_range_reads_its_pieces(desk, data):
    size = len(data)
    for told, first, last, pieces in (("0-0", 0, 0, 1), ("65535-65536", 65535, 65536, 2),
                                      (f"{size - 1}-", size - 1, size - 1, 1), ("-5", size - 5, size - 1, 1),
                                      ("-100", size - 100, size - 1, 2), ("70000-99999999", 70000, size - 1, 20),
                                      ("70000-599999", 70000, 599999, 9)):
        before = desk.loser.count
        got = desk.does("ann", "GET", "/parts", 206, Range=f"bytes={told}")
        assert desk.loser.count - before <= pieces + 2, told
        assert (got.body, got.fields["content-range"], got.fields["etag"]) == (
            data[first:last + 1], f"bytes {first}-{last}/{size}", tag_of(data))
    desk.does("ann", "GET", "/parts", 416, Range=f"bytes={size}-")
    for told in "bytes=0-0,2-2", "bytes=x-", "bytes=-":
        assert desk.does("ann", "GET", "/parts", 200, Range=told).body == data


def test_a_range_of_a_damaged_file(desk, data):
    """What is not read is not looked at; what is read has to be there, and of its length."""
    def put(piece, bytes_):
        with desk.room() as room:
            room.write(f"/parts/{manifest_in(room, '/parts').folder}/{piece}", bytes_)
    put("003", b"short")
    desk.does("ann", "GET", "/parts", 500)
    desk.does("ann", "GET", "/parts", 500, Range=f"bytes=0-{3 * PIECE}")
    assert desk.does("ann", "GET", "/parts", 206, Range="bytes=0-9").body == data[:10]
    put("004", b"x" * PIECE)
    desk.does("ann", "GET", "/parts", 206, Range=f"bytes={4 * PIECE}-{5 * PIECE - 1}")
    put("003", data[3 * PIECE:4 * PIECE])
    desk.does("ann", "GET", "/parts", 500)
    desk.does("ann", "GET", "/parts", 500, Range="bytes=0-")


@pytest.mark.parametrize("fields, status, first, last", [
    ({}, 200, 0, 199_999), ({"Range": "bytes=-9"}, 206, 199_991, 199_999)], ids=["whole", "range"])
def test_a_version_that_comes_meanwhile(desk, fields, status, first, last):
    """The tag and the length are those of the bytes."""
    desk.ask("ann", "PUT", "/new", os.urandom(150_000))
    newer = os.urandom(200_000)

    def writes():
        with desk.room() as room:
            files.write(room, "/new", newer)
    with desk.before(has('"READ"', ".room-pieces-"), writes):
        got = desk.does("ann", "GET", "/new", status, **fields)
    assert (got.body, got.fields["etag"]) == (newer[first:last + 1], tag_of(newer))


# The gateway's parts by themselves

def test_listings_of_many_properties():
    """What things lack is the same text for each of a kind, and a long answer is in a file."""
    names = [f"{{urn:x}}property{it}" for it in range(190)]
    wanted, found = props.Wanted(names), props.properties(tree.Thing("/f/it", False, 1, "s"), "", 7)
    with mock.patch.object(bodies, "element", wraps=bodies.element) as element:
        body = bodies.multistatus(bodies.response(f"/f/{it}", wanted.told_of(found)) for it in range(200))
        assert element.call_count < 500
    assert isinstance(body, spool.Sent)
    text = body.read(1 << 24)
    assert (len(text), text.count(b"property189"), text.count(b"<D:response>")) == (len(body), 400, 200)
    assert text.endswith(b"</D:response>\n</D:multistatus>\n"[-20:])
