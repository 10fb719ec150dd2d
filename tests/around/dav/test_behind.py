"""What comes behind an answer: no request waits for it, a stop in order finishes it, and what a kill leaves of it the
next writer empties."""
import contextlib
import os
import signal
import threading
import time
from concurrent.futures import ThreadPoolExecutor

import pytest
from given import each
from fileroom_dav.behind import SECONDS
from served import WAIT, least

from .desk import PIECE, asks, makes_changes, stop
from .saves import TRASH, Saves

HOW = {"kind": Saves, "patience": WAIT}
SIZE = 2 * PIECE + 99
SOON = WAIT / 2  # seconds: the gateway waits longer for the room


@contextlib.contextmanager
def held(desk):
    """The first request behind an answer has no answer as long. What is set as it comes."""
    came, goes_on = threading.Event(), threading.Event()
    try:
        with desk.before(desk.is_behind, lambda: (came.set(), goes_on.wait(WAIT))):
            yield came
    finally:
        goes_on.set()


def test_it_holds_nobody_up(desk):
    """Its login's next requests and others' are answered."""
    name, _ = desk.large()
    new, newer = os.urandom(SIZE), os.urandom(SIZE)
    with held(desk) as came:
        desk.does("ann", "PUT", name, 204, new, timeout=SOON)
        assert came.wait(SOON)
        for user in ("ann", "bob") * 5:
            assert desk.does(user, "GET", name, 200, timeout=SOON).body == new
        desk.does("ann", "PUT", name, 204, newer, timeout=SOON)
    desk.quiet()
    gone = [it for it in desk.inside(name) if it.startswith(".room-gone-")]
    assert {size for it in gone for size in desk.sizes(f"{name}/{it}").values()} == {0}
    assert desk.get("ann", name) == newer
    desk.does("ann", "PUT", name, 204, new)
    desk.need_one_spare(name)


def test_a_save_at_once_finds_its_spare(desk):
    """While what comes behind the one before is held up."""
    name, _ = desk.large()
    before = desk.numbers()
    with held(desk):
        for _ in range(3):
            desk.does("ann", "PUT", name, 204, os.urandom(SIZE), timeout=SOON)
        assert desk.numbers() == before
    desk.need_one_spare(name)


def test_the_session_is_lost(desk):
    """Another one does it."""
    name, _ = desk.large()
    with held(desk) as came:
        desk.does("ann", "PUT", name, 204, os.urandom(SIZE))
        assert came.wait(WAIT)
        desk.end_sessions()
    desk.need_one_spare(name)


def test_a_stop_in_order(desk):
    """What is behind answers is done, and requests are answered meanwhile."""
    name, _ = desk.large()
    with held(desk) as came:
        desk.does("ann", "PUT", name, 204, os.urandom(SIZE))
        assert came.wait(WAIT)
        desk.gateway.send_signal(signal.SIGTERM)
        assert desk.ask("bob", "GET", name).status == 200
    assert desk.gateway.wait(WAIT) == 0
    desk.need_one_spare(name)

    def seconds():
        desk.settle()
        begin = time.monotonic()
        desk.gateway.send_signal(signal.SIGTERM)
        assert desk.gateway.wait(WAIT) == 0
        return time.monotonic() - begin
    assert least(seconds, SECONDS / 2) < SECONDS / 2


def test_stops(desk):
    """The gateway is killed at each change of a save, and behind it: one version is there, the next save brings
    another, with the same list, and no bytes of before stay."""
    last, was_killed = 0, True
    while was_killed:
        last += 1
        name, data = desk.large()
        desk.set_list(name, 1, [{"flag": 0x43, "mask": 0x21, "type": 1, "who": "pupils"}])
        new, before = [os.urandom(SIZE), os.urandom(SIZE)], desk.kept(name)
        was_killed = killed_at(desk, last, name, new[0])
        assert desk.get("ann", name) in (data[1], new[0])
        desk.does("ann", "PUT", name, 204, new[1])
        desk.need_one_spare(name)
        assert desk.get("bob", name) == new[1]
        assert desk.kept(name) == before
    assert last > 10


def killed_at(desk, last, name, data):
    """Whether it came to so many changes."""
    count, killed = 0, threading.Event()

    def is_it(message):
        nonlocal count
        count += makes_changes(message)
        return count == last
    desk.loser.meanwhile = is_it, lambda: (stop(desk.gateway), killed.set())
    with contextlib.suppress(OSError):
        desk.ask("ann", "PUT", name, data)
    if not killed.is_set():
        desk.quiet()
    desk.settle()
    return killed.is_set()


def test_a_reader_beside_saves(desk):
    """Each answer is one whole version, and none is older than the one before."""
    name, _ = desk.large()
    versions, is_over = [os.urandom(SIZE) for _ in range(10)], threading.Event()
    desk.does("ann", "PUT", name, 204, versions[0])

    def reads():
        while not is_over.is_set():
            yield desk.get("bob", name)
    with ThreadPoolExecutor(1) as crew:
        seen = crew.submit(list, reads())
        for it in versions:
            desk.does("ann", "PUT", name, 204, it)
        is_over.set()
    found = [versions.index(it) for it in seen.result()]
    assert found == sorted(found)
    desk.need_one_spare(name)


def test_two_writers(desk):
    """Of new versions at once one stands, whole, and another comes after."""
    name, _ = desk.large()
    for _ in range(6):
        versions = {it: os.urandom(SIZE) for it in ("ann", "bob")}
        with ThreadPoolExecutor(2) as crew:
            said = {*crew.map(lambda it: desk.ask(it, "PUT", name, versions[it]).status, versions)}
        assert {204} <= said <= {204, 412}
        assert desk.get("ann", name) in versions.values()
    desk.quiet()
    desk.does("ann", "PUT", name, 204, b"last" * PIECE)
    desk.need_one_spare(name)
    assert desk.get("bob", name) == b"last" * PIECE


def test_a_save_by_a_backup_finds_a_spare(desk):
    """Of a document that was saved otherwise before."""
    name, _ = desk.large()
    new = os.urandom(SIZE)
    desk.does("ann", "MOVE", name, 201, to=f"{name}~")
    desk.does("ann", "PUT", name, 201, new)
    desk.quiet()
    assert desk.get("bob", name) == new


def test_what_is_laid_in_an_exchange(desk):
    """As what had the new bytes is to take those of before, somebody lays an open folder in its place: they do not go
    there."""
    old, new = os.urandom(SIZE), os.urandom(SIZE)
    doc = desk.made(old)

    def lays():
        desk.play("bob RENAME n.tmp > n; bob MKDIR n.tmp")
    desk.wire("ann", "RENAME", TRASH, to="/trash/away")
    try:
        desk.does("ann", "PUT", "n.tmp", 201, new)
        desk.does("ann", "MOVE", doc, 201, to="x~")
        with desk.before(asks("RENAME", f'"path":"{desk.at("n.tmp")}"'), lays):
            desk.does("ann", "MOVE", "n.tmp", 201, to=doc)
    finally:
        desk.wire("ann", "RENAME", "/trash/away", to=TRASH)
    assert desk.shown(old[:60], new[:60]) == []
    assert desk.get("ann", doc) == new


# Pieces of what was removed for good, in the trash of who owned it

def pooled(desk):
    return [it for it in desk.inside(TRASH) if it.startswith(".room-")]


@pytest.fixture
def pool(desk):
    """With an empty pool."""
    for name in pooled(desk):
        for it in desk.inside(f"{TRASH}/{name}"):
            desk.wire("ann", "REMOVE", f"{TRASH}/{name}/{it}")
        desk.wire("ann", "REMOVE", f"{TRASH}/{name}")
    desk.made()
    return desk


def removed(desk, user="ann", prepare=lambda _: None, is_there=False):
    """A large file that goes for good."""
    if not is_there:
        desk.does(user, "PUT", "x", 201, os.urandom(SIZE))
    desk.wire("ann", "RENAME", "x", to="x~")
    folder, = [it for it in desk.inside(desk.at("x~")) if "pieces" in it]
    prepare(desk.at(f"x~/{folder}"))
    desk.does("ann", "DELETE", "x~", 204)


def numbers_of_a_new_one(desk):
    data, before = os.urandom(SIZE), desk.numbers()
    desk.does("ann", "PUT", "new", 201, data)
    assert desk.get("bob", "new") == data
    return desk.numbers() - before


def test_the_pool_holds_three_without_bytes(pool):
    for at in range(4):
        pool.does("ann", "PUT", f"x{at}", 201, os.urandom(SIZE))
    for at, count in enumerate((1, 2, 3, 3)):
        pool.wire("ann", "RENAME", f"x{at}", to="x")
        removed(pool, is_there=True)
        pool.quiet()
        assert len(pooled(pool)) == count
    for name in pooled(pool):
        assert pool.sizes(f"{TRASH}/{name}") == {"000": 0, "001": 0, "002": 0}
    assert "room-gone" not in str(pool.names("ann", TRASH))
    assert (numbers_of_a_new_one(pool), len(pooled(pool))) == (2, 2)


@each("user, steps, entries, comes", [
    ("of somebody elses", "bob", "", None, False), ("with a document", "ann", "bob CREATE {0}/salaries", None, False),
    ("with a piece of somebody elses", "ann", "bob REMOVE {0}/001; bob CREATE {0}/001", None, True),
    ("with an open piece", "ann", "", [{"flag": 0, "mask": 0x1200A9, "type": 0, "who": "pupils"}], True)])
def test_the_pool_has_nothing_of_others(pool, user, steps, entries, comes):
    """What comes there to be looked at does not stay."""
    def prepares(folder):
        pool.play(steps.format(folder))
        if entries:
            pool.set_list(f"{folder}/002", 1, entries)
    seen = []
    pool.loser.meanwhile = seen.append, None
    removed(pool, user, prepares)
    pool.quiet()
    assert any(map(asks("RENAME", TRASH), seen)) == comes
    assert pooled(pool) == []


def test_a_stop_before_the_pool_is_emptied(pool):
    """It is not taken so, and emptied behind the next answer."""
    with pool.before(lambda message: b'"data":""' in message, lambda: stop(pool.gateway)):
        removed(pool)
        pool.quiet()
    pool.start_gateway()
    name, = pooled(pool)
    assert PIECE in pool.sizes(f"{TRASH}/{name}").values()
    assert numbers_of_a_new_one(pool) == 6
    pool.quiet()
    name, = pooled(pool)
    assert {*pool.sizes(f"{TRASH}/{name}").values()} == {0}


def test_a_stop_before_the_pool_is_looked_at(pool):
    """Of what somebody prepared nothing is taken, though its first piece has no bytes."""
    for_both = [{"flag": 0, "mask": 0x1F01FF, "type": 0, "who": it} for it in ("ann", "bob")]

    def prepares(folder):
        for it in "000", "001":
            pool.wire("bob", "REMOVE", f"{folder}/{it}")
            pool.wire("bob", "CREATE", f"{folder}/{it}", data="")
            pool.wire("bob", "SETLIST", f"{folder}/{it}", aclflag=1, entries=for_both)
    with held(pool) as came:
        removed(pool, prepare=prepares)
        assert came.wait(WAIT)
        stop(pool.gateway)
    pool.start_gateway()
    assert numbers_of_a_new_one(pool) == 6
    pool.quiet()
    assert pooled(pool) == []


def test_the_pool_is_no_part_of_somebody_elses_file(pool):
    """Nor of another's new one."""
    removed(pool)
    pool.quiet()
    pool.does("bob", "PUT", "b", 201, os.urandom(SIZE))
    assert len(pooled(pool)) == 1
