"""A login that is held, as docs/RUNNING.md has it, in the middle of a save: it is told so at once, reads on, and what
it had begun is put right once it may change things again. (By renames: test_stops.py.)"""
import os
import time

from given import each

from .desk import asks
from .saves import Saves

HOW = {"kind": Saves, "patience": 60}
SOON = 40  # seconds: the gateway waits longer for the room


def put_as_held(desk, name, data, is_it):
    """The answer to a save, of whose requests the first such one is held. It comes soon."""
    begin = time.monotonic()
    with desk.before(is_it, desk.hold):
        got = desk.ask("ann", "PUT", name, data)
    assert time.monotonic() - begin < SOON
    return got


@each("name, words", [("small", "a.odt", ()), ("the pieces of a large file", "large", (".room-writing-",)),
                      ("the manifest of a large file", "large", (".room-file",))])
def test_a_version(desk, name, words):
    """The one of before stands, and is read."""
    _, data = desk.large()
    before = data[-1] if name == "large" else b"old"
    new = os.urandom(len(before))
    got = put_as_held(desk, name, new, asks("WRITE", *words))
    assert (got.status, got.body.startswith(b"you are held: ")) == (429, True), got.body
    for user in "ann", "bob":
        assert desk.get(user, name) == before
    desk.release()
    desk.does("ann", "PUT", name, 204, before)
    desk.does("ann", "PUT", name, 204, new)
    if name == "large":
        desk.need_one_spare(name)


def test_behind_the_version(desk):
    """It is done, and told so; what was before is emptied by the next save."""
    name, _ = desk.large()
    new = os.urandom(300_000)
    got = put_as_held(desk, name, new, asks("RENAME", "/.room-pieces-", "/.room-gone-"))
    assert (got.status, os.path.exists(desk.mark)) == (204, True), got.body
    assert desk.get("ann", name) == new
    desk.release()
    desk.does("ann", "PUT", name, 204, os.urandom(300_000))
    desk.need_one_spare(name)
