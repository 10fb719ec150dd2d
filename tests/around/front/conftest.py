"""What tests of the front are given: a front is an nginx of one's own with the files of front/, before a peer in the
place of the room `plans`, and of one with the longest name; there is none in that of `gone`. It counts who asks, so
each test has its own, but where a test asks little."""
import functools
import os
import sys

import pytest
from nginx import FOLDER, Front, lacking

from .sides import standing

sys.path.append(os.path.join(FOLDER, "..", "service", "admin"))
USERS = "u01", "u02", "u03"
LONGEST_NAME = "Of_32-Letters_and_Numbers-012345"  # of a room
LONGEST_LOGIN = "Of_32.Letters-and_Numbers.012345"


def started(folder, page, room, users=USERS, **how):
    if lacking():
        pytest.skip(f"this machine lacks {' and '.join(lacking())}")
    rooms = {"plans": room, "gone": os.path.join(folder, "gone.sock"), LONGEST_NAME: room}
    return Front(str(folder), {it: f"word of {it}" for it in users}, rooms, page, **how)


@pytest.fixture
def page(tmp_path):
    """The page's folder."""
    (tmp_path / "index.html").write_bytes(b"a page")
    return str(tmp_path)


@pytest.fixture
def peer():
    """Stands in the room's place."""
    with standing() as it:
        yield it


@pytest.fixture
def gateway(memory):
    """Stands in the gateway's place."""
    with standing(os.path.join(memory, "gateway.sock")) as it:
        yield it


@pytest.fixture
def fronted(memory, page, peer, alone):
    """Starts a front, as front/start has it."""
    return functools.partial(started, os.path.join(memory, "front"), page, peer.at)


@pytest.fixture
def front(fronted):
    return fronted()
