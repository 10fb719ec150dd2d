"""What tests of the client are given: a desk each, at a room's port or, where they are marked so, behind a front."""
import contextlib
import ctypes
import os
import sys

import pytest

sys.path.insert(0, os.path.join(os.path.dirname(os.path.abspath(__file__)), "..", "..", "..", "client"))
pytest.register_assert_rewrite(f"{__package__}.desk")
from .desk import Desk, FrontDesk

ARENA_MAX, FEW = -8, 2  # of mallopt


def pytest_configure(config):
    # (the C library keeps 64 MiB of addresses for each of many threads: tests of service that come behind these bound
    # the memory of this very process)
    ctypes.CDLL(None).mallopt(ARENA_MAX, FEW)
    config.addinivalue_line("markers", "front: the desk is behind a front, and so asks over several slots at once")


@pytest.fixture
def desk(request, memory):
    with contextlib.ExitStack() as ends:
        yield (FrontDesk if request.node.get_closest_marker("front") else Desk)(memory, ends)
