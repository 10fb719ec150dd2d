"""As many connections as a server takes, which ask for nothing."""
import contextlib
import os
import socket

import pytest
from served import WAIT, until

QUIET = 1.0  # seconds without an answer


def sockets_of(pid):
    """How many a process has open."""
    count = 0
    for it in os.listdir(f"/proc/{pid}/fd"):
        with contextlib.suppress(OSError):
            count += os.readlink(f"/proc/{pid}/fd/{it}").startswith("socket:")
    return count


def need_places(pid, at, count, asks):
    """That a server at this path of a socket has so many, who comes next is not refused, but waits, and is answered as
    one of them is free."""
    with contextlib.ExitStack() as ends:
        def comes():
            line = ends.enter_context(socket.socket(socket.AF_UNIX))
            line.settimeout(WAIT)
            line.connect(at)
            return line
        assert until(lambda: sockets_of(pid) == 1)  # (where it listens)
        idle = [comes() for _ in range(count)]
        assert until(lambda: sockets_of(pid) == count + 1), "it takes fewer"
        beyond = comes()
        beyond.sendall(asks)
        beyond.settimeout(QUIET)
        with pytest.raises(TimeoutError):
            beyond.recv(1)
        idle.pop().close()
        beyond.settimeout(WAIT)
        assert beyond.recv(5) == b"HTTP/"
        assert sockets_of(pid) == count + 1
