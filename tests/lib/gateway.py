"""The gateway of dav/ as a process, with the numbers of its unit."""
import contextlib
import os
import re
import socket
import subprocess

from served import HERE, end_with_parent, started_here, text_of, until

GATEWAY = os.path.join(HERE, "..", "dav", "fileroom-dav")
PYTHON = "/usr/bin/python3"  # (Debian's, which has Debian's packages)
UNIT = os.path.join(HERE, "..", "service", "dav", "fileroom-dav.service")


def start(front, folder, at, log=None, **env):
    """One that asks the front at this socket, keeps its files in a folder, and listens at another socket."""
    with contextlib.suppress(FileNotFoundError):
        os.remove(at)
    its = dict(re.findall("^Environment=([A-Z_]+)=([0-9]+)$", text_of(UNIT), re.MULTILINE))
    words = [PYTHON, "-B", GATEWAY, front, folder, at]
    child = subprocess.Popen(words, preexec_fn=end_with_parent, env={**os.environ, **its, **env}, stderr=log)
    started_here.append(child)
    if not until(lambda: child.poll() is not None or answers(at)) or child.poll() is not None:
        raise RuntimeError("the gateway does not listen")
    return child


def answers(at):
    with contextlib.suppress(OSError), socket.socket(socket.AF_UNIX) as it:
        it.connect(at)
        return True
    return False


def stop(child):
    if child:
        child.kill()
        child.wait()
