"""The command `room edit`: a file of the room in an editor here, and back where nobody else wrote it meanwhile."""
import contextlib
import os
import shlex
import shutil
import signal
import subprocess
import tempfile
from collections.abc import Iterator

from . import files
from .documents import need_path, read_all, there
from .faults import Fault, LocalFault, OtherVersion, Refused, overtaken, refused_as
from .room import Room, say
from .settings import Settings
from .words import neat, shown


def edit(asked, settings: Settings) -> None:
    """(The room is let go while somebody types.)"""
    editor = find_editor()
    with Room(settings) as room:
        path = there(room, need_path(asked.path))
        before = bytes_at(room, path)
    folder = tempfile.mkdtemp(prefix="room-")
    here = os.path.join(folder, os.path.basename(path).replace("\0", "_") or "file")
    with open(here, "xb") as file:
        file.write(before or b"")
    run_editor(editor, here)
    with open(here, "rb") as file:
        after = file.read()
    if after == (before or b""):
        print("nothing was changed", flush=True)
    else:
        try:
            put_back(settings, path, before, after)
        except (Fault, KeyboardInterrupt):
            say(f"what you wrote is in {here}")
            raise
    os.remove(here)
    os.rmdir(folder)


def bytes_at(room: Room, path: str) -> bytes | None:
    try:
        return read_all(room, path)
    except Refused as fault:
        if refused_as(fault, "NOENT"):
            return None
        raise


def find_editor() -> list[str]:
    """Its words. (Before a file is made for it.)"""
    editor = os.environ.get("VISUAL") or os.environ.get("EDITOR") or "vi"
    with contextlib.suppress(ValueError):
        words = shlex.split(editor)
        if words and shutil.which(words[0]):
            return words
    raise LocalFault(f"no editor {shown(editor)}: name one by VISUAL or EDITOR")


def run_editor(editor: list[str], path: str) -> None:
    try:
        with keys_are_its_own():
            status = subprocess.run([*editor, path]).returncode
    except OSError as fault:  # (what was found is no program: nothing was typed)
        os.remove(path)
        os.rmdir(os.path.dirname(path))
        raise LocalFault(f"{shown(editor[0])}: {fault.strerror}: name an editor by VISUAL or EDITOR") from fault
    if status:
        raise LocalFault(f"{shown(editor[0])} ended with status {status}: nothing was put; it is in {path}")


@contextlib.contextmanager
def keys_are_its_own() -> Iterator[None]:
    """A key that stops what the editor runs, which a terminal gives to all, ends neither it nor the wait for it. (By a
    handler: a signal that is ignored stays so in a program that is begun.)"""
    before = signal.signal(signal.SIGINT, lambda *_: None)
    try:
        yield
    finally:
        signal.signal(signal.SIGINT, before)


def put_back(settings: Settings, path: str, before: bytes | None, after: bytes) -> None:
    with Room(settings) as room:
        if bytes_at(room, path) != before:
            raise OtherVersion(overtaken(path))
        path = path if before is not None else neat(path)
        files.write(room, path, after, is_new=before is None)
        print(f"{shown(path)}: {len(after)} bytes", flush=True)
