"""Files and folders of this machine: whole files alone are put in place, and no link is followed out of a folder."""
import errno
import os
import secrets
import stat
import sys
from collections import Counter
from collections.abc import Callable, Iterator
from contextlib import closing, contextmanager, suppress
from dataclasses import dataclass, field
from typing import BinaryIO

from .faults import Fault, LocalFault, reading
from .manifest import PART
from .words import FILE, FOLDER, neat, shown

FOLDER_HERE = os.O_RDONLY | os.O_DIRECTORY
FOUND_HERE = os.O_RDONLY | os.O_NOFOLLOW | os.O_NONBLOCK
NEW_HERE = os.O_WRONLY | os.O_CREAT | os.O_EXCL
MOST_NAME = 64  # bytes of a name in the room
BAR = 1 << 18  # bytes from which on progress is shown


def read_local(name: str, most: int = -1) -> bytes:
    """A file's bytes, or those of standard input for `-`, which a terminal is told."""
    if name == "-" and sys.stdin.isatty():
        print("room: it reads standard input; Ctrl-D ends it", file=sys.stderr, flush=True)
    with reading(name), sys.stdin.buffer if name == "-" else open(name, "rb") as file:
        return file.read(most)


def open_found(top: str, place: str) -> BinaryIO:
    """A file that was found below a folder, and may be something else by now: no name below is followed as a link."""
    *folders, name = os.path.relpath(place, top).split(os.sep)
    folder = os.open(top, FOLDER_HERE)
    try:
        for it in folders:
            below = os.open(it, FOLDER_HERE | os.O_NOFOLLOW, dir_fd=folder)
            os.close(folder)
            folder = below
        file = os.open(name, FOUND_HERE, dir_fd=folder)
    finally:
        os.close(folder)
    if stat.S_ISREG(os.fstat(file).st_mode):
        return open(file, "rb")
    os.close(file)
    raise LocalFault(f"{shown(place)} is no file any more")


def read_found(top: str, place: str, most: int = -1) -> bytes:
    with reading(place), open_found(top, place) as file:
        return file.read(most)


def write_local(name: str, data: bytes) -> None:
    """A file is there whole, or as it was before."""
    with reading(name):
        name = os.path.realpath(name)
        if os.path.exists(name) and not stat.S_ISREG(os.stat(name).st_mode):
            with open(name, "wb") as file:  # (a pipe, or a terminal)
                file.write(data)
            return
        with open_folder(os.path.dirname(name), []) as folder:
            put_in_place(folder, os.path.basename(name), data)


def write_below(top: str, names: list[str], data: bytes) -> None:
    """A file below a folder, by names that come from elsewhere."""
    with reading(os.path.join(top, *names)), open_folder(top, names[:-1]) as folder:
        put_in_place(folder, names[-1], data)


def make_below(top: str, names: list[str]) -> None:
    with reading(os.path.join(top, *names)), open_folder(top, names):
        pass


def make_all_below(top: str, paths: list[str], take: Callable[[LocalFault], None]) -> list[str]:
    """Makes folders below a folder, the upper ones first. Those of which `take` hears cannot be made."""
    failed = []
    make_below(top, [])
    for path in paths:
        if is_in(path, failed):
            continue
        try:
            make_below(top, path.split("/"))
        except LocalFault as fault:
            failed.append(path)
            take(fault)
    return failed


def is_in(path: str, folders: list[str]) -> bool:
    """Whether it is one of them, or below one."""
    return any(f"{path}/".startswith(f"{it}/") for it in folders)


def remove_below(top: str, names: list[str], kind: str) -> None:
    with reading(os.path.join(top, *names)), open_folder(top, names[:-1]) as folder:
        (os.rmdir if kind == FOLDER else os.remove)(names[-1], dir_fd=folder)


@contextmanager
def open_folder(top: str, names: list[str]) -> Iterator[int]:
    """A folder below `top`, made where it is not there. None of the names is followed as a link."""
    if not names:
        os.makedirs(top, exist_ok=True)
    folder = os.open(top, FOLDER_HERE)
    try:
        for name in names:
            with suppress(FileExistsError):
                os.mkdir(name, dir_fd=folder)
            below = os.open(name, FOLDER_HERE | os.O_NOFOLLOW, dir_fd=folder)
            os.close(folder)
            folder = below
        yield folder
    finally:
        os.close(folder)


def put_in_place(folder: int, name: str, data: bytes) -> None:
    part = f"{PART}part-{secrets.token_hex(8)}"
    with open(os.open(part, NEW_HERE, 0o666, dir_fd=folder), "wb") as file:
        try:
            with suppress(FileNotFoundError):
                its = os.stat(name, dir_fd=folder, follow_symlinks=False)
                if stat.S_ISREG(its.st_mode):
                    os.fchmod(file.fileno(), stat.S_IMODE(its.st_mode))
            file.write(data)
            file.flush()
            os.fsync(file.fileno())
            os.replace(part, name, src_dir_fd=folder, dst_dir_fd=folder)
            flush_folder(folder)
        except BaseException:
            with suppress(OSError):
                os.remove(part, dir_fd=folder)
            raise


def flush_folder(folder: int) -> None:
    """(Some filesystems of networks flush none.)"""
    try:
        os.fsync(folder)
    except OSError as fault:
        if fault.errno != errno.EINVAL:
            raise


def fits_here(name: str) -> bool:
    """Whether a name of the room is one that a file here can have."""
    return name not in (".", "..") and "/" not in name and "\0" not in name and not name.startswith(PART)


@dataclass
class Tree:
    """What is below a folder: for each path, with / between its names, its kind and where it is; what was left out,
    which nobody knows the inside of; and why of some of that, folders that could not be listed."""

    kinds: dict[str, str] = field(default_factory=dict)
    places: dict[str, str] = field(default_factory=dict)
    left_out: set[str] = field(default_factory=set)
    shut: list[Fault] = field(default_factory=list)

    def leave_shut(self, path: str, fault: Fault, say: Callable[[str], None]) -> None:
        self.left_out.add(path)
        self.shut.append(fault)
        say(f"what is in it is left out: {fault}")

    def is_known(self, path: str) -> bool:
        """Whether nothing at, above or below a path was left out."""
        return not any(f"{it}/".startswith(f"{path}/") or path.startswith(f"{it}/") for it in self.left_out)


def tree_here(top: str, say: Callable[[str], None]) -> Tree:
    """Files and folders below a folder, by the names that they get in the room."""
    tree = Tree()
    with reading(top):
        walk_here(top, "", tree, say)
    return tree


def walk_here(at: str, above: str, tree: Tree, say: Callable[[str], None]) -> None:
    with closing(os.scandir(at)) as found:
        entries = sorted(found, key=lambda it: it.name)
    alike = Counter(neat(it.name) for it in entries)
    for it in entries:
        path, why = above + neat(it.name), why_not(it)
        if alike[neat(it.name)] > 1 and neat(it.name) != it.name:
            why = "another one gets the same name in the room"
        if why:
            tree.left_out.add(path)
            say(f"{shown(it.path)} is left out: {why}")
            continue
        tree.kinds[path] = FOLDER if it.is_dir(follow_symlinks=False) else FILE
        tree.places[path] = it.path
        if tree.kinds[path] == FOLDER:
            walk_below(it.path, path, tree, say)


def walk_below(at: str, path: str, tree: Tree, say: Callable[[str], None]) -> None:
    """(What cannot be read is told, and left out.)"""
    try:
        with reading(at):
            walk_here(at, path + "/", tree, say)
    except LocalFault as fault:
        tree.leave_shut(path, fault, say)


def why_not(it: os.DirEntry) -> str | None:
    """Why a file does not go into the room."""
    if it.is_symlink():
        return "it is a link, and links are not followed"
    if not it.is_dir() and not it.is_file():
        return "it is neither a file nor a folder"
    try:
        it.name.encode()
    except UnicodeEncodeError:
        return "its name is no UTF-8"
    if not 0 < len(neat(it.name).encode()) <= MOST_NAME:
        return "a name in the room has 1 to 64 bytes, without blanks at its ends"
    return "its name is one of the client's own" if it.name.startswith(PART) else None


class Progress:
    """One line at a terminal on how far it is, gone in the end. Of a size that is not known, how much came."""

    def __init__(self, name: str, size: int | None, piece: int):
        self.name, self.size, self.piece, self.done = name, size, piece, 0
        self.is_shown = (size is None or size >= BAR) and sys.stderr.isatty()

    def heard(self, reply: dict) -> None:
        self.done += self.piece
        if self.is_shown and reply["code"] == 0:
            far = f"{self.done >> 10} KiB" if self.size is None else f"{min(100 * self.done // self.size, 100)} %"
            print(f"\r{shown(self.name)}: {far}", end="", file=sys.stderr, flush=True)

    def end(self) -> None:
        if self.is_shown and self.done:
            print("\r\033[K", end="", file=sys.stderr, flush=True)


def need_file(name: str) -> str:
    """(A folder is told before anything is sent.)"""
    if name != "-" and os.path.isdir(name):
        raise LocalFault(f"{shown(name)} is a folder: -r puts it with what is in it")
    return name
