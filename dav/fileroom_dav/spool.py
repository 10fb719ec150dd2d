"""Bytes that are too many for memory: in a file without a name, in the gateway's folder, read where they lie."""
import contextlib
import errno
import mmap
import os
import tempfile
from collections.abc import Callable, Iterable

from .faults import Busy

MOST_IN_MEMORY = 1 << 18  # bytes of one body


@contextlib.contextmanager
def disk():
    try:
        yield
    except OSError as fault:
        if fault.errno not in (errno.ENOSPC, errno.EDQUOT):
            raise
        raise Busy("the gateway's disk is full") from None


class Mapped(mmap.mmap):
    """Bytes that are the system's again once some of them were read. Else all of an answer that nobody takes would be
    the gateway's for as long as that lasts, and all that somebody sends."""

    def __getitem__(self, which):
        found = super().__getitem__(which)
        self.madvise(mmap.MADV_DONTNEED)
        return found

    def read(self, *count) -> bytes:
        found = super().read(*count)
        self.madvise(mmap.MADV_DONTNEED)
        return found


def mapped(number: int, size: int) -> Mapped | bytes:
    """The bytes of an open file, which are cut out, hashed and sent as others are."""
    return Mapped(number, size, access=mmap.ACCESS_READ) if size else b""


def filled(size: int, fill: Callable[[Callable[[int, bytes], None]], bool]) -> Mapped | bytes | None:
    """So many bytes, which `fill` puts in their places, in any order; None where it says that they are not all there.
    (What it leaves out takes no space.)"""
    with disk(), tempfile.TemporaryFile(buffering=0) as file:
        def put(at: int, data: bytes) -> None:
            if os.pwrite(file.fileno(), data, at) < len(data):
                raise OSError(errno.ENOSPC, os.strerror(errno.ENOSPC))
        os.ftruncate(file.fileno(), size)
        return mapped(file.fileno(), size) if fill(put) else None


class Sent:
    """Some bytes of a body that waitress sends as fast as they are read, once the request's thread is free."""

    def __init__(self, data: Mapped, first: int = 0, count: int | None = None):
        self.data, self.count = data, len(data) - first if count is None else count
        self.at_end = lambda: None
        self.read, self.seek, self.tell = data.read, data.seek, data.tell
        data.seek(first)

    def __len__(self) -> int:
        return self.count

    def close(self) -> None:
        self.data.close()
        ends, self.at_end = self.at_end, lambda: None
        ends()


def part(data: Mapped | bytes, first: int, count: int) -> Sent | bytes:
    return data[first:first + count] if count <= MOST_IN_MEMORY else Sent(data, first, count)


def joined(parts: Iterable[bytes]) -> Sent | bytes:
    """A body of parts that are made one after another."""
    with disk(), tempfile.SpooledTemporaryFile(MOST_IN_MEMORY) as file:
        for it in parts:
            file.write(it)
        size = file.tell()
        file.seek(0)
        return file.read() if size <= MOST_IN_MEMORY else Sent(mapped(file.fileno(), size))
