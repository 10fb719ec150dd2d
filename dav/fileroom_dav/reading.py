"""GET and HEAD: the bytes of a file."""
import re
from email.utils import formatdate

from .asked import Asked, Reply
from .faults import Answered
from .rules import Rules
from .spool import part
from .tree import Thing, bytes_of, thing_at
from .visit import Visit

RANGE = re.compile(r"bytes=([0-9]{0,10})-([0-9]{0,10})")


def get(gate, visit: Visit, asked: Asked) -> Reply:
    its = thing_at(visit, asked.path)
    if its.is_folder:
        raise Answered(405, f"{its.path} is a folder: open it with a file manager")
    rules = Rules(visit, asked, gate.locks)
    rules.known(its)
    rules.need()
    return given(gate, visit, asked, its)


def given(gate, visit: Visit, asked: Asked, its: Thing) -> Reply:
    is_head, before = asked.method == "HEAD", asked.field("If-None-Match")
    is_known = before is not None and (before.strip() == "*" or its.etag in before)
    if not is_head and not is_known:
        bytes_of(visit, its, lambda it: range_of(asked, it))  # (of a large file the version may be another by now)
    fields = fields_of(gate, asked, its)
    if is_known:
        return Reply(304, b"", fields)
    if is_head:
        return Reply(200, b"", [*fields, ("Content-Length", str(its.size))])
    wanted = range_of(asked, its)
    if wanted is None:
        return Reply(200, part(its.data, 0, its.size), fields)
    fields.append(("Content-Range", f"bytes {wanted[0]}-{wanted[1]}/{its.size}"))
    return Reply(206, part(its.data, wanted[0], wanted[1] + 1 - wanted[0]), fields)


def fields_of(gate, asked: Asked, its: Thing) -> list[tuple[str, str]]:
    when = gate.seen.times(asked.room, {its.path: its.sum})[its.path]
    return [("ETag", its.etag), ("Last-Modified", formatdate(when, usegmt=True)), ("Accept-Ranges", "bytes"),
            ("Content-Type", "application/octet-stream"), ("Content-Disposition", "attachment")]


def range_of(asked: Asked, its: Thing) -> tuple[int, int] | None:
    """The first and the last byte of one range, where one is asked for, of this version."""
    told, version = RANGE.fullmatch((asked.field("Range") or "").strip()), asked.field("If-Range")
    if not told or told[1] == told[2] == "" or version is not None and version.strip() != its.etag:
        return None
    first = int(told[1]) if told[1] else max(its.size - int(told[2]), 0)
    last = min(int(told[2]), its.size - 1) if told[1] and told[2] else its.size - 1
    if first >= its.size or first > last or told[2] == "0" and not told[1]:
        raise Answered(416, f"the file has {its.size} bytes")
    return first, last
