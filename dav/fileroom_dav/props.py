"""PROPFIND, PROPPATCH, and the properties that a thing has."""
import mimetypes
from collections import Counter
from email.utils import formatdate

from . import bodies
from .asked import Asked, Reply
from .bodies import DAV
from .faults import Answered
from .locks import Lock
from .names import href
from .rules import Rules, may_write
from .tree import Thing, listed, thing_at
from .visit import Visit

MOST_TOLD = 5  # locks of a path
XML = ("Content-Type", "application/xml; charset=utf-8")
SUMS = {DAV + "getetag", DAV + "getlastmodified"}
TAKEN = "{urn:schemas-microsoft-com:}"  # times and attributes, which Explorer sets behind each file: they are forgotten
SCOPES = "".join(f"<D:lockentry><D:lockscope><D:{it}/></D:lockscope><D:locktype><D:write/></D:locktype></D:lockentry>"
                 for it in ("exclusive", "shared"))
KINDS = mimetypes.MimeTypes(filenames=())  # (what this machine has in its files is not looked at)


def kind_of(path: str) -> str:
    return KINDS.guess_type(path, strict=False)[0] or "application/octet-stream"


def active(lock: Lock, is_theirs: bool) -> str:
    """The token is for who has the lock."""
    scope, depth = "shared" if lock.is_shared else "exclusive", "infinity" if lock.is_deep else "0"
    owner = f"<D:owner>{lock.owner}</D:owner>" if lock.owner else ""
    token = f"<D:locktoken><D:href>{lock.token}</D:href></D:locktoken>" if is_theirs else ""
    return (f"<D:activelock><D:locktype><D:write/></D:locktype><D:lockscope><D:{scope}/></D:lockscope>"
            f"<D:depth>{depth}</D:depth>{owner}<D:timeout>Second-{lock.seconds}</D:timeout>"
            f"{token}<D:lockroot><D:href>{bodies.text(href(lock.room, lock.path, False))}</D:href></D:lockroot>"
            "</D:activelock>")


def properties(its: Thing, locks: str, time: int | None) -> dict[str, str]:
    """Each property's name, and what is in its element."""
    found = {DAV + "resourcetype": "<D:collection/>" if its.is_folder else "",
             DAV + "supportedlock": SCOPES, DAV + "lockdiscovery": locks}
    if its.is_folder:
        return found
    found[DAV + "getcontenttype"] = bodies.text(kind_of(its.path))
    if its.size is not None:
        found[DAV + "getcontentlength"] = str(its.size)
    if its.etag:
        found[DAV + "getetag"] = bodies.text(its.etag)
    if time is not None:
        found[DAV + "getlastmodified"] = formatdate(time, usegmt=True)
    return found


class Wanted:
    """What is asked of each thing in a folder. What things of a kind lack is one text, which is made once."""

    def __init__(self, names: list[str] | str):
        self.names = names if isinstance(names, str) else list(dict.fromkeys(names))
        self.lacks: dict[frozenset[str], str] = {}

    def told_of(self, found: dict[str, str]) -> str:
        if self.names == "allprop":
            return bodies.propstat(200, "".join(bodies.element(it, found[it]) for it in found))
        if self.names == "propname":
            return bodies.propstat(200, "".join(map(bodies.element, found)))
        has, lacks = "".join(bodies.element(it, found[it]) for it in self.names if it in found), self.lacking(found)
        return (bodies.propstat(200, has) if has or not lacks else "") + lacks

    def lacking(self, found: dict[str, str]) -> str:
        kind = frozenset(found)
        if kind not in self.lacks:
            lacks = "".join(bodies.element(it) for it in self.names if it not in found)
            self.lacks[kind] = bodies.propstat(404, lacks) if lacks else ""
        return self.lacks[kind]


def propfind(gate, visit: Visit, asked: Asked) -> Reply:
    wanted = bodies.propfind_of(asked.body(bodies.MOST_BYTES))
    if asked.depth == "infinity":
        raise Answered(403, "ask for one folder at a time (Depth 0 or 1)", "propfind-finite-depth")
    wants_sums = wanted == "allprop" or bool(SUMS & set(wanted))
    if asked.depth == "1":
        top, inside = listed(visit, asked.path, wants_sums, gate.memory, asked.room,
                             is_file_first=not asked.is_of_folder)
    else:
        top, inside = thing_at(visit, asked.path, is_shown=True), []
    things = [top, *inside]
    times = gate.seen.times(asked.room, {it.path: it.sum for it in things if it.sum}) if wants_sums else {}
    locks, wanted = told_locks(gate, visit, asked, things), Wanted(wanted)

    def told(it: Thing) -> str:
        visit.pace.floor.pause()
        held = "".join(active(lock, lock.user == asked.user) for lock in locks if lock.covers(it.path))
        inside = wanted.told_of(properties(it, held, times.get(it.path)))
        return bodies.response(href(asked.room, it.path, it.is_folder), inside)
    return Reply(207, bodies.multistatus(map(told, things)), [XML])


def told_locks(gate, visit: Visit, asked: Asked, things: list[Thing]) -> list[Lock]:
    """The caller's own locks of what is shown, and then others', where the caller may write what is locked (or is shown
    of it): some of those that a path has."""
    top, paths = things[0].path, {it.path for it in things}
    locks = gate.locks.at(asked.room, top) + [it for path in paths - {top} for it in gate.locks.on(asked.room, path)]
    places = list({it.path if it.path in paths else top for it in locks if it.user != asked.user})
    allowed = dict(zip(places, may_write(visit, places)))
    found, counts = [], Counter()
    for it in sorted(locks, key=lambda it: it.user != asked.user):
        counts[it.path] += 1
        if counts[it.path] <= MOST_TOLD and (it.user == asked.user or allowed[it.path if it.path in paths else top]):
            found.append(it)
    return found


def proppatch(gate, visit: Visit, asked: Asked) -> Reply:
    """The room has no place for properties. What Explorer sets is taken, or it would report each file as failed."""
    names = list(dict.fromkeys(bodies.proppatch_of(asked.body(bodies.MOST_BYTES))))
    its = thing_at(visit, asked.path, is_shown=True)
    rules = Rules(visit, asked, gate.locks)
    rules.need()
    rules.need_free(its.path)
    rules.need_right(its.path)
    refused = [it for it in names if not it.startswith(TAKEN)]
    taken = [it for it in names if it.startswith(TAKEN)]
    inside = bodies.propstat(403, "".join(map(bodies.element, refused))) if refused else ""
    if taken:
        inside += bodies.propstat(424 if refused else 200, "".join(map(bodies.element, taken)))
    inside = inside or bodies.propstat(200, "")
    return Reply(207, bodies.multistatus([bodies.response(href(asked.room, its.path, its.is_folder), inside)]), [XML])
