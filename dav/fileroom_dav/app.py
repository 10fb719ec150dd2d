"""The gateway as a WSGI application: what it answers to a request, and never more than the caller's login is told."""
import contextlib
import functools
import json
import os
import re
import sys
import traceback
from collections.abc import Iterable

from room_client.faults import Fault

from . import bodies, latest, locking, moving, props, reading, saving, writing
from .asked import Asked, Reply
from .bodies import DAV
from .faults import Answered, LATER, REASONS, as_answered
from .locks import Locks
from .memory import Memory
from .names import BASE, ROOM, for_making, is_passing
from .passing import MOST_BYTES as MOST_PASSING, Passing
from .seats import Seats
from .seen import Seen
from .spool import Sent
from .steps import Asides, Steps
from .tree import sum_of
from .turns import MOST_AT_WORK, MOST_UNREAD, Share

MOST_BODY = 1 << 24
METHODS = {"GET": reading.get, "HEAD": reading.get, "PUT": writing.put, "DELETE": writing.delete,
           "MKCOL": writing.mkcol, "COPY": moving.copy, "MOVE": moving.move, "LOCK": locking.lock,
           "UNLOCK": locking.unlock, "PROPFIND": props.propfind, "PROPPATCH": props.proppatch}
ALLOW = ", ".join(["OPTIONS", *METHODS])
OFFERED = [("DAV", "1, 2"), ("Allow", ALLOW), ("MS-Author-Via", "DAV")]
GUARDED = [  # what people put into a room is no page of this site
    ("Content-Security-Policy", "default-src 'none'; sandbox; frame-ancestors 'none'"),
    ("X-Content-Type-Options", "nosniff"), ("Cross-Origin-Resource-Policy", "same-origin"),
    ("Referrer-Policy", "no-referrer"), ("Cache-Control", "private, no-cache")]


class Gate:
    """`front` is the front's socket, or its HOST:PORT; `folder` keeps sessions, locks and times."""

    def __init__(self, front: str, folder: str, patience: float = 60.0):
        os.makedirs(folder, mode=0o700, exist_ok=True)
        self.seats, self.locks = Seats(front, folder, patience), Locks(os.path.join(folder, "locks"))
        self.seen, self.memory, self.passing = Seen(os.path.join(folder, "seen")), Memory(), Passing()
        self.asides, self.steps = Asides(os.path.join(folder, "asides")), Steps(os.path.join(folder, "steps"))
        self.at_work, self.floor = Share(MOST_AT_WORK), self.seats.floor
        self.unread = Share(MOST_UNREAD, "too many large answers to you are not read yet")

    @contextlib.contextmanager
    def changing(self, room: str, path: str):
        """What listings were told is old from here on, and what they are told meanwhile is not kept."""
        self.memory.changed(room, path)
        try:
            yield
        finally:
            self.memory.changed(room, path)

    def __call__(self, environ: dict, start_response) -> Iterable[bytes]:
        reply = self.answer(environ)
        is_bare = environ["REQUEST_METHOD"] == "HEAD" or reply.status in (204, 304)
        fields = [*reply.fields, *GUARDED]
        if not any(name == "Content-Length" for name, _ in fields) and reply.status not in (204, 304):
            fields.append(("Content-Length", str(len(reply.body))))
        start_response(f"{reply.status} {REASONS[reply.status]}", fields)
        if isinstance(reply.body, Sent):
            return environ["wsgi.file_wrapper"](reply.body)
        return [] if is_bare else [reply.body]

    def answer(self, environ: dict) -> Reply:
        try:
            if environ["REQUEST_METHOD"] == "OPTIONS":
                return Reply(200, b"", OFFERED)
            return self.in_turn(Asked.of(environ, MOST_BODY))
        except Answered as fault:
            return refusal(fault)
        except Fault as fault:
            return refusal(as_answered(fault))
        except Exception:
            traceback.print_exc(file=sys.stderr)
            return refusal(Answered(500, "the gateway failed: its log says how"))

    def in_turn(self, asked: Asked) -> Reply:
        with self.at_work.of(asked.user), self.floor.of(asked.user):
            self.unread.need(asked.user)
            reply = self.done(asked)
            if isinstance(reply.body, Sent):
                reply.body.at_end = functools.partial(self.unread.leave, asked.user)
                self.unread.add(asked.user)
            return reply

    def done(self, asked: Asked) -> Reply:
        if asked.method not in METHODS:
            raise Answered(501, f"there is no {asked.method[:20]} here")
        if asked.room is None:
            return self.rooms(asked)
        if is_passing(asked.path) and asked.method not in ("COPY", "MOVE"):
            return self.passed(asked)
        return self.seats.visits(asked.room, asked.user, asked.password, lambda visit: self.visited(visit, asked))

    def visited(self, visit, asked: Asked) -> Reply:
        if asked.method == "LOCK" or asked.field("If"):  # (locks are looked at before the room is asked)
            self.need_login(asked, "/whoami")
        if asked.wants_latest:
            return latest.get(self, visit, asked)
        saving.settle(self, visit, asked)
        return METHODS[asked.method](self, visit, asked)

    # Above the rooms

    def need_login(self, asked: Asked, target: str) -> bytes:
        status, told = self.seats.file_of_front(asked.user, asked.password, target)
        if status == 401:
            raise Answered(401, "the login or its password is wrong")
        if status != 200:
            raise Answered(502, f"the front answered {status}")
        return told

    def rooms(self, asked: Asked) -> Reply:
        """The rooms with WebDAV are folders of a folder that nobody changes."""
        names = [it for it in json.loads(self.need_login(asked, "/dav.json")) if ROOM.fullmatch(it)]
        if asked.method != "PROPFIND":
            raise Answered(405, "here are the rooms: open one")
        wanted, found = bodies.propfind_of(asked.body(bodies.MOST_BYTES)), {DAV + "resourcetype": "<D:collection/>"}
        if asked.depth == "infinity":
            raise Answered(403, "ask for one folder at a time (Depth 0 or 1)", "propfind-finite-depth")
        where = [BASE] + [f"{BASE}{it}/" for it in names if asked.depth == "1"]
        told = [bodies.response(it, props.Wanted(wanted).told_of(found)) for it in where]
        return Reply(207, bodies.multistatus(told), [props.XML])

    # What does not reach a room

    def passed(self, asked: Asked) -> Reply:
        self.need_login(asked, "/whoami")
        where = asked.room, asked.user, for_making(asked.path)
        if asked.method in ("PUT", "LOCK"):
            return self.put_passing(asked, where)
        data = self.passing.get(*where)
        if asked.method == "MKCOL":
            raise Answered(403, "no folder of that name is kept")
        if asked.method == "UNLOCK":
            return Reply(204)
        if data is None:
            raise Answered(404, f"nothing is at {asked.path}")
        if asked.method == "DELETE":
            self.passing.drop(*where)
            return Reply(204)
        if asked.method in ("GET", "HEAD"):
            return Reply(200, data, [("Content-Type", "application/octet-stream"),
                                     ("Content-Disposition", "attachment")])
        its = props.Thing(asked.path, False, len(data), sum_of(data))
        wanted = bodies.propfind_of(asked.body(bodies.MOST_BYTES)) if asked.method == "PROPFIND" else []
        inside = props.Wanted(wanted).told_of(props.properties(its, "", None))
        return Reply(207, bodies.multistatus([bodies.response(
            props.href(asked.room, asked.path, False), inside)]), [props.XML])

    def put_passing(self, asked: Asked, where: tuple[str, str, str]) -> Reply:
        if asked.method == "PUT":
            if asked.length > MOST_PASSING:  # (it is forgotten at once)
                return Reply(204 if self.passing.drop(*where) else 201)
            return Reply(201 if self.passing.put(*where, asked.body(MOST_PASSING)) else 204)
        raise Answered(403, "such a file is not locked")


def refusal(fault: Answered) -> Reply:
    """Why, in the body: for a reader, or in XML where RFC 4918 has a name for it."""
    fields = [("Content-Type", "text/plain; charset=utf-8")]
    body = (re.sub(r"[\x00-\x1f\x7f]", "?", fault.why) + "\n").encode(errors="replace")
    if fault.condition:
        fields, body = [props.XML], bodies.error(fault.condition, fault.why, fault.where)
    if fault.status == 401:
        fields.append(("WWW-Authenticate", 'Basic realm="rooms"'))
    if fault.status == 405:
        fields.append(("Allow", ALLOW))
    if fault.status == 503:
        fields.append(("Retry-After", LATER))
    return Reply(fault.status, body, fields)
