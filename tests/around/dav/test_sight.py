"""Nobody sees or does by WebDAV what the lists do not let them: COUNT (3,000) random requests of three users, by SEED,
compared with a plain model of the room (tests/lib/plain.py), while lists and bytes change past the gateway. With
100,000, of four rooms at once:

    for it in 1 2 3 4; do SEED=$it COUNT=25000 pytest-3 tests/around/dav/test_sight.py & done; wait
"""
import base64
import random
import re
import time
from urllib.parse import unquote

import pytest
from given import number
from plain import Caller, PlainRoom, Refused

from .desk import EXCLUSIVE, PASSWORDS, tag_of

HOW = {"is_lossy": False}
GROUPS = {"ann": ["eng"], "bob": ["eng", "staff"], "cat": ["pupils"]}
COUNT, SEED = number("COUNT", 3000), number("SEED", 7)
NAMES = ["a", "b", "c"]
FRESH = 15.0  # seconds, as docs/DAV.md has it
ALL_BELOW = 0x46  # on a folder: for who locks it with all that is in it
MASKS = [0x1, 0x2, 0x4, 0x20, 0x40, 0x80, 0x10000, 0x1200A9, 0x1301EF, 0x1F07FF]


def data_of(reply):
    """The bytes that a READ of the model gives, or None."""
    return base64.b64decode(reply["data"]) if isinstance(reply, dict) else None


def parts(path):
    return tuple(it for it in path.split("/") if it)


def is_inside(a, b):
    return a[:len(b)] == b


def things_of(got):
    """Path, whether it is a folder, size and tag of each thing in an answer."""
    for text in re.findall(r"<D:response>.*?</D:response>", got.body.decode(), re.DOTALL):
        path = unquote(re.search("<D:href>(.*?)</D:href>", text)[1]).removeprefix("/dav/plans")
        size, tag = (re.search(f"<D:{it}>(.*?)</D:{it}>", text) for it in ("getcontentlength", "getetag"))
        yield (path, "<D:collection/>" in text, int(size[1]) if size else None,
               tag[1].replace("&quot;", '"') if tag else None)


class Pair:
    """A room by WebDAV, and the model of it."""

    def __init__(self, desk):
        self.desk, self.random, self.plain = desk, random.Random(SEED), PlainRoom(GROUPS, "ann", "eng")
        self.told = {}  # when a user was told this size and sum of a path: so long a listing may still tell it
        self.done, self.since = 0, 0.0

    def model(self, user, cmd, path, **more):
        """The model's reply, or its refusal's number."""
        try:
            return self.plain.do(Caller(user, GROUPS[user]), {"cmd": cmd, "path": parts(path), **more})
        except Refused as fault:
            return fault.code

    def set_list(self, user, path, aclflag, entries):
        """By the model and past the gateway."""
        want = self.model(user, "SETLIST", path, aclflag=aclflag, entries=entries)
        reply = self.desk.asked(user, "SETLIST", path, aclflag=aclflag, entries=entries)
        assert reply["code"] == (0 if isinstance(want, dict) else want)

    def draw(self):
        return "/" + "/".join(self.random.choice(NAMES) for _ in range(self.random.randint(1, 3)))

    def asks(self, user, method, path, body=b"", **how):
        self.done, self.since = self.done + 1, time.monotonic()
        return self.desk.ask(user, method, path, body, **how)

    def fits(self, got, want, done, refused):
        """Whether it is done where the model does it, and refused as it refuses."""
        wanted = done if isinstance(want, dict) else refused[want]
        assert got.status in (wanted if isinstance(wanted, tuple) else (wanted,)), got.body

    # What looks

    def get(self, user):
        path = self.draw()
        want, got = self.model(user, "READ", path), self.asks(user, "GET", path)
        # (whether it is a large file: where one may not look, nothing is told but that it is a folder)
        self.fits(got, want, 200, {1: 404, 2: 404, 3: (405, 403), 5: 403})
        if isinstance(want, dict):
            data = data_of(want)
            assert got.body == data
            self.told[user, path, len(data), tag_of(data)] = time.monotonic()

    def one(self, user):
        path = self.draw()
        self.compare_shown(user, path, self.asks(user, "PROPFIND", path, Depth="0"), False)

    def listing(self, user):
        """And at once by the others: what one was told is not for them."""
        path = self.random.choice(["/", self.draw()])
        for it in [user, *(it for it in sorted(PASSWORDS) if it != user)]:
            self.listing_by(it, path)

    def listing_by(self, user, path):
        want, got = self.model(user, "LIST", path), self.asks(user, "PROPFIND", path, Depth="1")
        if not isinstance(want, dict):
            return self.compare_shown(user, path, got, True)
        assert got.status == 207, got.body
        (top, *_), *inside = things_of(got)
        assert top.rstrip("/") == path.rstrip("/")
        kinds = [(at.rstrip("/").rpartition("/")[2], is_folder) for at, is_folder, *_ in inside]
        assert kinds == [(name, kind == "folder") for name, kind in want["names"]]
        for at, is_folder, size, tag in inside:
            if not is_folder:
                self.compare_file(user, at, size, tag)

    def compare_shown(self, user, path, got, is_list):
        read, stat = self.model(user, "READ", path), self.model(user, "STAT", path)
        is_told = isinstance(stat, dict) and not (is_list and stat["kind"] == "folder")
        if not isinstance(read, dict) and not is_told:
            assert got.status == (403 if 5 in (read, stat, self.model(user, "LIST", path)) else 404), got.body
            return
        assert got.status == 207, got.body
        (_, is_folder, size, tag), = things_of(got)
        if isinstance(read, dict):
            assert not is_folder
            self.compare_file(user, path, size, tag)
        else:
            want = stat["kind"] == "folder"
            assert (is_folder, tag, size) == (want, None, None if want else stat["size"])

    def compare_file(self, user, path, size, tag):
        """What a listing tells of a document is what the room tells this user of it now, or told them a moment ago."""
        data, stat = data_of(self.model(user, "READ", path)), self.model(user, "STAT", path)
        now = (len(data), tag_of(data)) if data is not None else (
            stat["size"] if isinstance(stat, dict) else None, None)
        if (size, tag) == now:
            self.told[user, path, size, tag] = time.monotonic()
        elif self.since - self.told.get((user, path, size, tag), -FRESH) >= FRESH:
            assert (size, tag) == now, path

    # What changes

    def put(self, user):
        path, data = self.draw(), self.random.randbytes(self.random.randint(0, 9))
        want, status = self.model(user, "CREATE", path, data=data), 201
        if want == 4:
            want, status = self.model(user, "WRITE", path, data=data), 204
        self.fits(self.asks(user, "PUT", path, data), want, status, {1: 409, 2: 409, 3: (405, 403), 5: 403})

    def mkcol(self, user):
        path = self.draw()
        want, got = self.model(user, "MKDIR", path), self.asks(user, "MKCOL", path)
        self.fits(got, want, 201, {1: 409, 2: 409, 4: 405, 5: 403, 11: 507})

    def delete(self, user):
        path = self.draw()
        want = self.model(user, "REMOVE", path)
        if want != 6:  # (a folder goes with all that is in it, as far as each of that may go: test_refusals)
            self.fits(self.asks(user, "DELETE", path), want, 204, {1: 404, 2: 404, 5: 403})

    def move(self, user):
        path, to = self.draw(), self.draw()
        if is_inside(parts(to), parts(path)) or is_inside(parts(path), parts(to)):
            return
        want = self.model(user, "RENAME", path, to=parts(to))
        if want != 4:
            lacks = 404, 409, 403
            self.fits(self.asks(user, "MOVE", path, to=to), want, 201, {1: lacks, 2: lacks, 5: 403})

    def copy(self, user):
        path, to = self.draw(), self.draw()
        data = data_of(self.model(user, "READ", path))
        if data is None or is_inside(parts(path), parts(to)) or is_inside(parts(to), parts(path)):
            return
        there = self.model(user, "ACCESS", to, mask=0)
        if isinstance(there, dict) and self.plain.things[parts(to)].is_folder:
            return
        want = self.model(user, "CREATE", to, data=data)
        if want == 4:
            # (whether it is there is looked at first: whoever may neither read nor see it is refused)
            if not any(isinstance(self.model(user, it, to), dict) for it in ("READ", "STAT")):
                want = 5
            else:
                want = self.model(user, "WRITE", to, data=data)
        self.fits(self.asks(user, "COPY", path, to=to), want, (201, 204), {1: 409, 2: 409, 5: 403})

    def lock(self, user):
        """A lock is for who may write, and is given back at once."""
        path = self.draw()
        its = self.plain.things.get(parts(path))
        mask = ALL_BELOW if its and its.is_folder else 0x2
        want = self.model(user, "ACCESS", path, mask=mask)
        if not isinstance(want, dict):
            return
        got = self.asks(user, "LOCK", path, EXCLUSIVE)
        assert got.status == (200 if want["allowed"] == mask else 403), got.body
        if got.status == 200:
            assert self.asks(user, "UNLOCK", path, Lock_Token=got.fields["lock-token"]).status == 204

    def change_list(self, _):
        """Past the gateway, by whoever owns a thing: what was seen before may be seen no longer."""
        path = "/" + "/".join(self.random.choice(sorted(self.plain.things)))
        if path == "/":
            return
        thing, who = self.plain.things[parts(path)], self.random.choice(["bob", "cat", "ann", "EVERYONE@", "OWNER@"])
        it = {"flag": self.random.choice([0, 3]) if thing.is_folder else 0, "mask": self.random.choice(MASKS),
              "type": self.random.choice([0, 0, 1]), "who": who}
        its = self.model(thing.owner, "GETLIST", path)
        if isinstance(its, dict):
            self.set_list(thing.owner, path, its["aclflag"], [it, *its["entries"]][:6])

    def write(self, user):
        """Past the gateway."""
        path, data = self.draw(), self.random.randbytes(self.random.randint(0, 9))
        want = self.model(user, "WRITE", path, data=data)
        reply = self.desk.asked(user, "WRITE", path, data=base64.b64encode(data).decode())
        assert reply["code"] == (0 if isinstance(want, dict) else want)

    def compare_rooms(self):
        """All that the model has, the room has, asked for by each thing's owner where its list lets them."""
        for at, it in self.plain.things.items():
            for user in PASSWORDS:
                path, cmd = "/" + "/".join(at), "LIST" if it.is_folder else "READ"
                want, got = self.model(user, cmd, path), self.desk.asked(user, cmd, path)
                assert (got if got["code"] == 0 else got["code"]) == want


@pytest.mark.timeout(600 + COUNT)
def test_three_users(desk, tell):
    pair = Pair(desk)
    pair.set_list("ann", "/", 0, [{"flag": 0, "mask": 0x1301EF, "type": 0, "who": "EVERYONE@"},
                                  {"flag": 3, "mask": 0x1F07FF, "type": 0, "who": "OWNER@"}])
    kinds = [pair.listing, pair.one, pair.get, pair.get, pair.put, pair.put, pair.mkcol, pair.delete, pair.move,
             pair.copy, pair.lock, pair.change_list, pair.change_list, pair.write]
    while pair.done < COUNT:
        user, kind = pair.random.choice(sorted(PASSWORDS)), pair.random.choice(kinds)
        try:
            kind(user)
        except AssertionError as fault:
            fault.add_note(f"request {pair.done}: {kind.__name__} by {user}")
            raise
    pair.compare_rooms()
    tell(f"dav: {pair.done} requests were compared with the model, {len(pair.plain.things)} things at the end")
