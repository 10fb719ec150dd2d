"""What the tests of saves share: programs, and documents whose list denies pupils what is in them, each in a folder of
its own that they may view."""
import base64
import contextlib
import json
import os
import shutil
import sqlite3

from room_client.words import FOLDER

from .desk import EXCLUSIVE, HERS, PIECE, Desk, makes_changes

ENG_CHANGES = {"flag": 0x43, "mask": 0x1301EF, "type": 0, "who": "eng"}
ENG_EDITS = ENG_CHANGES | {"mask": 0x1200AF}
PUPILS_VIEW = {"flag": 0x43, "mask": 0x1200A9, "type": 0, "who": "pupils"}
NO_PUPILS = {"flag": 0x40, "mask": 0x1, "type": 1, "who": "pupils"}
PLANS = [ENG_CHANGES, HERS, PUPILS_VIEW]
TRASH = "/trash/@%x/ann" % (sum(b"ann") % 16)
SIZES = SMALL, LARGE = 2_000, 200_000
SECRET = b"new secret"
# The steps of each program: a method, a name, and behind > where it goes, or the bytes, of which * are the new ones.
PROGRAMS = {
    "word": "PUT ~WRD{n}.tmp > *; MOVE {doc} > ~WRL{n}.tmp; MOVE ~WRD{n}.tmp > {doc}; DELETE ~WRL{n}.tmp",
    "excel": "PUT 5D4A1F{n:02} > *; MOVE {doc} > {n}CF3.tmp; MOVE 5D4A1F{n:02} > {doc}; DELETE {n}CF3.tmp",
    "vim": "PUT 4913; DELETE 4913; MOVE {doc} > {doc}~; PUT {doc} > *; DELETE {doc}~",
    "vim over davfs": "MOVE {doc} > {doc}~; LOCK {doc}; PUT {doc} > *; UNLOCK {doc}; DELETE {doc}~",
    "vim with another name": "MOVE {doc} > x~; LOCK {doc}; PUT {doc} > *; UNLOCK {doc}; DELETE x~",
    "emacs": "MOVE {doc} > {doc}~; PUT {doc} > *",  # (it keeps what it moved aside, and moves the next one over it)
    "gimp": "PUT .goutputstream-{n} > *; MOVE .goutputstream-{n} > {doc}",
    "office": "PUT .~lock.{doc}# > ann; PUT lu{n}.tmp > *; MOVE lu{n}.tmp > {doc}; DELETE .~lock.{doc}#",
    "office by webdav": "LOCK {doc}; PUT {doc} > *; UNLOCK {doc}",
    "copier": "PUT new{n}.tmp > *; MOVE {doc} > {n} {doc}.bak; COPY new{n}.tmp > {doc}; DELETE new{n}.tmp; "
              "DELETE {n} {doc}.bak",
    "backup": "COPY {doc} > {doc}.bak; PUT {doc} > *; DELETE {doc}.bak"}


class Saves(Desk):
    log = "said"
    count = 0  # of folders

    def __init__(self, folder, **how):
        super().__init__(folder, **how)
        look = {"flag": 0x40, "mask": 0x1200A9, "type": 0}
        root = self.wire("ann", "GETLIST", "/")
        self.set_list("/", root["aclflag"], [*root["entries"], look | {"who": "eng"}, look | {"who": "pupils"}])
        for path in "/trash", os.path.dirname(TRASH), TRASH:
            self.wire("ann", "MKDIR", path)
        self.set_list(TRASH, 2, [HERS])

    def set_list(self, path, aclflag, entries):
        self.wire("ann", "SETLIST", path, aclflag=aclflag, entries=entries)

    def made(self, data=b"old secret", owner="ann", entries=PLANS, doc="a.odt", own=None):
        """A document that pupils are denied, or that has this list, in a folder of its own that they may view."""
        self.count += 1
        self.top = f"/p{self.count}"
        self.wire("ann", "MKDIR", self.top)
        self.set_list(self.top, 2, entries)
        self.does(owner, "PUT", doc, 201, data)
        self.set_list(doc, 1, [NO_PUPILS | {"flag": 0x43 if len(data) > PIECE else 0x40}] if own is None else own)
        return doc

    # What is there

    def inside(self, path=None):
        """Kinds by name."""
        return dict(self.wire("ann", "LIST", path or self.top)["names"])

    def sizes(self, folder):
        """Of each document in a folder."""
        return {it: self.wire("ann", "STAT", f"{self.at(folder)}/{it}")["size"] for it in self.inside(folder)}

    def kept(self, doc):
        """What stays over a save: all but the bytes."""
        its = self.wire("ann", "STAT", doc)
        return {it: its[it] for it in ("owner", "group", "kind")}, self.wire("ann", "GETLIST", doc)

    def itself(self, doc):
        return self.kept(doc), self.number(doc)

    def number(self, doc):
        """Which no request tells."""
        return self.looked("SELECT a.id FROM node a, node b WHERE a.parent = b.id AND a.name = ? AND b.name = ?",
                           doc, self.top[1:])

    def numbers(self):
        """How many were given."""
        return self.looked("SELECT next FROM room")

    def looked(self, words, *values):
        copy = self.path("look.db")
        for end in "", "-wal":
            with contextlib.suppress(FileNotFoundError):
                shutil.copy(self.served.db + end, copy + end)
        with contextlib.closing(sqlite3.connect(copy)) as table:
            return table.execute(words, values).fetchone()[0]

    def said(self):
        with open(self.path(self.log)) as file:
            return file.read()

    def shown(self, *secrets):
        """Names in the folder under which the room gives the denied bytes of these."""
        def read(path):
            return base64.b64decode(self.asked("cat", "READ", path, keep=False).get("data", ""))
        return [it for it in self.paths_in(self.top) if (data := read(it)) and any(one in data for one in secrets)]

    def paths_in(self, folder):
        for name, kind in self.asked("cat", "LIST", folder, keep=False).get("names", []):
            yield f"{folder}/{name}"
            if kind == FOLDER:
                yield from self.paths_in(f"{folder}/{name}")

    # Saves

    def steps(self, program, doc):
        for step in PROGRAMS[program].split("; "):
            method, _, more = step.format(doc=doc, n=self.count).partition(" ")
            name, _, to = more.partition(" > ")
            yield method, name, to

    def step(self, user, step, new=b"", token=""):
        """The answer, and the token of a lock that is held then."""
        method, name, more = step
        how = {"MOVE": {"to": more}, "COPY": {"to": more}, "LOCK": {"Depth": "0"}, "UNLOCK": {"Lock_Token": token},
               "PUT": {"If": f"({token})"} if token else {}}.get(method, {})
        body = {"PUT": new if more == "*" else more.encode(), "LOCK": EXCLUSIVE}.get(method, b"")
        got = self.ask(user, method, name, body, **how)
        return got, got.fields.get("lock-token", token)

    def save(self, program, user, doc, new, *secrets):
        """As a program does it. Between two of the gateway's requests to the room, too, the denied ask for it all."""
        token, seen = "", []

        def look(message):
            if makes_changes(message):
                seen.extend(self.shown(*secrets))
            return False
        for step in self.steps(program, doc):
            self.loser.meanwhile = look, None
            got, token = self.step(user, step, new, token)
            self.loser.meanwhile = None
            assert got.status < 300, (user, step, got.body)
            assert self.ask("cat", "GET", doc).status in (403, 404), step
            assert self.shown(*secrets) == [], step
        assert seen == []

    # What comes behind an answer

    def sessions_behind(self):
        """The names of the sessions in which the gateway asks behind its answers."""
        folder = self.path("state/sessions/plans")
        for name in os.listdir(folder):
            if name.endswith("@4"):
                with open(os.path.join(folder, name)) as file:
                    yield json.load(file)["name"]

    def is_behind(self, message):
        return any(it.encode() in message for it in self.sessions_behind())

    def large(self, size=2 * PIECE + 99):
        """A file of three versions, so that there is a spare: its name, and the bytes of the last two."""
        self.made(b"old")
        data = [os.urandom(size) for _ in range(2)]
        for at, it in enumerate(data):
            self.does("ann", "PUT", "large", 204 if at else 201, it)
        self.quiet()
        return "large", data

    def need_one_spare(self, name):
        """Without bytes. How many documents it has."""
        self.quiet()
        names = self.inside(name)
        gone = [it for it in names if it.startswith(".room-gone-")]
        assert (len(gone), len(names)) == (1, 3), names
        sizes = self.sizes(f"{name}/{gone[0]}")
        assert {*sizes.values()} == {0}
        return len(sizes)
