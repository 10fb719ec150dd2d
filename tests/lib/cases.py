"""The cases of tests/cases/cases.toml, by which client, gateway and page are held to docs/FILES.md. Each is laid in a
folder of a room, and looked at, by the room's wire alone, and by no code of the three."""
import base64
import functools
import hashlib
import json
import os
import random
import re
import threading
import time
import tomllib

from given import each
from served import HERE, Line, session, slot, until

TOP, TRASH = "/cases", "/trash/@d/ann"
NAME, PIECE, MARK = ".room-file", 65536, "0123456789abcdef"
PRIVATE = [{"flag": flag, "mask": 0x1F07FF, "type": 0, "who": it} for it, flag in (("OWNER@", 0), ("ann", 3))]
OPEN = [*PRIVATE, {"flag": 3, "mask": 0x1200A9, "type": 0, "who": "bob"}]
TRASHES = {"own": (TRASH, 2, PRIVATE), "older": ("/trash/ann", 2, PRIVATE), "open": (TRASH, 2, OPEN),
           "inherits": (TRASH, 1, PRIVATE), "bob's": (TRASH, 2, PRIVATE)}
PIECES, GONE = (re.compile(rf"\.room-{it}-[0-9a-f]{{16}}") for it in ("pieces", "gone"))
COUNTS, BEHIND = {"spare": 0, "extra": 0}, 120  # seconds until all is done that comes behind an answer
ASKS = re.compile(rb'"cmd":"(CREATE|MKDIR|WRITE)",.*"path":"([^"]*)"', re.DOTALL)
INHERITED, ENTRY = 0x80, re.compile("([+-])(.+):([0-9A-Fx]+):([0-9]+)")
STEP = re.compile(r"(\w+) (.*?)(?: ([=!&]) (.*))?")
with open(os.path.join(HERE, "cases", "cases.toml"), "rb") as file:
    TABLE = tomllib.load(file)


def each_case(player):
    """A case for each of those that this one plays."""
    return each("number, case", [(it["name"], at, it) for at, it in enumerate(TABLE["case"])
                                 if player.name not in it.get("not", {})])


class No(Exception):
    """What a player said who did not do a step."""


class Marks(dict):
    """The names beside a document that has the name asked for."""

    def __missing__(self, name):
        return self["begins"] + hashlib.sha256(NAMES.get(name, name).encode()).hexdigest()[:16]


NAMES = {"P": f".room-pieces-{MARK}", "OTHER": f".room-pieces-{MARK[::-1]}", "W": f".room-writing-{MARK}",
         "G": f".room-gone-{MARK[8:]}{MARK[:8]}", "G2": f".room-gone-{MARK[::-1]}", "new": Marks(begins=".room-new-"),
         "gone": Marks(begins=".room-gone-"),
         "deep": ["/".join("d" * it) for it in range(15)], **TABLE["names"]}


@functools.cache
def some(word):
    """The bytes that a word stands for: `70000b[1]` is the second piece of version b of 70,000 bytes."""
    size, version, piece = re.fullmatch(r"(\d+)(\w*)(?:\[(\d+)])?", word).groups()
    count = int(size)
    draw = random.Random(size + version)
    data = draw.randbytes(count) if count > 999 else draw.randbytes(count).hex()[:count].encode()
    return data if piece is None else data[PIECE * int(piece):PIECE * (int(piece) + 1)]


def pieces_of(data):
    return [data[at:at + PIECE] for at in range(0, max(len(data), 1), PIECE)]


def manifest_of(data, folder=NAMES["P"]):
    return {"folder": folder, "form": 1, "pieces": [f"{it:03}" for it in range(len(pieces_of(data)))],
            "sha256": hashlib.sha256(data).hexdigest(), "size": len(data)}


def compact(it):
    return json.dumps(it, separators=(",", ":")).encode()


def odd_manifest(words):
    """Of some bytes, with other members; `sum=` names other bytes, `text=` has what stands in its place, `blanks=` how
    many stand behind it, `turned=` that the last member comes first, with blanks between."""
    its, other = manifest_of(some(words[0])), dict(it.split("=", 1) for it in words[1:])
    text, blanks = other.pop("text", None), int(other.pop("blanks", "0"))
    if other.pop("turned", None):
        return json.dumps(dict(reversed(its.items()))).encode() + b" " * blanks
    if "sum" in other:
        its["sha256"] = hashlib.sha256(b"".join(map(some, other.pop("sum").split("+")))).hexdigest()
    its |= {name: json.loads(it) for name, it in other.items()}
    lawful = compact({name: it for name, it in its.items() if it is not None})
    return (text.encode() if text else lawful) + b" " * blanks


class Judge:
    """A slot of ann's, past front and player: open while it is used, as a room serves one connection at a time."""

    def __init__(self, port):
        self.port, self.seq, self.line, self.lock = port, 0, None, threading.Lock()
        self.sid = os.urandom(16).hex()

    def __enter__(self):
        self.lock.acquire()  # (a request of the case before may still be under way)
        self.line = Line(self.port)
        self.line.ask(session(1, self.sid))
        return self

    def __exit__(self, *_):
        self.line.close()
        self.lock.release()

    def tells(self, cmd, path, **more):
        """What the room says to a command, or {} where it refuses."""
        self.seq += 1
        told = json.loads(self.line.ask(slot(0, self.seq, {"cmd": cmd, "path": path, **more}, sid=self.sid)).body)
        return told if told["code"] == 0 else {}

    def needs(self, cmd, path, **more):
        if not self.tells(cmd, path, **more):
            raise AssertionError(f"{cmd} of {path} is refused")

    def names(self, path):
        return dict(self.tells("LIST", path).get("names", []))

    def bytes(self, path):
        found = self.tells("READ", path).get("data")
        return None if found is None else base64.b64decode(found)

    def put(self, cmd, path, data):
        self.needs(cmd, path, data=base64.b64encode(data).decode())


class Laid:
    """A folder of the room with what a case has there."""

    def __init__(self, room, number, case):
        self.room, self.top, self.trash = room, f"{TOP}/c{number:02}", TRASH
        lines = case.get("before", []) + case.get("after", [])
        self.looks = any("owner=" in it or "entry=" in it for it in lines)  # whose all is, and at its lists
        self.empty = {f"{it.partition(':')[0]}{at:03}" for it in lines if ": many " in it for at in range(256)}
        self.empty -= {it.partition(":")[0] for it in lines}  # (they are not read)
        self.made = set()

    def at(self, path):
        return self.trash + path[1:] if path.startswith("~") else self.top if path == "." else f"{self.top}/{path}"

    def named(self, text):
        return text.format_map(NAMES | {"here": self.top.strip("/").replace("/", "~")})

    def make_trash(self, kind):
        self.trash, flags, entries = TRASHES[kind]
        self.need_folder(self.trash)
        self.room.needs("SETLIST", self.trash, aclflag=flags, entries=entries)
        if kind == "bob's":
            self.room.needs("CHOWN", self.trash, owner="bob", group="eng")

    def need_folder(self, path):
        above = ""
        for name in path.split("/")[1:]:
            above += f"/{name}"
            if above not in self.made:
                self.room.tells("MKDIR", above)
            self.made.add(above)

    def lay(self, line):
        name, _, its = self.named(line).partition(": ")
        kind, *words = its.split(" ")
        path, how = self.at(name), [it for it in words if it.startswith(("owner=", "entry=", "flags="))]
        words = [it for it in words if it not in how]
        self.need_folder(path.rpartition("/")[0])
        self.thing(path, kind, words)
        owner, flags, entries = read_how(how)
        if owner != "ann:eng":
            for it in sorted(self.kinds(path), reverse=True):
                self.room.needs("CHOWN", it, owner=owner.split(":")[0], group="eng")
        if entries or flags != 1:
            self.room.needs("SETLIST", path, aclflag=flags, entries=entries)

    def thing(self, path, kind, words):
        if kind == "folder":
            self.need_folder(path)
        elif kind == "many":
            for it in range(int(words[0])):
                self.room.put("CREATE", f"{path}{it:03}", b"")
        elif kind == "manifest":
            self.room.put("CREATE", path, odd_manifest(words))
        elif kind == "large":
            self.need_folder(path)
            self.write(path, some(words[0]), NAMES["P"])
            for it in range(counts(words)["spare"]):
                self.need_folder(f"{path}/{NAMES['G']}")
                self.room.put("CREATE", f"{path}/{NAMES['G']}/{it:03}", b"")
        else:
            self.room.put("CREATE", path, some(kind))

    def write(self, path, data, folder):
        """A version of a large file, and none besides."""
        names, its = self.room.names(path), manifest_of(data, folder)
        self.room.needs("MKDIR", f"{path}/{folder}")
        for name, piece in zip(its["pieces"], pieces_of(data)):
            self.room.put("CREATE", f"{path}/{folder}/{name}", piece)
        self.room.put("WRITE" if NAME in names else "CREATE", f"{path}/{NAME}", compact(its))
        for old in [it for it in names if it.startswith(".room-pieces-")]:
            self.remove_all(f"{path}/{old}")

    def remove_all(self, path):
        for it in sorted(self.kinds(path), reverse=True):
            self.room.needs("REMOVE", it)

    def kinds(self, path, kind="folder"):
        """Of a thing and of all below it, with full paths."""
        found = {path: kind}
        for name, its in self.room.names(path).items() if kind == "folder" else ():
            found |= self.kinds(f"{path}/{name}", its)
        return found

    def version(self, path, names):
        """The bytes of a large file that is whole, by the form that docs/FILES.md has, where its pieces are, and how
        many empty documents lie behind these."""
        text = self.room.bytes(f"{path}/{NAME}") if NAME in names else None
        folder = next((it for it in names if text and it.encode() in text), None)
        if not folder or not PIECES.fullmatch(folder):
            return None, None, 0
        pieces = sorted(self.room.names(f"{path}/{folder}"))
        parts = [self.room.bytes(f"{path}/{folder}/{it}") for it in pieces]
        data = b"".join(it or b"" for it in parts)
        its = manifest_of(data, folder)
        extra = len(pieces) - len(its["pieces"])
        is_it = text == compact(its) and pieces == numbered(len(pieces)) and parts == pieces_of(data) + extra * [b""]
        return (data, folder, extra) if is_it else (None, None, 0)

    def spare(self, path, names):
        """The folder of empty documents that a large file has besides, and how many they are."""
        inside = {it: sorted(self.room.names(f"{path}/{it}")) for it in names if GONE.fullmatch(it)}
        fits = {it: len(found) for it, found in inside.items() if found and found == numbered(len(found)) and not any(
            self.room.bytes(f"{path}/{it}/{one}") for one in found)}
        return fits.popitem() if len(fits) == 1 else (None, 0)

    def held(self, path):
        """The bytes of a file, or None where there is none."""
        names = self.room.names(path)
        return self.version(path, names)[0] if names else self.room.bytes(path)

    def found(self):
        """All that is there: each whole file as one, with whose it is and what its list has of its own."""
        found = {}
        for start, top in ("", self.top), ("~/", self.trash):
            for name, kind in self.room.names(top).items() if not start or self.made & {self.trash} else ():
                self.look(found, start + re.sub(r" \([0-9a-f]{4}\)$", " (HEX)", re.sub("[0-9]{14}$", "TIME", name)),
                          f"{top}/{name}", kind)
        return found

    def look(self, found, name, path, kind):
        if kind != "folder":
            data = b"" if name in self.empty else self.room.bytes(path)
            found[name] = "document", data, *self.how(path, [])
            return
        names = self.room.names(path)
        data, folder, extra = self.version(path, names)
        spare, many = self.spare(path, names) if folder else (None, 0)
        seen = [it for it in (NAME, folder, spare) if folder and it]
        parts = [part for it in seen for part in self.kinds(f"{path}/{it}", names[it])] if self.looks else []
        found[name] = large(many, extra) if folder else "folder", data, *self.how(path, parts)
        for it, its in names.items():
            if it not in seen:
                self.look(found, f"{name}/{it}", f"{path}/{it}", its)

    def how(self, path, parts):
        """Whose all of it is, and its list, which the parts follow."""
        if not self.looks:
            return read_how([])
        owners = {"{owner}:{group}".format(**self.room.tells("STAT", it)) for it in [path, *parts]}
        own = self.own(path)
        odd = [it for it in parts if self.own(it) != (1, [])]
        return " ".join(sorted(owners) + odd), *own

    def own(self, path):
        its = self.room.tells("GETLIST", path)
        return its["aclflag"], [it for it in its["entries"] if not it["flag"] & INHERITED]

    def wanted(self, lines):
        found = {}
        for line in lines:
            name, _, its = self.named(line).partition(": ")
            kind, *words = its.split(" ")
            how = read_how([it for it in words if "=" in it])
            for at in range(name.count("/")):
                above = "/".join(name.split("/")[:at + 1])
                if above != "~":
                    found.setdefault(above, ("folder", None, "ann:eng", 1, []))
            if kind == "many":
                found |= {f"{name}{it:03}": ("document", b"", *how) for it in range(int(words[0]))}
            elif kind == "manifest":
                found[name] = "document", odd_manifest(words), *how
            else:
                data = None if kind == "folder" else some(words[0] if kind == "large" else kind)
                told = large(**counts(words)) if kind == "large" else kind
                found[name] = told if kind in ("folder", "large") else "document", data, *how
        return found


def numbered(count):
    return [f"{it:03}" for it in range(count)]


def counts(words):
    """Of the empty documents that a large file has besides."""
    return COUNTS | {it.partition("=")[0]: int(it.partition("=")[2]) for it in words if it.startswith((*COUNTS,))}


def large(spare, extra):
    return " ".join(["large", *[f"{name}={it}" for name, it in (("spare", spare), ("extra", extra)) if it]])


def read_how(words):
    """Owner, flags of the list and its own entries."""
    owner, flags, entries = "ann:eng", 1, []
    for it in words:
        name, _, value = it.partition("=")
        if name == "owner":
            owner = f"{value}:eng"
        elif name == "flags":
            flags = int(value)
        elif name == "entry":
            sign, who, mask, flag = ENTRY.fullmatch(value).groups()
            entries.append({"flag": int(flag), "mask": int(mask, 16), "type": int(sign == "-"), "who": who})
    return owner, flags, entries


def brief(found):
    """Of what is there, with sizes in the place of bytes, for a reader."""
    return {name: (kind, len(data) if data is not None else "", *how) for name, (kind, data, *how) in found.items()}


class Played:
    """One case with one player."""

    def __init__(self, number, case, player, judge):
        self.number, self.case, self.player, self.judge = number, case, player, judge
        self.lock, self.seen, self.is_due = threading.Lock(), [], True
        self.asked, self.heard_at = set(), 0  # what was made or written, and when something was asked last
        self.quiet = getattr(player, "quiet", 0)

    def differs(self, name, got, want):
        assert got == want, f"{self.player.name}: {self.case['name']}: {name}"

    def play(self):
        case = self.case
        with self.judge as room:
            laid = Laid(room, self.number, case)
            laid.need_folder(laid.top)
            if "trash" in case:
                laid.make_trash(case["trash"])
            for line in case.get("before", []):
                laid.lay(line)
            before = laid.found()
        self.player.watch(self.request)
        try:
            for step in case["does"]:
                self.step(laid, laid.named(step))
            want = laid.wanted(case["after"]) if "after" in case else before
            until(lambda: self.is_quiet() and self.found(laid) == want, BEHIND if self.quiet else 0)
        finally:
            self.player.watch(None)
        self.look(laid, want)
        if "trash" in case:
            with self.lock, self.judge:
                laid.remove_all("/trash")

    def is_quiet(self):
        """Whether the player has asked for nothing for as long as it says, if it goes on behind its answers."""
        return time.monotonic() - self.heard_at >= self.quiet

    def found(self, laid):
        with self.lock, self.judge:  # (a request may still be under way)
            return laid.found()

    def look(self, laid, want):
        case, found = self.case, self.found(laid)
        if found != want:
            is_same = brief(found) == brief(want)
            self.differs("what is there", brief(found), "other bytes" if is_same else brief(want))
        self.differs("all is as it is to be", found == want, True)
        made = sum(cmd != b"WRITE" and b"/.room-writing-" in path for cmd, path in self.asked)
        self.differs("what is made", made, case.get("makes", made))
        wrote = sum(cmd != b"MKDIR" for cmd, _ in self.asked)
        self.differs("what is written", wrote, case.get("writes", wrote))
        if "reader" in case:
            wanted = [None if it == "nothing" else some(it) for it in case["reader"][1:]]
            sizes = [None if it is None else len(it) for it in self.seen]
            self.differs(f"what a reader saw, in turn, {sizes}", self.seen == wanted, True)
        if "meanwhile" in case:
            self.differs("somebody else came between", self.is_due, False)

    def request(self, body):
        """What happens before a request of the player comes to the room."""
        asks = ASKS.search(body)
        self.heard_at = time.monotonic()
        self.asked |= {asks.groups()} if asks else set()
        if not {"reader", "meanwhile"} & self.case.keys():
            return
        with self.lock, self.judge as room:
            laid = Laid(room, self.number, self.case)
            if "reader" in self.case:
                data = laid.held(laid.at(self.case["reader"][0]))
                if not self.seen or self.seen[-1] != data:
                    self.seen.append(data)
            *signs, path, word = self.case.get("meanwhile", [None, "", ""])
            if self.is_due and all(it and it.encode() in body for it in signs):
                self.is_due = False
                laid.write(laid.at(path), some(word), NAMES["OTHER"])

    def step(self, laid, text):
        verb, words, sign, want = STEP.fullmatch(text).groups()
        path, *more = words.split(" ")
        if verb == "put":
            more = [some(more[0])]
        elif verb in ("rename", "copy"):
            more = [laid.at(more[0])]
        got = said = None
        try:
            got = getattr(self.player, verb)(path if verb == "restore" else laid.at(path), *more)
        except No as no:
            said = str(no)
        if sign == "!":
            is_told = said and all(it in said for it in self.words(want).split(" .. "))
            self.differs(text, is_told or said or "it is done", True)
        elif said is not None:
            self.differs(text, said, "it is done")
        elif sign == "&":
            self.differs(text, self.words(want) in got or got, True)
        elif verb == "list":
            self.differs(text, got, self.listing(want))
        elif verb == "get":
            self.differs(f"{text}, of {len(got)} bytes", got == some(want), True)

    def words(self, name):
        """What this player says of it; nothing, where it says nothing."""
        return TABLE["words"][name].get(self.player.name, "")

    def listing(self, want):
        """Each name with what is told of it: a size, `/` of a folder, `?` of an unfinished upload."""
        its = dict(it.rsplit(" ", 1) for it in want.split(", ")) if want != "nothing" else {}
        odd = {"/": "/", "?": "?" if self.words("unfinished") else "/"}
        return {name: odd[it] if it in odd else self.player.size_words(int(it)) for name, it in its.items()}
