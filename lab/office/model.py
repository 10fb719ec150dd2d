"""What the office's room is to hold, kept by docs/FILES.md and docs/LISTS.md and by no code of the three ways, and what
a copy of its file holds."""
import contextlib
import hashlib
import json
import re
import sqlite3
from dataclasses import dataclass, field

PIECE = 65536
INHERITED, FOLLOWS, PROTECTED = 0x80, 1, 2
FILES_AND_FOLDERS, GROUP = 3, 0x40
ALL, CHANGE, VIEW, READ = 0x1F07FF, 0x1301EF, 0x1200A9, 0x1
MANIFEST = ".room-file"
OF_UPLOADS = re.compile(r"\.room-(pieces|writing|gone)-[0-9a-f]{16}")
THROWN_AWAY = re.compile(r"/trash/@[0-9a-f]/([^/]+)/(.+)~\d{14}")


def entry(who, mask, flag=FILES_AND_FOLDERS, kind=0):
    return kind, flag, mask, who


def as_json(entries):
    return [dict(zip(("type", "flag", "mask", "who"), it)) for it in entries]


def sum_of(data):
    return hashlib.sha256(data).hexdigest()


def pieces_in(size):
    """Of a large file; a small one is a document."""
    return -(-size // PIECE) if size > PIECE else 0


@dataclass
class Thing:
    """A file, or without a sum a folder: whose it is, its list's flags, and the entries that it does not inherit."""
    owner: str
    group: str
    flags: int = FOLLOWS
    own: tuple = ()
    sum: str = ""
    most: int = 0  # pieces, that it ever had
    readers: frozenset = frozenset()
    writers: set = field(default_factory=set)  # who ever saved it: pieces may be theirs

    def told(self):
        return self.sum, self.owner, self.group, self.flags, self.own

    def numbers(self):
        """The most that it may ever take: the file, its manifest, and two sets of pieces in their folders."""
        return 2 * self.most + 4 if self.most else 1


class Model:
    def __init__(self):
        self.things, self.thrown, self.made_by_dances, self.dancers = {}, {}, 0, {}

    def files(self):
        return {path: it for path, it in self.things.items() if it.sum}

    def saved(self, path, who, data):
        it = self.things[path]
        it.sum, it.most = sum_of(data), max(it.most, pieces_in(len(data)))
        it.writers.add(who)

    def danced(self, who, its):
        """By a temporary file: three numbers, and a set of pieces where nobody has one for that: once for each that the
        gateway keeps for this user; each time for a file of somebody else's."""
        self.made_by_dances += 3 if its.owner == who else its.most + 6
        self.dancers[who] = max(self.dancers.get(who, 0), its.most)

    def throw_away(self, user, path):
        self.thrown[user, path.strip("/").split("/")[-1] + "~" + "~".join(path.strip("/").split("/")[:-1])] = \
            self.things.pop(path)

    def most_numbers(self):
        """What has been made may take so many in all, however often it was saved."""
        files = [it for it in (*self.things.values(), *self.thrown.values()) if it.sum]
        return sum(it.numbers() for it in files) + self.made_by_dances + 3 * sum(it + 1 for it in self.dancers.values())

    def differences(self, copy):
        """What is otherwise in a copy of the room, in words."""
        found = {path: it for path, it in copy.things.items() if not path.startswith(("/trash", "/flood"))}
        for path in sorted(found.keys() | self.things.keys()):
            got, want = found.get(path), self.things.get(path)
            if not got or not want or got.told() != want.told():
                yield f"{path}: {got and got.told()} and not {want and want.told()}"
            elif not got.writers <= {want.owner, *want.writers}:
                yield f"{path}: pieces of {got.writers}"
        thrown = {}
        for path, it in copy.things.items():
            name = THROWN_AWAY.fullmatch(path)
            if name:
                thrown[name[1], name[2]] = it
        for key in sorted(thrown.keys() | self.thrown.keys()):
            got, want = thrown.get(key), self.thrown.get(key)
            if not got or not want or got.sum != want.sum or got.owner != want.owner:
                yield f"in the trash {key}: {got and got.told()} and not {want and want.told()}"
        yield from copy.odd


class Copy:
    """What a file holds that nobody writes to, by sqlite3 alone."""

    def __init__(self, db):
        self.things, self.odd, self.full_spares = {}, [], 0
        with contextlib.closing(sqlite3.connect(db)) as self.table:
            self.used = self.one("SELECT next - 1 FROM room")
            self.nodes = {number: it for number, *it in self.table.execute(
                "SELECT id, parent, name, kind, owner, grp, aclflag FROM node")}
            self.inside = {}
            for number, (parent, name, *_) in self.nodes.items():
                self.inside.setdefault(parent, {})[name] = number
            self.entries = {}
            for number, *it in self.table.execute("SELECT node, type, flag, mask, who FROM entry ORDER BY node, place"):
                self.entries.setdefault(number, []).append(tuple(it))
            self.look("", self.inside[None][""])

    def one(self, statement, *values):
        return self.table.execute(statement, values).fetchone()[0]

    def bytes(self, number):
        return self.one("SELECT bytes FROM doc WHERE node = ?", number)

    def thing(self, number, its_sum=""):
        _, _, _, owner, group, flags = self.nodes[number]
        follows = flags & (FOLLOWS | PROTECTED) == FOLLOWS
        own = tuple(it for it in self.entries.get(number, ()) if not (follows and it[1] & INHERITED))
        return Thing(owner, group, flags, own, its_sum)

    def look(self, path, number):
        names = self.inside.get(number, {})
        if self.nodes[number][2] == 0:
            self.things[path] = self.thing(number, sum_of(self.bytes(number)))
        elif MANIFEST in names:
            self.things[path] = self.large(path, number, names)
        elif not OF_UPLOADS.fullmatch(path.rpartition("/")[2]):  # (else the gateway's pool in a trash)
            self.things[path or "/"] = self.thing(number)
            for name, it in names.items():
                self.look(f"{path}/{name}", it)

    def large(self, path, number, names):
        its = json.loads(self.bytes(names[MANIFEST]))
        pieces = self.inside.get(names.get(its["folder"]), {})
        whole = hashlib.sha256()
        for it in its["pieces"]:
            whole.update(self.bytes(pieces[it]) if it in pieces else b"lost")
        if whole.hexdigest() != its["sha256"]:
            self.odd.append(f"{path}: its pieces are not its manifest's")
        thing = self.thing(number, whole.hexdigest())
        for name, at in names.items():
            self.look_at_part(path, name, at, its["folder"], thing)
        return thing

    def look_at_part(self, path, name, at, folder, thing):
        if name != MANIFEST and not OF_UPLOADS.fullmatch(name):
            self.odd.append(f"{path}/{name}: no part of a file")
        parts = [at, *self.inside.get(at, {}).values()]
        if name in (MANIFEST, folder):
            thing.writers |= {self.nodes[it][3] for it in parts}
            if any(self.thing(it).told()[3:] != (FOLLOWS, ()) for it in parts):
                self.odd.append(f"{path}/{name}: has a list of its own")
        elif any(self.bytes(it) for it in parts[1:]):
            self.full_spares += 1

    def below(self, top):
        """How many objects are in a folder, whatever they are."""
        return self.count(self.inside[self.inside[None][""]].get(top))

    def count(self, number):
        return sum(1 + self.count(it) for it in self.inside.get(number, {}).values())
