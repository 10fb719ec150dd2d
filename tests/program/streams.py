"""Random streams of sessions, commands and questions, good and malformed, with what the plain model (plain.py) answers.

What any one malformed message is answered stands in the examples; here are some of each kind, between others.
"""
import base64
import collections
import json
import random
import re

from plain import ALL, LeftOpen, PlainRoom, refusal
from served import SID, message, session

CHANGES = 60  # of a room, with which a stream that is served begins
USERS = {"ann": ["eng"], "bob": ["eng", "staff"], "eng": []}
SIDS = {"ann": SID, "bob": "f" * 32, "eng": "e" * 32}

# Each part of a message is good, or malformed in one of the ways listed.
NAMES = ["a", "b", "c", "a.b", "x y", "é", "☃", "\U0001F600", '"', "\\", "n" * 64]
BAD_NAMES = ["", ".", "..", "n" * 65, "é" * 33, "\0", "\x1f", "\x7f", "a\nb"]
MASKS = [ALL, 0x1200A9, 0, 1, 2, 4, 6, 0x20, 0x21, 0x40, 0x60, 0x80, 0x10000, 0x20000, 0x40000, 0x80000, 0x2000A1]
BAD_KEEPS = [0, 1, "true", "false", "", None, [], {}]
BAD_NUMBERS = [-1, 1.0, 1.5, "1", None, True, [], {}, 1 << 32, 1 << 64, 10 ** 30]
BAD_TEXTS = [
    b"", b"{", b"}", b"[]", b"null", b"1", b'"{}"', b"{}", b"{}x", b"\xef\xbb\xbf{}", b'{"a":}', b"{'a':1}",
    b'{"a":1,}', b"\xff\xfe", b"{" * 200, b"[" * 50000, b'{"cmd":"STAT","path":"/"', b'{"cmd":"STAT","path":"/\xff"}',
    b'{"cmd":"STAT","path":"/\\ud800"}', b'{"cmd":"STAT","path":"/\x01"}', b'{"cmd":"STAT","path":/}',
    b'{"slots":01}', b'{"slots":+1}', b'{"slots":1e0}', b'{"slots":-0}', b'{"slots":0x1}', b'{"slots":NaN}',
    b'{"slots":1E400}', b'{"slots":1.0}',
]
MORE_FIELDS = ["content-length: 2", "Transfer-Encoding: identity"]
BAD_SIDS = ["0" * 31, "0" * 33, "A" * 32, "g" * 32, "0", "-" + "0" * 31]
BAD_NUMERALS = ["01", "00", "+1", "-1", "4294967296", "99999999999", "1a", "0x1", "1.0", "-"]
BAD_DATA = ["A", "AA", "AAA", "AB==", "AAB=", "AA==AA==", "A A=", "AA-_", "AA=\n", "=", "AAAA\n", "é", 1, None,
            ["AA=="]]
BAD_TARGETS = [
    "/", "/v1/check#a", "/v1/chec%6b", "/v2/check", "http://127.0.0.1/v1/check", "/v1/check/../check",
    *(f"/v1/sessions/{SID}{it}" for it in ("/", "/slots", "/slots/0", "/slots/0/1/", "/slots//1", "?slots=1")),
]
BAD_USERS = [[], ["ann", "ann"], ["ann", "bob"], ["Ann"], ["nobody"], [""], ["ann\xff"], ["ann, bob"]]
BAD_METHODS = ["GET", "POSTS", "CONNECT", "X"]
BAD_HEADS = [
    b"POST /v1/check HTTP/2.0\r\n\r\n", b"\0", b"\r\r\n\r\n", b"POST /v1/check HTTP/1.1 \r\n\r\n",
    b"P\xc3\xb6ST /v1/check HTTP/1.1\r\n\r\n", b"\x16\x03\x01\x02\x00\x01\x00\x01",
    *(b"POST /v1/check HTTP/1.1\r\n" + it + b"\r\n\r\n" for it in (b"a: \0", b"a: b\rc", b" a: b")),
]
COMMANDS = [
    "STAT", "LIST", "MKDIR", "MKDIR", "MKDIR", "CREATE", "CREATE", "CREATE", "READ", "WRITE", "APPEND", "APPEND",
    "REMOVE", "RENAME", "RENAME", "GETLIST", "SETLIST", "SETLIST", "CHOWN", "ACCESS", "ACCESS",
]
BAD_LENGTHS = ["-1", "+1", "0x1", "1,1", "1 1", "", "131073", "99999999999", "00000000001", "1.0", "\xb2"]


class Dice(random.Random):
    """Its two ways to choose are those of `random`, but for evenness in the last digits, and three times as quick."""

    def randrange(self, begin, end=None):
        begin, end = (0, begin) if end is None else (begin, end)
        return begin + int(self.random() * (end - begin))

    def choice(self, some):
        return some[int(self.random() * len(some))]

    def one_in(self, n):
        return self.random() * n < 1

    def name(self):
        return self.choice(BAD_NAMES) if self.one_in(60) else self.choice(NAMES[:3] if self.one_in(2) else NAMES)

    def path(self):
        if self.one_in(60):
            return self.choice(["", "a", "/a/", "//", "/" * 18, 7, None, "/" + "/".join("a" * 17), "/a//b"])
        if self.one_in(40):
            return "/" + "/".join("a" * self.randrange(14, 17))
        depth = self.choice([0, 1, 1, 1, 1, 1, 2, 2])
        return "/" + "/".join(self.name() for _ in range(depth))

    def number(self, good):
        return self.choice(BAD_NUMBERS) if self.one_in(80) else good

    def data(self):
        if self.one_in(40):
            return self.choice(BAD_DATA)
        size = self.choice([0, 1, 2, 3, 100, 65536, 65537, 65537]) if self.one_in(8) else self.randrange(20)
        return base64.b64encode(self.randbytes(size)).decode()

    def who(self):
        return self.choice(["OWNER@", "GROUP@", "EVERYONE@", "EVERYONE@", "ann", "bob", "eng", "staff", "nobody"])

    def principal(self):
        if self.one_in(40):
            return self.choice(["", "a b", "n" * 33, "é", 1])
        return self.choice(["ann", "bob", "eng", "staff"])

    def entry(self, is_folder):
        if self.one_in(15):
            flag = self.randrange(16)
        else:
            flag = self.choice([0, 1, 2, 3, 3, 3, 4, 7, 8, 9, 11, 15] if is_folder else [0])
        flag |= self.choice([0, 0, 0, 0x40, 0x80])
        it = {
            "flag": self.number(flag),
            "mask": self.number(self.choice(MASKS)),
            "type": self.number(int(self.one_in(3))),
            "who": self.principal() if self.one_in(40) else self.who(),
        }
        if self.one_in(100):
            it[self.choice(["more", "flag"])] = 0x100
        if self.one_in(100):
            it.pop(self.choice(sorted(it)))
        return it

    def entries(self, is_folder=True):
        count = self.choice([31, 32, 33]) if self.one_in(40) else self.randrange(5)
        return [self.entry(is_folder) for _ in range(count)]

    def closed(self):
        """Entries that allow nobody anything, but to pass through at most."""
        through = {"flag": 0, "mask": 0x20, "type": 0, "who": "EVERYONE@"}
        denied = {"flag": 0, "mask": ALL, "type": 1, "who": self.who()}
        return self.choice([[], [through], [denied], [denied, through]])

    def mask(self):
        return self.number(self.choice(MASKS))

    def command(self):
        cmd = self.choice(COMMANDS)
        it = {"cmd": cmd, "path": self.path()}
        if cmd in ("CREATE", "WRITE", "APPEND"):
            it["data"] = self.data()
        elif cmd == "RENAME":
            it["to"] = self.path()
        elif cmd == "SETLIST":
            it["aclflag"] = self.number(self.choice([0, 1, 1, 1, 2, 3, 5]))
            it["entries"] = self.entries(self.one_in(2))
            if not self.one_in(3):  # (else the room is soon closed to all)
                it["entries"].append({"flag": 3 if self.one_in(2) else 0, "mask": ALL, "type": 0, "who": self.who()})
        elif cmd == "CHOWN":
            it["owner"], it["group"] = self.principal(), self.principal()
        elif cmd == "ACCESS":
            it["mask"] = self.mask()
        if self.one_in(3):
            it["keep"] = self.choice(BAD_KEEPS) if self.one_in(20) else not self.one_in(2)
        return it

    def listing(self, path, is_folder):
        """SETLIST of a list that begins with all rights for everyone."""
        first = {"flag": 3 * is_folder, "mask": ALL, "type": 0, "who": "EVERYONE@"}
        entries = [first, *(self.entry(is_folder) for _ in range(self.randrange(3)))]
        return {"aclflag": self.choice([0, 1, 1, 1, 1, 2, 3]), "cmd": "SETLIST", "entries": entries, "path": path}

    def change(self, room):
        """A command that makes, lists, moves or removes something of this room."""
        at = self.choice([*room.things])
        folder = self.choice([it for it in room.things if room.things[it].is_folder and len(it) < 6])
        path, new = "/" + "/".join(at), "/" + "/".join((*folder, self.choice("abc")))
        bytes_ = base64.b64encode(self.randbytes(self.randrange(20))).decode()
        list_ = self.listing(path, room.things[at].is_folder)
        return self.choice([
            *[{"cmd": "MKDIR", "path": new}] * 4, *[{"cmd": "CREATE", "data": bytes_, "path": new}] * 2, *[list_] * 4,
            *[{"cmd": "RENAME", "path": path, "to": new}] * 3, {"cmd": "REMOVE", "path": path},
            {"cmd": "APPEND", "data": bytes_, "path": path}, {"cmd": "WRITE", "data": bytes_, "path": path},
            {"cmd": "CHOWN", "group": "staff", "owner": self.choice(["ann", "bob"]), "path": path},
        ])

    def question(self):
        if self.one_in(3):
            child = self.choice(["file", "folder", "folder", "File", 1]) if self.one_in(5) else "folder"
            return {"child": child, "entries": self.entries()}
        return {
            "entries": self.entries(),
            "group": self.principal(),
            "groups": [self.principal() for _ in range(self.randrange(3))],
            "mask": self.mask(),
            "owner": self.principal(),
            "user": self.principal(),
        }

    def body(self, value):
        """A body: this value in some lawful form, or with a fault."""
        if self.one_in(25):
            return self.choice(BAD_TEXTS)
        if self.one_in(40):
            value = {**value, self.choice(["more", "cmd ", "Path"]): 0}
        if self.one_in(40) and value:
            value = {name: it for name, it in value.items() if name != self.choice(sorted(value))}
        names = list(value)
        self.shuffle(names)
        space = (", ", ": ") if self.one_in(3) else (",", ":")
        found = json.dumps({it: value[it] for it in names}, separators=space, ensure_ascii=self.one_in(2)).encode()
        if self.one_in(60) and found:
            at = self.randrange(len(found))
            found = found[:at] + self.choice([b"", b"\\", b'"', b"\xc3", b" ", b"0", b","]) + found[at + 1:]
        return found

    def fields(self, users, body, version):
        """The fields of a lawful head, and whether it is the last."""
        found = [(self.choice(["room-user", "Room-User", "ROOM-USER"]), it) for it in users]
        if body or self.one_in(2):
            name = self.choice(["content-length", "Content-Length"])
            found.append((name, str(len(body)).zfill(self.choice([1, 1, 10]))))
        last = version == "1.0"
        if self.one_in(25):
            member = self.choice(["close", "Close", "keep-alive , close", "closed", "keep-alive", "a,CLOSE\t,b"])
            found.append(("connection", member))
            last = last or "close" in [it.strip(" \t").lower() for it in member.split(",")]
        while self.one_in(4) and len(found) < 32:
            found.append((f"x-{len(found)}", self.choice(["", "a", "\xff", "a: b", "a\tb"])))
        self.shuffle(found)
        return found, last


class Message:
    """One random message: its bytes, and what it is answered by the plain model."""

    def __init__(self, dice, room, numbers):
        self.room, self.ends = room, False
        if dice.one_in(60):
            self.bytes, self.answer, self.ends = self.bad_head(dice), refusal(40), True
            return
        user = dice.choice(["ann", "ann", "ann", "bob", "eng"])
        method, target, body = self.asked(dice, numbers, user)
        users = [user]
        if dice.one_in(60):
            users = dice.choice(BAD_USERS)
        if dice.one_in(60):
            target = dice.choice(BAD_TARGETS)
        if dice.one_in(60):
            method = dice.choice(BAD_METHODS)
        version = "1.0" if dice.one_in(60) else "1.1"
        fields, self.ends = dice.fields(users, body, version)
        line = dice.choice(["\r\n", "\r\n", "\r\n", "\n"])
        lines = [f"{name}:{dice.choice(['', ' ', '  '])}{it}" for name, it in fields]
        head = line.join([f"{method} {target} HTTP/{version}", *lines, "", ""])
        self.bytes = head.encode("latin-1") + body
        self.answer = room.answer(method, target, users, body, self.ends)

    def asked(self, dice, numbers, user):
        """Method, target and body. `numbers` has what each slot's last message was, to be sent again at times."""
        kind = dice.randrange(12)
        if kind == 0:
            return "POST", "/v1/check", dice.body(dice.question())
        sid = dice.choice(BAD_SIDS) if dice.one_in(60) else SIDS["ann"] if dice.one_in(20) else SIDS[user]
        if kind == 1:
            how = "DELETE" if dice.one_in(10) else "POST"
            return how, f"/v1/sessions/{sid}", dice.body({"slots": dice.number(dice.choice([0, 1, 3, 3, 3, 16, 17]))})
        number = dice.choice([3, 16, 4294967295]) if dice.one_in(40) else dice.choice([0, 0, 0, 1, 2])
        last = self.room.slots.get((sid, number), (0,))[0]
        if dice.one_in(6) and (sid, number) in numbers:
            target, body, command = numbers[sid, number]
            if dice.one_in(4):  # (the same command, and another word on its reply: what was first said counts)
                body = dice.body({**command, "keep": dice.one_in(2)})
            return "POST", target, body
        seq = (last + dice.choice([0, 2, -1, 5])) % (1 << 32) if dice.one_in(15) else last + 1
        numeral = dice.choice(BAD_NUMERALS) if dice.one_in(80) else str(seq)
        of_slot = dice.choice(BAD_NUMERALS) if dice.one_in(80) else str(number)
        command = dice.command()
        target, body = f"/v1/sessions/{sid}/slots/{of_slot}/{numeral}", dice.body(command)
        numbers[sid, number] = target, body, command
        return "POST", target, body

    @staticmethod
    def bad_head(dice):
        """Bytes that no message begins with, or that are cut short."""
        kind = dice.randrange(6)
        if kind == 0:
            return dice.choice(BAD_HEADS)
        if kind == 1:
            fields = [f"x-{n}: a" for n in range(dice.choice([31, 40, 200]))]
            return message("ann", "POST", "/v1/check", b"{}", fields=fields)
        if kind == 2:
            return message("ann", "POST", "/v1/check", b"{}", fields=["x: " + "a" * dice.choice([8192, 20000])])
        if kind == 3:
            length = dice.choice(BAD_LENGTHS).encode("latin-1")
            return b"POST /v1/check HTTP/1.1\r\ncontent-length: " + length + b"\r\n\r\n{}"
        if kind == 4:
            more = dice.choice(MORE_FIELDS)
            return message("ann", "POST", "/v1/check", b"{}", fields=[more])
        whole_one = message("ann", "POST", "/v1/check", b"{}")
        return whole_one[:dice.randrange(1, len(whole_one))]


REFUSED = re.compile(rb'"code":(\d+),"error":')


class Stream:
    """Messages in turn, up to the first that ends the stream, and what stands behind it. Before them, where that is
    asked for, come CHANGES."""

    def __init__(self, seed, has_changes=False):
        dice = Dice(seed)
        room, numbers, self.pieces, self.answers = PlainRoom(USERS, "ann", "eng"), {}, [], []
        self.room = room
        self.codes = collections.Counter()
        if not dice.one_in(10):
            for user, sid in SIDS.items():
                self.add(session(3, sid, user), room.answer("POST", f"/v1/sessions/{sid}", [user], b'{"slots":3}'))
            if has_changes:
                self.add_changes(Dice(f"{seed} changes"), room)
            if dice.one_in(3):
                self.add_closed_folder(dice, room)
            elif dice.one_in(15):
                self.add_deep_folders(dice, room)
            elif dice.one_in(60):
                self.add_full_folder(dice, room)
        for _ in range(dice.choice([1, 3, 10, 30, 60])):
            try:
                it = Message(dice, room, numbers)
            except LeftOpen:
                continue
            self.add(it.bytes, it.answer)
            if it.ends:
                # (what is cut short has nothing behind it)
                self.rest = b"" if it.answer == refusal(40) else dice.choice([b"", b"\0", session()])
                break
        else:
            self.rest = b""
        self.bytes = b"".join(self.pieces) + self.rest
        self.status = (1, b"fileroom: bad message\n") if self.answers[-1:] == [refusal(40)] else (0, b"")

    def add_changes(self, dice, room):
        """A room that is open to all, and changes of it, of which some are sent again."""
        self.add_asked(room, [("ann", dice.listing("/", True))])
        for _ in range(CHANGES):
            change = {**dice.change(room), "keep": not dice.one_in(4)}
            self.add_asked(room, [(dice.choice(sorted(SIDS)), change)], times=1 + dice.one_in(4))

    def add_closed_folder(self, dice, room):
        """A folder whose owner closes its list to all, and what its owner and others then ask of it."""
        asked = [("ann", {"cmd": "MKDIR", "path": "/a"}),
                 ("ann", {"aclflag": 2, "cmd": "SETLIST", "entries": dice.closed(), "path": "/a"})]
        for _ in range(dice.randrange(1, 6)):
            cmd, more = dice.choice([("GETLIST", {}), ("GETLIST", {}), ("STAT", {}), ("ACCESS", {"mask": ALL}),
                                     ("SETLIST", {"aclflag": 2, "entries": dice.closed()}),
                                     ("CHOWN", {"group": "eng", "owner": "bob"})])
            asked.append((dice.choice(["ann", "ann", "bob", "eng"]), {"cmd": cmd, "path": "/a", **more}))
        self.add_asked(room, asked)

    def add_deep_folders(self, dice, room):
        """A folder in a folder and so on, and moves of some of them to where the lowest has about as many names as it
        may have."""
        depth, below = dice.randrange(14, 17), dice.randrange(1, 7)
        path = lambda name, count: "/" + "/".join(name * count)
        asked = [("ann", {"cmd": "MKDIR", "path": path(name, n)}) for name, most in (("a", depth - 1), ("b", below))
                 for n in range(1, most + 1)]
        asked.append(("ann", {"cmd": "MKDIR", "path": path("a", depth)} if dice.one_in(2) else
                      {"cmd": "CREATE", "data": "", "path": path("a", depth)}))
        for _ in range(dice.randrange(1, 5)):
            # (so many names of the lowest go along: it then has 15 to 18, or fewer)
            along = min(depth - 1, dice.randrange(15, 19) - below - 1)
            to = f"{path('b', below)}/{dice.name()}"
            asked.append((dice.choice(["ann", "ann", "ann", "eng"]),
                          {"cmd": "RENAME", "path": path("a", depth - along), "to": to}))
        self.add_asked(room, asked)

    def add_full_folder(self, dice, room):
        """A folder with as many children as it may have, or one fewer, and what then comes to it or goes."""
        make = lambda path: dice.choice([{"cmd": "MKDIR", "path": path}, {"cmd": "CREATE", "data": "", "path": path}])
        asked = [("ann", {"cmd": "MKDIR", "path": path}) for path in ("/a", "/b")]
        asked += [("ann", make(f"/a/{n}")) for n in range(dice.choice([255, 256, 256]))]
        for _ in range(dice.randrange(2, 12)):
            one, other, new = f"/a/{dice.randrange(256)}", f"/a/{dice.name()}", f"/{dice.name()}"
            asked.append((dice.choice(["ann", "ann", "ann", "eng"]), dice.choice([
                make(other), {"cmd": "RENAME", "path": "/b", "to": other}, {"cmd": "RENAME", "path": one, "to": other},
                {"cmd": "RENAME", "path": one, "to": new}, {"cmd": "REMOVE", "path": one},
                {"cmd": "REMOVE", "path": "/a"}, {"cmd": "LIST", "path": "/a"}])))
        self.add_asked(room, asked)

    def add_asked(self, room, asked, times=1):
        """These commands of these users, in slot 2 of each, each sent so many times."""
        for user, command in asked:
            sid, body = SIDS[user], json.dumps(command).encode()
            seq = room.slots.get((sid, 2), (0,))[0] + 1
            target = f"/v1/sessions/{sid}/slots/2/{seq}"
            for _ in range(times):
                self.add(message(user, "POST", target, body), room.answer("POST", target, [user], body))

    def add(self, bytes_, answer):
        self.pieces.append(bytes_)
        self.answers.append(answer)
        refused = REFUSED.search(answer)
        self.codes[int(refused[1]) if refused else 0] += 1

    def changed(self, dice):
        """The stream with some bytes changed, and how many of its messages stand whole before the change."""
        at = dice.randrange(len(self.bytes) + 1)
        what = dice.choice([
            b"", dice.randbytes(1), dice.randbytes(9), b"\r\n", b"\r\n\r\n", b"0", b'"', b"\0" * 5000, b" ",
        ])
        changed = self.bytes[:at] + what + self.bytes[at + dice.choice([0, 1, 1, 2, 30]):]
        before, end = 0, 0
        for piece, answer in zip(self.pieces, self.answers):
            end += len(piece)
            # (one that is cut short goes on with what comes behind it)
            before += end <= at and answer != refusal(40)
        return changed, before
