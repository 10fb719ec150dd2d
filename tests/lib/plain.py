"""A plain model of a room, written from docs/ alone: what each message is answered, in bytes.

It keeps own entries alone and computes each list from the root down, and it keeps the reply of a slot's last request as
bytes, where that asked so. It knows no shelf and no table, is slow, and shares nothing with the program.
"""
import base64
import binascii
import json
import re

from served import whole

FILE_INHERIT, DIRECTORY_INHERIT, NO_PROPAGATE, INHERIT_ONLY, GROUP_FLAG, MARK = 1, 2, 4, 8, 0x40, 0x80
FLAGS = FILE_INHERIT | DIRECTORY_INHERIT | NO_PROPAGATE | INHERIT_ONLY | GROUP_FLAG | MARK
ALL = 0x1F07FF
READ_DATA, WRITE_DATA, APPEND_DATA = 1, 2, 4
ADD_FILE, ADD_SUBDIRECTORY, EXECUTE, DELETE_CHILD, READ_ATTRIBUTES = 2, 4, 0x20, 0x40, 0x80
DELETE, READ_ACL, WRITE_ACL, WRITE_OWNER = 0x10000, 0x20000, 0x40000, 0x80000
OWNER_RIGHTS = READ_ACL | WRITE_ACL
NAMES = {1: "NOENT", 2: "NOTDIR", 3: "ISDIR", 4: "EXIST", 6: "NOTEMPTY", 7: "INVAL", 8: "ATTRNOTSUPP", 9: "FBIG",
         10: "TOO_DEEP", 11: "FOLDER_FULL", 12: "ROOM_FULL", 20: "BADSESSION", 21: "BADSLOT", 22: "SEQ_MISORDERED",
         23: "SEQ_FALSE_RETRY", 24: "SESSION_TAKEN", 25: "RETRY_UNCACHED", 30: "DELAY", 40: "BAD_HTTP",
         41: "BAD_ROUTE", 42: "UNKNOWN_USER", 43: "BAD_REQUEST"}
STATUS = {20: 409, 21: 409, 22: 409, 23: 409, 24: 409, 25: 409, 30: 503, 40: 400, 41: 404, 42: 403, 43: 400}
# by FILE_INHERIT, DIRECTORY_INHERIT and NO_PROPAGATE: the flags that come to a file, and those that come to a folder
HANDED_DOWN = {(0, 0, 0): (None, None), (0, 0, 1): (None, None), (0, 1, 0): (None, 0x82), (0, 1, 1): (None, 0x80),
               (1, 0, 0): (0x80, 0x89), (1, 0, 1): (0x80, None), (1, 1, 0): (0x80, 0x83), (1, 1, 1): (0x80, 0x80)}


class Refused(Exception):
    """A refusal of a message, or of a command, by its number."""

    def __init__(self, code, **more):
        super().__init__(code)
        self.code = code
        self.body = text({"code": code, "error": NAMES.get(code, "ACCESS"), **more})


class LeftOpen(Exception):
    """No rule says which answer is due."""


COMPACT = json.JSONEncoder(separators=(",", ":"), sort_keys=True, ensure_ascii=False)


def text(value):
    return COMPACT.encode(value).encode()


def refusal(code):
    return whole(Refused(code).body, STATUS.get(code, 200), code == 40)


# What is asked: bodies, names, paths, entries.

def need(fact):
    if not fact:
        raise Refused(43)


def once(pairs):
    if len({name for name, _ in pairs}) < len(pairs):
        raise LeftOpen
    return dict(pairs)


def no_number(_):
    raise ValueError


def natural(digits):
    return int(digits) if digits.isdigit() and len(digits) <= 20 else no_number(digits)


def read_body(body):
    """The JSON object that these bytes are. Numbers are whole and not negative."""
    try:
        found = json.loads(body.decode(), object_pairs_hook=once, parse_int=natural, parse_float=no_number,
                           parse_constant=no_number)
        if b"\\u" in body:
            json.dumps(found, ensure_ascii=False).encode()  # (half of a pair of surrogates is no text)
    except (ValueError, RecursionError):
        raise Refused(43) from None
    need(isinstance(found, dict))
    return found


def members(found, *names):
    need(set(found) == set(names))
    return [found[name] for name in names]


def number(found, most):
    need(type(found) is int and found <= most)
    return found


def principal(found):
    need(isinstance(found, str) and re.fullmatch(r"[A-Za-z0-9._-]{1,32}", found))
    return found


def one_of(found, *values):
    need(isinstance(found, str) and found in values)
    return found


def is_name(name):
    controls = any(ord(c) < 32 or ord(c) == 127 for c in name)
    return 1 <= len(name.encode()) <= 64 and name not in (".", "..") and not controls


def path(found):
    need(isinstance(found, str) and found.startswith("/"))
    names = found[1:].split("/") if found != "/" else []
    need(len(names) <= 16 and all(map(is_name, names)))
    return tuple(names)


def data(found):
    need(isinstance(found, str))
    try:
        bytes_ = base64.b64decode(found.encode("ascii"), validate=True)
    except (binascii.Error, ValueError):
        raise Refused(43) from None
    need(base64.b64encode(bytes_).decode() == found)
    return bytes_


def entry(found):
    need(isinstance(found, dict))
    flag, mask, kind, who = members(found, "flag", "mask", "type", "who")
    need(number(flag, 255) & ~FLAGS == 0)
    need(number(mask, ALL) & ~ALL == 0)
    number(kind, 1)
    if who not in ("OWNER@", "GROUP@", "EVERYONE@"):
        principal(who)
    return {"flag": flag, "mask": mask, "type": kind, "who": who}


def entries(found):
    need(isinstance(found, list))
    return [entry(it) for it in found]


PARTS = {"STAT": {}, "LIST": {}, "MKDIR": {}, "READ": {}, "REMOVE": {}, "GETLIST": {}, "CREATE": {"data": data},
         "WRITE": {"data": data}, "APPEND": {"data": data}, "RENAME": {"to": path},
         "SETLIST": {"aclflag": lambda it: number(it, 7), "entries": entries},
         "CHOWN": {"group": principal, "owner": principal}, "ACCESS": {"mask": lambda it: need_mask(it)}}


def need_mask(found):
    need(number(found, ALL) & ~ALL == 0)
    return found


def read_command(body):
    """The command of a body: its parts, its text, by which it is compared, and whether its reply is to be kept."""
    found = read_body(body)
    keep = found.pop("keep", True)
    need(type(keep) is bool)
    cmd = one_of(found.get("cmd"), *PARTS)
    parts = PARTS[cmd]
    members(found, "cmd", "path", *parts)
    read = {"cmd": cmd, "path": path(found["path"])}
    for name, form in parts.items():
        read[name] = form(found[name])
    return read, text(found), keep


# Lists.

class Caller:
    def __init__(self, user, groups):
        self.user, self.groups = user, groups


def applies(it, caller, owner, group):
    if it["flag"] & INHERIT_ONLY:
        return False
    who = it["who"]
    if who in ("OWNER@", "GROUP@", "EVERYONE@"):
        return {"OWNER@": caller.user == owner, "GROUP@": group in caller.groups, "EVERYONE@": True}[who]
    return who in caller.groups if it["flag"] & GROUP_FLAG else who == caller.user


def allowed(list_, caller, owner, group):
    """Each right, by the first entry that applies and names it; and the owner's two, whatever the entries say."""
    given = decided = 0
    for it in list_:
        if applies(it, caller, owner, group):
            given |= it["mask"] & ~decided if it["type"] == 0 else 0
            decided |= it["mask"]
    return given | (OWNER_RIGHTS if caller.user == owner else 0)


def lowest(bits):
    return bits & -bits


def hand_down(list_, is_folder):
    for it in list_:
        flag = it["flag"]
        row = HANDED_DOWN[flag & FILE_INHERIT, flag >> 1 & 1, flag >> 2 & 1]
        if row[is_folder] is not None:
            yield {**it, "flag": row[is_folder] | flag & GROUP_FLAG}


def check_own(own, is_folder):
    if len(own) > 32:
        raise Refused(7)
    inheritance = FILE_INHERIT | DIRECTORY_INHERIT | NO_PROPAGATE | INHERIT_ONLY
    for it in own:
        flag = it["flag"] & inheritance
        if flag & INHERIT_ONLY and not flag & (FILE_INHERIT | DIRECTORY_INHERIT) if is_folder else flag:
            raise Refused(8)


# The room.

class Thing:
    def __init__(self, owner, group, aclflag, own, bytes_=None):
        self.owner, self.group, self.aclflag, self.own, self.bytes = owner, group, aclflag, own, bytes_

    @property
    def is_folder(self):
        return self.bytes is None

    @property
    def kind(self):
        return "folder" if self.is_folder else "file"

    @property
    def follows(self):
        return self.aclflag & 3 == 1


def own_entry(who, mask):
    return {"flag": FILE_INHERIT | DIRECTORY_INHERIT, "mask": mask, "type": 0, "who": who}


class PlainRoom:
    def __init__(self, roster, owner, group):
        self.roster, self.sessions, self.slots, self.made = roster, {}, {}, 1
        self.things = {(): Thing(owner, group, 0, [own_entry("OWNER@", ALL), own_entry("GROUP@", 0x1200A9)])}

    # Lists, from the root down.

    def list_of(self, at):
        thing = self.things[at]
        if not at or not thing.follows:
            return thing.own
        return thing.own + list(hand_down(self.list_of(at[:-1]), thing.is_folder))

    def allowed_at(self, caller, at):
        thing = self.things[at]
        return allowed(self.list_of(at), caller, thing.owner, thing.group)

    def reports(self):
        """The text of each report, with its lines as docs/RUNNING.md and LISTS have them."""
        callers = [Caller(user, self.roster[user]) for user in sorted(self.roster, key=str.encode)]
        access, lists = [], []
        for at in sorted(self.things, key=lambda it: [name.encode() for name in it]):
            it, list_, path = self.things[at], self.list_of(at), "/" + "/".join(at)
            lists.append(f"{'d' if it.is_folder else 'f'} {it.aclflag} {it.owner:32} {it.group:32} {path}\n")
            lists += [f"  {'AD'[e['type']]} {e['flag']:02x} {e['mask']:08x} {e['who']}\n" for e in list_]
            access += [f"{allowed(list_, who, it.owner, it.group):08x} {who.user:32} {path}\n" for who in callers]
        return {"access": "".join(access), "lists": "".join(lists)}

    def right(self, caller, at, wanted):
        missing = lowest(wanted & ~self.allowed_at(caller, at))
        if missing:
            raise Refused(5, bit=missing, path="/" + "/".join(at))

    def removal(self, caller, at):
        if not self.allowed_at(caller, at) & DELETE and not self.allowed_at(caller, at[:-1]) & DELETE_CHILD:
            raise Refused(5, bit=DELETE, path="/" + "/".join(at))

    def walk(self, caller, at):
        for depth in range(len(at)):
            above = at[:depth]
            if above not in self.things:
                raise Refused(1)
            if not self.things[above].is_folder:
                raise Refused(2)
            self.right(caller, above, EXECUTE)

    def found(self, caller, at):
        self.walk(caller, at)
        if at not in self.things:
            raise Refused(1)
        return self.things[at]

    def below(self, at):
        """The names in a folder, in order of their bytes."""
        return sorted((it[-1] for it in self.things if it and it[:-1] == at), key=str.encode)

    # Commands.

    def do(self, caller, command):
        """The reply of a command, which changes the room."""
        return {"code": 0, **(getattr(self, command["cmd"].lower())(caller, **{
            name: it for name, it in command.items() if name != "cmd"}) or {})}

    def stat(self, caller, path):
        it = self.found(caller, path)
        self.right(caller, path, READ_ATTRIBUTES)
        size = len(self.below(path)) if it.is_folder else len(it.bytes)
        return {"aclflag": it.aclflag, "group": it.group, "kind": it.kind, "owner": it.owner, "size": size}

    def list(self, caller, path):
        if not self.found(caller, path).is_folder:
            raise Refused(2)
        self.right(caller, path, READ_DATA)
        return {"names": [[name, self.things[path + (name,)].kind] for name in self.below(path)]}

    def make(self, caller, path, bytes_):
        if not path:
            raise Refused(4)
        self.walk(caller, path)
        if path in self.things:
            raise Refused(4)
        self.right(caller, path[:-1], ADD_SUBDIRECTORY if bytes_ is None else ADD_FILE)
        if bytes_ is not None and len(bytes_) > 65536:
            raise Refused(9)
        if len(self.below(path[:-1])) >= 256:
            raise Refused(11)
        if self.made >= 1000000:
            raise Refused(12)
        self.things[path] = Thing(caller.user, self.things[path[:-1]].group, 1, [], bytes_)
        self.made += 1

    def mkdir(self, caller, path):
        self.make(caller, path, None)

    def create(self, caller, path, data):
        self.make(caller, path, data)
        return {"size": len(data)}

    def file(self, caller, path, wanted):
        it = self.found(caller, path)
        if it.is_folder:
            raise Refused(3)
        self.right(caller, path, wanted)
        return it

    def read(self, caller, path):
        return {"data": base64.b64encode(self.file(caller, path, READ_DATA).bytes).decode()}

    def put(self, it, bytes_):
        if len(bytes_) > 65536:
            raise Refused(9)
        it.bytes = bytes_
        return {"size": len(bytes_)}

    def write(self, caller, path, data):
        return self.put(self.file(caller, path, WRITE_DATA), data)

    def append(self, caller, path, data):
        it = self.file(caller, path, APPEND_DATA)
        return self.put(it, it.bytes + data)

    def remove(self, caller, path):
        if not path:
            raise Refused(7)
        it = self.found(caller, path)
        self.removal(caller, path)
        if it.is_folder and self.below(path):
            raise Refused(6)
        del self.things[path]

    def rename(self, caller, path, to):
        if not path or not to or to[:len(path)] == path:
            raise Refused(7)
        it = self.found(caller, path)
        self.walk(caller, to)
        if to in self.things:
            raise Refused(4)
        self.removal(caller, path)
        self.right(caller, to[:-1], ADD_SUBDIRECTORY if it.is_folder else ADD_FILE)
        moved = [at for at in self.things if at[:len(path)] == path]
        if any(len(at) - len(path) + len(to) > 16 for at in moved):
            raise Refused(10)
        if path[:-1] != to[:-1] and len(self.below(to[:-1])) >= 256:
            raise Refused(11)
        for at in moved:
            self.things[to + at[len(path):]] = self.things.pop(at)

    def getlist(self, caller, path):
        it = self.found(caller, path)
        self.right(caller, path, READ_ACL)
        return {"aclflag": it.aclflag, "entries": self.list_of(path)}

    def setlist(self, caller, path, aclflag, entries):
        it = self.found(caller, path)
        self.right(caller, path, WRITE_ACL)
        if path and aclflag & 3 == 1:
            own = [e for e in entries if not e["flag"] & MARK]
        else:
            own = [{**e, "flag": e["flag"] & ~MARK} for e in entries]
        check_own(own, it.is_folder)
        it.aclflag, it.own = aclflag, own

    def chown(self, caller, path, owner, group):
        it = self.found(caller, path)
        self.right(caller, path, WRITE_OWNER)
        it.owner, it.group = owner, group

    def access(self, caller, path, mask):
        self.found(caller, path)
        return {"allowed": mask & self.allowed_at(caller, path)}

    # Sessions and slots.

    def open(self, caller, sid, slots):
        session = self.sessions.setdefault(sid, [caller.user, slots, True])
        if session[0] != caller.user or session[2] and session[1] != slots:
            raise Refused(24)
        if not session[2]:
            raise Refused(20)
        return text({"code": 0, "slots": slots})

    def close(self, caller, sid):
        session = self.sessions.get(sid)
        if not session or session[0] != caller.user:
            raise Refused(20)
        session[2] = False
        return text({"code": 0})

    def request(self, caller, sid, slot, seq, command, asked, keep):
        session = self.sessions.get(sid)
        if not session or not session[2] or session[0] != caller.user:
            raise Refused(20)
        if slot >= session[1]:
            raise Refused(21)
        last = self.slots.get((sid, slot), (0, None, None))
        if seq == (last[0] + 1) % (1 << 32):
            try:
                reply = text(self.do(caller, command))
            except Refused as refused:
                reply = refused.body
            self.slots[sid, slot] = (seq, asked, reply if keep else None)
            return reply
        if seq != last[0] or last[1] is None:
            raise Refused(22)
        if asked != last[1]:
            raise Refused(23)
        if last[2] is None:
            raise Refused(25)
        return last[2]

    # Messages.

    def check(self, body):
        found = read_body(body)
        if "child" in found:
            child, list_ = members(found, "child", "entries")
            is_folder = one_of(child, "file", "folder") == "folder"
            list_ = entries(list_)
            try:
                check_own(list_, True)
            except Refused as refused:
                return refused.body
            return text({"code": 0, "entries": list(hand_down(list_, is_folder))})
        names = ("entries", "group", "groups", "mask", "owner", "user")
        list_, group, groups, mask, owner, user = members(found, *names)
        list_ = entries(list_)
        need(isinstance(groups, list))
        caller = Caller(principal(user), [principal(it) for it in groups])
        given = need_mask(mask) & allowed(list_, caller, principal(owner), principal(group))
        return text({"allowed": given, "bit": lowest(mask & ~given), "code": 0})

    def told(self, method, target, users, body):
        """The body of the answer to a message with these values of `room-user`."""
        route = None
        if not set("?#%") & set(target):
            route = re.fullmatch(r"/v1/sessions/([^/]+)(?:/slots/([^/]+)/([^/]+))?", target)
        if target == "/v1/check" and method == "POST":
            return self.check(body)
        if not route or method not in (("POST", "DELETE") if route[2] is None else ("POST",)):
            raise Refused(41)
        if len(users) != 1 or users[0] not in self.roster:
            raise Refused(42)
        caller, sid = Caller(users[0], self.roster[users[0]]), route[1]
        need(re.fullmatch(r"[0-9a-f]{32}", sid))
        if route[2] is not None:
            for it in route[2], route[3]:
                need(re.fullmatch(r"0|[1-9][0-9]{0,9}", it) and int(it) < 1 << 32)
            return self.request(caller, sid, int(route[2]), int(route[3]), *read_command(body))
        if method == "DELETE":
            return self.close(caller, sid)
        slots, = members(read_body(body), "slots")
        need(type(slots) is int and 1 <= slots <= 16)
        return self.open(caller, sid, slots)

    def answer(self, method, target, users, body, last=False):
        """The bytes of the answer to a message whose head and body are lawful."""
        try:
            return whole(self.told(method, target, users, body), 200, last)
        except Refused as refused:
            return whole(refused.body, STATUS[refused.code], last)
