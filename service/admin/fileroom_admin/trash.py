"""The trash of each user: a folder of the room that is theirs alone (docs/FILES.md)."""
import base64
import contextlib
import os
import secrets

from room_client.manifest import FOLDER
from room_client.trash import TOP, is_private, places_of
from room_client.words import ALL, PROTECTED, SETS, TO_FILES, TO_FOLDERS

from .asking import ACCESS, NOENT, Patience, Session, shown
from .places import Fault

OWNER, EVERYONE = "OWNER@", "EVERYONE@"


def entry(who, mask, flag=0):
    return {"type": 0, "flag": flag, "mask": mask, "who": who}


FOR_ALL = [entry(OWNER, ALL), entry(EVERYONE, SETS["view"])]  # of folders in which the trashes are
FOR_OWNER = [entry(OWNER, ALL)]
# in such a folder: a document of the room's owner, with a line for each user whose trash was found to be theirs alone
SETTLED = "@settled"  # (no user has that name)


def entries_of(user):
    """Of the user's own, who alone has a right on it."""
    return [entry(OWNER, ALL), entry(user, ALL, TO_FILES | TO_FOLDERS)]


def part_of(user):
    """The folder that has the user's trash in it."""
    return places_of(user)[0].rpartition("/")[0]


class Trashes:
    """Those of one room. `users` are its roster's, with their groups. A session takes a row of the room for good: so
    who was found to have a trash is not asked again, but where `is_anew`."""

    def __init__(self, path, users, is_anew=False):
        if not os.path.exists(path):
            raise Fault("the room is not served")
        self.path, self.users, self.is_anew, self.patience = path, users, is_anew, Patience()
        self.sessions, self.names, self.settled, self.known = {}, {}, {}, {}

    def __enter__(self):
        its = self.root()
        self.owner, self.group = its["owner"], its["group"]
        self.need_user(self.owner, "/")
        self.need_folder(TOP)
        return self

    def __exit__(self, *_):
        """(Where all time is over, there is some for what was found, so that the next call goes on.)"""
        self.patience.more()
        for part, users in self.settled.items():
            with contextlib.suppress(Fault):  # (then they are asked again)
                self.write_down(part, users)
        for it in self.sessions.values():
            with contextlib.suppress(Fault):
                it.end()

    def by(self, user):
        if user not in self.sessions:
            self.sessions[user] = Session(self.path, user, self.patience)
        return self.sessions[user]

    def need_user(self, user, path):
        if user not in self.users:
            raise Fault(f"{path} is {shown(user)}'s, who is no user of the room: add {shown(user)} to it for this")

    def root(self):
        """Whose the room is, as the first user tells who may ask for that."""
        for user in self.users:
            its = self.by(user).ask("STAT", "/")
            if its["code"] == 0:
                return its
        raise Fault("no user of the room has the right to ask who owns it")

    def need_folder(self, path):
        """One in which the room's owner alone makes anything, whoever made it, and whatever list it had."""
        mine = self.by(self.owner)
        if mine.ask("STAT", path)["code"] == ACCESS:
            self.open_up(path)
        its = mine.need("STAT", path, NOENT)
        if its.get("kind") not in (None, FOLDER):
            self.put_aside(path)
            its = {"code": NOENT}
        if its["code"] == NOENT:
            mine.need("MKDIR", path)
        elif its["owner"] != self.owner:
            self.hand_over(its["owner"], path, self.owner, self.group, FOR_ALL)
        if mine.need("GETLIST", path)["entries"] != FOR_ALL:
            mine.need("SETLIST", path, aclflag=PROTECTED, entries=FOR_ALL)

    def open_up(self, path):
        """One whose list keeps the room's owner out: its own owner, who is one of the users, may always set it."""
        for user in self.users:
            if self.by(user).ask("SETLIST", path, aclflag=PROTECTED, entries=FOR_ALL)["code"] == 0:
                return
        raise Fault(f"no user of the roster may set the list of {path}: add its owner to the roster for this")

    def put_aside(self, path):
        """What is no folder, in the place of one."""
        self.by(self.owner).need("RENAME", path, to=f"{path}.was-{secrets.token_hex(4)}")

    def hand_over(self, giver, path, owner, group, entries):
        """The new owner sets the list too: a giver who is not the room's owner may have set another meanwhile."""
        self.need_user(giver, path)
        self.by(giver).need("SETLIST", path, aclflag=PROTECTED, entries=entries)
        self.by(giver).need("CHOWN", path, owner=owner, group=group)
        if giver != self.owner:
            self.by(owner).need("SETLIST", path, aclflag=PROTECTED, entries=entries)

    def children(self, path):
        if path not in self.names:
            self.names[path] = dict(self.by(self.owner).need("LIST", path)["names"])
        return self.names[path]

    def need_part(self, path):
        if path not in self.names:
            self.need_folder(path)

    def written_down(self, part):
        """Who was found to have a trash. What somebody else owns, or may write, is put aside."""
        if SETTLED not in self.children(part):
            return set()
        mine, path = self.by(self.owner), f"{part}/{SETTLED}"
        its, its_list, text = (mine.ask(cmd, path) for cmd in ("STAT", "GETLIST", "READ"))
        if (its.get("owner"), its_list.get("aclflag"), its_list.get("entries")) == (self.owner, PROTECTED, FOR_OWNER):
            return set(base64.b64decode(text.get("data", "")).decode(errors="replace").split())
        self.put_aside(path)
        del self.children(part)[SETTLED]
        return set()

    def write_down(self, part, users):
        known = self.known[part]
        if users <= known:
            return
        mine, path = self.by(self.owner), f"{part}/{SETTLED}"
        text = "".join(f"{it}\n" for it in sorted((users | known) & {*self.users}))
        data = base64.b64encode(text.encode()).decode()
        if SETTLED in self.children(part):
            mine.need("WRITE", path, data=data)
        else:
            mine.need("CREATE", path, data=data)
            mine.need("SETLIST", path, aclflag=PROTECTED, entries=FOR_OWNER)

    def settle(self, user):
        """Whether there was something to do, so that the user has one."""
        part = part_of(user)
        self.need_part(part)
        if part not in self.known:
            self.known[part] = self.written_down(part)
        is_there = FOLDER in (self.children(part).get(user), self.children(TOP).get(user))
        is_new = not (is_there and user in self.known[part] and not self.is_anew) and self.make(part, user)
        self.settled.setdefault(part, set()).add(user)
        return is_new

    def make(self, part, user):
        path, old = places_of(user)
        kind = self.children(part).get(user)
        if kind == FOLDER:
            return self.adopt(path, user)
        if kind:
            self.put_aside(path)
        if self.children(TOP).get(user) == FOLDER:
            return self.adopt(old, user)
        self.by(self.owner).need("MKDIR", path)
        self.give(self.owner, path, user)
        return True

    def give(self, giver, path, user):
        self.hand_over(giver, path, user, (self.users.get(user) or [user])[0], entries_of(user))

    def adopt(self, path, user):
        """One of before: whoever made it may own it, or have given it a list; or a call left it in its middle."""
        mine = self.by(user)
        its, its_list = mine.ask("STAT", path), mine.ask("GETLIST", path)
        is_own = its_list["code"] == 0  # (where the user may not ask whose it is: its list lets nobody in)
        giver = its.get("owner", user if is_own else self.owner)
        if giver == user and its["code"] == 0 and is_private(its_list, user):
            return False
        self.give(giver, path, user)
        return True
