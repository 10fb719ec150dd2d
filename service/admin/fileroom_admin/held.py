"""How much a login may ask of a room in a day, and who is held for asking more: service/fail2ban counts, nginx refuses.

A bound is one of some words. A user's own goes before the groups', of which the least counts, and that before the
room's.
"""
import contextlib
import json
import os
import time

from . import now, paces, rosters
from .changes import Change
from .places import Fault, read, read_json, said, write
from .warned import HELD, group_of_workers, held_in, own_folder, put

BOUNDS = {"few": 2_000, "usual": 20_000, "many": 200_000, "none": None}  # objects that are made in a day
USUAL = "usual"
FILE = "etc/fileroom/bounds.json"
BY_HAND = "by hand"  # who is held so is let go so
JAILS = [f"fileroom-{what}-{bound}" for what in ("made", "sent") for bound in ("few", "usual", "many")]
LEFT = 10 * BOUNDS[USUAL]  # numbers: a room that has fewer lets nobody make as many as usual


def need_bound(bound):
    if bound not in BOUNDS:
        raise Fault(f"a bound is {', '.join(BOUNDS)}: {bound!r} is not")


def are_bounds(its):
    """Of a room. (People edit such by hand.)"""
    kinds = [its.get("groups", {}), its.get("users", {})] if isinstance(its, dict) else [None]
    return all(isinstance(it, dict) for it in kinds) and all(
        it in [*BOUNDS] for it in (its.get("room", USUAL), *(it for kind in kinds for it in kind.values())))


class Bounds:
    """Those of all rooms: {ROOM: {"room": BOUND, "groups": {GROUP: BOUND}, "users": {USER: BOUND}}}."""

    def __init__(self, places):
        self.places, self.path = places, places.at(FILE)
        self.set = read_json(self.path, dict)
        for room in (it for it in self.set if not are_bounds(self.set[it])):
            raise Fault(f"{self.path} has something else than bounds for {room}: a bound is {', '.join(BOUNDS)}")

    def put(self, room, bound, kind=None, name=None):
        need_bound(bound)
        its = self.set.setdefault(room, {})
        if kind:
            its.setdefault(kind, {})[name] = bound
        else:
            its["room"] = bound
        change = Change(self.places)
        self.save(change)
        change.happen()

    def save(self, change):
        change.put(self.path, json.dumps(self.set, indent=1, sort_keys=True) + "\n")

    def take(self, change, room, its):
        """Those that came with a room."""
        if its:
            self.set[room] = its
            self.save(change)

    def leave(self, change, room, user=None, new=None):
        """A user's own goes with the user, under a new name if there is one; a room's all go with the room."""
        its = self.set.get(room, {}) if user else self.set
        its = its.get("users", {}) if user else its
        was = its.pop(user or room, None)
        if was and new:
            its[new] = was
        if was:
            self.save(change)

    def of(self, room, user):
        its = self.set.get(room, {})
        if user in its.get("users", {}):
            return its["users"][user]
        groups = now.users(self.places, room).get(user, [])
        found = [its["groups"][it] for it in groups if it in its.get("groups", {})]
        return min(found, key=[*BOUNDS].index) if found else its.get("room", USUAL)

    def are_set(self, room):
        """Whether somebody set one there that holds anybody."""
        its = self.set.get(room, {})
        return {its.get("room", "none"), *its.get("groups", {}).values(), *its.get("users", {}).values()} != {"none"}

    def lines(self, room):
        its = self.set.get(room, {})
        yield f"{room}  {its.get('room', USUAL)}"
        for kind in "groups", "users":
            for name, bound in sorted(its.get(kind, {}).items()):
                yield f"{room}  {kind[:-1]} {name}  {bound}"


def path_of(places, room, user):
    rosters.need_room_name(room)
    rosters.need_name(user, "the user")
    return os.path.join(places.front(HELD), f"{user}@{room}")


def is_beyond(places, room, user, at, is_made):
    """Whether that many are too many: by the bound, which may be lower since; of objects fewer than usual where a room
    has few numbers left."""
    bound = Bounds(places).of(room, user)
    if at == "few" and is_made and bound == USUAL:
        used, _ = paces.of_numbers(places.backups(room), places.copies(room))
        return paces.NUMBERS - used < LEFT
    return BOUNDS[bound] is not None and BOUNDS[at] >= BOUNDS[bound]


def mark_of(at, is_made):
    """What the file says of who is held: by which jail."""
    return f"{at} made" if is_made else at


def marked(path):
    return read(path, "").partition(" ")[2].strip()


def is_by_hand(places, room, user):
    """Whom no count let go."""
    return marked(path_of(places, room, user)) == BY_HAND


def hold(places, room, user, at=None, is_made=False, is_told=True):
    """By hand, or where `at` so many were counted. (No command waits for this, nor does this for one.)"""
    path = path_of(places, room, user)
    if room not in places.rooms() or at and (
            marked(path) == BY_HAND or not is_beyond(places, room, user, at, is_made)):
        return False
    own_folder(places, os.path.dirname(path))
    mark = mark_of(at, is_made) if at else BY_HAND
    write(f"{time.strftime('%Y-%m-%dT%H:%M:%SZ', time.gmtime())} {mark}\n", path, 0o640, group_of_workers(places))
    if is_told:
        put(places)
    return True


def release(places, room, user, over=None, is_made=False):
    """And what fail2ban counted of the login begins anew. Where it says itself that a jail's day is `over`, it is not
    asked; and only whom that jail holds is let go: each login passes the lower ones' bounds hours before its own."""
    if not over or marked(path_of(places, room, user)) == mark_of(over, is_made):
        free(places, room, [user], is_anew=not over)


def let_go(places, room, *users):
    """Who of these is held in a room, or all there: for users, and a room, that are no more."""
    found = [it for it in held_in(places, room) if not users or it in users]
    if found:
        free(places, room, found)


def free(places, room, users, is_anew=True):
    """(Of many it is asked at once: each time takes it part of a second.)"""
    for it in users:
        with contextlib.suppress(FileNotFoundError):
            os.unlink(path_of(places, room, it))
    for it in JAILS if is_anew else ():
        said("fail2ban-client", "set", it, "unbanip", *(f"{user}@{room}" for user in users))
    put(places)
