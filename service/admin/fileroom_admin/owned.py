"""What a user owns in a room, and which lists name the user: as the latest backup has it, since a room that is served
lets nobody else read its file."""
import contextlib
import datetime
import importlib.machinery
import importlib.util
import os
import sys
import tempfile
import time

from room_client.manifest import IN_PATH
from room_client.words import GROUP, INHERITED

from .places import HERE, Fault

TOLD = 20  # paths at most
TO_COME = "named for a time to come, and passes for the latest until then"
# (how many things each owns, with a large file as one)
WHOLE = """SELECT node.owner, count(*) FROM node LEFT JOIN node AS above ON above.id = node.parent
    WHERE NOT is_part(coalesce('/' || above.name, '') || '/' || node.name) GROUP BY node.owner"""
# (of whom each such folder is, by its name: docs/FILES.md)
EMPTY_TRASHES = """SELECT it.id, it.name FROM node AS it JOIN node AS part ON part.id = it.parent
    JOIN node AS top ON top.id = part.parent JOIN node AS root ON root.id = top.parent WHERE root.parent IS NULL
    AND top.name = 'trash' AND part.name GLOB '@?' AND NOT EXISTS (SELECT 1 FROM node WHERE parent = it.id)"""


def whole(path):
    """The large file that this is a part of, or itself."""
    part = IN_PATH.search(path)
    return path[:part.start()] if part else path


def of_backups():
    """The script that reads backups, without following a link."""
    loader = importlib.machinery.SourceFileLoader("one", os.path.join(HERE, "../../fileroom-one"))
    sys.dont_write_bytecode = True
    module = importlib.util.module_from_spec(importlib.util.spec_from_loader("one", loader))
    loader.exec_module(module)
    return module


def latest(places, room):
    """The name of the latest backup."""
    names = places.copies(room)
    if not names:
        raise Fault(f"{room} has no backup")
    return names[-1]


def made_at(name):
    """When a backup of that name was made."""
    return datetime.datetime.strptime(name, "%Y-%m-%dT%H-%M-%SZ").replace(tzinfo=datetime.timezone.utc).timestamp()


def age_of(name):
    """In seconds; below 0 where the clock ran ahead as it was made, or is behind now."""
    return time.time() - made_at(name)


@contextlib.contextmanager
def opened(places, room, name, is_whole=False):
    """A copy of a backup's tables; with `is_whole` each row was looked at, whether it is where it belongs."""
    one = of_backups()
    with tempfile.TemporaryDirectory(prefix="fileroom-") as to:
        try:
            one.copy_room(os.path.join(places.backups(room), name), to)
            with one.opened(to) as table:
                if is_whole:
                    one.need_whole(table)
                yield table
        except (one.Fault, *one.NONE) as fault:
            raise Fault(f"the backup {name} of {room} cannot be read: {one.why(fault)}") from None


def path_of(table, node):
    names = []
    while node is not None and len(names) <= 17:
        node, name = table.execute("SELECT parent, name FROM node WHERE id = ?", (node,)).fetchone()
        names.append(name)
    return "/".join(reversed(names)) or "/"


def found(places, room, user):
    """The backup, and the sorted paths that a user owns, and those whose own entries name the user."""
    name = latest(places, room)
    with opened(places, room, name) as table:
        owns = table.execute("SELECT id FROM node WHERE owner = ?", (user,)).fetchall()
        named = table.execute("SELECT DISTINCT node FROM entry WHERE who = ? AND flag & ? = 0",
                              (user, GROUP | INHERITED)).fetchall()
        paths = [sorted(path for it, in nodes for path in [path_of(table, it)] if not IN_PATH.search(path))
                 for nodes in (owns, named)]
    return name, *paths


def deepest_first(places, room, users):
    """By the latest backup the paths that each of some users owns, parts of large files too, each before the folders
    that it is in: who passes through a folder as its owner alone still does."""
    paths = {}
    with opened(places, room, latest(places, room), is_whole=True) as table:
        for user in users:
            nodes = table.execute("SELECT id FROM node WHERE owner = ?", (user,)).fetchall()
            paths[user] = sorted((path_of(table, it) for it, in nodes), key=lambda it: (-it.count("/"), it == "/", it))
    return paths


def known(places, room, users):
    """The backup, and those of the users who own something by it, or whom an own entry names. (A trash of that name in
    which nothing is tells nobody anything, and becomes whose name it is.)"""
    name = latest(places, room)
    with opened(places, room, name) as table:
        bare = {*table.execute(EMPTY_TRASHES)}
        owners = table.execute("SELECT DISTINCT owner, CASE WHEN owner = name THEN id END FROM node")
        named = table.execute("SELECT DISTINCT who, node FROM entry WHERE flag & ? = 0", (GROUP | INHERITED,))
        found = {it for it, node in (*owners, *named) if (node, it) not in bare}
    return name, [it for it in users if it in found]


def known_before(places, room, users):
    """Why each of the users who would be new there is not just taken: the name was somebody's, of whom something is
    left."""
    name, its = known(places, room, users) if users and places.copies(room) else ("", ())
    for it in its:
        yield (f"{it} is new, and the backup {name} of {room} has things or lists of somebody of that name; if it is "
               "the same person: --again")


def left_before(places, room, users):
    """The same, or nothing where no backup can be read: a user is added all the same."""
    try:
        return [*known_before(places, room, users)]
    except (Fault, OSError):
        return []


def left_by(places, room, users):
    """A line for each of some users who owns something there, or whom a list names."""
    try:
        name = latest(places, room)
        with opened(places, room, name) as table:
            table.create_function("is_part", 1, lambda path: bool(IN_PATH.search(path)), deterministic=True)
            things = dict(table.execute(WHOLE))
            lists = dict(table.execute("SELECT who, count(DISTINCT node) FROM entry WHERE flag & ? = 0 GROUP BY who",
                                       (GROUP | INHERITED,)))
    except (Fault, OSError) as fault:
        return [f"what they own in {room} is not known: {fault}"]
    return [f"{room}: {it} owns {things.get(it, 0)} things and is named in {lists.get(it, 0)} lists, by the backup "
            f"{name}: fileroom-admin user owns {it}" for it in users if it in things or it in lists]


def told(places, room, user, to=None, is_given=False):
    """Lines about it, after how to have a list of now, and with the one that hands it over; what `is_given` already is
    left out."""
    name, owns, named = found(places, room, user)
    shown, owns = of_backups().shown, [] if is_given else owns
    lines = [f"the backup {name} of {room} does not have what was done since; {anew(room, user)}"]
    for what, paths in (f"owns {len(owns)} things", owns), (f"is named in {len(named)} lists", named):
        if paths:
            more = f", and {len(paths) - TOLD} more" if len(paths) > TOLD else ""
            lines.append(f"{user} {what} in {room}, by the backup {name}: "
                         f"{', '.join(map(shown, paths[:TOLD]))}{more}")
    if owns:
        lines.append(f"to hand it over, as {user} or who else may set owners there: room chown -r --from {user} "
                     f"{to or 'USER'}:GROUP /")
    return lines


def anew(room, user):
    return f"for a list of now: systemctl start fileroom-backup@{room}; fileroom-admin user owns {user}"
