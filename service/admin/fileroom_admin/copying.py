"""What is in a folder of one room goes into another room: with owners, groups and own lists, by a backup of now.

The new folder lets in nobody but that room's owner, who sets its list: EVERYONE@ is all users of the other room. A
group that has other members there is refused, or has another name there.
"""
import base64
from functools import partial

from room_client.manifest import FOLDER
from room_client.trash import TOP
from room_client.words import FOLLOWS, GROUP, INHERITED, PROTECTED

from . import now, owned, rosters
from .asking import Patience, Session, shown
from .places import Fault
from .rooms import back_up
from .sees import ENTRIES, entry_of, way_to
from .syncing import owner_now
from .trash import entries_of
from .warned import owner_of
from .words import entries

SOME = 5  # users of a group that are named
LONGEST = 24 * 3600  # seconds of all requests, while others change what they like
# (the trashes of a whole room stay where they are)
BELOW = """WITH RECURSIVE below(id, path, depth) AS (SELECT ?, '', 0
    UNION ALL SELECT node.id, path || '/' || name, depth + 1 FROM below JOIN node ON parent = below.id
    WHERE parent <> 1 OR name <> ?)
    SELECT id, path, kind, owner, grp, aclflag FROM below JOIN node USING (id) WHERE depth > 0 ORDER BY depth, path"""
NAMED = "SELECT who FROM entry WHERE node = ? AND flag & ?"


def room_copy(call, room, path, to, target, group=None, other_members=False):
    """What is in a folder, into a new one of another room; some groups have other names there."""
    places, names = call.places, names_of(group or ())
    now.need_room(places, room)
    users = now.users(places, to)
    if room == to:
        raise Fault("within a room: room cp -r")
    back_up(places, room)
    need = None if other_members else partial(need_same_members, now.users(places, room), users, to)
    owner, owners, was = copy(places, room, path, to, target, users, names, need)
    whole, others = owned.of_backups().shown, sorted({*owners} - {*users})
    call.say(f"{to}: {whole(target)} has {len(owners)} things of {room}, and lets in {owner} alone, who sets its list")
    if others:
        call.say(f"{owner} owns what was of {', '.join(map(whole, others))}, since they are no users of {to}")
    renamed = f", with the groups' names of {to}" if names else ""
    call.say(f"the list of {whole(path)} in {room}{renamed}: {whole(was)}")


def names_of(given):
    """{OLD: NEW} of words OLD=NEW."""
    names = {}
    for it in given:
        old, is_pair, new = it.partition("=")
        if not is_pair:
            raise Fault(f"--group wants OLD=NEW: {it!r} is not")
        rosters.need_name(new, "the group")
        names[old] = new
    return names


def need_same_members(before, after, to, groups, names):
    """In a group that is copied the same users, of those who are users of both rooms, and nobody else."""
    odd = []
    for group in sorted(groups):
        was, its = ({user for user, its in users.items() if name in its}
                    for users, name in ((before, group), (after, names.get(group, group))))
        told = [f"{how} by {some(users)}" for how, users in (("gained", its - was), ("lost", (was & {*after}) - its))
                if users]
        if told:
            odd.append(f"{names.get(group, group)} ({'; '.join(told)})")
    if odd:
        raise Fault(f"these groups have other members in {to}, so what is copied for them would be {', '.join(odd)}: "
                    f"have it be for another group there, with the same members (--group OLD=NEW), or say that those "
                    f"of {to} are meant (--other-members)")


def some(users):
    more = len(users) - SOME
    return ", ".join(sorted(users)[:SOME]) + f" and {more} more" * (more > 0)


def groups_of(table, its, things):
    """Those that a list in it names, or that a thing has as its own, which GROUP@ means. (So it is of the folder
    itself, whose list its new owner sets as it was.)"""
    rows = [row for node in (its.number, *(node for node, *_ in things)) for row in table.execute(NAMED, (node, GROUP))]
    return {its.group, *(group for *_, group, _ in things), *(who for who, in rows)}


def copy(places, room, path, to, target, users, names, need):
    """The new folder's owner, whose the things in it were, and the list of the folder that was copied, in words."""
    owner = owner_of(places, to) or owner_now(places, to, users)
    if owner not in users:
        raise Fault(f"the owner of {to} is no user of it: fileroom-admin user add {to} {owner or 'USER'}")
    with owned.opened(places, room, owned.latest(places, room), is_whole=True) as table:
        its = way_to(table, path)[-1]
        if its.kind != FOLDER:
            raise Fault(f"{shown(path)} is no folder")
        things = table.execute(BELOW, (its.number, TOP.strip("/"))).fetchall()
        groups = groups_of(table, its, things)
        for it in sorted({*names} - groups - {group for its in now.users(places, room).values() for group in its}):
            raise Fault(f"{room} has no group {it!r}")
        if need:
            need(groups, names)
        session = Session(places.socket(to), owner, Patience(LONGEST))
        session.need("MKDIR", target)
        try:
            fill(session, table, things, target, users, names)
        except Fault as fault:
            raise Fault(f"{fault}; a part is at {shown(target)} of {to}, where {owner} alone comes in: remove that, "
                        "and call this again") from None
        session.end()
    return owner, [whose for *_, whose, _, _ in things], entries(called(it, names) for it in its.entries)


def called(entry, names):
    """With the group's name in the other room."""
    return entry | {"who": names.get(entry["who"], entry["who"])} if entry["flag"] & GROUP else entry


def fill(session, table, things, target, users, names):
    """(A folder gets its owner and list after all that is in it: until then its maker passes.)"""
    session.need("SETLIST", target, aclflag=PROTECTED, entries=entries_of(session.user))
    for node, at, is_folder, *_ in things:
        if is_folder:
            session.need("MKDIR", target + at)
        else:
            data, = table.execute("SELECT bytes FROM doc WHERE node = ?", (node,)).fetchone() or (b"",)
            session.need("CREATE", target + at, data=base64.b64encode(data).decode())
    for node, at, _, owner, group, flags in reversed(things):
        session.need("CHOWN", target + at, owner=owner if owner in users else session.user,
                     group=names.get(group, group))
        rows = table.execute(f"{ENTRIES} WHERE node = ? ORDER BY place", (node,))
        own = [called(it, names) for it in map(entry_of, rows) if not it["flag"] & INHERITED]
        if own or flags != FOLLOWS:
            session.need("SETLIST", target + at, aclflag=flags, entries=own)
