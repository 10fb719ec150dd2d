"""Users and groups, one or many at once: a command is one change, which each room of it reads with its next request.
"""
import json
import os
import secrets
import sys

from . import held, now, owned, rosters, sheets, signin
from .changes import Change
from .places import WORKERS, Fault, read
from .trash import Trashes

FOR_WORKERS = 0o640, WORKERS  # who may read the passwords
DRAWN = 12  # bytes
FAULTS = 20  # of a table that are told: nobody else changes anything meanwhile


# Changes of rosters.

def put_roster(change, room, text, changed):
    """The roster `text` with what changes of users, as `rosters.with_users` has it."""
    places, made = change.places, rosters.with_users(text, changed)
    roster = places.roster(room)
    change.put(roster, made)
    change.put(places.front(f"rooms/{room}.users.json"), rosters.page_copy(made))
    one = next(iter(changed))
    change.look(places.program, "replay", roster, "--", one, one)


def twins_by(places, changed):
    """What speaks against a change of rosters where a directory is asked: it lets in `ANN` by the password of `ann`.
    (Those who are there already may stay while others change.)"""
    before = {it: now.users(places, it) for it in places.rooms()} if signin.is_on(places) else {}
    after = {it: {**before.get(it, {}), **changed.get(it, {})} for it in {**before, **changed}} if before else {}
    left = [user for its in after.values() for user, groups in its.items() if groups is not None]
    new = rosters.twins_of(left) - rosters.twins_of(user for its in before.values() for user in its)
    return [f"{' and '.join(it)} are one account for the directory: choose another name" for it in sorted(new)]


def need_no_twins(places, changed):
    for it in twins_by(places, changed):
        raise Fault(it)


def change_rosters(places, changed):
    """The change of some rooms' rosters, {ROOM: {USER: groups}}."""
    need_no_twins(places, changed)
    change = Change(places)
    for room, its in changed.items():
        put_roster(change, room, read(places.roster(room)), its)
    return change


def leave_bounds(change, gone):
    """Of the users of each room who go."""
    bounds = held.Bounds(change.places)
    for room, users in gone.items():
        for user in users:
            bounds.leave(change, room, user)


# Passwords and names.

def draw(change, *users):
    """Passwords for those of the users who have none yet."""
    return put_drawn(change, drawn_for(change.places, users))


def drawn_for(places, users):
    has = {*now.logins(places)}
    if signin.is_on(places):  # (a password of this machine would outlive the directory's)
        return {}
    return {it: secrets.token_urlsafe(DRAWN) for it in users if it not in has}


def put_drawn(change, drawn):
    if drawn:
        put_passwords(change, {it: rosters.hashed_drawn(word) for it, word in drawn.items()})
        change.drawn = list(drawn)
    return drawn


def put_passwords(change, lines):
    users = change.places.front("users")
    change.put(users, rosters.with_passwords(now.passwords(change.places), lines),
               *(() if os.path.exists(users) else FOR_WORKERS))


def tell_password(call, user, drawn, *before):
    """(The one thing that -q prints too; before the room is asked for anything, since it may not answer.)"""
    for it in before:
        call.say(it)
    if user in drawn:
        call.tell(f"the password of {user}: ", drawn[user])
    elif user in now.logins(call.places):
        call.say(f"{user} keeps the old password")
    else:
        call.say(f"{user} logs in by the directory")


def tell_passwords(call, drawn, before):
    call.say(before)
    for user, word in drawn.items():
        call.tell("", f"{user},{word}")


def put_names(change, names):
    """(A user without one is shown as the roster has it.)"""
    had = now.names(change.places)
    kept = {user: name for user, name in sorted({**had, **names}.items()) if name}
    if kept != had:
        change.put(change.places.front("names.json"), json.dumps(kept) + "\n")


# The commands for one user.

def user_add(call, room, user, groups, again=False):
    rosters.need_name(user, "the user")
    if user in now.users(call.places, room):
        raise Fault(f"{user} is already in the room {room} (to change groups: fileroom-admin user groups)")
    for it in () if again else owned.left_before(call.places, room, [user]):
        raise Fault(it)
    change = change_rosters(call.places, {room: {user: groups}})
    drawn = draw(change, user)
    change.happen(lambda: tell_password(call, user, drawn, (
        f"{user} is a user of the room {room}, in {', '.join(groups) or 'no group'}")))
    trash_for(call, room, user)


def user_groups(call, room, user, groups):
    now.need_user(call.places, room, user)
    change_rosters(call.places, {room: {user: groups}}).happen()
    call.say(f"{user} is in {', '.join(groups) or 'no group'} in the room {room}")


def user_rename(call, old, new):
    """In each room, with the login and the display name. What a room itself has by that name stays (`owned`)."""
    places = call.places
    rosters.need_name(new, "the new name")
    rooms = now.need_rooms_of(places, old)
    if now.rooms_of(places, new) or new in now.logins(places):
        raise Fault(f"{new} is there already")
    had = {it: now.users(places, it)[old] for it in rooms}
    change = change_rosters(places, {it: {old: None, new: groups} for it, groups in had.items()})
    change.put(places.front("users"), rosters.with_renamed(now.passwords(places), old, new))
    put_names(change, {old: None, new: now.names(places).get(old)})
    bounds = held.Bounds(places)
    for room in rooms:
        bounds.leave(change, room, old, new)
    change.happen()
    for room in rooms:
        held.let_go(places, room, old)
    own = ", with the same password" if new in now.logins(places) else ""
    its = f"; the directory lets {new} in once it has that name" if signin.is_on(places) else ""
    call.say(f"{old} is {new} in {', '.join(rooms)}{own}{its}")
    call.say(f"a room keeps by whose name it is who owns a thing, who is named in a list, and whose a session is: "
             f"that stays {old}'s, also what page or client of {old} had not sent yet")
    call.say(f"to have {new} own it: " + "; ".join([
        *(f"fileroom-admin user add --again {' '.join([it, old, *groups])}" for it, groups in had.items()),
        f"fileroom-admin user remove --all --to {new} {old}"]))
    for room in rooms:
        trash_for(call, room, new)
    user_owns(call, old, *rooms, given=rooms, are_all=False)


def user_name(call, user, words):
    name = " ".join(words)
    now.need_rooms_of(call.places, user)
    rosters.need_display_name(name)
    change = Change(call.places)
    put_names(change, {user: name})
    change.happen()
    call.say(f"{user} is shown as {name or user}")


def user_passwd(call, user, given=None):
    now.need_rooms_of(call.places, user)
    change = Change(call.places)
    if given is None:
        drawn = put_drawn(change, {user: secrets.token_urlsafe(DRAWN)})
        change.happen(lambda: tell_password(call, user, drawn))
    else:
        rosters.need_password(given)
        put_passwords(change, {user: rosters.hashed_chosen(given)})
        change.happen()
        call.say(f"{user} has the given password")


def user_without(call, user):
    """A password of this machine."""
    if user not in now.logins(call.places):
        raise Fault(f"{user} has no password of this machine")
    if not signin.is_on(call.places):
        raise Fault(f"{user} could not log in at all: no directory is asked (signin on)")
    change = Change(call.places)
    put_passwords(change, {user: None})
    change.happen()
    call.say(f"{user} logs in by the directory alone")


def user_owns(call, user, *rooms, to=None, given=(), are_all=True):
    """What the latest backups say that a user owns, but in rooms where it was given away, and which lists name the
    user, with the line that hands it over. Other rooms than the user's, which have nothing of them, share a line."""
    its, without = rooms or now.rooms_of(call.places, user), []
    for room in call.places.rooms() if are_all else rooms:
        try:
            lines = owned.told(call.places, room, user, to, is_given=room in given)
            is_bare = len(lines) == 1 and room not in its
        except (Fault, OSError) as fault:
            lines = [f"what {user} owns in {room} is not known: {fault}; {owned.anew(room, user)}"]
            is_bare = False
        if is_bare:
            without.append(room)
            continue
        for it in lines:
            call.say(it)
    if without:
        call.say(f"by the latest backups nothing is {user}'s, and no list names {user}, in {', '.join(without)}")


# The commands for many.

def user_import(call, room, path, is_update):
    """Users as a table has them. All of it is looked at before anything happens."""
    there, names = now.users(call.places, room), now.names(call.places)
    tables, faults = sheets.read_rooms(path, {room: there}, room, is_update)
    rows = tables[room]
    if not faults and len({*there, *rows}) > rosters.USERS:
        faults = [f"the room {room} would have {len({*there, *rows})} users, and {rosters.USERS} are the most"]
    need_none(faults, path)
    its_groups = {user: groups for user, (groups, _) in rows.items() if there.get(user) != groups}
    change = change_rosters(call.places, {room: its_groups}) if its_groups else Change(call.places)
    drawn = draw(change, *rows)
    put_names(change, {user: names.get(user) if name is None else name for user, (_, name) in rows.items()})
    new = [it for it in rows if it not in there]
    change.happen(lambda: tell_passwords(call, drawn, (
        f"{room}: {len(new)} new users, {len(its_groups) - len(new)} with other groups, {len(rows)} in the table")))
    if its_groups:
        trash_for(call, room, *new)


def need_none(faults, path):
    more = len(faults) - FAULTS
    for it in [*faults[:FAULTS], *[f"and {more} others"] * (more > 0)]:
        print(f"fileroom-admin: {it}", file=sys.stderr)
    if faults:
        raise Fault(f"nothing was changed: {len(faults)} faults in {path}")


def group_change(call, room, group, users, is_in):
    """Some users at once into a group, or out of it."""
    rosters.need_name(group, "the group")
    there = now.users(call.places, room)
    strangers = [it for it in users if it not in there]
    if strangers:
        raise Fault(f"no users of the room {room}: {', '.join(strangers)}")
    changed = {it: [*there[it], group] if is_in else [one for one in there[it] if one != group]
               for it in users if (group in there[it]) != is_in}
    full = [it for it, groups in changed.items() if len(groups) > rosters.GROUPS]
    if full:
        raise Fault(f"in {rosters.GROUPS} groups already: {', '.join(full)}")
    if changed:
        change_rosters(call.places, {room: changed}).happen()
    call.say(f"{room}: {len(changed)} users {'came to' if is_in else 'left'} {group}")


def group_list(call, room=None):
    for it in [room] if room else call.places.rooms():
        groups = {}
        for user, its in now.users(call.places, it).items():
            for group in its:
                groups.setdefault(group, []).append(user)
        for group, users in sorted(groups.items()):
            call.say(f"{it}  {group}  {','.join(users)}")


def bound(call, room, its_bound, user, group):
    now.need_room(call.places, room)
    bounds = held.Bounds(call.places)
    if its_bound and user:
        now.need_user(call.places, room, user)
    if its_bound:
        bounds.put(room, its_bound, *(("users", user) if user else ("groups", group) if group else ()))
    for it in bounds.lines(room):
        call.say(it)


def user_list(call, room=None, is_table=False):
    places, names = call.places, now.names(call.places)
    logins, without = now.logins(places), "directory" if signin.is_on(places) else "no login"
    there = {it: now.users(places, it) for it in ([room] if room else places.rooms())}
    if is_table:
        call.say(sheets.written(there, names, not room).rstrip("\n"))
        return
    for it, users in there.items():
        for user, groups in users.items():
            name = f"  {names[user]}" if user in names else ""
            call.say(f"{it}  {user}  {','.join(groups) or '-'}  {'login' if user in logins else without}{name}")


# Trashes.

def trash_for(call, room, *users):
    """Of those who come: one of that name may be another's by now. (What the room refuses here can be done later.)"""
    faults = {}
    try:
        with Trashes(call.places.socket(room), now.users(call.places, room), is_anew=True) as trashes:
            for user in users:
                try:
                    trashes.settle(user)
                except Fault as fault:
                    faults[user] = fault
    except Fault as fault:
        faults = dict.fromkeys(users, fault)
    for user, fault in list(faults.items())[:3]:
        call.say(f"{user} has no trash: {fault}; then: fileroom-admin trash {room}")
    if len(faults) > 3:
        call.say(f"and {len(faults) - 3} others have none")


def trash(call, room, some=()):
    """For each user of a room one that is theirs alone; `some` are looked at also where they had one before."""
    for user in some:
        now.need_user(call.places, room, user)
    there = now.users(call.places, room)
    users, done, faults = some or there, 0, []
    with Trashes(call.places.socket(room), there, is_anew=bool(some)) as trashes:
        for user in users:
            try:
                done += trashes.settle(user)
            except Fault as fault:
                faults.append(f"{user} has no trash: {fault}")
    for it in faults:
        call.say(it)
    call.say(f"{room}: {len(users) - len(faults)} of {len(users)} users have a trash ({done} new)")
    if faults:
        raise Fault(f"{len(faults)} users have no trash")
