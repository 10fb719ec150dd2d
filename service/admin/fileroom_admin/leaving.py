"""Somebody leaves: what that user owns is handed over, and the user is removed.

It is handed over as the user, so the lists decide. What there is, a backup of now tells, since a room lets nobody look
through all of it; whose each thing is, the room."""
import os

from room_client.manifest import FOLDER
from room_client.who import TRAVERSE
from room_client.words import FILE, right_words

from . import held, now, owned, people
from .asking import ACCESS, NOENT, Patience, Session
from .places import Fault
from .rooms import back_up

TOLD = 20  # things of a room that are left


class Left(Exception):
    """Why one thing still belongs to the user."""


def hand_over(places, room, user, paths, to):
    """Which of these things were given, a large file with all its parts as one, and why each of the others is still the
    user's, by its path: of a large file that is left itself no part is told."""
    if not os.path.exists(places.socket(room)):
        raise Fault("the room is not served")
    session, given, left = Session(places.socket(room), user, Patience()), set(), {}
    for path in paths:
        try:
            given |= {owned.whole(path)} if give(session, path, to) else set()
        except Left as why:
            left[path] = str(why)
    session.end()
    kept = {owned.whole(it) for it in left}
    return given - kept, {it: left[it] for it in left if owned.whole(it) in (it, *kept - left.keys())}


def give(session, path, to):
    """Whether it was the user's until now: it may be another's since the backup, or that of a call before."""
    its = need(session, "STAT", path)
    if its["owner"] != session.user:
        return False
    need(session, "CHOWN", path, owner=to, group=its["group"])
    return True


def need(session, cmd, path, **more):
    reply = session.ask(cmd, path, **more)
    if reply["code"]:
        raise Left(why(session.user, path, reply))
    return reply


def why(user, path, reply):
    at, bit = reply.get("path", path), reply.get("bit")
    if reply["code"] == NOENT:
        return "it was moved or removed meanwhile"
    if reply["code"] != ACCESS or type(bit) is not int:
        return f"the room refuses it: {reply.get('error', '')} ({reply['code']})"
    if bit == TRAVERSE and at != path:
        return f"{at} does not let {user} go through to what is in it"
    return f"its list gives {user} no {'/'.join(right_words(bit, FOLDER, FILE))}"


def user_remove(call, user, *rooms, to=None):
    """From these rooms; with the last one the login goes too. With `to` all is handed over first, or nobody goes.
    """
    places = call.places
    for it in rooms:
        now.need_user(places, it, user)
    if to:
        need_none_left(hand_over_all(call, {it: [user] for it in rooms}, to))
    back = [f"fileroom-admin user add --again {' '.join([it, user, *now.users(places, it)[user]])}" for it in rooms]
    elsewhere = [it for it in now.rooms_of(places, user) if it not in rooms]
    change = people.change_rosters(places, {it: {user: None} for it in rooms})
    people.leave_bounds(change, {it: [user] for it in rooms})
    if not elsewhere:
        people.put_passwords(change, {user: None})
        people.put_names(change, {user: None})
    change.happen()
    for it in rooms:
        held.let_go(places, it, user)
    call.say(f"{user} is no user of the room{'s' * (len(rooms) > 1)} {', '.join(rooms)} any more" + (
        f"; the login stays, for {', '.join(elsewhere)}" if elsewhere else ", and has no login"))
    owned_by = f"lists and sessions name {user}" if to else f"what {user} owned still belongs to {user}"
    call.say(f"{owned_by}: give that name to nobody else; to bring {user} back: {'; '.join(back)}")
    people.user_owns(call, user, *rooms, given=rooms if to else (), are_all=not elsewhere)


def hand_over_all(call, leaving, to):
    """What the users of {ROOM: USERS} own there, to somebody who is in all these rooms; and of whom something is left
    in each. Meanwhile they change nothing there, and who has something left stays so. (A call that was stopped is
    called again: what was given is the other's.)"""
    strangers = [it for it in leaving if to not in now.users(call.places, it)]
    if strangers:
        raise Fault(f"{to} is no user of {', '.join(strangers)}: fileroom-admin user add ROOM {to}")
    if any(to in users for users in leaving.values()):
        raise Fault(f"{to} has what {to} owns already")
    for room, users in leaving.items():
        for it in users:
            held.hold(call.places, room, it, is_told=False)  # (that takes a second each, and is over soon)
    return {room: hand_over_in(call, room, users, to) for room, users in leaving.items()}


def need_none_left(left):
    who = sorted({user for users in left.values() for user in users})
    if who:
        stays = "stays a user, and is held" if len(who) == 1 else "stay users, and are held"
        raise Fault(f"{', '.join(who)} {stays}: not all was handed over in "
                    f"{', '.join(room for room, users in left.items() if users)}. Correct what is named and call this "
                    "again; or leave it: the same without --to")


def hand_over_in(call, room, users, to):
    """Of whom something is left there."""
    try:
        back_up(call.places, room)
        paths = owned.deepest_first(call.places, room, users)
    except (Fault, OSError) as fault:
        call.say(f"{room}: what {', '.join(users)} own{'s' * (len(users) == 1)} is not handed over: {fault}")
        return users
    return [it for it in users if paths[it] and not hand_over_of(call, room, it, paths[it], to)]


def hand_over_of(call, room, user, paths, to):
    """Whether nothing of the user's is left there."""
    shown = owned.of_backups().shown
    try:
        given, left = hand_over(call.places, room, user, paths, to)
    except (Fault, OSError) as fault:
        call.say(f"{room}: what {user} owns is not handed over: {fault}")
        return False
    kept = {owned.whole(it) for it in left}
    call.say(f"{room}: {len(given)} things of {user} belong to {to}" + f", {len(kept)} do not" * bool(kept))
    for path in sorted(left)[:TOLD]:
        call.say(f"{room}: {shown(path)} is still {user}'s: {shown(left[path])}")
    if len(left) > TOLD:
        call.say(f"{room}: and so are {len(left) - TOLD} more")
    return not left
