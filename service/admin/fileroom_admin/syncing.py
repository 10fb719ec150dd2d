"""The users of one room, or of each that a table names, become those of the table: one change."""
import contextlib
import os

from . import held, leaving, now, owned, people, rosters, sheets
from .asking import WAIT, Patience, Session
from .changes import Change
from .places import Fault
from .steps import Step
from .warned import owner_of

FEW = 5  # users of a room who may go at once without a word
ASKED = 3  # users by whom a room is asked whose it is: each takes a row of it for good


def user_sync(call, room, path, given):
    """All of it is looked at before anything happens."""
    places, names = call.places, now.names(call.places)
    there = {it: now.users(places, it) for it in ([room] if room else places.rooms())}
    tables, faults = sheets.read_rooms(path, there, room)
    steps = {it: Step(there[it], rows, names) for it, rows in tables.items() if it in there}
    for it, step in steps.items():
        faults += against(places, it, step, given)
    faults += people.twins_by(places, {it: step.changed() for it, step in steps.items()})
    people.need_none(faults, path)
    tell_steps(call, steps)
    if given.dry_run or not any(it.is_any() for it in steps.values()):
        call.say("nothing was changed (--dry-run)" if given.dry_run else
                 f"{', '.join(steps)}: all is as the table has it")
        return
    going = {it: step.gone for it, step in steps.items() if step.gone}
    left = leaving.hand_over_all(call, going, given.to) if given.to else {}
    steps = {it: step.but(left.get(it, ())) for it, step in steps.items()}
    new = dict.fromkeys(it for one in steps.values() for it in one.new)
    if any(it.is_any() for it in steps.values()):
        take_steps(call, steps, {} if given.no_passwords else people.drawn_for(places, new), is_given=bool(given.to))
    leaving.need_none_left(left)


def tell_steps(call, steps):
    for room, step in steps.items():
        for it in step.lines(room):
            call.say(it)
    for user, name in shown_of(steps).items():
        call.say(f"{user} is shown as {name or user}")


def take_steps(call, steps, drawn, is_given):
    changed = {room: step.changed() for room, step in steps.items() if step.changed()}
    change = people.change_rosters(call.places, changed) if changed else Change(call.places)
    people.leave_bounds(change, {room: step.gone for room, step in steps.items()})
    away = dict.fromkeys(gone_from_all(call.places, steps))
    people.put_passwords(change, {**away, **{it: rosters.hashed_drawn(word) for it, word in drawn.items()}})
    change.drawn = [*drawn]
    people.put_names(change, {**shown_of(steps), **away})
    told = [f"{room}: {len(it.rows) - len(it.stays)} users, as the table has it" + (
        f", and {len(it.stays)} who stay" * bool(it.stays)) for room, it in steps.items() if it.is_any()]
    change.happen(lambda: people.tell_passwords(call, drawn, "\n".join(told)))
    for room in changed:
        see_off(call, room, steps[room], is_given)


def gone_from_all(places, steps):
    """Who is in no room any more."""
    left = {user for room in places.rooms() for user in (
        steps[room].rows if room in steps else now.users(places, room))}
    return {user for step in steps.values() for user in step.gone if user not in left}


def see_off(call, room, step, is_given):
    """What is not of the change: who is held, whose trash is new, and what those own who went, unless it is given away.
    """
    if step.gone:
        held.let_go(call.places, room, *step.gone)
    people.trash_for(call, room, *step.new)
    for it in owned.left_by(call.places, room, step.gone) if step.gone and not is_given else ():
        call.say(it)


def against(places, room, step, given):
    """What speaks against it: a table that lacks many, or the room's owner; and names that others had."""
    owner = owner_of(places, room) or step.gone and owner_now(places, room, step.there)
    if len(step.rows) > rosters.USERS:
        yield f"the room {room} would have {len(step.rows)} users, and {rosters.USERS} are the most"
    if owner in step.gone:
        yield f"{owner} is not in the table, and owns the room {room}"
    if step.gone and owner is None:
        yield (f"no backup here tells who owns {room}, and the room does not answer, so none of its users may go: "
               f"systemctl start fileroom-backup@{room}")
    if len(step.gone) > max(FEW, len(step.there) // 5) and not given.many:
        yield f"{len(step.gone)} of {len(step.there)} users of {room} would go; if that is right: --many"
    if not given.again:
        yield from owned.known_before(places, room, step.new)


def owner_now(places, room, users):
    """Whose a room without a backup is, as one of its first users tells, if it is served."""
    with contextlib.suppress(Fault):
        for user in [*users][:ASKED] if os.path.exists(places.socket(room)) else ():
            session = Session(places.socket(room), user, Patience(WAIT))
            its = session.ask("STAT", "/")
            session.end()
            if its["code"] == 0:
                return its["owner"]
    return None


def shown_of(steps):
    return {user: name for step in steps.values() for user, name in step.shown.items()}
