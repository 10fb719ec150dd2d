"""What is there now: rooms, users, logins and names, as the machine's files have them."""
from . import rosters
from .places import Fault, read, read_json, said


def need_room(places, room):
    if room not in places.rooms():
        raise Fault(f"there is no room {room}: {', '.join(places.rooms()) or 'none at all'}")


def is_served(places, room):
    return not said("systemctl", "is-active", "-q", places.unit(room))[0]


def users(places, room):
    """Each user of a room with the groups."""
    need_room(places, room)
    return rosters.users_of(read(places.roster(room)), places.roster(room))


def need_user(places, room, user):
    if user not in users(places, room):
        raise Fault(f"{user} is no user of the room {room}")


def rooms_of(places, user):
    return [it for it in places.rooms() if user in users(places, it)]


def need_rooms_of(places, user):
    """The same, where there is one."""
    rooms = rooms_of(places, user)
    if not rooms:
        raise Fault(f"{user} is no user of a room")
    return rooms


def passwords(places):
    """The lines of all logins."""
    return read(places.front("users"), "")


def logins(places):
    return rosters.logins_of(passwords(places))


def names(places):
    """The users' names as people write them."""
    return read_json(places.front("names.json"), dict)
