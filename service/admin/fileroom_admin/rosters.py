"""Rosters, passwords, and names: their texts before and after a change."""
import base64
import ctypes
import hashlib
import json
import re
import secrets
import tomllib

from .places import Fault

NAME = r"[A-Za-z0-9._-]{1,32}"
ROOM_NAME = r"[A-Za-z0-9][A-Za-z0-9_-]{0,31}"
SHORTEST, LONGEST = 10, 256  # letters of a password that is given
LONGEST_NAME = 64  # letters of a display name
USERS, GROUPS = 1000, 16  # a roster has at most so many, and a user so many groups


# What stands behind a login: what was drawn, what was chosen, and what programs before 0.4.0 wrote (`$apr1$`), each of
# the one cost that it is written with. (nginx computes any that it is given, for minutes too.)
HASH = re.compile(r"\{SSHA\}[A-Za-z0-9+/]{48}|\$y\$j75\$[./A-Za-z0-9]{22}\$[./A-Za-z0-9]{43}"
                  r"|\$apr1\$[./A-Za-z0-9]{1,8}\$[./A-Za-z0-9]{22}")
# So much in the square: of a key of many dots TOML's reader keeps each beginning, and of a table whose name has many it
# goes through all of them in each line below.
DOTS = 2000

LOGGED_OUT = "logged-out"  # by which the page has a browser forget its login: the front lets nobody in by that name


def need_name(name, what):
    if not re.fullmatch(NAME, name):
        raise Fault(f"{what} {name!r} is not 1 to 32 letters, digits, '.', '_' or '-'")
    if name == LOGGED_OUT:
        raise Fault(f"{what} cannot be {LOGGED_OUT}: by that name the page logs out")


def need_room_name(name):
    if not re.fullmatch(ROOM_NAME, name):
        raise Fault(f"a room's name is 1 to 32 letters, digits, '_' or '-', and begins with neither: {name!r} is not")


def users_of(text, path="the roster"):
    """Each user with the groups, as the room reads them."""
    dots = [line.count(".") for line in text.split("\n")]
    if max(dots) * sum(max(it, 1) for it in dots) > DOTS ** 2:
        raise Fault(f"{path} has more dots than a roster")
    try:
        read = tomllib.loads(text)
    except (ValueError, RecursionError) as fault:
        raise Fault(f"{path} is no TOML: {fault}") from None
    users = read.get("users")
    if set(read) != {"users"} or not isinstance(users, dict):
        raise Fault(f"{path} has to have the table `users` and nothing else")
    for user, groups in users.items():
        need_name(user, f"{path}: the user")
        if not isinstance(groups, list) or len(groups) > GROUPS or len(users) > USERS:
            raise Fault(f"{path}: {user} has no list of at most {GROUPS} groups, or there are over {USERS} users")
        for group in groups:
            if not isinstance(group, str):
                raise Fault(f"{path}: a group of {user} is no text")
            need_name(group, f"{path}: the group")
    return users


def twins_of(users):
    """The names among these that differ by capitals alone: a directory takes them for one."""
    alike = {}
    for it in {*users}:
        alike.setdefault(it.lower(), []).append(it)
    return {tuple(sorted(its)) for its in alike.values() if len(its) > 1}


def line_of(user, groups):
    key = f'"{user}"' if "." in user else user
    return f"{key} = {json.dumps(groups)}"


def with_users(text, changed):
    """The roster in which each of these users has these groups, or is not where they are None.

    Its other lines stay as they are. Where it is written in another way than a line a user, it is written anew.
    """
    want = {user: groups for user, groups in {**users_of(text), **changed}.items() if groups is not None}
    left = {user: line_of(user, groups) for user, groups in changed.items() if groups is not None}
    lines = []
    for line in text.splitlines():
        found = re.match(rf"\s*([\"']?)({NAME})\1\s*=", line)
        if not found or found[2] not in changed:
            lines.append(line)
        elif found[2] in left:
            lines.append(left.pop(found[2]))
    made = "\n".join([*lines, *left.values()]) + "\n"
    try:
        if users_of(made) == want:
            return made
    except Fault:
        pass
    return "[users]\n" + "".join(f"{line_of(*it)}\n" for it in want.items())


def page_copy(text, *path):
    """The roster as the page reads it."""
    return json.dumps(users_of(text, *path)) + "\n"


def hashed_drawn(password):
    """As nginx compares it in no time: by 96 bits that were drawn nobody comes, however quick the hash."""
    salt = secrets.token_bytes(16)
    return "{SSHA}" + base64.b64encode(hashlib.sha1(password.encode() + salt).digest() + salt).decode()


def hashed_chosen(password):
    """By the C library, as nginx asks it: yescrypt over 1 MiB, the least it takes, since nginx does it for each request
    and does nothing else meanwhile, a millisecond."""
    library = ctypes.CDLL("libcrypt.so.1")
    for it in library.crypt, library.crypt_gensalt:
        it.restype = ctypes.c_char_p
    setting = library.crypt_gensalt(b"$y$", ctypes.c_ulong(1), None, 0)
    line = library.crypt(password.encode(), setting) if setting else None
    if not line or not line.startswith(b"$y$"):
        raise Fault("the C library has no yescrypt: let fileroom-admin draw a password")
    return line.decode()


def need_display_name(name):
    if len(name) > LONGEST_NAME or not name.isprintable():
        raise Fault(f"a name as people write it has at most {LONGEST_NAME} letters, all of which can be seen")


def need_password(password):
    """(The front takes no longer login.)"""
    if not SHORTEST <= len(password) or len(password.encode(errors="replace")) > LONGEST:
        raise Fault(f"a password has {SHORTEST} to {LONGEST} letters")
    if not password.isprintable():
        raise Fault("a password has no invisible letters")


def with_passwords(text, lines):
    """The front's passwords with these users' lines, or without one where it is None."""
    kept = [it for it in text.splitlines() if it.partition(":")[0] not in lines]
    return "".join(f"{it}\n" for it in kept + [f"{user}:{line}" for user, line in lines.items() if line])


def with_renamed(text, old, new):
    """The front's passwords with that of one user as another's."""
    return "".join(f"{new if user == old else user}{colon}{rest}\n" for user, colon, rest in (
        it.partition(":") for it in text.splitlines()))


def logins_within(text, users):
    """Of these users' logins the hash by each, and whose has another form than those that are written here."""
    lines = dict(it.split(":", 1) for it in text.splitlines() if it.partition(":")[0] in users and ":" in it)
    return ({user: its for user, its in lines.items() if HASH.fullmatch(its)},
            [user for user, its in lines.items() if not HASH.fullmatch(its)])


def logins_of(text):
    return [it.partition(":")[0] for it in text.splitlines() if ":" in it and not it.startswith("#")]
