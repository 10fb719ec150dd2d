"""`fileroom-admin`: its words, and what each command does."""
import argparse
import contextlib
import os
import sys
from collections.abc import Callable
from dataclasses import dataclass
from functools import partial
from types import SimpleNamespace

from . import (alive, changes, copying, dav, front, held, leaving, looking, moving, now, numbers, people, rooms, sees,
               signin, syncing, told, warned)
from .places import Fault, Places, write

HERE = os.path.dirname(os.path.realpath(__file__))
STANDBY = os.path.join(HERE, "..", "..", "standby", "fileroom-standby")
ABOUT = "Changes rooms, users and the front of this machine, each time completely or not at all, and reports problems."
# How a command is done: it waits for others who change something, and what it changes may be a standby's too; it waits,
# and changes no file that a standby copies; it waits for nobody.
CHANGES, TELLS, AT_ONCE = "changes", "tells", "at once"


@dataclass(frozen=True)
class Call:
    """What a command has to do with: the machine; `say` tells somebody who looks on, `tell` what -q prints too."""

    places: Places
    say: Callable[[str], None]
    tell: Callable[[str, str], None]


def parser():
    it = argparse.ArgumentParser(prog="fileroom-admin", description=ABOUT, epilog="man fileroom-admin has more")
    it.add_argument("--root", default="/", metavar="FOLDER", help="use FOLDER in place of /, for a test")
    it.add_argument("-q", "--quiet", action="store_true", help="print only the new random password")
    words = it.add_subparsers(dest="command", required=True, metavar="COMMAND")
    add_rooms(words)
    add_users(words)
    add_groups(words)
    add_bounds(words)
    add_command(words, "trash", people.trash, "makes the trash of each user who has none; of USER also where it is open"
                " to others", "ROOM", many="USER")
    add_looks(words)
    tls = add_command(words, "tls", front.tls, "CERT KEY: https with this certificate; http is redirected to it")
    tls.add_argument("CERT", help="the server's certificate, followed by its chain, as PEM")
    tls.add_argument("KEY")
    its = add_words(words, "dav", "on ROOM, off ROOM, list: rooms for file managers (WebDAV)")
    add_command(its, "on", dav.turn_on, "ROOM is there for file managers", "ROOM")
    add_command(its, "off", dav.turn_off, "ROOM is not any more", "ROOM")
    add_command(its, "list", dav.tell, "the rooms that are", how=TELLS)
    add_signin(words)
    add_command(words, "front", front.renew, "after an update: installs this version's files of the front")
    add_checks(words)
    return it


def add_looks(words):
    one = add_command(words, "sees", see, "what USER may do in each room, or at PATH and why, by the latest backup",
                      "USER", how=AT_ONCE)
    one.add_argument("ROOM", nargs="?")
    one.add_argument("PATH", nargs="?")
    log = add_command(words, "log", tell_log, "who changed what in a room, and when, as the front's log has it", "ROOM",
                      how=AT_ONCE)
    log.add_argument("--user", help="what this user asked for")
    log.add_argument("--path", help="what was done there and below it, and moves of folders above")
    log.add_argument("--since", metavar="TIME", help="2026-11-28, 2026-11-28T09:00, 3d or 12h")


def add_checks(words):
    one = add_command(words, "check", check, "reports problems of this machine, with remedies; then its status is 1",
                      how=AT_ONCE)
    one.add_argument("--backup-hours", type=int, default=26, help="how many hours old the latest backup may be (26)")
    one.add_argument("--prometheus", nargs="?", const="-", metavar="FILE",
                     help="numbers for a monitor, to FILE or standard output")
    add_command(words, "warn", lambda call: warned.put(call.places),
                "tells the owner of each room on the page what ends within ten days", how=AT_ONCE)
    add_command(words, "watch", lambda call: alive.watch(call.places, print),
                "says which rooms take no request, and why; then its status is 1", how=AT_ONCE)
    one = add_command(words, "standby", to_standby, "check NAME: whether another machine could take over a room",
                      how=AT_ONCE)
    one.add_argument("what", choices=["check"])
    one.add_argument("NAME")


def add_rooms(words):
    room = add_words(words, "room", "add, list, export, import, copy, renew, remove")
    add_command(room, "add", rooms.room_add, "a new room, served and backed up; its root folder belongs to OWNER and "
                "GROUP", "NAME", "OWNER", "GROUP")
    add_command(room, "list", rooms.room_list, "rooms, sizes, users, backups, and where they answer", how=TELLS)
    add_command(room, "export", moving.room_export, "writes the room as it is now, with roster and logins, to a file",
                "NAME", "FILE", how=TELLS)
    one = add_command(room, "import", moving.room_import, "serves a room from such a file", "FILE")
    one.add_argument("--as", dest="name", metavar="NAME", help="under another name")
    one.add_argument("--certificate", action="store_true", help="and has the front listen by the file's certificate")
    one = add_command(room, "copy", copying.room_copy, "what is in a folder, into a new one of another room: with "
                      "owners, groups and lists", "NAME", "PATH", "TO", "NEW", how=AT_ONCE)
    one.add_argument("--group", action="append", metavar="OLD=NEW", help="what is for the group OLD is for NEW there")
    one.add_argument("--other-members", action="store_true", help="even where a group has other members in TO")
    add_command(room, "renew", rooms.room_renew,
                "new numbers for a room's objects: those of what was removed can be used again", "NAME", how=TELLS)
    add_command(room, "remove", moving.room_remove, "removes a room, and keeps it as such a file", "NAME")


def add_users(words):
    user = add_words(words, "user", "add, import, groups, name, rename, remove, owns, passwd, list")
    one = add_command(user, "add", people.user_add, "a new user of ROOM, in these groups", "ROOM", "USER", many="GROUP")
    one.add_argument("--again", action="store_true", help="who had that name there before")
    one = add_command(user, "import", user_import, "adds users from a CSV table: user, groups (blanks between), name")
    one.add_argument("ROOM", nargs="?", help="with --sync the table can name rooms instead, in a column")
    one.add_argument("CSV")
    how = one.add_mutually_exclusive_group()
    how.add_argument("--update", action="store_true", help="users who are there get what the table has")
    how.add_argument("--sync", action="store_true", help="and who is not in the table is removed")
    one.add_argument("--dry-run", action="store_true", help="with --sync: only tell what would change")
    one.add_argument("--many", action="store_true", help="with --sync: even if more than a fifth would be removed")
    one.add_argument("--again", action="store_true", help="with --sync: who comes had that name here before")
    one.add_argument("--no-passwords", action="store_true", help="with --sync: a directory knows who comes")
    one.add_argument("--to", metavar="USER", help="with --sync: first hands over to USER what those own who go")
    add_command(user, "groups", people.user_groups, "sets the groups of a user", "ROOM", "USER", many="GROUP")
    add_command(user, "name", people.user_name,
                "the name that the page shows for a user; without NAME, the login", "USER", many="NAME")
    add_command(user, "rename", people.user_rename, "renames a user in each room, and the login", "USER", "NEW")
    one = add_command(user, "remove", user_remove, "removes a user from ROOM; with the last room, the login too")
    one.add_argument("--all", dest="from_all", action="store_true", help="from each room, with one change")
    one.add_argument("--to", metavar="NEW", help="and first hands over to NEW what the user owns there")
    one.add_argument("ROOM", nargs="?")
    one.add_argument("USER")
    add_command(user, "owns", people.user_owns, "what a user owns in each room, by the latest backups", "USER",
                how=TELLS)
    one = add_command(user, "passwd", user_passwd, "a new random password", "USER")
    how = one.add_mutually_exclusive_group()
    how.add_argument("--stdin", action="store_true", help="take the first line of standard input instead")
    how.add_argument("--none", action="store_true", help="take it away: the directory's is left (signin on)")
    one = add_command(user, "hold", hold, "lets USER read in ROOM, and change nothing", "ROOM", "USER", how=AT_ONCE)
    one.add_argument("--at", choices=[*held.BOUNDS], help="only if that is the user's bound, as fail2ban asks")
    one.add_argument("--made", action="store_true", help="of objects: where a room has few numbers left, few are many")
    one = add_command(user, "release", release, "lets a user who is held change things again", "ROOM", "USER",
                      how=AT_ONCE)
    one.add_argument("--over", choices=[*held.BOUNDS], help="only if held at that bound, as fail2ban asks after a day")
    one.add_argument("--made", action="store_true", help="of objects")
    one = add_command(user, "list", user_list, "rooms, users, groups, and who has a login", how=TELLS)
    one.add_argument("ROOM", nargs="?")
    one.add_argument("--csv", action="store_true", help="as `user import` reads it")


def add_bounds(words):
    one = add_command(words, "bound", people.bound,
                      "how much a login may ask of ROOM in a day; without BOUND, prints it", "ROOM")
    one.add_argument("BOUND", nargs="?", choices=[*held.BOUNDS])
    of = one.add_mutually_exclusive_group()
    of.add_argument("--user", help="of this user alone")
    of.add_argument("--group", help="of this group's users")


def add_signin(words):
    its = add_words(words, "signin", "on, off, check: logins of a directory (LDAP, Active Directory)")
    on = add_command(its, "on", signin.turn_on, "a login is right by the directory too")
    on.add_argument("KIND", choices=["ldap", "ad"])
    on.add_argument("SERVER", nargs="+", help="HOST or ldaps://HOST:PORT; ldap://HOST is asked by STARTTLS")
    on.add_argument("--domain", help="of ad: its short name, as SCHOOL, or the long one")
    on.add_argument("--bind", action="append", help="of ldap: a user's DN, with {} for the name; or several")
    on.add_argument("--ca", metavar="FILE", help="the authority of the servers' certificates, if the machine lacks it")
    add_command(its, "off", signin.turn_off, "only passwords of this machine count")
    add_command(its, "check", signin.check, "whether the servers answer, and how long their certificates last",
                how=AT_ONCE)


def add_groups(words):
    group = add_words(words, "group", "add, remove, list")
    add_command(group, "add", partial(people.group_change, is_in=True), "these users into GROUP, at once", "ROOM",
                "GROUP", some="USER")
    add_command(group, "remove", partial(people.group_change, is_in=False), "these users out of GROUP, at once", "ROOM",
                "GROUP", some="USER")
    one = add_command(group, "list", people.group_list, "rooms, groups, and who is in them", how=TELLS)
    one.add_argument("ROOM", nargs="?")


def add_words(words, name, about):
    return words.add_parser(name, help=about).add_subparsers(dest="what", required=True)


def add_command(words, name, does, about, *arguments, many=None, some=None, how=CHANGES):
    """`does` takes the call, the arguments in their order, and the options by their names."""
    it = words.add_parser(name, help=about, description=about)
    for argument in arguments:
        it.add_argument(argument)
    if many or some:
        it.add_argument(many or some, nargs="*" if many else "+")
    it.set_defaults(does=does, how=how, of=it)
    return it


def done(call, given):
    """The status of the command."""
    of = {it.dest: (it.option_strings, getattr(given, it.dest)) for it in given.of._actions if it.dest != "help"}
    options = {name: its for name, (is_option, its) in of.items() if is_option}
    does = partial(given.does, call, *(its for is_option, its in of.values() if not is_option), **options)
    if given.how == AT_ONCE:
        return does() or 0
    with changes.alone(call.places, say_fault):
        does()
        if given.how == CHANGES:
            say_copy(call)
    return 0


def say_copy(call):
    """A change of the files that all machines of a standby have is made on one, and copied by hand."""
    for room in filter(call.places.has_standby, call.places.rooms()):
        call.say(f"for the machines of {room}: fileroom-standby copy {room} | sh")


def user_list(call, room, csv):
    if csv:
        # (as `user import` reads it, whatever letters a terminal here has)
        sys.stdout.reconfigure(encoding="utf-8", errors="backslashreplace")
    people.user_list(call, room, csv)


def user_import(call, room, path, update, sync, **how):
    if sync:
        syncing.user_sync(call, room, path, SimpleNamespace(**how))
    elif any(how.values()):
        raise Fault("--dry-run, --many, --again, --no-passwords and --to are for --sync")
    elif not room:
        raise Fault("into which room? (a table of several rooms is for --sync)")
    else:
        people.user_import(call, room, path, update)


def user_remove(call, room, user, from_all, to):
    if from_all == (room is not None):
        raise Fault("from which room? user remove ROOM USER, or user remove --all USER")
    leaving.user_remove(call, user, *(now.need_rooms_of(call.places, user) if from_all else [room]), to=to)


def user_passwd(call, user, stdin, none):
    if none:
        people.user_without(call, user)
    else:
        people.user_passwd(call, user, sys.stdin.readline().rstrip("\r\n") if stdin else None)


def hold(call, room, user, at, made):
    if held.hold(call.places, room, user, at, made):
        call.say(f"{user} is held in {room}")


def release(call, room, user, over, made):
    held.release(call.places, room, user, over, made)
    call.say(f"{user} is not held in {room}")


def see(call, user, room, path):
    return sees.tell(call.places, user, room, path, print)


def tell_log(call, room, **given):
    told.log(call.places, room, SimpleNamespace(**given), print, say_fault)


def check(call, backup_hours, prometheus):
    if not prometheus:
        return looking.check(call.places, backup_hours, print)
    text = numbers.told(call.places, backup_hours)
    return print(text, end="") if prometheus == "-" else write(text, prometheus)


def to_standby(call, what, name):
    os.execv(STANDBY, [STANDBY, what, name])


def tell(is_quiet, what, secret):
    """(A kill takes what is in a buffer.)"""
    print(secret if is_quiet else what + secret, flush=True)


def say_fault(text):
    """(Behind what was said, where both go into one log.)"""
    with contextlib.suppress(OSError):
        sys.stdout.flush()
    print(f"fileroom-admin: {text}", file=sys.stderr)


def main(words):
    for stream in sys.stdout, sys.stderr:
        stream.reconfigure(errors="backslashreplace")
    given = parser().parse_args(words)
    os.umask(0o022)  # (nginx reads what is not closed to it on purpose)
    call = Call(Places(given.root), (lambda text: None) if given.quiet else print, partial(tell, given.quiet))
    try:
        if call.places.is_machine and os.geteuid() != 0:
            raise Fault("run it as root")
        return done(call, given)
    except (Fault, OSError, UnicodeError) as fault:
        say_fault(fault)
        return 1
