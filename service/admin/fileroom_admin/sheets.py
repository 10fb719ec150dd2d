"""Users as a table of commas, as a spreadsheet writes it: the columns `user`, and where they are there `groups`
(separated by blanks) and `name`, as people write it. A table of several rooms has the column `rooms` too."""
import csv
import io
import os
import re
import stat

from . import rosters
from .owned import of_backups
from .places import Fault

COLUMNS = ["user", "groups", "name"]
ROOMS = "rooms"
LARGEST = 1 << 20  # bytes of a table
# What a spreadsheet computes by its first letter, also where it takes wide letters for narrow ones, stands behind an
# apostrophe: then it is text. So does what begins like that itself, or with a blank, which would be lost; and the same
# behind a semicolon, at which a spreadsheet of many languages cuts cells. A blank at the end has one behind it.
FORMULA = r"[=+\-@\s\uff1d\uff0b\uff0d\uff20]"


def text_of(path):
    """(As Excel writes it: of UTF-8 with a mark, or of Windows' letters.)"""
    data = bytes_of(path)
    try:
        return data.decode("utf-8-sig")
    except UnicodeDecodeError:
        pass
    try:
        return data.decode("cp1252")
    except UnicodeDecodeError as fault:
        raise Fault(f"{path} cannot be read: {fault}") from None


def bytes_of(path):
    """Of a plain file: at a pipe this would wait, with all others who change something behind it. (By a
    link, in a folder of somebody else's, root would tell what that user cannot read.)"""
    if os.path.islink(path):
        raise Fault(f"{path} is a link, and links are not followed: name the file that it leads to")
    with open(path, "rb", opener=by_no_link) as file:
        if not stat.S_ISREG(os.fstat(file.fileno()).st_mode):
            raise Fault(f"{path} is no file")
        data = file.read(LARGEST + 1)
    if len(data) > LARGEST:
        raise Fault(f"{path} is longer than a table of {rosters.USERS} users")
    return data


def by_no_link(path, _):
    one = of_backups()
    try:
        with one.closing(one.folder_at(os.path.dirname(path) or ".")) as folder:
            flags = os.O_RDONLY | os.O_NOFOLLOW | os.O_NONBLOCK | os.O_CLOEXEC
            return os.open(os.path.basename(path), flags, dir_fd=folder)
    except one.Fault as fault:
        raise Fault(str(fault)) from None
    except OSError as fault:
        raise OSError(fault.errno, fault.strerror, path) from None


def as_cell(text):
    text = re.sub(r"(?<=\s)('*)\Z", r"\1'", text)
    return re.sub(f"(^|;)(?='*{FORMULA})", r"\1'", text)


def of_cell(cell):
    cell = re.sub(r"(?<=\s)('*)'\Z", r"\1", cell.strip())
    return re.sub(f"(^|;)'(?='*{FORMULA})", r"\1", cell)


def rows_of(path, needed):
    """Each row with its line: what stands in its columns."""
    text = text_of(path)
    first = text.partition("\n")[0]
    lines = csv.reader(io.StringIO(text, newline=""), strict=True, delimiter=";" if ";" in first else ",")
    try:
        head = [it.strip().lower() for it in next(lines, [])]
        if not {*needed} <= {*head} <= {*needed, *COLUMNS} or len(head) != len({*head}):
            raise Fault(f"{path}, line 1, has to name the columns: {', '.join(needed)}, and where they are there "
                        "groups and name")
        return [(lines.line_num, head, row) for row in lines if any(it.strip() for it in row)]
    except csv.Error as fault:
        raise Fault(f"{path}, line {lines.line_num}, is no table: {fault}") from None


class Users:
    """Of a table: in each room the users, with groups and name (None where the table has no such column). `there` are
    the rooms with their users now."""

    def __init__(self, there, is_update):
        self.there, self.is_update, self.rooms, self.names = there, is_update, {}, {}

    def take(self, user, groups, name, rooms):
        for it in rooms:
            self.put(it, user, groups, name)
        if name and self.names.setdefault(user, name) != name:
            raise Fault(f"{user} has another name in a line before")

    def put(self, room, user, groups, name):
        there, its = self.there.get(room), self.rooms.setdefault(room, {})
        if there is None:
            raise Fault(f"there is no room {room}")
        if user in its:
            raise Fault(f"{user} stands in a line before" + f", for {room}" * (len(self.there) > 1))
        if user in there and not self.is_update:
            raise Fault(f"{user} is a user already (--update gives users who are there what the table has)")
        its[user] = there.get(user, []) if groups is None else groups, name


def read_rooms(path, there, room=None, is_update=True):
    """The users of the room, or of each that the table names; and each fault, with its line. (Where it has several
    lines for a user, one without a name leaves it as it is.)"""
    users, faults = Users(there, is_update), []
    users.rooms.update({room: {}} if room else {})
    for line, head, row in rows_of(path, ["user"] if room else ["user", ROOMS]):
        try:
            user, groups, name, rooms = row_of(head, row)
            users.take(user, groups, name if room else name or None, rooms or [room])
        except Fault as fault:
            faults.append(f"{path}, line {line}: {fault}")
    return users.rooms, faults


def row_of(head, row):
    if len(row) != len(head):
        raise Fault(f"{len(row)} columns, and the first line names {len(head)}")
    its = dict(zip(head, map(of_cell, row)))
    rosters.need_name(its["user"], "the user")
    groups, rooms = (re.findall(r"[^\s,;]+", its[it]) if it in its else None for it in ("groups", ROOMS))
    for it in groups or ():
        rosters.need_name(it, "the group")
    if len({*(groups or ())}) < len(groups or ()) or len(groups or ()) > rosters.GROUPS:
        raise Fault(f"a group stands twice, or there are more than {rosters.GROUPS}")
    if rooms == []:
        raise Fault(f"{its['user']} is in no room")
    if its.get("name"):
        rosters.need_display_name(its["name"])
    return its["user"], groups, its.get("name"), rooms


def written(there, names, has_rooms):
    """Rosters as such a table: of one room, or with the column of rooms, a line for each user in each."""
    made = io.StringIO()
    lines = csv.writer(made, lineterminator="\n")
    lines.writerow([*COLUMNS[:1], *[ROOMS] * has_rooms, *COLUMNS[1:]])
    for room, users in there.items():
        lines.writerows(map(as_cell, (user, *[room] * has_rooms, " ".join(groups), names.get(user, "")))
                        for user, groups in users.items())
    return made.getvalue()
