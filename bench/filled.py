"""Rooms of many objects, filled with the `sqlite3` program.

Folders of 100 folders of 99 documents each, every inner folder with four entries of its own. The rows of entries are
whole lists: a document has six entries, those of its folder and those of the root.
"""
import os
import subprocess
import sys

sys.path.insert(0, os.path.join(os.path.dirname(os.path.abspath(__file__)), "..", "tools"))
from served import Room
from whole_lists import with_inherited

USERS = 100
ROSTER = "[users]\n" + "".join(f'u{n:02} = ["g{n % 10}", "all"]\n' for n in range(USERS))
ROOT = [(0, 3, 0x1F07FF, "OWNER@"), (0, 3, 0x1200A9, "GROUP@")]  # as `init` makes it
OWN = [(place % 2, 67 if place else 3, 1 << place, f"{'g' if place else 'u0'}{place}") for place in range(4)]
FOLDER = 250  # objects of one folder of followers, itself one of them
LISTS = [[(0, 3, 1 << bit, f"u{bit}{place}") for place in range(4)] for bit in (0, 1)]  # two that take turns


def list_rows(number, entries):
    """The statement that puts a list."""
    rows = ", ".join(f"({number}, {place}, {kind}, {flag}, {mask}, '{who}')"
                     for place, (kind, flag, mask, who) in enumerate(entries))
    return f"INSERT INTO entry VALUES {rows};"


def setlist(turn):
    """A SETLIST that changes the list of `/top`, in its turn."""
    entries = [{"flag": flag, "mask": mask, "type": kind, "who": who} for kind, flag, mask, who in LISTS[turn % 2]]
    return {"aclflag": 1, "cmd": "SETLIST", "entries": entries, "path": "/top"}


def rows(objects):
    """The rows of a room with this number of objects besides the root and the outer folders."""
    number, top, out = 1, 1, ["BEGIN;"]
    outer = with_inherited([], 1, True, ROOT)
    inner = with_inherited(OWN, 1, True, outer)
    document = with_inherited([], 1, False, inner)
    for folder in range(objects // 100):
        if folder % 100 == 0:
            number += 1
            top = number
            out.append(f"INSERT INTO node VALUES ({top}, 1, 't{folder:03}', 1, 'u00', 'g0', 1);")
            out.append(list_rows(top, outer))
        number += 1
        parent = number
        out.append(f"INSERT INTO node VALUES ({parent}, {top}, 'f{folder:03}', 1, 'u00', 'g0', 1);")
        out.append(list_rows(parent, inner))
        for child in range(99):
            number += 1
            out.append(f"INSERT INTO node VALUES ({number}, {parent}, 'd{child:02}', 0, 'u{child:02}', 'all', 1);")
            out.append(list_rows(number, document))
            out.append(f"INSERT INTO doc VALUES ({number}, x'00');")
    out.append(f"UPDATE room SET next = {number + 1};")
    out.append("COMMIT;")
    return "\n".join(out)


def filled(folder, objects):
    """A room in this folder, of the user u00 and the group g0."""
    room = Room(folder, ROSTER, "u00", "g0")
    subprocess.run(["sqlite3", "-batch", room.db], input=rows(objects), text=True, check=True)
    return room


def follower_rows(first, followers):
    """The rows of `/top` and so many objects below it, numbered from a number on, and of the next number; and each of
    these objects with whether it is a folder."""
    above = with_inherited([], 1, True, ROOT)
    list_of = {True: with_inherited([], 1, True, above), False: with_inherited([], 1, False, above)}
    out = [f"INSERT INTO node VALUES ({first}, 1, 'top', 1, 'u00', 'g0', 1);", list_rows(first, above)]
    number, folder, kinds = first, first, []
    for count in range(followers):
        number += 1
        is_folder = followers > FOLDER and count % FOLDER == 0
        parent = first if is_folder or followers <= FOLDER else folder
        folder = number if is_folder else folder
        out.append(f"INSERT INTO node VALUES ({number}, {parent}, 'n{count}', {int(is_folder)}, 'u00', 'g0', 1);")
        out.append(list_rows(number, list_of[is_folder]))
        if not is_folder:
            out.append(f"INSERT INTO doc VALUES ({number}, x'00');")
        kinds.append((number, is_folder))
    out.append(f"UPDATE room SET next = {number + 1};")
    return out, kinds


def with_followers(kind, folder, followers, others=0):
    """A room of this class with `/top` and so many objects below that follow it, and so many other objects; the number
    of `/top`; the followers, as above."""
    room = kind(folder, ROSTER, "u00", "g0")
    if others:
        subprocess.run(["sqlite3", "-batch", room.db], input=rows(others), text=True, check=True)
    told = subprocess.run(["sqlite3", "-batch", room.db, "SELECT next FROM room"], stdout=subprocess.PIPE, check=True)
    first = int(told.stdout)
    out, kinds = follower_rows(first, followers)
    subprocess.run(["sqlite3", "-batch", room.db], input="\n".join(["BEGIN;", *out, "COMMIT;"]), text=True, check=True)
    return room, first, kinds
