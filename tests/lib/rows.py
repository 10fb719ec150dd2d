"""The rows of a room's file beside those that the plain model of plain.py has: an object's path stands for its
number, and each list for its rows."""
import contextlib
import sqlite3

NODES = "SELECT id, parent, name, kind, owner, grp, aclflag FROM node ORDER BY id"
ENTRIES = "SELECT node, place, type, flag, mask, who FROM entry ORDER BY node, place"


def path_of(nodes, number):
    parent, name = nodes[number][:2]
    return (*path_of(nodes, parent), name) if parent else ()


def stored(db):
    """The values of a file's rows, each by what it is of."""
    with contextlib.closing(sqlite3.connect(db)) as table:
        nodes = {number: it for number, *it in table.execute(NODES)}
        lists = {number: [] for number in nodes}
        for number, *entry in table.execute(ENTRIES):
            lists[number].append(tuple(entry))
        docs = dict(table.execute("SELECT node, bytes FROM doc"))
        found = {("object", path_of(nodes, it)): (*nodes[it][2:], lists[it], docs.get(it)) for it in nodes}
        found |= {("session", sid): tuple(it) for sid, *it in table.execute("SELECT * FROM session")}
        found |= {("slot", sid, slot): tuple(it) for sid, slot, *it in table.execute("SELECT * FROM kept")}
        return found | {"room": table.execute("SELECT * FROM room").fetchall()}


def due(room):
    """The same of a plain room."""
    found = {"room": [(1, 2, room.made + 1)]}
    for at, it in room.things.items():
        whole = [(place, e["type"], e["flag"], e["mask"], e["who"]) for place, e in enumerate(room.list_of(at))]
        found["object", at] = (int(it.is_folder), it.owner, it.group, it.aclflag, whole, it.bytes)
    found |= {("session", sid): tuple(it) for sid, it in room.sessions.items()}
    # (a session that is closed keeps no slot)
    return found | {("slot", *at): it for at, it in room.slots.items() if room.sessions[at[0]][2]}


def put(db, room, numbers):
    """Has a fresh file hold the objects of a plain room, each by its number, of which the root's is 1."""
    values, nodes, entries, docs = due(room), [], [], []
    for path, number in numbers.items():
        *node, whole, bytes_ = values["object", path]
        nodes.append((number, numbers[path[:-1]] if path else None, path[-1] if path else "", *node))
        entries += [(number, *entry) for entry in whole]
        docs += [] if bytes_ is None else [(number, bytes_)]
    with contextlib.closing(sqlite3.connect(db)) as table, table:
        table.executescript("DELETE FROM entry; DELETE FROM node;")
        for name, rows in ("node", nodes), ("entry", entries), ("doc", docs):
            table.executemany(f"INSERT INTO {name} VALUES ({', '.join('?' for _ in rows[0])})", rows)
        table.execute("UPDATE room SET next = ?", (room.made + 1,))


def other_rows(db, room):
    """What a file has otherwise than a plain room: the value there, and the one that is due."""
    got, want = stored(db), due(room)
    return {it: (got.get(it), want.get(it)) for it in got.keys() | want.keys() if got.get(it) != want.get(it)}
