"""What one user may do in a room, and why: by the latest backup, with the groups that the roster has now.

A room tells that of one object at a time, and to whom may see its list. So here each right is decided by the rules of
docs/LISTS.md; a test compares it with the program's own report.
"""
import itertools
import re
from dataclasses import dataclass

from room_client.manifest import FOLDER, NAME, is_large
from room_client.trash import TOP
from room_client.who import TRAVERSE, large_words, of_large
from room_client.words import ALL, FILE, GROUP, INHERITED, LARGE, NOT_HERE, SETS, entry_words, mask_words, read_mask

from . import now, owned
from .places import Fault

OWNERS = read_mask("read-acl,write-acl")  # which an owner always has
NEEDED = {FOLDER: 0xF00E7, FILE: 0xF0087, LARGE: 0xF0087}  # the rights that some command asks for
KINDS = FILE, FOLDER
FEW = 4  # documents of a folder, alike and other than it, or others' trashes, that have a line each; more share one
OF_TRASH = re.compile(f"{TOP}/@[0-9a-f]/([^/]+)")  # docs/FILES.md
NODES = "SELECT id, parent, name, kind, owner, grp FROM node"
ENTRIES = "SELECT node, type, flag, mask, who FROM entry"


@dataclass(frozen=True)
class Subject:
    user: str
    groups: list

    def is_named(self, entry, owner, group):
        named = {"OWNER@": self.user == owner, "GROUP@": group in self.groups, "EVERYONE@": True}
        its = entry["who"] in self.groups if entry["flag"] & GROUP else entry["who"] == self.user
        return named.get(entry["who"], its)

    def decided(self, entries, owner, group):
        """Each entry that decides rights, with these, in order. (None decides an owner's two.)"""
        left = ALL & ~self.always(owner)
        for it in entries:
            rights = it["mask"] & left
            if rights and not it["flag"] & NOT_HERE and self.is_named(it, owner, group):
                left &= ~rights
                yield it, rights

    def always(self, owner):
        return OWNERS if self.user == owner else 0

    def allowed(self, entries, owner, group):
        return self.always(owner) | sum(
            rights for it, rights in self.decided(entries, owner, group) if it["type"] == 0)


@dataclass
class Thing:
    """What somebody may do with an object, or with a large file as a whole, and what is in it."""

    name: str
    kind: str
    mask: int
    children: list

    def rights(self):
        of_large = large_words(self.mask) if self.kind == LARGE else ""
        return of_large if of_large in SETS else words(self.mask, self.kind)

    def is_as(self, folder):
        return self.mask & NEEDED[self.kind] == folder.mask & NEEDED[self.kind]

    def is_open(self):
        return self.kind == FOLDER and self.mask & TRAVERSE

    def count(self):
        """All that is below it."""
        return sum(1 + it.count() for it in self.children)

    def as_whole(self):
        """A large file as one thing: its folder has what it is made of, and nothing else."""
        manifest = next((it for it in self.children if it.name == NAME), None)
        if manifest and is_large({it.name: it.kind for it in self.children}):
            self.kind, self.mask, self.children = LARGE, of_large(self.mask, manifest.mask), []


@dataclass
class Line:
    path: str
    thing: Thing
    alike: int = 0  # things below it that have the same rights

    def folder(self):
        return self.path.rpartition("/")[0]

    def is_shut_trash(self):
        """In which the user may do nothing, or what is written down beside it."""
        return bool(OF_TRASH.fullmatch(self.path)) and not self.thing.mask & NEEDED[self.thing.kind]

    def told(self):
        more = f"  (and {things(self.alike)} below)" if self.alike else ""
        if self.thing.children and not self.thing.is_open():
            more = f"  (cannot go in: {things(self.thing.count())})"
        return f"{self.path}  {self.thing.rights()}{more}"


def words(mask, kind):
    """A set of rights by its name, and else each right that some command asks for."""
    return mask_words(mask if mask in SETS.values() else mask & NEEDED[kind], FILE if kind == LARGE else kind)


def things(count):
    return f"{count} thing{'s' * (count != 1)}"


def entry_of(row):
    return dict(zip(("type", "flag", "mask", "who"), row[1:]))


def masks_of(table, subject, standing):
    """What the list of each object allows, where it has one."""
    lists = itertools.groupby(table.execute(f"{ENTRIES} ORDER BY node, place"), key=lambda it: it[0])
    return {node: subject.allowed(map(entry_of, rows), *standing[node]) for node, rows in lists}


def root_of(table, subject):
    """The root, with all that is below it."""
    nodes = table.execute(NODES).fetchall()
    masks = masks_of(table, subject, {node: (owner, group) for node, _, _, _, owner, group in nodes})
    made = {node: Thing(name, KINDS[kind], masks.get(node, subject.always(owner)), [])
            for node, _, name, kind, owner, _ in nodes}
    for node, parent, *_ in nodes:
        made.get(parent, made[1]).children.extend([made[node]] * (parent is not None))
    for it in made.values():
        it.as_whole()
    return made[1]


def order(thing):
    """Documents that are alike stand together, before folders."""
    return thing.kind == FOLDER, thing.rights() if thing.kind != FOLDER else "", thing.name


def gather(folder, path, line, lines):
    """Counts in `line`, that of the folder or of one above that is alike, what is as it; the rest has lines."""
    for child in sorted(folder.children, key=order):
        at, its = f"{path}/{child.name}", line
        if child.is_as(folder):
            line.alike += 1
        else:
            its = Line(at, child)
            lines.append(its)
        if child.is_open():
            gather(child, at, its, lines)


def told_of(lines):
    """Of many documents in a row that are alike one line."""
    for (folder, kind, rights), group in itertools.groupby(
            lines, key=lambda it: (it.folder(), it.thing.kind, it.thing.rights())):
        its = [*group]
        if len(its) <= FEW or kind == FOLDER:
            yield from (it.told() for it in its)
        else:
            names = ", ".join(it.thing.name for it in its)
            yield f"{folder}/  {rights}  of {len(its)} documents: {names}"


def whole(table, subject):
    """What somebody may do in a room: a line for each thing whose rights are others than its folder's."""
    root = root_of(table, subject)
    lines = [Line("/", root)]
    if root.is_open():
        gather(root, "", lines[0], lines)
    shut = [it for it in lines if it.is_shut_trash()]
    if len(shut) <= FEW:
        return told_of(lines)
    rest = told_of(it for it in lines if it not in shut)
    return [*rest, f"{TOP}  none  of {len(shut)} things that others have there"]


class Node:
    """An object on the way to a path, with its list."""

    def __init__(self, table, row, path):
        self.number, _, self.name, kind, self.owner, self.group = row
        self.path, self.kind = path, KINDS[kind]
        lines = table.execute(f"{ENTRIES} WHERE node = ? ORDER BY place", (self.number,))
        self.entries = [*map(entry_of, lines)]

    def allowed(self, subject):
        return subject.allowed(self.entries, self.owner, self.group)


def child_of(table, node, name):
    row = table.execute(f"{NODES} WHERE parent = ? AND name = ?", (node.number, name)).fetchone()
    return row and Node(table, row, f"{node.path.rstrip('/')}/{name}")


def way_to(table, path, without=None):
    """The objects from the root to a path; `without` is what to say where there is none."""
    way = [Node(table, table.execute(f"{NODES} WHERE parent IS NULL").fetchone(), "/")]
    for name in filter(None, path.split("/")):
        way.append(child_of(table, way[-1], name))
        if way[-1] is None:
            raise Fault(without or f"there is no {path}")
    return way


def content(entry):
    """What an entry says, whoever hands it down."""
    return entry["type"], entry["mask"], entry["who"], entry["flag"] & GROUP


def giver(entry, above):
    """The nearest folder that has as its own what was handed down."""
    return next((it.path for it in reversed(above) for one in it.entries
                 if not one["flag"] & INHERITED and content(one) == content(entry)), "nowhere")


def why(table, subject, path, without):
    """What decides each right at one path."""
    *above, its = way_to(table, path, without)
    manifest = child_of(table, its, NAME)
    kind = LARGE if manifest else its.kind
    shut = next((it.path for it in above if not it.allowed(subject) & TRAVERSE), None)
    if shut:
        yield f"{subject.user} cannot get there: {shut} does not let {subject.user} go through to what is in it"
    if its.owner == subject.user:
        yield f"{words(OWNERS, kind)}: {subject.user} owns it"
    yield from decisions(subject, its, kind, above)
    if manifest and (lost := its.allowed(subject) & ~of_large(its.allowed(subject), manifest.allowed(subject))):
        yield f"{words(lost, kind)}: denied all the same, by the list of what it is made of: {path}/{NAME}"


def decisions(subject, its, kind, above):
    """Each entry that decides a right which some command asks for; and what none decides."""
    rest = NEEDED[kind] & ~subject.always(its.owner)
    for entry, rights in subject.decided(its.entries, its.owner, its.group):
        rest &= ~rights
        of = f", from {giver(entry, above)}" if entry["flag"] & INHERITED else ""
        if rights & NEEDED[kind]:
            yield f"{words(rights, kind)}: {entry_words(entry, kind)}{of}"
    if rest:
        yield f"{words(rest, kind)}: no entry names them for {subject.user}, so they are denied"


def look(places, room, user, groups, path):
    """Lines about a room, or about one path in it."""
    name, subject = owned.latest(places, room), Subject(user, groups)
    without = f"the backup {name} has no {path}; of what was made since, after: systemctl start fileroom-backup@{room}"
    with owned.opened(places, room, name, is_whole=True) as table:
        lines = [*(whole(table, subject) if path is None else why(table, subject, path, without))]
    return [f"{room}, by the backup {name}, with {user} in {', '.join(groups) or 'no group'}:", *lines]


def tell(places, user, room, path, say):
    """Of one room, or of all whose user it is. The status of the command."""
    rosters_of = {it: now.users(places, it) for it in places.rooms()}
    rooms = [it for it, users in rosters_of.items() if user in users and room in (None, it)]
    if not rooms:
        raise Fault(f"{user} is no user of {f'the room {room}' if room else 'a room'}")
    shown, status = owned.of_backups().shown, 0
    for it in rooms:
        try:
            lines = look(places, it, user, rosters_of[it][user], path)
        except (Fault, OSError) as fault:
            lines, status = [f"what {user} may do in {it} is not known: {fault}"], 1
        for line in lines:
            say(shown(line))
    return status
