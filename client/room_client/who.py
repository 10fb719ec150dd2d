"""Who may do what with an object: the room decides for each name, by `/v1/check`, and nothing here does."""
import itertools
import json
import tomllib
from collections.abc import Iterator
from dataclasses import dataclass
from pathlib import PurePosixPath

from .faults import LocalFault, Refused, reading
from .manifest import NAME
from .reading import large_at
from .room import Room
from .words import ALL, FILE, FOLDER, GROUP, SETS, mask_words, right_words, shown

READ, WRITE, TRAVERSE, DELETE_CHILD = 0x1, 0x2, 0x20, 0x40
WITHOUT_GROUPS = "# Each user is asked about without groups, since no roster is known here: --roster FILE"
OF_LARGE = {READ: READ | TRAVERSE, WRITE: 0x6 | TRAVERSE}  # what its folder has to allow, for its pieces to count


@dataclass(frozen=True)
class Subject:
    label: str
    user: str
    groups: tuple[str, ...] = ()


@dataclass(frozen=True)
class Row:
    name: str
    allowed: int
    rights: str
    stopped_at: str | None  # the first folder above that does not let them pass
    not_known: str | None  # the first folder above whose list may not be seen


def read_roster(path: str) -> list[Subject]:
    try:
        with reading(path), open(path, "rb") as file:
            users = tomllib.load(file)["users"]
        return [Subject(name, name, tuple(groups)) for name, groups in sorted(users.items())]
    except (ValueError, KeyError, TypeError, AttributeError):
        raise LocalFault(f"{path} is no roster: a table [users] of lines like: ann = [\"eng\"]") from None


def roster_of_front(room: Room) -> dict[str, list[str]] | None:
    """The users of the room with their groups, as its front tells them, or None where it does not."""
    try:
        found = json.loads(room.file_of_front(".users.json") or "null")
        return {user: [str(it) for it in groups] for user, groups in found.items()}
    except (ValueError, TypeError, AttributeError, RecursionError):
        return None


def subjects_of(its: dict, of: dict[str, list[str]]) -> list[Subject]:
    """Whom the object's list can tell apart. `of` has the groups of users, as far as they are known."""
    owner, named = its["owner"], [it for it in its["entries"] if not it["who"].endswith("@")]
    users = {it["who"] for it in named if not it["flag"] & GROUP}
    groups = {it["who"] for it in named if it["flag"] & GROUP}
    stranger = next(it for it in map("nobody-{}".format, itertools.count()) if it not in users | {owner})
    rows = [Subject(f"{owner} (owner)", owner, tuple(of.get(owner, ())))]
    rows += [Subject(it, it, tuple(of.get(it, ()))) for it in sorted(users - {owner})]
    rows += [Subject(f"group:{it}", stranger, (it,)) for it in sorted(groups | {its["group"]})]
    return rows + [Subject("anybody else", stranger)]


def standing(room: Room, path: str) -> dict:
    """What the room needs to know of an object to decide, and its kind."""
    return room.stat(path) | room.get_list(path)


def standing_above(room: Room, path: str) -> Iterator[tuple[str, dict | None]]:
    """Each folder above, from the root down, with None where the caller may not see it."""
    for folder in map(str, reversed(PurePosixPath(path).parents)):
        try:
            yield folder, standing(room, folder)
        except Refused as fault:
            if fault.reply["error"] != "ACCESS":
                raise
            yield folder, None


def allowed(room: Room, its: dict, subject: Subject, mask: int) -> int:
    question = {it: its[it] for it in ("entries", "group", "owner")}
    return room.check(question | {"groups": subject.groups, "mask": mask, "user": subject.user})["allowed"]


def of_large(mask: int, inside: int) -> int:
    """What somebody may do with a large file, of those rights on it and of these on what is in it."""
    lacks = sum(bit for bit, needs in OF_LARGE.items() if needs & ~mask or not inside & bit)
    return mask & ~lacks


def large_words(mask: int) -> str:
    """(The right to remove its old pieces makes no other set of it.)"""
    return mask_words(mask ^ DELETE_CHILD if mask ^ DELETE_CHILD in SETS.values() else mask, FILE)


def who(room: Room, path: str, roster: list[Subject] | None, groups: dict[str, list[str]] | None = None) -> list[Row]:
    its = standing(room, path)
    is_large = its["kind"] == FOLDER and large_at(room, path)
    inside = standing(room, f"{path.rstrip('/')}/{NAME}") if is_large else None
    above = list(standing_above(room, path))
    not_known = next((folder for folder, found in above if found is None), None)
    rows = []
    for subject in roster if roster is not None else subjects_of(its, groups or {}):
        mask = allowed(room, its, subject, ALL)
        if inside:
            mask = of_large(mask, allowed(room, inside, subject, ALL))
        rights = large_words(mask) if inside else mask_words(mask, its["kind"])
        closed = (folder for folder, found in above if found and not allowed(room, found, subject, TRAVERSE))
        rows.append(Row(subject.label, mask, rights, next(closed, None), not_known))
    return rows


def who_lines(rows: list[Row]) -> Iterator[str]:
    width = max((len(it.name) for it in rows), default=0)
    traverse = right_words(TRAVERSE, FOLDER)[0]
    for it in rows:
        line = f"{it.name:{width}}  {it.rights}"
        if it.stopped_at:
            line += f"  (but cannot get there: lacks {traverse} at {shown(it.stopped_at)})"
        yield line
    if rows and rows[0].not_known:
        yield f"# You may not see the list of {shown(rows[0].not_known)}: whether it lets them pass is not known."
