"""COPY and MOVE. What is in the way has another name meanwhile, and its own back where the rest is refused."""
import contextlib

from room_client import files, trash
from room_client.clearing import remove_file
from room_client.faults import Fault, Refused
from room_client.manifest import is_hidden

from . import pool
from .asked import Asked, Reply
from .faults import Answered, is_refused, is_sure
from .names import below, beside, is_backup, is_below, is_passing, is_short_lived, is_temporary, last
from .rules import Rules
from .saving import awaited, exchange, is_closed, put_as_named, put_backup, put_in_place, renamed
from .steps import Aside, Step
from .tree import Thing, bytes_of, standing, thing_at
from .visit import Visit
from .writing import make_folder, need_folder_above, place

MOST_COPIED = 2000  # things of a folder, by one COPY
MOST_DEEP = 16


def destination(gate, visit: Visit, asked: Asked) -> str:
    to = asked.destination()
    if is_passing(to):
        raise Answered(403, f"{last(to)}: no file of that name is kept in a room")
    return place(gate, visit, asked, to)


def two_places(gate, visit: Visit, asked: Asked, *, leaves: bool) -> tuple[str, str]:
    """From where to where, once both may be changed (the first where it `leaves`)."""
    source, target = standing(visit, asked.path), destination(gate, visit, asked)
    need_apart(source, target)
    rules = Rules(visit, asked, gate.locks)
    rules.need()
    for path in [source] * leaves + [target]:
        rules.need_free(path, is_deep=True, is_member=True)
    need_folder_above(gate, visit, asked, target)
    return source, target


def move(gate, visit: Visit, asked: Asked) -> Reply:
    source, target = two_places(gate, visit, asked, leaves=True)
    with gate.changing(asked.room, source), gate.changing(asked.room, target):
        is_made = moved(gate, visit, asked, source, target)
    gate.locks.drop_below(asked.room, source)
    return Reply(201 if is_made else 204)


def moved(gate, visit: Visit, asked: Asked, source: str, target: str) -> bool:
    """By one RENAME where nothing is there. A file in the place of a file, or of one that was moved aside a moment ago,
    is a new version of that: whose it is and its list stay. But what is moved aside, over what lay there, stays itself.
    """
    found = awaited(gate, visit, asked.room, target, source)
    if found:
        exchange(gate, visit, *found, source=source)
        return True
    try:
        renamed(gate, visit, asked.room, source, target)
        return True
    except Refused as fault:
        if not is_refused(fault, "EXIST"):
            raise moving(visit, fault, source) from None
    awaited(gate, visit, asked.room, target)  # (somebody else's may have come meanwhile)
    need_overwrite(asked)
    its, there = thing_at(visit, source), thing_at(visit, target, is_shown=True)
    is_aside = gets_backup(gate, visit, asked.room, source, target) and not is_temporary(source)
    if not its.is_folder and not there.is_folder and not is_aside:
        put_over(gate, visit, asked.room, source, target)
    else:
        with out_of_the_way(gate, visit, asked.room, target, source):
            renamed(gate, visit, asked.room, source, target)
    return False


def gets_backup(gate, visit: Visit, room: str, path: str, to: str) -> bool:
    """Whether a document gets a backup's name. (What was made a moment ago, and is closed, is a document too.)"""
    if not is_backup(to, path):
        return False
    is_fresh = gate.asides.is_fresh(room, visit.settings.user, path)
    return is_backup(to, path, is_fresh) or is_closed(visit, path)


def put_over(gate, visit: Visit, room: str, source: str, target: str) -> None:
    """(What goes is what was read: under another name nobody writes to it meanwhile.)"""
    with set_aside(gate, visit, room, source) as aside:
        its = thing_at(visit, aside)
        put_as_named(gate, visit, room, target, bytes_of(visit, its))
        pool.remove(visit, aside, remove_file)
    gate.asides.gone(room, visit.settings.user, source)


def moving(visit: Visit, fault: Refused, source: str) -> Exception:
    """NOENT is of the source, or of the folder that it is to go to."""
    if not is_refused(fault, "NOENT", "NOTDIR"):
        return fault
    thing_at(visit, source, is_shown=True)
    return Answered(409, str(fault))


def need_apart(source: str, target: str) -> None:
    """Nothing takes its own place, or goes into itself, or takes the place of what it is in: what is there would go."""
    if source == target or is_below(target, source) or is_below(source, target):
        raise Answered(403, f"{source} and {target} are the same, or one is in the other")


def need_overwrite(asked: Asked) -> None:
    if not asked.may_overwrite:
        raise Answered(412, "something is there, and Overwrite is F")


def copy(gate, visit: Visit, asked: Asked) -> Reply:
    if asked.depth == "1":
        raise Answered(400, "a copy has Depth 0 or infinity")
    source, target = two_places(gate, visit, asked, leaves=False)
    its = thing_at(visit, source)
    with gate.changing(asked.room, target):
        is_made = copied(gate, visit, asked, its, target)
    return Reply(201 if is_made else 204)


def copied(gate, visit: Visit, asked: Asked, its: Thing, target: str) -> bool:
    try:
        there = thing_at(visit, target, is_shown=True)
    except Answered:
        there = None
    if there:
        need_overwrite(asked)
        awaited(gate, visit, asked.room, target)
    is_backed_up = not its.is_folder and gets_backup(gate, visit, asked.room, its.path, target)
    is_away = there is not None and (
        its.is_folder or there.is_folder or is_backed_up and is_other(visit, its.path, target))
    is_new = is_away or not asked.may_overwrite or is_backed_up and there is None
    with out_of_the_way(gate, visit, asked.room, target, its.path) if is_away else contextlib.nullcontext():
        copy_whole(gate, visit, asked, its, target, is_new)
    return there is None


def is_other(visit: Visit, path: str, to: str) -> bool:
    """Whether others could read a backup there: one of the two has a list of its own, or what is there is not the
    caller's."""
    return is_closed(visit, path) or is_closed(visit, to) or files.other_owner(visit, to) is not None


def copy_whole(gate, visit: Visit, asked: Asked, its: Thing, target: str, is_new: bool) -> None:
    """It is there whole, or nothing of it."""
    made: list[str] = []
    try:
        if its.is_folder:
            copy_folder(gate, visit, asked.room, its.path, target, made, MOST_DEEP if asked.depth != "0" else 0)
        else:
            copy_file(gate, visit, asked.room, its, target, is_new)
    except (Refused, Answered) as fault:
        remove_each(visit, made)
        if isinstance(fault, Refused) and is_refused(fault, "EXIST"):  # (made by somebody else meanwhile)
            raise Answered(412, str(fault)) from None
        raise


def remove_each(visit: Visit, made: list[str]) -> None:
    """(With what somebody else put into it a folder stays.)"""
    for path in reversed(made):
        with contextlib.suppress(Fault):
            trash.remove(visit, path, False)


def copy_file(gate, visit: Visit, room: str, its: Thing, target: str, is_new: bool) -> None:
    is_backed_up = is_backup(target, its.path) and not is_temporary(target) and put_backup(
        visit, its.path, target, bytes_of(visit, its))
    if not is_backed_up:
        put_in_place(gate, visit, room, target, bytes_of(visit, its), is_new)
    its.data = None


def copy_folder(gate, visit: Visit, room: str, source: str, target: str, made: list[str], deep: int) -> None:
    make_folder(visit, target)
    made.append(target)
    names = [it for it in visit.children(source) if not is_hidden(it)] if deep else []
    if len(made) + len(names) > MOST_COPIED:
        raise Answered(507, f"a copy has at most {MOST_COPIED} things")
    for name in names:
        its = thing_at(visit, below(source, name))
        if its.is_folder:
            copy_folder(gate, visit, room, its.path, below(target, name), made, deep - 1)
        else:
            copy_file(gate, visit, room, its, below(target, name), True)
            made.append(below(target, name))


# What is in the way

@contextlib.contextmanager
def out_of_the_way(gate, visit: Visit, room: str, path: str, source: str):
    """What is at a path has another name while something takes its place, and goes once that is there. What was moved
    aside goes to the trash, as where it is removed; without one it stays, where what has its name now comes."""
    one = gate.asides.is_aside(room, visit.settings.user, path)
    bin_ = None if is_short_lived(path) and not one else trash.trash_of(visit)
    if bin_ and path != trash.TOP and not is_below(path, trash.TOP):
        with Noted(gate, visit, room, one) as noted:
            trash.put_in_trash(noted, path, bin_)
            yield
    elif one and one.path == source:
        raise Answered(412, f"{path} had the name {source} before that was another's, and would be gone for good")
    else:
        with set_aside(gate, visit, room, path) as aside:
            yield
            pool.remove(visit, aside)
    gate.locks.drop([it.token for it in gate.locks.below(room, path)])  # (what was in it is gone)


@contextlib.contextmanager
def set_aside(gate, visit: Visit, room: str, path: str):
    """The name, in the same folder, that what was there has meanwhile."""
    aside = beside(path)
    with Noted(gate, visit, room) as noted:
        noted.rename(path, aside)
        yield aside


class Noted:
    """Renames so that it is known what to put back, where what comes behind it is refused or stopped."""

    def __init__(self, gate, visit: Visit, room: str, one: Aside | None = None):
        self.steps, self.visit, self.room, self.step = gate.steps, visit, room, None
        self.asides, self.one = gate.asides, one

    def __enter__(self) -> "Noted":
        return self

    def rename(self, path: str, to: str) -> dict:
        if self.step:  # (that name was taken)
            self.steps.end(self.step)
        self.step = self.steps.begin(Step("back", self.room, self.visit.settings.user, path, to))
        self.is_done = False
        if self.one:
            self.asides.keep(self.one, to)
        reply = self.visit.rename(path, to)
        self.is_done = True
        return reply

    def __exit__(self, kind, fault, _) -> None:
        """Where something is refused, what was set aside has its name back: or at a later request, where even that has
        no answer."""
        if self.step is None:
            return
        if fault is not None and (self.is_done or not is_sure(fault)):
            try:
                self.visit.rename(self.step.aside, self.step.path)
            except Refused as why:
                if not is_sure(why):
                    return self.steps.leave(self.step)
            except Fault:
                return self.steps.leave(self.step)
        self.steps.end(self.step)
