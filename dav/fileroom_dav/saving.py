"""How programs save by renames: the new bytes under a name of their own, the document aside, the new ones to its name,
and what is aside removed. What has the name stays the document that had it, with its owner, group and list: so here it
comes back to its name and takes the bytes, and those of before lie aside.

Nobody is shown by it what the document's list denies them. Bytes that are to become a version lie, until they have a
name, under a list for who put them alone (the veil); and those of before under no wider list than the document's.
"""
import contextlib
from collections.abc import Callable

from room_client import clearing, files
from room_client.faults import Fault, Held, NoAnswer, OtherVersion, Refused, SessionLost, overtaken
from room_client.manifest import FOLDER, NAME, Manifest, are_parts, read_manifest
from room_client.reading import manifest_in, text_at
from room_client.room import MOST_BYTES, unheard
from room_client.spares import has_own_list
from room_client.trash import is_private
from room_client.words import ALL, DEFAULTED, FOLLOWS, GROUP, INHERITED, PROTECTED, TO_FILES, TO_FOLDERS, is_following

from . import apart, pool
from .asked import Asked
from .faults import Answered, NotThere, is_refused, is_sure, making
from .kept import say
from .names import above, below, beside, is_backup, is_temporary, last
from .steps import MINUTES, Aside, Step, of_what
from .tree import Thing, bytes_of, is_folder, is_there, sum_of, thing_at
from .visit import Visit

VEIL = PROTECTED | DEFAULTED  # (nobody sets that by hand: what has it may have its folder's list again)
MOST_ENTRIES = 32
OR_ELSE = f"Save under another name, or wait {MINUTES} minutes"


# What is put

def put_in_place(gate, visit: Visit, room: str, path: str, data: bytes, is_new: bool = False) -> bool:
    """Makes a file or a new version of it, also of what was moved aside from there. Whether nothing was there."""
    found = awaited(gate, visit, room, path)
    if found:
        exchange(gate, visit, *found, data=data)
        return True
    is_made = put_as_named(gate, visit, room, path, data, is_new)
    if is_made:
        gate.asides.made(room, visit.settings.user, path)
    return is_made


def put_as_named(gate, visit: Visit, room: str, path: str, data: bytes, is_new: bool = False) -> bool:
    """Under a program's name it is for nobody else."""
    if not is_temporary(path):
        user = visit.settings.user
        return put_bytes(visit, path, data, is_new, gate.asides.is_fresh(room, user, path) or gate.seen.has(room, path))
    is_large = len(data) > MOST_BYTES
    is_kept = need_private(gate, visit, room, path)
    if is_kept and is_large and is_left_veiled(visit, path):
        clearing.remove_all(visit, path)
    elif is_kept:
        return put_bytes(visit, path, data, is_new)
    if not put_closed(visit, path, data, lambda at: veil(visit, at, is_large)):
        raise Answered(412, f"{path} was made by somebody else meanwhile, who could read there what your program saves")
    return True


def need_private(gate, visit: Visit, room: str, path: str) -> bool:
    """Where something has a program's name already, that it is the caller's, and closed to others or moved there by
    themselves. (Anyone who may add could make a file there, and give it to them, to read what is to become a version
    of something that they are denied.) Whether something has it."""
    user = visit.settings.user
    try:
        its = visit.stat(path)
    except Refused as fault:
        if is_refused(fault, "NOENT", "NOTDIR"):
            return False
        its = {}
    if its.get("owner") != user:
        raise Answered(403, f"{path} is somebody else's, who could read there what your program saves")
    one = gate.asides.is_aside(room, user, path)
    if one and known_by(visit, path) == one.known:
        return True
    told = visit.get_list(path)
    if not has_own_list(told):
        if its["kind"] != FOLDER or not is_folder(visit, path):
            veil(visit, path, its["kind"] == FOLDER)
    elif not is_private(told, user):
        raise Answered(403, f"the list of {path} names others, and does not tell whether you set it: they could read "
                            "there what your program saves. Save under another name, or write it by page or command")
    return True


def put_bytes(visit: Visit, path: str, data: bytes, is_new: bool = False, is_known: bool = False) -> bool:
    """Makes a file or a new version of it. Whether it was not there before. (Where one was a moment ago that is asked
    for first.)"""
    try:
        if len(data) > MOST_BYTES:
            return not pool.Upload(visit, path, data, unheard).run(is_new, False)
        return not files.put(visit, path, data, is_new=is_new, is_known=is_known)
    except Refused as fault:
        raise making(fault) from None


def veil(visit: Visit, path: str, is_large: bool) -> None:
    visit.set_list(path, VEIL, [of_one("OWNER@", is_large)])


def put_backup(visit: Visit, source: str, path: str, data: bytes) -> bool:
    """A copy of a document with a list of its own, by a name that programs give a backup."""
    is_large = len(data) > MOST_BYTES
    return is_closed(visit, source) and put_closed(
        visit, path, data, lambda at: close_like(visit, source, at, is_large))


def is_closed(visit: Visit, path: str) -> bool:
    """Whether it has a list of its own, or one that the caller is not told."""
    try:
        return has_own_list(visit.get_list(path))
    except Refused as fault:
        if not is_refused(fault, "ACCESS"):
            raise
        return True


def put_closed(visit: Visit, path: str, data: bytes, close: Callable[[str], object]) -> bool:
    """Makes a file whose list is set before its bytes are there. Whether nothing was there."""
    is_large = len(data) > MOST_BYTES
    try:
        place = apart.place_for(visit, path, is_large)
        if not apart.make_empty(visit, place, is_large):
            return False
        try:
            close(place.path)
            fill(visit, place.path, data)
            return apart.name(visit, place, path)
        except Refused:
            with contextlib.suppress(Fault):
                clearing.remove_all(visit, place.path)
            raise
    except Refused as fault:
        raise making(fault) from None


def fill(visit: Visit, path: str, data: bytes) -> None:
    """What is empty so far. (What comes from the pool was looked at there.)"""
    if len(data) > MOST_BYTES:
        upload = pool.Upload(visit, path, data, unheard)
        upload.put_pieces(path, upload.spares())
        upload.put_manifest(path, True)
    elif data:
        visit.write(path, data)


def is_left_veiled(visit: Visit, path: str) -> bool:
    """Whether it is what a stop left of a large file that was put under a veil."""
    its = visit.stat(path)
    if its["kind"] != FOLDER or its["owner"] != visit.settings.user:
        return False
    return are_parts(visit.children(path)) and is_veil(visit.get_list(path))


def of_one(who: str, is_folder: bool) -> dict:
    return {"flag": TO_FILES | TO_FOLDERS if is_folder else 0, "mask": ALL, "type": 0, "who": who}


def is_veil(its: dict) -> bool:
    return its["aclflag"] == VEIL and its["entries"] in ([of_one("OWNER@", False)], [of_one("OWNER@", True)])


# What has another name

def renamed(gate, visit: Visit, room: str, source: str, target: str) -> None:
    """What had a program's name for a moment, and has one to stay, has its folder's list again."""
    user, asides = visit.settings.user, gate.asides
    is_fresh = asides.is_fresh(room, user, source)
    is_aside = above(source) == above(target) and not is_temporary(source) and (
        is_backup(target, source) or not is_fresh or is_closed(visit, source))
    known = known_by(visit, source) if is_aside else None
    if known and asides.of(room, user, source) and owner_in(known) != user:
        known = None  # (it is what somebody else laid where the one aside was)
    with asides.moving(room, user, source, target, known):
        if is_temporary(source) and not is_temporary(target):
            step = Step("opens", room, user, target)
            with gate.steps.under_way(step, lambda _, why: is_sure(why)) as step:
                visit.rename(source, target)
                try:
                    unveil(visit, step)
                except Refused as fault:  # (somebody else's list)
                    if not is_sure(fault):
                        raise
        else:
            visit.rename(source, target)
    if is_fresh:
        asides.made(room, user, target)


def known_by(visit: Visit, path: str) -> str:
    """Its owner, and a sum of its group and of its own list, as far as the room tells: what has the same is shown to
    the same. (By its bytes, where its list is not told.)"""
    its, told = visit.ask_all({"cmd": it, "keep": False, "path": path} for it in ("STAT", "GETLIST"))
    listed = [told["aclflag"], own_entries(told)] if "entries" in told else bytes_told(visit, path)
    return f"{its.get('owner', '')} {sum_of(repr([its.get('group'), listed]).encode())}"


def bytes_told(visit: Visit, path: str) -> list[str | None]:
    """Of a document, or of a large file's manifest."""
    replies = visit.ask_all({"cmd": "READ", "keep": False, "path": it} for it in (path, below(path, NAME)))
    return [it.get("data") for it in replies]


def own_entries(told: dict) -> list[dict]:
    """Those that its folder did not hand down."""
    follows = is_following(told["aclflag"])
    return [it for it in told["entries"] if not (follows and it["flag"] & INHERITED)]


def owner_in(known: str) -> str:
    return known.partition(" ")[0]


def unveil(visit: Visit, step: Step) -> None:
    if is_veil(visit.get_list(step.path)):
        visit.set_list(step.path, FOLLOWS, [])


def awaited(gate, visit: Visit, room: str, path: str, source: str | None = None) -> tuple[Aside, Thing] | None:
    """What was moved aside from a path where nothing is now, and what it is, where that waits for other bytes: not for
    itself, nor for a folder, nor for what has an owner or a list of its own. What could be read by others than it is
    refused."""
    found = gate.asides.of(room, visit.settings.user, path)
    if not found:
        return None
    one = next((it for it in found if known_by(visit, it.aside) == it.known), None)
    if is_there(visit, path):
        need_no_wider(visit, path, found[0], one)
        return None
    if source in [it.aside for it in found] or source is not None and not is_version(visit, source):
        return None
    if one is None or len({it.known for it in found}) > 1:
        raise not_found(found[0])
    old = thing_at(visit, one.aside)
    return None if old.is_folder else (one, old)


def not_found(its: Aside) -> Answered:
    return Answered(412, f"{its.aside} is not where you moved it, or not as it was: what you save as {its.path} "
                         f"could be read by whom that was closed to. {OR_ELSE}")


def need_no_wider(visit: Visit, path: str, its: Aside, one: Aside | None) -> None:
    """That what has the name of what lies aside is the caller's, and as closed; or is that itself, by somebody else.
    """
    known, user = known_by(visit, path), visit.settings.user
    if known == its.known and (one is None or one.aside == path or owner_in(known) == user):
        return
    whose = "has another list" if owner_in(known) == user else f"is {owner_in(known) or 'somebody else'}'s"
    raise taken(path, whose, its)


def taken(path: str, whose: str, its: Aside) -> Answered:
    return Answered(412, f"{path} {whose} now, and what had that name lies as {its.aside}: what you save could be read "
                         f"by whom that is closed to. {OR_ELSE}")


def is_version(visit: Visit, source: str) -> bool:
    if visit.stat(source)["owner"] != visit.settings.user or is_folder(visit, source):
        return False
    its = visit.get_list(source)
    return is_veil(its) or not has_own_list(its)


# The exchange

def exchange(gate, visit: Visit, one: Aside, old: Thing, *, data: bytes = b"", source: str | None = None) -> None:
    """What is aside has its name again, and the bytes of `data` or of the file at `source`, which goes. A large file
    takes the pieces of another by one request, where nobody else could reach them."""
    need_unlocked(gate, one)
    its = thing_at(visit, source) if source else None
    takes = bool(its and old.large and its.large) and is_veil(visit.get_list(source))
    if its and not takes:
        data = bytes_of(visit, its)
    version = its.large if takes else Manifest.of(data)
    text = text_at(visit, one.aside).decode("ascii") if old.large else ""
    copy = apart.place_for(visit, below(above(one.aside), last(beside(one.path))), bool(old.large))
    step = Step("exchange", one.room, one.user, one.path, one.aside, copy.path, source or "", version.folder, text,
                takes)
    done: list[dict] = []
    with gate.changing(one.room, one.aside), gate.steps.under_way(step, undone(visit, done)) as step:
        if not takes:
            make_copy(visit, step, copy, old)
        done.append(give_name(visit, one))
        if known_by(visit, one.path) != one.known:  # (somebody laid it there meanwhile)
            raise not_found(one)
        if old.large:
            put_large(visit, step, version, data)
        else:
            put_bytes(visit, one.path, data, is_known=True)
        finish(visit, step, its)
    gate.asides.moved(one.room, one.user, one.aside, one.path)


def need_unlocked(gate, one: Aside) -> None:
    """That nobody else has a lock of what lies aside: it is moved and written to as by any other request."""
    locks = gate.locks.at(one.room, one.aside) + gate.locks.below(one.room, one.aside)
    if any(it.user != one.user for it in locks):
        raise Answered(423, f"{one.aside}, of which that is a new version, is locked by somebody else")


def give_name(visit: Visit, one: Aside) -> dict:
    try:
        return visit.rename(one.aside, one.path)
    except Refused as fault:
        if is_refused(fault, "EXIST"):
            raise taken(one.path, "is another's", one) from None
        raise


def undone(visit: Visit, done: list[dict]):
    """(Not where no answer came: what was done is not known then.)"""
    return lambda step, why: isinstance(why, (Refused, OtherVersion, Answered)) and undo(visit, step, bool(done))


def make_copy(visit: Visit, step: Step, place: apart.Place, old: Thing) -> None:
    """A place for the bytes of before, which is no more open than where they are."""
    if not apart.make_empty(visit, place, bool(old.large)):
        raise taken(step.copy, "is another's", Aside(step.room, step.user, step.path, step.aside, "", 0.0))
    close_like(visit, step.aside, step.copy, bool(old.large))
    if old.data:
        visit.write(step.copy, old.data)


def close_like(visit: Visit, path: str, copy: str, is_folder: bool, is_again: bool = False) -> None:
    """By the same list, where owner and group are the same; else by one with their names; or for the caller alone."""
    its, ours = visit.stat(path), visit.stat(copy)
    try:
        told = visit.get_list(path)
    except Refused as fault:
        if not is_refused(fault, "ACCESS"):
            raise
        return visit.set_list(copy, PROTECTED, [of_one(visit.settings.user, is_folder)])
    if (its["owner"], its["group"]) == (ours["owner"], ours["group"]):
        if is_again or has_own_list(told):
            visit.set_list(copy, told["aclflag"], own_entries(told))
        return None
    entries = [named(it, its) for it in told["entries"]]
    if len(entries) > MOST_ENTRIES:
        entries = [of_one(visit.settings.user, is_folder)]
    return visit.set_list(copy, PROTECTED, entries)


def named(entry: dict, its: dict) -> dict:
    """With the names of whom OWNER@ and GROUP@ are there, and its own."""
    entry = entry | {"flag": entry["flag"] & ~INHERITED}
    if entry["who"] == "OWNER@":
        return entry | {"who": its["owner"], "flag": entry["flag"] & ~GROUP}
    if entry["who"] == "GROUP@":
        return entry | {"who": its["group"], "flag": entry["flag"] | GROUP}
    return entry


def put_large(visit: Visit, step: Step, version: Manifest, data: bytes) -> None:
    """As every new version of a large file, but what was before it lies aside."""
    upload = pool.Upload(visit, step.path, data, unheard)
    upload.its, upload.before = version, step.text.encode()
    upload.names, upload.whole = visit.children(step.path), visit.stat(step.path)
    if step.takes:
        visit.rename(f"{step.source}/{step.folder}", f"{step.path}/{step.folder}")
    else:
        upload.put_pieces(step.path, [*upload.from_pool(), *upload.spares()])  # (what lies aside goes to the pool)
    upload.share(upload.made_pieces())
    if text_at(visit, step.path) != upload.before:
        raise OtherVersion(overtaken(step.path))
    visit.write(f"{step.path}/{NAME}", version.text())
    upload.tidy_behind(upload.tidy_aside)


def finish(visit: Visit, step: Step, its: Thing | None = None) -> None:
    """The new version has the name: what was before it lies aside, as far as the room lets it."""
    try:
        if step.takes:
            back(visit, step.source, step.copy)
        if step.text and is_there(visit, step.copy):
            keep_large(visit, step)
        back(visit, step.copy, step.aside)
        if step.source and not step.takes and is_as_read(visit, step, its):
            pool.remove(visit, step.source)
    except Refused as fault:
        if not is_sure(fault):
            raise
        say(f"room {step.room}: {of_what(step)}: {fault}")


def is_as_read(visit: Visit, step: Step, its: Thing | None) -> bool:
    """Whether what had the new bytes has them still: what somebody wrote there meanwhile stays. (Under a program's name
    nobody else does. After a stop the new version tells what was read.)"""
    if is_temporary(step.source):
        return True
    with contextlib.suppress(NotThere):
        return thing_at(visit, step.source).sum == (its or thing_at(visit, step.path)).sum
    return False


def keep_large(visit: Visit, step: Step) -> None:
    """The copy gets the pieces of before: where it is the caller's, and closed. (In its folder somebody else may have
    laid another one since. What had the new bytes is for nobody else, until it has those of before.)"""
    before = read_manifest(step.text.encode())
    if before.folder in visit.children(step.path):
        if step.takes:
            need_veiled(visit, step)
        elif above(step.copy) == above(step.aside):
            close_like(visit, step.path, step.copy, True, True)
        back(visit, f"{step.path}/{before.folder}", f"{step.copy}/{before.folder}")
    visit.put(f"{step.copy}/{NAME}", step.text.encode())
    if step.takes:
        close_like(visit, step.path, step.copy, True, True)


def need_veiled(visit: Visit, step: Step) -> None:
    if visit.stat(step.copy)["owner"] != visit.settings.user or not is_veil(visit.get_list(step.copy)):
        raise Refused({"code": 5, "error": "ACCESS"}, {"path": step.copy}, f"{step.copy} is somebody else's by now")


def undo(visit: Visit, step: Step, is_named: bool) -> bool:
    """All is as it was before the exchange, by which the document had its name again, or had it not."""
    if not is_undone(visit, step):
        if is_named:
            back(visit, step.path, step.aside)
        remove_copy(visit, step)
    return True


def undo_left(visit: Visit, step: Step) -> None:
    """Of one that was stopped the document keeps its name, and where nobody knows whether it has the new bytes, those
    of before lie aside."""
    if not is_undone(visit, step) and (step.text or not back(visit, step.copy, step.aside)):
        remove_copy(visit, step)


def is_undone(visit: Visit, step: Step) -> bool:
    """Whether the version of a large file is there, which is the end of it, and no pieces are otherwise."""
    if step.text and has_version(visit, step):
        finish(visit, step)
        return True
    if step.text and step.takes:
        back(visit, f"{step.path}/{step.folder}", f"{step.source}/{step.folder}")
    elif step.text:
        clearing.clear(visit, step.path, step.folder)
    return False


def remove_copy(visit: Visit, step: Step) -> None:
    if is_there(visit, step.copy):
        clearing.remove_all(visit, step.copy)


def has_version(visit: Visit, step: Step) -> bool:
    its = manifest_in(visit, step.path)
    return its is not None and its.folder == step.folder


def back(visit: Visit, path: str, to: str) -> bool:
    """Whether it was there, and had room."""
    try:
        visit.rename(path, to)
        return True
    except Refused as fault:
        if is_refused(fault, "NOENT", "NOTDIR", "EXIST"):
            return False
        raise


# What a stop left

def settle(gate, visit: Visit, asked: Asked) -> None:
    """Before a request of who began it is served, or of somebody else to that folder who may. What it does not come to
    is left for the next one."""
    claimed = gate.steps.claim(asked.room, asked.user, {asked.path, above(asked.path)})
    try:
        while claimed:
            if settle_one(gate, visit, asked, claimed[0]):
                gate.steps.end(claimed.pop(0))
            else:
                gate.steps.leave(claimed.pop(0))
    finally:
        for step in claimed:
            gate.steps.leave(step)


def settle_one(gate, visit: Visit, asked: Asked, step: Step) -> bool:
    """Whether nothing is left to do."""
    try:
        with gate.changing(asked.room, step.path), gate.changing(asked.room, step.aside or step.path):
            put_right(visit, step)
    except Held:  # (who is held reads on)
        return False
    except (NoAnswer, SessionLost):
        raise
    except Fault as fault:
        if step.user != asked.user and isinstance(fault, Refused) and is_refused(fault, "ACCESS"):
            return False
        say(f"room {step.room}: {of_what(step)}: {fault}")
    return True


def put_right(visit: Visit, step: Step) -> None:
    if step.kind == "opens":
        unveil(visit, step)
    elif step.kind == "exchange":
        undo_left(visit, step)
    elif is_there(visit, step.aside):
        visit.rename(step.aside, step.path)
    say(f"room {step.room}: put right at a request of {visit.settings.user}: {of_what(step)}")
