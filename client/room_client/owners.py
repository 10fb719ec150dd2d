"""Owner and group of an object, or of all below a folder."""
from collections.abc import Iterator, Sequence

from .documents import there
from .faults import BadWords, Refused, refused
from .parts import give
from .reading import large_at
from .room import Room
from .securing import secure
from .showing import Told, show
from .trash import TOP, places_of
from .trees import batched, join
from .words import FOLDER, shown

AT_ONCE = 256  # objects
TOLD = 20  # lines of what is left
Refusals = dict[str, Refused]  # by path


def chown(room: Room, asked) -> None:
    owner, colon, group = asked.owner.partition(":")
    if not colon:
        raise BadWords(f"'{shown(asked.owner)}' is not OWNER:GROUP")
    path = there(room, asked.path)
    if asked.recursive:
        return below(room, asked, path, owner, group)
    if asked.giver:
        raise BadWords("--from is for -r")
    secure(room, path, large_at(room, path))
    large = large_at(room, path)  # (its pieces may be others by now)
    refusal = large and give(room, path, large, owner, group)
    if refusal:
        raise refusal
    reply = {"code": 0} if large else room.chown(path, owner, group)
    return show(asked, reply, f"{shown(path)}: owner {owner}, group {group}")


def below(room: Room, asked, top: str, owner: str, group: str) -> None:
    """Level by level, the deepest first: who may do it as the owner of a folder above may until then. What is refused
    is told at the end, and the rest goes on."""
    given, left, shut = 0, {}, {}
    for paths in reversed([*levels(room, top, shut)]):
        for some in batched(paths, AT_ONCE):
            replies = hand_over(room, some, asked.giver, owner, group)
            given += sum(reply["code"] == 0 for _, reply in replies)
            left |= {command["path"]: refused(reply, command) for command, reply in replies if reply["code"]}
    tell_left(room, asked.giver, left, shut)
    show(asked, {"code": 0, "given": given, "refused": len(left | shut)},
         f"{shown(top)}: {given} objects changed to {owner}:{group}")
    if left or shut:
        raise Told(Refused.status)


def tell_left(room: Room, giver: str | None, left: Refusals, shut: Refusals) -> None:
    """A line for each object of `left`, and each folder of `shut`, which may not be listed, as far as somebody reads
    them; and one for all in the trash of others, since each is its user's alone."""
    others = {it for it in left | shut if it.startswith(f"{TOP}/") and it not in places_of(giver or "")}
    paths = sorted((left | shut).keys() - others)
    for path in paths[:TOLD]:
        if path in left:
            room.say(f"left as it is{', with what is in it' if path in shut else ''}: {left[path]}")
        else:
            room.say(f"what is in it is left out: {shut[path]}")
    if paths[TOLD:]:
        room.say(f"so are {len(paths) - TOLD} more")
    if others:
        room.say(f"left as it is: what is others' in {TOP} ({len(others)} things)")


def hand_over(room: Room, paths: Sequence[str], giver: str | None, owner: str, group: str) -> list[tuple[dict, dict]]:
    """Gives those that are the giver's, and answers what was refused, or done."""
    asks = [{"cmd": "STAT", "path": it} for it in paths]
    stats = list(zip(asks, room.ask_all(asks)))
    theirs = [its["path"] for its, reply in stats if reply["code"] == 0 and giver in (None, reply["owner"])
              and (reply["owner"], reply["group"]) != (owner, group)]
    commands = [{"cmd": "CHOWN", "group": group, "owner": owner, "path": it} for it in theirs]
    return [it for it in stats if it[1]["code"]] + list(zip(commands, room.ask_all(commands)))


def levels(room: Room, top: str, shut: Refusals) -> Iterator[list[str]]:
    """The object, then what is in it, the pieces of large files too, and so on. What may not be listed goes to
    `shut`."""
    level, folders = [top], [top] if room.stat(top)["kind"] == FOLDER else []
    while level:
        yield level
        commands, level = [{"cmd": "LIST", "path": it} for it in folders], []
        replies, folders = room.ask_all(commands), []
        for command, reply in zip(commands, replies):
            if reply["code"]:
                shut[command["path"]] = refused(reply, command)
            for name, kind in reply.get("names", ()):
                level.append(join(command["path"], name))
                folders += [level[-1]] * (kind == FOLDER)
