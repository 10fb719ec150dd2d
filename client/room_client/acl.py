"""The command `room acl`: shows and sets an access list in words."""
import sys
from collections.abc import Callable

from . import words
from .documents import need_path
from .faults import BadWords, Refused
from .local import read_local
from .reading import large_at
from .replacing import carried
from .room import Room
from .securing import secure
from .showing import show
from .words import shown

ACL = """\
without an action: shows the list as lines that `give` takes back. Actions:

  set ENTRY..     makes these its own entries, and no others
  add ENTRY..     puts them in front of its own entries (if one is there already, it moves to the front;
                  if all of them are in front already, nothing is sent)
  drop ENTRY..    takes them away
  flags WORDS     sets the flags; if it no longer follows its folder, what it inherited becomes its own
  give [FILE]     sets the list as FILE or standard input says, in the form that is shown

  room acl /plans add 'allow bob read,list inherit' 'deny group:staff write'
  room acl /plans > list; edit list; room acl /plans give list

If somebody else sets it between your look and your change, the last change counts.

""" + words.GRAMMAR


def acl(room: Room, asked) -> None:
    need_path(asked.path)
    if asked.action is None:
        return show_list(room, asked)
    large = large_at(room, asked.path)
    new = new_list(room, asked, widened if large else list)
    if new is None:
        show(asked, {"code": 0}, f"{shown(asked.path)}: that is there already, and nothing was set")
    else:
        show(asked, room.set_list(asked.path, *new), f"{shown(asked.path)}: list set")
    secure(room, asked.path, large)


def widened(entries: list[dict]) -> list[dict]:
    """As a large file has them: what is said of it is said of its pieces."""
    return [it if it["flag"] & words.INHERITED else carried(it) for it in entries]


def show_list(room: Room, asked) -> None:
    reply = room.get_list(asked.path)
    if asked.json:
        return show(asked, reply, "")
    kind = words.FOLDER  # (where it is not told, the words for folders do: either word of a right is taken)
    try:
        its = room.stat(asked.path)
        kind = words.LARGE if its["kind"] == words.FOLDER and large_at(room, asked.path) else its["kind"]
        about = f"# {shown(asked.path)}: {kind} of owner {its['owner']} and group {its['group']}\n"
    except Refused as fault:
        about = f"# {shown(asked.path)}: {fault}\n"
    sys.stdout.write(about + words.list_text(reply, kind))
    sys.stdout.flush()


def new_list(room: Room, asked, wide: Callable[[list[dict]], list[dict]]) -> tuple[int, list[dict]] | None:
    """The flags and entries that are to be set, or None where they are set already; `wide` makes entries as the object
    has them. Inherited ones are the room's to give, where the object follows; where `flags` makes that end, they become
    its own, so that nobody is shut out by it."""
    flags, given = asked.given
    if asked.action == "give" and flags is not None:
        return flags, wide(given)
    now = room.get_list(asked.path)
    if asked.action == "flags":
        return flags, wide(now["entries"])
    flags = now["aclflag"] if flags is None else flags
    own = [it for it in now["entries"] if not it["flag"] & words.INHERITED]
    if asked.action == "add":
        after = each_once(wide(given + own))
        return None if after == own else (flags, after)
    if asked.action == "drop":
        return flags, without(own, given, wide(given))
    return flags, wide(given)


def each_once(entries: list[dict]) -> list[dict]:
    return [it for at, it in enumerate(entries) if it not in entries[:at]]


def without(own: list[dict], given: list[dict], wide: list[dict]) -> list[dict]:
    """Takes away what is given, as it stands there or as the object has it."""
    gone = [it if it in own else other for it, other in zip(given, wide)]
    missing = next((it for it, other in zip(given, gone) if other not in own), None)
    if missing:
        its = words.entry_words(missing, words.FOLDER)
        raise BadWords(f"the list has no entry of its own '{its}': nothing was set")
    return [it for it in own if it not in gone]


def read_given(asked) -> None:
    """The entries in words are read before anything is sent."""
    try:
        if asked.action == "flags":
            if len(asked.words) != 1:
                raise BadWords("give the list's flags as one word, with commas between them")
            asked.given = words.read_list_flags(asked.words[0]), []
        elif asked.action == "give":
            if len(asked.words) > 1:
                raise BadWords("give one FILE")
            text = read_local(*asked.words or ["-"]).decode()
            asked.given = words.read_list(text.splitlines())
        elif asked.action and not asked.words and asked.action != "set":
            raise BadWords(f"{asked.action} needs an ENTRY")
        else:
            asked.given = None, [words.read_entry(it) for it in asked.words]
    except ValueError as fault:
        raise BadWords(str(fault)) from None
