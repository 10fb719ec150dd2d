"""What goes wrong: each fault is one line with cause and remedy, and has an exit status."""
import contextlib
from collections.abc import Iterator

from .words import FILE, FOLDER, right_words, shown

ACCESS = 5
FBIG = {"code": 9, "error": "FBIG"}
SESSION_CODES = range(20, 26)

REFUSALS = {
    1: ("nothing is there, or a folder above it is missing", "look with: room ls"),
    2: ("a folder is needed, and a document is there", "correct the path"),
    3: ("a document is needed, and a folder is there", "correct the path"),
    4: ("something is there already", "choose another name, or remove it first"),
    6: ("the folder has something in it", "remove that first"),
    7: ("the root cannot be moved or removed, nothing moves into itself, and a list has at most 32 own entries",
        "correct the command"),
    8: ("inheritance that this object cannot have: on a document none, and on a folder 'not-here' only beside it",
        "correct the entry"),
    9: ("a document has at most 65,536 bytes", "split it"),
    10: ("a path has at most 16 names, and a large file takes two of them", "move it higher"),
    11: ("the folder is full: it has 256 things in it", "make another folder"),
    12: ("the room is full: a million things were made in it", "ask whoever runs the room for a new one"),
    20: ("the session is not open: the room was made anew or set back to a copy, or the session was closed",
         "begin another: room session new"),
    21: ("the session has no such slot", "begin another: room session new"),
    22: ("the number is not the session's next one: the room or the state file was set back to a copy",
         "begin another: room session new"),
    23: ("the number was used for another command: the room or the state file was set back to a copy",
         "begin another: room session new"),
    24: ("the session's name is another user's", "begin another: room session new"),
    25: ("it was run before, and its reply was not kept: something else uses this session",
         "look at what is there, and begin another: room session new"),
    40: ("the room received no valid message", "is something else in between? ask whoever runs the room"),
    41: ("the room has no such route", "correct the URL"),
    42: ("you are no user of the room", "ask whoever keeps its roster"),
    43: ("the room refuses this form: a path is / or up to 16 names, each of at most 64 bytes after a /; "
         "a user or group is 1 to 32 letters, digits, '.', '_' or '-'", "correct the command"),
}


class Fault(Exception):
    """Something went wrong, told in one line."""

    status = 1


class Refused(Fault):
    """The room refused it; nothing was changed by it. `reply` is the room's."""

    def __init__(self, reply: dict, command: dict | None = None, why: str | None = None):
        self.reply = reply
        super().__init__(refusal_line(reply, command or {}, why))


class BadWords(Fault):
    """The words of the command, or the settings, are none."""

    status = 2


class NoAnswer(Fault):
    """No answer came in the time that was given, or the front did not let it pass."""

    status = 3


class Held(NoAnswer):
    """The front lets nothing of this login but looks through, today."""


class SessionLost(Refused):
    """The room and the state file do not know the same session."""

    status = 4


class LocalFault(Fault):
    """A file on this machine cannot be read or written, or another process has it."""

    status = 5


class NotWhole(Fault):
    """A large file is damaged: nothing of it is given out."""

    status = 6


class OtherVersion(Fault):
    """Somebody else's version of a file came first, and stands."""

    status = 7


@contextlib.contextmanager
def reading(path: str) -> Iterator[None]:
    """What fails on a file here is a fault of that file."""
    try:
        yield
    except OSError as fault:
        raise LocalFault(f"{shown(path)}: {fault.strerror}") from None


def refusal_line(reply: dict, command: dict, why: str | None = None) -> str:
    code, name = reply["code"], reply.get("error", "?")
    path = command.get("to" if name == "EXIST" else "path", command.get("path"))
    place = f" at {shown(path)}" if path else ""
    if why:
        return f"{name} ({code}){place}: {why}"
    if code == ACCESS:
        kind = FILE if command.get("cmd") in ("READ", "WRITE", "APPEND") else FOLDER
        path, right = shown(reply["path"]), "/".join(right_words(reply["bit"], kind))
        return f"ACCESS (5) at {path}: you lack the right {right}: ask its owner, or anyone who may set its list"
    cause, remedy = REFUSALS.get(code, ("the client does not know this refusal", "docs/CODES.md"))
    return f"{name} ({code}){place}: {cause}: {remedy}"


def refused(reply: dict, command: dict | None = None) -> Refused:
    kind = SessionLost if reply["code"] in SESSION_CODES else Refused
    return kind(reply, command)


def refused_as(fault: Refused, *names: str) -> bool:
    return fault.reply.get("error") in names


def overtaken(path: str, more: str = "") -> str:
    return (f"{shown(path)}: somebody else wrote another version meanwhile, or removed it, and what they did "
            f"stands{more}: look at it, and put yours again where it is to take its place")
