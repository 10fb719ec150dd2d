"""The words of `room`, and what each does."""
import argparse
import contextlib
import errno
import json
import os
import sys
from collections.abc import Callable
from dataclasses import asdict

from . import acl, completing, documents, editing, owners, report, who
from .documents import need_path
from .faults import BadWords, Fault, LocalFault
from .files import need_size
from .line import Line
from .local import need_file, read_local
from .manifest import MOST
from .room import MOST_BYTES, Room, say
from .settings import Settings, find_settings
from .showing import Told, show, write_bytes
from .slots import told
from .state import State
from .sync import sync
from .version import version

OF_OUTPUT = errno.ENOSPC, errno.EDQUOT, errno.EFBIG, errno.EIO, errno.EBADF
STOPPED = 130  # the exit status after a stop at the keyboard, as of a shell

ABOUT = """\
Folders and documents of a room, kept by a fileroom server.

  room ls -l /plans                   what is in a folder
  room put lake.jpg tea.jpg /photos/  makes files of up to 16 MiB, or new versions of them
  room get /plans/notes               writes a file to standard output
  room sync photos room:/photos       makes one folder the same as another
  room acl /plans                     its access list in words; room acl --help teaches them
  room who /plans                     who may do what with it

Each command acts once: a request without an answer is sent again, even by the next command if this one is killed.
A path begins with /. Quote names with blanks or other special characters: room rm '/plans/my notes'.
"""

SETTINGS = """\
The room's address is in a file of settings, ~/.config/room or --config FILE:

  url = "http://127.0.0.1:8080/rooms/plans"    the front's address of the room
  login = "ann"                                who asks; the front wants a password
  password-file = "~/.config/room-password"    its first line; only you may read it (without it you are asked)
  ca-file = "~/.config/room-ca.pem"            if the front's certificate is from your own authority

Or, on the room's own machine, ask its port directly: url = "http://127.0.0.1:8001" and room-user = "ann".
A flag overrides the environment (ROOM_URL, ROOM_LOGIN, ROOM_PASSWORD_FILE, ROOM_CA_FILE, ROOM_USER, ROOM_STATE,
ROOM_PATIENCE, ROOM_CONFIG), which overrides the file.

Exit status: 0 done; 1 the room refused it; 2 wrong usage or settings; 3 no answer in time, or a wrong login;
4 the session is lost; 5 a file on this machine; 6 a file of the room is damaged; 7 somebody else's version came first;
130 interrupted. An error is one line on standard error.
"""

def who_may(room: Room, asked) -> None:
    roster = who.read_roster(asked.roster) if asked.roster else None
    groups = None if roster else who.roster_of_front(room)
    rows = who.who(room, need_path(asked.path), roster, groups)
    lines = [*who.who_lines(rows), *([] if roster or groups else [who.WITHOUT_GROUPS])]
    show(asked, [asdict(it) for it in rows], "\n".join(lines))


def session(asked, settings: Settings) -> None:
    if asked.action == "finish":
        with Room(settings) as room:
            if not room.was_pending:
                print("nothing was pending")
    elif asked.action == "close":
        with Room(settings) as room:
            room.close_session()
        print("closed; the next command begins another")
    else:
        state = State(settings.state_path, settings.url, settings.user, settings.patience)
        with contextlib.closing(state):
            show_session(state, asked.action == "new")


def show_session(state: State, is_new: bool) -> None:
    its = state.session
    pending = ", ".join(told(json.loads(state.kept[slot].pending)) for slot in state.pending()) or "nothing"
    if is_new:
        is_known = not state.pending()
        state.begin_anew()
        print("begun anew" + ("" if is_known else f"; whether this was done is not known, look: {pending}"))
        return
    is_open = "open" if its.is_open else "not open yet"
    numbers = ",".join(str(it.number) for it in state.kept)
    print(f"{its.user} at {its.url}\nfile {state.path}\nsession {its.name}, {is_open}, last numbers {numbers}\n"
          f"pending: {pending}")


def make_report(asked) -> None:
    rights = report.whole_files(report.read_report(read_local(asked.file)))
    text = report.as_html(rights) if asked.html else "\ufeff" + report.as_csv(rights)
    write_bytes(text.encode())


SYNC = """\
One of FROM and TO is a folder of the room, written as room:/PATH, the other one of this machine. Files are copied if
their size or checksum differs. Without --delete nothing is removed; with it, things go into your trash if you have one.
Links are not followed.

  room sync photos room:/photos
  room sync --delete --dry-run room:/photos photos
"""


def add_settings(parser: argparse.ArgumentParser) -> None:
    parser.add_argument("--config", metavar="FILE", help="instead of ~/.config/room")
    parser.add_argument("--url", help="of the room, by the front or by its port")
    parser.add_argument("--login", metavar="NAME", help="through a front that asks for a password")
    parser.add_argument("--password-file", metavar="FILE", help="its first line is the password")
    parser.add_argument("--ca-file", metavar="FILE", help="certificates (PEM) to trust for https:, such as your own")
    parser.add_argument("--room-user", metavar="NAME", help="asks the room's port directly, on its own machine")
    parser.add_argument("--state", metavar="FILE", help="where the session is kept (else in ~/.local/state/room)")
    parser.add_argument("--patience", metavar="SECONDS", help="how long it keeps sending (60)")


# (they print no reply of the room's)
WITHOUT_REPLY = (make_report, session, sync, editing.edit, documents.find, documents.trash_can, documents.get,
                 documents.cat, documents.tree, documents.du)


class OneLine(argparse.ArgumentParser):
    """Words that are none are one line too."""

    def error(self, message: str):
        self.exit(BadWords.status, f"room: {message}: {self.prog} --help\n")


def add_command(commands, name: str, does: Callable, about: str, *arguments: tuple, more: str = "",
                usage: str | None = None) -> None:
    raw, line = argparse.RawDescriptionHelpFormatter, usage and f"room {name} {usage}"
    parser = commands.add_parser(name, help=about, description=about, epilog=more, formatter_class=raw, usage=line)
    for word, how in arguments:
        parser.add_argument(word, **how)
    if does not in WITHOUT_REPLY:
        parser.add_argument("--json", action="store_true", help="print the server's JSON reply")
    parser.set_defaults(does=does)


def parser() -> argparse.ArgumentParser:
    raw = argparse.RawDescriptionHelpFormatter
    whole = OneLine(prog="room", description=ABOUT, epilog=SETTINGS, formatter_class=raw)
    whole.add_argument("--version", action="version", version=f"room {version()}")
    add_settings(whole)
    commands = whole.add_subparsers(metavar="COMMAND", required=True)
    add_contents(commands)
    add_moves(commands)
    add_rights(commands)
    add_command(commands, "session", session, "what is kept between commands, and what is pending",
                ("action", {"nargs": "?", "default": "show", "choices": ["show", "finish", "new", "close"]}),
                more="finish: sends what is pending. new: forgets it, and begins another session.\nclose: ends it.")
    return whole


PATH = ("path", {"metavar": "PATH"})
TOP = ("path", {"metavar": "PATH", "nargs": "?", "default": "/"})
PATHS = {"metavar": "PATH", "nargs": "+"}
BELOW = ("-r", {"action": "store_true", "dest": "recursive", "help": "folders, with all that is in them"})


def add_contents(commands) -> None:
    """What is there, and what is in it."""
    add_command(commands, "ls", documents.ls, "what is in a folder",
                TOP, ("-l", {"action": "store_true", "dest": "long", "help": "with sizes, owners and groups"}),
                ("-R", {"action": "store_true", "dest": "recursive", "help": "folder by folder, all below it"}))
    add_command(commands, "tree", documents.tree, "all that is below a folder", TOP)
    add_command(commands, "du", documents.du, "the size in bytes of what is in a folder", TOP)
    add_command(commands, "cat", documents.cat, "files of the room to standard output", ("paths", PATHS))
    add_command(commands, "get", documents.get, "files of the room, to a file, a folder or standard output",
                ("paths", {"metavar": "PATH", "nargs": "+", "help": "followed by a local file or folder"}), BELOW,
                usage="[-h] [-r] PATH.. [FILE]")
    add_command(commands, "put", documents.put, "makes files, or new versions of them (at most 16 MiB each)",
                ("names", {"metavar": "FILE", "nargs": "+",
                           "help": "local files, or - for standard input, followed by a path of the room; "
                                   "with / at its end: a folder, and the name stays"}),
                ("--new", {"action": "store_true", "help": "one file: refuse it if something is there"}), BELOW,
                usage="[-h] [--new] [-r] [--json] FILE.. PATH")
    add_command(commands, "edit", editing.edit, "opens a file in VISUAL or EDITOR, and puts it back", PATH)
    add_command(commands, "append", documents.append, "adds bytes at the end of a document of at most 65,536",
                ("file", {"metavar": "FILE", "help": "a local file, or - for standard input"}), PATH,
                ("--line", {"action": "store_true", "help": "as lines of their own, with missing line ends added"}))
    add_command(commands, "mkdir", documents.mkdir, "makes a folder", PATH)
    add_command(commands, "stat", documents.stat, "kind, size, owner and group", PATH)
    add_command(commands, "find", documents.find, "finds names in a folder and below it", PATH,
                ("pattern", {"metavar": "NAME", "help": "a part of the name, or a pattern with * ? [..]"}))


def add_moves(commands) -> None:
    """Where it is."""
    add_command(commands, "rm", documents.rm, "moves files and empty folders to the trash, if you have one; else "
                "removes them", ("paths", PATHS), BELOW,
                ("--for-good", {"action": "store_true", "help": "remove them, even if there is a trash"}))
    add_command(commands, "mv", documents.mv, "renames or moves",
                ("paths", PATHS | {"help": "followed by where to"}), usage="[-h] [--json] PATH.. TO")
    add_command(commands, "cp", documents.cp, "copies within the room; a copy has its new folder's list",
                ("paths", PATHS | {"help": "followed by where to"}), BELOW, usage="[-h] [-r] [--json] PATH.. TO")
    add_command(commands, "sync", sync, "makes one folder the same as another, one way",
                ("source", {"metavar": "FROM"}), ("to", {"metavar": "TO"}),
                ("--delete", {"action": "store_true", "help": "remove what FROM does not have"}),
                ("--dry-run", {"action": "store_true", "help": "show what it would do"}), more=SYNC)
    add_command(commands, "trash", documents.trash_can, "what is in your trash, and where it was",
                ("action", {"nargs": "?", "choices": ["list", "empty", "restore"], "default": "list"}),
                ("names", {"nargs": "*", "metavar": "NAME [TO]"}),
                more="empty: removes everything for good. restore: moves NAME back to its place, or to TO; NAME is "
                     "its old name, or the one in /trash/USER.")


def add_rights(commands) -> None:
    """Who may do what with it."""
    add_command(commands, "acl", acl.acl, "shows or sets an access list in words", PATH,
                ("action", {"nargs": "?", "choices": ["set", "add", "drop", "flags", "give"], "metavar": "ACTION"}),
                ("words", {"nargs": "*", "metavar": "WORDS"}), more=acl.ACL)
    add_command(commands, "chown", owners.chown, "sets owner and group",
                ("owner", {"metavar": "OWNER:GROUP", "help": "put -- before a value that begins with -"}), PATH,
                ("-r", {"action": "store_true", "dest": "recursive", "help": "a folder, with all that is in it"}),
                ("--from", {"metavar": "USER", "dest": "giver", "help": "with -r: only what USER owns"}))
    add_command(commands, "who", who_may, "who may do what, as the room decides for each name", PATH,
                ("--roster", {"metavar": "FILE", "help": "for each user in it; else for the names in the list"}))
    add_command(commands, "report", make_report, "an access report as a table or a page, to standard output",
                ("file", {"metavar": "FILE", "nargs": "?", "default": "-",
                          "help": "what fileroom report DB ROSTER access wrote, or standard input"}),
                ("--csv", {"action": "store_true", "help": "for a spreadsheet (without --html)"}),
                ("--html", {"action": "store_true", "help": "a page with users and objects as a matrix"}))


def read_words(asked: argparse.Namespace) -> None:
    """What is on this machine, and no more of it than it takes to see that it is too large."""
    if asked.does is acl.acl:
        acl.read_given(asked)
    elif asked.does is documents.append:
        asked.data = read_local(asked.file, MOST_BYTES + 1)
    elif asked.does is documents.put:
        if len(asked.names) < 2:
            raise BadWords("give one FILE or more, and behind them a path of the room")
        if not asked.recursive and len(asked.names) == 2:
            asked.data = read_local(need_file(asked.names[0]), MOST + 1)
            need_size(asked.data, asked.names[1])
        elif asked.new:
            raise BadWords("--new is for one file")
    elif asked.does in (documents.mv, documents.cp) and len(asked.paths) < 2:
        raise BadWords("give one PATH or more, and behind them where to")


def run(asked: argparse.Namespace) -> None:
    if asked.does is make_report:
        return make_report(asked)
    # What comes from here is read first: neither the state file nor a connection waits for somebody who types.
    read_words(asked)
    settings = find_settings(vars(asked), asked.config)
    if asked.does in (session, editing.edit):
        return asked.does(asked, settings)
    Line(settings)  # (a bad ca-file is told before a file is made)
    with Room(settings) as room:
        asked.does(room, asked)


def told_of(fault: OSError) -> str:
    """(Of what has no name, these are of the output alone.)"""
    of = fault.filename or ("standard output" if fault.errno in OF_OUTPUT else None)
    return f"{of}: {fault.strerror}" if of else fault.strerror or str(fault)


def main(arguments: list[str]) -> int:
    for stream in (sys.stdout, sys.stderr):
        stream.reconfigure(errors="backslashreplace")
    if "ROOM_COMPLETE" in os.environ:
        flags = argparse.ArgumentParser(add_help=False, exit_on_error=False)
        add_settings(flags)
        return completing.complete(parser(), flags, arguments, os.environ["ROOM_COMPLETE"])
    asked = parser().parse_args(arguments)
    try:
        run(asked)
    except Told as fault:
        return fault.status
    except Fault as fault:
        say(str(fault))
        return fault.status
    except OSError as fault:  # (of files by name a LocalFault tells)
        os.dup2(os.open(os.devnull, os.O_WRONLY), sys.stdout.fileno())
        if not isinstance(fault, BrokenPipeError):
            say(told_of(fault))
        return LocalFault.status
    except KeyboardInterrupt:
        return STOPPED
    return 0
