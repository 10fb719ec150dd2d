"""What a shell completes: a line for each word that may stand there and begins as ROOM_COMPLETE does, by the parser
itself; and paths of the room. The status FILES says that a file of this machine may stand there too. For paths nobody
is asked for a password, nothing is told, and what is pending stays for the next command."""
import argparse
import contextlib
import re

from .faults import Fault
from .manifest import is_hidden
from .reading import large_among
from .room import Room
from .settings import Settings, find_settings
from .state import State
from .sync import MARK
from .trees import join
from .words import FOLDER, shown

FILES = 10
PATIENCE = 2.0  # seconds
MOST = 50  # folders of which it is asked whether they are large files
# what arguments are called that are a path of the room, and those that are a file of this machine
OF_ROOM, HERE = {"PATH", "FROM", "TO"}, {"FILE", "FROM"}
NOT_OFFERED = "-h"


def complete(whole: argparse.ArgumentParser, flags: argparse.ArgumentParser, before: list[str], begin: str) -> int:
    """`flags` reads the settings that stand among the words before."""
    parser, option = place(whole, before)
    names = {option.metavar} if option else names_of(parser)
    found = [it for it in (option.choices or [] if option else words_of(parser, names)) if it.startswith(begin)]
    if begin.startswith("/") and not option and names & OF_ROOM:
        with contextlib.suppress(Fault, argparse.ArgumentError):
            found += paths_of_room(flags.parse_known_args(before)[0], begin)
    print("".join(f"{it}\n" for it in found), end="", flush=True)
    return FILES if names & HERE else 0


def place(whole: argparse.ArgumentParser, before: list[str]):
    """Whose words stand behind these, and the option whose value does, where one waits for it."""
    parser, option = whole, None
    for word in before:
        known = parser._option_string_actions if parser else {}
        if option:
            option = None
        elif word in known:
            option = known[word] if known[word].nargs is None else None
        elif parser is whole:
            parser = commands_of(whole).get(word)
    return parser, option


def commands_of(parser: argparse.ArgumentParser) -> dict:
    return next((it.choices for it in parser._actions if isinstance(it, argparse._SubParsersAction)), {})


def names_of(parser: argparse.ArgumentParser | None) -> set[str]:
    """What its arguments are called."""
    arguments = [str(it.metavar) for it in parser._actions if not it.option_strings] if parser else []
    return {*re.findall("[A-Z]+", " ".join([*arguments, parser.usage or ""] if parser else []))}


def words_of(parser: argparse.ArgumentParser | None, names: set[str]) -> list[str]:
    """Its commands, choices and options, and what begins a path of the room where one of this machine may stand."""
    actions = parser._actions if parser else []
    words = [word for it in actions if not it.option_strings for word in it.choices or []]
    words += [f"{MARK}/"] if "FROM" in names else []
    return words + [it for one in actions for it in one.option_strings if it != NOT_OFFERED]


def paths_of_room(asked: argparse.Namespace, begin: str) -> list[str]:
    settings = find_settings(vars(asked) | {"patience": PATIENCE}, asked.config)
    if settings.login and not settings.password_file or is_pending(settings):
        return []
    with Room(settings, lambda _: None) as room:
        return paths(room, begin)


def is_pending(settings: Settings) -> bool:
    with contextlib.closing(State(settings.state_path, settings.url, settings.user, PATIENCE)) as state:
        return bool(state.pending())


def paths(room: Room, prefix: str) -> list[str]:
    above, _, begin = prefix.rpartition("/")
    names = {name: kind for name, kind in room.children(above or "/").items()
             if name.startswith(begin) and not is_hidden(name) and shown(name) == name}
    folders = [name for name, kind in names.items() if kind == FOLDER]
    large = large_among(room, [join(above, it) for it in folders[:MOST]])
    return [f"{above}/{name}" + "/" * (kind == FOLDER and join(above, name) not in large)
            for name, kind in names.items()]
