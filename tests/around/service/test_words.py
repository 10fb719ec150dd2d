"""fileroom-admin's man page has each command and option that there is, and no other."""
import argparse
import itertools
import os
import re

from fileroom_admin import command
from served import text_of

from .contents import SERVICE

OF_FAIL2BAN = {"--at", "--over", "--made"}  # by which its jails call `user hold` and `user release`


def below(parser):
    """The commands of a parser, by their names."""
    return next((it.choices for it in parser._actions if isinstance(it, argparse._SubParsersAction)), {})


def options_of(parser):
    found = {it for one in parser._actions for it in one.option_strings if it.startswith("--")}
    return found - {"--help"} - OF_FAIL2BAN


def told(line, commands):
    """The commands of a line of the synopsis. (Those of a group that share their arguments stand in one.)"""
    first, *others = re.split(r"[\s|]+", line.partition("fileroom-admin ")[2])
    names = itertools.takewhile(lambda it: it == first or it in below(commands[first]), others)
    return [f"{first} {it}" for it in names if it != first] or [first]


def test_synopsis():
    page = text_of(os.path.join(SERVICE, "fileroom-admin.1")).replace("\\-", "-")
    commands, found = below(command.parser()), {}
    for entry in page.partition(".SH SYNOPSIS\n")[2].partition(".SH")[0].split(".br\n"):
        line = re.sub(r"(?m)^\.[BIR]+ |\\f.", "", entry)
        for it in told(line, commands):
            found.setdefault(it, set()).update(re.findall(r"--[a-z-]+", line))
    groups = {name: below(it) or {"": it} for name, it in commands.items()}
    assert found == {f"{name} {it}".strip(): options_of(one) for name, its in groups.items() for it, one in its.items()}
