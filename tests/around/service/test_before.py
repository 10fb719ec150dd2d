"""`fileroom-admin log` tells a list as it was before a change of it: by the log, or by the backup before, and never
what may be wrong."""
import datetime
import os

import pytest
from given import each

from .test_changes import log_of

ALL = 0x1F07FF
DAY = datetime.timedelta(days=1)
BEGIN = datetime.datetime(2026, 11, 20, 9, tzinfo=datetime.timezone.utc)
WORDS = {"all": ALL, "view": 0x1200A9, "none": 0}


def allow(who, rights, flag=0):
    return {"type": 0, "flag": flag, "mask": WORDS[rights], "who": who}


def body(words):
    """`SETLIST /a bob` gives bob all there; others are as they are typed."""
    cmd, path, *more = words.split()
    if cmd == "SETLIST":
        return {"cmd": cmd, "path": path, "aclflag": 0, "entries": [allow(more[0], "all")] if more else []}
    return {"cmd": cmd, "path": path, **({"to": more[0]} if more else {})}


def line(at, words, **more):
    """A day after the one before."""
    return {"time": (BEGIN + at * DAY).isoformat(), "slot": at, "body": body(words), **more}


def before(machine, path, *words):
    """What is told behind each change of the list at a path."""
    status, said, faults = machine.does("log", "plans", "--path", path, *words)
    assert (status, faults) == (0, "")
    return [it.rpartition("  (before: ")[2].removesuffix(")") for it in said.splitlines() if "  SETLIST " in it]


@each("lines, told", [
    ("two lists", ["SETLIST /a bob", "SETLIST /a kim"], ["not known", "allow bob all"]),
    ("one after it was made", ["CREATE /a", "SETLIST /a kim"], ["an empty list"]),
    ("an empty one", ["SETLIST /a", "SETLIST /a kim"], ["not known", "an empty list"]),
    ("moved here since", ["SETLIST /a bob", "RENAME /b /a", "SETLIST /a kim"], ["not known", "not known"]),
    ("a folder above was moved", ["SETLIST /d/a bob", "RENAME /d /e", "RENAME /f /d", "SETLIST /d/a kim"],
     ["not known", "not known"]),
    ("another thing was moved", ["SETLIST /a bob", "RENAME /b /aa", "SETLIST /a kim"], ["not known", "allow bob all"]),
    ("removed and made again", ["SETLIST /a bob", "REMOVE /a", "CREATE /a", "SETLIST /a kim"],
     ["not known", "an empty list"])])
def test_by_the_log(machine, lines, told):
    log_of(machine.root, [line(at, it) for at, it in enumerate(lines)])
    path = lines[-1].split()[1]
    assert before(machine, path) == told


REFUSED, NO_ANSWER = {"status": "409", "length": "36"}, {"status": "502", "length": "-"}


@each("outcome, told", [("refused", REFUSED, "allow bob all"), ("no answer", NO_ANSWER, "not known")])
def test_what_did_not_act_or_may_not_have(machine, outcome, told):
    log_of(machine.root, [line(0, "SETLIST /a bob"), line(1, "SETLIST /a eve", **outcome), line(2, "SETLIST /a kim")])
    assert before(machine, "/a")[-1] == told
    assert [it for it in machine.does("log", "plans")[1].splitlines() if "refused" in it and "before" in it] == []


@pytest.fixture
def backed(machine, plans):
    """A backup of the third day, in which kim may do all at /a and at /d/a."""
    plans.holds("ann", "MKDIR", "/d")
    for path in "/a", "/d/a":
        plans.holds("ann", "CREATE", path, data="")
        entries = [allow("kim", "all")]
        assert plans.holds("ann", "SETLIST", path, aclflag=1, entries=entries)["code"] == 0
    plans.room.kill()
    made = machine.backed_up()
    name = (BEGIN + 2.5 * DAY).strftime("%Y-%m-%dT%H-%M-%SZ")
    os.rename(made, os.path.join(os.path.dirname(made), name))
    return machine


@each("lines, path, told", [
    ("a change after it", ["MKDIR /x", "MKDIR /y", "MKDIR /z", "SETLIST /a bob"], "/a", ["allow kim all"]),
    ("one before it", ["MKDIR /x", "SETLIST /a bob", "MKDIR /z"], "/a", ["not known"]),
    ("a log that begins after it", [None, None, None, "MKDIR /z", "SETLIST /a bob"], "/a", ["not known"]),
    ("moved since", ["MKDIR /x", None, None, "RENAME /b /a", "SETLIST /a bob"], "/a", ["not known"]),
    ("moved before it", ["MKDIR /x", "RENAME /b /a", None, "SETLIST /a bob"], "/a", ["allow kim all"]),
    ("a folder above moved since", ["MKDIR /x", None, None, "RENAME /e /d", "SETLIST /d/a bob"], "/d/a", ["not known"]),
    ("no such path there", ["MKDIR /x", None, None, "SETLIST /c bob"], "/c", ["not known"])])
def test_by_a_backup(backed, lines, path, told):
    log_of(backed.root, [line(at, it) for at, it in enumerate(lines) if it])
    assert before(backed, path) == told


def test_what_came_before_a_time_counts(backed):
    """Told is what was done since, and looked at all since the backup before."""
    log_of(backed.root, [line(at, it) for at, it in enumerate(["MKDIR /x", "MKDIR /y", "MKDIR /z", "SETLIST /a bob",
                                                              "SETLIST /a eve"])])
    assert before(backed, "/a", "--since", (BEGIN + 3.5 * DAY).isoformat()) == ["allow bob all"]
    assert before(backed, "/a", "--since", (BEGIN + 2.7 * DAY).isoformat()) == ["allow kim all", "allow bob all"]


def test_after_many_paths_an_earlier_list_is_not_known(machine):
    log_of(machine.root, [line(0, "SETLIST /a bob"), *(line(1, f"CREATE /{it}", slot=f"f{it}") for it in range(5001)),
                          line(2, "SETLIST /a kim")])
    assert before(machine, "/a") == ["not known", "not known"]
