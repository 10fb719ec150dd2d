"""Refuses each growth of memory in turn: of the program over questions (`check`) and over a room (`replay`), and of the
player of examples in its ways `run` and `run_tables`.

With one growth refused each answer is as it should be, or one of them is DELAY. Where a request of the room was
answered DELAY its repeat acts, and the answers behind it show that it acted once. Where not even the buffers could be
made, nothing is written, and the fault is `no memory`. The last run of each stream refuses nothing, and no answer of it
is DELAY. Of the player, each request is a run of its own, which is run once more where it has no memory for its
answers, or answers DELAY: then it acts, and had not before, since no reply is kept by which it would be told so. A
library that stands before the C library refuses. test_growth_in_examples.py plays the examples so.
"""
import collections
import itertools
import json
import os
import re
import subprocess

import pytest
from given import each
from players import proved
from refusing import Refusals
from scenes import WAYS
from served import HERE, SID, answers, bytes_of, end_with_parent, message, run, session, slot, whole

ENTRY = {"flag": 3, "mask": 2033663, "type": 0, "who": "OWNER@"}
COMMANDS = [
    {"cmd": "MKDIR", "path": "/plans"},
    {"cmd": "CREATE", "data": "aGk=", "path": "/plans/a"},
    {"cmd": "APPEND", "data": "IQ==", "path": "/plans/a"},
    {"cmd": "WRITE", "data": "aGkh", "path": "/plans/a"},
    {"cmd": "READ", "path": "/plans/a"},
    {"cmd": "STAT", "path": "/plans/a"},
    {"cmd": "LIST", "path": "/plans"},
    {"aclflag": 1, "cmd": "SETLIST", "entries": [ENTRY], "path": "/plans"},
    {"cmd": "GETLIST", "path": "/plans/a"},
    {"cmd": "ACCESS", "mask": 1, "path": "/plans/a"},
    {"cmd": "MKDIR", "path": "/old"},
    {"cmd": "RENAME", "path": "/plans/a", "to": "/old/b"},
    {"cmd": "CHOWN", "group": "staff", "owner": "ann", "path": "/old/b"},
    {"cmd": "APPEND", "data": "IQ==", "path": "/old/b"},
    {"cmd": "REMOVE", "path": "/old/b"},
    {"cmd": "LIST", "path": "/"},
]
HANDED_DOWN = (b'{"code":0,"entries":[{"flag":137,"mask":1,"type":0,"who":"ann"},'
               b'{"flag":128,"mask":2,"type":0,"who":"ann"}]}')
DELAY = whole(b'{"code":30,"error":"DELAY"}', 503)
NO_ANSWERS, NO_EVENT = "no memory for the answers", "no memory for an event"  # (each is run once more)
# what the player says where memory is refused to itself, before a run or after it
OWN_TELLS = {"out of memory", "no roster", "a room that was not made", "lists that were not read"}
RUN_TELLS = {NO_ANSWERS, NO_EVENT, "as due", "ended", *OWN_TELLS}


@pytest.fixture
def refuse(library, tmp_path):
    return Refusals(library, str(tmp_path / "page"))


def roster_of(folder):
    path = folder / "roster.toml"
    path.write_text('[users]\nann = ["eng"]\n')
    return path


# The program

def pieces(written):
    """Each answer, and what is left over."""
    found = [it.whole for it in answers(written)]
    rest = written[len(b"".join(found)) :]
    return found + [rest] * bool(rest)


def told(words, stream, refuse):
    """The status, the answers and the faults."""
    status, written, faults = run(*words, stdin=stream, env=refuse.env)
    return status, pieces(written), faults


def kind_of(number, status, found, faults, want):
    """What came of a growth that was refused."""
    if (status, found, faults) == (1, [], b"fileroom: no memory\n"):
        return "before any answer"
    late = [at for at, answer in enumerate(found) if answer == DELAY]
    others = [answer for at, answer in enumerate(want) if at not in late]
    assert (status, faults, [it for it in found if it != DELAY]) == (0, b"", others), f"growth {number}"
    assert len(late) <= 1, f"growth {number}"
    return "answered DELAY" if late else "as due"


def each_growth(refuse, words, stream, want):
    """Refuses each growth of this run in turn, and says what came of them. `want` is the answers that are due."""
    refuse.arm(0)
    assert told(words, stream, refuse) == (0, want, b"")
    counts = collections.Counter()
    for number in itertools.count(1):
        refuse.arm(number)
        got = told(words, stream, refuse)
        if not refuse.refused():
            break
        counts[kind_of(number, *got, want)] += 1
    assert got == (0, want, b"")
    assert counts["answered DELAY"]
    return f"{number - 1} growths refused in turn, {dict(counts)}"


def text(path):
    return bytes_of(os.path.join(HERE, "..", path))


@each("asked, due", [
    ("one question", text("crates/fileroom/stdin"), text("crates/fileroom/stdout")),
    ("three entries handed down", text("examples/handed_to_a_folder.http"), whole(HANDED_DOWN))])
def test_questions(refuse, tell, asked, due):
    tell(f"growth: a question: {each_growth(refuse, ['check'], asked * 2, [due] * 2)}")


def test_a_room(refuse, tmp_path, tell):
    """Every command once, and each request twice."""
    words = "replay", roster_of(tmp_path), "ann", "eng"
    messages = [session(1)] + [slot(0, n, command) for n, command in enumerate(COMMANDS, 1)]
    messages += [message("ann", "DELETE", f"/v1/sessions/{SID}")]
    stream = b"".join(2 * one for one in messages)
    want = pieces(run(*words, stdin=stream)[1])
    assert (len(want), [it for it in want if b'"error"' in it]) == (2 * len(messages), [])
    tell(f"growth: a room: {each_growth(refuse, words, stream, want)}")


# The player

def scene(way, folder):
    """A scene of every command, with what each is answered with all its memory, each a run of its own in that way
    alone. No reply is kept."""
    stream = session() + b"".join(slot(0, n, command) for n, command in enumerate(COMMANDS, 1))
    dues = [it.body.decode() for it in answers(run("replay", roster_of(folder), "ann", "eng", stdin=stream)[1])][1:]
    lines = [f"== runs not {' '.join(sorted(WAYS - {way}))}", 'ann S open {"slots":3}', '  {"code":0,"slots":3}']
    for number, (command, due) in enumerate(zip(COMMANDS, dues), 1):
        asked = json.dumps({**command, "keep": False}, separators=(",", ":"))
        lines += ["reopen", f"ann S 0/{number} {asked}", f"  {due}"]
    return "\n".join([*lines, ""])


def told_of(file, refuse):
    """The status of the player, and what it tells of lines of the file."""
    how = {"env": refuse.env, "stdout": subprocess.PIPE, "stderr": subprocess.DEVNULL, "text": True, "timeout": 60}
    done = subprocess.run([proved(), file], preexec_fn=end_with_parent, **how)
    return done.returncode, re.findall(rf"^{re.escape(str(file))}:[0-9]+: (.*)$", done.stdout, re.M)


@pytest.mark.timeout(1_500)  # (of the second some 15,000 runs)
@pytest.mark.parametrize("way", ["run", "run_tables"])
def test_the_player(refuse, tmp_path, tell, way):
    file = tmp_path / f"{way}.txt"
    file.write_text(scene(way, tmp_path))
    refuse.arm(0)
    assert told_of(file, refuse) == (0, [])
    counts = collections.Counter()
    for number in itertools.count(1):
        refuse.arm(number)
        status, lines = told_of(file, refuse)
        if not refuse.refused():
            break
        kind = lines[0].removeprefix(f"{way}: ") if lines else "as due" if status == 0 else "ended"
        assert len(lines) <= 1 and kind in RUN_TELLS, f"growth {number}: {status} {lines}"
        counts[kind] += 1
    assert (status, lines) == (0, [])
    assert counts[NO_ANSWERS] == len(COMMANDS) + 1
    assert counts[NO_EVENT]
    tell(f"growth: {way}: {number - 1} growths refused in turn, {dict(counts)}")
