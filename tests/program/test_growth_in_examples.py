"""Plays the examples of crates/test_examples/data with each growth of memory refused in turn.

Each request of a scene is sent with its first growth refused, then with its second, and so on, until none is: each time
it is answered DELAY, or as in the example, and at the end as in the example; then the next request comes. So one run of
the program shows each growth of each request in the state in which it comes. Over memory (`replay`) and over tables
(`serve`), beside each other; over tables the rows at the end are those of a run that nothing was refused, in which no
answer was DELAY. (Where a store shut, the request may have been run: one with `keep` false is then told that.) A growth
of a report that is refused ends it with `no memory`, after a beginning of the report.

EVERY: each how manieth growth of a request is refused, from a number that SEED chooses; 1 for all. Unless it is 1, a
report has OF_A_REPORT of its growths refused, and of a request that is sent many times only the first and last are
tried. Of the scenes in ALL each growth is refused, whatever EVERY says. What a scene comes after is played with all its
memory: it is tried in its own place. A scene in memory ends where its stream would. What a try has read and prepared,
the next needs not again, so a scene is played up to MOST_PLAYS times, each from where the growths were not yet refused;
both counts are told, those refused and those of a play in which none was.
"""
import collections
import concurrent.futures
import contextlib
import os
import random
import socket
import sqlite3
import time

import pytest
import scenes
from given import number
from parts import Process
from players import BAD_HTTP, each_scene
from refusing import Refusals
from served import ROSTER, WAIT, Line, PlayedRoom, put_file, run, start_program, until, whole

EVERY, SEED = number("EVERY", 97), number("SEED", 1)
DELAY = [whole(b'{"code":30,"error":"DELAY"}', 503, last) for last in (False, True)]
UNCACHED = whole(b'{"code":25,"error":"RETRY_UNCACHED"}', 409)
NO_MEMORY = b"fileroom: no memory\n"
MOST_PLAYS = 2, 12  # of a scene with growths refused, where some are and where all are
ENDS = 2  # of a request that is sent many times, the first and the last are tried so, unless EVERY is 1
OF_A_REPORT = 40  # growths that are refused, a process each, unless EVERY is 1
MOST = 100000  # growths that any request may take
ALL = set("""
    inherit_only three_entries_handed_down open_and_make_a_folder append_acts_once false_retry misordered_numbers
    repeated_read_is_the_kept_one refusal_is_kept either_right_removes lists_follow_their_folder largest_document
    closed_for_good taken_session
""".split())
pytestmark = [pytest.mark.timeout(1200 if EVERY > 1 else 7200), pytest.mark.usefixtures("alone")]


class Piped(Line):
    """The standard input and output of a program."""

    def __init__(self, ours):
        ours.settimeout(WAIT)
        self.socket, self.rest = ours, b""


class InMemory:
    """A room of `replay`. It ends with its stream."""
    ways = {"memory", "stream"}

    def __init__(self, folder, refusals):
        self.env, self.line = refusals.env, None
        self.roster = os.path.join(folder, "roster.toml")
        put_file(self.roster, ROSTER)

    def reads(self, refusals):
        """Whether the program waits for its input."""
        came = refusals.came()
        time.sleep(0.002)
        return came and came == refusals.came() and Process(self.child.pid).state == "S"

    def ready(self, refusals):
        """Waits until the program reads: what it grows by before is no request's."""
        if self.line:
            return
        ours, its = socket.socketpair()
        with its:
            self.child = start_program("replay", self.roster, "ann", "eng", stdin=its, stdout=its, env=self.env)
        self.line = Piped(ours)
        assert until(lambda: self.reads(refusals), pause=0), "replay reads nothing, or its growths cannot be refused"

    def connected(self):
        """Its line is there before the first message."""
        return True

    def connect(self):
        return self.line

    def hang_up(self):
        raise AssertionError("a room in memory ended")

    def restart(self):
        raise AssertionError("a room in memory answers DELAY for good")

    def reopen(self):
        """There are no files."""

    def end(self):
        if self.line:
            self.line.close()
            self.child.kill()
            self.child.wait()

    def rows(self):
        """It has none to look at; how the program ends."""
        if not self.line:
            return None
        self.line.close()
        return self.child.wait(WAIT)

    def steps(self, scene):
        """Those that it can play, up to the end of its stream; no reports."""
        every = scene.whole()
        ends = (at for at, step in enumerate(every) if isinstance(step, scenes.Next)
                or isinstance(step, scenes.Request) and (step.closes or step.due(0).endswith(BAD_HTTP)))
        return [it for it in every[:next(ends, len(every))] if not isinstance(it, scenes.Report)]


class OverTables(PlayedRoom):
    """A room in a file, and a connection to it."""
    ways = {"sockets"}

    def __init__(self, folder, refusals):
        super().__init__(folder)
        self.env = refusals.env

    def ready(self, refusals):
        if not self.server:
            self.start()

    def connected(self):
        return self.open_line is not None

    reopen = restart = end = PlayedRoom.stop

    def rows(self):
        self.reopen()
        with contextlib.closing(sqlite3.connect(self.db)) as table:
            # (in no order: where no memory is left to read a list by, it is replaced whole, at other places)
            return sorted(table.iterdump())

    def steps(self, scene):
        return scene.whole()


class Play:
    """A scene over one kind of room. `every` is 0 where nothing is refused: in what the scene comes after, too.

    `grew` has how often each request grew in the play in which nothing was refused. `starts` has those whose growths
    are refused from a number on, and None means all from their first. `later` gets where the next play is to start:
    behind a growth that was refused and the request answered all the same; and where a try needed less than at first,
    since the tries before it had read and prepared things that are kept.
    """

    def __init__(self, scene, room, refusals, every, grew, starts=None):
        self.scene, self.room, self.refusals, self.asked, self.every = scene, room, refusals, every, 0
        self.grew, self.starts, self.later, self.counts = grew, starts, {}, collections.Counter()
        self.dice = random.Random(f"{SEED} {scene.name}")

    def first(self, key=None):
        """The number of the growth that is refused first, 0 for none."""
        if not self.every:
            return 0
        return self.dice.randrange(self.every) + 1 if self.starts is None else self.starts.get(key, 0)

    def sent(self, message, is_last):
        """What one message is answered, b"" for nothing, and whether a growth was refused meanwhile."""
        got = None
        with contextlib.suppress(ConnectionError):
            line = self.room.connect()
            line.send(message)
            if is_last:
                line.end()
            got = line.answer()
        if not got or is_last or "connection: close" in got.fields:
            self.room.hang_up()
        return got.whole if got else b"", self.refusals.refused() > 0

    def request(self, step, count, message):
        """Sends a request until it is answered as it should be."""
        due = step.due(count)
        is_last = due.endswith(BAD_HTTP)
        number, shut, opens = self.first((step, count)), 0, not self.room.connected()
        while number < MOST and shut < 3:
            self.refusals.arm(0)
            self.room.ready(self.refusals)
            self.refusals.arm(number)
            got, refused = self.sent(message, is_last)
            self.counts["refused"] += refused
            if shut and got == UNCACHED and b'"keep":false' in message:
                self.counts["run before the store shut, and no reply kept"] += 1
                got = due
            if got == due:
                self.answered((step, count), number, refused)
                return
            if refused and got in (*DELAY, b""):
                self.counts["answered DELAY" if got else "not answered"] += 1
                number += self.every
                if opens:  # (as the first try did, so that it grows as often)
                    self.room.hang_up()
            elif got in DELAY and self.every:
                self.counts["store shut"] += 1
                shut += 1
                self.room.restart()
            else:
                break
        raise AssertionError(f"line {step.line}, growth {number}: {got[-200:]!r} and not {due[-200:]!r}")

    def answered(self, key, number, refused):
        """Notes a request that was answered as it should be, and from which growth on it is still to be tried."""
        came = self.refusals.came()
        if not self.asked:
            self.grew[key] = came
            self.counts["growths"] += came if key[0] in self.scene.steps else 0
        elif refused:
            self.counts["answered all the same"] += 1
            self.later[key] = number + self.every
        elif number > (self.starts or {}).get(key, 0) and number <= self.grew[key]:
            self.later[key] = number

    def report(self, step):
        self.room.reopen()
        number, every, whole_one = self.first(), self.every, (0, step.due, b"")
        if every > 1:
            every = max(every, self.grew[step] // OF_A_REPORT)
        while number < MOST:
            self.refusals.arm(number)
            told = run("report", self.room.db, self.room.roster, step.kind, env=self.refusals.env)
            if not self.refusals.refused():
                break
            self.counts["refused in a report"] += 1
            self.counts["reports whole all the same"] += told == whole_one
            assert told == whole_one or (told[0], told[2], step.due.startswith(told[1])) == (1, NO_MEMORY, True), (
                f"line {step.line}: growth {number} of the report: {told[0]} {told[2]} {told[1][-200:]}")
            number += every
        if not self.asked:
            self.grew[step] = self.refusals.came()
            self.counts["growths of reports"] += self.grew[step] if step in self.scene.steps else 0
        assert told == whole_one, f"line {step.line}"

    def step(self, step, numbers):
        if isinstance(step, scenes.Request):
            every = self.every
            for count in range(step.times):
                self.every = every if every == 1 or not ENDS <= count < step.times - ENDS else 0
                self.request(step, count, step.message(count, numbers))
        elif isinstance(step, scenes.Next):
            self.room.set_next(step.number)
        elif isinstance(step, scenes.Reopen):
            self.room.reopen()
        else:
            self.report(step)

    def play(self):
        """Plays it, and returns the rows at its end."""
        numbers = scenes.Numbers()
        for step in self.room.steps(self.scene):
            self.every = self.asked if step in self.scene.steps else 0
            self.step(step, numbers)
            self.counts["examples"] += step.times if self.every and self.starts is None else 0
        return self.room.rows()


class Plays:
    """The plays of one scene over one kind of room: with all its memory, and then with growths refused."""

    def __init__(self, scene, kind, library, folder):
        self.scene, self.kind, self.folder = scene, kind, os.path.join(folder, kind.__name__)
        os.mkdir(self.folder)
        self.refusals, self.counts = Refusals(library, os.path.join(self.folder, "page")), collections.Counter()
        self.grew, self.every = {}, 1 if scene.name in ALL else EVERY

    def once(self, play, every, starts=None):
        """Plays it in a room of its own: where the next play is to start, and the rows at its end."""
        below = os.path.join(self.folder, str(play))
        os.mkdir(below)
        self.refusals.arm(0)
        play = Play(self.scene, self.kind(below, self.refusals), self.refusals, every, self.grew, starts)
        try:
            rows = play.play()
        finally:
            play.room.end()
        self.counts += play.counts
        return play.later, rows

    def play(self):
        """What it counted."""
        _, due = self.once(0, 0)
        starts = None
        for play in range(1, MOST_PLAYS[self.every == 1] + 1):
            starts, rows = self.once(play, self.every, starts)
            assert rows == due
            if not starts:
                break
        return self.counts


def kinds_of(scene):
    return [it for it in (InMemory, OverTables) if all(scene.is_played(way) for way in it.ways)]


@pytest.fixture(scope="module")
def total(request):
    """What all plays counted."""
    counts = collections.Counter()
    yield counts
    told = ", ".join(f"{counts[it]:,} {it}" for it in sorted(counts) if counts[it])
    request.config.run.told.append(f"growth: examples, each {EVERY}. growth refused, seed {SEED}: {told}")


@each_scene(kinds_of)
def test_growth(library, memory, total, scene):
    with concurrent.futures.ThreadPoolExecutor(2) as pool:
        for it in [pool.submit(Plays(scene, kind, library, memory).play) for kind in kinds_of(scene)]:
            total.update(it.result())
