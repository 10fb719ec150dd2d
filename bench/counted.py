"""A room whose server runs under valgrind's tool callgrind, which counts its instructions.

It needs valgrind. Counts do not move with other work on the machine.
"""
import collections
import contextlib
import os
import re
import signal
import subprocess
import sys
from typing import NamedTuple

import served
from anchored import Anchored
from asked import NO_ROUTE, Slot
from served import PROGRAM, Room, end_with_parent, started_here, work_folder

# (memory is copied by code that valgrind counts as any machine runs it)
COPYING = "glibc.cpu.x86_rep_movsb_threshold=2000000000:glibc.cpu.x86_rep_stosb_threshold=2000000000"
ENVIRONMENT = {**os.environ, "GLIBC_TUNABLES": COPYING}
served.WAIT = 3600  # seconds: a server that is counted is slow, on a loaded machine very much so
NOT_YET = "--instr-atstart=no"  # nothing is counted until `counts` says so
PLACES = "--dump-instr=yes"  # the places of calls are told too
POLLED = "--vgdb-poll=100"  # callgrind looks for what it is told so often that one message is time enough
LIBRARY = "sqlite"  # how the names of the SQL library's functions begin


def callgrind(out, *words):
    """The words that run others, and write into this file what was counted."""
    return ["valgrind", "--quiet", "--tool=callgrind", f"--callgrind-out-file={out}", *words]


def total(out):
    with open(out) as file:
        return int(re.search(r"(?m)^totals: (\d+)", file.read())[1])


def events(out):
    """How often each thing happened that callgrind was to count."""
    with open(out) as file:
        names, counts = re.search(r"(?ms)^events: (.*?)$.*^totals: (.*?)$", file.read()).groups()
    return collections.Counter(dict(zip(names.split(), map(int, counts.split()))))


def within(out, is_inside):
    """The instructions of all calls from other functions to those of such a name, with all that these call."""
    names, found, caller, callee, is_call = {}, 0, "", "", False
    with open(out) as file:
        for line in file:
            kind, _, said = line.rstrip().partition("=")
            if is_call:
                found += int(line.split()[-1]) if is_inside(callee) and not is_inside(caller) else 0
                is_call = False
            elif kind in ("fn", "cfn"):
                number, _, name = said.partition(" ")
                name = names.setdefault(number, name)
                caller, callee = (name, callee) if kind == "fn" else (caller, name)
            elif kind == "calls":
                is_call = True
    return found


class Taken(NamedTuple):
    """Instructions: all, and of them those within calls of the SQL library, by the function that calls, that which is
    called, and the place of the call; and those at each place, where places were asked for."""
    whole: float
    calls: dict
    ran: dict

    @property
    def library(self):
        return sum(self.calls.values())

    def without(self, other):
        return Taken(self.whole - other.whole, less(self.calls, other.calls), less(self.ran, other.ran))

    def each(self, count):
        """Those of one of so many requests, in thousands."""
        calls, ran = ({it: n / count / 1000 for it, n in counts.items()} for counts in (self.calls, self.ran))
        return Taken(self.whole / count / 1000, calls, ran)


def less(counts, others):
    return {it: counts.get(it, 0) - others.get(it, 0) for it in {**counts, **others}}


def taken_in(out):
    """What a server took that wrote this. A call counts where it leads from another function to one of the library,
    with all that this calls."""
    names, calls, ran = {}, collections.Counter(), collections.Counter()
    caller, callee, is_call, place = "", "", False, 0
    with open(out) as file:
        for line in file:
            kind, _, said = line.rstrip().partition("=")
            if kind in ("fn", "cfn"):
                number, _, name = said.partition(" ")
                name = names.setdefault(number, name.partition("::<")[0])  # (an instance has the function's name)
                caller, callee = (name, callee) if kind == "fn" else (caller, name)
            elif kind == "calls":
                is_call = True
            elif line[0] in "0123456789+-*":
                at, *_, count = line.split()
                place = int(at, 0) if at[0].isdigit() else place + int(at.strip("*") or 0)
                if not is_call:
                    ran[place] += int(count)
                elif callee.startswith(LIBRARY) and not caller.startswith(LIBRARY):
                    calls[caller, callee, place] += int(count)
                is_call = False
    return Taken(total(out), calls, ran)


def ends(process, seconds):
    """Whether a process ends within these seconds."""
    with contextlib.suppress(subprocess.TimeoutExpired):
        process.wait(seconds)
    return process.returncode is not None


class Counted(Room):
    """A room whose server runs under callgrind, where an open of a large one takes minutes."""
    how, dumps, longest = (), 0, 3600

    def words(self):
        return [PROGRAM, "serve", self.db, self.roster, str(self.port), "4294967295"]

    def start(self, count=0):
        self.out = f"{self.db}.instructions"
        words = callgrind(self.out, *self.how, *self.words())
        self.server = subprocess.Popen(words, preexec_fn=end_with_parent, env=ENVIRONMENT)
        started_here.append(self.server)
        if not self.listens():
            sys.exit(f"bench: the server ended with {self.server.returncode}")
        return self

    def taken(self, of=taken_in):
        """Ends the server, and reads what it took, or what else is to be read."""
        self.server.send_signal(signal.SIGTERM)
        self.server.wait()
        return of(self.out)

    def monitor(self, line, *words):
        """Tells callgrind something. It looks for that while the server runs, so the server is asked for no route until
        then: a wait that is broken off from outside would end the connection. With POLLED one such message is enough,
        and the counting begins and ends as it comes in; `vgdb` has a while to say its words, and then to end."""
        how = ["vgdb", "--max-invoke-ms=0", f"--pid={self.server.pid}", *words]
        told = subprocess.Popen(how, stdout=subprocess.DEVNULL, stderr=subprocess.DEVNULL)
        while not ends(told, 0.1):
            line.ask(NO_ROUTE)
        if told.returncode:
            sys.exit(f"bench: vgdb ended with {told.returncode}")

    def counts(self, line, whether):
        self.monitor(line, "instrumentation", "on" if whether else "off")

    def instructions_so_far(self, line, of=total):
        """Those since the start, or since this was asked for last; or what else is read off what was counted."""
        self.monitor(line, "dump")
        self.dumps += 1
        return of(f"{self.out}.{self.dumps}")


class CountedAnchor(Counted):
    """The same, served by the anchor."""
    words = Anchored.words
    anchor, user, groups = None, Anchored.user, Anchored.groups


def taken(kind, room, commands, user="ann", number=0, anew=False):
    """What a server of this class takes, from its start to its end, that is asked these over a copy of a room, in a
    slot whose last number is that: over one connection, or each over a new one."""
    with work_folder(dir="/dev/shm") as folder:
        copy = room.copied(kind, folder).start()
        asked = Slot(copy.line(), user, number=number)
        for it in commands:
            if anew:
                asked.line.close()
                asked.line = copy.line()
            asked.command(it)
        asked.line.close()
        return copy.taken()
