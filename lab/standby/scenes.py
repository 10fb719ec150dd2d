"""What happens to machines in the laboratory, scene by scene: each takes a `Standby`, a tally, and random numbers."""
import contextlib
import os
import subprocess
import threading
import time

from lab import WALL, until
from load import PORT, SESSIONS, Load
from served import first_answer, message
from standby import AS_USER, DB, FOLDER, LISTENS, NAME, ROSTER, SERVED, SYSTEMCTL, TOOL, WHOLE, Program

FAILED = "fileroom: store failed"
SILENT = 40  # seconds in which a machine that was cut off must have lost its lock: far more than it takes
UNFENCED = 5  # seconds in which a program that is started again would have the room
ROOT = {"cmd": "STAT", "path": "/"}
ANN, SLOTS = SESSIONS["ann"]


def median(some):
    return sorted(some)[len(some) // 2] if some else 0.0


class Times:
    """Seconds of one kind: how many, median and worst."""

    def __init__(self):
        self.all = []

    def add(self, seconds):
        self.all.append(seconds)

    def __str__(self):
        if not self.all:
            return "none"
        return f"{len(self.all)} of {min(self.all):.1f} to {max(self.all):.1f} seconds, median {median(self.all):.1f}"


def others(standby, machine):
    return [it for it in standby.machines if it is not machine]


def played(load, seconds):
    """Plays the load beside for so long."""
    load.start()
    time.sleep(seconds)
    load.stop()


def need_sound(load, tally, name):
    tally.differs(f"{name}: every answer is the model's", repr(load.fault), "None")
    tally.need(load.fault is None, f"{name}: it cannot go on")


def first_answer_on(load, machine, since):
    """When the first request was answered by this machine after that moment."""
    return next((done for _, done, on in load.times if on is machine and done > since), None)


# One takeover after another.

class Takeovers:
    def __init__(self):
        self.kinds = {it: Times() for it in ("killed", "cut off")}
        self.mounted = {it: Times() for it in ("killed, mounted before", "cut off, mounted before")}
        self.mounts, self.serves, self.heals = Times(), Times(), Times()
        self.count = self.not_whole = self.stuck = 0


def takeovers(standby, tally, dice, count, room_for=1.0):
    """So many takeovers under a mixed load. Prints a line for each kind."""
    load, found = Load(standby.where, dice.random()), Takeovers()
    standby.serve(standby.machines[0])
    load.begin()
    whole = True
    for n in range(count):
        name = f"takeover {n + 1}"
        found.not_whole += not whole
        try:
            takeover(standby, load, dice, found, tally, name, room_for)
        except RuntimeError as fault:  # (before all was whole none is promised, but nothing may be lost)
            if whole:
                raise
            print(f"standby: {name}: stuck until the machine is back: {fault}", flush=True)
            standby.keep_words()
            found.stuck += 1
            unstuck(standby, load, tally, name)
        whole = come_back(standby, load, dice, found, tally, name)
        if n % 10 == 9:
            print(f"standby: {n + 1} takeovers, {load.answered} answers", flush=True)
    need_sound(load, tally, "at the end")
    for kind, its in {**found.kinds, **found.mounted}.items():
        print(f"standby: {kind}: from the stop to the first answer {its}")
    print(f"standby: mounting: {found.mounts}; serving once mounted: {found.serves}; whole again: {found.heals}")
    print(f"standby: {found.count} takeovers, {found.not_whole} while a copy may be behind, {found.stuck} stuck; "
          f"{load.answered} answers, {load.again} after being sent again, {load.repeats} repeats, {load.delays} DELAY")
    return found


def takeover(standby, load, dice, found, tally, name, room_for):
    """The machine that serves stops in the middle of the load, and another goes on."""
    dead, target = standby.on, dice.choice(others(standby, standby.on))
    kind = dice.choice(["killed", "cut off"])
    times = found.kinds[kind]
    if dice.random() < 0.3:
        standby.mount(target)
        times = found.mounted[f"{kind}, mounted before"]
    load.start()
    time.sleep(room_for * (0.5 + dice.random()))
    begin = time.monotonic()
    if kind == "cut off":
        dead.cut()
        time.sleep(dice.random() * 0.2)
    standby.kill(dead)
    if not standby.is_mounted(target):
        standby.mount(target)
        found.mounts.add(time.monotonic() - begin)
    found.serves.add(standby.serve(target))
    first = until(lambda: first_answer_on(load, target, begin) or load.fault, LISTENS, f"{name}: an answer", 0.02)
    time.sleep(0.5 * room_for)
    load.stop()
    need_sound(load, tally, name)
    times.add(first - begin)
    found.count += 1


def unstuck(standby, load, tally, name):
    """The machine that stopped is started again, and another serves as soon as it can."""
    dead = next(it for it in standby.machines if not it.is_up())
    target = others(standby, dead)[0]
    dead.boot()
    if standby.program:
        standby.program.end()
    standby.serve(target)
    load.stop()
    need_sound(load, tally, name)


def come_back(standby, load, dice, found, tally, name):
    """The dead machine is back; the program is started again. Answers whether all copies were whole before that."""
    dead = next((it for it in standby.machines if not it.is_up()), None)
    if dead:
        dead.boot()
    begin = time.monotonic()
    until(lambda: standby.is_connected(standby.on), WHOLE, f"{name}: all copies are there again")
    whole = dice.random() < 0.6
    if whole:
        standby.need_whole(standby.on)
        found.heals.add(time.monotonic() - begin)
    standby.look(load, tally, name)
    load.repeat_all()
    return whole


def begun(standby, dice):
    """A load that has begun where the first machine serves the room, and the three machines."""
    load = Load(standby.where, dice.random())
    standby.serve(standby.machines[0])
    return load.begin(), *standby.machines


# Locks.

def refused(machine, *words):
    """What the program says there, which is to end at once."""
    status, _, told = machine.status(*AS_USER, SERVED, *words, timeout=60)
    return status, told.strip()


def lock(standby, tally, dice):
    """While a room is served nobody else has its file, on whichever machine; then another has it at once."""
    load, a, b, c = begun(standby, dice)
    load.close_line()
    standby.mount(b)
    standby.mount(c)
    for machine in a, b, c:
        told = refused(machine, "serve", DB, ROSTER, str(PORT + 1), "1")
        tally.differs(f"a second serve on {machine.name}", told, (1, FAILED))
        tally.differs(f"report on {machine.name}", refused(machine, "report", DB, ROSTER, "lists"), (1, FAILED))
    played(load, 0.5)
    standby.program.end()
    standby.on = None
    print(f"standby: lock: the program alone ended, and another machine listened after {standby.serve(b):.1f} seconds")
    load.repeat_all()
    played(load, 0.5)
    need_sound(load, tally, "lock")


# A machine that is cut off and lives.

class Asker:
    """A thread that sends one request to a machine, whatever comes of it."""

    def __init__(self, machine, data, seconds):
        self.answer, self.began, self.took = None, time.monotonic(), None
        self.thread = threading.Thread(target=self.ask, args=(machine, data, seconds), daemon=True)
        self.thread.start()

    def ask(self, machine, data, seconds):
        rest, found = b"", None
        try:
            with machine.connect(PORT, 2) as line:
                line.settimeout(seconds)
                line.sendall(data)
                while not found:
                    piece = line.recv(1 << 16)
                    if not piece:
                        break
                    rest += piece
                    found = first_answer(rest)
        except OSError:
            pass
        self.answer, self.took = found and found[0], time.monotonic() - self.began

    def wait(self):
        self.thread.join()
        return self.answer


def acts_by(machine, number, seq):
    """A request with this number of a slot of ann's, for a machine that has no right to act any more."""
    return Asker(machine, message("ann", "POST", f"/v1/sessions/{ANN}/slots/{number}/{seq}", ROOT), 30)


def next_numbers(load):
    """Of each slot of ann's, the number that a room expects that was asked up to now."""
    return [load.model.slots.get((ANN, number), (0,))[0] + 1 for number in range(SLOTS)]


def cut_off(standby, tally, dice, is_asked):
    """The machine that serves is cut off and lives on, another acts, and the link is back: whether the first acts then.

    `is_asked`: it gets a request while it is cut off."""
    load, a, b, _ = begun(standby, dice)
    played(load, 1)
    need_sound(load, tally, "before the cut")
    old, due, begin = standby.program, next_numbers(load), time.monotonic()
    a.cut()
    asked = acts_by(a, 2, due[2]) if is_asked else None
    standby.serve(b)
    took = time.monotonic() - begin
    print(f"standby: cut off: another machine listened after {took:.1f} seconds", flush=True)
    tally.differs("it was soon enough", took < SILENT, True)
    for _ in range(5):
        for number in range(SLOTS):
            load.ask("ann", number, ROOT)
    played(load, 0.5)
    need_sound(load, tally, "the machine that took over")
    a.join()
    until(lambda: standby.is_connected(b), WHOLE, "the link is back")
    time.sleep(3)
    got = [acts_by(a, number, due[number]).wait() for number in range(SLOTS)] + ([asked.wait()] if asked else [])
    has_acted = any(it is not None and it.status == 200 for it in got)
    return load, old, has_acted, got


def after_fencing(standby, load, tally, name):
    """Once the first machine is off, the other's program can be started again, and has what it answered."""
    a, b, _ = standby.machines
    standby.program.end()
    again = Program(b)
    time.sleep(UNFENCED)
    print(f"standby: {name}: while the first machine lives the other's program, started again, "
          f"{'listens' if again.listens() else 'has no room'}", flush=True)
    again.end()
    standby.kill(a)
    standby.serve(b)
    standby.look(load, tally, name)
    load.repeat_all()
    played(load, 0.5)
    need_sound(load, tally, name)


def split(standby, tally, dice, is_asked):
    load, old, has_acted, got = cut_off(standby, tally, dice, is_asked)
    name = "cut off, and asked" if is_asked else "cut off, and idle"
    print(f"standby: {name}: back again it answers {[it and it.status for it in got]}")
    tally.differs(f"{name}: back again it acts on nothing", has_acted, False)
    old.is_wanted = False
    after_fencing(standby, load, tally, name)


def split_without_strict_locks(standby, tally, dice):
    """The same with one setting taken away: whether the first machine acts again, so that the test above can fail."""
    _, old, has_acted, got = cut_off(standby, tally, dice, False)
    old.is_wanted = False
    standby.kill(standby.machines[0])
    print(f"standby: cut off, and idle, without strict locks: it answers {[it and it.status for it in got]}")
    return has_acted


# Machines that come back.

@contextlib.contextmanager
def hook(machine):
    """`fileroom-standby rejoin` there meanwhile, with what stands for systemctl."""
    machine.run("sh", "-c", "mkdir -p /run/bin; cat >/run/bin/systemctl; chmod 755 /run/bin/systemctl", input=SYSTEMCTL)
    words = ["env", f"PATH=/run/bin:{os.environ['PATH']}", TOOL, "rejoin", NAME]
    child = machine.start("sh", "-c", 'echo $$ >/run/rejoin.pid; exec "$@"', "sh", *words, stdout=subprocess.DEVNULL)
    try:
        yield
    finally:
        machine.status("sh", "-c", "kill $(cat /run/rejoin.pid)")
        child.wait(30)


def finding(machine, words):
    """Whether `check` tells a finding with these words there, and its status."""
    status, told, _ = machine.status(TOOL, "check", NAME)
    return status, any(words in it for it in told.splitlines())


AGAIN = "the program has not been started again"


def rejoin(standby, tally, dice, is_restarted):
    """One of the others stops and comes back, then the third stops: with the hook the room goes on."""
    load, a, b, c = begun(standby, dice)
    begin = time.monotonic()
    load.start()
    time.sleep(1)
    standby.kill(b)
    time.sleep(3)
    b.boot()
    until(lambda: standby.is_connected(a), WHOLE, "b is there again")
    tally.differs("check tells that the program is to be started again", finding(a, AGAIN), (1, True))
    if is_restarted:
        with hook(a):
            started_again(standby, load, tally, a)
    else:
        load.stop()
        standby.need_whole(a)
        load.start()
    longest = slowest(load, begin)
    before, delays = len(load.times), load.delays
    standby.kill(c)
    time.sleep(10)
    went_on = len(load.times) - before
    if is_restarted:
        print(f"standby: rejoin: the longest request while b came back and the program was started again took "
              f"{longest:.1f} seconds; after c stopped {went_on} were answered in 10 seconds")
        tally.differs("the room goes on without c", went_on > 10, True)
        load.stop()
        need_sound(load, tally, "rejoin")
        c.boot()
        until(lambda: standby.is_connected(a), WHOLE, "c is there again")
        standby.look(load, tally, "rejoin")
        return
    print(f"standby: rejoin without a start: {went_on} answers and {load.delays - delays} DELAY in 10 seconds")
    tally.differs("without it the room is answered DELAY", load.delays > delays, True)
    standby.restart()
    until(lambda: len(load.times) > before + went_on + 5 or load.fault, LISTENS, "it goes on once it was started again")
    load.stop()
    need_sound(load, tally, "rejoin without a start")


def started_again(standby, load, tally, machine):
    """The hook starts the program again, once, though the load goes on; then all copies become whole."""
    starts = standby.program.starts
    until(lambda: standby.program.starts > starts, WHOLE, "the hook starts the program again", 0.2)
    until(standby.program.listens, LISTENS, "it listens")
    time.sleep(2)
    tally.differs("the hook did what it says", machine.run("cat", "/run/systemctl.log").split("\n")[0],
                  f"--no-block restart fileroom-standby@{NAME}")
    tally.differs("check has nothing of it left", finding(machine, AGAIN)[1], False)
    standby.need_whole(machine)
    time.sleep(3)
    tally.differs("and it is done once", standby.program.starts, starts + 1)


def slowest(load, since):
    return max((done - begun for begun, done, _ in load.times if begun >= since), default=0.0)


def two(standby, tally, dice):
    """Both others stop: DELAY, also when they are back, until the hook starts the program again; all acts once."""
    load, a, b, c = begun(standby, dice)
    load.start()
    time.sleep(1)
    begin = time.monotonic()
    b.cut()
    standby.kill(b)
    time.sleep(10)
    pause = slowest(load, begin - 1)
    tally.differs("with one silent the room goes on", load.fault is None and load.times[-1][1] > begin + 6, True)
    before = load.delays
    tally.differs("and nobody is told DELAY", before, 0)
    standby.kill(c)
    until(lambda: load.delays > before or load.fault, LISTENS, "DELAY")
    answered = len(load.times)
    b.boot()
    c.boot()
    until(lambda: standby.is_connected(a), WHOLE, "both are back")
    time.sleep(3)
    tally.differs("DELAY also when both are back", len(load.times), answered)
    tally.differs("check tells that the program is to be started again", finding(a, AGAIN), (1, True))
    begin = time.monotonic()
    with hook(a):
        until(lambda: len(load.times) > answered + 5 or load.fault, WHOLE, "it goes on by the hook")
    took = time.monotonic() - begin
    load.stop()
    need_sound(load, tally, "two")
    standby.need_whole(a)
    standby.look(load, tally, "two")
    print(f"standby: one silent: a pause of {pause:.1f} seconds; two: DELAY until the hook had started the program "
          f"again, {took:.1f} seconds after it began to look")


# How fast it is.

RATES = 8  # seconds of each measurement


def rates(standby, tally, dice, name):
    """Requests a second to one asker, half APPEND and half READ, and how long each took."""
    load = Load(standby.where, dice.random(), half_reads=True)
    standby.serve(standby.machines[0])
    load.begin()
    before = len(load.times)
    played(load, RATES)
    need_sound(load, tally, f"rates of {name}")
    took = sorted(1000 * (done - begun) for begun, done, _ in load.times[before:])
    print(f"standby: {name}: {len(took) / RATES:.0f} a second, half within {took[len(took) // 2]:.1f} ms, 99 of 100 "
          f"within {took[len(took) * 99 // 100]:.1f} ms", flush=True)


# The loss that Gluster's defaults allow.

STALE = 31  # requests that are answered while one copy is away


def stale(standby, tally, dice):
    """A copy that was away comes back just as the machine that went on stops: whether answered requests are there."""
    load, a, b, c = begun(standby, dice)
    for _ in range(20):
        load.step()
    standby.kill(b)
    until(lambda: load.step() or True, LISTENS, "it goes on without b")
    for number in range(STALE):
        load.ask("ann", number % 3, {"cmd": "APPEND", "path": "/f0/stale", "data": "aaaa"} if number else
                 {"cmd": "CREATE", "path": "/f0/stale", "data": ""})
    standby.kill(a)
    b.boot()
    standby.mount(b)
    standby.serve(b)
    try:
        load.repeat_all()
        load.ask("ann", 0, {"cmd": "READ", "path": "/f0/stale"})
    except Exception as fault:  # (an answer that is another than the model's)
        return f"{fault}"
    load.close_line()
    standby.look(load, tally, "stale")
    return ""


def stale_with_ours(standby, tally, dice):
    lost = stale(standby, tally, dice)
    tally.differs("with our settings nothing that was answered is lost", lost, "")


def stale_with_defaults(standby, tally, dice):
    """The first two settings as Gluster has them by itself: the loss is there, so that the test above can fail."""
    lost = stale(standby, tally, dice)
    print(f"standby: with Gluster's defaults: {lost[:200] or 'nothing was lost'}")
    return bool(lost)


# One setting after another is taken away, and `check` tells it.

def walls(machine, tally):
    """A copy that others may read, and ports that are open, are told."""
    machine.run("chmod", "755", "/srv/fileroom")
    tally.differs("a copy that users may read", finding(machine, "users of this machine may read the copy"), (1, True))
    machine.run("chmod", "700", "/srv/fileroom")
    machine.run("nft", "delete", "table", "inet", "fileroom")
    tally.differs("open ports", finding(machine, "Gluster's ports are open to everybody"), (1, True))
    machine.run(WALL)
    tally.differs("all is closed again", [finding(machine, it)[1] for it in ("open to everybody", "may read")],
                  [False, False])


WRONG = {"on": "off", "off": "on", "auto": "none", "server": "none", "10.77.0.1,10.77.0.2,10.77.0.3": "*"}


def check(standby, tally, dice, count):
    """`check` tells a setting that is another, a mount without its words, a copy that is away, no fencing."""
    a, b, _ = standby.machines
    standby.serve(a)
    standby.need_whole(a)
    status, told, _ = a.status(TOOL, "check", NAME)
    findings = told.splitlines()[:-1]
    tally.differs("check finds nothing but the cluster manager", (status, [it[:9] for it in findings]),
                  (1, ["Pacemaker"] if findings and findings[0].startswith("Pacemaker ") else ["there is "]))
    with open(os.path.join(os.path.dirname(TOOL), "volume"), encoding="utf-8") as file:
        settings = [line.split() for line in file if line.strip() and not line.startswith("#")]
    settings.append(("auth.allow", "10.77.0.1,10.77.0.2,10.77.0.3"))
    for option, value in dice.sample(settings, min(count, len(settings))):
        wrong = WRONG.get(value) or str(int(value) + 1)
        a.gluster("volume", "set", NAME, option, wrong)
        tally.differs(f"{option} {wrong} is told", finding(a, f"{option} is {wrong} and must be {value}"), (1, True))
        a.run(TOOL, "set", NAME)
    tally.differs("all is set again", finding(a, " must be ")[1], False)
    walls(a, tally)
    standby.kill(b)
    until(lambda: not standby.is_connected(a), LISTENS, "the mount has seen that")
    tally.differs("a copy that is away is told", finding(a, "10.77.0.2:/srv/fileroom/plans is away"), (1, True))
    tally.differs("and that the mount has two", finding(a, "this mount has 2 of 3 copies"), (1, True))
    b.boot()
    standby.program.end()
    standby.unmount(a)
    a.run("mount", "-t", "glusterfs", f"localhost:/{NAME}", FOLDER)
    tally.differs("a mount without its words is told", finding(a, "the mount lacks --direct-io-mode=enable"), (1, True))
