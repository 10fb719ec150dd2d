"""What the gateway keeps in its files: locks, what lies aside, steps under way, times, sessions. Its parts by
themselves."""
import contextlib
import errno
import json
import os
import time
from dataclasses import replace
from unittest import mock

import pytest
from fileroom_dav import app, faults, locks, saving, seats, seen, spool, steps, visit
from room_client import slots
from room_client.faults import NoAnswer, Refused, SessionLost


@pytest.fixture
def said(capsys):
    """What was said beside since it was asked for last."""
    return lambda: capsys.readouterr().err


class Locked:
    """Locks in a folder, by the clock of a start of the machine, and by one that can be set."""

    def __init__(self, folder):
        self.path, self.now, self.wall, self.boot = folder / "locks", 1000.0, 1000.0, "one"
        self.its = self.anew()

    def anew(self):
        """As a gateway that is started has them."""
        return locks.Locks(str(self.path), lambda: self.now, lambda: self.wall, lambda: self.boot)

    def take(self, path, user="ann", seconds=60, its=None):
        return (its or self.its).take("plans", path, user, False, False, "me", seconds)


@pytest.fixture
def locked(tmp_path):
    return Locked(tmp_path)


def test_locks_end(locked):
    its = locked.its
    lock = locked.take("/a", seconds=30)
    locked.take("/b", seconds=60)
    locked.now = 1029.0
    assert its.foreign("plans", "/a", "bob", set()) == lock
    assert its.foreign("club", "/a", "bob", set()) is None
    assert [its.named(*it) for it in (("plans", lock.token, "ann"), ("club", lock.token, "ann"))] == [lock, None]
    lock = its.refresh(lock, 30)
    locked.now = 1058.0
    assert its.foreign("plans", "/a", "bob", set()) == lock
    locked.now = 1059.0
    assert its.foreign("plans", "/a", "bob", set()) is None
    assert its.named("plans", lock.token, "ann") is None
    for it in its, (its := locked.anew()):
        assert it.foreign("plans", "/b", "bob", set())
    locked.now = 1060.0
    locked.take("/a", user="bob", its=its)
    for it in its, locked.anew():
        assert [one.user for one in it.at("plans", "/a") + it.at("plans", "/b")] == ["bob"]


@pytest.mark.parametrize("seconds", [30, 90])
def test_a_lock_lasts_as_long_as_its_refresh_says(locked, seconds):
    """And not as long as it was to last before."""
    its = locked.its
    its.refresh(locked.take("/a"), seconds)
    for left, is_held in (1.0, True), (0.0, False):
        locked.now = 1000.0 + seconds - left
        assert [bool(it.at("plans", "/a")) for it in (its, locked.anew())] == [is_held] * 2


def test_locks_go_with_what_they_are_on(locked):
    """And with all that was in it; no others do."""
    for path in "/f", "/f/it", "/f/in/it", "/free":
        locked.take(path)
    locked.its.drop_below("club", "/free")
    locked.its.drop_below("plans", "/f")
    for its in locked.its, locked.anew():
        assert [it.path for it in its.held.values()] == ["/free"]


@pytest.mark.parametrize("seconds, is_held", [(59.0, True), (60.0, False)])
def test_locks_end_though_the_clock_is_set_back(locked, seconds, is_held):
    """By the seconds that went by: also over a start of the gateway."""
    locked.take("/a")
    locked.wall -= 3600.0
    locked.now += seconds
    assert [bool(it.at("plans", "/a")) for it in (locked.its, locked.anew())] == [is_held] * 2


@pytest.mark.parametrize("gone_by, set_to, left", [
    (40.0, -3600.0, 20.0), (40.0, 0.0, 20.0), (40.0, 15.0, 5.0), (0.0, -1.0, 60.0), (40.0, 3600.0, 0.0)])
def test_locks_over_a_start_of_the_machine(locked, gone_by, set_to, left):
    locked.take("/b")
    locked.now, locked.wall = locked.now + gone_by, locked.wall + gone_by
    assert locked.anew().at("plans", "/b")
    locked.now, locked.wall, locked.boot = 5.0, locked.wall + set_to, "two"
    assert [it.end for it in locked.anew().at("plans", "/b")] == [5.0 + left] * bool(left)


def test_the_clock_of_locks(tmp_path):
    now = app.Gate("/none", str(tmp_path)).locks.now()
    assert abs(now - time.clock_gettime(time.CLOCK_BOOTTIME)) < 60


def test_the_clock_is_noted_while_locks_are_asked_for(locked):
    """So that what went by before a start of the machine counts, whatever its clock says then."""
    locked.take("/a", seconds=1800)
    locked.now = 2700.0
    locked.its.foreign("plans", "/a", "bob", set())
    locked.now, locked.wall, locked.boot = 5.0, 1.0, "two"
    assert [it.end for it in locked.anew().at("plans", "/a")] == [105.0]


STAMP = locks.Stamp("b", 1.0, 1.0)
LOCK = locks.Lock("t", "plans", "/a", "ann", False, False, "", 60, 1060.0)


@pytest.mark.parametrize("bad", [
    b"\xff\0\n", b"[" * 100_000, b'{"gone": 5}', b'[{"token": "x"}]', b'["x"]', b"7", b'[{"token": "cut',
    *(locks.line_of([vars(LOCK) | it]) for it in ({"room": []}, {"end": "x"}, {"path": 5}))],
    ids=lambda it: ascii(it[:40]))
def test_a_damaged_file_of_locks(locked, said, bad):
    """It is set aside under another name, which one line says, and what could be read of it holds."""
    lock, good = locked.take("/a"), locked.path.read_bytes()
    locked.path.write_bytes(bad.rstrip() + b"\n" + good)
    assert locked.anew().at("plans", "/a") == [lock]
    aside, = locked.path.parent.glob("locks.damaged-*")
    text = said()
    assert (text.count("\n"), aside.name in text) == (1, True), text
    assert aside.read_bytes() == bad.rstrip() + b"\n" + good


def test_a_folder_in_the_place_of_locks(locked, said):
    os.remove(locked.path)
    os.mkdir(locked.path)
    locked.take("/a", its=locked.anew())
    assert said().count(".damaged-") == 1
    assert locked.anew().at("plans", "/a")
    assert said() == ""


NAMES = "locks", "asides", "steps", "seen"
STEP = steps.Step("back", "plans", "ann", "/a", "/b", key="k")


@pytest.mark.parametrize("bad", [b"\0" * 5000, b"[" * 100_000, b'[{"room": 5, "user": [], "path": {}}]'],
                         ids=["zeros", "deep", "types"])
def test_a_gateway_starts_with_damaged_files(tmp_path, said, bad):
    """Of each kind: what could be read of them stays, and the rest is there to be looked at."""
    for name in NAMES:
        (tmp_path / name).write_bytes(bad + b"\n" + locks.line_of([vars(STEP)]) * (name == "steps"))
    for count in len(NAMES), 0:
        gate = app.Gate("/none", str(tmp_path))
        assert [*gate.steps.kept.values()] == [STEP]
        assert gate.seen.times("plans", {"/a": "sum"}) == {"/a": mock.ANY}
        assert said().count("damaged-") == count


@pytest.mark.parametrize("name, what, of", [
    ("locks", LOCK, "seconds"), ("locks", LOCK, "end"), ("locks", STAMP, "clock"), ("locks", STAMP, "wall"),
    ("asides", steps.Aside("plans", "ann", "/a", "/b", "k", 9e9), "end")])
def test_a_number_of_many_digits(tmp_path, said, name, what, of):
    """One that no clock has: nothing is computed with it."""
    its = vars(what) | {of: 10 ** 400}
    (tmp_path / name).write_bytes(locks.line_of(its if isinstance(what, locks.Stamp) else [its]))
    gate = app.Gate("/none", str(tmp_path))
    assert (gate.locks.held, gate.asides.kept, said().count("damaged-")) == ({}, [], 1)


def test_what_a_stop_left_of_a_file_of_locks(locked):
    """Beside it lies what was to take its place: locks that were given up since do not come back with that."""
    lock = locked.take("/a")
    (locked.path.parent / "locks.new").write_bytes(locked.path.read_bytes())
    locked.its.drop([lock.token])
    assert [locked.anew().at("plans", "/a") for _ in range(2)] == [[], []]


def test_two_thousand_locks(locked):
    """Taken, found again after a kill, and freed, in seconds; another's do not count."""
    since, held = time.process_time(), []
    for it in range(2000):
        held.append(locked.take(f"/f{it % 8}/{it}", seconds=1800))
        assert time.process_time() - since < 5, it
    with pytest.raises(faults.Busy):
        locked.take("/one/more")
    locked.take("/one/more", user="bob")
    with mock.patch.object(locks, "MOST", 2001), pytest.raises(faults.Busy):
        locked.take("/too/many", user="cat")
    again = locked.anew()
    for it in held:
        assert again.foreign("plans", it.path, "bob", {it.token}) == it
        assert again.foreign("plans", it.path, "ann", {it.token}) is None
        again.drop([it.token])
    assert (len(again.held), [*again.rooms["plans"]]) == (1, ["/one/more"])
    assert os.path.getsize(locked.path) < 3 * 400 * locks.MOST_OVER
    assert [*locked.anew().held] == [*again.held]
    assert time.process_time() - since < 10  # (it takes one)


FULL = [OSError(errno.ENOSPC, ""), lambda file, data, write=os.write: write(file, data[:-1])]


@pytest.mark.parametrize("fault", FULL, ids=["none of it", "a part"])
def test_locks_on_a_full_disk(locked, fault):
    """Of a gateway that goes on, and of one that is started then: they hold, the file stays whole, and another lock is
    refused until there is space."""
    lock = locked.take("/a")
    before, written = [locked.its, None], locked.path.read_bytes()
    with mock.patch.object(os, "write", side_effect=fault):
        before[1] = locked.anew()
        for its in before:
            with pytest.raises(faults.Busy):
                locked.take("/b", its=its)
            assert (its.at("plans", "/a"), its.at("plans", "/b")) == ([lock], [])
    assert locked.path.read_bytes() == written
    locked.take("/b", its=before[1])
    assert [*locked.anew().held] == [*before[1].held]


@pytest.mark.parametrize("fault", [None, *FULL], ids=["a disk with space", "none of it", "a part"])
def test_a_lock_whose_file_is_written_anew(locked, fault):
    """It is there by its own line, whatever comes of the rest, and no other file stays open."""
    its, plain, opens, opened = locked.its, os.write, os.open, {locked.its.file}
    fails = lambda file, data: plain(file, data) if file == its.file else mock.Mock(side_effect=fault)(file, data)

    def noted(*how):
        opened.add(file := opens(*how))
        return file
    with (mock.patch.object(locks, "MOST_OVER", -1), mock.patch.object(os, "write", fails if fault else plain),
          mock.patch.object(os, "open", noted)):
        lock = locked.take("/a")
        for seconds in 60, 70:
            lock = its.refresh(lock, seconds)
            assert locked.path.read_bytes().endswith(locks.line_of([vars(lock)]))
    assert {it for it in opened if os.path.exists(f"/proc/self/fd/{it}")} == {its.file}
    assert [*locked.anew().held.values()] == [lock]


def test_locks_of_before(locked):
    """(The file was a list, written anew each time.)"""
    locked.path.write_bytes(locks.line_of([vars(LOCK)]).rstrip())
    assert locked.anew().at("plans", "/a") == [LOCK]


class Aside:
    def __init__(self, path):
        self.path, self.time = str(path), 0.0
        self.its = self.anew()

    def anew(self):
        return steps.Asides(self.path, now=lambda: self.time)

    def move(self, source, target, user="ann", owner="ann"):
        with self.its.moving("plans", user, source, target, owner):
            pass

    def of(self, path, user="ann"):
        return [it.aside for it in self.anew().of("plans", user, path)]


@pytest.fixture
def aside(tmp_path):
    return Aside(tmp_path / "it")


def test_ten_minutes(aside):
    aside.move("/a", "/a~")
    for room, user in ("club", "ann"), ("plans", "bob"):  # (of the same names)
        aside.its.gone(room, user, "/a~")
        aside.its.ends(room, user, "/a")
        assert aside.its.is_aside(room, user, "/a~") is None
    aside.its.moved("club", "ann", "/a~", "/b")
    aside.time = 599.0
    assert (aside.of("/a"), aside.of("/a", "bob")) == (["/a~"], [])
    aside.time = 600.0
    assert aside.of("/a") == []


def test_one_user_leaves_room_to_others(aside):
    aside.move("/b", "/b~", "bob", "bob")
    for at in range(2 * steps.MOST_OF_ONE):
        aside.move(f"/{at}", f"/{at}~")
    assert len(aside.its.kept) == steps.MOST_OF_ONE + 1
    assert (aside.of("/b", "bob"), aside.of("/0")) == (["/b~"], [])
    with mock.patch.object(steps, "MOST", 9):
        aside.move("/c", "/c~", "cat", "cat")
        for at in range(20):
            aside.its.made("plans", "ann", f"/{at}")
    assert (len(aside.its.kept), len(aside.its.fresh), aside.of("/c", "cat")) == (9, 9, ["/c~"])
    assert [aside.its.is_fresh("plans", "ann", f"/{it}") for it in (10, 11)] == [False, True]


def test_names_change(aside):
    """It follows what is moved again, and ends where that has its name back, or was not moved."""
    aside.move("/a", "/a~")
    aside.move("/a~", "/b")
    assert aside.of("/a") == ["/b"]
    aside.move("/b", "/a", owner=None)
    assert aside.its.kept == []
    with pytest.raises(ValueError), aside.its.moving("plans", "ann", "/a", "/a~", "ann"):
        raise ValueError
    assert aside.its.kept == []


@pytest.mark.parametrize("fault", [NoAnswer("none"), SessionLost({"code": 20, "error": "BADSESSION"})])
def test_what_may_be_aside(aside, fault):
    """Nobody knows whether it has another name by now: it is on record."""
    with pytest.raises(type(fault)), aside.its.moving("plans", "ann", "/a", "/a~", "ann"):
        raise fault
    assert aside.of("/a") == ["/a~"]


def test_a_step_on_a_full_disk(tmp_path):
    """What cannot be on record is not begun, and the caller is told to come later."""
    its = steps.Steps(str(tmp_path / "it"))
    with mock.patch.object(steps, "write_all", side_effect=OSError(errno.ENOSPC, "")), pytest.raises(faults.Busy):
        its.begin(STEP)
    assert its.kept == {}


def test_a_step_is_on_disk_before_it_is_begun(tmp_path, said):
    its = steps.Steps(str(tmp_path / "it"))
    with its.under_way(steps.Step("back", "plans", "ann", "/a", "/b"), None) as step:
        again = steps.Steps(str(tmp_path / "it"))
        assert "left by a stop in room plans: /a may lie as /b" in said()
        assert its.claim("plans", "ann", set()) == []
        for room, user, folders in ("other", "ann", {"/"}), ("plans", "bob", {"/x"}):
            assert again.claim(room, user, folders) == []
        assert again.claim("plans", "bob", {"/"}) == [step]
        assert again.claim("plans", "ann", {"/"}) == []
    assert steps.Steps(str(tmp_path / "it")).kept == {}


def test_what_a_stop_left_of_a_file_of_steps(tmp_path):
    """None of it stays, however long it was."""
    path = str(tmp_path / "it")
    (tmp_path / "it.new").write_bytes(steps.line_of([vars(STEP)]) * 9)
    steps.write_all(path, [STEP])
    assert steps.read_all(path, steps.Step) == [STEP]


def test_what_is_not_come_to_is_left(tmp_path):
    """The room answers neither to the first of two, nor is the other one begun: both are there for the next."""
    its = steps.Steps(str(tmp_path / "it"))
    both = [its.begin(steps.Step("back", "plans", "ann", it, f"{it}~")) for it in ("/a", "/b")]
    for it in both:
        its.leave(it)
    gate = mock.Mock(steps=its, changing=lambda *_: contextlib.nullcontext())
    for fault in NoAnswer("none"), ValueError("one of ours"):
        with mock.patch.object(saving, "put_right", side_effect=fault), pytest.raises(type(fault)):
            saving.settle(gate, None, mock.Mock(room="plans", user="ann", path="/c"))
    assert sorted(it.path for it in its.claim("plans", "ann", set())) == ["/a", "/b"]


def test_what_is_left_is_not_kept_for_ever(tmp_path, said):
    """Too many, and what is too old, is told and forgotten."""
    now = [0.0]
    its = steps.Steps(str(tmp_path / "it"), now=lambda: now[0])
    with mock.patch.object(steps, "MOST_LEFT", 2):
        for path in "/a", "/b", "/c":
            its.leave(its.begin(replace(STEP, path=path)))
    assert [it.path for it in its.kept.values()] == ["/b", "/c"]
    now[0] = steps.DAYS * 86400 + 1.0
    its.leave(its.begin(replace(STEP, path="/d")))
    assert [it.path for it in steps.Steps(str(tmp_path / "it")).kept.values()] == ["/d"]
    assert said().count("given up in room plans: /") == 3


def test_the_next_version_is_later(tmp_path):
    """In its room, whatever has its path in another one."""
    its = seen.Seen(str(tmp_path / "seen"), now=lambda: 1000.0)
    for sum_, when in ("a", 1000), ("b", 1001), ("b", 1001), ("c", 1002):
        assert its.times("plans", {"/it": sum_}) == {"/it": when}
        assert its.times("club", {"/it": "x"}) == {"/it": 1000}


def test_times_are_few(tmp_path):
    """Of too many the older half goes, once in a while."""
    now = [0.0]
    its = seen.Seen(str(tmp_path / "seen"), now=lambda: now[0])
    with mock.patch.object(seen, "MOST", 9):
        for now[0] in range(10):
            its.times("plans", {f"/{now[0]}": "sum"})
        its.calls = 999
        its.times("plans", {"/10": "sum"})
    assert [its.has("plans", f"/{it}") for it in (0, 4, 5, 10)] == [False, False, True, True]


def test_times_on_a_full_disk(tmp_path):
    """They are lost, and nothing else."""
    its = seen.Seen(str(tmp_path / "seen"))
    pages, = its.table.execute("PRAGMA page_count").fetchone()
    its.table.execute(f"PRAGMA max_page_count = {pages}")
    for at in range(3):
        sums = {f"/{'n' * 60}{at}-{it}": "s" for it in range(500)}
        assert its.times("plans", sums).keys() == sums.keys()


@pytest.mark.parametrize("owner, aclflag, fits", [("ann", saving.VEIL, True), ("bob", saving.VEIL, False),
                                                  ("ann", saving.PROTECTED, False)])
def test_where_the_pieces_of_before_go(owner, aclflag, fits):
    """Into what is the caller's, and for nobody else: no folder that somebody laid there since."""
    one = mock.Mock(settings=mock.Mock(user="ann"), stat=lambda _: {"owner": owner},
                    get_list=lambda _: {"aclflag": aclflag, "entries": [saving.of_one("OWNER@", True)]})
    with contextlib.nullcontext() if fits else pytest.raises(Refused):
        saving.need_veiled(one, replace(STEP, copy="/a~"))


@pytest.mark.parametrize("source, read, now, document, is_so", [
    ("/n.odt", "a", "a", "b", True), ("/n.odt", "a", "b", "a", False), ("/n.odt", "a", None, "a", False),
    ("/n.odt", None, "a", "a", True), ("/n.odt", None, "b", "a", False), ("/~WRD1.tmp", "a", "b", "a", True)])
def test_what_is_there_still(source, read, now, document, is_so):
    """What became a version goes as it was read; behind a stop, as the version is. (A program's own file goes anyway.)
    """
    sums = {source: now, "/a.odt": document}

    def thing_at(_, path):
        if sums[path] is None:
            raise faults.NotThere(path)
        return mock.Mock(sum=sums[path])
    step = steps.Step("exchange", "plans", "ann", "/a.odt", source=source)
    with mock.patch.object(saving, "thing_at", thing_at):
        assert saving.is_as_read(None, step, read and mock.Mock(sum=read)) == is_so


@pytest.mark.parametrize("count, is_told", [(saving.MOST_ENTRIES, True), (saving.MOST_ENTRIES + 1, False)])
def test_a_long_list_of_somebody_elses(count, is_told):
    """One that is too long for bytes of before, with those that its folder handed down, is for the caller alone."""
    entries, set_ = [{"flag": 0, "mask": 1, "type": 0, "who": "cat"}] * count, []
    one = mock.Mock(settings=mock.Mock(user="bob"), set_list=lambda *its: set_.append(its),
                    stat=lambda path: {"owner": "ann" if path == "/a" else "bob", "group": "eng"},
                    get_list=lambda _: {"aclflag": 1, "entries": entries})
    saving.close_like(one, "/a", "/a~", False)
    assert set_ == [("/a~", saving.PROTECTED, entries if is_told else [saving.of_one("bob", False)])]


@pytest.mark.parametrize("how", [{"side_effect": OSError(it, "")} for it in (errno.ENOSPC, errno.EDQUOT)] + [
    {"return_value": 1}], ids=["none of it", "a quota", "a part"])
def test_an_answer_on_a_full_disk(tmp_path, how):
    """Also where the disk takes a part of a piece, and says so by its count alone. A session's file is not cut."""
    with mock.patch.object(os, "pwrite", **how):
        with pytest.raises(faults.Busy):
            spool.filled(9, lambda put: put(0, b"xy"))
        with pytest.raises(OSError):
            visit.write_private(str(tmp_path / "it"), b"xy", os.O_WRONLY | os.O_CREAT)


def test_no_file_is_of_two_users(tmp_path):
    its, found = seats.Seats("/none", str(tmp_path), 1.0), []
    for user in "ann", "ann.0", "ann.0.1", "ann.boot", ".", "..", "...":
        for number in range(seats.SEATS):
            path = its.visit("plans", user, "word", number).settings.state
            assert os.path.dirname(os.path.normpath(path)) == str(tmp_path / "sessions/plans")
            found += [path, *(f"{path}.{end}" for end in ("lock", "boot", "new", *range(8)))]
    assert len(found) == len(set(found))
    with mock.patch.object(seats, "MOST_PACES", 2):
        assert its.pace("eve") is its.pace("eve")
    assert [*its.paces] == ["eve"]


def test_what_is_kept_of_a_slot(tmp_path):
    """A small request is written in its place, and a large one takes the file's place: both are read back, also where a
    stop left something of before."""
    path = str(tmp_path / "ann@0")
    for kept, is_page in ("a", False), ("bb", True), ("c" * 90_000, False), ("", False), ("d", True):
        with contextlib.closing(visit.KeptState(path, "http://x", "ann", 1.0)) as state:
            before = os.path.exists(path) and os.stat(path).st_ino
            (tmp_path / "ann@0.new").write_bytes(b"x" * 200_000)
            state.record(kept)
            assert (os.stat(path).st_ino == before) == is_page, kept[:9]
        with contextlib.closing(visit.KeptState(path, "http://x", "ann", 1.0)) as again:
            assert again.kept[0] == state.kept[0]


@pytest.mark.parametrize("name", ["a", '"data":"', "\\"])
def test_bytes_of_a_document_are_in_no_file_of_a_slot(tmp_path, name):
    """What is pending is asked for by its number, and told by its names."""
    path, command = str(tmp_path / "ann@0"), {"cmd": "WRITE", "data": "eHl6" * 20_000, "path": f"/{name}"}
    with contextlib.closing(visit.KeptState(path, "http://x", "ann", 1.0)) as state:
        for slot in 0, 1:
            state.record("a", slot)
            state.record(slots.compact(command), slot)
            assert json.loads(state.kept[slot].pending) == command
    assert [os.path.getsize(it) for it in (path, f"{path}.1")] == [visit.PAGE] * 2
    with contextlib.closing(visit.KeptState(path, "http://x", "ann", 1.0)) as again:
        assert [json.loads(it.pending) for it in again.kept[:2]] == [command | {"data": ""}] * 2
