"""Files up to 16 MiB, there and back, whole whatever comes in between (docs/FILES.md); folders, dropped and chosen."""
import hashlib
import json
import os
import random
import re

import cases
import pytest
from room_client import trash

from .club import ALL, DIALOG, MIB, NAME, PIECE, PLACE, SLOW, VIEW, choose, entry, make_new, row
from .test_typed import ASKED

dice = random.Random(7)
LARGE = dice.randbytes(3 * PIECE)
LONG = "\u00e4" * 33  # a name
TOO_LARGE = "too large has 16.1 MiB, and 16 MiB is the most."


def beside(name):
    mark = hashlib.sha256(name.encode()).hexdigest()[:16]
    return f".room-gone-{mark}", f".room-new-{mark}"


@pytest.fixture
def big(club):
    club.lay("/big/")


@pytest.fixture
def large(club):
    """A large file that is shown."""
    club.lay(("/big/large", LARGE))
    club.open("/big/large")
    return "/big/large"


# Up and down

@pytest.mark.timeout(3 * SLOW)
def test_upload_of_the_largest(club, browser, big, tell):
    """16 MiB up and down through the front, with nothing else between, and how fast."""
    data = dice.randbytes(16 * MIB)
    path = club.on_disk("largest", data)
    try:
        club.port = club.lossy.front
        club.log_in("ann")
        club.put("/big", path)
        browser.sees("1 file uploaded", "#notices", SLOW)
        up = told_pace(browser)
        assert hashlib.sha256(club.held("/big/largest")).digest() == hashlib.sha256(data).digest()
        browser.until("its size", lambda: "16 MiB" in row(browser, "largest"))
        browser.follow("largest")
        browser.sees("This cannot be shown here.")
        browser.press("Download")
        browser.sees("largest: 16 MiB in", "#notices", SLOW)
        down = told_pace(browser)
        assert hashlib.sha256(club.saved("largest")).digest() == hashlib.sha256(data).digest()
    finally:
        club.port, club.user = club.lossy.port, ""
    load = os.getloadavg()[0]
    tell(f"16 MiB through the front, load {load:.1f}: {up:.1f} MiB a second up, {down:.1f} down")
    if load < os.cpu_count() / 2:  # (on a machine that others use too a pace says nothing)
        assert min(up, down) >= 5


def told_pace(browser):
    return 16 / float(re.search(r"in ([0-9.]+) seconds", browser.text_of("#notices"))[1])


def test_upload_of_what_cannot_be(club, browser, big):
    """It is told before anything is sent; the rest goes up."""
    files = {"too large": bytes(16 * MIB + 1), LONG: b"x", "fits": b"fits"}
    club.put("/big", club.on_disk("too large", bytes(16 * MIB + 1)), told=f"{TOO_LARGE} Nothing was sent.")
    club.put("/big", *map(club.on_disk, files, files.values()))
    browser.sees("2 of 3 cannot be uploaded", "dialog")
    for told in TOO_LARGE, f"{LONG}: This counts as 66 letters; 64 are the most. Accents":
        browser.sees(told, "dialog li")
    assert [it for it in club.lossy.bodies if b"CREATE" in it or b"MKDIR" in it] == []
    browser.press("Upload the other 1")
    browser.sees("1 file uploaded", "#notices")
    assert (club.names("/big"), club.text("/big/fits")) == (["fits"], "fits")


# Versions

def replace(browser, path, words="Replace"):
    choose(browser, "Upload a new version", path)
    browser.sees("takes the place of what is there. It cannot be brought back.", "dialog")
    browser.press(words, DIALOG)


def test_upload_of_a_new_version_beside_the_old_one(club, browser, large):
    replace(browser, club.on_disk("new", b"ten bytes."), "Keep both")
    browser.sees("The old version is kept: large (before ", "#notices")
    old, = [it for it in club.names("/big") if it.startswith("large (before ")]
    assert (club.held(large), club.held(f"/big/{old}")) == (b"ten bytes.", LARGE)


def test_upload_of_a_new_version_by_a_rows_menu(club, browser, big):
    club.lay(("/big/members.csv", b"ann;bob"))
    club.open("/big")
    browser.press("More for members.csv")
    browser.sees("Upload a new version", ".menu")
    choose(browser, "Upload a new version", club.on_disk("new.csv", b"ann;bob;eve"))
    browser.press("Keep both")
    browser.sees("uploaded", "#notices")
    old, = [it for it in club.names("/big") if it.startswith("members (before")]
    assert (club.text("/big/members.csv"), club.text(f"/big/{old}")) == ("ann;bob;eve", "ann;bob")


def test_upload_of_a_new_version_keeps_the_old_in_the_trash(club, browser):
    """Where its user has one; without is a choice of its own."""
    place = trash.places_of("ann")[0]
    club.make_trash(place, "ann")
    club.lay(("/plans/june.txt", b"first"))
    club.open("/plans/june.txt")
    for data, words in (b"second", "Replace, and keep the old in the trash"), (b"third", "Replace"):
        choose(browser, "Upload a new version", club.on_disk("june.txt", data))
        browser.sees("takes the place of what is there.", "dialog")
        assert "cannot be brought back" not in browser.text_of("dialog")
        browser.press(words, DIALOG)
        browser.until(words, lambda: club.text("/plans/june.txt") == data.decode())
    kept, = club.names(place)
    assert club.text(f"{place}/{kept}") == "first"


def test_upload_by_a_name_that_is_there(club, browser, large):
    club.put("/big", club.on_disk("large", b"both"))
    browser.press("Keep both")
    browser.sees("1 file uploaded", "#notices")
    assert browser.script(ASKED) is False
    assert (club.held("/big/large (2)"), club.held(large)) == (b"both", LARGE)


def test_copies_kept_by_an_upload_open_nothing(club, browser):
    """What is kept as a copy beside a document has its list."""
    club.lay(("/plans/salary.txt", b"1"))
    club.sets("/plans/salary.txt", entry("OWNER@", ALL, 0), flags=2)
    for size in 4, 70_000, 5:
        club.open("/plans/salary.txt")
        choose(browser, "Upload a new version", club.on_disk("salary.txt", bytes(size)))
        browser.press("Keep both", DIALOG)
        browser.sees("uploaded", "#notices")
    kept = [it for it in club.names("/plans") if it.startswith("salary (")]
    lists = [club.holds({"cmd": "GETLIST", "path": f"/plans/{it}"}) for it in kept]
    assert [(it["aclflag"], *(its["who"] for its in it["entries"])) for it in lists] == 3 * [(2, "OWNER@")]


@pytest.fixture
def overtaken(club, browser, large):
    """A new version that somebody else overtakes: its bytes, theirs, and what is chosen then."""
    mine = dice.randbytes(2 * PIECE + 1)
    club.lossy.hold(".room-pieces-", '"RENAME"')
    replace(browser, club.on_disk("mine", mine))
    browser.until("it waits", lambda: club.lossy.held)
    theirs = cases.compact(json.loads(club.bytes(f"{large}/{NAME}")) | {"sha256": "0" * 64})
    club.writes(f"{large}/{NAME}", theirs)
    club.lossy.go_on()
    browser.sees("large: Somebody changed this meanwhile", "dialog")
    browser.sees("What is in it belongs to ann.", "dialog")

    def choose_(words):
        browser.press(words)
        browser.sees("1 file uploaded", "#notices")
    return mine, theirs, choose_


def test_upload_that_is_overtaken_replaces(club, large, overtaken):
    mine, theirs, chooses = overtaken
    chooses("Replace")
    assert club.bytes(f"{large}/{NAME}") != theirs
    assert club.held(large) == mine


def test_upload_that_is_overtaken_is_kept_as_a_copy(club, browser, large, overtaken):
    """What is damaged is told, and not given out."""
    mine, theirs, chooses = overtaken
    chooses("Keep mine as a copy")
    assert club.bytes(f"{large}/{NAME}") == theirs
    assert club.held(f"{large} (copy of ann)") == mine
    club.anew(large)
    browser.press("Download")
    browser.sees("is damaged", "#notices")
    assert os.listdir(club.back) == []


# What is stopped

def test_upload_that_is_stopped(club, browser, big):
    """By a crash of the page: each request acts once, and it is shown and told. (The next one: the cases.)"""
    data = dice.randbytes(3 * MIB)
    club.lossy.lose('"CREATE"', 10_000)
    club.put("/big", club.on_disk("stopped", data))
    browser.sees("sent again until", "#busy")
    kept = "return Object.keys(localStorage).filter((it) => /^fileroom.ann.*body$/.test(it)).length"
    browser.until("four are under way, each kept", lambda: browser.script(kept) == 4)
    browser.go("about:blank")
    club.lossy.lose("")
    club.open("/big")
    browser.sees("/big/stopped was not wholly uploaded, copied or removed: do it again.", "#notices")
    browser.until("it is shown", lambda: "unfinished upload" in row(browser, "stopped"))
    browser.follow("stopped")
    browser.sees("was stopped or goes on", "main")
    writing = f"/big/stopped/{club.names('/big/stopped')[0]}"
    pieces = club.names(writing)
    assert len(pieces) >= 2
    assert [club.bytes(f"{writing}/{it}") for it in sorted(pieces)] == cases.pieces_of(data)[:len(pieces)]


def test_upload_that_is_cancelled(club, browser, big):
    """Nothing of it is left."""
    club.lossy.hold(".room-writing-", '"CREATE"')
    club.put("/big", club.on_disk("cancelled", dice.randbytes(3 * MIB)))
    browser.until("it waits", lambda: club.lossy.held)
    assert browser.script(ASKED) is True
    club.open("/big", "access")
    browser.press("Add an entry")
    browser.until("it ends", lambda: browser.press("Cancel", "//section[@id='transfers']") or
                  "ends …" in browser.text_of("#transfers"))
    club.lossy.go_on()
    browser.sees("Upload cancelled: Stopped.", "#notices")
    browser.press("Up", "//main")  # (what is typed of another view is still there)
    assert club.names("/big") == []


@pytest.mark.parametrize("name, told", [(beside("between")[0], "a document"), ("between", "between")],
                         ids=["between two renames", "before both"])
def test_upload_that_is_stopped_over_a_document(club, browser, name, told):
    """It is told. (How the next one goes on: the cases.)"""
    club.lay((f"/big/{name}", b"old"), f"/big/{beside('between')[1]}/")
    club.open("/big")
    browser.sees(f"of a large file that was to replace {told}", "main")


# Folders

def drop(browser, path, at=(400, 20)):
    """Drops something of the disk there: by itself at the top of the page."""
    data = {"items": [], "files": [path], "dragOperationsMask": 1}
    for kind in "dragEnter", "dragOver", "drop":
        if kind == "drop":
            shown = browser.text_of(".over")
        browser.devtools("Input.dispatchDragEvent", type=kind, x=at[0], y=at[1], data=data)
    return shown


def test_upload_of_what_is_dropped_anywhere(club, browser):
    """The page says where it goes."""
    club.lay("/dropped/")
    club.open("/dropped")
    assert drop(browser, club.on_disk("one.txt", b"one")) == "Drop to upload to dropped"
    browser.sees("1 file uploaded", "#notices")
    assert club.kinds("/dropped") == {"one.txt": "file"}


def test_upload_of_what_is_dropped_goes_to_what_is_shown(club, browser):
    """Also where the folder before comes late."""
    club.lay("/slow/", "/dropped/")
    club.open()
    club.lossy.hold('"ACCESS"', '"/slow"')
    browser.script("location.hash = '#open/club/slow'")
    browser.until("it is asked for", lambda: club.lossy.held)
    club.open("/dropped")
    club.lossy.go_on()
    for _ in range(9):  # (by then that came too)
        browser.later("fetch('/whoami').then(() => arguments[0]())")
    assert drop(browser, club.on_disk("one.txt", b"one")) == "Drop to upload to dropped"
    browser.sees("1 file uploaded", "#notices")
    assert (club.names("/slow"), club.names("/dropped")) == ([], ["one.txt"])


def test_upload_of_what_is_dropped_where_one_may_not(club, browser):
    """The browser stays on the page, and nothing is sent. Nor is it under a dialog."""
    club.lay("/dropped/")
    club.open("/dropped")
    make_new(browser, "New folder")
    browser.sees("Name", "dialog")
    assert drop(browser, club.on_disk("one.txt", b"one")) == ""
    club.lets("eve", "/dropped", VIEW)
    club.log_in("eve")
    club.open("/dropped")
    assert drop(browser, club.on_disk("one.txt", b"one")) == ""
    assert browser.script(f"{PLACE}") == "#open/club/dropped"
    assert club.kinds("/dropped") == {}


def test_upload_on_the_first_page_is_seen(club, browser):
    """Its address names no place."""
    browser.go(club.address(""))
    browser.sees("This folder is empty.", "main")
    choose(browser, "Upload", club.on_disk("first.txt", b"first"))
    browser.sees("first.txt", ".things")


def test_upload_over_a_name_keeps_both_first(club, browser):
    club.lay(("/twice/letter.txt", b"old"))
    club.open("/twice")
    letter = club.on_disk("letter.txt", b"new")
    choose(browser, "Upload", letter, club.on_disk("cancelled.txt"))
    browser.press("Cancel", DIALOG)  # (then nothing goes up)
    choose(browser, "Upload", letter, club.on_disk("other.txt", b"other"))
    browser.press("Leave out", DIALOG)
    browser.sees("1 file uploaded", "#notices")
    choose(browser, "Upload", letter)
    browser.sees("This is there already", "dialog")
    assert browser.script("return document.activeElement.textContent") == "Keep both"
    assert "keep the old" not in browser.text_of("dialog")  # (there is no trash)
    browser.keys("enter")
    browser.sees("letter (2).txt", ".things")
    assert {it: club.text(f"/twice/{it}") for it in club.names("/twice")} == {
        "letter.txt": "old", "letter (2).txt": "new", "other.txt": "other"}


@pytest.mark.parametrize("size", [3, PIECE + 1], ids=["small", "large"])
def test_upload_over_a_name_keeps_the_old_in_the_trash(club, browser, size):
    club.make_trash()
    club.lay(("/twice/letter.txt", bytes(size)))
    club.sets("/twice/letter.txt", entry("bob", VIEW, 3 if size > PIECE else 0))
    club.open("/twice")
    choose(browser, "Upload", club.on_disk("letter.txt", b"new" * PIECE))
    browser.press("Replace, and keep the old in the trash", DIALOG)
    browser.sees("The old version is kept: Trash.", "#notices")
    name, = club.names("/trash/ann")
    assert name.startswith("letter.txt~twice~")
    assert (club.held(f"/trash/ann/{name}"), club.held("/twice/letter.txt")) == (bytes(size), b"new" * PIECE)
    assert [it[3] for it in club.own("/twice/letter.txt")] == ["bob"]


def test_upload_of_a_folder_dropped(club, browser, folder_on_disk):
    top, look = folder_on_disk
    club.lay("/dropped/")
    club.open("/dropped")
    browser.sees("Drop files anywhere on this page.")
    drop(browser, top)
    browser.sees("3 files uploaded", "#notices")
    look("/dropped/tree")
    assert club.kinds("/dropped/tree/empty") == {}


def test_upload_of_a_folder_chosen(club, browser, folder_on_disk):
    top, look = folder_on_disk
    club.lay("/chosen/")
    club.open("/chosen")
    choose(browser, "Upload a folder", top)
    browser.sees("3 files uploaded", "#notices")
    look("/chosen/tree")


@pytest.fixture
def folder_on_disk(club):
    """One with files, folders, and one of them empty; and a look at what became of it."""
    files = {"a.txt": b"a", "deep/b.bin": dice.randbytes(PIECE + 9), "deep/er/c.txt": b"c"}
    for name, data in files.items():
        club.on_disk(f"tree/{name}", data)
    top = os.path.join(club.disk, "tree")
    os.mkdir(os.path.join(top, "empty"))

    def look(path):
        assert {name: club.held(f"{path}/{name}") == data for name, data in files.items()} == dict.fromkeys(files, True)
    return top, look
