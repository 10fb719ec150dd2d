"""The limits of a room are told before anything is sent, each with a way on."""
import os

import pytest

from .club import DIALOG, VIEW, choose, entry, make_new, of_folder

FULL = "/limits/year"
LONG = "minutes of the meeting of the board about the summer fair and the tent in May.txt"
SHORT = "minutes of the meeting of the board about the summer fair an.txt"
DEEP = "/limits" + 15 * "/d"


@pytest.fixture
def almost(club):
    """A folder with twenty things, and 250 files for it."""
    club.lay(*(f"{FULL}/there {count}" for count in range(20)))
    return [club.on_disk(f"many/{count}") for count in range(250)]


@pytest.fixture
def full(club):
    """A full folder, which eve may view."""
    club.lay(*(f"{FULL}/{count}" for count in range(256)))
    club.sets(FULL, entry("eve", VIEW))


def test_limit_of_a_folder_is_told_before_an_upload(club, browser, almost):
    club.put(FULL, *almost)
    browser.sees(f"{FULL} would have 270 items; 256 are the most.", "dialog li")
    browser.press("Cancel", DIALOG)
    assert len(club.names(FULL)) == 20


def test_limit_of_a_folder_takes_what_fits(club, browser, almost):
    """The rest is told in one line."""
    club.put(FULL, *almost)
    browser.press("Upload what fits")
    browser.sees("14 of 250 failed:", "#notices")
    assert browser.shown().count("The folder is full") == 0
    browser.act("//*[@id='notices']//summary", "click")
    assert browser.shown().count("The folder is full") == 14
    assert len(club.names(FULL)) == 256


def test_limit_of_a_folder_leads_the_rest_into_another(club, browser, full):
    """Of the same list."""
    club.put(FULL, *(club.on_disk(f"more/{count}") for count in range(400, 410)))
    browser.press("Put the rest into year (2)")
    browser.sees("10 files uploaded", "#notices")
    assert sorted(club.names(f"{FULL} (2)")) == [str(it) for it in range(400, 410)]
    assert club.own(f"{FULL} (2)") == [(0, 3, VIEW, "eve")]


def test_limit_of_a_folder_leads_what_is_made_into_another(club, browser, full):
    """The same each time."""
    for name in "one", "two":
        club.open(FULL)
        make_new(browser, "New folder")
        browser.sees(f"{FULL} is full (256 items). What you make goes into {FULL} (2), beside it.", "dialog")
        browser.fill("Name", name)
        browser.press("Create")
        browser.sees(f"{name} created.", "#notices")
        browser.sees("year (2)", "h1")
    assert club.names(f"{FULL} (2)") == ["one", "two"]
    assert club.own(f"{FULL} (2)") == [(0, 3, VIEW, "eve")]


def test_limit_of_a_folder_leads_a_chosen_folder_into_another(club, browser, full):
    """A new one."""
    club.lay(f"{FULL} (2)/")
    club.open(FULL)
    for at in "deep/er/a.txt", "deep/b.txt":
        club.on_disk(f"boxes/{at}", b"a")
    choose(browser, "Upload a folder", os.path.join(club.disk, "boxes"))
    browser.press("Put the rest into year (3)")
    browser.sees("2 files uploaded", "#notices")
    assert [club.names(f"{FULL} (3)/boxes{it}") for it in ("", "/deep", "/deep/er")] == [
        ["deep"], ["b.txt", "er"], ["a.txt"]]


# Names

def test_limit_of_a_name_as_it_is_typed(club, browser):
    """A shorter one is offered."""
    club.open()
    make_new(browser, "New document")
    browser.fill("Name", LONG)
    browser.sees("This counts as 81 letters; 64 are the most", "dialog")
    browser.press(f"Shorten it to {SHORT}", DIALOG)
    browser.until("it is told no more", lambda: "counts as" not in browser.shown())
    browser.press("Create", DIALOG)
    browser.sees(f"{SHORT} created.", "#notices")


def test_limit_of_a_name_in_an_upload(club, browser):
    club.put("", club.on_disk(LONG, b"long"))
    browser.sees(f"64 are the most. Accents count double or more. A shorter name is {SHORT}.", "dialog")
    assert club.names("/") == []
    browser.press("Upload it by a shorter name", DIALOG)
    browser.sees("1 file uploaded", "#notices")
    assert club.text(f"/{SHORT}") == "long"


# Depth

@pytest.fixture
def deep(club):
    club.lay(f"{DEEP}/")


def test_limit_of_depth_is_told_before_it_is_typed(club, browser, deep):
    club.open(DEEP)
    make_new(browser, "New folder")
    browser.sees("A path would have more than 16 names.", "dialog")


def test_limit_of_depth_is_told_before_an_upload(club, browser, deep):
    club.put(DEEP, club.on_disk("seventeenth.txt", b"a"), told="A path has at most 16 names. Nothing was sent.")
    above = DEEP.rpartition("/")[0]
    club.put(above, club.on_disk("large.bin", bytes(70_000)),
             told="A file of more than 64 KiB lies 14 deep at most. Nothing was sent.")
    assert (club.names(DEEP), club.names(above)) == ([], ["d"])


def test_limit_of_depth_in_the_trash(club, browser):
    """What would be too deep there is told, and nothing is lost."""
    club.make_trash()
    club.lay("/d" * 15 + "/")
    club.open("/d")
    of_folder(browser, "Remove")
    browser.sees("A path would have more than 16 names", "#notices")
    assert club.names("/d" * 14) == ["d"]


# Numbers

def test_limit_of_numbers_is_told_to_the_owner(club, browser, tells):
    """Of a room whose numbers end soon, above whatever is shown, until they close it for the day; to nobody else."""
    told = "This room can take new files for about 7 more days. Ask your administrator to renew it."
    tells("warnings/ann.json", {"club": {"numbers_days": 7}, "office": {"numbers_days": 3}})
    club.lay("/limits/")
    club.log_in("eve")
    club.open()
    assert browser.text_of("#warned") == ""
    club.log_in("ann")
    for view, path in ("open", ""), ("who", "/limits"):
        club.open(path, view)
        browser.sees(told, "#warned")
    browser.press("Hide until tomorrow")
    club.log_in("ann")
    club.open()
    assert browser.text_of("#warned") == ""
