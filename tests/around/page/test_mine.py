"""What the browser keeps of a user's places: favourites, the latest ones, and none of another login's."""
import pytest

from .club import DIALOG, TEXTS, by_menu, by_rail, rename, to_folder

KEPT = "return Object.keys(localStorage).filter((it) => /^fileroom.(mine|recent)/.test(it))"


def in_rail(browser, title):
    """What stands in the rail below that title."""
    return browser.script("return [...document.querySelectorAll(`#rail ul[aria-label='${arguments[0]}'] a`)]"
                          ".map((it) => it.textContent)", title)


@pytest.fixture
def plans(club):
    club.lay("/plans/2026/", ("/plans/notes.txt", b"ann's"), "/minutes/")


def test_favourite_is_at_hand(club, browser, plans):
    """Until it is none; it is found by its new name, and goes where nothing is at its place."""
    club.open("/plans")
    by_menu(browser, "2026", "Add to favourites")
    browser.sees("2026 is a favourite now.", "#notices")
    browser.until("it is in the rail", lambda: in_rail(browser, "Favourites") == ["2026"])
    by_menu(browser, "2026", "Rename")
    rename(browser, "2027")
    browser.until("it has its new name there", lambda: in_rail(browser, "Favourites") == ["2027"])
    club.open("/minutes")
    by_rail(browser, "2027")
    browser.until("it is shown", lambda: browser.script("return location.hash") == "#open/club/plans/2027")
    club.open("/plans")
    by_menu(browser, "2027", "Remove from favourites")
    browser.until("it is gone", lambda: in_rail(browser, "Favourites") == [])
    by_menu(browser, "2027", "Add to favourites")
    club.does({"cmd": "REMOVE", "path": "/plans/2027"})
    club.go("#open/club/plans/2027")
    browser.until("nothing is there", lambda: in_rail(browser, "Favourites") == [])


def test_favourite_by_one_press_in_its_row(club, browser, plans):
    """Whose star tells whether it is one, also where that was chosen in the menu."""
    star = "return document.querySelector('.things .star').className"
    club.open("/plans")
    browser.act("//main//button[@title='Add to favourites: 2026']", "click")
    browser.until("it is in the rail", lambda: in_rail(browser, "Favourites") == ["2026"])
    assert browser.script(star) == "star on"
    by_menu(browser, "2026", "Remove from favourites")
    browser.until("it is none", lambda: browser.script(star) == "star")


def test_favourite_of_who_touches_has_its_star_in_sight(club, browser, plans):
    """Nobody hits what they do not see: it is shown by the mouse alone where there is one (and here is none)."""
    club.open("/plans")
    assert browser.script("return [matchMedia('(hover)').matches, getComputedStyle(document.querySelector('.star'))"
                          ".opacity]") == [False, "1"]


def test_latest_places_are_at_hand(club, browser, plans):
    """The last one first; not where one is, and not what is not there. As goals of a move, folders alone."""
    for path in "/plans", "/plans/notes.txt", "/minutes", "/nowhere":
        club.open(path)
    browser.until("all are there", lambda: in_rail(browser, "Opened last") == ["minutes", "notes.txt", "plans"])
    club.open("/plans")
    browser.until("one is in it", lambda: in_rail(browser, "Opened last") == ["minutes", "notes.txt"])
    by_menu(browser, "2026", "Move")
    browser.until("the tree", lambda: browser.find(f"{DIALOG}//*[@role='tree']"))
    assert browser.script(TEXTS, "dialog .chooser p button.small") == ["minutes", "New folder"]


def test_latest_places_are_five_beside_the_shown_one(club, browser):
    club.lay(*(f"/{it}/" for it in "abcdef"))
    for it in "abcdef":
        club.open(f"/{it}")
    for path, wanted in ("/f", "edcba"), ("", "fedcb"):
        club.open(path)
        browser.until("five are there", lambda: in_rail(browser, "Opened last") == list(wanted))


def test_trash_is_no_goal_of_a_move(club, browser, plans):
    club.make_trash()
    club.open("/plans")
    by_menu(browser, "2026", "Move")
    names = "dialog .tree li > span"
    browser.until("the tree", lambda: {"minutes", "plans"} <= {*browser.script(TEXTS, names)})
    assert "trash" not in browser.script(TEXTS, names)


def test_the_top_is_no_latest_place(club, browser, plans):
    """Also where something was moved to it: the room stands above."""
    club.open("/plans")
    by_menu(browser, "2026", "Move")
    to_folder(browser, "club")
    browser.press("Move", DIALOG)
    browser.sees("/plans/2026 is now /2026.", "#notices")
    club.open("/minutes")
    browser.until("the one before", lambda: in_rail(browser, "Opened last") == ["plans"])


def test_next_login_finds_nothing_of_the_one_before(club, browser, plans):
    """Not by the page, and not in the browser's store."""
    club.lets("bob", "/plans", 0x1F07FF)
    club.open("/plans")
    by_menu(browser, "2026", "Add to favourites")
    browser.until("it is kept", lambda: "mine/ann/club" in "".join(browser.script(KEPT)))
    browser.script("localStorage['fileroom/recent/ann/club'] = '[\"/plans\"]'")  # (as pages of before kept it)
    club.log_in("bob")
    club.open()
    assert browser.script(KEPT) == []
    assert in_rail(browser, "Favourites") + in_rail(browser, "Opened last") == []
