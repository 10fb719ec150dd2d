"""What somebody typed is never lost; names that deceive; where the page stands."""
import time

import pytest

from .club import DIALOG, PLACE, TEXTS, TYPED, by_menu, by_rail, edit, of_user, rename

PATH = "/plans/june.txt"
ASKED = "const it = new Event('beforeunload', {cancelable: true}); dispatchEvent(it); return it.defaultPrevented"
IS_OPEN = "return document.querySelector('dialog[open]') !== null"
FOCUS = "return document.activeElement.getAttribute('aria-label') ?? document.activeElement.textContent"
ENTRIES = "return document.querySelectorAll('.entries details').length"


@pytest.fixture
def june(club):
    club.lay((PATH, b"before"))
    club.anew(PATH)


# Names

def test_names_that_deceive(club, browser):
    """Letters that nobody sees, or that turn others, are shown with marks. (Which: names.mjs.)"""
    shown = "invoice⟨U+202E⟩gpj.exe"
    club.lay("/plans/invoice\u202egpj.exe")
    club.open("/plans")
    assert browser.script(TEXTS, ".things bdi") == [shown]
    browser.act("//main//a[contains(., 'gpj')]", "click")
    browser.sees(shown, "h1")
    assert shown in browser.script("return document.title")
    club.open("/plans", "who")
    browser.sees(shown, ".matrix")


# Leaving

def asks(browser, does, place):
    """It asks, and who does not want to lose anything is where they were."""
    does()
    browser.sees("Leave this?", "dialog h2")
    assert browser.script(FOCUS) == "Go on typing"  # (nothing is lost by a key)
    assert browser.script("return location.hash") == place
    browser.press("Go on typing", "//dialog[@aria-label='Leave this?']")
    browser.until("the question goes", lambda: "Leave this?" not in browser.shown())
    assert browser.script(PLACE) == place


def leaves(browser, does, place):
    """It asks, and who wants to lose it is elsewhere, and asked no more."""
    does()
    browser.press("Discard it", "//dialog[@aria-label='Leave this?']")
    browser.until(place, lambda: browser.script(PLACE) == place)
    assert (browser.script(IS_OPEN), browser.script(ASKED)) == (False, False)


def test_escape_asks_where_something_is_typed(club, browser, june):
    """And only there; the question has the focus on what loses nothing."""
    browser.press("Add text", "//main")
    browser.until("a dialog", lambda: browser.find(DIALOG))
    assert browser.script(ASKED) is False
    browser.keys("escape")
    browser.until("an empty dialog closes", lambda: not browser.script(IS_OPEN))
    browser.press("Add text", "//main")
    browser.fill("Text", "typed")
    browser.keys("escape", "escape", "escape")
    browser.sees("What you typed is not saved.", "dialog [role=alert]")
    assert browser.script(FOCUS) == "Go on typing"
    browser.keys("space")
    browser.until("the question goes", lambda: "not saved" not in browser.shown())
    browser.keys(" on")
    assert (browser.script(TYPED), browser.script(ASKED)) == ("typed on", True)


def test_back_asks_where_something_is_typed(club, browser, june):
    back = lambda: browser.script("history.back()")
    browser.press("Add text", "//main")
    browser.fill("Text", "typed on")
    asks(browser, back, f"#open/club{PATH}")
    assert browser.script(TYPED) == "typed on"
    leaves(browser, back, "#open/club")
    assert club.text(PATH) == "before"


def test_a_changed_list_asks(club, browser, june):
    """Whatever leads away."""
    place, before = f"#access/club{PATH}", club.holds({"cmd": "GETLIST", "path": PATH})
    club.go(place)
    assert browser.script(ASKED) is False
    browser.press("Add an entry")
    assert browser.script(ASKED) is True
    browser.press("Save the list")
    browser.sees("Choose for whom.", "#notices")
    browser.press("Close", "//*[@id='notices']")
    count = browser.script(ENTRIES)
    for does in (lambda: browser.follow("Contents"), lambda: browser.follow("plans"),
                 lambda: browser.script("history.back()"), lambda: of_user(browser, "Log out")):
        asks(browser, does, place)
        assert browser.script(ENTRIES) == count
    browser.press("Discard it", "//main")
    browser.until("the list as it is", lambda: browser.script(ENTRIES) < count)
    assert browser.script(ASKED) is False
    browser.press("Add an entry")
    leaves(browser, lambda: browser.follow("Who may do what"), f"#who/club{PATH}")
    assert club.holds({"cmd": "GETLIST", "path": PATH}) == before


# Somebody else was there first

def meets(club, browser, mine, theirs, words):
    """Replaces the text by `mine`, while `theirs` came: both are shown, and one does with it what these words say."""
    edit(browser, mine)
    club.writes(PATH, theirs.encode())
    browser.press("Save")
    browser.sees("Somebody changed this meanwhile", "dialog")
    browser.sees(theirs, "dialog pre")
    browser.sees(mine, "dialog pre")
    browser.press(words, "//dialog[@aria-label='Somebody changed this meanwhile']")


def test_conflict_keeps_mine_as_a_copy(club, browser, june):
    meets(club, browser, "mine", "theirs", "Keep mine as a copy")
    browser.sees("Yours is kept as june (copy of ann).txt.", "#notices")
    browser.sees("theirs", "main pre")
    assert (club.text(PATH), club.text("/plans/june (copy of ann).txt")) == ("theirs", "mine")


def test_conflict_takes_theirs(club, browser, june):
    meets(club, browser, "mine too", "theirs", "Take theirs")
    browser.sees("theirs", "main pre")
    assert (club.text(PATH), club.names("/plans")) == ("theirs", ["june.txt"])


def test_conflict_goes_on_with_mine(club, browser, june):
    """Whoever saw the other's text puts both together, unless another came since. Who cancels is asked again."""
    meets(club, browser, "mine", "theirs again", "Cancel")
    browser.sees("What you typed is not saved.", "dialog")
    browser.press("Save")
    browser.sees("theirs again", "dialog pre")
    browser.press("Go on with mine")
    browser.sees("Nothing is saved yet: your next save replaces theirs.", "dialog")
    club.writes(PATH, b"theirs once more")
    browser.press("Save")
    browser.sees("theirs once more", "dialog pre")
    browser.press("Go on with mine")
    browser.sees("Nothing is saved yet: your next save replaces theirs.", "dialog")
    assert browser.script(TYPED) == "mine"
    browser.fill("Text", "theirs and mine")
    browser.press("Save")
    browser.sees("Saved.")
    assert club.text(PATH) == "theirs and mine"
    browser.press("Undo")
    browser.sees("The old text is back.", "#notices")
    assert club.text(PATH) == "theirs once more"  # (and not what was there before any of it)


# Where the page stands

@pytest.fixture
def long(club):
    club.lay(*(f"/long/{count:02}.txt" for count in range(60)))
    club.anew("/long")


def test_after_a_rename_the_page_stands_where_it_stood(browser, long):
    by_menu(browser, "40.txt", "Rename")
    top = browser.script("return Math.round(scrollY)")
    rename(browser, "40 b.txt")
    browser.sees("is now /long/40 b.txt")
    browser.until("at rest", lambda: browser.script(FOCUS) == "40 b.txt")
    moved = abs(browser.script("return Math.round(scrollY)") - top)
    assert (top > 100, moved < 80) == (True, True)  # (a notice takes a line or two)


@pytest.mark.parametrize("by", ["mouse", "keys"])
def test_a_save_that_is_undone_leads_back_to_what_was_edited(club, browser, long, by):
    """In a list to its row, and in its own view to its name: keys go on from there, and not from the top."""
    def saves_and_undoes(press):
        press()
        browser.fill("Text", "after")
        browser.press("Save")
        browser.sees("Saved.", "#notices")
        if by == "mouse":
            browser.press("Undo")
        else:
            browser.chord("ctrl", "z")
        browser.sees("The old text is back.", "#notices")
        browser.until("the page is at rest", lambda: not browser.script("return document.querySelector('main').inert"))
        return browser.script(FOCUS)
    pen = "//main//button[@title='Edit 40.txt']"
    browser.script("document.querySelectorAll('.things .name')[40].focus()")  # (till it is in sight it has no pen)
    browser.until("its pen", lambda: browser.script(f"return document.evaluate(\"{pen}\", document, null, 9)"
                                                    ".singleNodeValue.checkVisibility()"))
    assert saves_and_undoes(lambda: browser.act(pen, "click")) == "40.txt"
    browser.follow("40.txt")
    assert saves_and_undoes(lambda: browser.press("Edit", "//main")) == "40.txt"
    assert club.text("/long/40.txt") == ""


def test_back_leads_to_no_old_name(browser, long):
    browser.follow("40.txt")
    browser.press("Rename", "//main")
    rename(browser, "40 c.txt")
    browser.sees("40 c.txt", "h1")
    browser.script("history.back()")
    browser.until("Back", lambda: browser.script(PLACE) != "#open/club/long/40%20c.txt")
    assert browser.script(PLACE) == "#open/club/long"
    browser.until("where it was left", lambda: browser.script("return scrollY") > 100)


def test_an_unknown_room(club, browser):
    """It is told at once, and which are there."""
    browser.go(club.address("#open/nowhere/plans"))
    browser.sees("There is no room nowhere here.", "main")
    by_rail(browser, "club")
    browser.until("it is shown", lambda: browser.script(PLACE) == "#open/club")


def test_nothing_can_be_pressed_until_a_view_is_there(club, browser):
    """Also as that of a place left before comes."""
    lossy, inert = club.lossy, "const it = document.querySelector('main'); return [it.inert, it.ariaBusy]"
    club.lay("/plans/", "/long/")
    club.open()
    lossy.hold('"LIST"', '"path":"/long"')
    browser.script("location.hash = '#open/club/long'")
    browser.until("it is asked for", lambda: lossy.held)
    sent = lossy.times('"path":"/plans"')
    lossy.lose('"path":"/plans"', 10_000)
    browser.script("location.hash = '#open/club/plans'")
    browser.until("the other too", lambda: lossy.times('"path":"/plans"') > sent)
    lossy.go_on()
    time.sleep(1)  # (the first one comes, and is not shown)
    assert (browser.script(inert), browser.script(PLACE)) == ([True, "true"], "#open/club")
    lossy.lose("")
    browser.until("the other", lambda: browser.script(PLACE) == "#open/club/plans")
    assert browser.script(inert) == [False, None]
