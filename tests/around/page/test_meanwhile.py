"""Share and the matrix, while somebody else changes the same lists: they show what is so, and nothing of it goes."""
import pytest

from .club import ALL, EDIT, GROUP, MATRIX, PASS, TEXTS, VIEW, entry, set_list, share

TOP, PATH = "/team", "/team/plans"
PRIVATE = [(0, 3, ALL, "ann")]
OWNER, ENG = entry("OWNER@", ALL), entry("eng", VIEW, 3 | GROUP)
FIELD = "return document.querySelector('main [role=combobox]').value"
FOCUS = "return document.activeElement.textContent"
SHARES = "return [...document.querySelectorAll('.shares li')].map((it) => it.textContent)"


@pytest.fixture
def team(club):
    """A folder that a group may view, as one in it, which takes that over."""
    club.lay(f"{PATH}/")
    club.sets(TOP, ENG, OWNER, flags=2)


def listed(club):
    return club.holds({"cmd": "GETLIST", "path": PATH})


def comes_back(browser, what, is_so):
    """Looks at the page again, as often as it takes (it may be at work)."""
    def looks():
        browser.script("dispatchEvent(new Event('focus'))")
        return is_so()
    browser.until(what, looks)


@pytest.mark.parametrize("press", ["Can edit and delete", "Stop sharing with bob", "Make private"])
def test_a_press_goes_over_no_list_that_it_does_not_show(club, browser, team, press):
    """That somebody made it private, or shared it with others, stays; it is told, and shown."""
    club.sets(PATH, entry("bob", VIEW))
    club.open(PATH, "access")
    browser.sees("the group eng", ".share")
    club.sets(PATH, entry("eve", ALL), entry("ann", ALL), flags=2)
    theirs = listed(club)
    browser.act("//main//input[@role='combobox']", "value", {"text": "bob"})
    browser.press(press, "//main//section[@class='share']")
    browser.sees("Somebody changed this meanwhile. Look again, then repeat it.", "#notices")
    assert listed(club) == theirs
    browser.until("theirs is shown", lambda: browser.script(SHARES) == ["eveFull control×"])
    assert "the group eng" not in browser.text_of(".share")
    share(browser, "bob", "Can view")
    browser.sees("Sharing updated.", "#notices")
    assert (listed(club)["aclflag"], [it[3] for it in club.own(PATH)]) == (2, ["eve", "ann", "bob"])


def test_two_versions_of_a_list_tell_whether_it_follows(club, browser, team):
    """And no key sets one over the other."""
    club.open(PATH, "access")
    set_list(browser, "the user", "bob", "view")
    club.sets(PATH, entry("ann", ALL), flags=2)
    browser.press("Save the list")
    browser.sees("Somebody changed this meanwhile", "dialog")
    assert browser.script(FOCUS) == "Cancel"
    assert browser.script(TEXTS, "dialog :is(h3, h3 + p)") == [
        "Theirs", "What the folder above hands down does not count.",
        "Yours", "It takes over what the folder above hands down."]
    browser.keys("enter")
    browser.until("it closes", lambda: browser.script(TEXTS, "dialog") == [])
    assert (listed(club)["aclflag"], club.own(PATH)) == (2, PRIVATE)


def test_who_comes_back_to_share_is_shown_what_is_so(club, browser, team):
    """Of its list and of those above; not while a name is typed there."""
    club.sets(TOP, OWNER, flags=2)
    club.open(PATH, "access")
    browser.sees("Only its owner has access.", ".share")
    browser.script("document.querySelector('.share form button').focus()")
    club.sets(PATH, entry("bob", VIEW))
    comes_back(browser, "bob", lambda: browser.script(SHARES) == ["bobCan view×bob cannot get here yet. Allow"])
    assert browser.script(FOCUS) == "Can view"
    club.sets(TOP, entry("bob", PASS, 0), OWNER, flags=2)
    comes_back(browser, "bob gets there", lambda: browser.script(SHARES) == ["bobCan view×"])
    browser.act("//main//input[@role='combobox']", "value", {"text": "ev"})
    club.sets(PATH, entry("eve", VIEW))
    before = club.lossy.times("GETLIST")
    browser.script("dispatchEvent(new Event('focus'))")
    browser.later("fetch('/whoami').then(() => arguments[0]())")
    assert (club.lossy.times("GETLIST"), browser.script(FIELD)) == (before, "ev")
    browser.act("//main//input[@role='combobox']", "clear")
    comes_back(browser, "eve", lambda: browser.script(SHARES)[0].startswith("eveCan view"))


def test_who_comes_back_to_the_matrix_is_shown_what_is_so(club, browser, team):
    """With the focus where it was."""
    row = lambda name, bob: [name, "Full control", bob, "Shut out"]
    club.open(TOP, "who")
    assert browser.script(MATRIX) == [row("team/", "Can view"), row("plans/", "Can view")]
    browser.act("//main//tbody/tr[1]/td[1]/button", "click")
    browser.sees("The list of /team", ".detail")
    club.sets(PATH, entry("bob", EDIT))
    comes_back(browser, "bob", lambda: browser.script(MATRIX)[1] == row("plans/", "Can add and edit"))
    assert browser.script("return document.activeElement.closest('tr').rowIndex") == 1
    browser.sees("Press a cell", ".detail")
    club.sets(TOP, OWNER, flags=2)
    comes_back(browser, "the door", lambda: browser.script(MATRIX)[1] == row("plans/", "Shut out"))


def test_an_undo_that_is_refused_shows_what_is_so(club, browser, team):
    club.sets(PATH, entry("bob", VIEW))
    club.open(PATH, "access")
    browser.press("Stop sharing with bob")
    browser.until("it is gone", lambda: browser.script(SHARES) == [])
    club.sets(PATH, entry("eng", EDIT, 3 | GROUP))
    browser.press("Undo")
    browser.sees("Somebody changed this meanwhile", "#notices")
    browser.until("theirs", lambda: browser.script(SHARES) == ["the group engCan add and edit×"])
