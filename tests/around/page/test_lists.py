"""Lists: the matrix of who may do what, the editor of a list, and what is offered to whom."""
import time

import pytest
from room_client.words import RIGHTS, SETS

from .club import (ADD, ALL, BUTTONS, CHANGE, EDIT, MATRIX, NAME, PASS, PIECE, VIEW, WORK_HERE, entry, offers,
                   set_list)
from .test_several import BAR

WORDS = "import('/lists.js').then((it) => arguments[0]([it.RIGHTS.map(({bit, words}) => [bit, words]), " \
        "it.SETS.map(({name, mask}) => [name, mask])]))"
TAKES_OVER = "//main//label[contains(., 'takes over')]"
TICKED = ("const it = document.querySelector('.entries details[open]'); return [it.querySelector('select[aria-label="
          "Rights]').selectedOptions[0].textContent, it.querySelectorAll('fieldset input:checked').length]")
SUMMARIES = "return [...document.querySelectorAll('.entries > li > details > summary')].map((it) => it.textContent)"


def saves(browser):
    browser.press("Save the list")
    browser.sees("Sharing updated.")


def test_view_for_a_user(club, browser):
    """ann lets eve read; the matrix tells it, and which entries decide."""
    club.lay("/plans/june.txt")
    assert club.holds({"cmd": "LIST", "path": "/plans"}, "eve") == {
        "bit": 32, "code": 5, "error": "ACCESS", "path": "/"}
    club.open("/plans", "who")
    browser.sees("eve", "thead")
    assert browser.script(MATRIX) == [[it, "Full control", "Can view", "Shut out"] for it in ("plans/", "june.txt")]
    for path, words in ("", "Counts here alone."), \
            ("/plans", "Counts here, and is handed down to documents and folders in it, and further down."):
        club.open(path, "access")
        set_list(browser, "the user", "eve", "view", here_alone=path == "")
        browser.sees(f"Allow the user eve to view. {words}", "summary")
        saves(browser)
    assert club.own("/plans") == [(0, 3, VIEW, "eve")]
    club.open("/plans", "who")
    browser.sees("eve", "thead")
    assert browser.script(MATRIX) == [[it, "Full control", "Can view", "Can view"] for it in ("plans/", "june.txt")]
    browser.act("//main//tbody/tr[1]/td[3]/button", "click")
    browser.sees("The list of /plans lets eve see what is in it, pass through to what is in it, see its owner and size "
                 "and see its list. By its entries: 1. Allow the user eve to view.", ".detail")


def test_a_list_of_its_own(club, browser):
    """A document stops taking over its folder's entries, and takes them over again."""
    club.lay("/plans/june.txt")
    club.lets("eve", "/plans", VIEW)
    club.open("/plans/june.txt", "access")
    browser.sees("Handed down from the folder above")
    browser.sees("Without the tick, what is handed down now stays as its own entries", "main")
    browser.act(TAKES_OVER, "click")
    browser.sees("What the folder above hands down does not count.", "main")
    browser.act(TAKES_OVER, "click")
    browser.sees("Nothing is in it.", "main")
    browser.act(TAKES_OVER, "click")
    browser.sees("Allow the user eve to view.", ".entries details")
    browser.act("//main//ol[1]/li[1]//summary", "click")
    browser.press("Remove", "//main//ol[1]/li[1]")
    saves(browser)
    found = club.holds({"cmd": "GETLIST", "path": "/plans/june.txt"})
    assert (found["aclflag"], [(it["flag"], it["who"]) for it in found["entries"]]) == (
        2, [(0, "OWNER@"), (0, "GROUP@")])
    browser.act(TAKES_OVER, "click")
    saves(browser)
    browser.sees("Allow the user eve to view.", ".handed")


def test_an_entry_that_is_moved_keeps_the_focus(club, browser):
    club.lay("/june.txt")
    club.sets("/june.txt", *(entry(it, VIEW, 0) for it in ("bob", "eve", "ann")))
    club.open("/june.txt", "access")
    browser.act("//main//ol[1]/li[1]//summary", "click")
    browser.press("Up", "//main//ol[1]/li[1]")
    assert "bob" in browser.script(SUMMARIES)[0]
    browser.press("Down", "//main//ol[1]/li[1]")
    browser.until("it stands below", lambda: "bob" in browser.script(SUMMARIES)[1])
    assert browser.script("return document.activeElement.textContent") == browser.script(SUMMARIES)[1]


def test_two_change_a_list(club, browser):
    """An unknown user is pointed out; then both lists are shown, of which one is chosen."""
    path = "/june.txt"
    club.lay(path)
    club.open(path, "access")
    set_list(browser, "the user", "nobody-here", "view")
    browser.sees("nobody-here is no user of this room.", "main")
    club.sets(path, entry("bob", 1, 0))
    browser.press("Save the list")
    browser.sees("nobody-here is no user", "dialog")
    browser.press("Set it all the same")
    browser.sees("Somebody changed this meanwhile", "dialog")
    browser.sees("Allow the user bob to read it.", "dialog")
    browser.sees("Allow the user nobody-here to view.", "dialog")
    browser.press("Take theirs")
    browser.sees("Allow the user bob to read it.", "summary")
    browser.act("//main//ol[1]/li[1]//summary", "click")  # (once the page is at rest)
    assert (club.own(path), "updated" in browser.text_of("#notices")) == ([(0, 0, 1, "bob")], False)
    club.sets(path, entry("eve", 1, 0))
    set_list(browser, "the user", "bob", "view")
    browser.press("Save the list")
    browser.press("Set it all the same")
    browser.sees("Sharing updated.", "#notices")
    assert club.own(path) == [(0, 0, VIEW, "bob"), (0, 0, 1, "bob")]
    browser.press("Undo")
    browser.sees("Sharing is as it was.", "#notices")
    assert club.own(path) == [(0, 0, 1, "eve")]  # (as it was right before, and not as it was read)


def test_one_vocabulary(club, browser):
    """The page's words for rights and sets are those of the command."""
    club.open()
    rights, sets = browser.later(WORDS)
    assert sorted(rights) == sorted([bit, list(dict.fromkeys(words[:2]))] for bit, *words in RIGHTS)
    assert dict(sets) == {name: mask for name, mask in SETS.items() if name != "none"}


def test_matrix_has_the_words_of_share(club, browser, tells):
    """Who may edit and delete in a folder may not remove it. Where no users are told, those whom lists name are."""
    club.lay("/plans/")
    club.sets("/plans", entry("bob", WORK_HERE, 0), entry("bob", CHANGE, 0xB), entry("OWNER@", ALL), flags=2)
    club.lay("/plans/sub/", "/plans/a.txt")
    told = lambda words: [[it, "Full control", words] for it in ("plans/", "a.txt", "sub/")]
    club.open("/plans", "who")
    assert [row[:3] for row in browser.script(MATRIX)] == told("Can edit and delete")
    tells("rooms/club.users.json", None)
    club.log_in("ann")
    club.open("/plans", "who")
    browser.sees("Users are not told here", "main")
    assert browser.script(MATRIX) == told("Shut out")  # (bob's group passes the top)


# A large file

@pytest.fixture
def whole(club):
    """One that bob may view and eve may edit, in such a folder."""
    club.lets("eve", "/", PASS, 0)
    club.lay("/whole/")
    club.sets("/whole", entry("OWNER@", ALL), entry("bob", VIEW), entry("eve", EDIT), flags=2)
    club.lay(("/whole/large", bytes(PIECE + 1)), "/whole/small")
    return "/whole/large"


@pytest.fixture
def closed(club, whole):
    """The same, with a list of its own that has not all for its pieces."""
    own = entry("OWNER@", ALL), entry("bob", VIEW, 0), entry("eve", VIEW)
    club.sets(whole, *own, flags=2)
    return list(own)


def test_matrix_of_a_large_file(club, browser, whole):
    """It is one document."""
    levels = [["whole/", "Full control", "Can view", "Can add and edit"],
              *([it, "Full control", "Can view", "Can edit"] for it in ("large", "small"))]
    club.open("/whole", "who")
    assert browser.script(MATRIX) == levels
    club.open(whole, "who")
    assert browser.script(MATRIX) == [levels[1]]


def test_matrix_of_a_large_file_whose_pieces_are_closed(club, browser, whole, closed):
    assert club.holds({"cmd": "READ", "path": f"{whole}/{NAME}"}, "bob")["code"] == 5
    club.open("/whole", "who")
    assert browser.script(MATRIX)[1] == ["large", "Full control", "Some", "Can view"]
    browser.act("//main//tbody/tr[2]/td[2]/button", "click")
    browser.sees(f"The list of {whole} lets bob see its owner and size and see its list.", ".detail")


def test_list_of_a_large_file(club, browser, whole, closed):
    """In words it is a document's, and what is given counts for its pieces. Ticks and their sum go together."""
    club.open(whole, "access")
    browser.sees("One must also pass through each folder above.", "main")
    assert browser.script(SUMMARIES) == [
        "Allow its owner (ann) to do all.", "Allow the user bob to view. Counts here alone.",
        "Allow the user eve to view."]
    set_list(browser, "the user", "bob", "edit")
    assert browser.script(SUMMARIES)[0] == "Allow the user bob to edit."
    assert "Counts for" not in browser.text_of("main")
    for words, count in ("edit", 9), ("do what is chosen below", 8), ("edit", 9):
        assert browser.script(TICKED) == [words, count]
        browser.act("(//main//ol[1]/li[1]//fieldset//input)[1]", "click")
    browser.act("(//main//ol[1]/li[1]//fieldset//input)[1]", "click")
    saves(browser)
    assert club.holds({"cmd": "GETLIST", "path": whole})["entries"] == [entry("bob", EDIT | 0x40), *closed]
    assert club.holds({"cmd": "READ", "path": f"{whole}/{NAME}"}, "bob")["code"] == 0


# What is offered

@pytest.mark.parametrize("mask, wanted", [
    (VIEW, ["Download", "Copy", "Print"]), (ADD, ["Add text", "Download", "Copy", "Print"]),
    (EDIT, ["Edit", "Add text", "Download", "Upload a new version", "Copy", "Print"]),
    (ALL, ["Edit", "Add text", "Download", "Upload a new version", "Rename", "Move", "Copy", "Remove", "Print"])],
    ids=["view", "add", "edit", "all"])
def test_what_a_document_offers(club, browser, mask, wanted):
    """What one's rights refuse is not."""
    club.lay("/other/dot.txt")
    club.lets("eve", "/other", mask)
    club.log_in("eve")
    club.open("/other/dot.txt")
    assert browser.script(BUTTONS) == wanted


def test_what_a_folder_and_its_rows_offer(club, browser):
    club.lay("/other/dot.txt")
    club.lets("eve", "/other", VIEW)
    club.log_in("eve")
    club.open("/other")
    browser.sees("dot.txt", ".things")
    browser.act("//main//h1/button", "click")
    assert offers(browser) == ["Download as zip", "Copy", "Copy the link", "Add to favourites"]
    browser.keys("escape")
    browser.press("More for dot.txt")
    assert offers(browser) == ["Download", "Copy", "Copy the link", "Add to favourites"]
    browser.keys("escape", "f2")
    browser.sees("You may not do that with dot.txt.", "#notices")
    browser.act("//main//input[@aria-label='Select dot.txt']", "click")
    browser.until("of several", lambda: browser.script(BAR) == ["Copy", "Download", "Clear selection"])


def test_the_bar_offers_what_one_may_do_with_those_that_are_chosen_now(club, browser):
    """Whatever is told by then of those that were chosen before."""
    club.lay("/other/kept.txt", "/other/own.txt")
    club.lets("eve", "/other", VIEW)
    club.lets("eve", "/other/own.txt", ALL, 0)
    club.log_in("eve")
    club.open("/other")
    tick = lambda name: browser.act(f"//main//input[@aria-label='Select {name}']", "click")
    some, every = ["Copy", "Download", "Clear selection"], ["Move", "Copy", "Download", "Remove", "Clear selection"]
    tick("kept.txt")
    browser.until("of one that is kept", lambda: browser.script(BAR) == some)
    for before, now, wanted in ("own.txt", "kept.txt", some), ("kept.txt", "own.txt", every):
        browser.press("Clear selection")
        club.lossy.hold('"ACCESS"', f"/other/{before}")
        tick(before)
        browser.until("it is asked for", lambda: club.lossy.held)
        tick(before)
        tick(now)
        browser.until(f"of {now}", lambda: browser.script(BAR) == wanted)
        club.lossy.go_on()
        time.sleep(1)  # (what was asked first comes, and changes nothing)
        assert browser.script(BAR) == wanted
