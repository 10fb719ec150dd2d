"""Each request acts once: answers that are lost, a killed room, tabs that end or crash, a browser that forgot, another
login, another password."""
import os
import time

import pytest
from nginx import hashed
from served import text_of

from .club import DIALOG, TYPED, append, appended, edit

LOG = "/plans/log.txt"
DONE = f"APPEND of {LOG}: it is done, once."
# the names of ann's sessions in this browser
SESSIONS = ("return Object.entries(localStorage).filter(([key]) => /^fileroom.ann.club.[0-9]+$/.test(key))"
            ".map(([, it]) => JSON.parse(it).name).sort()")
QUIET = 3  # seconds; a request that has no answer is else sent again within one


@pytest.fixture
def log(club):
    """A document that is shown."""
    club.lay(LOG)
    club.open(LOG)
    return lambda: club.text(LOG)


def test_lost_answers(club, browser, log):
    club.lossy.lose("APPEND", 2)
    appended(browser, "once")
    assert (log(), club.lossy.times("APPEND") >= 3) == ("once\n", True)


def test_lost_answers_over_a_reload(club, browser, log):
    club.lossy.lose("APPEND", 10_000)
    append(browser, "after a reload")
    browser.sees("The room cannot be reached. The request is kept, and sent again until it is answered.", "#busy")
    browser.sees("Tries so far: ", "#busy")
    browser.go("about:blank")
    club.lossy.lose("")
    club.open(LOG)
    browser.sees(DONE, "#notices")
    browser.sees("after a reload", "pre")
    assert log() == "after a reload\n"
    club.lossy.lose("APPEND", 10_000, passes=False)
    append(browser, "too late")
    browser.sees("Tries so far: ", "#busy")
    browser.go("about:blank")
    club.lossy.lose("")
    club.does({"cmd": "REMOVE", "path": LOG})
    club.open("/plans")
    browser.sees(f"APPEND of {LOG}: There is nothing at this path", "#notices .fault")


def test_given_up(club, browser, log):
    """That it may be done is told; the next one acts."""
    club.lossy.lose("APPEND", 10_000)
    append(browser, "given up")
    browser.sees("If you give up, look whether it was done.", "#busy")
    browser.press_anyway("Give up")
    club.lossy.lose("")
    browser.sees("Whether it was done is not known", "dialog")
    browser.press("Cancel", DIALOG)
    browser.press("Discard it")
    appended(browser, "after it")
    assert log() == "given up\nafter it\n"


def test_given_up_while_an_answer_is_awaited(club, browser, log):
    """It is not waited for."""
    club.lossy.lose("APPEND", 10_000)
    append(browser, "given up")
    browser.sees("Tries so far: ", "#busy")
    club.lossy.hold("APPEND")
    browser.until("it is sent once more", lambda: club.lossy.held)
    browser.press_anyway("Give up")
    browser.sees("Whether it was done is not known", "dialog", 20)


def test_a_killed_room(club, browser, log):
    """It is started again while a request waits."""
    append(browser, "killed", club.room.kill)
    browser.sees("The room is busy", "#busy")
    club.room.start()
    browser.sees("Saved.")
    assert (log(), browser.text_of("#busy")) == ("killed\n", "")


def test_a_browser_that_lost_what_it_kept_last(club, browser, log):
    """As one that crashed: the page sees it, and shows what is there now."""
    appended(browser, "before")
    kept = browser.script("return JSON.stringify(localStorage)")
    appended(browser, "newest")
    browser.go("about:blank")
    browser.go(club.address("rooms.json"))
    browser.script("localStorage.clear(); Object.assign(localStorage, JSON.parse(arguments[0]))", kept)
    club.open(LOG)
    browser.sees("newest", "pre")
    appended(browser, "newest")  # (the same words again are another request)
    assert log() == "before\nnewest\nnewest\n"


@pytest.fixture
def two(club, browser, log):
    """Two tabs that have appended."""
    appended(browser, "from the first tab")
    first, second = browser.tab()
    club.open(LOG)
    appended(browser, "from the second tab")
    return first, second


def test_two_tabs(browser, log, two):
    """Each has a session of its own."""
    browser.turn_to(two[0])
    appended(browser, "and the first")
    assert log() == "from the first tab\nfrom the second tab\nand the first\n"
    assert len(set(browser.script(SESSIONS))) == 2


def test_a_tab_that_crashed(club, browser, log, two):
    """A new one takes its session, and finishes its request."""
    both = browser.script(SESSIONS)
    club.lossy.lose("APPEND", 10_000)
    append(browser, "as a tab crashed")
    browser.sees("sent again until it is answered", "#busy")
    browser.crash_tab()
    club.lossy.lose("")
    browser.turn_to(two[0])
    browser.tab()
    club.open(LOG)
    browser.sees(DONE, "#notices")
    assert log().count("as a tab crashed") == 1
    assert browser.script(SESSIONS) == both


def test_another_login(club, browser, log):
    """In the same browser: a page of ann's does nothing as eve, and her request waits."""
    append(browser, "by ann", lambda: club.log_in_elsewhere("eve"))
    browser.sees("Log in again: what you typed stays here.", "#busy")
    assert log() == ""
    club.log_in("ann")
    browser.sees(DONE, "#notices")
    assert log() == "by ann\n"


def test_another_login_keeps_what_is_typed(club, browser, log):
    """It waits in its tab for its user, also where it was not sent yet; without it the tab is the other's."""
    edit(browser, "typed by ann")
    club.log_in_elsewhere("eve")
    browser.press("Save")
    browser.sees("Log in again: what you typed stays here.", "#busy")
    assert (browser.script(TYPED), browser.text_of("#user"), log()) == ("typed by ann", "ann", "")
    club.log_in_elsewhere("ann")
    browser.script("window.dispatchEvent(new Event('focus'))")
    browser.sees("Saved.")
    assert log() == "typed by ann"
    club.log_in_elsewhere("eve")
    browser.script("window.dispatchEvent(new Event('focus'))")
    browser.sees("eve", "#user")
    assert log() == "typed by ann"


@pytest.fixture
def another_password(club):
    """Puts another one in the place of ann's, and back."""
    path = os.path.join(club.front, "users")
    before = text_of(path)

    def put(text):
        with open(path, "w", encoding="utf-8") as file:
            file.write(text)
    lines = [f"ann:{hashed('another word')}" if it.startswith("ann:") else it for it in before.splitlines()]
    yield lambda: put("\n".join(lines) + "\n"), lambda: put(before)
    put(before)


def test_another_password(club, browser, log, another_password):
    """The page says so, keeps what was typed, and sends it once, when its user has logged in again."""
    change, back = another_password
    append(browser, "late", change)
    browser.sees("The login is not accepted any more. Log in again", "#busy")
    sent = club.lossy.times('"APPEND"')
    time.sleep(QUIET)
    assert club.lossy.times('"APPEND"') == sent  # (each wrong login counts: it is not sent again by itself)
    back()
    club.log_in_elsewhere("ann")
    browser.script("window.dispatchEvent(new Event('focus'))")  # (as by who comes back to a window)
    browser.sees("Saved.")
    assert log() == "late\n"
