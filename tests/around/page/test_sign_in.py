"""Logging in by the page, in Chromium and Firefox: no box of the browser comes, and nothing is lost that was typed."""
import contextlib
import os

import pytest
from browser import Browser
from elsewhere import Firefox
from nginx import hashed
from served import text_of

from .club import DIALOG, PLACE, TYPED, append, of_user
from .test_elsewhere import club_in

PATH = "/plans/june.txt"
ODD = ' p\u00e4ss%41:w@rd/"#?+ \u20ac '
WHOAMI = ("const [done] = arguments; fetch('/whoami', {signal: AbortSignal.timeout(5000)})"
          ".then((it) => done(it.status), () => done('waits for a login'))")
FORGET = "const [done] = arguments; import('/login.js').then((it) => it.logOut()).then(done)"
TAKE_UP = "const [user, word, done] = arguments; import('/login.js').then((it) => it.logIn(user, word)).then(done)"
PLACED = ("const {left, right, width} = document.getElementById('word').getBoundingClientRect();"
          "return [left, right, width, document.documentElement.clientWidth]")
ASKED = "return performance.getEntriesByType('resource').filter((it) => it.name.includes('/log-')).length"


@pytest.fixture(scope="module", params=[Browser, Firefox], ids=["chromium", "firefox"])
def place(request, tmp_path_factory, lasting):
    yield from club_in(request.param, tmp_path_factory.mktemp("sign-in"), lasting)


@pytest.fixture
def club(place, tmp_path):
    """A document, and a browser in which nobody is logged in."""
    place.fresh_room()
    place.disk = str(tmp_path)
    place.lay((PATH, b"text\n"))
    yield place
    place.browser.go(place.address("sign-in"))
    place.browser.script("localStorage.clear()")
    assert place.browser.later(FORGET) is True
    place.browser.go("about:blank")
    place.stop()


@pytest.fixture
def browser(club):
    return club.browser


@pytest.fixture
def passwords(club):
    """Gives users other passwords, and takes them back."""
    path = os.path.join(club.front, "users")
    before = text_of(path)

    def put(**words):
        lines = [f"{user}:{hashed(words[user])}" if user in words else line for user, line in (
            (it.partition(":")[0], it) for it in before.splitlines())]
        with open(path, "w", encoding="utf-8") as file:
            file.write("\n".join(lines) + "\n")
    yield put
    put()


def types(browser, name, word):
    """Logs in by the form that is shown."""
    for field, text in ("name", name), ("word", word):
        browser.act(f"//*[@id='{field}']", "clear")
        browser.act(f"//*[@id='{field}']", "value", {"text": text})
    browser.press("Log in")


def is_at(browser, user, place):
    browser.until(f"{user} at {place}", lambda: browser.script(PLACE) == place)
    assert (browser.text_of("#user"), browser.script("return location.pathname")) == (user, "/")


def test_logging_in(club, browser):
    """A wrong password is told in the page; a right one leads where the address said."""
    browser.go(club.address(f"#open/club{PATH}"))
    browser.sees("fileroom", "h1")
    for name, word in ("ann", "no"), ("nobody", "ann-word"):
        types(browser, name, word)
        browser.sees("Name or password is wrong.", "#told")
        assert browser.script("return location.pathname") == "/sign-in"
    types(browser, " ann ", "ann-word")
    is_at(browser, "ann", f"#open/club{PATH}")
    browser.sees("text", "pre")


def test_who_is_no_user_is_not_asked_about(club, browser):
    browser.go(club.address("sign-in"))
    for name, word in ("ann lee", "x"), ("ann:x", "x"), ("ann", "\u20ac" * 86):
        types(browser, name, word)
        browser.sees("Name or password is wrong.", "#told")
        browser.script("document.getElementById('told').textContent = ''")
    assert browser.script(ASKED) == 0


def test_logging_out_and_in_as_another(club, browser):
    """Who comes next is not told where somebody was. Also in a tab that begins then."""
    browser.go(club.address("#open/club/plans"))
    types(browser, "ann", "ann-word")
    is_at(browser, "ann", "#open/club/plans")
    of_user(browser, "Log out")
    browser.sees("You are logged out", "h1")
    assert browser.later(WHOAMI) == 401  # (no box waits)
    assert browser.script("return [document.title, location.hash]") == ["fileroom", ""]
    browser.press("Log in")
    types(browser, "eve", "eve-word")
    is_at(browser, "eve", "#open/club")
    browser.go("about:blank")
    browser.go(club.address("#open/club"))
    is_at(browser, "eve", "#open/club")


def test_logging_out_ends_other_tabs_too(club, browser):
    """Their addresses tell no place. One in which something is typed stays, and tells why nothing is sent."""
    browser.go(club.address("#open/club/plans"))
    types(browser, "ann", "ann-word")
    is_at(browser, "ann", "#open/club/plans")
    read, typed = browser.tab()
    browser.go(club.address(f"#open/club{PATH}"))
    browser.press("Add text", "//main")
    browser.fill("Text", "half a")
    browser.tab()
    browser.go(club.address("#open/club"))
    is_at(browser, "ann", "#open/club")
    of_user(browser, "Log out")
    browser.sees("You are logged out", "h1")
    browser.close_tab()
    browser.turn_to(read)
    browser.sees("Password", "label")
    assert browser.script("return location.pathname + location.hash") == "/sign-in"
    browser.turn_to(typed)
    browser.sees("The login is not accepted any more. Log in again: what you typed stays here.", "#notices")
    assert browser.script(TYPED) == "half a"
    browser.script("document.querySelector('textarea').value = ''")  # (so that nothing asks as it closes)
    browser.close_tab()
    browser.turn_to(read)


def test_a_page_of_before(club, browser):
    """That Back brings again is looked at anew: nobody is logged in any more, or another one."""
    for user in None, "eve":
        browser.go("about:blank")  # (at its own address a page is not loaded again)
        browser.go(club.address("#open/club/plans"))
        types(browser, "ann", "ann-word")
        is_at(browser, "ann", "#open/club/plans")
        browser.go(club.address("sign-in"))
        assert browser.later(FORGET) is True
        if user:
            assert browser.later(TAKE_UP, user, f"{user}-word") == 200
        with contextlib.suppress(LookupError):  # (Firefox tells that this page is gone)
            browser.script("history.back()")
        told = [f"\n{user}\n"] if user else ["Password", "The front tells no user"]
        seen = browser.until("another page", lambda: [it for it in [browser.text_of("body") or ""] if any(
            one in it for one in told)])
        assert "june.txt" not in seen[0]


def test_an_odd_password(club, browser, passwords):
    passwords(bob=ODD)
    browser.go(club.address())
    types(browser, "bob", ODD)
    browser.until("bob", lambda: "bob" in (browser.text_of("#user") or ""))


def test_another_password_of_the_same_name(club, browser, passwords):
    """The one that the browser has is no help, and asks nobody."""
    browser.go(club.address("#open/club/plans"))
    types(browser, "ann", "ann-word")
    is_at(browser, "ann", "#open/club/plans")
    passwords(ann="another word")
    assert browser.later(WHOAMI) == 401
    browser.go("about:blank")
    browser.go(club.address("#open/club/plans"))
    browser.until("the form", lambda: browser.find("//*[@id='word']"))
    types(browser, "ann", "another word")
    is_at(browser, "ann", "#open/club/plans")


def test_a_login_that_ends(club, browser, passwords):
    """The page leads to the form and back, and what was typed is sent, once."""
    browser.go(club.address(f"#open/club{PATH}"))
    types(browser, "ann", "ann-word")
    is_at(browser, "ann", f"#open/club{PATH}")
    append(browser, "typed", lambda: passwords(ann="another word"))
    browser.sees("The login is not accepted any more. Log in again: what you typed stays here.", "#busy")
    before = browser.tabs()
    browser.act(f"{DIALOG}//*[@id='busy-login']", "click", is_patient=False)
    new, = browser.until("a window", lambda: {*browser.tabs()} - {*before})
    browser.turn_to(new)
    types(browser, "ann", "another word")
    browser.until("it closes", lambda: browser.tabs() == before)
    browser.turn_to(before[0])
    browser.sees("Saved.")
    assert club.text(PATH) == "text\ntyped\n"


def test_whose_rooms_these_are(club, browser):
    """As its administrator wrote it, and in the language that the browser asks for."""
    path = os.path.join(club.front, "organisation")
    with open(path, "w", encoding="utf-8") as file:
        file.write("Mill <b>School</b>\n")
    browser.go(club.address("sign-in"))
    browser.sees("Mill <b>School</b>", "h1")
    os.remove(path)
    assert browser.script("return document.title") == "Mill <b>School</b>"
    browser.script("localStorage.setItem('fileroom/language', 'de')")
    browser.go("about:blank")
    browser.go(club.address("sign-in#open/club"))
    browser.sees("Passwort", "label")
    browser.sees("Anmelden", "button")
    browser.sees("Anmelden im Fenster des Browsers", "main a")
    assert browser.script("return document.getElementById('box').href") == club.address("log-in#open/club")


@pytest.mark.parametrize("width", [360, 1000, 1280, 1600])
def test_the_form_in_windows_of_any_width(club, browser, width):
    """It has its whole width, in the middle."""
    browser.ask("POST", "/window/rect", {"width": width, "height": 800})
    browser.go(club.address("sign-in"))
    browser.sees("Password", "label")
    left, right, inner, all_of_it = browser.script(PLACED)
    assert abs(left - (all_of_it - right)) <= 1
    assert inner >= min(320, all_of_it - 48)


def test_the_browsers_own_box(club, browser):
    """(Which a driver cannot fill: the address has the login.)"""
    browser.go(club.address("log-in#open/club/plans", "ann"))
    is_at(browser, "ann", "#open/club/plans")
