"""A handful of scenes in Firefox, and on a phone by touch: to sign in, look, upload, share, search, go back."""
import shutil

import pytest
from browser import Browser
from elsewhere import Firefox, Phone
from given import number

from .club import FOUND, MENU, PLACE, ROWS, TYPED, VIEW, Club, by_rail, choose, edit, ends, make_document, search, share

CHROMIUM = ["chromium", "chromedriver"]
NEEDS = {Browser: CHROMIUM, Firefox: ["firefox-esr"], Phone: CHROMIUM}
TOUCHED = "return matchMedia('(pointer: coarse)').matches"


class Elsewhere(Club):
    def start_browser(self):
        self.browser = self.kind(self.folder)
        self.lasting(self.browser.driver.pid)


def club_in(kind, folder, lasting):
    """A club that this kind of browser is used in."""
    missing = [it for it in NEEDS[kind] if not shutil.which(it)]
    if missing:
        pytest.skip(f"no {', no '.join(missing)} here")
    Browser.wait = number("WAIT", 60)
    it = type("It", (Elsewhere,), {"kind": kind})(str(folder), lasting=lasting)
    yield it
    it.close()


@pytest.fixture(scope="module", params=[Firefox, Phone], ids=["firefox", "phone"])
def place(request, tmp_path_factory, lasting):
    yield from club_in(request.param, tmp_path_factory.mktemp("elsewhere"), lasting)


@pytest.fixture
def club(place, tmp_path):
    place.fresh_room()
    place.disk = str(tmp_path)
    if place.user != "ann":
        place.log_in("ann")
    yield place
    place.browser.go("about:blank")
    place.stop()


def test_it_is_what_it_says(club):
    browser = club.browser
    club.open()
    agent = browser.script("return navigator.userAgent")
    assert ("Firefox" in agent, browser.script(TOUCHED)) == (isinstance(browser, Firefox), isinstance(browser, Phone))


def test_a_folder_is_looked_at(club):
    """And the way back leads where one was."""
    browser = club.browser
    club.lay("/plans/2026/", ("/plans/notes.txt", b"the first line"))
    club.open()
    browser.follow("plans")
    browser.until("its names", lambda: browser.script(ROWS) == ["2026", "notes.txt"])
    browser.follow("notes.txt")
    browser.sees("the first line", "pre")
    browser.script("history.back()")
    browser.until("the folder", lambda: browser.script(ROWS) == ["2026", "notes.txt"])
    browser.script("history.back()")
    browser.until("the top", lambda: browser.script(ROWS) == ["plans"])


def test_a_file_comes_up(club):
    """A large one too."""
    club.lay("/up/")
    club.open("/up")
    paths = [club.on_disk("small.txt", b"small"), club.on_disk("large.bin", bytes(range(256)) * 600)]
    choose(club.browser, "Upload", *paths)
    club.browser.sees("2 files uploaded", "#notices", 240)
    assert (club.bytes("/up/small.txt"), club.held("/up/large.bin")) == (b"small", bytes(range(256)) * 600)


def test_a_text_is_made_and_edited(club):
    browser = club.browser
    club.lay("/texts/")
    club.open("/texts")
    make_document(browser, "a.txt", "one")
    browser.sees("a.txt", ".things")
    browser.follow("a.txt")
    browser.sees("one", "pre")
    edit(browser, "two")
    browser.press("Save")
    browser.sees("two", "pre")
    assert club.text("/texts/a.txt").strip() == "two"


def test_a_folder_is_shared(club):
    browser = club.browser
    club.lay("/board/")
    club.open("/board", "access")
    share(browser, "bob", "Can view")
    browser.sees("Sharing updated.", "#notices")
    assert (0, 3, VIEW, "bob") in club.own("/board")


def test_a_name_is_searched_for(club):
    browser = club.browser
    club.lay("/a/large.txt", "/b/small.txt")
    club.open("/b")
    search(browser, "large")
    ends(browser, "1 result among")
    assert browser.script(FOUND) == ["/a/large.txt"]
    browser.script("history.back()")
    browser.until("the folder", lambda: browser.script(PLACE) == "#open/club/b")


def test_a_menu_is_opened(club):
    """Of a row, and of the places in a narrow window."""
    browser = club.browser
    club.lay("/plans/2026/")
    club.open("/plans")
    browser.press("More for 2026")
    browser.press("Rename", MENU)
    browser.until("its name", lambda: browser.script(TYPED) == "2026")
    browser.press("Cancel")
    by_rail(browser, "club")
    browser.until("the top", lambda: browser.script(ROWS) == ["plans"])
