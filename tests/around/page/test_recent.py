"""Who changed what, and when, in a room with WebDAV, whose gateway tells it: beside each name, and of all of one's own
places."""
import os
import time

import gateway
import pytest
from nginx import Front

from .club import ALL, DIALOG, PAGE, PLACE, ROWS, TEXTS, USERS, by_rail, edit, entry, of_folder, offers

WHEN = "return [...document.querySelectorAll('.things tbody tr .when')].map((it) => it.innerText)"


@pytest.fixture
def dated(stage, room, tmp_path):
    """The same room and browser, at a front that has a gateway."""
    folder, socket = str(tmp_path / "front"), str(tmp_path / "gate.sock")
    front = Front(folder, {user: f"{user}-word" for user in USERS}, {"club": stage.room.port}, PAGE, dav=socket,
                  opens="100r/s")
    its = gateway.start(os.path.join(folder, "work/dav.sock"), str(tmp_path / "state"), socket)
    before, stage.port, stage.user = stage.port, front.port, ""
    stage.puts = lambda user, path, data=b"some words": front.once(user, "PUT", f"/dav/club{path}", data)
    stage.makes = lambda user, path: front.once(user, "MKCOL", f"/dav/club{path}")
    try:
        stage.enter(str(tmp_path))
        yield stage
        stage.leave()
    finally:
        stage.port, stage.user = before, ""
        gateway.stop(its)
        front.server.terminate()
        front.server.wait()


def who_changed(browser):
    return [(name, when.split(", ")[-1]) for name, when in zip(browser.script(ROWS), browser.script(WHEN))]


@pytest.fixture
def plans(dated):
    """A folder in which bob writes, and one of ann's alone."""
    dated.lay("/plans/", "/shut/")
    dated.lets("bob", "/plans", ALL)
    dated.sets("/shut", entry("OWNER@", ALL), flags=2)
    assert [dated.puts(*it).status for it in (("bob", "/plans/b.txt"), ("ann", "/plans/a.txt"),
                                             ("ann", "/shut/secret.txt"))] == [201] * 3
    dated.lay("/plans/old.txt")  # (past the front)
    return dated


def test_each_name_tells_who_changed_it(plans):
    """The newest first, if wanted, and then at once."""
    browser = plans.browser
    plans.open("/plans")
    assert browser.script(TEXTS, ".things thead th") == ["Name", "Who can see it", "Changed", "Kind", "Size"]
    first = [("a.txt", "ann"), ("b.txt", "bob"), ("old.txt", "")]
    browser.until("who changed it", lambda: who_changed(browser) == first)
    time.sleep(1)
    assert plans.puts("bob", "/plans/b.txt").status == 204
    plans.anew("/plans")
    browser.until("who changed it", lambda: who_changed(browser) == first)
    browser.press("Changed")
    newest = [("b.txt", "bob"), ("a.txt", "ann"), ("old.txt", "")]
    assert who_changed(browser) == newest
    plans.anew("/plans")
    assert who_changed(browser) == newest  # (at once)


def test_recent_changes_are_those_of_ones_own_places(plans):
    """And of these what one may read: the newest first, each with its folder."""
    browser = plans.browser
    plans.log_in("bob")
    plans.open("/plans")
    by_rail(browser, "Recent changes")
    browser.until("they are shown", lambda: browser.script(PLACE) == "#recent/club")
    assert sorted(browser.script(ROWS)) == ["a.txt", "b.txt"]
    assert browser.script(TEXTS, ".things td.where") == ["/plans", "/plans"]
    assert "secret" not in browser.shown()
    plans.sets("/plans/a.txt", entry("bob", 1, 0, 1))
    plans.open()
    by_rail(browser, "Recent changes")
    browser.until("what is closed is gone", lambda: browser.script(ROWS) == ["b.txt"])


def test_recent_changes_have_the_newest_first(plans):
    """Folders among documents."""
    browser = plans.browser
    plans.open("/plans")
    time.sleep(1)
    assert plans.makes("bob", "/plans/new").status == 201
    time.sleep(1)
    assert plans.puts("bob", "/plans/b.txt").status == 204
    by_rail(browser, "Recent changes")
    browser.until("they are shown", lambda: browser.script(PLACE) == "#recent/club")
    assert browser.script(ROWS)[:2] == ["b.txt", "new"]


def test_conflict_tells_who_came_first(plans):
    """And nobody by a change of before."""
    browser = plans.browser
    for saves, told in ((lambda: plans.puts("bob", "/plans/a.txt", b"by bob"), "bob"),
                        (lambda: plans.writes("/plans/a.txt", b"past the front"), "")):
        plans.open("/plans/a.txt")
        edit(browser, "by ann")
        time.sleep(1)
        saves()
        browser.press("Save")
        browser.sees("Somebody changed this meanwhile", "dialog")
        assert browser.text_of("dialog time").split(", ")[-1] == told
        browser.press("Take theirs")
        browser.until("it is closed", lambda: not browser.text_of("dialog"))


def test_a_folder_says_how_file_managers_open_it(plans):
    browser = plans.browser
    plans.lay("/plans/Q1 \u00e4/")
    plans.open("/plans/Q1 \u00e4")
    of_folder(browser, "Open in a file manager")
    at = f"://127.0.0.1:{plans.port}/dav/club/plans/Q1%20%C3%A4/"
    for words in (f"Map network drive: http{at}", f"Connect to Server: http{at}", f"Other Locations: dav{at}",
                  f"as an address: webdav{at}"):
        browser.sees(words, "dialog")
    browser.press("Close", DIALOG)


def test_room_without_webdav_tells_no_times(club, browser):
    """And no address for a file manager."""
    club.lay("/plans/a.txt")
    club.open("/plans")
    assert browser.script(TEXTS, ".things thead th") == ["Name", "Who can see it", "Kind", "Size"]
    assert "Recent changes" not in browser.script(TEXTS, "#rail a")
    browser.act("//main//h1/button", "click")
    assert "Open in a file manager" not in offers(browser)
