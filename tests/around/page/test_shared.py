"""What others share with somebody is found without its link: as far as the lists let it be seen, and no further."""
import pytest

from .club import ALL, FOUND, GROUP, PASS, PLACE, TEXTS, VIEW, by_rail, entry, of_user

OWNER, EVERYONE = entry("OWNER@", ALL), entry("EVERYONE@", VIEW)
BOB = entry("bob", VIEW)
LISTS = {"/team": [entry("staff", VIEW, 3 | GROUP)], "/team/sub": [BOB],  # (what is in a found folder is left out)
         "/open": [EVERYONE], "/open/bob.txt": [entry("bob", VIEW, 0)], "/open/eve.txt": [entry("eve", VIEW, 0)],
         "/open/denied.txt": [entry("bob", 1, 0, 1), entry("bob", VIEW, 0)], "/open/through": [entry("bob", PASS, 0)],
         "/open/below": [entry("bob", VIEW, 3 | 8)], "/open/mine": [BOB], "/shut": [],
         "/shut/bob.txt": [entry("bob", VIEW, 0)]}


def found(browser):
    """What is shown, once nothing is looked for any more."""
    browser.until("it is over", lambda: browser.script(PLACE) == "#shared/club" and
                  "Looking" not in browser.text_of("main") and "Cancel" not in browser.text_of("main"))
    return sorted(browser.script(FOUND))


@pytest.fixture
def shared(club):
    club.lay(*(it if "." in it else f"{it}/" for it in LISTS))
    club.sets("/", OWNER, entry("EVERYONE@", VIEW, 0), flags=2)
    for path, its in LISTS.items():
        club.sets(path, *its, entry("OWNER@", ALL, 0 if "." in path else 3), flags=2 if path.count("/") == 1 else 1)
    club.does({"cmd": "CHOWN", "group": "eng", "owner": "bob", "path": "/open/mine"})
    club.log_in("bob")


def test_what_names_one_or_ones_group_is_found(club, browser, shared, tells):
    """With who shares it. Not what one owns, may not read, only passes through, or does not get at."""
    tells("names.json", {"ann": "Ann Lee"})
    club.log_in("bob")
    club.open()
    by_rail(browser, "Shared with you")
    assert found(browser) == ["/open/bob.txt", "/team"]
    browser.until("who shares them", lambda: browser.script(TEXTS, ".things .who") ==
                  ["Shared by", "Ann Lee", "Ann Lee"])
    browser.sees("You may not look into 1 folder. What is shared with you there opens by its link.", "main")
    browser.follow("team")
    browser.until("it leads there", lambda: browser.script(PLACE) == "#open/club/team")


def test_what_came_by_a_link_is_found_again(club, browser):
    """Below folders that tell no names, of which nothing is told before."""
    club.lay("/a/b/c.txt")
    for path in "/", "/a":
        club.sets(path, OWNER, entry("bob", PASS, 0), flags=2)
    club.sets("/a/b", OWNER, BOB, flags=2)
    club.log_in("bob")
    club.open("", "shared")
    assert found(browser) == []
    club.open("/a/b/c.txt")
    browser.script("location.reload()")  # (what was found is kept a minute)
    by_rail(browser, "Shared with you")
    assert found(browser) == ["/a/b"]


def test_cancel_ends_it_within_a_folder(club, browser):
    club.lay(*(f"/long/{at:02}.txt" for at in range(9)))
    club.sets("/", OWNER, entry("EVERYONE@", VIEW, 0), flags=2)
    club.sets("/long", OWNER, EVERYONE, flags=2)
    club.log_in("bob")
    club.lossy.hold("GETLIST", "/long/04.txt")
    club.open("", "shared")
    browser.until("it is there", lambda: club.lossy.held)
    browser.press("Cancel", "//main")
    club.lossy.go_on()
    browser.sees("Stopped.", "main")
    assert [club.lossy.times(f"/long/{at}.txt") for at in ("03", "04", "05")] == [1, 1, 0]


def test_it_is_told_in_german(club, browser, shared):
    of_user(browser, "Deutsch")
    browser.until("the rail", lambda: "Für Sie freigegeben" in browser.script(
        "return document.querySelector('#rail').textContent"))
    club.go("#shared/club")
    browser.sees("Für Sie freigegeben", "h1")
