"""What stands beside the list in a wide window: the row on which somebody is, with its preview."""
import pytest

from .club import ALL, VIEW, entry, search_in
from .drawn import PNG
from .test_accessible import NOTHING_PALE, nameless, pale

TOP = "/desk"
SHOWN = "return document.querySelector('.details').checkVisibility()"
KNOWN = ("return document.querySelector('.small-picture:not(:has(canvas))') === null && "
         "[...document.querySelectorAll('.things td.who')].every((it) => it.textContent)")
READS = "return performance.getEntriesByType('resource').length"
PICTURE = "return document.querySelector('.details .picture > :is(img, canvas)') !== null"
HINT = "Select an item to see it here."


@pytest.fixture
def desk(club, browser):
    """A text and a picture of ann's alone, and one that she may not read, in a wide window."""
    club.lay(f"{TOP}/")
    club.sets(TOP, entry("OWNER@", ALL), flags=2)
    club.lay((f"{TOP}/a.txt", b"hello\n"), (f"{TOP}/b.png", PNG), f"{TOP}/c.txt")
    club.sets(f"{TOP}/a.txt", entry("bob", VIEW, 0))
    club.sets(f"{TOP}/c.txt", entry("OWNER@", 0x20080, 0), flags=2)
    browser.size(1600, 900)
    browser.devtools("Emulation.setFocusEmulationEnabled", enabled=True)  # (else no tab but the first is told of it)
    club.open(TOP)


def to_first(browser):
    """Once all of the rows is known."""
    browser.until("all of them", lambda: browser.script(KNOWN))
    first = "const it = document.querySelector('.things tbody .name'); it.focus(); return document.activeElement === it"
    browser.until("the focus", lambda: browser.script(first))


def told(browser, wanted):
    browser.until(wanted, lambda: [it for it in browser.text_of(".details").split("\n") if it] == wanted)


def test_details_are_of_the_row_that_is_walked_to(club, browser, desk):
    """By the arrows; what may not be read has no preview; a click on a row does it too."""
    told(browser, [HINT])
    to_first(browser)
    told(browser, ["a.txt", "Text, 6 bytes", "owner ann, group eng", "Who can see it: Only you", "ann", "hello"])
    browser.keys("down")
    browser.until("the picture", lambda: browser.script(PICTURE))
    assert "Picture, 69 bytes" in browser.text_of(".details")
    browser.keys("down")
    told(browser, ["c.txt", "Text, 0 bytes", "owner ann, group eng", "Who can see it: Nobody"])
    browser.script("document.querySelector('.things tbody .kind, .things tbody .size').click()")
    browser.sees("hello", ".details")
    browser.follow("Only you")
    browser.sees("Who has access", "main")


def test_details_are_of_what_was_found_too(club, browser, desk):
    search_in(club, TOP, "a.t")
    browser.sees("1 result", "main")
    to_first(browser)
    browser.sees("hello", ".details")


def test_narrow_window_asks_for_no_details(club, browser, desk):
    browser.size(1280, 900)
    to_first(browser)
    assert browser.script(SHOWN) is False
    before = browser.script(READS)
    browser.later("setTimeout(arguments[0], 600)")
    assert (browser.script(READS), browser.script("return document.querySelector('.details').textContent")) == (
        before, HINT)


def test_details_can_be_perceived(club, browser, desk):
    """They have a name of their own, behind the list; nothing is cut off, nothing too pale."""
    to_first(browser)
    browser.sees("hello", ".details")
    lacking, roles = nameless(browser)
    assert (lacking, "region" in roles) == ([], True)
    assert pale(browser) == NOTHING_PALE
    assert browser.script("return document.documentElement.scrollWidth") <= 1600
    order = ("return document.querySelector('.things').compareDocumentPosition(document.querySelector('.details')) & "
             "Node.DOCUMENT_POSITION_FOLLOWING")
    assert browser.script(order)
    browser.keys("tab")
    assert browser.script("return document.activeElement.closest('.details') !== null")
