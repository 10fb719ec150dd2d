"""Folders and documents: made, read, appended to, edited, renamed, removed, printed; names and texts of markup; all of
that by keyboard alone."""
import pytest

from .club import (ADD, ALL, BUTTONS, DIALOG, EDIT, PLACE, TYPED, VIEW, append, appended, edit, entry, make_document,
                   make_new, of_user, remove)
from .conftest import complaints

MARKUP = "<img src=x onerror=\"window.ran=1\">&amp;'\"`"
SCRIPT = f"<script>window.ran=1</script>{MARKUP}"
PEN = "return document.querySelector('.things .pen').checkVisibility()"
RAN = "return [window.ran ?? null, document.images.length]"


def test_new_folder_and_new_document(club, browser):
    club.open()
    make_new(browser, "New folder")
    browser.sees("Everyone with access to this folder will have access to it.", "dialog")
    browser.fill("Name", "plans")
    browser.press("Create")
    browser.sees("plans created.")
    browser.follow("plans")
    browser.until("the folder", lambda: browser.script(PLACE) == "#open/club/plans")
    assert "plans created." not in browser.shown()
    make_document(browser, "may.txt", "first")
    browser.follow("may.txt")
    browser.sees("first", "pre")
    assert club.text("/plans/may.txt") == "first"


def test_a_new_folder_is_private_by_one_tick(club, browser):
    """From the start: nobody else sees anything of it."""
    club.open()
    make_new(browser, "New folder")
    browser.fill("Name", "mine")
    browser.sees("Everyone with access to this folder will have access to it.", "dialog")
    browser.act(f"{DIALOG}//label[normalize-space()='Visible to me alone']", "click")
    assert "Everyone" not in browser.text_of("dialog")
    browser.press("Create")
    browser.sees("mine created.")
    assert (club.holds({"cmd": "GETLIST", "path": "/mine"})["aclflag"], club.own("/mine")) == (2, [(0, 3, ALL, "ann")])


def test_a_text_is_edited_from_its_row(club, browser):
    """By two clicks, where one may write it."""
    club.lay(("/plans/june.txt", b"before"))
    club.lets("eve", "/plans", VIEW)
    club.open("/plans")
    browser.act("//main//button[@title='Edit june.txt']", "click")
    browser.until("the text", lambda: browser.script(TYPED) == "before")
    browser.fill("Text", "after")
    browser.press("Save")
    browser.sees("Saved.", "#notices")
    assert club.text("/plans/june.txt") == "after"
    club.log_in("eve")
    club.open("/plans")
    browser.until("who can see it", lambda: browser.text_of(".things .who a"))
    assert not browser.script(PEN)


def test_a_document_offers_no_more_than_may_be_done(club, browser):
    """Once somebody comes back to it: where rights are gone, and where a door above is closed."""
    def comes_back(words):
        browser.script("dispatchEvent(new Event('focus'))")  # (once more where the page was at work)
        return words
    club.lay(("/plans/june.txt", b"text"))
    club.lets("bob", "/plans", ALL)
    club.log_in("bob")
    club.open("/plans/june.txt")
    assert "Edit" in browser.script(BUTTONS)
    club.sets("/plans/june.txt", entry("bob", VIEW, 0), flags=2)
    browser.until("no more", lambda: comes_back("Edit") not in browser.script(BUTTONS))
    club.sets("/plans/june.txt")
    browser.until("again", lambda: comes_back("Edit") in browser.script(BUTTONS))
    club.sets("/", entry("OWNER@", ALL, 0), flags=2)
    browser.until("closed", lambda: comes_back("You don't have access to") in browser.text_of("main"))


def test_what_a_refused_save_has_is_downloaded(club, browser):
    """It stays in the dialog, and has a way to the user's disk."""
    club.lay(("/plans/june.txt", b"before"))
    club.lets("eve", "/plans", EDIT)
    club.log_in("eve")
    club.open("/plans/june.txt")
    edit(browser, "mine")
    club.sets("/plans", entry("eve", VIEW))
    browser.press("Save")
    browser.sees("You may not replace its text", "dialog .fault")
    browser.press("Download", DIALOG)
    assert club.saved("june.txt") == b"mine"


@pytest.mark.parametrize("before, after", [
    ("", "c\nd\n"), ("a", "a\nc\nd\n"), ("a\n", "a\nc\nd\n"), ("a\r\nb", "a\r\nb\r\nc\r\nd\r\n")], ids=ascii)
def test_append_on_lines_of_its_own(club, browser, before, after):
    """Whose ends are those of the document."""
    club.lay(("/lines.txt", before.encode()))
    club.open("/lines.txt")
    appended(browser, "c\nd")
    assert club.text("/lines.txt") == after
    browser.until("it is shown", lambda: browser.text_of("pre").split() == after.split())


@pytest.mark.parametrize("saves", [lambda its: its.press("Save"), lambda its: its.chord("ctrl", "s")],
                         ids=["button", "keys"])
def test_edit(club, browser, saves):
    club.lay(("/plans/may.txt", b"first\n"))
    club.open("/plans/may.txt")
    edit(browser, "another\ntext\n")
    saves(browser)
    browser.sees("Saved.")
    assert club.text("/plans/may.txt") == "another\ntext\n"
    browser.sees("another\ntext", "pre")


def test_edit_is_offered_first(club, browser):
    club.lay(("/plans/may.txt", b"first\n"))
    club.open("/plans/may.txt")
    assert browser.script(BUTTONS)[:2] == ["Edit", "Add text"]


def test_markup_is_text(club, browser):
    """Names and documents of markup are text, and the policy takes no markup from a script."""
    club.lay("/plans/june.txt")
    club.open("/plans")
    make_document(browser, MARKUP, SCRIPT)
    browser.sees("created.")
    for view in "open", "who":
        club.open("/plans", view)
        browser.sees(MARKUP, "bdi")
    club.open("/plans")
    browser.act("//main//a[contains(., '<img')]", "click")
    browser.sees(MARKUP, "h1")
    browser.sees(SCRIPT, "pre")
    remove(browser)
    browser.sees("is removed.")
    assert club.names("/plans") == ["june.txt"]
    assert browser.script(RAN) == [None, 0]
    assert complaints(browser) == []
    taken = "try { document.body.insertAdjacentHTML('beforeend', '<i>'); return true } catch { return false }"
    assert (browser.script(taken), len(complaints(browser))) == (False, 1)


def test_keyboard_alone(club, browser):
    """A folder is made, opened and removed."""
    club.lay("/plans/")
    club.anew("/plans")
    club.open()
    browser.sees("plans", "main")
    tab_to(browser, "+ New")
    browser.keys("enter", "enter")
    browser.until("the dialog", lambda: browser.find(DIALOG))
    browser.keys("keys", "enter")
    browser.sees("keys created.")
    browser.sees("keys", ".things")  # (the page is at rest again: until then no key comes to the table)
    tab_to(browser, "keys")
    browser.keys("enter")
    browser.until("the folder", lambda: browser.script(PLACE) == "#open/club/keys")
    browser.keys("enter", "rr", "enter")
    browser.until("the dialog", lambda: browser.find(DIALOG))
    browser.keys("tab", "enter")  # (the button at hand removes nothing for good)
    browser.sees("/keys is removed.")
    assert club.names("/") == ["plans"]


def tab_to(browser, words):
    """Strikes the tab key until what has those words has the focus."""
    for _ in range(30):
        browser.keys("tab")
        if browser.script("return document.activeElement.textContent") == words:
            return
    raise LookupError(f"the tab key never comes to {words}")


def test_print(club, browser):
    """A document on paper: where it is, whose, and its text, and nothing that is there to be pressed."""
    club.lay(("/lost.txt", b"text"))
    club.open("/lost.txt")
    browser.devtools("Emulation.setEmulatedMedia", media="print")
    shown = "return [...document.querySelectorAll(arguments[0])].filter((it) => it.checkVisibility()).length"
    assert [browser.script(shown, it) for it in ("h1, .about, pre", "button, select, .views a")] == [3, 0]
    club.open("/lost.txt", "who")
    assert browser.script("return getComputedStyle(document.querySelector('.matrix')).printColorAdjust") == "exact"
    club.open()
    assert [browser.script(shown, it) for it in (".things a.name", ".things button:not(thead *)")] == [1, 0]


# In its dialogs

def test_a_dialog_at_work(club, browser):
    """A dialog whose request takes a while shows that, and cannot be pressed again."""
    club.lay("/plans/")
    club.open("/plans")
    club.lossy.hold('"MKDIR"')
    make_new(browser, "New folder")
    browser.fill("Name", "slow")
    browser.press("Create")
    browser.sees("Under way …", "dialog")
    dim = "return Number(getComputedStyle(document.querySelector('dialog[open] form')).opacity)"
    browser.until("it is dim", lambda: browser.script(dim) < 0.7)
    club.lossy.go_on()
    browser.sees("slow created.")


def test_a_refused_dialog(club, browser):
    """It has the focus where it was: what is typed then arrives, and Escape ends it."""
    club.lay("/plans/june.txt")
    club.open("/plans")
    make_new(browser, "New folder")
    browser.keys("june.txt", "enter")
    browser.sees("Something has this name already.", "dialog [role=alert]")
    browser.keys(" 2")
    assert browser.script(TYPED) == "june.txt 2"
    browser.keys("escape")
    browser.until("its end", lambda: not browser.script("return document.querySelector('dialog[open]') !== null"))


def test_a_name_is_marked_but_for_its_ending(club, browser):
    club.lay("/b.txt")
    club.open("/b.txt")
    browser.press("Rename")
    browser.until("the name", lambda: browser.find(f"{DIALOG}//input"))
    marked = "const it = document.querySelector('dialog input'); return [it.value, it.selectionStart, it.selectionEnd]"
    assert browser.script(marked) == ["b.txt", 0, 1]


# Who may not

def test_a_right_that_is_taken_while_she_types(club, browser):
    """What eve may not do is not offered; the refusal is told, and her text stays."""
    path = "/plans/june.txt"
    club.lay((path, b"text"))
    club.lets("eve", "/plans", VIEW)
    club.lets("eve", path, ADD, 0)
    club.log_in("eve")
    club.open(path)
    browser.sees("text", "pre")
    assert browser.script(BUTTONS) == ["Add text", "Download", "Copy", "Print"]
    append(browser, "more", lambda: club.sets(path))
    browser.sees("You may not append to it (/plans/june.txt). Ask ann.", "dialog")
    assert (club.text(path), browser.script(TYPED)) == ("text", "more")
    browser.press("Cancel", DIALOG)
    browser.press("Discard it")


def test_log_out(club, browser):
    """The browser forgets the login, or it is told that it did not, and no box of its own asks for another. Back shows
    nothing and fails not."""
    club.lay("/plans/")
    club.anew("/plans")  # (Back from the first would load another page, which waits for a login)
    ask = ("fetch(new URL('/whoami', location.origin), {signal: AbortSignal.timeout(3000)})"
           ".then((it) => arguments[0](it.status), () => arguments[0]('waits for a login'))")
    assert browser.later(ask) == 200
    browser.script("const { open } = XMLHttpRequest.prototype; XMLHttpRequest.prototype.open = function (way) { "
                   "open.call(this, way, '/whoami'); }")  # (a front that lets nobody out)
    of_user(browser, "Log out")
    browser.sees("Not logged out", "h1")
    browser.go("about:blank")
    club.anew("/plans")
    club.user = ""
    of_user(browser, "Log out")
    browser.sees("You are logged out", "h1")
    assert browser.later(ask) == 401
    browser.script("history.back()")
    browser.until("Back", lambda: browser.script("return location.hash") == "#open/club")
    assert browser.script("return document.querySelector('h1').textContent") == "You are logged out"
    assert [it for it in browser.complaints() if "TypeError" in it] == []
