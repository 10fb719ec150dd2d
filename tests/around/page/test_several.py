"""Several things at once: chosen by ticks and clicks, moved, brought back, downloaded, removed, dragged, cut, copied,
pasted."""
import time

import pytest

from .club import CHOSEN, DIALOG, PIECE, ROWS, TEXTS, TOP, ends, forget_told, row, search_in, to_folder
from .drawn import PNG

CELLAR, ATTIC = f"{TOP}/cellar", f"{TOP}/attic"
BOX = f"{ATTIC}/box"
BOTH = ["list.xlsx", "notes.txt"]
BAR = "return [...document.querySelectorAll('.chosen:not([hidden]) button:not([hidden])')].map((it) => it.textContent)"
IN_MAIN = ("return document.querySelector('.chosen').hidden && "
           "document.querySelector('main').contains(document.activeElement)")
IN_TREE = "return [document.activeElement.path, document.querySelectorAll('.tree [tabindex=\"0\"]').length]"
TR = "//tr[.//bdi='{}']".format
# what the mouse would do, event by event: a row is taken, held over an element, and let go; whether it may be
DRAG = """const data = new DataTransfer(), [from, to] = [arguments[0], arguments[1]].map((path) =>
  document.evaluate(path, document, null, 9).singleNodeValue);
const told = [[from, 'dragstart'], [to, 'dragover'], [to, 'drop'], [from, 'dragend']].map(([it, type]) =>
  it.dispatchEvent(new DragEvent(type, {bubbles: true, cancelable: true, dataTransfer: data})));
return !told[1];"""
# Undo, by keys that are held down, and by a double click
HELD = """for (let count = 0; count < 3; count += 1) document.body.dispatchEvent(
  new KeyboardEvent('keydown', {key: 'z', ctrlKey: true, repeat: count > 0, bubbles: true, cancelable: true}));"""
TWICE = "const it = document.querySelector('#notices .undo'); it.click(); it.click();"
DROP_FILE = """const data = new DataTransfer(); data.items.add(new File(['dropped'], 'dropped.txt'));
const to = document.evaluate(arguments[0], document, null, 9).singleNodeValue;
for (const type of ['dragover', 'drop']) to.dispatchEvent(
  new DragEvent(type, {bubbles: true, cancelable: true, dataTransfer: data}));"""
PASTE = """const data = new DataTransfer();
data.items.add(new File([Uint8Array.from(arguments[0])], 'image.png', {type: 'image/png'}));
document.body.dispatchEvent(new ClipboardEvent('paste', {bubbles: true, cancelable: true, clipboardData: data}));"""
PASTED = ("window.pasted = new Promise((tell) => addEventListener('paste', (it) => tell([it.defaultPrevented, "
          "it.clipboardData.getData('text/plain')]), {once: true}))")


def click(browser, name, **how):
    """A click on a row, beside its name."""
    browser.script("[...document.querySelectorAll('.things tbody tr')].find((it) => arguments[0] === "
                   "it.querySelector('bdi').textContent).querySelector('.kind').dispatchEvent(new MouseEvent('click', "
                   "{bubbles: true, cancelable: true, ...arguments[1]}))", name, how)


@pytest.fixture
def both(browser, frame):
    """Two of them are chosen."""
    for name in BOTH:
        browser.act(f"{TR(name)}//input", "click")


def of_chosen(browser, words):
    browser.press(words, "//*[contains(@class, 'chosen')]")


def test_clicks_and_ticks_choose(browser, frame):
    click(browser, "bill.pdf")
    click(browser, "list.xlsx", ctrlKey=True)
    assert browser.script(CHOSEN) == ["bill.pdf", "list.xlsx"]
    click(browser, "letter.docx")
    click(browser, "notes.txt", shiftKey=True)
    assert browser.script(CHOSEN) == ["letter.docx", *BOTH]
    browser.act(f"{TR('letter.docx')}//input", "click")
    assert browser.script(CHOSEN) == BOTH
    browser.sees("2 selected", ".chosen")
    assert browser.script(BAR) == ["Move", "Copy", "Download", "Remove", "Clear selection"]


def test_all_rows_up_to_one_far_below_are_chosen(club, browser):
    club.lay(*(f"/many/{at:02}.txt" for at in range(12)))
    club.anew("/many")
    click(browser, "02.txt")
    click(browser, "10.txt", shiftKey=True)
    assert browser.script(CHOSEN) == [f"{at:02}.txt" for at in range(2, 11)]


def test_several_are_downloaded(club, browser, both):
    of_chosen(browser, "Download")
    browser.sees("frame.zip is made, of 2 items.", "#notices")
    assert club.saved("frame.zip")[:4] == b"PK\3\4"


def test_several_are_moved_and_back(club, browser, both):
    """Into a folder that is made on the way, to which keys lead too."""
    of_chosen(browser, "Move")
    to_folder(browser, "attic")
    for key, path in ("down", CELLAR), ("left", TOP), ("right", ATTIC), ("end", CELLAR), ("up", ATTIC):
        browser.keys(key)
        browser.sees(f"To the folder {path}", "dialog")
        assert (key, browser.script(IN_TREE)) == (key, [path, 1])
    browser.press("New folder", DIALOG)
    browser.fill("Name", "box")
    browser.press("Create")
    browser.sees(f"To the folder {BOX}", "dialog")
    browser.press("Move", DIALOG)
    browser.sees(f"2 items are now in {BOX}.", "#notices")
    assert club.names(BOX) == BOTH
    browser.press("Undo")
    browser.sees("2 items are there again.", "#notices")
    assert (club.names(BOX), len(club.names(TOP))) == ([], 6)


def test_several_go_where_something_went_lately(club, browser, both):
    """Also where that is pressed before the tree is open."""
    of_chosen(browser, "Move")
    to_folder(browser, "attic")
    browser.press("Move", DIALOG)
    browser.press("Undo")
    browser.sees("2 items are there again.", "#notices")
    for name in BOTH:
        browser.act(f"{TR(name)}//input", "click")
    club.lossy.hold('"LIST"', '"path":"/"')
    of_chosen(browser, "Move")
    browser.until("the tree opens", lambda: club.lossy.held)
    browser.press("attic", DIALOG)
    club.lossy.go_on()
    browser.sees("To the folder /frame/attic", "dialog")


def test_several_are_removed_and_back(club, browser, both):
    club.make_trash()
    browser.keys("delete")
    browser.sees("2 items are in the trash.", "#notices")
    assert (len(club.names(TOP)), len(club.names("/trash/ann"))) == (4, 2)
    browser.press("Undo")
    browser.sees("2 items are there again.", "#notices")
    assert (len(club.names(TOP)), club.names("/trash/ann")) == (6, [])


# Dragged

def test_a_row_is_dragged_onto_a_folder(club, browser, frame):
    """And nothing into itself."""
    browser.until("what it is", lambda: "0 items" in row(browser, "cellar"))  # (till then it takes no row)
    browser.script(DRAG, TR("cellar"), TR("cellar"))
    assert browser.script(DRAG, TR("list.xlsx"), TR("cellar")) is True
    browser.sees("is now /frame/cellar/list.xlsx", "#notices")
    assert club.names(CELLAR) == ["list.xlsx"]
    browser.press("Undo")
    browser.sees("is there again", "#notices")
    assert club.names(CELLAR) == []


@pytest.mark.parametrize("does", [HELD, TWICE], ids=["held", "twice"])
def test_what_is_undone_twice_is_undone_once(club, browser, frame, does):
    """By a key that is held, or a double click: nothing is told as failed."""
    browser.until("what it is", lambda: "0 items" in row(browser, "cellar"))
    browser.script(DRAG, TR("list.xlsx"), TR("cellar"))
    browser.sees("is now /frame/cellar/list.xlsx", "#notices")
    club.lossy.hold('"RENAME"')
    before = club.lossy.times('"RENAME"')
    browser.script(does)
    browser.until("it is on its way", lambda: club.lossy.held)
    time.sleep(0.5)  # (a second one would come right behind it)
    sent = club.lossy.times('"RENAME"') - before
    club.lossy.go_on()
    browser.sees("is there again", "#notices")
    assert (sent, browser.script(TEXTS, "#notices .fault"), "list.xlsx" in club.names(TOP)) == (1, [], True)


def test_several_are_dragged_onto_the_way_above(club, browser, both):
    browser.script(DRAG, TR("notes.txt"), "//*[@class='way']/li[1]")
    browser.sees("2 items are now in /.", "#notices")
    assert {*BOTH} <= {*club.names("/")}
    browser.press("Undo")
    browser.sees("2 items are there again", "#notices")
    assert len(club.names(TOP)) == 6


def test_a_large_file_takes_nothing_that_is_dragged(club, browser, frame):
    club.lay((f"{TOP}/large", bytes(PIECE + 1)))
    club.anew(TOP)
    browser.until("what it is", lambda: "64 KiB" in row(browser, "large"))
    assert browser.script(DRAG, TR("notes.txt"), TR("large")) is False


def test_files_are_dropped_on_a_folders_row(club, browser, frame):
    browser.until("what it is", lambda: "0 items" in row(browser, "cellar"))
    browser.script(DROP_FILE, TR("cellar"))
    browser.sees("1 file uploaded", "#notices")
    assert (club.names(CELLAR), len(club.names(TOP))) == (["dropped.txt"], 6)
    browser.until("how much", lambda: "1 item" in row(browser, "cellar"))


# By clipboard

def test_cut_and_paste(club, browser, both):
    """Once, and back by Undo."""
    browser.chord("ctrl", "x")
    browser.sees("2 items are cut: Ctrl V puts them into the folder shown.", "#notices")
    assert (len(club.names(TOP)), club.names(CELLAR)) == (6, [])
    club.open(CELLAR)
    browser.chord("ctrl", "v")
    browser.sees("2 items are now in /frame/cellar.", "#notices")
    assert (len(club.names(TOP)), club.names(CELLAR)) == (4, BOTH)
    browser.press("Undo")
    browser.sees("2 items are there again.", "#notices")
    browser.chord("ctrl", "v")
    club.open(TOP)
    assert (len(club.names(TOP)), club.names(CELLAR)) == (6, [])


def test_copy_and_paste(club, browser, frame):
    """Also from tab to tab, and under a free name."""
    click(browser, "letter.docx")
    browser.chord("ctrl", "c")
    browser.sees("/frame/letter.docx is copied: Ctrl V puts it into", "#notices")
    browser.tab()
    for folder, name in (TOP, "letter (2).docx"), (CELLAR, "letter.docx"):
        club.open(folder)
        browser.chord("ctrl", "v")
        browser.sees(f"/frame/letter.docx is copied to {folder}/{name}.", "#notices")
        assert club.bytes(f"{folder}/{name}") == bytes(45)


def test_all_that_are_chosen_among_what_was_found_are_cut(club, browser, frame):
    search_in(club, TOP, "t")
    ends(browser, "4 results")
    for name in BOTH:
        browser.act(f"{TR(name)}//input", "click")
    browser.chord("ctrl", "x")
    browser.sees("2 items are cut", "#notices")


def test_a_text_that_is_copied_moves_nothing(club, browser, both):
    """What is marked is cut or copied as such, and what others put into the clipboard is none of what was cut."""
    browser.act("//header//input[@type='search']", "value", {"text": "words"})
    browser.chord("ctrl", "a")
    browser.chord("ctrl", "x")
    assert browser.script("return document.querySelector('header input').value") == ""
    assert "cut" not in browser.text_of("#notices")
    browser.script("document.querySelector('.things a.name').focus()")
    browser.chord("ctrl", "x")
    browser.sees("2 items are cut", "#notices")
    club.open(CELLAR)
    browser.script("getSelection().selectAllChildren(document.querySelector('.empty p'))")
    browser.chord("ctrl", "c")
    browser.script("getSelection().removeAllRanges()")
    browser.chord("ctrl", "v")
    browser.script(PASTED)
    browser.chord("ctrl", "v")
    assert browser.script("return window.pasted") == [False, "This folder is empty."]
    assert (len(club.names(TOP)), club.names(CELLAR)) == (6, [])


def test_a_picture_is_pasted_into_the_folder(club, browser, frame):
    """Twice, under a free name."""
    for count, name in enumerate(("screenshot.png", "screenshot (2).png"), 1):
        forget_told(browser)
        browser.script(PASTE, [*PNG])
        browser.sees("1 file uploaded", "#notices")
        browser.until("it is shown", lambda: len(browser.script(ROWS)) == 6 + count)
        assert club.bytes(f"{TOP}/{name}") == PNG


@pytest.mark.parametrize("words", ["Clear selection", "Download", "Move"])
def test_the_focus_is_somewhere_once_the_bar_is_gone(browser, both, words):
    """By keys nobody begins at the top of the page."""
    of_chosen(browser, words)
    if words == "Move":
        to_folder(browser, "cellar", CELLAR)
        browser.press("Move", DIALOG)
    browser.until("the focus", lambda: browser.script(IN_MAIN))
