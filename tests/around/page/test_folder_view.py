"""A folder as in a file manager: what is seen first, sorting, keys, menus, links, what is seen by itself."""
import time

import pytest

from .club import (ALL, CHOSEN, DIALOG, FOUND, FRAME, MENU, PIECE, PLACE, ROWS, TEXTS, TOP, VIEW, by_menu, ends, entry,
                   of_folder, of_user, offers, row, search_in, to_folder)

NAMES = [*FRAME]
TO_ROW = ["tab"] * 4  # over the folder's own buttons
FOCUS = ("const it = document.activeElement; return it.matches('.things .name') ? it.textContent "
         ": it.getAttribute('aria-label') ?? it.textContent")
SORTS = "return [...document.querySelectorAll('.things thead th')].map((it) => it.getAttribute('aria-sort'))"
LINED = ("return [...document.querySelectorAll('.things *')].filter((it) => "
         "getComputedStyle(it).textDecorationLine === 'underline').map((it) => it.textContent)")
TOP_ROW = "return document.querySelector('.things tbody tr').getBoundingClientRect().top"
WIDTH = "return document.documentElement.scrollWidth"
MENU_AT = ("document.querySelector(arguments[0]).dispatchEvent(new MouseEvent('contextmenu', {bubbles: true, "
           "cancelable: true, button: 2, clientX: 90, clientY: 300}))")
BOX = "const it = document.querySelector('.menu').getBoundingClientRect(); return [it.left, it.bottom]"
# what of a menu cannot be seen whole, wherever that is scrolled to
OUT_OF_SIGHT = """return [...document.querySelectorAll('.menu > *')].filter((it) => {
  it.scrollIntoView({block: 'nearest'});
  const box = it.getBoundingClientRect();
  return box.top < 0 || box.bottom > innerHeight;
}).map((it) => it.textContent)"""
ALL_TICK = "const it = document.querySelector('.things thead input'); return [it.checked, it.indeterminate]"
EXPANDED = "return document.querySelector('[aria-label=\"More for attic\"]').ariaExpanded"
OFFERED = "return document.querySelector('[role=menu], .chosen:not([hidden])') !== null"
STOPS = "return [...document.querySelectorAll('.things [tabindex=\"0\"]')].map((it) => it.ariaLabel)"
TO_SEARCH = "return document.activeElement.closest('#search') !== null"
AWAY = "document.activeElement.blur()"


# What is seen first

@pytest.mark.parametrize("width, height, most", [(1280, 707, 200), (360, 740, 260)], ids=["desktop", "phone"])
def test_the_first_row_is_near_the_top(club, browser, frame, width, height, most):
    browser.size(width, height)
    club.anew(TOP)
    browser.sees("notes.txt", ".things")
    assert browser.script(TOP_ROW) <= most
    assert browser.script(WIDTH) == width


def test_the_way_above_has_room_on_a_phone(club, browser):
    """Where the name is long too, no folder's lies over another's."""
    path = "/Team/Annual general meeting 2026/Invitation and agenda.txt"
    club.lay(path)
    browser.size(390, 844)
    club.open(path)
    boxes = browser.script("return [...document.querySelectorAll('.way a')].map((it) => it.getBoundingClientRect())"
                           ".map((it) => [it.left, it.right])")
    assert [one[1] < other[0] for one, other in zip(boxes, boxes[1:])] == [True, True]


def test_the_first_row_is_four_tabs_away(browser, frame):
    """And a button skips to it."""
    browser.sees("notes.txt", ".things")
    assert browser.script(FOCUS) == "frame"
    browser.keys(*TO_ROW)
    assert browser.script(FOCUS) == "attic"
    browser.script("document.activeElement.blur(); document.body.focus(); scrollTo(0, 0)")
    browser.script("document.getElementById('skip').focus()")
    browser.keys("enter")
    assert browser.script(FOCUS) == "attic"


def test_an_empty_folder_is_skipped_to_at_its_name(club, browser):
    club.lay("/bare/")
    club.open("/bare")
    browser.script("document.getElementById('skip').focus()")
    browser.keys("enter")
    assert browser.script(FOCUS) == "bare"


@pytest.mark.parametrize("view", ["access", "who", "find"])
def test_search_is_at_hand(club, browser, frame, view):
    club.open(TOP, view)
    assert browser.script("return document.querySelector('header input').checkVisibility()")


def test_only_the_name_under_the_mouse_is_underlined(browser, frame):
    for place, names in ("//thead//th[.//button='Name']", []), ("//a[.='attic']", ["attic"]), ("//*[@id='user']", []):
        browser.point(place)
        assert browser.script(LINED) == names


def test_icons_tell_kinds(browser, frame):
    icons = "return [...document.querySelectorAll('.things .icon')].map((it) => it.classList[1])"
    assert browser.script(icons) == ["folder", "folder", "pdf", "writing", "table", "text"]


# Order

def test_heads_sort(club, browser, frame):
    """They tell it, and it is kept."""
    assert (browser.script(ROWS), browser.script(SORTS)) == (NAMES, ["ascending", None, "none", "none"])
    by_size = ["attic", "cellar", "notes.txt", "letter.docx", "list.xlsx", "bill.pdf"]
    browser.press("Size")
    browser.until("by size", lambda: browser.script(ROWS) == by_size)
    assert browser.script(SORTS) == ["none", None, "none", "ascending"]
    browser.press("Size")
    browser.until("the other way", lambda: browser.script(ROWS)[2:] == by_size[:1:-1])
    club.anew(TOP)
    assert browser.script(ROWS)[2:] == by_size[:1:-1]
    browser.press("Kind")
    assert browser.script(ROWS)[2:] == ["letter.docx", "bill.pdf", "list.xlsx", "notes.txt"]


def test_names_stand_as_people_look_for_them(club, browser):
    """Large files among the others: in a folder, where one chooses one, in the matrix, and where they were found."""
    folders = ["\u00c4pfel", "apple", "Bread 2", "bread 10", "\u00f6l", "Zebra"]
    files = [*folders[:3], "Bread 3", *folders[3:]]
    club.lay(*(f"/order/{it}/" for it in folders), *(f"/order/f/{it}" for it in folders),
             ("/order/f/Bread 3", bytes(PIECE + 1)))
    club.open("/order/f")
    browser.until("its size", lambda: "64 KiB" in row(browser, "Bread 3"))
    club.anew("/order/f")  # (no row moves by itself)
    assert browser.script(ROWS) == files
    club.open("/order/f", "who")
    browser.sees("Zebra", ".matrix")
    assert [it.removesuffix("/") for it in browser.script(TEXTS, ".matrix tbody th")] == ["f", *files]
    club.open("/order/f/apple")
    browser.press("Move", "//main")
    inside = ".tree > li > [role=group] > li > [role=group] > li > span > bdi"
    wanted = [*folders[:4], "f", *folders[4:]]
    browser.until("folders", lambda: browser.script(TEXTS, inside) == wanted)
    browser.press("Cancel", DIALOG)
    search_in(club, "/order/f", "")
    ends(browser, f"{len(files)} results among")
    assert sorted(browser.script(FOUND)) == sorted(f"/order/f/{it}" for it in files)


def test_rows_stay_while_it_becomes_known_what_they_are(club, browser):
    """A click opens what it was for."""
    large = bytes(PIECE + 1)
    club.lay("/stay/alpha/", "/stay/omega/", "/stay/zeta/", ("/stay/middle", large), ("/stay/report.pdf", large))
    rows = {"alpha": "0 items", "middle": "64 KiB", "omega": "0 items", "zeta": "0 items", "report.pdf": "64 KiB"}
    known = lambda: {it: row(browser, it).split("\n")[1] for it in rows} == rows
    club.lossy.hold('"LIST"', '"/stay/')
    club.open("/stay")
    assert browser.script(ROWS) == [*rows]
    browser.point("//main//a[.='omega']")
    club.lossy.go_on()
    browser.until("what they are", known)
    assert browser.script(ROWS) == [*rows]
    press_here(browser)
    place = browser.until("what it was for", lambda: (at := browser.script(PLACE)) != "#open/club/stay" and at)
    assert place == "#open/club/stay/omega"
    club.open("/stay")
    assert browser.script(ROWS) == ["alpha", "omega", "zeta", "middle", "report.pdf"]


def press_here(browser):
    """Presses the mouse where it is, whatever lies there by now."""
    moves = [{"type": it, "button": 0} for it in ("pointerDown", "pointerUp")]
    browser.ask("POST", "/actions", {"actions": [{"type": "pointer", "id": "mouse", "actions": moves}]})


def test_the_second_click_of_a_double_click_leads_nowhere(browser, frame):
    twice = ("return document.querySelector('.things a.name').dispatchEvent("
             "new MouseEvent('click', {bubbles: true, cancelable: true, detail: 2}))")
    assert browser.script(twice) is False


# Keys

def test_keys_move_in_the_list(browser, frame):
    """Arrows, Home, End and letters. The tab key stops at one place of it."""
    browser.devtools("Emulation.setFocusEmulationEnabled", enabled=True)  # (else no tab but the first is told of it)
    browser.until("who sees each", lambda: browser.text_of(".things td.who").count("eng") == len(NAMES))
    browser.keys(*TO_ROW)
    for keys, at in (["down"], "cellar"), (["end"], "notes.txt"), (["home"], "attic"), (["l"], "letter.docx"), \
            (["up"], "bill.pdf"), (["li"], "list.xlsx"), (["right", "right"], "eng"), \
            (["right"], "More for list.xlsx"):
        browser.keys(*keys)
        assert (keys, browser.script(FOCUS)) == (keys, at)
        browser.script("return new Promise((go) => setTimeout(go, 750))")  # (letters begin anew)
    assert browser.script(STOPS) == ["More for list.xlsx"]


def test_keys_choose_in_the_list(browser, frame):
    """Space, Shift and an arrow, Ctrl+A and Escape. The tick above tells whether all are."""
    browser.keys(*TO_ROW, "end", "up", "space")
    assert browser.script(CHOSEN) == ["list.xlsx"]
    browser.chord("shift", "down")
    assert (browser.script(CHOSEN), browser.script(ALL_TICK)) == (["list.xlsx", "notes.txt"], [False, True])
    browser.chord("ctrl", "a")
    assert (browser.script(CHOSEN), browser.script(ALL_TICK)) == (NAMES, [True, False])
    browser.keys("escape")
    assert (browser.script(CHOSEN), browser.script(ALL_TICK)) == ([], [False, False])


def test_f2_renames_and_delete_removes(club, browser, frame):
    """The row has the focus behind it."""
    browser.keys(*TO_ROW, "end", "f2")
    browser.fill("Name", "notes 2.txt")
    browser.keys("enter")
    browser.sees("is now", "#notices")
    assert "notes 2.txt" in club.names(TOP)
    in_row = "return document.activeElement.closest('tr') !== null"
    browser.until("the row has the focus", lambda: browser.script(in_row))
    browser.keys("delete")
    browser.sees("Remove notes 2.txt", "dialog")


def test_a_row_that_is_renamed_has_the_focus(browser, frame):
    """Wherever it stands then; and the old name comes back by one press."""
    browser.keys(*TO_ROW, "end", "f2")
    browser.fill("Name", "ahead.txt")
    browser.keys("enter")
    browser.until("the row", lambda: browser.script(FOCUS) == "ahead.txt")
    browser.press("Undo")
    browser.sees("/frame/notes.txt is there again.", "#notices")
    browser.until("the row", lambda: browser.script(FOCUS) == "notes.txt")


def test_a_folder_that_is_renamed_comes_back(club, browser, frame):
    """Also where it is the one that is shown."""
    club.open(f"{TOP}/attic")
    of_folder(browser, "Rename")
    browser.fill("Name", "loft")
    browser.press("Rename", DIALOG)
    browser.until("it is shown", lambda: browser.script(PLACE) == f"#open/club{TOP}/loft")
    browser.press("Undo")
    browser.until("it is shown", lambda: browser.script(PLACE) == f"#open/club{TOP}/attic")


def test_the_bar_of_a_selection_stays_in_sight(club, browser):
    club.lay(*(f"/many/{at:02}.txt" for at in range(60)))
    club.open("/many")
    browser.act("//main//input[@aria-label='Select 50.txt']", "click")
    browser.sees("1 selected", ".chosen")
    where = "const it = document.querySelector('.chosen').getBoundingClientRect(); return [scrollY > 0, it.top >= 0]"
    assert browser.script(f"scrollTo(0, 9e9); {where}") == [True, True]


def test_what_one_may_not_look_into_has_a_lock(club, browser):
    """It may be a folder, or a large file."""
    club.lay("/shut/in/", ("/shut/large", bytes(PIECE + 1)), "/shut/open/")
    club.lets("eve", "/shut", VIEW)
    for it in "in", "large":
        club.sets(f"/shut/{it}", entry("OWNER@", ALL), flags=2)
    club.log_in("eve")
    club.open("/shut")
    kinds = lambda: [row(browser, it).split("\n")[-1] for it in ("in", "large", "open")]
    browser.until("what they are", lambda: kinds() == ["No access", "No access", "Folder"])
    icons = "return [...document.querySelectorAll('.things .icon')].map((it) => it.classList[1])"
    assert sorted(browser.script(icons)) == ["folder", "locked", "locked"]


def test_a_double_click_opens(browser, frame):
    browser.script("document.querySelector('tbody .kind').dispatchEvent(new MouseEvent('dblclick', {bubbles: true}))")
    browser.until("it is open", lambda: browser.script(PLACE) == f"#open/club{TOP}/attic")


def test_a_slash_leads_to_the_search(browser, frame):
    """Alone only out of the list."""
    browser.script(AWAY)
    browser.keys("/")
    assert browser.script(TO_SEARCH) is False
    browser.chord("ctrl", "/")
    assert browser.script(TO_SEARCH) is True
    browser.script("document.querySelector('.things a.name').focus()")
    browser.keys("/")
    assert browser.script(TO_SEARCH) is True


def test_keys_hold_for_the_whole_page(club, browser, frame):
    """Wherever the focus is: Ctrl+A, Escape, Ctrl+Z, and Alt and an arrow, which alone scrolls."""
    browser.script(AWAY)
    browser.chord("ctrl", "a")
    browser.sees("6 selected", ".chosen")
    browser.script(AWAY)
    browser.keys("escape")
    browser.until("none", lambda: not browser.script("return document.querySelector('.chosen').checkVisibility()"))
    by_menu(browser, "notes.txt", "Move")
    to_folder(browser, "attic")
    browser.press("Move", DIALOG)
    browser.sees("is now", "#notices")
    browser.script(AWAY)
    browser.chord("ctrl", "z")
    browser.sees("/frame/notes.txt is there again.", "#notices")
    assert "notes.txt" in club.names(TOP)
    browser.script(AWAY)
    browser.keys("up")
    browser.later("fetch('/whoami').then(() => arguments[0]())")
    assert browser.script("return location.hash") == f"#open/club{TOP}"
    browser.script("document.querySelector('.things a.name').focus()")
    browser.chord("alt", "up")
    browser.until("the folder above", lambda: browser.script(PLACE) == "#open/club")


# Menus

def test_menu_of_a_row(browser, frame):
    """By right click and by keys, where the mouse was, around its end and back."""
    browser.until("what it is", lambda: "0 items" in row(browser, "cellar"))
    browser.script(MENU_AT, ".things tbody .kind")
    offers(browser)
    browser.until("it has the focus", lambda: browser.script("return document.activeElement.role") == "menuitem")
    assert browser.script(BOX)[0] == 90
    browser.keys("down")
    assert browser.script(FOCUS) == "Rename"
    browser.keys("end", "down")
    assert (browser.script(FOCUS), browser.script(EXPANDED)) == ("Download as zip", "true")
    browser.keys("escape")
    assert (browser.script(FOCUS), browser.script(EXPANDED)) == ("More for attic", "false")
    browser.keys("enter")
    offers(browser)
    browser.keys("tab")
    browser.until("it is closed", lambda: browser.script("return document.querySelector('[role=menu]') === null"))


@pytest.mark.parametrize("key", ["enter", "space"])
def test_a_menu_of_a_row_is_pressed_by_keys(browser, frame, key):
    browser.sees("notes.txt", ".things")
    browser.script("document.querySelector('[aria-label=\"More for notes.txt\"]').focus()")
    browser.keys("enter")
    browser.until("a menu", lambda: browser.find(MENU))
    browser.keys("m")
    browser.until("it is stood on", lambda: browser.script(FOCUS) == "Move")
    browser.keys(key)
    browser.sees("Move notes.txt", "dialog")


def test_menu_on_a_phone(club, browser, frame):
    """A sheet from below."""
    browser.size(360, 740)
    browser.press("More for attic")
    offers(browser)
    assert browser.script(BOX) == [0, 740]


def test_a_menu_is_within_reach_on_a_phone_held_across(club, browser, frame):
    """And on any screen that is lower than the menu: each of its items comes into sight."""
    for width, height in (667, 320), (1000, 320):
        browser.size(width, height)
        browser.press("More for attic")
        offers(browser)
        out = browser.script(OUT_OF_SIGHT)
        assert (width, out) == (width, [])
        browser.keys("escape")


def test_a_phone_is_told_of_no_drops(club, browser, frame):
    """Which a mouse makes."""
    drops = "Drop files anywhere on this page."
    browser.sees(drops, "main")
    browser.size(360, 740)
    assert drops not in browser.text_of("main .about")


def test_menu_of_the_ground(club, browser, frame):
    """A right click offers what can be made."""
    browser.script(MENU_AT, ".drops")
    browser.press("New folder", MENU)
    browser.fill("Name", "made")
    browser.press("Create")
    browser.sees("made created.", "#notices")
    browser.sees("made", ".things")


def test_link(club, browser, frame):
    """It is copied from a row's menu."""
    browser.devtools("Browser.grantPermissions", permissions=["clipboardReadWrite", "clipboardSanitizedWrite"])
    by_menu(browser, "notes.txt", "Copy the link")
    browser.sees("Link copied", "#notices")
    reads = "navigator.clipboard.readText().then(arguments[0], (fault) => arguments[0](String(fault)))"
    assert browser.later(reads) == club.address(f"#open/club{TOP}/notes.txt")


# By itself

def test_a_menu_that_is_left_open_holds_up_nothing(club, browser, frame):
    """Who goes back while it is open sees later what others do."""
    club.open()
    club.open(TOP)
    browser.press("More for attic")
    browser.sees("Copy the link", ".menu")
    browser.script("history.back()")
    browser.until("the top", lambda: browser.script(PLACE) == "#open/club")
    assert not browser.script("return document.querySelector('.menu') !== null")
    club.lay("/of eve.txt")
    browser.script("dispatchEvent(new Event('focus'))")
    browser.sees("of eve.txt", ".things")


def test_others_changes_are_seen_by_who_comes_back(club, browser, frame):
    club.lay(f"{TOP}/of eve.txt")
    browser.script("dispatchEvent(new Event('focus'))")
    browser.sees("of eve.txt", ".things")


def test_a_folder_that_is_closed_or_gone_is_not_shown_to_who_comes_back(club, browser):
    """The reason is told, and none of its names stays."""
    def comes_back_to(words):
        browser.script("dispatchEvent(new Event('focus'))")  # (once more where the page was at work)
        return words in browser.text_of("main")
    club.lay("/closing/a.txt", "/leaving/a.txt")
    club.lets("eve", "/closing", VIEW)
    club.open("/leaving")
    club.does({"cmd": "RENAME", "path": "/leaving", "to": "/left"})
    browser.until("that it is gone", lambda: comes_back_to("There is nothing at this path"))
    club.log_in("eve")
    club.open("/closing")
    club.sets("/closing", entry("OWNER@", ALL), flags=2)
    browser.until("that it is closed", lambda: comes_back_to("You don't have access to /closing."))
    assert "a.txt" not in browser.shown()


def test_what_opens_again_is_shown_to_who_comes_back(club, browser):
    """Also to who presses the place on which they are, or takes it off the favourites while it is closed."""
    def comes_back_to(words):
        browser.script("dispatchEvent(new Event('focus'))")  # (once more where the page was at work)
        return words in browser.text_of("main")
    closed, starred = "You don't have access to /closing/a.txt.", "#rail ul[aria-label='Favourites'] a"
    club.lay(("/closing/a.txt", b"of ann"))
    club.lets("eve", "/closing", VIEW)
    club.log_in("eve")
    club.open("/closing")
    by_menu(browser, "a.txt", "Add to favourites")
    club.sets("/closing", entry("OWNER@", ALL), flags=2)
    club.open("/closing/a.txt")
    browser.sees(closed, "main")
    club.lets("eve", "/closing", VIEW)
    browser.until("the text", lambda: comes_back_to("of ann"))
    club.sets("/closing", entry("OWNER@", ALL), flags=2)
    browser.until("that it is closed", lambda: comes_back_to(closed))
    club.lets("eve", "/closing", VIEW)
    browser.script("localStorage.setItem('fileroom/still', 'still')")  # (nothing is refreshed by itself)
    browser.script(f"document.querySelector({starred!r}).click()")
    browser.sees("of ann", "main")
    browser.script("localStorage.removeItem('fileroom/still')")
    club.sets("/closing", entry("OWNER@", ALL), flags=2)
    browser.until("that it is closed", lambda: comes_back_to(closed))
    browser.press("Remove from favourites")
    browser.until("it is gone there", lambda: browser.script(TEXTS, starred) == [])
    browser.until("no star is offered", lambda: "favourites" not in browser.text_of("main"))


def test_others_changes_are_seen_by_who_does_nothing(club, browser, frame):
    """Here after a second in the place of a minute."""
    quick = "const slow = setInterval; setInterval = (task, time) => slow(task, time / 60);"
    browser.devtools("Page.addScriptToEvaluateOnNewDocument", source=quick)
    club.log_in("ann")
    club.open(TOP)
    club.lay(f"{TOP}/of eve too.txt")
    browser.sees("of eve too.txt", ".things")


def test_others_changes_are_not_seen_where_that_is_not_wished(club, browser, frame):
    """A folder is looked at again by itself, but not for who turned that off."""
    comes_back = ("dispatchEvent(new Event('focus')); fetch('/whoami').then(() => fetch('/whoami'))"
                  ".then(() => arguments[0]())")  # (by then what it asks is sent)
    are_known = lambda: all("0 items" in row(browser, it) for it in NAMES[:2])
    browser.until("what they are", are_known)  # (which asks for what is in them)
    for words, name, is_shown in ("Do not refresh by itself", "one.txt", False), ("Refresh by itself", "two.txt", True):
        of_user(browser, words)
        club.lay(f"{TOP}/{name}")
        sent = club.lossy.times('"LIST"')
        browser.later(comes_back)
        if is_shown:
            browser.until(words, lambda before=sent: club.lossy.times('"LIST"') > before)
        assert (words, club.lossy.times('"LIST"') > sent) == (words, is_shown)
    browser.sees("two.txt", ".things")
    browser.until("what they are", are_known)
    for path in "//*[@aria-label='More for two.txt']", "//tr[.//bdi='two.txt']//input":
        browser.act(path, "click")  # (a menu stays open, and what is chosen stays so)
        browser.until("what is offered", lambda: browser.script(OFFERED))
        sent = club.lossy.times('"LIST"')
        browser.later(comes_back)
        assert club.lossy.times('"LIST"') == sent
        browser.keys("escape")


def test_what_is_chosen_while_the_page_looks_again_stays_chosen(club, browser, frame):
    """Whatever it finds: what is pressed then is of the rows that were chosen."""
    club.lay(f"{TOP}/of eve.txt")
    club.lossy.hold('"LIST"', '"keep":false')
    browser.script("dispatchEvent(new Event('focus'))")
    browser.until("it looks", lambda: club.lossy.held)
    browser.act("//tr[.//bdi='notes.txt']//input", "click")
    club.lossy.go_on()
    time.sleep(1)  # (it has looked by then)
    assert browser.script(CHOSEN) == ["notes.txt"]
    browser.keys("escape")
    browser.script("dispatchEvent(new Event('focus'))")
    browser.sees("of eve.txt", ".things")


def test_one_click_downloads_what_cannot_be_shown(club, browser, frame):
    browser.follow("letter.docx")
    assert len(club.saved("letter.docx")) == FRAME["letter.docx"]
