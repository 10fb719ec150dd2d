"""Pictures and PDFs: small in a folder, shown where they are opened, never run, and nothing that moves by itself (WCAG
2.2, criterion 2.2.2)."""
import cases
import pytest

from .club import BUTTONS, NAME, PIECE, TOP
from .drawn import PDF, PNG, RED, SVG, apng, gif, png, webp

# what is shown small of each thing in the list, by its name
SMALL = ("return Object.fromEntries([...document.querySelectorAll('.things tbody tr')].map((it) => "
         "[it.querySelector('.name').textContent, it.querySelector('.small-picture')?.firstChild?.tagName ?? null]))")
WIDTHS = ("return [...document.querySelectorAll('.things tr')].filter((it) => it.querySelector('.small-picture'))"
          ".map((it) => [it.querySelector('bdi').textContent, it.querySelector('canvas')?.width ?? null]).sort()")
NONE = "return document.querySelectorAll('.no-picture').length"
SHOWN = "return document.querySelector('.picture > :is(img, canvas):not([hidden])')?.tagName"
WIDTH = "const it = document.querySelector('.picture img'); return it && [it.complete, it.naturalWidth]"
DOT = ("return [...document.querySelector('.picture canvas').getContext('2d').getImageData(0, 0, 1, 1).data]"
       ".slice(0, 3)")
PRESS = ("return document.body.dispatchEvent(new KeyboardEvent('keydown',"
         " {bubbles: true, cancelable: true, ...arguments[0]}))")  # (true: it is left to the browser)
PLAYS = "return document.querySelector('.picture button') !== null"
HEAD = "return document.querySelector('h1').textContent"
MOVING = {"a.gif": gif(0, 1), "b.png": apng(), "c.webp": webp()}
STILL = {"d.gif": gif(0), "e.png": png(1, 1, 2, [RED])}


def lay(club, things):
    club.lay(*((f"{TOP}/{name}", data) for name, data in things.items()))


# In a folder

def test_small_pictures(club, browser):
    """Also of large files, by what their bytes are, up to a size of pixels, and made smaller."""
    lay(club, {"dot.png": PNG, "not.png": SVG, "large.png": PNG + bytes(3 << 19), "some.png": bits(800),
               "vast.png": bits(20_000)})
    club.open(TOP)
    wanted = [["dot.png", 1], ["large.png", 1], ["some.png", 96]]
    browser.until("small pictures", lambda: browser.script(WIDTHS) == wanted)
    heights = "return [...document.querySelectorAll('.things tbody tr')].map((it) => it.offsetHeight)"
    assert len({*browser.script(heights)}) == 1  # (a row without one is as high)


def test_small_pictures_of_a_folder_are_bounded(club, browser):
    """Files that say that they have so many bytes together that one, the last to be known, is not read."""
    for name in "a.png", "b.png", "c.png":
        its = cases.manifest_of(bytes(12 << 20))
        lay(club, {f"{name}/{NAME}": cases.compact(its)})
    club.open(TOP)
    browser.until("none is shown", lambda: browser.script(NONE) == 3)
    asked = {it for it in "abc" if club.lossy.times(f"{it}.png/.room-pieces")}
    assert len(asked) == 2


def test_a_small_picture_is_read_while_its_row_is_shown(club, browser):
    lay(club, {"large.png": PNG + bytes(1 << 20)})
    club.lossy.hold('"READ"', ".room-pieces")
    club.open(TOP)
    browser.until("it is read", lambda: club.lossy.held)
    club.open(f"{TOP}/nothing")
    club.lossy.go_on()
    club.open()
    assert club.lossy.times(".room-pieces") <= 4


def bits(side):
    """A picture of few bytes, with a bit a pixel."""
    return png(side, side, 0, [bytes(side // 8)] * side, depth=1)


def test_small_pictures_stand_still(club, browser):
    lay(club, MOVING | STILL)
    club.open(TOP)
    browser.until("small pictures", lambda: browser.script(SMALL) == dict.fromkeys(MOVING | STILL, "CANVAS"))


# Where they are opened

@pytest.mark.parametrize("name", [*MOVING, *STILL])
def test_a_picture_stands_still_until_play(club, browser, name):
    """Of one that moves the first one is shown."""
    lay(club, MOVING | STILL)
    moves, first = name in MOVING, "CANVAS" if name in MOVING else "IMG"
    club.open(f"{TOP}/{name}")
    browser.until("it", lambda: browser.script(SHOWN))
    assert (browser.script(SHOWN), browser.script(PLAYS)) == (first, moves)
    if moves and not name.endswith("webp"):
        assert browser.script(DOT) == [255, 0, 0]
    for words, shown in [("Play", "IMG"), ("Stop", "CANVAS")] if moves else []:
        browser.press(words, "//main")
        assert browser.script(SHOWN) == shown


def test_a_picture_is_shown_by_how_it_begins(club, browser):
    lay(club, {"dot.txt": PNG})
    club.open(f"{TOP}/dot.txt")
    assert browser.until("it", lambda: browser.script(WIDTH)) == [True, 1]


@pytest.mark.parametrize("name", ["picture.svg", "never.png"])
def test_an_svg_is_text_and_runs_nothing(club, browser, name):
    lay(club, {name: SVG})
    club.open(f"{TOP}/{name}")
    browser.sees("window.ran=1", "pre")
    assert browser.script("return window.ran ?? null") is None


def test_a_picture_of_very_many_pixels_is_not_shown(club, browser):
    lay(club, {"vast.png": bits(20_000)})
    club.open(f"{TOP}/vast.png")
    browser.sees("This cannot be shown here", "main")
    assert browser.script("return document.querySelectorAll('main img').length") == 0


def test_pictures_turn(club, browser):
    """By a click and by an arrow; with Alt it is the browser's, for the way back."""
    lay(club, {"one.png": PNG, "two.png": PNG, "zoo.png": PNG})
    club.open(f"{TOP}/two.png")
    browser.follow("Next picture ›")
    browser.until("the next one", lambda: browser.script(HEAD) == "zoo.png")
    assert browser.script(PRESS, {"key": "ArrowLeft", "altKey": True}) is True
    assert browser.script(PRESS, {"key": "ArrowLeft"}) is False
    browser.until("the one before", lambda: browser.script(HEAD) == "two.png")


@pytest.mark.parametrize("data", [PDF, PDF + bytes(PIECE)], ids=["small", "large"])
def test_a_pdf(club, browser, data):
    """One click shows it by the browser's viewer, another in its own tab, and never as a page."""
    lay(club, {"minutes.pdf": data})
    club.open(TOP)
    browser.follow("minutes.pdf")
    frame = "return document.querySelector('iframe.viewer')?.getBoundingClientRect().height > 300"
    browser.until("it is in the page", lambda: browser.script(frame))
    before, shown = browser.tabs(), "return [document.contentType, window.ran ?? null, window.opener]"
    browser.follow("Open this PDF in its own tab")
    new = browser.until("a tab", lambda: {*browser.tabs()} - {*before})
    browser.turn_to(*new)
    kind = browser.until("its kind", lambda: browser.script("return location.href !== 'about:blank'") and
                         browser.script(shown))
    assert kind == ["application/pdf", None, None]
    browser.close_tab()
    browser.turn_to(before[0])


def test_a_text_and_a_picture_are_printed(club, browser):
    """Without what is pressed, and in one page; what the browser shows by itself has its own way."""
    lay(club, {"dot.png": PNG, "it.pdf": PDF, "words.txt": b"some words", "other.bin": bytes(9)})
    for name, is_printed in ("dot.png", True), ("it.pdf", False), ("other.bin", False), ("words.txt", True):
        club.open(f"{TOP}/{name}")
        assert ("Print" in browser.script(BUTTONS)) == is_printed, name
    browser.script("window.print = () => { window.isPrinted = true; }")
    browser.press("Print", "//main")
    assert browser.script("return window.isPrinted")
    try:
        browser.devtools("Emulation.setEmulatedMedia", media="print")
        assert browser.shown().split("\n")[-1] == "some words"
        assert not {"Print", "Edit", "fileroom", "Rooms"} & {*browser.shown().split("\n")}
        club.open(f"{TOP}/dot.png")
        browser.until("the picture", lambda: browser.script(SHOWN))
        style = "return getComputedStyle(document.querySelector('.picture > :is(img, canvas)')).maxHeight"
        assert browser.script(style) == f"{0.85 * browser.script('return innerHeight'):g}px"
    finally:
        browser.devtools("Emulation.setEmulatedMedia", media="")
