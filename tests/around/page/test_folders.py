"""Folders with what is in them, a large file too: copied, moved, packed, searched; and what somebody else, who may add
something, has put in there."""
import hashlib
import io
import os
import zipfile

import cases
import manifests
import pytest
from room_client.manifest import read_manifest

from .club import DIALOG, FOUND, NAME, TEXTS, by_menu, ends, of_folder, row, search, search_in, to_folder

PEN = ".things .pen:not([hidden])"
LARGE = bytes(range(256)) * 512 + b"seven"
TREE = {"/t/a.txt": b"a", "/t/..\\x:y": b"slip", "/t/sub/b.txt": b"b", "/t/sub/deep/\u00fc.txt": "\u00fc".encode(),
        "/t/empty/": b"", "/t/sub/large.bin": LARGE}
ALL_OF_IT = {**TREE, "/t/sub/": b"", "/t/sub/deep/": b""}
PIECES = cases.NAMES["P"]


@pytest.fixture
def tree(club):
    club.lay("/other/", *TREE.items())


def below(club, path):
    """All that is below a folder, with the bytes of files."""
    found = {}
    for name, kind in club.kinds(path).items():
        at = f"{path}/{name}"
        if kind == "file" or NAME in club.names(at):
            found[at] = club.held(at)
        else:
            found.update({f"{at}/": b""} | below(club, at))
    return found


def test_copy_of_a_folder(club, browser, tree):
    assert below(club, "/t") == ALL_OF_IT
    club.open()
    by_menu(browser, "t", "Copy")
    to_folder(browser, "other", "/other")
    browser.press("Copy", DIALOG)
    browser.sees("/t is copied to /other/t.", "#notices")
    assert below(club, "/other/t") == {f"/other{path}": data for path, data in ALL_OF_IT.items()}


def test_move_of_a_large_file(club, browser, tree):
    """By another name."""
    club.open("/t/sub")
    browser.until("its size", lambda: "128 KiB" in row(browser, "large.bin"))
    by_menu(browser, "large.bin", "Move")
    to_folder(browser, "empty", "/t/empty")
    browser.fill("Name", "moved.bin")
    browser.press("Move", DIALOG)
    browser.sees("is now /t/empty/moved.bin", "#notices")
    assert club.held("/t/empty/moved.bin") == LARGE
    assert "large.bin" not in club.names("/t/sub")


# Packed

def packed(club, browser, path):
    """The folder as a zip: its entries, and the names and bytes of these."""
    name = os.path.basename(path)
    club.open(path)
    of_folder(browser, "Download as zip")
    browser.sees(f"{name}.zip is made", "#notices")
    with zipfile.ZipFile(io.BytesIO(club.saved(f"{name}.zip"))) as file:
        assert file.testzip() is None
        return file.infolist(), {it: file.read(it) for it in file.namelist()}


def test_zip_of_a_folder(club, browser, tree):
    entries, files = packed(club, browser, "/t")
    assert files == {path[1:].replace("\\", "_").replace(":", "_"): data for path, data in ALL_OF_IT.items()}
    assert {(it.compress_type, it.flag_bits & 0x800) for it in entries} == {(zipfile.ZIP_STORED, 0x800)}
    assert browser.later("import('/downloads.js').then((it) => arguments[0](it.crcOf(new Uint8Array(0))))") == 0


def test_zip_can_be_unpacked(club, browser):
    """No document of it has the path of a folder, not where capitals do not count either."""
    club.lay(("/zip/Q1: plan/x.txt", b"ann's"), ("/zip/Q1* plan", b"bob's"), *((f"/zip/{it}", b"1") for it in (
        "A.txt", "a.txt", "con.txt", "dot.")))
    assert sorted(it for it in packed(club, browser, "/zip")[1] if not it.endswith("/")) == [
        "zip/A.txt", "zip/Q1_ plan", "zip/Q1_ plan_/x.txt", "zip/a.txt_", "zip/con_.txt", "zip/dot_"]


# Searched

def test_search(club, browser, tree):
    """In the whole room, or from where one is; capitals do not count; who comes back finds it again."""
    club.open("/t")
    search(browser, "LARGE")
    ends(browser, "1 result among")
    club.lay(("/large.txt", b"elsewhere"))
    search(browser, "LARGE")
    ends(browser, "2 results among")
    assert sorted(browser.script(FOUND)) == ["/large.txt", "/t/sub/large.bin"]
    assert sorted(browser.script(TEXTS, ".things td.where")) == ["/t/sub", "club"]
    browser.act("//main//label[contains(., 'Only in t')]/input", "click")
    ends(browser, "1 result among 8 names.")
    assert browser.script(FOUND) == ["/t/sub/large.bin"]
    browser.follow("large.bin")
    browser.sees("128 KiB, owner ann", "main")
    browser.script("history.back()")
    ends(browser, "1 result among 8 names.")
    assert browser.script(FOUND) == ["/t/sub/large.bin"]


def test_search_finds_a_name_however_its_letters_are_written(club, browser):
    club.lay("/t/mu\u0308ll/")
    search_in(club, "/t", "M\u00dcLL")
    ends(browser, "1 result among")
    assert browser.script(FOUND) == ["/t/mu\u0308ll"]


def test_search_field_is_empty_elsewhere(club, browser, tree):
    """What is typed there begins anew; who comes back finds the words again."""
    field = "return document.querySelector('header input').value"
    club.open("/t")
    search(browser, "LARGE")
    ends(browser, "1 result among")
    browser.follow("large.bin")
    browser.sees("128 KiB, owner ann", "main")
    assert browser.script(field) == ""
    browser.script("history.back()")
    ends(browser, "1 result among")
    assert browser.script(field) == "LARGE"


def test_search_gives_rows_like_any(club, browser, tree):
    """The address leads there again; what was found is renamed where it is, and then looked for anew."""
    search_in(club, "/t", "large")
    ends(browser, "1 result among 8 names.")
    assert browser.script("return document.querySelector('header input').value") == "large"
    by_menu(browser, "large.bin", "Rename")
    browser.fill("Name", "larger.bin")
    browser.press("Rename", DIALOG)
    browser.until("it is found by its new name", lambda: browser.script(FOUND) == ["/t/sub/larger.bin"])
    browser.follow("/t/sub")
    browser.sees("larger.bin", ".things")


def test_search_goes_on_where_a_text_was_saved(club, browser):
    """What was found stays, with its new size, and so does the reader, who is told the end of a search alone."""
    club.lay(("/s/one.txt", b"1"), ("/s/two.txt", b"2"))
    search_in(club, "/s", "txt")
    ends(browser, "2 results among 2 names.")
    assert browser.script("return document.querySelector('main [role=status]').ariaBusy") == "false"
    browser.script("dispatchEvent(new Event('focus'))")  # (as by who comes back to a window: the page looks again)
    browser.until("pens", lambda: browser.script(f"return document.querySelectorAll('{PEN}').length") == 2)
    browser.script(f"document.querySelectorAll('{PEN}')[1].focus()")
    browser.keys("enter")
    browser.fill("Text", "second")
    browser.press("Save")
    browser.sees("Saved.", "#notices")
    browser.until("its size", lambda: "6 bytes" in row(browser, "two.txt"))
    in_row = "return document.activeElement.closest('tr')?.rowIndex"
    browser.until("the row", lambda: browser.script(in_row) == 2)


def test_search_that_was_left_begins_anew_once_the_page_looks_again(club, browser, tree):
    """What is found then may not be there any more."""
    search_in(club, "/t", "large")
    ends(browser, "1 result among")
    club.open("/t")
    club.lay(("/t/large.txt", b"later"))
    browser.script("dispatchEvent(new Event('focus'))")
    browser.sees("large.txt", ".things")
    browser.script("history.back()")
    ends(browser, "2 results among")


def test_search_says_what_it_is_a_list_of(club, browser, tree):
    """And the way above it leads to where it was asked for."""
    search_in(club, "/t", "large")
    browser.sees("Results for “large”", "h1")
    assert browser.script("return document.title") == "Results for “large” – club"
    ways = "return [...document.querySelectorAll('.way a, .views a')].map((it) => it.getAttribute('href'))"
    assert browser.script(ways) == ["#open/club", "#open/club/t"]


# Planted

@pytest.fixture
def planted(club):
    """Manifests beside other things, right or not."""
    right = {"folder": PIECES, "form": 1, "pieces": ["000"], "sha256": hashlib.sha256(b"bob's").hexdigest(), "size": 5}
    for name, text in ("right", cases.compact(right)), ("wrong", b"garbage"):
        at = f"/planted/{name}"
        club.lay((f"{at}/three.txt", b"ann's"), (f"{at}/{PIECES}/000", b"bob's"), (f"{at}/{NAME}", text))


def test_planted_manifest_hides_nothing(club, browser, planted):
    for name in "right", "wrong":
        club.open(f"/planted/{name}")
        browser.sees("three.txt", "main")
    browser.sees("A large file is here, and other items", "main")
    club.lay(("/planted/right/.room-000", b"a name like others"))
    club.open("/planted/right")
    browser.sees(".room-000", "main")


def test_planted_manifest_hides_nothing_from_the_search(club, browser, planted):
    search_in(club, "/planted", "three")
    ends(browser, "2 results among")
    assert sorted(browser.script(FOUND)) == ["/planted/right/three.txt", "/planted/wrong/three.txt"]


def test_planted_manifest_hides_nothing_in_a_zip(club, browser, planted):
    club.lay(("/planted/right/.room-000", b"a name like others"))
    _, files = packed(club, browser, "/planted")
    assert sorted(it for it in files if NAME not in it and not it.endswith("/")) == [
        "planted/right/.room-000", "planted/right/three.txt", "planted/wrong/three.txt"]


def test_manifests_that_are_taken(club, browser):
    """Those that the client takes (its test_manifest.py)."""
    club.open()
    reads = ("const [texts, at] = arguments, bytes = (it) => Uint8Array.from(atob(it), (one) => one.charCodeAt(0));"
             "return import(at).then(({ readManifest }) => texts.map((it) => readManifest(bytes(it)) !== null))")
    taken = lambda texts: browser.script(reads, list(map(club.base64, texts)), club.address("manifest.js"))
    assert (set(taken(manifests.TAKEN)), set(taken(manifests.REFUSED))) == ({True}, {False})
    mangled = list(manifests.mangled(seed=1, count=400))
    assert taken(mangled) == [read_manifest(it) is not None for it in mangled]


def test_an_address_that_names_no_view(club, browser):
    """Is that of a folder."""
    club.lay("/planted/pictures/")
    browser.go(club.address("#constructor/club/planted"))
    browser.sees("pictures", "main")
