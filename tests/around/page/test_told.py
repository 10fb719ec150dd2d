"""A fault stays told until somebody has closed it, or what it is about went well."""
import io
import zipfile
from urllib.parse import parse_qs, urlsplit

import pytest

from .club import (ALL, DIALOG, EDIT, MENU, PASS, TYPED, VIEW, by_menu, ends, entry, of_folder, offers, row, search_in,
                   set_list, share, to_folder)

TOP = "/told"
LINES = "return [...document.querySelectorAll('#notices [data-about]')].map((it) => it.innerText)"
NAMES = [f"{at}.txt" for at in range(10)]
SHUT = NAMES[2:9:3]  # what eve may not replace


def lists(club, path, flag=0, **masks):
    """The list of something that takes over nothing, and leaves all to its owner."""
    club.sets(path, entry("OWNER@", ALL, flag), *(entry(who, mask, flag) for who, mask in masks.items()), flags=2)


def refusal(name):
    return f"{TOP}/{name}: You may not replace its text ({TOP}/{name}). Ask ann."


def sends(browser, *paths):
    """Chooses files, and leaves what is told as it is."""
    browser.act("//main//input[@type='file' and @aria-label='Upload']", "value", {"text": "\n".join(paths)})


def told(browser):
    return sorted(it.removesuffix("Close").strip() for it in browser.script(LINES))


@pytest.fixture
def shut(club):
    """A folder that eve may edit, with some documents that she may not."""
    club.lets("eve", "/", VIEW, 0)
    club.lay(f"{TOP}/")
    lists(club, TOP, 3, eve=EDIT)
    club.lay(*((f"{TOP}/{it}", b"") for it in SHUT))
    for it in SHUT:
        lists(club, f"{TOP}/{it}", eve=VIEW)


@pytest.fixture
def files(club):
    return {name: club.on_disk(f"told/{name}", name.encode()) for name in NAMES}


@pytest.fixture
def failed(club, browser, shut, files):
    """Three of ten files that eve uploads fail."""
    club.log_in("eve")
    club.open(TOP)
    sends(browser, *files.values())
    browser.press("Replace", DIALOG)
    browser.sees("7 files uploaded: 35 bytes in", "#notices")
    browser.sees("3 of 10 failed:", "#notices")
    three = sorted(map(refusal, SHUT))
    assert told(browser) == three
    return three


def test_fault_of_each_file_stays_told(club, browser, failed):
    """By its name, with the reason, whatever comes then; plain words go."""
    sends(browser, club.on_disk("one more"))
    browser.sees("1 file uploaded", "#notices")
    assert told(browser) == failed
    club.open("", "find")
    assert told(browser) == failed
    assert "uploaded" not in browser.text_of("#notices")
    club.open(TOP)
    sends(browser, club.on_disk("too large", bytes((1 << 24) + 1)))
    browser.sees("too large has 16.1 MiB, and 16 MiB is the most. Nothing was sent.", "#notices")
    assert len(told(browser)) == 4
    browser.act("//*[@id='notices']/*[contains(., 'too large')]//button", "click")
    browser.until("it is closed", lambda: told(browser) == failed)


def test_fault_goes_once_it_went_well(club, browser, files, failed):
    for left in range(2, -1, -1):
        name = SHUT[left]
        lists(club, f"{TOP}/{name}", eve=EDIT)
        sends(browser, files[name])
        browser.press("Replace", DIALOG)
        browser.until(f"{name} went well", lambda: club.text(f"{TOP}/{name}") == name)
        browser.until("its fault goes", lambda: told(browser) == sorted(map(refusal, SHUT[:left])))
    assert "failed" not in browser.text_of("#notices")
    browser.until("what is there now", lambda: f"{len(SHUT[0])} bytes" in row(browser, SHUT[0]))


def test_fault_of_an_upload_that_is_given_up(club, browser):
    club.lay(f"{TOP}/")
    club.open(TOP)
    club.lossy.lose('"LIST"', 10_000)
    sends(browser, club.on_disk("a.txt"))
    browser.press_anyway("Give up")
    club.lossy.lose("")
    browser.sees(f"Upload to {TOP}: Given up.", "#notices")


@pytest.fixture
def closed(club, shut):
    """The same folder with one that eve may not look into, and documents of which she may not read one."""
    club.lay(f"{TOP}/closed/", *(f"{TOP}/{it}" for it in NAMES if it not in SHUT))
    lists(club, f"{TOP}/closed")
    lists(club, f"{TOP}/{SHUT[0]}")
    club.log_in("eve")


def test_fault_of_a_zip_tells_what_it_lacks(club, browser, closed):
    club.open(TOP)
    of_folder(browser, "Download as zip")
    browser.sees("told.zip is made, of 10 of 11 items.", "#notices")
    assert told(browser) == sorted([
        f"{TOP}/closed is empty: you may not look into it.",
        f"{TOP}/{SHUT[0]} is not in it. You don't have access to {TOP}/{SHUT[0]}. Ask its owner, or ann, who owns a "
        "folder above."])
    with zipfile.ZipFile(io.BytesIO(club.saved("told.zip"))) as file:
        assert sorted(file.namelist()) == sorted(["told/closed/", *(f"told/{it}" for it in NAMES if it != SHUT[0])])


def test_fault_of_a_search_tells_what_it_lacks(club, browser, closed):
    search_in(club, TOP, "")
    ends(browser, "You may not look into 1 folder.")


def test_word_goes_by_itself(club, browser):
    """A word that all went well, and none that can be undone; rows stay where they are."""
    club.lay("/words/a.txt", "/words/b.txt")
    club.open("/words")
    top = "return document.querySelector('.things').getBoundingClientRect().top"
    before = browser.script(top)
    by_menu(browser, "a.txt", "Rename")
    browser.fill("Name", "c.txt")
    browser.press("Rename", DIALOG)
    browser.sees("/words/a.txt is now /words/c.txt.", "#notices")
    assert browser.script(top) == before
    browser.script("return new Promise((go) => setTimeout(go, 7000))")
    browser.sees("/words/a.txt is now /words/c.txt.", "#notices")
    browser.press("Undo")
    browser.sees("/words/a.txt is there again.", "#notices")
    browser.point("//header")  # (while it is pointed at it stays)
    browser.until("it is gone", lambda: browser.text_of("#notices") == "")


def letters(browser, where):
    """The words of links there by which a letter is begun, with what each is about and says."""
    found = browser.script("return [...document.querySelectorAll(`${arguments[0]} a[href^='mailto:']`)]"
                           ".map((it) => [it.textContent, it.href])", where)
    return [(words, *parse_qs(urlsplit(href).query).values()) for words, href in found]


def test_fault_of_a_closed_door_says_whom_to_ask(club, browser, tells):
    """By name, with a letter to them, and without ways to what may not be seen."""
    club.lay("/bobs/closed/in.txt")
    club.lets("eve", "/bobs", VIEW, 0)
    club.sets("/bobs/closed", entry("OWNER@", ALL), flags=2)
    club.does({"cmd": "CHOWN", "group": "eng", "owner": "bob", "path": "/bobs"})  # (the nearest folder that tells it)
    tells("names.json", {"bob": "Bob Ray"})
    club.log_in("eve")
    club.open("/bobs/closed/in.txt")
    browser.sees("You don't have access to /bobs/closed/in.txt. Ask its owner, or Bob Ray (bob), who owns a "
                 "folder above.", "main")
    assert browser.script("return document.querySelector('.views')") is None
    link = club.address("#open/club/bobs/closed/in.txt")
    assert letters(browser, "main") == [
        ("Write to Bob Ray", ["Access to /bobs/closed/in.txt"], [f"Please give me access to this:\n\n{link}"])]


def test_fault_of_a_closed_door_names_who_owns_what_is_further_above(club, browser):
    """Where of the folders on the way one may be passed alone."""
    club.lay("/class/letters/in.txt")
    club.lets("eve", "/", VIEW, 0)
    club.sets("/class", entry("OWNER@", ALL), entry("eve", PASS, 0), flags=2)
    club.sets("/class/letters", entry("OWNER@", ALL), entry("eve", PASS, 0), flags=2)
    club.log_in("eve")
    club.open("/class/letters/in.txt")
    browser.sees("You don't have access to /class/letters/in.txt. Ask its owner, or ann, who owns a folder above.",
                 "main")
    assert [words for words, *_ in letters(browser, "main")] == ["Write to ann"]


def test_fault_of_a_closed_door_knows_nobody(club, browser):
    """Where the room tells the user no owner, the letter names nobody."""
    club.lay("/closed/in.txt")
    club.sets("/", entry("EVERYONE@", PASS, 0), flags=2)
    club.sets("/closed", entry("OWNER@", ALL), flags=2)
    club.log_in("eve")
    club.open("/closed/in.txt")
    browser.sees("You don't have access to /closed/in.txt. Ask its owner.", "main")
    link = club.address("#open/club/closed/in.txt")
    assert letters(browser, "main") == [
        ("Write to its owner", ["Access to /closed/in.txt"], [f"Please give me access to this:\n\n{link}"])]


def test_closed_folder_tells_nothing_else(club, browser):
    """Neither its list nor what is in it may be seen."""
    club.lay("/closed/")
    club.sets("/", entry("EVERYONE@", PASS, 0), flags=2)
    club.sets("/closed", entry("OWNER@", ALL), flags=2)
    club.log_in("eve")
    club.open("/closed")
    told = [it for it in browser.text_of("main > :not(.head)").split("\n") if it]
    assert told == ["You don't have access to /closed. Ask its owner. Write to its owner"]


def test_folder_to_pass_says_how_to_go_on(club, browser):
    """Who may see nothing of it but gets to what is shared below."""
    club.lay("/shared/")
    club.sets("/", entry("OWNER@", ALL), entry("eve", PASS, 0), flags=2)
    club.sets("/shared", entry("OWNER@", ALL), entry("eve", VIEW), flags=2)
    club.log_in("eve")
    club.open()
    browser.sees("You don't have access to club. Ask its owner. Write to its owner "
                 "What is shared with you there opens by its link.", "main")
    browser.follow("Shared with you")
    browser.sees("You may not look into 1 folder.", "main")
    club.open("/shared")
    browser.sees("This folder is empty.", "main")
    assert "its link" not in browser.text_of("main")


def test_who_shares_can_send_the_link(club, browser):
    """Of what was shared, once somebody has access who had none."""
    club.lay("/sent/")
    club.open("/sent", "access")
    share(browser, "bob", "Can view")
    browser.sees("Sharing updated.", "#notices")
    assert letters(browser, "#notices") == [
        ("Send the link by mail", ["sent is shared with you"], [club.address("#open/club/sent")])]
    browser.press("Stop sharing with bob")
    browser.until("it is taken back", lambda: "bob" not in browser.text_of(".shares"))
    browser.sees("Sharing updated.", "#notices")
    assert (letters(browser, "#notices"), "Checked" in browser.text_of("#notices")) == ([], False)


def test_fault_of_a_list_is_told_until_it_is_taken(club, browser):
    """Once. Of a denial nobody is told that they get there."""
    club.lay(f"{TOP}/")
    club.open(TOP, "access")
    set_list(browser, "the user", "bob", "view", here_alone=True)
    here = "//main//ol[1]/li[1]//label[normalize-space()='this folder itself']"
    browser.act(here, "click")
    browser.press("Save the list")
    fault = [f"The list of {TOP}: An entry counts nowhere here. Choose for what it counts."]
    browser.until("the fault", lambda: told(browser) == fault)
    asked = club.lossy.times('"SETLIST"')
    browser.press("Save the list")
    browser.until("it is asked again", lambda: club.lossy.times('"SETLIST"') > asked)
    browser.act(here, "click")
    browser.act("//main//ol[1]/li[1]//select/option[.='Deny']", "click")
    assert told(browser) == fault
    browser.press("Save the list")
    browser.sees("Sharing updated.", "#notices")
    assert (told(browser), "Checked" in browser.text_of("#notices")) == ([], False)


def test_fault_of_a_copy_is_told_where_the_place_is_chosen(club, browser, shut):
    """Another one is chosen, and what was typed is still there."""
    club.lay((f"{TOP}/{NAMES[0]}", b"12345"))
    club.log_in("eve")
    club.open(f"{TOP}/{NAMES[0]}")
    browser.press("Copy", "//main")
    browser.press("Copy", DIALOG)
    browser.sees("That is where it is: choose another folder or name", "dialog")
    to_folder(browser, "club", "club")
    browser.fill("Name", "copied")
    browser.press("Copy", DIALOG)
    browser.sees("You may not make documents in it (club).", "dialog")
    assert browser.script(TYPED) == "copied"
    to_folder(browser, "told", TOP)
    browser.press("Copy", DIALOG)
    browser.sees(f"is copied to {TOP}/copied.", "#notices")
    assert club.holds({"cmd": "STAT", "path": f"{TOP}/copied"}, "eve")["size"] == 5


def test_fault_of_a_menu_that_is_given_up(club, browser):
    """While what it may offer is asked for."""
    club.lay(f"{TOP}/{NAMES[0]}")
    club.open(TOP)
    club.lossy.lose('"ACCESS"', 10_000)
    browser.press(f"More for {NAMES[0]}")
    browser.press_anyway("Give up")
    club.lossy.lose("")
    browser.sees("Given up.", "#notices")
    assert browser.script("return document.querySelector('main [aria-expanded=true]')") is None


def test_fault_of_a_row_that_is_given_up(club, browser):
    """While its size is asked for; who opens its menu has it asked for anew."""
    club.lay(f"{TOP}/{NAMES[0]}")
    club.lossy.lose(f'"STAT","path":"{TOP}/{NAMES[0]}"', 10_000)
    club.open(TOP)
    browser.press_anyway("Give up")
    club.lossy.lose("")
    browser.sees("Given up.", "#notices")
    browser.press(f"More for {NAMES[0]}")
    assert "Download" in offers(browser)


def test_fault_of_a_tree_that_is_given_up(club, browser):
    """While folders to choose from are asked for; it is told once."""
    club.lay(f"{TOP}/{NAMES[0]}")
    club.open(TOP)
    browser.press(f"More for {NAMES[0]}")
    offers(browser)
    club.lossy.lose('"LIST"', 10_000)
    browser.press("Move", MENU)
    browser.press("Cancel", DIALOG)
    browser.press_anyway("Give up")
    club.lossy.lose("")
    browser.sees("Given up.", "#notices")
    assert len(told(browser)) == 1
