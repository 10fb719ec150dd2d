"""Who can see a thing, beside its name: what Share and the matrix tell, in few words."""
import pytest

from .club import ALL, GROUP, MATRIX, PASS, PIECE, PLACE, TOP as FRAME_TOP, USERS, VIEW, entry, search_in

TOP = "/seen"
SEERS = ("return Object.fromEntries([...document.querySelectorAll('.things tbody tr')].map((it) => "
         "[it.querySelector('bdi').textContent, it.querySelector('.who').textContent]))")
KINDS = ("return [...document.querySelectorAll('.things tbody tr')].map((it) => "
         "['.kind', '.size'].map((one) => it.querySelector(one).textContent))")
OF_FOLDER = "return document.querySelector('.tools > a .about')?.textContent"
OWNER, ENG, BOB, EVERYONE = entry("OWNER@", ALL), entry("eng", VIEW, 3 | GROUP), entry("bob", VIEW), \
    entry("EVERYONE@", VIEW)
LISTS = {"alone": [OWNER], "bob": [OWNER, BOB], "eng": [OWNER, ENG], "eve": [OWNER, entry("eve", VIEW)],
         "everyone": [OWNER, EVERYONE], "not bob": [OWNER, entry("bob", 1, 3, 1), EVERYONE, ENG],
         "staff": [OWNER, entry("staff", VIEW, 3 | GROUP)]}
WORDS = {"alone": "Only you", "bob": "You, Bob Ray", "eng": "eng", "eve": "You, eve", "everyone": "Everyone here",
         "not bob": "You, eve", "staff": "You, staff", "nobody": "Nobody", "bob alone": "Bob Ray"}


def lay(club, top=EVERYONE):
    """Folders with each of the lists, in one of whose list that is, and documents that its owner may not read."""
    club.lay(*(f"{TOP}/{it}/" for it in LISTS))
    for name, its in ("nobody", []), ("bob alone", [entry("bob", VIEW, 0)]):
        club.lay(f"{TOP}/{name}")
        club.sets(f"{TOP}/{name}", entry("OWNER@", 0x20080, 0), *its, flags=2)
    for name, its in LISTS.items():
        club.sets(f"{TOP}/{name}", *its, flags=2)
    club.sets("/", OWNER, EVERYONE, flags=2)
    club.sets(TOP, OWNER, top, flags=2)


def told(browser, wanted):
    browser.until(wanted, lambda: browser.script(SEERS) == wanted)


@pytest.fixture
def names(club, tells):
    tells("names.json", {"bob": "Bob Ray"})
    club.log_in("ann")


def test_a_row_tells_who_can_see_it(club, browser, names):
    """And leads to Share, whose change it tells."""
    lay(club)
    club.open(TOP)
    told(browser, WORDS)
    browser.follow("You, staff")
    browser.until("Share", lambda: browser.script(PLACE) == f"#access/club{TOP}/staff")
    browser.press("Stop sharing with the group staff")
    browser.sees("Sharing updated", "#notices")
    club.open(TOP)
    told(browser, WORDS | {"staff": "Only you"})


def test_who_does_not_get_there_does_not_see_it(club, browser, names):
    """The list of the folder above counts."""
    lay(club, ENG)
    club.open(TOP)
    told(browser, WORDS | {"everyone": "You, Bob Ray", "eve": "Only you", "not bob": "Only you"})


def test_who_gets_no_further_sees_the_top_alone(club, browser):
    """Where what is in it has the very same list."""
    club.lay("/in/")
    for path in "/in", "/":
        club.sets(path, OWNER, entry("bob", VIEW & ~PASS), flags=2)
    club.open()
    told(browser, {"in": "Only you"})
    browser.until("of the top", lambda: browser.script(OF_FOLDER) == "You, bob")


def test_people_who_are_many_are_counted(club, browser, tells):
    users = {"ann": [], **{name: [] for name in ("bob", "eve", "kim", "lea")}, "max": []}
    tells("rooms/club.users.json", users)
    club.lay(f"{TOP}/a.txt")
    club.sets("/", OWNER, EVERYONE, flags=2)
    club.sets(f"{TOP}/a.txt", entry("OWNER@", ALL, 0), *(entry(it, VIEW, 0) for it in [*users][1:5]), flags=2)
    club.open(TOP)
    told(browser, {"a.txt": "5 people"})


def test_a_large_file_is_seen_by_whom_its_pieces_let(club, browser):
    """Also where it was found."""
    club.lay((f"{TOP}/large", bytes(PIECE + 1)))
    club.sets("/", OWNER, EVERYONE, flags=2)
    club.sets(f"{TOP}/large", OWNER, entry("bob", VIEW), entry("eve", VIEW, 0), flags=2)
    size = "return document.querySelector('.things td.size').textContent"
    for go in (lambda: club.open(TOP)), (lambda: search_in(club, "", "large")):
        go()
        told(browser, {"large": "You, bob"})
        browser.until("its size", lambda: browser.script(size) == "64 KiB")


def test_what_one_may_not_know_is_left_out(club, browser):
    """What is not told of a list, or of the list of a folder above, is no guess, nor in the matrix; who is alone is
    alone anyway."""
    lay(club, entry("EVERYONE@", VIEW & ~0x20000))
    club.sets(f"{TOP}/bob", OWNER, entry("EVERYONE@", VIEW & ~0x20000), flags=2)
    club.sets(f"{TOP}/alone", entry("eve", VIEW), flags=2)
    club.log_in("eve")
    club.open(TOP)
    told(browser, {it: "Only you" if it == "alone" else "" for it in WORDS})
    for name, levels, words in ("alone", ["Some?", "No access?", "Can view"], "You may not see whether ann gets"), \
            ("staff", ["?", "?", "No access"], "you may not see who has access."):
        club.open(f"{TOP}/{name}", "who")
        assert browser.script(MATRIX) == [[f"{name}/", *levels]]
        browser.act("//main//tbody/tr[1]/td[1]/button", "click")
        browser.sees(words, ".detail")


def test_rows_out_of_sight_ask_for_no_list(club, browser):
    club.lay(*(f"/many/{at:03}.txt" for at in range(120)))
    before = club.lossy.times("GETLIST")
    club.open("/many")
    browser.until("the first", lambda: browser.script(SEERS)["000.txt"])
    browser.until("those in sight", lambda: browser.script(SEERS)["010.txt"])
    assert club.lossy.times("GETLIST") - before < 40
    browser.script("scrollTo(0, 9e9)")
    browser.until("the last", lambda: browser.script(SEERS)["119.txt"])
    assert browser.script(SEERS)["060.txt"] == ""


def test_the_shown_folder_tells_with_whom_it_is_shared(club, browser, names):
    lay(club)
    club.open(f"{TOP}/bob")
    browser.until("who", lambda: browser.script(OF_FOLDER) == "You, Bob Ray")
    browser.act("//main//p[contains(@class, 'tools')]/a", "click")
    browser.until("Share", lambda: browser.script(PLACE) == f"#access/club{TOP}/bob")


def test_who_comes_back_is_told_who_sees_it_now(club, browser):
    """Nothing that somebody shared meanwhile is said to be one's own alone."""
    def comes_back():
        browser.script("dispatchEvent(new Event('focus'))")  # (once more where the page was at work)
        return browser.script(SEERS) == {"a.txt": "You, bob"} and browser.script(OF_FOLDER) == "You, bob"
    club.lay("/own/a.txt")
    club.sets("/", OWNER, EVERYONE, flags=2)
    club.sets("/own", OWNER, flags=2)
    club.open("/own")
    told(browser, {"a.txt": "Only you"})
    club.sets("/own", OWNER, BOB, flags=2)
    browser.until("that bob sees it", comes_back)


def test_who_comes_back_is_offered_what_the_folder_allows_now(club, browser):
    def comes_back():
        browser.script("dispatchEvent(new Event('focus'))")
        return "+ New" in browser.text_of("main")
    club.lay("/own/a.txt")
    for path in "/", "/own":
        club.sets(path, OWNER, EVERYONE, flags=2)
    club.log_in("bob")
    club.open("/own")
    told(browser, {"a.txt": "Everyone here"})
    assert "+ New" not in browser.text_of("main")
    club.sets("/own", OWNER, EVERYONE, entry("bob", 0x6), flags=2)
    browser.until("that bob may add to it", comes_back)


def test_who_comes_back_is_told_who_sees_each_row_now(club, browser, tells):
    """Where the folder is as it was: by a row's own list, and by users who are new."""
    def comes_back():
        browser.script("dispatchEvent(new Event('focus'))")
        return browser.script(SEERS)
    club.lay("/own/a.txt", "/own/b.txt")
    club.sets("/", OWNER, EVERYONE, flags=2)
    alone = entry("OWNER@", ALL, 0)
    for name in "ab":
        club.sets(f"/own/{name}.txt", alone, flags=2)
    club.open("/own")
    told(browser, {"a.txt": "Only you", "b.txt": "Only you"})
    club.sets("/own/a.txt", alone, entry("bob", VIEW, 0), flags=2)
    browser.until("that bob sees it", lambda: comes_back() == {"a.txt": "You, bob", "b.txt": "Only you"})
    club.sets("/own/b.txt", alone, entry("EVERYONE@", VIEW, 0), flags=2)
    tells("rooms/club.users.json", {**USERS, "kim": []})
    of_b = "return document.querySelector('.things tbody tr:last-child .who a').title"
    browser.until("that kim sees it", lambda: comes_back() and browser.script(of_b) == "ann, bob, eve and kim")


def test_who_comes_back_is_told_what_is_shut_now(club, browser):
    """And what is not any more."""
    def comes_back():
        browser.script("dispatchEvent(new Event('focus'))")
        return browser.script(KINDS)
    club.lay("/own/a/", "/own/b/b.txt")
    for path in "/", "/own", "/own/b":
        club.sets(path, OWNER, EVERYONE, flags=2)
    club.sets("/own/a", OWNER, flags=2)
    club.log_in("bob")
    club.open("/own")
    browser.until("what they are", lambda: browser.script(KINDS) == [["No access", ""], ["Folder", "1 item"]])
    club.sets("/own/a", OWNER, EVERYONE, flags=2)
    club.sets("/own/b", OWNER, flags=2)
    browser.until("what they are now", lambda: comes_back() == [["Folder", "0 items"], ["No access", ""]])


def test_who_comes_back_to_what_was_found_is_told_who_sees_it_now(club, browser):
    """And beside the list, in a wide window."""
    def comes_back():
        browser.script("dispatchEvent(new Event('focus'))")
        return browser.script(SEERS)
    club.lay("/own/a.txt")
    club.sets("/", OWNER, EVERYONE, flags=2)
    club.sets("/own", OWNER, flags=2)
    browser.size(1600, 900)
    browser.devtools("Emulation.setFocusEmulationEnabled", enabled=True)  # (else nothing stands in a row)
    search_in(club, "", "a.txt")
    told(browser, {"a.txt": "Only you"})
    browser.script("document.querySelector('.things tbody .name').focus()")
    browser.sees("Who can see it: Only you", ".details")
    club.sets("/own", OWNER, BOB, flags=2)
    browser.until("that bob sees it", lambda: comes_back() == {"a.txt": "You, bob"})
    browser.sees("Who can see it: You, bob", ".details")


def test_on_a_phone_it_stands_below_the_name(club, browser, frame):
    """Beside the size, and nothing scrolls sideways."""
    browser.size(360, 740)
    club.anew(FRAME_TOP)
    browser.until("who", lambda: browser.script(SEERS)["notes.txt"] == "eng")
    boxes = ("const all = document.querySelectorAll('.things tbody tr'); return ['.name', '.size', '.who'].map((it) => "
             "[...all].at(-1).querySelector(it).getBoundingClientRect()).map((it) => [it.left, it.top])")
    (_, top), (left, of_size), (right, of_who) = browser.script(boxes)
    assert (of_size > top + 16, of_who > top + 16, right > left) == (True, True, True)
    assert browser.script("return document.documentElement.scrollWidth") == 360


def test_on_a_phone_it_moves_nothing(club, browser, frame):
    """However many can see it."""
    browser.size(360, 740)
    club.anew(FRAME_TOP)
    browser.until("who", lambda: browser.script(SEERS)["notes.txt"] == "eng")
    boxes = ("return [...document.querySelectorAll('.things tbody :is(.name, .size)')].map((it) => "
             "it.getBoundingClientRect().top).concat(document.documentElement.scrollWidth)")
    before = browser.script(boxes)
    browser.script("document.querySelectorAll('.things .who a').forEach((it) => { it.append(', eng'.repeat(20)); })")
    assert browser.script(boxes) == before
