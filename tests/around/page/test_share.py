"""Something is shared, and those with whom can get there."""
import pytest

from .club import (ADD, ALL, CHANGE, DIALOG, EDIT, GROUP, MENU, PASS, TEXTS, VIEW, WORK_HERE, entry, set_list,
                   share)

TOP, PATH = "/board", "/board/plans"
SHARES = ("return [...document.querySelectorAll('.shares li')].map((it) => [it.querySelector('span').textContent, "
          "it.querySelector('button').textContent])")
# of the names that fit, as a screen reader is told: whether they are shown, the one that is stood on, those chosen
STANDS = ("const it = document.querySelector('[role=combobox]'), at = it.getAttribute('aria-activedescendant');"
          "return [it.ariaExpanded, document.getElementById(at)?.textContent ?? null, [...document.querySelectorAll("
          "'.fits:not([hidden]) [aria-selected=true]')].map((it) => it.textContent)]")
STAFF = GROUP | 3


@pytest.fixture
def board(club):
    """A folder that lets nobody but its owner pass, and one in it, which is looked at."""
    club.lay(f"{TOP}/")
    club.sets(TOP, entry("OWNER@", ALL), flags=2)
    club.lay(f"{PATH}/")


@pytest.fixture
def passed(club, board):
    """The same, which lets the staff pass."""
    club.sets(TOP, entry("staff", PASS, GROUP), entry("OWNER@", ALL), flags=2)


def give(browser, what):
    """Chooses it in the menu of the first who has something, which begins at what they have."""
    now = browser.script(TEXTS, ".shares > li:first-child > button")[:1]
    browser.act("//main//*[@class='shares']/li[1]/button", "click")
    browser.until("what it is", lambda: browser.script(TEXTS, "[role=menuitemradio][aria-checked=true]") == now)
    assert browser.script("return document.activeElement.ariaChecked") == "true"
    browser.press(what, MENU)


def test_a_saved_list_that_lets_nobody_get_there(club, browser, board):
    """A folder above lets those whom the list names not pass: it is told."""
    club.open(PATH, "access")
    set_list(browser, "the user", "bob", "view")
    browser.press("Save the list")
    browser.sees("Not everyone can get there yet", "dialog")
    browser.sees("bob cannot get through /board.", "dialog")
    browser.press("Close", DIALOG)
    browser.sees("Sharing updated.", "#notices .good")
    browser.sees("These cannot get there, or not do it: bob.", "#notices .fault")
    assert club.own(TOP) == [(0, 3, ALL, "OWNER@")]


def test_share_offers_no_passage_that_is_refused(club, browser, board):
    """To whom may not change the list of the folder in between it says whom to ask."""
    club.sets(TOP, entry("staff", VIEW, GROUP), entry("OWNER@", ALL), flags=2)
    club.sets(PATH, entry("bob", ALL), entry("OWNER@", ALL))
    club.log_in("bob")
    club.open(PATH, "access")
    share(browser, "eve", "Can view")
    browser.sees("eve cannot get through /board.", "dialog")
    browser.sees("You may not change its list (/board). Ask ann.", "dialog")
    assert "Allow" not in browser.text_of("dialog")
    browser.press("Close", DIALOG)
    browser.sees("These cannot get there, or not do it: eve.", "#notices .fault")


def test_share_with_a_group(club, browser, board):
    """By two choices; its members are let pass, work in it, and cannot remove it."""
    club.open(PATH, "access")
    browser.press("Can view", "//main//section[@class='share']//form")
    browser.sees("Choose for whom.", ".share [role=alert]")
    share(browser, "staf", "Can view")
    browser.sees("Nobody here is called staf.", ".share [role=alert]")
    share(browser, "staff", "Can edit and delete")
    browser.sees("bob cannot get through /board", "dialog")
    browser.press("Allow")
    browser.sees("Sharing updated. Checked: the group staff can get there.", "#notices")
    assert club.own(TOP) == [(0, GROUP, PASS, "staff"), (0, 3, ALL, "OWNER@")]
    assert club.own(PATH) == [(0, GROUP, WORK_HERE, "staff"), (0, GROUP | 0xB, CHANGE, "staff"), (0, 3, ALL, "ann")]
    browser.until("it is one line", lambda: browser.script(SHARES) == [["the group staff", "Can edit and delete"]])
    club.lay(f"{PATH}/of ann")
    club.does(*({"cmd": cmd, "path": f"{PATH}{name}"} for cmd, name in (
        ("LIST", ""), ("MKDIR", "/of bob"), ("REMOVE", "/of bob"), ("REMOVE", "/of ann"))), user="bob")
    told = club.holds_all([{"cmd": "REMOVE", "path": PATH}, {"cmd": "LIST", "path": TOP}], "bob")
    assert [(it["code"], it["bit"]) for it in told] == [(5, 0x10000), (5, 1)]
    club.open(TOP, "access")
    browser.until("whom it lets pass", lambda: "the group staffPasses through×" in given(browser))


def test_share_is_changed(club, browser, passed):
    club.sets(PATH, entry("staff", WORK_HERE, GROUP), entry("staff", CHANGE, GROUP | 0xB))
    club.open(PATH, "access")
    give(browser, "Can view")
    browser.until("view", lambda: club.own(PATH) == [(0, STAFF, VIEW, "staff")])
    browser.sees("Sharing updated.", "#notices")
    of = "return document.activeElement.closest('.shares li')?.innerText ?? document.activeElement.tagName"
    browser.until("the menu led back", lambda: "the group staff" in browser.script(of))


def test_share_in_the_place_of_odd_entries(club, browser, passed):
    club.sets(PATH, entry("staff", 0x1200AD, STAFF))
    club.open(PATH, "access")
    browser.press("Custom", "//main")
    assert browser.script("return document.activeElement.tagName") == "SUMMARY"
    assert "Only its owner" not in browser.text_of(".share")
    share(browser, "staff", "Can view")
    browser.until("it takes their place", lambda: club.own(PATH) == [(0, STAFF, VIEW, "staff"), (0, 3, ALL, "ann")])
    browser.sees("the group staff", ".shares")
    share(browser, "Everyone", "Can view")
    browser.until("all", lambda: club.own(PATH)[::2] == [(0, STAFF, VIEW, "staff"), (0, 3, VIEW, "EVERYONE@")])


def test_share_beside_a_denial(club, browser, passed, tells):
    """What a list denies is told where it decides; what is shared is taken away again, and no denial goes with it."""
    tells("names.json", {"bob": "Bob Ray"})
    club.log_in("ann")
    club.sets(PATH, entry("bob", 0x10006, 3, kind=1), entry("staff", VIEW, STAFF))
    club.open(PATH, "access")
    browser.sees("Denied", ".share")
    give(browser, "Full control")
    browser.sees("Bob Ray (bob) may still not make folders or large files in it, make documents in it and remove",
                 "dialog")
    browser.press("Close", DIALOG)
    browser.sees("These cannot get there, or not do it: Bob Ray (bob).", "#notices")
    browser.press("Stop sharing with the group staff")
    browser.until("it is gone", lambda: club.own(PATH) == [(1, 3, 0x10006, "bob")])
    share(browser, "bob", "Can view")
    browser.until("both", lambda: club.own(PATH)[:2] == [(1, 3, 0x10006, "bob"), (0, 3, VIEW, "bob")])


def given(browser):
    """Who has it otherwise than by a level of their own."""
    return browser.script(TEXTS, ".given li")


def test_share_tells_all_who_have_access(club, browser, board):
    """The owner, who has it from above and from where, what is custom, and what is denied."""
    club.sets(TOP, entry("bob", VIEW), entry("eng", EDIT, STAFF), flags=2)
    club.sets(PATH, entry("eve", ADD), entry("bob", 0x10000, kind=1))
    club.open(PATH, "access")
    wanted = ["annowner", "eveCustom×eve cannot get here yet. Allow", "bobCan view from /board",
              "the group engCan add and edit from /board", "bobDenied"]
    browser.until("all that is told", lambda: given(browser) == wanted)
    assert "nobody" not in browser.text_of(".share")


def test_share_tells_each_folder_that_it_is_from(club, browser, board):
    """Who has less from the one and more from the other."""
    club.sets("/", entry("bob", VIEW), entry("OWNER@", ALL), flags=2)
    club.sets(TOP, entry("bob", EDIT))
    club.open(PATH, "access")
    browser.until("both", lambda: "bobCan add and edit from /board, club" in given(browser))


def test_nobody_gives_away_their_own_control_unasked(club, browser, board):
    """By a group: it could not be undone. An owner keeps it in any case."""
    before = [entry("staff", ALL, STAFF), entry("OWNER@", ALL)]
    club.sets(TOP, *before, flags=2)
    club.log_in("bob")
    club.open(TOP, "access")
    browser.press("Stop sharing with the group staff")
    browser.sees("You can then no longer change who has access.", "dialog")
    browser.press("Cancel", DIALOG)
    assert club.holds({"cmd": "GETLIST", "path": TOP})["entries"] == before
    browser.press("Stop sharing with the group staff")
    browser.press("Save the list", DIALOG)
    browser.until("it is gone", lambda: club.own(TOP) == [(0, 3, ALL, "OWNER@")])
    browser.sees("Sharing updated.", "#notices")
    assert "Undo" not in browser.text_of("#notices")


def test_names_are_whole_on_a_phone(club, browser, tells, board):
    """Also beside long words."""
    tells("names.json", {"ann": "Annegret Lindemann"})
    club.log_in("ann")
    club.sets(TOP, entry("ann", ALL), entry("OWNER@", ALL), flags=2)
    browser.size(390, 740)
    club.open(TOP, "access")
    browser.sees("owner, with full access to what others add", ".share")
    assert browser.script("return document.querySelector('.given span').offsetHeight") < 40


def test_top_is_called_by_its_room(club, browser):
    """Where access comes from it, and where it lets somebody not pass."""
    club.lay(f"{TOP}/")
    club.sets("/", entry("bob", VIEW), entry("ann", ALL), flags=2)
    club.open(TOP, "access")
    browser.until("from where", lambda: "bobCan view from club" in given(browser))
    share(browser, "eve", "Can view")
    browser.sees("eve cannot get through club.", "dialog")
    browser.press("Close", DIALOG)
    club.open(TOP, "who")
    of_eve = "return [...document.querySelectorAll('.matrix .shut button')].map((it) => it.title)[0]"
    assert "eve may not pass through club, so cannot get at /board." in browser.script(of_eve)


def test_share_lets_those_get_there_who_cannot(club, browser, board):
    """Beside each who cannot, by one press; and back."""
    club.sets(PATH, entry("bob", VIEW))
    club.open(PATH, "access")
    browser.sees("bob cannot get here yet.", ".shares")
    browser.press("Allow", "//main")
    browser.sees("Checked: the user bob can get there.", "#notices")
    assert club.own(TOP) == [(0, 0, PASS, "bob"), (0, 3, ALL, "OWNER@")]
    browser.press("Undo")
    browser.sees("Sharing is as it was.", "#notices")
    assert club.own(TOP) == [(0, 3, ALL, "OWNER@")]


def test_share_is_ended_and_comes_back(club, browser, passed):
    club.sets(PATH, entry("bob", VIEW), entry("staff", VIEW, STAFF))
    before = club.holds({"cmd": "GETLIST", "path": PATH})
    club.open(PATH, "access")
    browser.press("Stop sharing with bob")
    browser.until("it is gone", lambda: [it[3] for it in club.own(PATH)] == ["staff"])
    browser.press("Undo")
    browser.sees("Sharing is as it was.", "#notices")
    assert club.holds({"cmd": "GETLIST", "path": PATH}) == before


def test_share_comes_back_by_no_key_in_the_field_for_a_name(club, browser, passed):
    """There Ctrl+Z is for what is typed, also where nothing is."""
    club.sets(PATH, entry("bob", VIEW))
    club.open(PATH, "access")
    browser.press("Stop sharing with bob")
    browser.sees("Sharing updated.", "#notices")
    browser.act("//main//input[@role='combobox']", "click")
    browser.chord("ctrl", "z")
    assert (browser.script("return document.querySelector('main').ariaBusy"), club.own(PATH)) == (None, [])
    browser.script("document.querySelector('main h1').focus()")
    browser.chord("ctrl", "z")
    browser.sees("Sharing is as it was.", "#notices")


def test_share_comes_back_over_nobody_elses(club, browser, passed):
    """A list that somebody set since is left."""
    club.sets(PATH, entry("bob", VIEW))
    club.open(PATH, "access")
    browser.press("Stop sharing with bob")
    browser.sees("Sharing updated.", "#notices")
    club.sets(PATH, entry("eve", VIEW))
    browser.press("Undo")
    browser.sees("Somebody changed this meanwhile", "#notices")
    assert [it[3] for it in club.own(PATH)] == ["eve"]


def test_share_is_made_private(club, browser, board):
    """For its owner alone, by one press; and back."""
    club.sets(TOP, entry("eng", VIEW, STAFF), flags=2)
    club.sets(PATH, entry("bob", EDIT))
    before = club.holds({"cmd": "GETLIST", "path": PATH})
    club.open(PATH, "access")
    browser.press("Make private")
    browser.sees("Sharing updated.", "#notices")
    told = club.holds({"cmd": "GETLIST", "path": PATH})
    assert (told["aclflag"], club.own(PATH)) == (2, [(0, 3, ALL, "ann")])
    assert club.holds({"cmd": "LIST", "path": PATH}, "bob")["code"] == 5
    browser.sees("Only its owner has access.", ".share")
    browser.press("Undo")
    browser.sees("Sharing is as it was.", "#notices")
    assert club.holds({"cmd": "GETLIST", "path": PATH}) == before


def test_what_is_private_is_shared_as_the_folder_above(club, browser, board):
    """By one press, however long ago it was made so; not so what is shared with somebody, a trash, or the top."""
    club.sets(TOP, entry("bob", VIEW), entry("OWNER@", ALL), flags=2)
    club.sets(PATH, entry("ann", ALL), flags=2)
    club.open(PATH, "access")
    browser.press("Share as the folder above")
    browser.until("it is so", lambda: "bobCan view from /board" in given(browser))
    assert (club.holds({"cmd": "GETLIST", "path": PATH})["aclflag"], club.own(PATH)) == (1, [(0, 3, ALL, "ann")])
    club.make_trash()
    club.sets("/", entry("OWNER@", ALL), flags=2)
    for path in PATH, TOP, "/trash/ann", "":
        club.open(path, "access")
        assert "Share as the folder above" not in browser.shown()


@pytest.mark.parametrize("keeps, level, whos", [
    (True, "Can add and edit", ["staff", "ann"]), (False, "Can add and edit", ["staff"]),
    (True, "Can view", ["staff", "ann"])], ids=["kept", "not kept", "kept for later"])
def test_share_for_the_first_time_keeps_the_owners_access(club, browser, passed, keeps, level, whos):
    """To what others add, unless the tick is taken away; also where nobody may add yet."""
    club.open(PATH, "access")
    if not keeps:
        browser.act("//main//label[contains(., 'keeps full access')]/input", "click")
    share(browser, "staff", level)
    browser.sees("Sharing updated.", "#notices")
    assert [it[3] for it in club.own(PATH)] == whos
    browser.until("it is asked once", lambda: "keeps full" not in browser.text_of(".share"))


def test_share_by_keys_with_people_by_name(club, browser, passed, tells):
    """Of those whose names fit one is taken, and a screen reader told which; two of a name are told apart."""
    tells("names.json", {"ann": "Ann Lee", "bob": "Bob Ray", "eve": "bob ray"})
    club.log_in("ann")
    club.open(PATH, "access")
    field = "//main//input[@role='combobox']"
    browser.act(field, "value", {"text": "bob"})
    assert browser.script(TEXTS, ".fits:not([hidden]) li") == ["Bob Ray (bob)", "bob ray (eve)"]
    browser.keys("tab")
    assert browser.script(STANDS) == ["false", None, []]
    share(browser, "Bob Ray", "Can view")
    browser.sees("Bob Ray are several people. Choose one by login: Bob Ray (bob) and bob ray (eve).", ".share")
    browser.act(field, "clear")
    browser.act(field, "value", {"text": "bob"})
    browser.keys("escape")
    assert browser.script(STANDS) == ["false", None, []]
    browser.keys("down", "down", "down", "up")
    assert browser.script(STANDS) == ["true", "Bob Ray (bob)", ["Bob Ray (bob)"]]
    browser.keys("enter", "enter")
    browser.until("it is shared", lambda: (0, 3, VIEW, "bob") in club.own(PATH))


def test_share_tells_by_name_who_cannot_get_there(club, browser, board, tells):
    tells("names.json", {"bob": "Bob Ray"})
    club.log_in("ann")
    club.open(PATH, "access")
    browser.act("//main//input[@role='combobox']", "value", {"text": "ray"})
    browser.act("//main//*[@role='option']", "click")  # (by the mouse)
    browser.press("Can view", "//main//section[@class='share']//form")
    browser.sees("Bob Ray (bob) cannot get through /board.", "dialog")
    browser.press("Allow", DIALOG)
    browser.sees("Checked: the user Bob Ray (bob) can get there.", "#notices")


@pytest.mark.parametrize("above, told", [(VIEW, "Those who can: ann."), (PASS, "Ask its owner.")],
                         ids=["known", "unknown"])
def test_who_may_not_change_it_is_shown_who_may(club, browser, board, above, told):
    """What would be refused is not offered. (eve does not get there.)"""
    club.sets(TOP, entry("staff", above, GROUP), entry("OWNER@", ALL), flags=2)
    club.sets(PATH, entry("staff", VIEW, STAFF), entry("eve", ALL), entry("ann", EDIT), entry("OWNER@", ALL))
    club.log_in("bob")
    club.open(PATH, "access")
    browser.sees(f"You may see who has access, but not change it. {told}", ".share")
    assert browser.script(TEXTS, ".shares li > span") == [
        "the group staff", "Can view", "eve", "Full control", "ann", "Can add and edit", "its owner (ann)",
        "Full control"]
    assert browser.script(TEXTS, ".share :is(button, input, select), .exceptions :is(button, input, select)") == []
    assert browser.script(TEXTS, ".exceptions .entries li")[1].startswith("Allow the user eve to do all.")


def test_share_with_the_folders_owner(club, browser, board):
    """What a folder's owner may not do with what others make in it is said, and mended by one click."""
    club.open(PATH, "access")
    browser.sees("ann owns this folder, and cannot yet open or edit what others add to it.", ".share")
    browser.press("Give ann full access")
    browser.sees("Checked: the user ann can get there.", "#notices")
    assert club.own(PATH) == [(0, 3, ALL, "ann")]
    browser.until("it is said no more", lambda: "cannot yet open" not in browser.shown())


def test_the_owner_stands_once(club, browser, board):
    """Also whom the list of a folder above names; and each list of the panel has a name."""
    club.sets(TOP, entry("ann", ALL), entry("bob", VIEW), flags=2)
    club.open(PATH, "access")
    browser.until("bob", lambda: any("bob" in it for it in browser.script(TEXTS, ".given li")))
    assert sum("ann" in it for it in browser.script(TEXTS, ".share li")) == 1
    assert set(browser.script("return [...document.querySelectorAll('.share ul:not([role])')].map((it) => "
                              "it.ariaLabel)")) == {"Who has access"}


def test_share_with_more_than_a_list_holds(club, browser):
    """A list's 17th name is told before, and what to do."""
    path = "/shared"
    club.lay(f"{path}/")
    club.sets(path, *(it for who in ["ann", *(f"gone{at}" for at in range(15))]
                      for it in (entry(who, WORK_HERE, 0), entry(who, CHANGE, 0xB))))
    club.open(path, "access")
    share(browser, "eve", "Can edit and delete")
    browser.sees("This would make 34 entries, and 32 are the most. Share it with a group", ".share")
    assert "eve" not in [it[3] for it in club.own(path)]


def test_share_shows_names_as_people_write_them(club, browser, passed, tells):
    """Where the front tells these."""
    club.sets(PATH, entry("ann", ALL))
    tells("names.json", {"ann": "Ann <b>Lee", "bob": "Bob Ray"})
    club.log_in("ann")
    club.open(TOP)
    browser.sees("owner Ann <b>Lee (ann), group eng", "main")
    club.open(PATH, "access")
    assert browser.script(TEXTS, ".given li")[0] == "Ann <b>Lee (ann)owner, with full access to what others add"
    share(browser, "bob ray", "Can view")
    browser.sees("Sharing updated.")
    assert club.own(PATH) == [(0, 3, ALL, "ann"), (0, 3, VIEW, "bob")]
    browser.until("it is shown", lambda: browser.script(SHARES) == [["Bob Ray (bob)", "Can view"]])
    club.open(PATH, "who")
    heads = browser.script("return [...document.querySelectorAll('.matrix thead th')].map((it) => "
                           "[it.textContent, it.title])")
    assert heads[1:3] == [["Ann <b>Lee", "Ann <b>Lee (ann)"], ["Bob Ray", "Bob Ray (bob)"]]
    browser.act("//main//table//tbody/tr[1]/td[2]/button", "click")
    browser.sees("The list of /board/plans lets Bob Ray (bob) see what is in it", ".detail")


CLICKS = "addEventListener('pointerup', () => { window.clicks = (window.clicks ?? 0) + 1; }, true)"


def test_share_is_three_clicks_and_a_name_away(club, browser, passed):
    """From a row, with any level: who comes there types at once, and the list of names covers no level."""
    club.open(TOP)
    browser.script(CLICKS)
    browser.press("More for plans")
    browser.act(f"{MENU}//a[.='Share']", "click")
    browser.until("Share", lambda: browser.script("return document.activeElement.role") == "combobox")
    browser.keys("bob")
    browser.until("names", lambda: browser.script(TEXTS, ".fits:not([hidden]) li") == ["bob"])
    browser.press("Can add and edit", "//main//form")
    browser.until("it is shared", lambda: (0, 3, EDIT, "bob") in club.own(PATH))
    assert browser.script("return window.clicks") == 3


def test_share_is_one_click_and_a_name_away(club, browser, passed):
    """From its folder, to view: by Enter."""
    club.open(PATH)
    browser.act("//main//p[contains(@class, 'tools')]/a", "click")
    browser.until("Share", lambda: browser.script("return document.activeElement.role") == "combobox")
    browser.keys("bob", "enter")
    browser.until("it is shared", lambda: (0, 3, VIEW, "bob") in club.own(PATH))


def test_share_of_a_document_has_words_of_documents(club, browser, passed):
    """Nothing can be added to one: in the levels, where it has them from above, and in the matrix."""
    path = f"{PATH}/a.txt"
    club.lay(path)
    club.sets(PATH, entry("eve", EDIT), entry("bob", PASS, 0), entry("ann", ALL))
    club.open(path, "access")
    levels = ["Can view", "Can edit", "Can edit and delete", "Full control"]
    assert browser.script(TEXTS, ".share form button") == levels
    browser.until("from above", lambda: any(it.startswith("eveCan edit from") for it in given(browser)))
    share(browser, "bob", "Can edit")
    browser.until("it is shared", lambda: club.own(path) == [(0, 0, EDIT, "bob")])
    browser.until("its level", lambda: ["bob", "Can edit"] in browser.script(SHARES))
    club.open(path, "who")
    assert "Can edit" in [it.rstrip("?") for it in browser.script(TEXTS, ".matrix td button")]


def test_who_has_the_name_of_another_is_told_apart(club, browser, tells):
    club.lay(f"{TOP}/")
    tells("names.json", {"ann": "Ann Lee", "bob": "Bob Ray", "eve": "Ann Lee"})
    club.log_in("ann")
    club.open(TOP, "who")
    heads = browser.script("return [...document.querySelectorAll('.matrix thead th')].map((it) => it.textContent)")
    assert heads[1:4] == ["Ann Lee (ann)", "Bob Ray", "Ann Lee (eve)"]
