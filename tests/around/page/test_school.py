"""A room of a thousand users and three thousand files: the matrix and the search."""
import pytest

from .club import ALL, FOUND, GROUP, MATRIX, PASS, VIEW, ends, entry, search, search_in

TOP, PAPERS = "/school", "/papers"
CLASSES = [f"class{at:02}" for at in range(1, 41)]
SHOWN = CLASSES[:8]  # those that have a folder
YEARS = [f"{PAPERS}/{at}" for at in range(2001, 2013)]
IN_YEAR = [f"minutes {at}.txt" for at in range(50)] + [f"paper {at}.txt" for at in range(200)]
pytestmark = pytest.mark.timeout(900)  # (the room is made by the first of them)
HEADS = "return [...document.querySelectorAll('.matrix thead th')].map((it) => it.innerText.trim())"
# forty classes of 24, a teacher of each, and somebody in no group
USERS = {"ann": ["eng"], "head": [], **{f"{name}.pupil{at:02}": [name] for name in CLASSES for at in range(24)},
         **{f"teacher{at:02}": ["teachers", name] for at, name in enumerate(CLASSES)}}


@pytest.fixture(scope="module")
def room(stage):
    """A folder for each of some classes and the teachers, and twelve folders of 250 files, which the teachers may view.
    (The tests of this file change none of it.)"""
    stage.fresh_room()
    stage.lets("EVERYONE@", "/", PASS, 0)
    stage.lay(f"{TOP}/", f"{PAPERS}/", *(f"{TOP}/{name}/plan.txt" for name in SHOWN))
    stage.sets(TOP, entry("EVERYONE@", PASS, 0))
    stage.sets(PAPERS, entry("OWNER@", ALL), entry("teachers", VIEW, GROUP | 3), flags=2)
    for name in SHOWN:
        stage.sets(f"{TOP}/{name}", entry("OWNER@", ALL), entry(name, VIEW, GROUP | 3),
                   entry("teachers", ALL, GROUP | 3), entry(f"{name}.pupil00", ALL), flags=2)
    for year in YEARS:
        stage.lay(*(f"{year}/{name}" for name in IN_YEAR))
    yield
    stage.stop()


@pytest.fixture
def school(club, tells):
    tells("rooms/club.users.json", USERS)


def cells(browser, head):
    """What stands below a head of the matrix."""
    at = browser.script(HEADS).index(head)
    return [row[at] for row in browser.script(MATRIX)]


def test_school_in_the_matrix(club, browser, school):
    """It has a column for each group, and asks once about those that are alike."""
    club.open(TOP, "who")
    browser.sees("class40", ".matrix")
    assert 0 < club.lossy.times('"user":') < 300
    heads = browser.script(HEADS)
    assert [heads[1], heads[-3], heads[-1]] == ["class01 (25)", "eng (1)", "in no group (1)"]
    browser.sees("(1002 users, 43 groups)", "label")
    assert cells(browser, "class01 (25)")[1:4] == [
        "Can view / Full control", "No access / Full control", "No access / Full control"]
    assert cells(browser, "teachers (40)")[1:4] == ["Full control"] * 3
    browser.act("//main//tbody/tr[2]/td[1]/button", "click")
    browser.sees(f"{TOP}/class01: Can view: 23 (class01.pupil01,", ".detail")
    browser.sees("Full control: 2 (class01.pupil00, teacher00).", ".detail")


def test_members_of_a_group_in_the_matrix(club, browser, school):
    """A group opens to twenty of its members; others are found by their letters."""
    club.open(TOP, "who")
    browser.press("class01 (25)", "//main//thead")
    browser.sees("class01.pupil19", ".matrix")
    assert [cells(browser, f"class01.pupil{at:02}")[1] for at in (0, 1)] == ["Full control", "Can view"]
    assert "class01.pupil20" not in browser.script(HEADS)
    search(browser, "PUPIL23", "main")
    browser.sees("(20 shown of 40 users, 0 groups)", "label")
    assert browser.script(HEADS)[1:3] == ["class01.pupil23", "class02.pupil23"]


def test_many_files_in_the_matrix(club, browser, school):
    """Of a thousand users, narrowed to a class: forty rows, and forty more, so narrowed."""
    club.open(YEARS[0], "who")
    search(browser, "class07", "main")
    browser.sees("(20 shown of 24 users, 1 groups)", "label")
    heads = ["class07 (25)", *(f"class07.pupil{at:02}" for at in range(20))]
    shown = lambda: (browser.script(HEADS)[1:], len(browser.script(MATRIX)))
    assert shown() == (heads, 40)
    assert cells(browser, "class07 (25)")[1:3] == ["Shut out / Can view"] * 2
    browser.press("Show more (211 are left)")
    browser.sees("Show more (171 are left)", "main")
    assert shown() == (heads, 80)


def test_search_shows_what_it_found_so_far(club, browser, school):
    """And how far it is."""
    club.lossy.hold('"LIST"', "class05")
    search_in(club, TOP, "plan")
    browser.sees("7 results among", "main")
    browser.sees("8 of 9 folders known so far", "main")
    assert len(browser.script(FOUND)) == 7
    club.lossy.go_on()
    ends(browser, "8 results among")
    assert len(browser.script(FOUND)) == 8


def test_search_among_three_thousand_files(club, browser, school):
    """It ends with all of them, of which 500 are shown."""
    club.lossy.hold('"LIST"', "2007")
    search_in(club, PAPERS, "MINUTES")
    browser.sees("550 results among 2761 names.", "main")
    browser.sees("Looking: 12 of 13 folders known so far", "main")
    browser.sees("The first 500 are shown.", "main")
    assert len(browser.script(FOUND)) == 500
    club.lossy.go_on()
    browser.sees("600 results among 3012 names. The first 500 are shown.", "main")
