"""What the browser tells a screen reader, contrast, reflow and sizes (WCAG 2.2 AA)."""
import pytest

from .club import ALL, PLACE, VIEW, entry

TOP = "/reader"
COLOURS = """const part = (it) => { const [r, g, b, a = 1] = it.match(/[\\d.]+/g).map(Number); return {r, g, b, a}; };
const light = ({r, g, b}) => [r, g, b].map((it) => it / 255).map((it) => it <= .04045 ? it / 12.92 :
  ((it + .055) / 1.055) ** 2.4).reduce((sum, it, at) => sum + it * [.2126, .7152, .0722][at], 0);
const behind = (it) => { const own = part(getComputedStyle(it).backgroundColor);
  return own.a === 1 || !it.parentElement ? own : behind(it.parentElement); };
const ratio = (...both) => { const [dark, pale] = both.map(light).sort((a, b) => a - b);
  return (pale + .05) / (dark + .05); };
"""
# each text that is shown, and each hint in a field, with the contrast of its colour over what lies behind it, where it
# has too little
CONTRAST = COLOURS + """const walker = document.createTreeWalker(document.body, NodeFilter.SHOW_TEXT);
const found = new Map();
const see = (it, style, words) => {
  const isLarge = parseFloat(style.fontSize) >= 24 || parseFloat(style.fontSize) >= 18.66 && style.fontWeight >= 700;
  const its = ratio(part(style.color), behind(it)) * style.opacity;
  if (its < (isLarge ? 3 : 4.5)) found.set(it.className || it.tagName, [its.toFixed(2), words.slice(0, 30)]); };
for (const it of document.querySelectorAll('[placeholder]'))
  if (it.checkVisibility()) see(it, getComputedStyle(it, '::placeholder'), it.placeholder);
while (walker.nextNode()) { const it = walker.currentNode.parentElement;
  if (!walker.currentNode.data.trim() || !it.checkVisibility() || it.closest('.unseen, option, #skip')) continue;
  see(it, getComputedStyle(it), it.innerText); }
return [...found];"""
# each field whose border has too little contrast to what is in it or around it
EDGES = COLOURS + """return [...document.querySelectorAll('select, textarea, input:not([type=checkbox], [type=file])')]
  .filter((it) => it.checkVisibility()).map((it) => { const style = getComputedStyle(it);
    const all = [it, it.parentElement].map((one) => ratio(part(style.borderTopColor), behind(one)));
    return [it.getAttribute('aria-label') ?? it.id, style.borderTopStyle, Math.min(...all).toFixed(2)]; })
  .filter(([, kind, its]) => kind !== 'solid' || its < 3)"""
# what of the element that has the focus can be seen, of nine points in it
SEEN = """const it = document.activeElement, box = it.getBoundingClientRect();
const at = (start, size) => [.1, .5, .9].map((part) => start + size * part);
return at(box.left, box.width).flatMap((x) => at(box.top, box.height).map((y) => document.elementFromPoint(x, y)))
  .filter((one) => one && it.contains(one)).length;"""
SMALL = """return [...document.querySelectorAll('button, select, input, summary')]
  .filter((it) => it.checkVisibility()).map((it) => [it, (it.closest('label') ?? it).getBoundingClientRect()])
  .filter(([, {width, height}]) => width < 24 || height < 24)
  .map(([it]) => it.getAttribute('aria-label') ?? it.textContent)"""
# texts of a row that lie over another of it
OVER = """const boxOf = (it) => { const range = document.createRange(); range.selectNodeContents(it);
  return range.getBoundingClientRect(); };
const isOver = (one, other) => one.left < other.right - 1 && other.left < one.right - 1 && one.top < other.bottom - 1 &&
  other.top < one.bottom - 1;
return [...document.querySelectorAll('.things tbody tr')].flatMap((row) => {
  const all = [...row.querySelectorAll('.name, .place, .size, .who a')].filter((it) => it.checkVisibility() &&
    it.textContent).map((it) => [it.textContent, boxOf(it)]);
  return all.flatMap(([words, box], at) => all.slice(at + 1).filter(([, other]) => isOver(box, other))
    .map(([others]) => [words, others])); });"""
PLACES = {"folder": f"#open/club{TOP}", "document": f"#open/club{TOP}/a.txt", "sharing": f"#access/club{TOP}",
          "matrix": f"#who/club{TOP}", "search": f"#find/club{TOP}"}
SIGNS = set("▾▸↑↓")  # drawn by styles: a screen reader would read them aloud
STOPS = {"button", "link", "textbox", "searchbox", "combobox", "checkbox", "menuitem", "treeitem"}
HAS_FOCUS = "return document.activeElement.textContent"


def nameless(browser):
    """What can be reached and has no name, or a sign in it, in the browser's accessibility tree; and all roles."""
    nodes = browser.devtools("Accessibility.getFullAXTree")["nodes"]
    told = [(it["role"]["value"], it.get("name", {}).get("value", "")) for it in nodes if not it["ignored"]]
    lacking = [(role, name) for role, name in told if role in STOPS and (not name.strip() or SIGNS & set(name))]
    return lacking, [role for role, _ in told]


def pale(browser):
    """What has too little contrast, in light and in dark."""
    found = {}
    for colours in "light", "dark":
        browser.media(prefers_color_scheme=colours)
        found[colours] = [browser.script(it) for it in (CONTRAST, EDGES)]
    browser.media()
    return found


NOTHING_PALE = {"light": [[], []], "dark": [[], []]}


@pytest.fixture
def text(club):
    club.lay((f"{TOP}/a.txt", b"a"))


@pytest.mark.parametrize("view", PLACES)
def test_a_view_can_be_perceived(club, browser, text, view):
    """Light and dark: names, roles, contrast, sizes of what is pressed, and 320 pixels' width."""
    club.go(PLACES[view])
    lacking, roles = nameless(browser)
    assert (lacking, {"banner", "main", "heading", "search"} - {*roles}) == ([], set())
    assert browser.script(SMALL) == []
    assert pale(browser) == NOTHING_PALE
    browser.size(320, 640)
    assert browser.script("return document.documentElement.scrollWidth") == 320


@pytest.mark.parametrize("view", ["folder", "search"])
def test_a_row_has_room_on_a_phone(club, browser, tells, view):
    """Where somebody of a long name can see it; no text lies over another."""
    tells("names.json", {"eve": "Maximiliane Freifrau von Hohenstein-Oldenburg"})
    club.lay(f"{TOP}/minutes of the board about the summer fair in May.txt")
    club.lets("eve", "/", VIEW, 0)
    club.sets(TOP, entry("OWNER@", ALL), entry("eve", VIEW), flags=2)
    browser.size(320, 640)
    club.log_in("ann")  # (with the names)
    club.go(PLACES[view] + "?in=May" * (view == "search"))
    browser.sees("Maximiliane", ".things")
    assert (browser.script(OVER), browser.script("return document.documentElement.scrollWidth")) == ([], 320)


def test_a_dialog_can_be_perceived(club, browser, text):
    """The borders of its fields, and its words, which are read with its title."""
    club.open(f"{TOP}/a.txt")
    browser.press("Add text")
    browser.sees("on a line of its own", "dialog")
    assert pale(browser) == NOTHING_PALE
    read = browser.script("return document.querySelector('dialog').ariaDescription")
    assert read == "It is added at the end, on a line of its own."


def test_where_people_log_in_can_be_perceived(club, browser):
    """And what is wrong is told aloud."""
    browser.go(club.address("sign-in"))
    browser.act("//*[@id='name']", "value", {"text": "a b"})
    browser.act("//*[@id='word']", "value", {"text": "x\ue007"})
    browser.sees("wrong", "#told")
    lacking, roles = nameless(browser)
    assert (lacking, {"main", "heading", "alert", "textbox"} - {*roles}, browser.script(SMALL)) == ([], set(), [])
    assert pale(browser) == NOTHING_PALE
    browser.size(320, 640)
    assert browser.script("return document.documentElement.scrollWidth") == 320


def test_what_is_too_pale_is_found(club, browser, text):
    club.open(TOP)
    browser.script("document.documentElement.style.setProperty('--soft', '#aaa')")
    assert browser.script(CONTRAST)


def test_a_screen_reader_is_told(club, browser, text):
    """The table is a grid whose heads tell the order, and a row its name alone; what was done is told aloud; the page
    has a language."""
    club.open(TOP)
    assert {"grid", "columnheader", "rowheader", "gridcell"} <= {*nameless(browser)[1]}
    nodes = browser.devtools("Accessibility.getFullAXTree")["nodes"]
    assert [it["name"]["value"] for it in nodes if it["role"]["value"] == "rowheader"] == ["a.txt"]
    assert browser.script("return document.querySelectorAll('.things th[aria-sort=ascending]').length") == 1
    live = "return ['notices', 'busy-text'].map((it) => document.getElementById(it).role)"
    assert browser.script(live) == ["status", "status"]
    assert browser.script("return document.documentElement.lang") == "en"


def test_wishes_are_met(club, browser, text):
    """Who wishes no motion sees none; with forced colours what is chosen has an outline."""
    club.open(TOP)
    browser.script("document.querySelector('main').setAttribute('aria-busy', 'true')")
    browser.act("//main//input[@aria-label='Select a.txt']", "click", is_patient=False)
    moves = "return parseFloat(getComputedStyle(document.querySelector('main')).transitionDuration) > 0"
    outline = "return getComputedStyle(document.querySelector('.things tr[aria-selected=true]')).outlineStyle"
    for wish, wanted in ({"prefers_reduced_motion": "reduce"}, [False, "none"]), \
            ({"forced_colors": "active"}, [True, "solid"]), ({"forced_colors": "none"}, [True, "none"]):
        browser.media(**wish)
        assert (wish, [browser.script(moves), browser.script(outline)]) == (wish, wanted)


def test_rooms_stand_in_the_rail(club, browser, text):
    """Beside the list, or in a narrow window behind a button; the name of a language is in a menu, in that one."""
    club.open(TOP)
    in_sight = "return ['rail', 'places'].map((it) => document.getElementById(it).checkVisibility())"
    assert browser.script(in_sight) == [False, True]
    browser.press("Places")
    assert browser.script(in_sight) == [True, True]
    browser.keys("escape")
    assert browser.script(in_sight) == [False, True]
    browser.size(1280, 800)
    assert browser.script(in_sight) == [True, False]
    browser.act("//*[@id='rail']//a[.='club']", "click")
    browser.until("the room", lambda: browser.script(PLACE) == "#open/club")
    assert browser.script("return document.querySelectorAll('header select').length") == 0
    browser.act("//header//button[@id='user']", "click")
    browser.sees("Deutsch", "[role=menu]")
    said = "return [...document.querySelectorAll('[role=menu] [lang]')].map((it) => [it.lang, it.textContent])"
    assert browser.script(said) == [["de", "Deutsch"]]


def test_the_rail_goes_with_the_place(club, browser, text):
    """Also where Back leads away."""
    club.open()
    club.open(TOP)
    browser.press("Places")
    browser.script("history.back()")
    browser.until("the place before", lambda: browser.script(PLACE) == "#open/club")
    assert browser.script("return document.getElementById('rail').checkVisibility()") is False


@pytest.fixture
def long(club):
    """A folder with sixty documents."""
    club.lay(*(f"{TOP}/long/{count}.txt" for count in range(60)))
    return f"{TOP}/long"


def test_focus_is_not_behind_notices(club, browser, long):
    """In a long list."""
    club.open(long)
    browser.later("import('/notices.js').then((it) => { for (let at = 0; at < 6; at += 1) it.tellFault(`Fault ${at}`); "
                  "document.querySelector('.things a.name').focus(); }).then(arguments[0])")
    browser.keys("end")
    hidden = []
    for _ in range(59):
        browser.keys("up")
        if not browser.script(SEEN):
            hidden.append(browser.script(HAS_FOCUS))
    assert (hidden, browser.script(HAS_FOCUS)) == ([], "0.txt")


def test_focus_of_a_load_is_shown_by_the_first_key(club, browser, long):
    """The name has it from the start, for who reads by ear; nobody has used the keys yet."""
    at_name = "return document.activeElement.matches(`h1 > button${arguments[0]}`)"
    club.log_in("ann")
    browser.until("the name has it", lambda: browser.script(at_name, ""))
    assert not browser.script(at_name, ":focus-visible")
    browser.keys("x")
    assert browser.script(at_name, ":focus-visible")
    browser.keys("tab")
    assert browser.script(HAS_FOCUS) == "+ New"
    browser.script("document.querySelector('.things a.name').focus()")
    browser.keys("enter")
    browser.until("the next name shows it", lambda: browser.script(at_name, ":focus-visible"))


def test_focus_is_not_behind_names_of_the_matrix(club, browser, long):
    browser.size(320, 640)
    club.open(long, "who")
    browser.script("[...document.querySelectorAll('.matrix tbody tr:nth-child(2) button')].at(-1).focus()")
    for _ in range(2):
        browser.chord("shift", "tab")
        assert browser.script(SEEN)
