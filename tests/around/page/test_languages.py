"""The page's words in another language, of which none is lacking."""
import re

from .club import DIALOG, MENU, choose, of_user, row
from .test_accessible import SMALL

SHAPES = """const [done] = arguments;
const blanks = (it) => [...new Set([...it.matchAll(/{([0-9])/g)].map(([, at]) => at))].sort().join();
const shape = (it) => it && typeof it === 'object' ?
  Object.entries(it).map(([key, its]) => `${key} ${shape(its)}`).sort().join() : `${typeof it} ${blanks(it)}`;
import('/words.js').then(async ({ LANGUAGES }) => {
  const tables = await Promise.all(Object.keys(LANGUAGES).map((it) => import(`/words.${it}.js`)));
  done(tables.map(({ t }) => Object.fromEntries(Object.entries(t).map(([key, it]) => [key, shape(it)])))); });"""
HELP = ("const [done] = arguments; Promise.all(['en', 'de'].map((it) => import(`/help.${it}.js`)))"
        ".then((all) => done(all.map((it) => it.help.split('\\n').length)))")


def test_each_language_has_each_word(club, browser):
    """Of the same form; and each has its help."""
    club.open()
    english, *others = browser.later(SHAPES)
    assert others == [english] * len(others) and others
    assert min(browser.later(HELP)) > 9


def test_language_is_chosen_and_kept(club, browser):
    club.lay("/plans/")
    club.open()
    of_user(browser, "Deutsch")
    browser.sees("+ Neu", "main")
    assert browser.script("return document.documentElement.lang") == "de"
    browser.go("about:blank")
    club.open("/plans")
    browser.sees("Hochladen", "main")
    of_user(browser, "Hilfe")
    browser.sees("Hilfe", "dialog")
    browser.press("Schließen", DIALOG)
    of_user(browser, "English")
    browser.sees("+ New", "main")


def test_sizes_are_written_as_the_language_has_them(club, browser):
    """And how long it took."""
    club.lay(("/notes.txt", b"x" * 2560))
    club.open()
    browser.until("its size", lambda: "2.5 KiB" in row(browser, "notes.txt"))
    of_user(browser, "Deutsch")
    browser.until("its size", lambda: "2,5 KiB" in row(browser, "notes.txt"))
    choose(browser, "Hochladen", club.on_disk("more.txt", b"x" * 1536))
    browser.until("its end", lambda: re.search(r"1,5 KiB in \d+,\d Sekunden", browser.text_of("#notices")))


def test_words_of_the_legend_are_whole_on_a_phone(club, browser):
    """And in a cell of the matrix: also the long ones of German."""
    club.open()
    of_user(browser, "Deutsch")
    browser.sees("+ Neu", "main")
    browser.size(390, 844)
    club.open("", "who")
    broken = browser.script("""return [...document.querySelectorAll('.legend dt')].filter((it) => {
      it.style.overflowWrap = 'normal'; return it.scrollWidth > it.clientWidth; }).map((it) => it.textContent)""")
    assert broken == []
    broken = browser.script("""const cell = document.querySelector('.matrix td button');
      const heightOf = (word) => { cell.textContent = word; return cell.offsetHeight; };
      return [...document.querySelectorAll('.legend dt')].flatMap((it) => it.textContent.split(' '))
        .filter((it) => heightOf(it) > heightOf('x'))""")
    assert broken == []


def test_german_says_from_where_access_is(club, browser):
    club.lay("/plans/")
    club.open()
    of_user(browser, "Deutsch")
    browser.sees("+ Neu", "main")
    club.open("/plans", "access")
    browser.sees("Ansehen geerbt von club", ".given")
    browser.sees("ann ist Eigentümer dieses Ordners, kann aber noch nicht öffnen oder bearbeiten", ".share")
    browser.sees("Erlaubt für Eigentümer (ann): alles tun.", "main ol")


def test_german_words_have_room(club, browser):
    """The longest button in a row, and the shortest head above one."""
    club.make_trash()
    club.lay("/plans/a.txt")
    club.open("/plans")
    of_user(browser, "Deutsch")
    browser.sees("+ Neu", "main")
    assert browser.script(SMALL) == []
    browser.press("Mehr zu a.txt")
    browser.press("Entfernen", MENU)
    browser.sees("ist im Papierkorb.", "#notices")
    browser.press("Orte")
    browser.act("//*[@id='rail']//a[.='Papierkorb']", "click")
    browser.sees("Wiederherstellen", ".things")
    assert browser.script("return document.documentElement.scrollWidth - innerWidth") <= 0
