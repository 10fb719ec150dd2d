"""The cases of docs/FILES.md, played by the page."""
import re

import cases
import pytest
from cases import No

from .club import BEHIND, BUTTONS, DIALOG, MIB, SLOW, by_menu, choose, forget_told

TOLD = ("const it = document.querySelector('dialog[open] form'); return [it && !it.inert ? it.innerText : '', "
        "...['notices', 'transfers'].map((its) => document.getElementById(its).innerText)]")
ALL_ROWS = ("return [...document.querySelectorAll('.things tbody tr')].map((it) => [it.querySelector('bdi')"
            ".textContent, ...['.size', '.kind'].map((its) => it.querySelector(its).innerText)])")
FAULT = "return document.querySelector('dialog[open] p.fault[role=alert]')?.textContent ?? ''"
CLASSES = "return [...document.querySelectorAll('#notices > *')].map((it) => it.className)"
SHOWS = ("return [...document.querySelectorAll('dialog[open] button')].some((it) => it.checkVisibility() && "
         "it.textContent === arguments[0])")


class Page:
    name = "page"

    def __init__(self, club):
        self.club, self.browser = club, club.browser

    @staticmethod
    def size_words(size):
        if size < 1024:
            return f"{size} byte{'s' * (size != 1)}"
        count, unit = (size / 1024, "KiB") if size < 1 << 20 else (size / (1 << 20), "MiB")
        return f"{count:.1f} {unit}" if count < 10 else f"{round(count)} {unit}"

    def see(self, path):
        """Goes there anew."""
        self.club.anew(path)
        forget_told(self.browser)

    def at(self, path):
        """Goes to the folder of something. Its name."""
        folder, _, name = path.rpartition("/")
        self.see(folder)
        return name

    def told(self, yes=(), done="", seconds=None):
        """What the page says in the end. A dialog is answered by the first of its words that `yes` has; another one is
        closed, and what it says is why not."""
        browser, why = self.browser, ""

        def end():
            dialog, notices, transfers = browser.script(TOLD)
            if dialog:
                return dialog
            return notices if re.search(done, notices) and not transfers or "fault" in self.faults() else ""
        while True:
            told = browser.until(done, end, seconds)
            dialog = browser.script(TOLD)[0]
            if not dialog:
                break
            answer = next((words for sign, words in yes if sign in dialog), None)
            fault = browser.script(FAULT)
            if answer is None or fault:
                why += fault or dialog
                self.close()
                browser.until("its end", lambda: not browser.script(TOLD)[2])
                if not browser.script(TOLD)[1]:
                    raise No(why)
            else:
                browser.press(answer, DIALOG)
                browser.until("it is done", lambda: browser.script(FAULT) or browser.script(TOLD)[0] != dialog)
        if why or "fault" in self.faults() and not re.search(done, told):
            raise No(why + told)
        return told

    def faults(self):
        return self.browser.script(CLASSES)

    def close(self):
        """Leaves a dialog, with what was typed."""
        for words in "Cancel", "Discard it", "Close":
            if self.browser.script(SHOWS, words):
                self.browser.press(words, DIALOG)
        self.browser.until("it is closed", lambda: not self.browser.script(TOLD)[0])

    def put(self, path, data):
        name = self.at(path)
        choose(self.browser, "Upload", self.club.on_disk(name, data))
        done = "1 file uploaded|0 files uploaded|failed"
        told = self.told([("there already", "Replace")], done, SLOW if len(data) > MIB else None)
        self.browser.until("what goes on behind it", lambda: self.browser.script(BEHIND))
        return told + self.browser.script(TOLD)[1]

    def get(self, path):
        self.see(path)
        if "Download" not in self.browser.script(BUTTONS):
            raise No("not offered: it is a folder, " + self.browser.text_of("main"))
        self.browser.press("Download", "//main")
        name = path.rpartition("/")[2]
        self.told(done=" in [0-9.]+ seconds")
        return self.club.saved(name)

    def list(self, path):
        self.browser.size(1000, 12_000)
        self.see(path)
        rows, = self.browser.until("all rows", self.rows)
        self.browser.devtools("Emulation.clearDeviceMetricsOverride")
        return {name: "?" if kind == "unfinished upload" else "/" if size.endswith((" item", " items")) else size
                for name, size, kind in rows}

    def rows(self):
        """What the rows tell, once all do."""
        rows = self.browser.script(ALL_ROWS)
        is_all = rows or "This folder is empty." in self.browser.text_of("main")
        return is_all and all(size or kind == "unfinished upload" for _, size, kind in rows) and [rows]

    def append(self, path):
        self.see(path)
        if "Add text" not in self.browser.script(BUTTONS):
            raise No("not offered")

    def rename(self, path, to):
        by_menu(self.browser, self.at(path), "Rename")
        self.browser.fill("Name", to.rpartition("/")[2])
        return self.told([("Rename", "Rename")], " is now ")

    def copy(self, path, to):
        by_menu(self.browser, self.at(path), "Copy")
        self.browser.fill("Name", to.rpartition("/")[2])
        return self.told([("Copy", "Copy")], " is copied ")

    def remove(self, path, how=None):
        by_menu(self.browser, self.at(path), "Remove")
        yes = [("cannot be brought back", "Remove")] if how else []
        return self.told(yes, " is removed|is in the trash")

    def restore(self, name):
        self.see(cases.TRASH)
        by_menu(self.browser, name, "Restore")
        return self.told(done=" is there again")

    def watch(self, hears):
        self.club.lossy.hears = hears


@pytest.fixture(scope="module")
def played(stage, tmp_path_factory, request):
    """The room and the tab of the cases, each of which has a folder of its own. `anew` makes others."""
    left = {it["name"]: it["not"][Page.name] for it in cases.TABLE["case"] if Page.name in it.get("not", {})}
    request.config.run.told += [f"cases: not by the page: {name}: {why}" for name, why in left.items()]

    def anew():
        stage.leave()
        stage.fresh_room()
        stage.enter(str(tmp_path_factory.mktemp("cases")))
    anew()
    yield anew
    stage.leave()
    stage.stop()


@cases.each_case(Page)
@pytest.mark.timeout(2 * SLOW)
def test_case(stage, played, number, case):
    try:
        cases.Played(number, case, Page(stage), cases.Judge(stage.room.port)).play()
    except BaseException:  # (it may have left a dialog, or a request that waits)
        played()
        raise
