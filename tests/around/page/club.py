"""A room of the name club behind the front, and a browser in front of it: what the tests of the page share."""
import base64
import contextlib
import itertools
import json
import os
import shutil
import time
from urllib.parse import quote

import cases
from browser import Browser
from nginx import Front
from served import HERE, Line, Room, bytes_of, session, slot

from .lossy import Lossy

PAGE = os.path.join(HERE, "..", "page")
A_MINUTE = 60  # seconds
SLOW = 240  # seconds for 16 MiB, on a machine that others use too
NAME, PIECE, MIB = cases.NAME, cases.PIECE, 1 << 20
ALL, VIEW, ADD, EDIT, PASS = 0x1F07FF, 0x1200A9, 0x1200AD, 0x1200AF, 0x20
WORK_HERE, CHANGE, GROUP = 0x1201EF, 0x1301EF, 0x40  # (`work in it` is two entries; GROUP is a flag)
USERS = {"ann": ["eng"], "bob": ["eng", "staff"], "eve": []}
# the folder of most tests, and the sizes of what is in it, in order
TOP, FRAME = "/frame", {"attic": None, "cellar": None, "bill.pdf": 63, "letter.docx": 45, "list.xlsx": 54,
                        "notes.txt": 36}
MENU = "//*[@role='menu']"
DIALOG = "//dialog[@open]"
FOUND = "return [...document.querySelectorAll('.things tbody tr')].map((it) => it.row.path)"
BUTTONS = "return [...document.querySelectorAll('main > .tools button')].map((it) => it.textContent)"
BEHIND = "return (document.querySelector('main').dataset.behind ?? '0') === '0'"  # whether nothing goes on behind
PLACE = "return document.querySelector('main').dataset.place"
TYPED = "return document.querySelector('dialog :is(textarea, input)').value"
TEXTS = "return [...document.querySelectorAll(arguments[0])].map((it) => it.textContent)"
CHOSEN = "return [...document.querySelectorAll('.things [aria-selected=true] bdi')].map((it) => it.textContent)"
ROWS = "return [...document.querySelectorAll('.things tbody tr')].map((it) => it.querySelector('bdi').textContent)"
ROW = ("const row = [...document.querySelectorAll('.things tbody tr')].find((it) => it.querySelector('bdi')"
       ".textContent === arguments[0]); return ['th > div', '.size', '.kind'].map((it) => row?.querySelector(it)"
       ".innerText ?? '').join('\\n')")
MATRIX = ("return [...document.querySelectorAll('.matrix tbody tr')]"
          ".map((row) => [...row.cells].map((it) => it.innerText))")


def entry(who, mask, flag=3, kind=0):
    return {"flag": flag, "mask": mask, "type": kind, "who": who}


class Club:
    """A front before the page and a room, and a browser before that, which may lose answers. For each test there is a
    new room, and a new tab of a browser that keeps nothing but the login. `lasting` hears what lasts longer."""

    def __init__(self, folder, users=USERS, lasting=lambda pid: None):
        self.folder, self.lasting, self.user, self.logins = folder, lasting, "", itertools.count()
        roster = "[users]\n" + "".join(f"{user} = {json.dumps(groups)}\n" for user, groups in users.items())
        self.room = Room(os.path.join(folder, "room"), roster)
        self.made = shutil.copy(self.room.db, os.path.join(folder, "made.db"))
        self.front = os.path.join(folder, "front")
        self.tell("rooms/club.users.json", users)
        words = {user: f"{user}-word" for user in users}
        front = Front(self.front, words, {"club": self.room.port}, PAGE, opens="100r/s")
        self.nginx = front.server
        lasting(self.nginx.pid)
        self.lossy = Lossy(front.port)
        self.port = self.lossy.port
        self.start_browser()

    def start_browser(self):
        self.browser = Browser(self.folder)
        self.lasting(self.browser.driver.pid)

    def fresh_room(self):
        """One without anything."""
        self.stop()
        shutil.copy(self.made, self.room.db)
        self.room.start()
        self.numbers, self.laid = {}, {""}

    def enter(self, folder):
        """A tab of ann's, in which nothing is shown, and a folder for files of the disk and for what is saved."""
        self.disk, self.back = (os.path.join(folder, it) for it in ("disk", "back"))
        os.makedirs(self.back)
        self.browser.devtools("Browser.setDownloadBehavior", behavior="allow", downloadPath=self.back)
        if self.user != "ann":
            self.log_in("ann")

    def leave(self):
        """Nothing of the page goes on, and of its user the login is kept alone."""
        self.lossy.calm()
        try:
            self.fresh_tab()
        except (OSError, LookupError):  # (a test has left the browser as it answers no more)
            self.browser.close()
            self.user = ""
            self.start_browser()

    def stop(self):
        """Ends the room, and nothing of it is left."""
        if self.room.server:
            self.room.kill()
        for end in "-wal", "-shm":
            with contextlib.suppress(FileNotFoundError):
                os.remove(self.room.db + end)

    def fresh_tab(self):
        browser, old = self.browser, self.browser.tabs()
        browser.turn_to(old[0])
        _, new = browser.tab()
        for it in old:
            with contextlib.suppress(LookupError):  # (one that crashed)
                browser.turn_to(it)
                browser.close_tab()
        browser.turn_to(new)
        for port in {self.port, self.lossy.front}:
            browser.devtools("Storage.clearDataForOrigin", origin=f"http://127.0.0.1:{port}", storageTypes="all")
        browser.complaints()

    def close(self):
        self.browser.close()
        self.stop()
        self.nginx.terminate()
        self.nginx.wait()

    # The front and the login

    def tell(self, name, its):
        """Puts a file that the front gives to the page."""
        os.makedirs(os.path.dirname(os.path.join(self.front, name)), exist_ok=True)
        with open(os.path.join(self.front, name), "w", encoding="utf-8") as file:
            json.dump(its, file)

    def address(self, place="", user=None):
        login = f"{user}:{user}-word@" if user else ""
        return f"http://{login}127.0.0.1:{self.port}/{place}"

    def log_in(self, user):
        self.user = ""
        self.browser.until(f"the login of {user}", lambda: self.is_logged_in(user), 3 * A_MINUTE)
        self.user = user

    def is_logged_in(self, user):
        """Whether the page is that user's, after a while at the latest. (On a busy machine Chromium once stayed with
        the login of before: it then goes once more.)"""
        # (an address that is new to the browser: a page from its cache would ask for no password)
        self.browser.go(self.address(f"log-in?{next(self.logins)}", user))
        end = time.monotonic() + A_MINUTE / 2
        while time.monotonic() < end:
            if user in self.browser.text_of("#user"):
                return True
            time.sleep(0.03)
        return False

    def log_in_elsewhere(self, user):
        """In another tab."""
        first, _ = self.browser.tab()
        self.log_in(user)
        self.browser.close_tab()
        self.browser.turn_to(first)

    # The room, past the page

    def holds(self, command, user="ann"):
        """What the room itself answers."""
        return self.holds_all([command], user)[0]

    def holds_all(self, commands, user="ann"):
        """What it answers to commands that are sent at once."""
        line, sid, first = Line(self.room.port), user.encode().hex().rjust(32, "e"), self.numbers.get(user, 0) + 1
        self.numbers[user] = first + len(commands) - 1
        try:
            line.ask(session(1, sid, user))
            line.send(b"".join(slot(0, at, it, user, sid) for at, it in enumerate(commands, first)))
            told = [json.loads(line.answer().body) for _ in commands]
        finally:
            line.close()
        assert all(it["code"] < 20 for it in told), told  # (then the numbers fit no more)
        return told

    def does(self, *commands, user="ann"):
        """As `holds_all`, where none may be refused."""
        told = self.holds_all(commands, user)
        refused = [both for both in zip(commands, told) if both[1]["code"]]
        assert not refused, refused[0]

    def lay(self, *things, user="ann"):
        """Makes folders, whose paths end in a slash, documents, each a path or a path and its bytes, and large files
        where the bytes are many; and the folders above them."""
        both = [(it, b"") if isinstance(it, str) else it for it in things]
        self.does(*[command for path, data in both for command in self.made_of(path, data)], user=user)

    def made_of(self, path, data):
        names = path.split("/")[:-1]
        for above in ("/".join(names[:at + 1]) for at in range(len(names))):
            if above not in self.laid:
                yield {"cmd": "MKDIR", "path": above}
            self.laid.add(above)
        if len(data) > PIECE:
            its = cases.manifest_of(data)
            pieces = zip(its["pieces"], cases.pieces_of(data))
            for name, part in [*((f"{its['folder']}/{it}", part) for it, part in pieces), (NAME, cases.compact(its))]:
                yield from self.made_of(f"{path}/{name}", part)
        elif not path.endswith("/"):
            yield {"cmd": "CREATE", "data": self.base64(data), "path": path}

    def sets(self, path, *entries, flags=1):
        """The list of something: 1 hands down from above, 2 does not."""
        self.does({"aclflag": flags, "cmd": "SETLIST", "entries": entries, "path": path})

    def lets(self, who, path, mask, flag=3):
        """Lets somebody do that with something, and view the folders above it."""
        above = ["/", *("/".join(path.split("/")[:at]) for at in range(2, path.count("/") + 1))] if path != "/" else []
        for at, its in [*((it, entry(who, VIEW, 0)) for it in above), (path, entry(who, mask, flag))]:
            told = self.holds({"cmd": "GETLIST", "path": at})
            own = [it for it in told["entries"] if not it["flag"] & cases.INHERITED]
            self.sets(at, its, *own, flags=told["aclflag"])

    def own(self, path):
        """The own entries of its list: kind, flags, rights, who."""
        entries = self.holds({"cmd": "GETLIST", "path": path})["entries"]
        return [(it["type"], it["flag"], it["mask"], it["who"]) for it in entries if not it["flag"] & cases.INHERITED]

    def writes(self, path, data):
        """Somebody else's new text."""
        self.does({"cmd": "WRITE", "data": self.base64(data), "path": path})

    def bytes(self, path):
        return base64.b64decode(self.holds({"cmd": "READ", "path": path}).get("data", ""))

    def text(self, path):
        return self.bytes(path).decode()

    def held(self, path):
        """The bytes of a file, read by the form that docs/FILES.md has and by nothing of the page's."""
        with cases.Judge(self.room.port) as room:
            return cases.Laid(room, 0, {}).held(path)

    def kinds(self, path):
        return dict(self.holds({"cmd": "LIST", "path": path}).get("names", []))

    def names(self, path):
        return [*self.kinds(path)]

    def make_trash(self, path="/trash/ann", who="ann"):
        """One as `fileroom-admin` makes it; by itself ann's, where it was in rooms of before."""
        self.lay(f"{path}/")
        self.sets(path, entry("OWNER@", ALL, 0), entry(who, ALL), flags=2)
        self.does({"cmd": "CHOWN", "group": "eng", "owner": who, "path": path})

    @staticmethod
    def base64(data):
        return base64.b64encode(data).decode()

    # The page

    def go(self, place):
        """Goes to a place of the page, and waits until it is shown."""
        self.browser.go(self.address(place))
        self.browser.until(place, lambda: self.browser.script(PLACE) == place)
        self.browser.script("document.querySelector('.exceptions')?.setAttribute('open', '')")

    def open(self, path="", view="open"):
        self.go(f"#{view}/club{quote(path, safe='/~')}")

    def anew(self, path, view="open"):
        """Goes there from elsewhere."""
        self.open()
        self.open(path, view)

    def on_disk(self, name, data=b""):
        path = os.path.join(self.disk, name)
        os.makedirs(os.path.dirname(path), exist_ok=True)
        with open(path, "wb") as file:
            file.write(data)
        return path

    def put(self, folder, *files, told=None):
        """Uploads files, and waits for what is told of it."""
        self.open(folder)
        choose(self.browser, "Upload", *files)
        if told:
            self.browser.sees(told, "#notices")

    def saved(self, name):
        """What the browser saved, once it is whole."""
        path = os.path.join(self.back, name)
        self.browser.until(name, lambda: os.path.exists(path))
        data = bytes_of(path)
        os.remove(path)
        return data


def make_new(browser, words):
    """Chooses it in the menu of what can be made."""
    browser.press("+ New")
    browser.press(words, MENU)


def by_menu(browser, name, words):
    """Chooses it in the menu of a row."""
    browser.press(f"More for {name}")
    browser.press(words, MENU)


def of_folder(browser, words):
    """Chooses it in the menu of the folder that is shown."""
    browser.act("//main//h1/button", "click")
    browser.press(words, MENU)


def of_user(browser, words):
    """Chooses it in the menu of who is logged in."""
    browser.act("//*[@id='user']", "click")
    browser.press(words, MENU)


def by_rail(browser, words):
    """Goes to a place by the rail, which stands behind a button in a window of this width."""
    browser.press("Places")
    browser.act(f"//*[@id='rail']//a[.='{words}']", "click")


def offers(browser):
    """The words of the menu that is open, without its links."""
    browser.until("a menu", lambda: browser.find(MENU))
    return browser.script(TEXTS, "[role=menu] button")


def to_folder(browser, name, path=None):
    """Chooses a folder in the tree of the dialog, once that is open as far as it opens by itself."""
    at_rest = ("return document.querySelector('dialog .tree [aria-selected=true]') && "
               "!document.querySelector('.tree [aria-busy]')")
    browser.until("the tree", lambda: browser.script(at_rest))
    browser.act(f"{DIALOG}//*[@role='treeitem']/span[normalize-space()='{name}']", "click")
    if path:
        browser.sees(f"To the folder {path}", "dialog")


def make_document(browser, name, text):
    make_new(browser, "New document")
    browser.fill("Name", name)
    browser.fill("Text", text)
    browser.press("Create")


def rename(browser, to):
    """What the dialog is to do that is open."""
    browser.fill("Name", to)
    browser.press("Rename", DIALOG)


def forget_told(browser):
    """Takes away what is told: what is seen from then on is new."""
    browser.script("document.getElementById('notices').replaceChildren()")


def choose(browser, words, *paths):
    """Chooses files, or a folder, for the button of these words."""
    forget_told(browser)
    if words == "Upload a folder":
        browser.press("+ New")
    browser.act(f"//main//input[@type='file' and @aria-label='{words}']", "value", {"text": "\n".join(paths)})


def append(browser, text, before=lambda: None):
    """Appends to the document that is shown; `before` is done right before the page sends it."""
    forget_told(browser)
    browser.press("Add text", "//main")
    browser.fill("Text", text)
    before()
    browser.press("Add text", DIALOG)


def appended(browser, text):
    append(browser, text)
    browser.sees("Saved.")


def edit(browser, text):
    """Types it in the place of what is there."""
    browser.press("Edit")
    browser.fill("Text", text)


def remove(browser):
    browser.press("Remove", "//main")
    browser.press("Remove", DIALOG)


def search_in(club, path, words):
    """Looks for what has these letters in its name, below a folder alone."""
    club.go(f"#find/club{quote(path, safe='/~')}?in={quote(words)}")


def ends(browser, words):
    """Waits for the end of a search, which tells this."""
    def is_told():
        told = browser.text_of("main")
        return words in told and "Looking" not in told
    browser.until(words, is_told)


def search(browser, words, where="header"):
    field = f"//{where}//input[@type='search']"
    browser.act(field, "clear")
    browser.act(field, "value", {"text": f"{words}\ue007"})


def row(browser, name):
    """What a row tells, a line each: its name, its size, its kind."""
    return browser.script(ROW, name)


def set_list(browser, whom, name, rights, here_alone=False):
    browser.press("Add an entry")
    first = "//main//ol[1]/li[1]"
    browser.act(f"{first}//select[@aria-label='Whom']/option[.='{whom}']", "click")
    browser.act(f"{first}//input[@aria-label='Name']", "value", {"text": name})
    browser.act(f"{first}//select[@aria-label='Rights']/option[.='{rights}']", "click")
    for words in ["the documents in it", "the folders in it"] if here_alone else []:
        browser.act(f"{first}//label[normalize-space()='{words}']", "click")


def share(browser, whom, what):
    field = "//main//input[@role='combobox']"
    browser.act(field, "clear")
    browser.act(field, "value", {"text": whom})
    browser.press(what, "//main//section[@class='share']//form")
