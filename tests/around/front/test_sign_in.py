"""Where people log in: who is led there, what of the page is for everybody, and where a browser takes up a login and
forgets it. (Who is asked for a login by a challenge: test_logins.py.)"""
import os
import time

import pytest
from given import each
from nginx import login
from served import put_file, text_of

from .sides import LEAST, ROOM, log_of, values, wrong

SITE = "http://127.0.0.1"
DOCUMENT, SCRIPT, LINK = ["sec-fetch-dest: document"], ["sec-fetch-dest: empty"], "sec-fetch-site: cross-site"
PUBLIC = "sign-in.html", "sign-in.js", "login.js", "words.js", "words.en.js", "style.css", "icon.svg"
HIDDEN = "main.js", "sign-in.html", "words.txt", "words.en.de.js", "login.css", "style.css.js"


@each("target, more, status, to", [
    ("the page", "/", DOCUMENT, 303, [f"{SITE}/sign-in"]),
    ("its file", "/index.html", DOCUMENT, 303, [f"{SITE}/sign-in"]),
    ("with a question", "/?x", DOCUMENT, 303, [f"{SITE}/sign-in"]),
    ("a wrong login", "/", [*DOCUMENT, wrong("u01")], 303, [f"{SITE}/sign-in"]),
    ("who is logged out", "/", [*DOCUMENT, wrong("logged-out")], 303, [f"{SITE}/sign-in"]),
    ("a room", f"{ROOM}/", DOCUMENT, 401, []), ("a file of the front", "/rooms.json", DOCUMENT, 401, []),
    ("a program", "/", [], 401, []), ("a script", "/", SCRIPT, 401, []),
    ("a frame", "/", ["sec-fetch-dest: iframe"], 401, []),
    ("a room, by a link", f"{ROOM}/", [*DOCUMENT, LINK], 303, [f"{SITE}/sign-in"]),
    ("a file, by a link", "/rooms.json", [*DOCUMENT, LINK], 303, [f"{SITE}/sign-in"]),
    ("the box, by a link", "/log-in", [*DOCUMENT, LINK], 303, [f"{SITE}/sign-in"]),
    ("a site beside it", "/log-in", [*DOCUMENT, "sec-fetch-site: same-site"], 303, [f"{SITE}/sign-in"]),
    ("the page's own link", "/log-in", [*DOCUMENT, "sec-fetch-site: same-origin"], 401, []),
    ("what was typed", "/log-in", [*DOCUMENT, "sec-fetch-site: none"], 401, []),
    ("a frame of another site", "/log-in", ["sec-fetch-dest: iframe", LINK], 401, [])])
def test_who_is_led_to_where_people_log_in(front, target, more, status, to):
    """Who opens the page in a browser, or comes by another site's link; others are refused. By such a link nobody is
    asked for a login, which it may have in it."""
    got = front.once(None, "GET", target, more=more)
    assert (got.status, values(got, ["location"])["location"]) == (status, to)
    is_asked = status == 401 and not {LINK, *SCRIPT, "sec-fetch-dest: iframe"} & {*more}
    assert values(got, ["www-authenticate"])["www-authenticate"] == ['Basic realm="rooms"'] * is_asked


def test_a_wrong_login_waits_and_has_a_line_also_where_it_leads_on(front):
    """And a right one has none, where it does."""
    begin = time.monotonic()
    assert front.status(None, "GET", "/", more=[*DOCUMENT, wrong("u01")]) == 303
    assert time.monotonic() - begin >= LEAST
    for target, status in ("/", 200), ("/log-in", 302):
        assert front.status("u02", "GET", target, more=DOCUMENT) == status
    assert front.status(None, "GET", "/", more=DOCUMENT) == 303
    front.settle()
    told = text_of(log_of(front, "fileroom-logins.log"))
    assert (told.count("\n"), 'wrong login from 127.0.0.1 as "u01"' in told) == (1, True)


@pytest.fixture
def paged(front):
    """A front whose page has such files."""
    for name in {*PUBLIC, *HIDDEN}:
        put_file(os.path.join(front.page, name), name)
    return front


def test_where_people_log_in_is_for_everybody(paged):
    """With any login or none, and nothing else of the page is."""
    for more in [], [wrong("u01")], [wrong("logged-out")]:
        got = [paged.once(None, "GET", f"/{it}", more=more) for it in ("sign-in", *PUBLIC[1:])]
        assert [it.body.decode() for it in got] == [*PUBLIC]
    assert [paged.status(None, "GET", f"/{it}") for it in HIDDEN] == [401] * len(HIDDEN)
    assert [paged.status(None, it, "/sign-in") for it in ("POST", "PUT")] == [401, 401]


def test_whose_rooms_these_are(front):
    """Told to everybody, in a line of a file; else nothing is."""
    assert front.status(None, "GET", "/organisation") == 204
    put_file(os.path.join(front.folder, "organisation"), "M\u00fchle <b>\n")
    got = front.once(None, "GET", "/organisation")
    assert (got.body.decode(), values(got, ["content-type"])) == (
        "M\u00fchle <b>\n", {"content-type": ["text/plain; charset=utf-8"]})


@each("user, password, more, status, to", [
    ("a script", "u01", "word of u01", SCRIPT, 200, []),
    ("a browser's own box", "u01", "word of u01", DOCUMENT, 302, [f"{SITE}/"]),
    ("wrong", "u01", "no", SCRIPT, 401, []), ("who logs out", "logged-out", "x", SCRIPT, 401, [])])
def test_a_login_is_taken_up(front, user, password, more, status, to):
    got = front.once(None, "GET", "/log-in", more=[*more, login(user, password)])
    assert (got.status, values(got, ["location"])["location"]) == (status, to)


@each("user, more, status", [
    ("logged out", "logged-out", SCRIPT, 204), ("none", None, SCRIPT, 401), ("another login", "u01", SCRIPT, 404),
    ("of another site", "logged-out", ["sec-fetch-site: cross-site"], 403),
    ("of a site beside it", "logged-out", ["sec-fetch-site: same-site"], 403),
    ("of the page", "logged-out", ["sec-fetch-site: same-origin"], 204)])
def test_a_login_is_forgotten(front, user, more, status):
    """`logged-out` is let in there, and nowhere else."""
    its = [wrong(user)] * bool(user)
    assert front.status(None, "GET", "/log-out", more=[*more, *its]) == status
    if user == "logged-out":
        for target in "/whoami", "/rooms.json", "/index.html", "/log-in", f"{ROOM}/x":
            assert front.status(None, "GET", target, more=[*more, *its]) == 401


def test_a_right_login_writes_no_line_where_it_is_forgotten(front):
    assert front.status("u01", "GET", "/log-out") == 404
    front.settle()
    assert text_of(log_of(front, "fileroom-logins.log")) == ""
