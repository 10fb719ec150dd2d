"""Logins: each kind of hash, guesses that wait and tell no name, and their lines in the log, as fail2ban reads them."""
import ctypes
import os
import re
import shutil
import statistics
import subprocess
import time

import pytest
from fileroom_admin import rosters
from given import each
from nginx import FOLDER, login
from served import HANGS, Line, least, message, text_of, until

from .sides import LEAST, OPEN_AT_ONCE, ROOM, SOON, at_once, log_of, said_long, values, wrong

GUESSES = 14  # at once of one name: fewer than the front lets pass
LONG = 4425  # letters of a password, in a head that nginx takes
ROUNDS, MOST_ROUNDS = 9, 90  # (a busy machine adds to what one takes, so the least of many counts)
FAIL2BAN = os.path.join(FOLDER, "..", "service", "fail2ban")
LINE = r'\d{4}-\d\d-\d\dT[0-9:]{8}[+-]\d\d:\d\d wrong login from 127\.0\.0\.3 as "[A-Za-z0-9._-]{1,32}"'


def add(front, user, line):
    with open(os.path.join(front.folder, "users"), "a", encoding="utf-8") as file:
        file.write(f"{user}:{line}\n")


def before(word):
    """As `fileroom-admin` kept a password once."""
    words = ["openssl", "passwd", "-apr1", "-stdin"]
    return subprocess.run(words, input=word, capture_output=True, text=True, check=True).stdout.strip()


@each("hashed", [("drawn", rosters.hashed_drawn), ("chosen", rosters.hashed_chosen), ("before", before)])
def test_a_hash(front, hashed):
    word = "p\u00e4ssword: of many letters"
    add(front, "ann", hashed(word))
    asked = word, word[:-1]
    assert [front.status(None, "GET", "/whoami", more=[login("ann", it)]) for it in asked] == [200, 401]


def timed(front, user, password="no"):
    begin = time.monotonic()
    got = front.status(None, "GET", "/whoami", more=[login(user, password)], source="127.0.0.3")
    return got, time.monotonic() - begin


def test_each_guess_waits(front):
    """For a name that is there as for one that is not; the page's own, by which a browser logs out, does not."""
    both = at_once(2 * GUESSES, lambda at: timed(front, ("u01", "zed")[at % 2], f"no{at}"))
    assert {it for it, _ in both} == {401}
    assert min(seconds for _, seconds in both) >= LEAST
    there, none = (statistics.median(seconds for _, seconds in both[it::2]) for it in (0, 1))
    assert abs(there - none) < LEAST / 4
    assert least(lambda: timed(front, "logged-out")[1], LEAST) < LEAST


@each("target, length", [("at the page", "/whoami", 0), ("with a body that is too long", "/whoami", 999999),
                         ("that a room is not to get", f"{ROOM}/x", 131073),
                         ("at a place of the front's own", "/opens", 0),
                         ("of no length", f"{ROOM}/x", None)])
def test_guesses_at_once(front, target, length):
    """More of a name than may wait are not looked at; another login from the same place is."""
    begin, right = time.monotonic(), login("u02", front.users["u02"])
    *found, other = at_once(3 * OPEN_AT_ONCE + 1, lambda at: said_long(front, target, length, [wrong("u01")]) if (
        at < 3 * OPEN_AT_ONCE) else front.status(None, "GET", "/whoami", more=[right]))
    rounds = max((time.monotonic() - begin) // LEAST, 1)
    assert set(found) == {401, 429}
    assert found.count(401) <= OPEN_AT_ONCE * rounds
    assert other == 200


@pytest.fixture
def guessed(front):
    """A front with three lines of wrong logins, one of them of a caller who did not wait for the answer."""
    names = ["u01", "zed._-9", 'a" from 192.0.2.1 as "b', "x wrong login from 192.0.2.1",
             "\n2026-01-01T00:00:00+00:00 wrong login from 192.0.2.1", "logged-out"]
    at_once(len(names), lambda at: timed(front, names[at]))
    for user in None, "u01":
        front.once(user, "GET", "/whoami")
    line = Line(front.port, "127.0.0.3")
    line.send(message(None, "GET", "/whoami", fields=front.fields(None, [login("u01", "not waited for")])))
    front.settle()
    line.close()
    until(lambda: len(text_of(log_of(front, "fileroom-logins.log")).splitlines()) >= 3, SOON)
    front.settle()
    return front


def test_lines_of_wrong_logins(guessed):
    """A line each; none of a caller who gives no login, or the right one, or a name that nobody can have: such a name
    could write lines."""
    told = text_of(log_of(guessed, "fileroom-logins.log")).splitlines()
    assert (len(told), [it for it in told if not re.fullmatch(LINE, it)]) == (3, [])


@pytest.mark.skipif(not shutil.which("fail2ban-regex"), reason="this machine lacks fail2ban")
def test_fail2ban_finds_each_line(guessed):
    words = ["fail2ban-regex", "--out", "ip", log_of(guessed, "fileroom-logins.log"), f"{FAIL2BAN}/filter.conf"]
    assert subprocess.run(words, capture_output=True, text=True, timeout=HANGS).stdout.split() == ["127.0.0.3"] * 3


@pytest.mark.skipif(not shutil.which("fail2ban-client"), reason="this machine lacks fail2ban")
def test_the_jail_is_one(tmp_path):
    etc = tmp_path / "etc"
    shutil.copytree("/etc/fail2ban", etc)
    shutil.rmtree(etc / "jail.d")
    (etc / "jail.d").mkdir()
    (tmp_path / "log").touch()
    for kind in "filter", "jail":
        text = text_of(f"{FAIL2BAN}/{kind}.conf").replace("/var/log/nginx/fileroom-logins.log", str(tmp_path / "log"))
        (etc / f"{kind}.d" / "fileroom.conf").write_text(text)
    done = subprocess.run(["fail2ban-client", "-c", etc, "-t"], capture_output=True, text=True, timeout=HANGS)
    assert (done.returncode, "successful" in done.stdout) == (0, True), done.stderr


# What a stranger is told

PATHS = ROOM, f"{ROOM}/", "/rooms/none", "/rooms/none/", "/none"


@each("more", [("none", []), ("wrong", [wrong("u01")])])
def test_a_stranger_is_told_of_no_room(front, more):
    """With a slash or without, there or not."""
    got = at_once(len(PATHS), lambda at: front.once(None, "GET", PATHS[at], more=more))
    asked = {"www-authenticate": ['Basic realm="rooms"']}
    assert [(it.status, values(it, asked)) for it in got] == [(401, asked)] * len(PATHS)


ASKED = ['Basic realm="rooms"']


@each("user, kind, target, is_asked", [
    ("a script, wrong", "u01", "empty", "/whoami", False), ("a script, none", None, "empty", "/whoami", False),
    ("a script at a room", None, "empty", f"{ROOM}/x", False), ("a page, wrong", "u01", "document", "/whoami", True),
    ("a page of WebDAV", None, "document", "/dav/plans/", True), ("a file, none", None, "script", "/main.js", False),
    ("a picture, wrong", "u01", "image", "/x.png", False),
    ("a script logged out", "logged-out", "empty", "/whoami", False),
    ("a script logs in", None, "empty", "/log-in", True), ("as another", "logged-out", "empty", "/log-in", True),
    ("with a wrong one", "u01", "empty", "/log-in", False), ("a script logs out", None, "empty", "/log-out", True),
    ("below that", None, "empty", "/log-in/x", False), ("a browser's own box", None, "document", "/log-in", True),
    ("the box, wrong", "u01", "document", "/log-in", True), ("a program at the page", None, None, "/", True),
    ("a program, wrong", "u01", None, "/", True), ("a program logs in", None, None, "/log-in", True)])
def test_who_is_asked_for_another_login(front, user, kind, target, is_asked):
    """Everybody but the page's script, which is asked where a browser takes a login up and forgets it."""
    fields = [f"sec-fetch-dest: {kind}"] * bool(kind)
    got = front.once(None, "GET", target, more=[*fields, *([wrong(user)] if user else [])])
    assert (got.status, values(got, ["www-authenticate"])["www-authenticate"]) == (401, ASKED if is_asked else [])


# The time that guesses take others

def beside_guesses(front, user, password, source):
    """Seconds that a request takes beside so many guesses of a name."""
    guess = message(None, "GET", "/whoami", fields=front.fields(None, [login(user, password)]))
    other = message(None, "GET", "/whoami", fields=front.fields(None))
    *lines, beside = [Line(front.port, source) for _ in range(GUESSES + 1)]
    for it in (*lines, beside):
        it.ask(other)  # (so that nginx has the connection)
    for it in lines:
        it.send(guess)
    begin = time.monotonic()
    beside.ask(other)
    took = time.monotonic() - begin
    for it in (*lines, beside):
        it.close()
    return took


def seconds_of_hashes(line):
    """What so many guesses of a password take to be hashed here, at this moment, by the C library's hashes."""
    crypt, took = ctypes.CDLL("libcrypt.so.1").crypt, []
    for _ in range(ROUNDS):
        begin = time.monotonic()
        for _ in range(GUESSES):
            crypt(b"x" * 256, line.encode())
        took.append(time.monotonic() - begin)
    return min(took)


@each("hashed, length", [("drawn, long", rosters.hashed_drawn, LONG), ("drawn", rosters.hashed_drawn, 256),
                         ("chosen", rosters.hashed_chosen, 256)])
def test_guesses_tell_no_name(front, hashed, length):
    """Guesses of a name whose password was drawn hold others no longer than those of one that is not there; of one that
    was chosen, as long as its hash takes, however long they are."""
    line = hashed("a word")
    add(front, "ann", line)
    most = 0.003 + 4 * seconds_of_hashes(line)
    there, none = [], []
    while len(none) < ROUNDS or min(there) - min(none) >= most and len(none) < MOST_ROUNDS:
        for net, (took, user) in enumerate([(there, "ann"), (none, "zed")]):
            took.append(beside_guesses(front, user, "x" * length, f"127.{net + 3}.0.{len(took) + 1}"))
    assert min(there) - min(none) < most
