"""Passwords of a directory behind the front: nginx, the sign-in service, and Debian's slapd. What the service itself
keeps and asks: test_asks.py."""
import itertools
import json
import os
import time

import pytest
from given import each
from nginx import certified, login
from served import Line, free_port, least, message, put_file, text_of, until
from slapd import People, SignIn, conf_of

from .conftest import started
from .sides import CHECK, LEAST, ROOM, SLOT, at_once, log_of, said_long, standing, values

ODD = 'p\u00e4ss%41:w@rd/"# \u20ac'
LONG, LONGEST = "w" * 130, "w" * 256  # (in a message both are written by two bytes of length)
WORDS = {"ann": "ann-word", "bob": ODD, "dora": "dora-word", "Eva": "eva-word", "zed": "zed-word", "kim": "kim-word",
         "lou": LONG, "max": LONGEST}
ROSTER = json.dumps(dict.fromkeys(["ann", "bob", "dora", "Eva", "kim", "u01", "lou", "max"], []))  # (not zed)
SECOND = '{"ann": [], "kim": [], "Eva": []}'
LOCAL = "u01", "dora"
KEEP = 2  # seconds
LIMIT_OF_A_FILE = 1 << 24  # bytes
SLOW = 12  # seconds until a directory is given up: as many as may be, since this machine may be slow
PUBLIC = {"/health", "/sign-in", "/organisation"}
PATHS = ["/", "/index.html", "/whoami", "/log-in", "/rooms.json", "/names.json", "/dav.json", "/warnings.json", "/none",
         "/rooms/plans.users.json", ROOM, f"{ROOM}/", f"{ROOM}/x", "/rooms/none", "/rooms/none/x", "/rooms/", "/check",
         "/opens", "/no-file", "/dav/", "/dav/plans/", "/dav/plans/x", "/dav/none/x", "/main.js", *sorted(PUBLIC)]


def written(folder, name, text):
    os.makedirs(folder, exist_ok=True)
    put_file(os.path.join(folder, name), text)


def slow_conf(*servers, ca, **more):
    """That of a service which waits for its directory as long as it may."""
    return conf_of(servers, ca, **{"timeout": SLOW} | more)


class Behind:
    """A front, a directory behind it, and a peer in the place of the room and of the gateway."""

    def __init__(self, folder, people, conf=None, **more):
        self.folder, self.people = folder, people
        page, front = os.path.join(folder, "page"), os.path.join(folder, "front")
        for name in "index.html", "sign-in.html":
            written(page, name, "a page")
        written(os.path.join(front, "rooms"), "plans.users.json", ROSTER)
        conf = conf or slow_conf(f"ldaps://127.0.0.1:{people.port}", ca=people.ca, **{"keep": KEEP} | more)
        self.signin = SignIn(os.path.join(folder, "signin"), conf, os.path.join(front, "rooms"))
        self.peering = standing(os.path.join(folder, "peer.sock"))
        self.room = self.peering.__enter__()
        self.front = started(front, page, self.room.at, LOCAL, signin=self.signin.at, dav=self.room.at)

    def status(self, user, word, target="/whoami", more=(), source="127.0.0.1"):
        its = [] if user is None else [login(user, word)]
        return self.front.status(None, "GET", target, more=[*its, *more], source=source)

    def timed(self, *words, **how):
        begin = time.monotonic()
        return self.status(*words, **how), time.monotonic() - begin

    def stop(self):
        self.signin.stop()
        self.front.server.kill()
        self.front.server.wait()
        self.peering.__exit__(None, None, None)


@pytest.fixture(scope="module")
def people(tmp_path_factory):
    it = People(str(tmp_path_factory.mktemp("people")), WORDS)
    yield it
    it.stop()


@pytest.fixture
def behind(people, memory):
    """Makes one."""
    made = []

    def make(*words, **more):
        made.append(Behind(os.path.join(memory, f"b{len(made)}"), people, *words, **more))
        return made[-1]
    yield make
    people.hold(False)
    for it in made:
        it.stop()


LOGINS = [("the directory's", "ann", "ann-word", 200), ("an odd one", "bob", ODD, 200), ("wrong", "ann", "no", 401),
          ("long", "lou", LONG, 200), ("longest", "max", LONGEST, 200), ("a letter too few", "max", LONGEST[:-1], 401),
          ("of this machine", "u01", "word of u01", 200), ("of both, here", "dora", "word of dora", 200),
          ("of both, there", "dora", "dora-word", 200), ("of neither", "dora", "no", 401),
          ("in capitals", "ANN", "ann-word", 401), ("in small letters", "eva", "eva-word", 401),
          ("as the roster has it", "Eva", "eva-word", 200), ("in no room", "zed", "zed-word", 401),
          ("empty", "ann", "", 401), ("all names", "*", "ann-word", 401), ("a filter", "*)(uid=*", "ann-word", 401),
          ("brackets", "ann(x)", "ann-word", 401), ("a place", "ann,ou=people", "ann-word", 401),
          ("an end", "ann", "ann-word\0", 401), ("a blank", "ann ", "ann-word", 401), ("nobody", "nobody", "x", 401),
          ("logged out", "logged-out", "x", 401), ("too long", "ann", "x" * 300, 401)]


def test_logins(behind):
    """The name is that of a roster, letter by letter; an empty password asks nobody."""
    it = behind()
    got = at_once(len(LOGINS), lambda at: it.status(*LOGINS[at][1:3], source=f"127.0.1.{at + 1}"))
    assert [(row[0], status) for row, status in zip(LOGINS, got)] == [(row[0], row[3]) for row in LOGINS]


@each("word", [("a small two", "word\u00b2"), ("mu", "\u00b5-word"), ("an accent", "\u00b4word"), ("a bell", "word\a"),
               ("another blank", "a\u00a0word"), ("what is not seen", "\u00ad"), ("a picture", "\U0001f600")])
def test_passwords_that_are_written_otherwise(behind, people, word):
    """A directory gets the letters that were sent: it compares bytes."""
    people.changes("kim", word)
    it = behind()
    got = [it.status("kim", one) for one in (word, "word2", "\u00ad\u00ad")]
    people.changes("kim", WORDS["kim"])
    assert got == [200, 401, 401]


def test_each_place_asks_for_it(behind):
    """As for a password of this machine. (On a busy machine not all wait for the directory at once: ann was let in.)"""
    it = behind(keep=600)
    assert it.status("ann", "ann-word") == 200
    kinds = [("ann", "ann-word"), ("u01", "word of u01"), (None, ""), ("kim", "no")]
    got = at_once(len(PATHS) * 4, lambda at: it.status(*kinds[at % 4], PATHS[at // 4], source=f"127.1.0.{at + 1}"))
    found = {path: got[4 * at : 4 * at + 4] for at, path in enumerate(PATHS)}
    assert {path: its[0] for path, its in found.items()} == {path: its[1] for path, its in found.items()}
    assert {path for path, its in found.items() if set(its[2:]) != {401}} == PUBLIC
    assert found["/whoami"][0] == 200 and found["/check"][0] == 404


def test_what_webdav_it_speaks(behind):
    """Is told to everybody, at once: office programs ask that before they ask for a password."""
    it = behind()

    def seconds(path, *more):
        begin = time.monotonic()
        assert it.front.status(None, "OPTIONS", path, more=more) == 200
        return time.monotonic() - begin
    logins = [], [login("kim", "no")], [login("u01", "word of u01")], [login("ann", "ann-word")]
    for path, more in itertools.product(("/dav/", "/dav/plans/x"), logins):
        assert least(lambda its=(path, *more): seconds(*its), LEAST) < LEAST


def test_large_files_by_webdav(behind):
    """Pass for whoever the directory lets in as for whoever this machine does; what is too large is refused."""
    it, at = behind(), "/dav/plans/x"
    for user, word in ("ann", "ann-word"), ("u01", "word of u01"):
        its = [login(user, word)]
        assert it.front.status(None, "PUT", at, bytes(LIMIT_OF_A_FILE), its) == 200
        assert said_long(it.front, at, LIMIT_OF_A_FILE + 1, its) == 413
    assert said_long(it.front, at, LIMIT_OF_A_FILE + 1, [login("ann", "no")]) == 401


@each("target, length, status", [
    ("too long", CHECK, 131073, 413), ("of no length", CHECK, None, 411), ("in another place", "/whoami", 131073, 413),
    ("by a path like that of the question", f"{CHECK}%20/check", None, 411),
    ("a file that is far too long", "/dav/plans/x", 10 * LIMIT_OF_A_FILE, 413)])
def test_a_body_that_is_not_passed_on(behind, target, length, status):
    """It is refused as without a directory: by no other answer, nor sooner, a wrong login is told from a right one."""
    it = behind()
    logins = ("ann", "ann-word"), ("u01", "word of u01"), ("kim", "no"), ("u01", "no"), ("nobody", "no")
    begin = time.monotonic()
    got = at_once(len(logins), lambda at: (
        said_long(it.front, target, length, [login(*logins[at])], f"127.0.4.{at + 1}"), time.monotonic() - begin))
    assert [its for its, _ in got] == [status, status, 401, 401, 401]
    assert min(took for _, took in got[2:]) >= LEAST
    it.front.settle()
    assert text_of(log_of(it.front, "fileroom-logins.log")).count("\n") == 3


def test_whom_a_room_is_told(behind):
    """The login, and nothing that a caller says of it; and so is the gateway."""
    it, forged = behind(), ["room-user: u01", "fileroom-name: u01", "fileroom-user: u01"]
    assert it.front.once(None, "POST", f"{SLOT}1", b"{}", [login("ann", "ann-word"), *forged]).status == 200
    assert it.status("ann", "ann-word", "/dav/plans/x", forged) == 200
    (_, *head), (_, *dav) = (head for head, _ in it.room.got)
    assert [one for one in head if "user" in one.lower()] == ["room-user: ann"]
    assert login("ann", "ann-word") in dav
    assert it.status("kim", "no", more=["fileroom-name: ann"]) == 401
    line = Line(it.front.port)
    two = [login("ann", "ann-word"), login("u01", "no")]
    got = line.ask(message(None, "GET", "/whoami", fields=["host: 127.0.0.1", *two]))
    line.close()
    assert got.status == 400 or got.body == b'"ann"\n'


def test_a_wrong_login_waits_and_has_a_line(behind):
    it = behind()
    got, took = it.timed("ann", "no", source="127.0.0.9")
    assert (got, took >= LEAST) == (401, True)
    it.front.settle()
    assert 'wrong login from 127.0.0.9 as "ann"' in text_of(log_of(it.front, "fileroom-logins.log"))
    got = it.front.once(None, "GET", "/whoami", more=[login("ann", "no")])
    assert values(got, ["www-authenticate"]) == {"www-authenticate": ['Basic realm="rooms"']}


def goes_away(it, user, word):
    """Sends a login, and does not wait for the answer."""
    line = Line(it.front.port)
    line.send(message(None, "GET", "/whoami", fields=["host: 127.0.0.1", login(user, word)]))
    time.sleep(0.3)
    line.close()


def test_who_does_not_wait(behind, people):
    """Has a line where the directory says no, and none where it says yes, or nothing."""
    it = behind(timeout=1)
    goes_away(it, "ann", "ann-word")
    goes_away(it, "kim", "no")
    assert until(lambda: 'as "kim"' in text_of(log_of(it.front, "fileroom-logins.log")))
    people.hold()
    goes_away(it, "bob", ODD)
    goes_away(it, "Eva", "no")
    assert it.status("zed", "no") == 401  # (two seconds and the directory's one later)
    time.sleep(5)
    people.hold(False)
    it.front.settle()
    told = text_of(log_of(it.front, "fileroom-logins.log"))
    assert [user for user in WORDS if f'as "{user}"' in told] == ["zed", "kim"], told
    assert told.count("\n") == 2


def test_who_guesses_shuts_nobody_out(behind):
    """After three wrong ones the last right password is asked about, and no other, from wherever."""
    it = behind()
    assert it.status("ann", "ann-word") == 200
    at_once(8, lambda at: it.status(("ann", "kim")[at % 2], f"no{at}", source=f"127.0.2.{at + 1}"))
    time.sleep(KEEP)
    assert it.status("ann", "ann-word") == 200
    assert it.status("kim", "kim-word") == 401  # (who was not let in before)
    assert it.status("bob", ODD) == 200


def test_who_is_gone(behind, people):
    """From the directory, soon; from the rosters, sooner; and with another password the old one goes."""
    it = behind()
    assert it.status("kim", "kim-word") == it.status("dora", "dora-word") == it.status("Eva", "eva-word") == 200
    people.changes("kim")
    people.changes("Eva", "another word")
    written(os.path.join(it.front.folder, "rooms"), "plans.users.json", SECOND)
    assert until(lambda: it.status("dora", "dora-word") == 401)
    got = [it.status(*both) for both in (("kim", "kim-word"), ("Eva", "eva-word"), ("Eva", "another word"))]
    assert got == [401, 401, 200]


def goes_on(it):
    """Who was let in a moment ago, who has a password of this machine, and who needs none, wait for nobody."""
    asked = [("ann", "ann-word", "/whoami"), ("u01", "word of u01", "/whoami"), (None, "", "/health")]
    return [it.status(*words) for words in asked]


def test_a_slow_directory(behind, people):
    it = behind(keep=60)
    assert it.status("ann", "ann-word") == 200
    people.hold()
    begin = time.monotonic()
    got = at_once(31, lambda at: it.timed("bob", f"no{at}", source=f"127.0.3.{at + 1}") if at < 30 else (
        goes_on(it), time.monotonic() - begin))
    assert {status for status, _ in got[:30]} <= {401, 503}
    assert (got[30][0], got[30][1] < SLOW) == ([200] * 3, True)
    people.hold(False)
    assert until(lambda: it.status("Eva", "no") == 401)


def test_a_directory_that_is_away(behind, people, tmp_path):
    """By no server, by another's certificate, by one for another name, without TLS: 503, a line that says why, and
    passwords of this machine go on."""
    other, _ = certified(str(tmp_path / "other"), "IP:127.0.0.1")
    kinds = [("Connection refused", f"ldaps://127.0.0.1:{free_port()}", people.ca),
             ("certificate", f"ldaps://127.0.0.1:{people.port}", other),
             ("certificate", f"ldaps://localhost:{people.port}", people.ca)]
    for said, server, ca in kinds:
        it = behind(slow_conf(server, ca=ca))
        assert [it.status("ann", "ann-word"), it.status("u01", "word of u01")] == [503, 200]
        assert said.lower() in text_of(it.signin.log).lower()
        assert "ann" not in text_of(it.signin.log)


def test_the_next_server_answers(behind, people):
    it = behind(slow_conf(f"ldaps://127.0.0.1:{free_port()}", f"ldap://127.0.0.1:{people.clear}", ca=people.ca))
    assert [it.status("bob", ODD), it.status("bob", "no")] == [200, 401]


def test_the_service_is_away(behind):
    it = behind()
    it.signin.stop()
    assert [it.status("ann", "ann-word"), it.status("u01", "word of u01"), it.status(None, "")] == [503, 200, 401]
    assert it.status(None, "", "/sign-in") == 200


def test_who_is_not_answered_waits_as_long(behind):
    """A wrong password of this machine is told at once neither while the directory is away, nor by a field that nginx
    reads and the service does not."""
    it = behind()
    for count, odd in (1, "\x01"), (2, "\u00ff"):
        begin = time.monotonic()
        assert it.front.status(None, "GET", "/whoami", more=[login("u01", "no!!") + odd]) == 401
        assert time.monotonic() - begin >= LEAST
        it.front.settle()
        assert text_of(log_of(it.front, "fileroom-logins.log")).count('as "u01"') == count
    it.signin.stop()
    for user, word in ("u01", "no"), ("ann", "ann-word"):
        got, took = it.timed(user, word)
        assert (got, took >= LEAST) == (503, True)


def test_a_service_with_a_fault(behind):
    """Who is not let in waits, and is told that there was no answer."""
    it = behind()
    it.signin.stop()
    os.remove(it.signin.at)
    with standing(it.signin.at) as peer:
        for said, status in (b"HTTP/1.1 204 No Content\r\n\r\n", 200), (b"200 OK\r\n\r\n", 503), (b"", 503):
            peer.said = said
            assert it.status("ann", "ann-word") == status
        for code in 500, 502, 503, 504:
            peer.said = b"HTTP/1.1 %d no\r\ncontent-length: 0\r\n\r\n" % code
            got, took = it.timed("u01", "no")
            assert (got, took >= LEAST) == (503, True), code
