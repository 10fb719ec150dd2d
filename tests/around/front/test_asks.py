"""The sign-in service by itself: when it asks the directory, when it does not, and what it keeps."""
import base64
import contextlib
import itertools
import json
import os
import socket
import ssl
import sys
import threading

import pytest
from given import each
from idle import need_places
from nginx import FOLDER, certified
from served import WAIT, text_of, until
from slapd import SignIn

from .conftest import LONGEST_LOGIN

sys.path.append(os.path.join(FOLDER, "..", "signin"))
from fileroom_signin import app, directory as ldap, known
from fileroom_signin.directory import Directory as Asked
from fileroom_signin.directory import Down

pytestmark = pytest.mark.without_program


class Clock:
    """Stands in for the time that goes by."""
    now = 1000.0

    def monotonic(self):
        return self.now


class Directory:
    """One that knows ann, and tells what it was asked. `may` lets it answer, all but what is `quick`."""

    def __init__(self):
        self.asked, self.down, self.may, self.noted, self.quick = [], None, threading.Event(), [], None
        self.may.set()

    def is_right(self, user, word):
        self.asked.append((user, word))
        if word != self.quick:
            self.may.wait(WAIT)
        if self.down:
            raise self.down
        return (user, word) == ("ann", "ann-word")

    def note(self, words):
        self.noted.append(words)


def field(user, word):
    return "Basic " + base64.b64encode(f"{user}:{word}".encode()).decode()


@pytest.fixture
def clock(monkeypatch):
    it = Clock()
    for module in app, known:
        monkeypatch.setattr(module, "time", it)
    return it


@pytest.fixture
def service(tmp_path, clock):
    users = dict.fromkeys(["ann", "bob", *(f"u{at}" for at in range(99))], [])
    (tmp_path / "plans.users.json").write_text(json.dumps(users))
    it = app.SignIn({"servers": [], "binds": []}, str(tmp_path))
    it.directory = Directory()
    it.ask = lambda user, word: it.asks(field(user, word), user)

    def asks(its, name):
        told = []
        it({"HTTP_AUTHORIZATION": its, "HTTP_FILEROOM_NAME": name}, lambda status, fields: told.append(int(status[:3])))
        return told[0]
    it.asks = asks
    return it


def test_a_right_login_is_known_for_a_minute(service, clock):
    for at, asked in (0, 1), (59.9, 1), (0.2, 2), (59, 2):
        clock.now += at
        assert (service.ask("ann", "ann-word"), len(service.directory.asked)) == (204, asked)


def test_a_wrong_one_is_known_for_no_right_one(service):
    assert [service.ask(*it) for it in (("ann", "ann-word"), ("ann", "no"), ("bob", "ann-word"))] == [204, 401, 401]
    assert len(service.directory.asked) == 3


def test_three_wrong_ones(service, clock):
    """Then the directory is asked about the last right one alone, for half an hour from the last."""
    service.ask("ann", "ann-word")
    assert [service.ask("ann", f"no{at}") for at in range(9)] == [401] * 9
    assert len(service.directory.asked) == 4
    clock.now += 61
    assert [service.ask("ann", "ann-word"), service.ask("ann", "no")] == [204, 401]
    assert service.directory.asked[4:] == [("ann", "ann-word")]
    clock.now += 1740
    service.ask("ann", "no")
    assert len(service.directory.asked) == 6


@each("apart", [("one after another", 1), ("three in half an hour", 601), ("one in half an hour", 1799)])
def test_slow_guesses(service, clock, apart):
    """A directory that forgets wrong ones once none came for half an hour, as Active Directory does, never has five of
    them: not by guesses, nor by these beside who is right, and then has another password."""
    service.ask("ann", "ann-word")
    counted = [clock.now]  # when each came
    most = 0

    def is_right(user, word):
        nonlocal most
        if word == right:
            counted.clear()
            return True
        if counted and counted[-1] <= clock.now - 1800:
            counted.clear()
        counted.append(clock.now)
        most = max(most, len(counted))
        return False
    service.directory.is_right, right = is_right, "ann-word"
    for at in range(40):
        clock.now += apart
        service.ask("ann", f"no{at}")
        if at > 20:
            right = "another"
            service.ask("ann", "ann-word")
    assert most in (3, 4)


def test_who_is_right_meanwhile_frees_no_guess(service, clock):
    """While the directory is asked about the last right one."""
    service.ask("ann", "ann-word")
    assert [service.ask("ann", f"no{at}") for at in range(3)] == [401] * 3
    for _ in range(3):
        clock.now += 61
        with waiting(service, ("ann", "ann-word")):
            assert service.ask("ann", "no") == 401
    assert service.ask("ann", "no") == 401
    assert {word for _, word in service.directory.asked[4:]} == {"ann-word"}


def test_the_last_right_one_is_right_no_more(service, clock):
    """It counts as any wrong one then: a program that has it still does not lock the account."""
    service.ask("ann", "ann-word")
    assert [service.ask("ann", f"no{at}") for at in range(3)] == [401] * 3
    clock.now += 61
    service.directory.is_right = lambda *its: service.directory.asked.append(its)
    assert {service.ask("ann", "ann-word") for _ in range(9)} == {401}
    assert service.directory.asked[4:] == [("ann", "ann-word")]


def test_right_ones_are_not_counted(service, clock):
    for _ in range(9):
        clock.now += 61
        assert service.ask("ann", "ann-word") == 204
    service.ask("ann", "no")
    assert len(service.directory.asked) == 10


def test_a_name_that_was_never_right_is_shut_out(service, clock):
    """And another name is not."""
    assert [service.ask("bob", f"no{at}") for at in range(3)] == [401] * 3
    service.directory.is_right = lambda *_: True
    assert [service.ask("bob", "bob-word"), service.ask("ann", "ann-word")] == [401, 204]
    clock.now += 1801
    assert service.ask("bob", "bob-word") == 204


def waits_or_ended(thread):
    frame = sys._current_frames().get(thread.ident)
    return not thread.is_alive() or frame is not None and frame.f_code.co_name == "wait"


@contextlib.contextmanager
def waiting(service, *logins):
    """While these wait for a directory that is slow, or were told that they may not. What all are told is there behind
    it."""
    got = []
    service.directory.may.clear()
    threads = [threading.Thread(target=lambda its=its: got.append(service.ask(*its))) for its in logins]
    for it in threads:
        it.start()
    try:
        assert until(lambda: all(map(waits_or_ended, threads)))
        yield got
    finally:
        service.directory.may.set()
        for it in threads:
            it.join(WAIT)


def test_many_at_once(service):
    """Who asks counts until it was right, so no more than three are under way."""
    with waiting(service, *(("bob", f"no{at}") for at in range(12))):
        assert len(service.directory.asked) == 3
    assert len(service.directory.asked) == 3


def test_the_same_at_once(service):
    """One question, whose answer all have: a program begins with several requests."""
    for word, status in ("ann-word", 204), ("no", 401):
        service.directory.asked.clear()
        with waiting(service, *[("ann", word)] * 9) as got:
            assert got == []
        assert (got, service.directory.asked) == ([status] * 9, [("ann", word)])


def test_who_was_right_waits_for_nobody(service):
    """While as many wait as may, the next one is told to come again."""
    service.ask("ann", "ann-word")
    with waiting(service, *((f"u{at}", "no") for at in range(app.THREADS))):
        assert len(service.directory.asked) == 1 + app.AT_ONCE
        assert [service.ask("ann", "ann-word"), service.ask("bob", "no")] == [204, 503]
    assert service.ask("bob", "no") == 401


def test_guesses_hold_up_nobody_who_was_right_before(service, clock):
    """While a directory is slow to say no, it is asked about the last right password of a name."""
    service.ask("ann", "ann-word")
    clock.now += 61
    service.directory.quick = "ann-word"
    with waiting(service, *((f"u{at % 40}", f"no{at}") for at in range(app.THREADS))):
        assert [service.ask("ann", "ann-word"), service.ask("bob", "no")] == [204, 503]


def test_threads_are_left_for_who_was_right(service):
    """However many wait, whatever they wait for."""
    left = app.THREADS
    for places in service.places, service.places_of_last:
        while places.all.acquire(blocking=False):
            left -= 1
    assert left >= 8


def test_who_came_past_the_look_counts_still(service, monkeypatch):
    """Others may have been wrong since."""
    monkeypatch.setattr(service.known, "is_shut", lambda *_: False)
    assert {service.ask("bob", f"no{at}") for at in range(9)} == {401}
    assert len(service.directory.asked) == 3


def test_who_is_shut_out_waits_for_no_place(service):
    """That it is wrong is told at once, and counted by the front."""
    assert [service.ask("bob", f"no{at}") for at in range(3)] == [401] * 3
    with waiting(service, *((f"u{at % app.AT_ONCE}", "no") for at in range(app.AT_ONCE + app.BEHIND))):
        assert [service.ask("bob", "no"), service.ask("ann", "no")] == [401, 503]


def test_the_same_is_no_wrong_one_meanwhile(service):
    """Two wrong ones are there, and who asks is the third."""
    assert [service.ask("ann", f"no{at}") for at in range(2)] == [401] * 2
    with waiting(service, *[("ann", "ann-word")] * 4) as got:
        assert got == []
    assert got == [204] * 4


@each("may_count, asked", [("it has none of it", False, 9), ("it may have it", True, 3)])
def test_no_answer(service, may_count, asked):
    """What the directory may have counted counts here too."""
    service.directory.down = Down("away", may_count)
    assert {service.ask("bob", f"no{at}") for at in range(9)} == ({503} if asked == 9 else {503, 401})
    assert (len(service.directory.asked), service.directory.noted[0]) == (asked, "away")


@each("may_count", [("it has none of it", False), ("it may have it", True)])
def test_who_got_no_answer_is_asked_about_again(service, may_count):
    service.directory.down = Down("away", may_count)
    assert [service.ask("ann", "ann-word") for _ in range(2)] == [503] * 2
    service.directory.down = None
    assert [service.ask("ann", "ann-word") for _ in range(2)] == [204] * 2
    assert len(service.directory.asked) == 3


def test_whose_question_fails_leaves_the_place(service):
    service.directory.down = Down("away")
    assert {service.ask(f"u{at}", "x") for at in range(app.THREADS)} == {503}
    service.directory.down = None
    assert service.ask("ann", "ann-word") == 204


ANN = base64.b64encode(b"ann:ann-word").decode()


@each("its", [("in capitals", f"BASIC {ANN}"), ("small", f"basic {ANN}"), ("blanks around it", f"Basic  {ANN} ")])
def test_other_forms_of_a_field(service, its):
    assert service.asks(its, "ann") == 204


@each("its, name", [
    ("none", "", ""), ("another kind", "Bearer ann", "ann"), ("no name", field("", "x"), ""),
    ("no base64", "Basic !", "ann"), ("another letter behind it", field("ann", "ann-word") + "\u00ff", "ann"),
    ("another name", field("ann", "ann-word"), "bob"), ("in capitals", field("ANN", "ann-word"), "ANN"),
    ("no password", field("ann", ""), "ann"), ("no colon", "Basic " + base64.b64encode(b"ann").decode(), "ann"),
    ("an end in it", field("ann", "a\0b"), "ann"), ("too long", field("ann", "x" * 257), "ann"),
    ("no letters", "Basic " + base64.b64encode(b"ann:\xff").decode(), "ann"), ("of no room", field("eve", "x"), "eve")])
def test_what_asks_nobody(service, its, name):
    assert (service.asks(its, name), service.directory.asked) == (401, [])


def test_a_name_of_any_letters(service, tmp_path):
    """That a roster may have is asked about, and none that is longer."""
    names = LONGEST_LOGIN, f"{LONGEST_LOGIN}6"
    (tmp_path / "club.users.json").write_text(json.dumps(dict.fromkeys(names, [])))
    assert [service.ask(it, "no") for it in names] == [401] * 2
    assert service.directory.asked == [(LONGEST_LOGIN, "no")]


def test_names_that_a_directory_takes_for_one(service, clock, tmp_path):
    """It is asked about neither, in whatever rooms they are; and that is told once."""
    told = []
    service.users.tell = told.append
    assert service.ask("ann", "ann-word") == 204
    (tmp_path / "club.users.json").write_text('{"ANN": []}')
    for _ in range(2):
        clock.now += 5.1
        assert [service.ask(it, "ann-word") for it in ("ann", "ANN", "bob")] == [401] * 3
    assert told == ["nobody is asked about names that differ by capitals alone: ANN, ann"]
    assert {user for user, _ in service.directory.asked[1:]} == {"bob"}
    (tmp_path / "club.users.json").unlink()
    clock.now += 5.1
    assert service.ask("ann", "ann-word") == 204


def test_who_came_to_a_room_since(service, clock, tmp_path):
    service.directory.is_right = lambda *_: True
    (tmp_path / "club.users.json").write_text('{"eve": []}')
    assert service.ask("eve", "x") == 204
    (tmp_path / "club.users.json").write_text("{}")
    assert service.ask("eve", "x") == 204
    clock.now += 5.1
    assert service.ask("eve", "x") == 401


@each("text", [("no JSON", "{"), ("no object", "[1]"), ("none", None)])
def test_rosters_that_cannot_be_read(service, tmp_path, text):
    """Then nobody is told that a password is wrong."""
    (tmp_path / "plans.users.json").unlink()
    if text is None:
        tmp_path.rmdir()
    else:
        (tmp_path / "plans.users.json").write_text(text)
    assert (service.ask("ann", "ann-word"), service.directory.asked) == (401 if text == "[1]" else 503, [])


def test_memory_has_a_bound(service, clock):
    its = service.known
    for at in range(known.MOST + 100):
        its.take("ann", its.mark("ann", f"{at}"))
    assert len(its.right) == known.MOST
    clock.now += 61
    its.take("ann", its.mark("ann", "x"))
    assert len(its.right) == 1


def test_a_mark_is_this_processs_own():
    its = [known.Known({}) for _ in range(2)]
    assert its[0].mark("ann", "x") != its[1].mark("ann", "x")


def test_a_mark_is_of_one_login():
    """Whichever letters are the name's, and which the password's."""
    its, both = known.Known({}), "ann-b.c:d e"
    assert len({its.mark(both[:at], both[at:]) for at in range(1, len(both))}) == len(both) - 1


# What a directory says (RFC 4511)

BIND, EXTENDED = 0x61, 0x78  # the answers to a bind, and to STARTTLS


@pytest.fixture(scope="module")
def pair(tmp_path_factory):
    return certified(str(tmp_path_factory.mktemp("cert")), "IP:127.0.0.1")


def part(kind, its, is_long=False):
    """(Active Directory writes each length in four bytes.)"""
    return bytes([kind]) + (b"\x84" + len(its).to_bytes(4, "big") if is_long else bytes([len(its)])) + its


def answer_to(asked, kind, code, is_long=False):
    """The answer to a message that has a short number."""
    its = part(0x0A, bytes([code]), is_long) + part(0x04, b"", is_long) * 2
    return part(0x30, asked[2:5] + part(kind, its, is_long), is_long)


@pytest.fixture
def speaks(pair):
    """Serves one that answers each request as this says, by TLS or not; and what it got."""
    cert, key = pair
    listeners = []

    def serve(says, is_tls=True, binds=("uid={},ou=people",)):
        listener, got = socket.create_server(("127.0.0.1", 0)), []
        listeners.append(listener)

        def answer():
            with contextlib.suppress(OSError):
                while True:
                    one(listener.accept()[0])

        def one(line):
            if is_tls:
                context = ssl.SSLContext(ssl.PROTOCOL_TLS_SERVER)
                context.load_cert_chain(cert, key)
                line = context.wrap_socket(line, server_side=True)
            with line, contextlib.suppress(OSError):
                while (data := line.recv(4096)) and (told := says(data)):
                    got.append(data)
                    line.sendall(told)
        threading.Thread(target=answer, daemon=True).start()
        scheme = "ldaps" if is_tls else "ldap"
        conf = {"servers": [f"{scheme}://127.0.0.1:{listener.getsockname()[1]}"], "binds": binds,
                "ca": open(cert, encoding="utf-8").read()}
        return Asked(conf, lambda words: None), got
    yield serve
    for it in listeners:
        it.close()


def codes(kind, *its, is_long=False):
    """What answers with one of these codes after another."""
    left = itertools.cycle(its)
    return lambda asked: answer_to(asked, kind, next(left), is_long)


@each("code, answer", [("right", 0, True), ("wrong", 49, False)])
def test_yes_or_no(speaks, code, answer):
    for is_long in False, True:
        directory, got = speaks(codes(BIND, code, is_long=is_long))
        assert directory.is_right("ann", "ann-word") is answer
        assert b"uid=ann,ou=people" in got[0] and b"ann-word" in got[0]


@each("its, answer", [("the first one", (0, 49), True), ("the second one", (49, 0), True), ("none", (49, 49), False)])
def test_any_place_of_a_name_is_enough(speaks, its, answer):
    """People of several parts of a directory. Where one lets them in, no other is asked."""
    directory, got = speaks(codes(BIND, *its), binds=("uid={},ou=a", "uid={},ou=b"))
    assert directory.is_right("ann", "ann-word") is answer
    assert [b"ou=b" in it for it in got if b"ann-word" in it] == [False, True][:(*its, 0).index(0) + 1]


@each("code", [("an error of its own", 1), ("of the protocol", 2), ("stronger authentication", 8), ("a referral", 10),
               ("busy", 51), ("unwilling", 53), ("no such object", 32)])
def test_neither_yes_nor_no(speaks, code):
    """It goes to no other server, and is no wrong password."""
    directory, got = speaks(codes(BIND, code))
    with pytest.raises(Down) as told:
        directory.is_right("ann", "ann-word")
    assert f"code {code}" in str(told.value) and not told.value.may_count
    assert len([it for it in got if b"ann-word" in it]) == 1


@each("says, why", [
    ("another number", lambda asked: answer_to(b"\x30\0\x02\x01\x7f", BIND, 0), "something else"),
    ("another kind", lambda asked: answer_to(asked, EXTENDED, 0), "something else"),
    ("no code", lambda asked: part(0x30, asked[2:5] + part(BIND, part(0x04, b"\0"))), "something else"),
    ("a code of no byte", lambda asked: part(0x30, asked[2:5] + part(BIND, part(0x0A, b""))), "something else"),
    ("a code of two", lambda asked: part(0x30, asked[2:5] + part(BIND, part(0x0A, b"\0\0"))), "something else"),
    ("a cut one", lambda asked: part(0x30, asked[2:5] + bytes([BIND, 9]) + part(0x0A, b"\0")), "cut"),
    ("nothing in it", lambda asked: part(0x30, asked[2:5]), "cut"),
    ("another protocol", lambda asked: b"\x31" + answer_to(asked, BIND, 0)[1:], "no LDAP"),
    ("too much", lambda asked: b"\x30\x83\x01\x00\x01" + answer_to(asked, BIND, 0)[2:] + bytes(1 << 16), "no LDAP"),
    ("the end", lambda asked: b"", "ended")])
def test_no_answer_to_what_was_asked(speaks, says, why):
    """Lets nobody in, is no wrong password, and may have counted as one there."""
    directory, _ = speaks(says)
    with pytest.raises(Down, match=why) as told:
        directory.is_right("ann", "ann-word")
    assert told.value.may_count


def test_no_password_goes_in_the_clear(speaks):
    directory, got = speaks(codes(EXTENDED, 2), is_tls=False)
    with pytest.raises(Down):
        directory.is_right("ann", "ann-word")
    assert got and b"ann-word" not in b"".join(got)


def test_where_an_authority_is_named_no_other_counts(speaks, pair, tmp_path, monkeypatch):
    other, _ = certified(str(tmp_path / "other"), "IP:127.0.0.1")
    directory, got = speaks(codes(BIND, 0))
    monkeypatch.setenv("SSL_CERT_FILE", pair[0])  # (of this machine)
    conf = {"servers": directory.servers, "binds": ["{}"]}
    assert Asked(conf, lambda words: None).is_right("ann", "ann-word")
    got.clear()
    with pytest.raises(Down):
        Asked({**conf, "ca": text_of(other)}, lambda words: None).is_right("ann", "ann-word")
    assert b"ann-word" not in b"".join(got)


def test_a_fault_is_told_once_in_a_while(clock, monkeypatch):
    monkeypatch.setattr(ldap, "time", clock)
    told = []
    its = Asked({"servers": [], "binds": []}, told.append)
    for later, words in (0, "away"), (9, "away"), (0, "other"), (2, "away"), (1, "away"), (0, "other"):
        clock.now += later
        its.note(words)
    assert told == ["away", "other", "away"]


def test_a_server_has_the_port_of_its_scheme():
    its = Asked({"servers": ["ldaps://dc", "ldap://dc", "ldaps://dc:1"], "binds": []})
    assert its.servers == ["ldaps://dc:636", "ldap://dc:389", "ldaps://dc:1"]


def test_addresses_of_a_name_share_the_time(monkeypatch, clock):
    """So that the next server is asked in time. What the last one says is told."""
    monkeypatch.setattr(ldap, "time", clock)
    asked = []

    def connect(address, seconds):
        asked.append((address, seconds))
        raise OSError(f"no {address[0]}")
    names = [(0, 0, 0, "", (it, 636, 0)) for it in "abbc"]
    monkeypatch.setattr(ldap.socket, "getaddrinfo", lambda *_, **__: names)
    monkeypatch.setattr(ldap.socket, "create_connection", connect)
    with pytest.raises(OSError, match="no c"):
        ldap.Line("ldaps://dc:636", None, clock.now + 3)
    assert asked == [((it, 636), seconds) for it, seconds in (("a", 1), ("b", 1.5), ("c", 3))]


def test_idle_connections(tmp_path):
    """Who comes beyond waits. (Two of the 1,000 are the service's own: where it listens, and what wakes it.)"""
    it = SignIn(str(tmp_path / "signin"), "servers = []\nbinds = []\n", str(tmp_path))
    try:
        need_places(it.server.pid, it.at, 998, b"GET / HTTP/1.1\r\nHost: x\r\n\r\n")
    finally:
        it.stop()
