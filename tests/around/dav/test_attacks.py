"""What somebody tries who has a login, or none: others' listings and folders, names, bodies that are cut, what would
fill the gateway's memory, and what a refusal leaves behind."""
import contextlib
import io
import os
import socket
import types
from unittest import mock
from urllib.parse import quote

import pytest
from fileroom_dav import app, bodies, faults, memory, passing, props, tree
from nginx import hashed, login

from .desk import BOB_READS, BOB_WRITES, EXCLUSIVE, HERS, PASSWORDS, make_folders, stop

HOW = {"is_lossy": False}
BOB_ADDS = {"flag": 0, "mask": 0x1200A3, "type": 0, "who": "bob"}


@pytest.fixture(scope="module")
def started(started):
    with started.room() as room:
        make_folders(room, names=[HERS], read=[HERS, BOB_READS], both=[HERS, BOB_WRITES], drop=[HERS, BOB_ADDS])
        room.create("/names/secret", b"how long is it?")
    return started


def answer_of(at, message, ends=False):
    with socket.socket(socket.AF_UNIX if isinstance(at, str) else socket.AF_INET) as line:
        line.settimeout(120)
        line.connect(at)
        line.sendall(message)
        if ends:
            line.shutdown(socket.SHUT_WR)
        return line.recv(4096)


@pytest.fixture
def another_password(desk):
    """It was right a moment ago."""
    desk.told("ann", "/names")
    desk.ask("ann", "PUT", "/names/._x", b"x")
    users = os.path.join(desk.front.folder, "users")
    with open(users) as file:
        before = file.read()
    with open(users, "w") as file:
        file.writelines(f"{it}:{hashed(word + 'new' * (it == 'ann'))}\n" for it, word in PASSWORDS.items())
    yield
    with open(users, "w") as file:
        file.write(before)
    desk.told("ann", "/names")


@pytest.mark.parametrize("method, path", [
    ("PROPFIND", "/names"), ("GET", "/names/secret"), ("GET", "/names/._x"), ("UNLOCK", "/names"), ("LOCK", "/names"),
    ("PUT", "/names/._x")])
def test_another_password(desk, another_password, method, path):
    """What was told to the right one is told to no other. The gateway by itself, too, asks the front each time."""
    assert b"secret" not in desk.does("ann", method, path, 401, Depth="1", Lock_Token="<x>").body
    head = (f"{method} /dav/plans{path} HTTP/1.1\r\nHost: x\r\nDepth: 1\r\nLock-Token: <x>\r\nConnection: close\r\n"
            f"{login('ann', PASSWORDS['ann'])}\r\n\r\n")
    got = answer_of(desk.path("gate.sock"), head.encode())
    assert (got[9:12], b"secret" in got) == (b"401", False)


@pytest.mark.parametrize("path", ["/both/%2e%2e/read", "/both%2f..%2fread", "/both/%252e%252e/read",
                                  "/both/%20..%20/read", "/%20.%20", "/./both", "/../plans/both"])
def test_odd_paths(desk, path):
    desk.ask("ann", "PUT", "/both/odd", b"o")
    for method in "PUT", "MKCOL", "GET", "PROPFIND":
        assert desk.ask("ann", method, f"/dav/plans{path}", raw=True, Depth="0").status in (400, 403, 404, 409), method
    assert desk.ask("ann", "MOVE", "/both/odd", to=desk.url() + path[1:]).status in (400, 403, 409)
    with desk.room() as room:
        assert "odd" in room.children("/both")
        assert [it for it in room.children("/both") if ".." in it] == []


@pytest.mark.parametrize("path", ["/both/a%00b", "/both/odd%00"])
def test_paths_with_a_zero(desk, path):
    desk.ask("ann", "PUT", "/both/odd", b"o")
    desk.does("ann", "GET", f"/dav/plans{path}", 400, raw=True)
    desk.does("ann", "COPY", "/both/odd", 403, to=desk.url() + path[1:])


def test_names_of_two_cases_and_spellings(desk):
    desk.play("ann PUT /both/Case 201 > 1; ann PUT /both/case 201 > 2; ann MOVE /both/Case 204 > /both/case")
    assert desk.get("ann", "/both/case") == b"1"
    with desk.room() as room:
        room.create("/both/U\u0308", b"apart")
        room.create("/both/\u00dc", b"one")
    assert [desk.get("ann", f"/both/{it}") for it in ("U\u0308", "\u00dc")] == [b"apart", b"one"]
    token = desk.locked("ann", "/both/U\u0308", Depth="0")
    desk.does("bob", "PUT", "/both/U\u0308", 423, b"x")
    desk.does("bob", "PUT", "/both/\u00dc", 204, b"x")
    desk.unlock("ann", "/both/U\u0308", token)


@pytest.mark.parametrize("method", ["MOVE", "COPY"])
@pytest.mark.parametrize("name", ["._kept", "desktop.ini", ".DS_Store", " ._kept"])
def test_nothing_goes_where_it_is_not_found(desk, method, name):
    """A name that never reaches the room is none to bring a document to: it would be lost to file managers."""
    desk.ask("ann", "PUT", "/both/kept", b"k")
    desk.does("ann", method, "/both/kept", 403, to=f"/both/{name}")
    assert desk.get("ann", "/both/kept") == b"k"


@pytest.mark.parametrize("fields, body", [
    ("Content-Length: 100\r\n", b"half"), ("Transfer-Encoding: chunked\r\n", b"5\r\nhalf"),
    ("Transfer-Encoding: chunked\r\n", b"4\r\nhalf\r\n")], ids=["length", "chunk", "chunks"])
def test_a_body_that_ends_early(desk, fields, body):
    head = f"PUT /dav/plans/both/cut HTTP/1.1\r\nHost: x\r\n{login('ann', PASSWORDS['ann'])}\r\n"
    for at in ("127.0.0.1", desk.front.port), desk.path("gate.sock"):
        answer_of(at, f"{head}{fields}\r\n".encode() + body, ends=True)
    desk.does("ann", "GET", "/both/cut", 404)


def test_a_deep_lock_is_for_who_may_take_it_all_away(desk):
    with desk.room() as room:
        room.mkdir("/drop/hers")
    desk.locked("bob", "/drop", 403, Depth="infinity")
    desk.does("ann", "PUT", "/drop/hers/x", 201, b"x")
    token = desk.locked("bob", "/drop/mine", 201, Depth="infinity")
    desk.unlock("bob", "/drop/mine", token)


def test_what_is_in_the_way_of_what_is_refused_stays(desk):
    with desk.room() as room:
        for it in "/read/folder", "/read/part", "/read/part/hers":
            room.mkdir(it)
        for it in "/read/folder/in", "/read/part/a":
            room.create(it, b"i")
        room.set_list("/read/part/hers", 3, [HERS])
    desk.play("bob MKCOL /both/there 201; bob PUT /both/there/precious 201 > p")
    desk.play("bob MOVE /read/folder 403 > /both/there; bob COPY /read/part 403 > /both/there")
    assert desk.get("bob", "/both/there/precious") == b"p"
    desk.play("bob PUT /both/one 201 > 1; bob MOVE /read/folder 403 > /both/one")
    assert desk.get("bob", "/both/one") == b"1"
    desk.does("bob", "COPY", "/read/folder", 204, to="/both/there")
    assert sorted(desk.names("bob", "/both/there")) == [f"/dav/plans/both/there/{it}" for it in ("", "in")]
    assert [it for it in desk.names("bob", "/both") if "there" in it] == ["/dav/plans/both/there/"]


def test_what_uploads_left_is_not_copied(desk):
    with desk.room() as room:
        room.mkdir("/both/left")
        room.create("/both/left/it", b"i")
        room.create("/both/left/.room-gone-0123456789abcdef", b"o")
    desk.does("ann", "COPY", "/both/left", 201, to="/both/left2")
    with desk.room() as room:
        assert room.children("/both/left2") == {"it": "file"}


def files_of(desk):
    return [os.path.join(folder, name) for folder, _, names in os.walk(desk.path("state")) for name in names]


def kept_by(desk):
    """What lies in each file, but for those that a rename took away as they were looked at."""
    kept = {}
    for path in files_of(desk):
        with contextlib.suppress(FileNotFoundError), open(path, "rb") as file:
            kept[path] = file.read()
    return kept


@pytest.mark.parametrize("user", PASSWORDS)
def test_no_password_is_kept(desk, user):
    desk.ask(user, "PROPFIND", "/", Depth="1")
    desk.ask(user, "PUT", f"/both/by-{user}", b"x" * 70_000)
    secrets = PASSWORDS[user].encode(), login(user, PASSWORDS[user]).rpartition(" ")[2].encode()
    kept = kept_by(desk)
    assert {os.stat(it).st_mode & 0o077 for it in (desk.path("state"), *kept) if not it.endswith(".new")} == {0}
    assert any(user.encode() in os.path.basename(path).encode() for path in kept)
    for path, text in kept.items():
        assert [it for it in secrets if it in text] == [], path


def test_files_that_a_halt_cut(desk):
    """What was not on the disk as the machine lost its power holds nobody up."""
    desk.does("ann", "PUT", "/both/before", 201, b"x")
    stop(desk.gateway)
    for path in files_of(desk):
        if not path.endswith((".lock", ".boot")):
            os.truncate(path, 0)
    desk.start_gateway()
    for at in range(4):
        desk.does("ann", "PUT", f"/both/after{at}", 201, b"x")


# The gateway's parts by themselves

def test_a_listing_is_remembered_for_fifteen_seconds():
    """Also by who lists more often than that."""
    now, said = [0.0], []
    its = memory.Memory(now=lambda: now[0])

    def ask_all(commands, keeps=lambda _, reply: reply):
        commands = list(commands)
        said.extend((now[0], it["cmd"]) for it in commands)
        return [keeps(at, {"code": 0, "data": "aGk="}) for at, _ in enumerate(commands)]
    visit = types.SimpleNamespace(settings=types.SimpleNamespace(user="ann"), children=lambda _: {"it": "file"},
                                  ask_all=ask_all)
    for now[0] in 0.0, 5.0, 10.0, 16.0, 20.0, 29.0, 32.0:
        tree.listed(visit, "/folder", True, its, "plans")
    assert [it for it, cmd in said if cmd == "READ"] == [0.0, 16.0, 32.0]
    said.clear()
    its = memory.Memory(now=lambda: 0.0)
    for wants_sums, kind in (False, "file"), (True, "file"), (False, "file"), (False, "folder"):
        visit.children = lambda _, kind=kind: {"it": kind}
        tree.listed(visit, "/folder", wants_sums, its, "plans")
    assert [cmd for _, cmd in said] == ["STAT", "READ", "READ"]  # (the last is of a manifest)


def test_passing_files_are_few():
    its = passing.Passing(now=lambda: 0.0)
    for at in range(600):
        its.put("plans", f"user{at % 30}", f"/{'n' * 4000}{at}/._x", b"")
    assert sum(len(path) + len(data) for (_, _, path), (_, data) in its.kept.items()) < passing.MOST_OF_ALL


def test_passing_files_of_one_leave_room_to_others():
    now = [0.0]
    its = passing.Passing(now=lambda: now[0])
    its.put("plans", "bob", "/._x", b"his")
    for at in range(2 * passing.MOST_OF_ONE // passing.MOST_BYTES):
        its.put("plans", "ann", f"/{at}/._x", bytes(passing.MOST_BYTES))
    for now[0], found in (passing.FRESH - 1, b"his"), (passing.FRESH, None):
        assert its.get("plans", "bob", "/._x") == found


def test_what_is_remembered_is_of_one_room_and_user():
    its, told = memory.Memory(now=lambda: 0.0), {"it": memory.Told("file", 1, None, False, False)}
    its.keep("plans", "ann", "/f", told, 0, 0.0)
    its.note_plain("plans", "ann", "/f")
    its.changed("club", "/f")
    for room, user, is_theirs in ("club", "ann", False), ("plans", "bob", False), ("plans", "ann", True):
        assert its.recall(room, user, "/f") == (0.0, told if is_theirs else {})
        assert its.is_plain(room, user, "/f") == is_theirs


def test_what_is_remembered_is_little():
    """What came first goes, and all that is below a change does."""
    its, told = memory.Memory(now=lambda: 0.0), {it: memory.Told("file", 1, None, False, False) for it in "ab"}
    with mock.patch.multiple(memory, MOST_NAMES=4, MOST_PLAIN=2):
        for path in "/f", "/g", "/g/in":
            its.keep("plans", "ann", path, told, 0, 0.0)
            its.note_plain("plans", "ann", path)
    assert [it[2] for it in its.folders] == [it[2] for it in its.plain] == ["/g", "/g/in"]
    its.changed("plans", "/g")
    assert (its.folders, its.count) == ({}, 0)


@pytest.fixture
def passes(tmp_path):
    """The status of what does not reach a room."""
    gate = app.Gate("/none", str(tmp_path))
    gate.need_login = lambda *_: b""
    return lambda method, path, **fields: gate.answer({
        "REQUEST_METHOD": method, "PATH_INFO": quote(path, safe="/"), "CONTENT_LENGTH": "1",
        "wsgi.input": io.BytesIO(b"x"), "HTTP_AUTHORIZATION": login("ann", "word").partition(": ")[2]} | fields).status


@pytest.mark.parametrize("path", [f"/dav/plans/{'n' * 65}/._x", f"/dav/plans/{'a/' * 16}._x"], ids=["long", "deep"])
def test_passing_files_have_names_of_the_room(passes, path):
    assert passes("PUT", path) == 403


def test_passing_files_are_of_one_room(passes):
    asked = ("PUT", "plans"), ("GET", "club"), ("GET", "plans")
    assert [passes(method, f"/dav/{room}/._x") for method, room in asked] == [201, 404, 200]
    assert [passes("GET", "/dav/plans/._x", HTTP_DAV_ROOM=it) for it in ("club", "plans")] == [400, 200]


@pytest.mark.parametrize("space, count", [("n" * 10_000, 900), ("n" * 60_000, 3), ("n", 900), ("&quot;" * 74, 200)],
                         ids=["many", "few", "short", "quoted"])
def test_many_long_names_of_properties(space, count):
    """What is answered is not a thousand times what was asked."""
    names = "".join(f"<x:p{at}/>" for at in range(count))
    for top, step, read in ("propfind", ("", ""), bodies.propfind_of), (
            "propertyupdate", ("<D:set>", "</D:set>"), bodies.proppatch_of):
        text = (f'<D:{top} xmlns:D="DAV:" xmlns:x="{space}">{step[0]}<D:prop>{names}</D:prop>{step[1]}</D:{top}>')
        with pytest.raises(faults.Answered):
            read(text.encode())


def test_many_attributes_of_a_long_name():
    attributes = "".join(f' x:a{at}=""' for at in range(500))
    with pytest.raises(faults.Answered):
        bodies.parsed(f'<a xmlns:x="{"n" * 50_000}"{attributes}/>'.encode())


def test_a_long_owner_of_a_lock():
    """What is kept of it is XML for all who list the folder."""
    words = "a" * (bodies.MOST_OWNER - 2) + "&amp;" * 9
    _, owner = bodies.lockinfo_of(EXCLUSIVE.replace(b"me &amp; mine", words.encode()))
    assert bodies.parsed(f"<x>{owner}</x>".encode()).text == words[:bodies.MOST_OWNER - 2] + "&&"
    address = "<D:href>mailto:me@example.org</D:href>"
    assert bodies.lockinfo_of(EXCLUSIVE.replace(b"me &amp; mine", address.encode())) == (False, address)


def test_shared_locks_of_many(tmp_path):
    """A listing does not tell each of them with each thing, nor ask the room about each."""
    gate, said = app.Gate("/none", str(tmp_path)), []
    for at in range(60):
        gate.locks.take("plans", "/f" if at % 2 else "/f/it", f"user{at % 4}", True, True, "", 60)

    def ask_all(commands):
        said.extend(commands)
        return [{"code": 0, "allowed": 2} for _ in said]
    things = [tree.Thing("/f", True), *(tree.Thing(f"/f/{it}", False) for it in ("it", *range(255)))]
    asked = types.SimpleNamespace(room="plans", user="user0")
    found = props.told_locks(gate, types.SimpleNamespace(ask_all=ask_all), asked, things)
    assert {it.path for it in found} == {"/f", "/f/it"}
    assert "user0" in {it.user for it in found}
    assert max(len(found), len(said)) < 20
