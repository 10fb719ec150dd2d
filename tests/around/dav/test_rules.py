"""Rules of WebDAV's own, what is left after a refusal, and what goes between front and gateway."""
import glob
import json
import re
import socket
import threading

import pytest

from .desk import ANNS, BOB_READS, BOB_WRITES, EXCLUSIVE, HERS, Desk, make_folders, stop

HOW = {"is_lossy": False}
SIZE = b"<D:getcontentlength>%d<"
DATE = re.compile(r"[A-Z][a-z]{2}, \d\d [A-Z][a-z]{2} \d{4} [0-9:]{8} GMT")


@pytest.fixture(scope="module")
def started(started):
    with started.room() as room:
        make_folders(room, both=[ANNS, BOB_WRITES], read=[HERS, BOB_READS], closed=[HERS], open=[ANNS, BOB_WRITES])
        room.mkdir("/open/closed")
        room.set_list("/open/closed", 3, [HERS])
        for it in "/read/it", "/closed/it", "/open/closed/it":
            room.create(it, b"hers")
    return started


def test_a_lock_of_a_folder_alone_keeps_its_names(desk):
    """And not what is in the documents that it has (RFC 4918, 7.4)."""
    desk.play("ann MKCOL /both/named 201; ann PUT /both/named/it 201 > x")
    token = desk.locked("ann", "/both/named", Depth="0")
    for method, path in ("PUT", "new"), ("MKCOL", "new"), ("DELETE", "it"), ("LOCK", "new"):
        desk.does("bob", method, f"/both/named/{path}", 423, EXCLUSIVE if method == "LOCK" else b"")
    desk.play("bob PUT /both/his 201 > y; bob PUT /both/named/it 204 > y; bob MOVE /both/named/it 423 > /both/it")
    for method in "MOVE", "COPY":
        desk.does("bob", method, "/both/his", 423, to="/both/named/new")
    desk.unlock("ann", "/both/named", token)
    desk.does("bob", "PUT", "/both/named/new", 201, b"x")


def test_what_is_told_of_what_is_closed(desk):
    """Whether something is locked there or not: what the room says, word for word."""
    asked = [("DELETE", "/closed"), ("DELETE", "/closed/it"), ("PUT", "/closed/it"), ("PUT", "/closed/none"),
             ("MKCOL", "/closed/none"), ("MOVE", "/closed"), ("MOVE", "/closed/it"), ("COPY", "/closed/it"),
             ("LOCK", "/closed"), ("PROPPATCH", "/closed/it"), ("DELETE", "/open/closed/it"),
             ("PUT", "/open/closed/it"), ("MOVE", "/open/closed/it"), ("MOVE to", "/closed/it"),
             ("COPY to", "/closed/none"), ("MOVE to", "/open/closed/none"), ("PUT", "/read/it")]
    bodies = {"PUT": b"x", "LOCK": EXCLUSIVE, "PROPPATCH": b'<D:propertyupdate xmlns:D="DAV:"/>'}

    def said(method, path):
        source, to = ("/both/source", path) if " to" in method else (path, "/both/target")
        got = desk.ask("bob", method.removesuffix(" to"), source, bodies.get(method, b""), to=to)
        return got.status, got.body
    desk.does("bob", "PUT", "/both/source", 201, b"his")
    before, tokens = {it: said(*it) for it in asked}, {}
    for path in "/closed/it", "/closed/none", "/open/closed/it", "/open/closed/none", "/closed", "/read/it":
        got = desk.ask("ann", "LOCK", path, EXCLUSIVE, Depth="0")
        assert got.status < 300, got.body
        tokens[path] = got.fields["lock-token"]
    assert {it: said(*it) for it in asked} == before
    assert {it: status for it, (status, _) in before.items() if status not in (403, 409)} == {}
    for path, token in tokens.items():
        desk.unlock("ann", path, token)
    with desk.room() as room:
        assert [room.read(it) for it in ("/closed/it", "/open/closed/it", "/both/source")] == [b"hers", b"hers", b"his"]


def test_who_may_remove_is_told_that_it_is_locked(desk):
    """Also who may not write it; by whom, they are not told."""
    desk.does("ann", "PUT", "/both/kept", 201, b"k")
    his = desk.locked("bob", "/both/kept", Depth="0")
    with desk.room() as room:
        room.set_list("/both/kept", 0, [HERS | {"flag": 0}, {"flag": 0, "mask": 0x10001, "type": 0, "who": "bob"}])
    desk.does("bob", "LOCK", "/both/kept", 403, If=f"({his})")  # (nor does he keep others off any longer)
    desk.unlock("bob", "/both/kept", his)
    token = desk.locked("ann", "/both/kept", Depth="0")
    for method in "DELETE", "MOVE":
        assert b"ann" not in desk.does("bob", method, "/both/kept", 423, to="/both/other").body
    desk.unlock("ann", "/both/kept", token)
    desk.does("bob", "DELETE", "/both/kept", 204)


@pytest.mark.parametrize("method", ["DELETE", "MOVE"])
def test_what_stays_is_locked_on(desk, method):
    """Where whoever has the lock may not remove it."""
    with desk.room() as room:
        make_folders(room, **{f"stays{method}": [ANNS, BOB_READS]})
        path = f"/stays{method}/it"
        room.create(path, b"hers")
        room.set_list(path, 0, [it | {"flag": 0, "mask": 0x1200AF} for it in (ANNS, BOB_READS)])
    token = desk.locked("ann", path, Depth="0")
    with desk.room() as room:
        room.set_list(f"/stays{method}", 0, [it | {"flag": 0, "mask": 0x1600A9} for it in (ANNS, BOB_READS)])
    desk.does("ann", method, path, 403, to=f"{path}2", If=f"({token})")
    desk.does("bob", "PUT", path, 423, b"his")
    desk.unlock("ann", path, token)
    desk.does("bob", "PUT", path, 204, b"his")


@pytest.fixture
def trash(desk):
    """What is in ann's trash."""
    with desk.room() as room:
        if "trash" not in room.children("/"):
            for it in "/trash", "/trash/ann":
                room.mkdir(it)
            room.set_list("/trash/ann", 2, [HERS | {"flag": 0}, HERS | {"who": "ann"}])
    return lambda: [*desk.wire("ann", "LIST", "/trash/ann")["names"]]


@pytest.mark.parametrize("name, is_kept", [
    ("~notes.txt", True), ("a~b", True), (".notes", True), ("notes.tmpl", True), ("#1 notes", True),
    ("~$notes.docx", False), ("~WRL0001.tmp", False), ("notes.txt~", False), (".~lock.notes.odt#", False)])
def test_what_is_removed_goes_to_the_trash(desk, trash, name, is_kept):
    """But not what a program lays beside a document."""
    desk.does("ann", "PUT", f"/{name}", 201, b"x")
    desk.does("ann", "DELETE", f"/{name}", 204)
    assert any(it.startswith(f"{name}~") for it, _ in trash()) == is_kept


def test_a_trash_that_others_read(desk, trash):
    """Nothing goes there, and it stays where it is."""
    closed = [HERS | {"flag": 0}, HERS | {"who": "ann"}]
    desk.does("ann", "PUT", "/stays", 201, b"s")
    before = trash()
    for entries, status in ([*closed, BOB_READS], 403), (closed, 204):
        desk.wire("ann", "SETLIST", "/trash/ann", aclflag=2, entries=entries)
        desk.does("ann", "DELETE", "/stays", status)
        assert (len(trash()) > len(before)) == (status == 204)


@pytest.mark.parametrize("method", ["MOVE", "COPY"])
@pytest.mark.usefixtures("trash")
def test_what_is_replaced_goes_to_the_trash(desk, method):
    for folder, name in (f"/new-{method}", "new"), (f"/old-{method}", "old"):
        desk.does("ann", "MKCOL", folder, 201)
        desk.does("ann", "PUT", f"{folder}/{name}", 201, b"x")
    desk.does("ann", method, f"/new-{method}", 204, to=f"/old-{method}")
    with desk.room() as room:
        found = [it for it in room.children("/trash/ann") if it.startswith(f"old-{method}~")]
        assert [[*room.children(f"/trash/ann/{it}")] for it in found] == [["old"]]


@pytest.mark.parametrize("depth, inside", [("0", []), ("infinity", ["it"])])
def test_a_copy_of_a_folder_alone(desk, depth, inside):
    source, target = f"/deep-{depth}", f"/copy-{depth}"
    desk.play(f"ann MKCOL {source} 201; ann PUT {source}/it 201 > x")
    desk.does("ann", "COPY", source, 201, to=target, Depth=depth)
    assert desk.names("ann", target) == [f"/dav/plans{target}/", *(f"/dav/plans{target}/{it}" for it in inside)]


def test_a_copy_of_a_folder_with_what_is_right_in_it(desk):
    """No such Depth is for COPY (RFC 4918, 9.8.3), and nothing is copied."""
    desk.play("ann MKCOL /deep 201")
    desk.does("ann", "COPY", "/deep", 400, to="/copy-1", Depth="1")
    desk.does("ann", "PROPFIND", "/copy-1", 404, Depth="0")


@pytest.mark.parametrize("method", ["MOVE", "COPY"])
def test_a_move_to_another_room(desk, method):
    desk.ask("ann", "PUT", "/x", b"x")
    desk.does("ann", method, "/x", 502, to=desk.url("/y").replace("/plans/", "/other/"))
    assert desk.get("ann", "/x") == b"x"
    desk.does("ann", "GET", "/y", 404)


def test_a_refused_move_comes_back(desk):
    with desk.room() as room:
        room.create("/both/theirs", b"hers")
        room.set_list("/both/theirs", 2, [HERS | {"flag": 0}, {"flag": 0, "mask": 0x80, "type": 0, "who": "bob"}])
    desk.does("bob", "PUT", "/both/mine", 201, b"his")
    before = desk.names("bob", "/both")
    desk.does("bob", "MOVE", "/both/mine", 403, to="/both/theirs")
    assert (desk.get("bob", "/both/mine"), desk.names("bob", "/both")) == (b"his", before)


def test_a_name_as_long_as_may_be(desk):
    """What has it lies under another name while it takes a place: that one has room for it."""
    name = "/" + "\u0436" * 32
    desk.play(f"ann PUT {name} 201 > new; ann PUT /short 201 > old; ann MOVE {name} 204 > /short")
    assert desk.get("ann", "/short") == b"new"
    desk.does("ann", "GET", name, 404)


def test_the_time_of_the_next_version(desk):
    """By HTTP's one form of a date, in a listing too."""
    said = []
    for status, data in (201, b"a"), (204, b"b"), (204, b"b"):
        desk.does("ann", "PUT", "/later", status, data)
        said.append(desk.does("ann", "GET", "/later", 200).fields["last-modified"])
    assert said[0] != said[1] == said[2]
    assert DATE.fullmatch(said[2]) and f"<D:getlastmodified>{said[2]}<" in desk.told("ann", "/later", "0")


def test_a_listing_after_a_move(desk):
    for folder, name, data in ("/m", "old", b"aaa"), ("/n", "new", b"bbbbb"):
        desk.does("ann", "MKCOL", folder, 201)
        desk.does("ann", "PUT", f"{folder}/{name}", 201, data)
    assert SIZE % 3 in desk.does("ann", "PROPFIND", "/m", 207, Depth="1").body
    desk.does("ann", "MOVE", "/n/new", 204, to="/m/old")
    assert SIZE % 5 in desk.does("ann", "PROPFIND", "/m", 207, Depth="1").body


def test_a_start_that_cannot_be_read(desk):
    desk.does("ann", "PUT", "/unread", 201, b"1")
    stop(desk.gateway)
    for path in glob.glob(desk.path("state/sessions/plans/ann@?.boot")):
        with open(path, "wb") as file:
            file.write(b"\xff\xfe")
    desk.start_gateway()
    desk.does("ann", "PUT", "/unread", 204, b"2")


def test_another_start_of_the_machine(desk):
    """What a halt cut is seen by it: another session begins, also where nothing of the file was lost."""
    def name():
        with open(desk.path("state/sessions/plans/ann@0")) as file:
            return json.load(file)["name"]
    desk.does("ann", "PUT", "/start", 201, b"1")
    for boot, is_same in ({}, True), ({"BOOT_ID": "another"}, False):
        before = name()
        stop(desk.gateway)
        desk.start_gateway(**boot)
        desk.does("ann", "PUT", "/start", 204, b"2")
        assert (name() == before) == is_same, boot


# A gateway that says what it likes, before the same front

class TakenOver(Desk):
    def start_gateway(self):
        self.heard, self.listener = [], socket.socket(socket.AF_UNIX)
        self.listener.bind(self.path("gate.sock"))
        self.listener.listen()
        self.ends.callback(self.listener.close)
        threading.Thread(target=self.answers, daemon=True).start()
        self.gateway = None

    def answers(self):
        while True:
            try:
                peer, _ = self.listener.accept()
            except OSError:
                return
            with peer:
                self.heard.append(peer.recv(1 << 16).decode().lower())
                peer.sendall(b"HTTP/1.1 200 OK\r\nSet-Cookie: a=b\r\nClear-Site-Data: \"*\"\r\nRefresh: 0\r\n"
                             b"Content-Disposition: inline\r\nContent-Length: 2\r\nConnection: close\r\n\r\nhi")


@pytest.fixture(scope="module")
def taken_over(tmp_path_factory):
    with TakenOver(str(tmp_path_factory.mktemp("taken")), is_lossy=False) as it:
        yield it


@pytest.mark.parametrize("path", ["/dav/plans/it", "/dav/"])
def test_its_answers_are_no_page_of_the_front(taken_over, path):
    got = taken_over.does("ann", "GET", path, 200, raw=True)
    assert (got.body, got.fields["content-disposition"]) == (b"hi", "attachment")
    assert {"set-cookie", "clear-site-data", "refresh"} & got.fields.keys() == set()


@pytest.mark.parametrize("path, lines", [("/dav/plans/it", ["dav-room: plans"]), ("/dav/", [])])
def test_it_is_told_the_room(taken_over, path, lines):
    """By the front, and not by the caller."""
    taken_over.does("ann", "GET", path, 200, raw=True, Dav_Room="other")
    assert [it for it in taken_over.heard[-1].split("\r\n") if it.startswith("dav-room")] == lines
