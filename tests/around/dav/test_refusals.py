"""What the gateway refuses, and what it takes: each line of docs/DAV.md that a program can be asked about."""
import os
import re
import socket
import subprocess

import pytest
from fileroom_dav import faults
from given import each
from room_client import files
from room_client.faults import Refused
from served import HANGS, HERE, text_of

from .desk import ANNS, BOB_READS, BOB_WRITES, EXCLUSIVE, HERS, PASSWORDS, SHARED, make_folders, tag_of

HOW = {"is_lossy": False}
OF_IT = "<D:href>/dav/plans/both/held/it</D:href>"
NO_CHANGE = b'<D:propertyupdate xmlns:D="DAV:"/>'
CHANGE = (b'<D:propertyupdate xmlns:D="DAV:" xmlns:Z="urn:schemas-microsoft-com:" xmlns:x="urn:x"><D:set><D:prop>%s'
          b"</D:prop></D:set></D:propertyupdate>")
BOMB = (b'<?xml version="1.0"?><!DOCTYPE a [<!ENTITY b "0123456789"><!ENTITY c "&b;&b;&b;&b;&b;&b;&b;&b;&b;">]>'
        b'<D:propfind xmlns:D="DAV:"><D:prop><D:x>&c;</D:x></D:prop></D:propfind>')
FILE_ENTITY = (b'<?xml version="1.0"?><!DOCTYPE a [<!ENTITY b SYSTEM "file:///etc/passwd">]>'
               b'<D:lockinfo xmlns:D="DAV:"><D:lockscope><D:exclusive/></D:lockscope><D:locktype><D:write/>'
               b"</D:locktype><D:owner>&b;</D:owner></D:lockinfo>")


@pytest.fixture(scope="module")
def started(started):
    with started.room() as room:
        make_folders(room, hers=[HERS], read=[HERS, BOB_READS], both=[ANNS, BOB_WRITES])
        room.create("/hers/secret", b"s")
        room.create("/read/it", b"r")
        files.put(room, "/large", bytes(70_000))
    return started


def test_logins(desk):
    for user in None, "nobody":
        desk.does(user, "PROPFIND", "/", 401, Depth="0")
    for user in None, "nobody", "ann":
        got = desk.does(user, "OPTIONS", "/hers/secret", 200)
        assert (got.fields["dav"], got.body) == ("1, 2", b"")
    desk.does("ann", "PROPFIND", "/dav/other/", 404, raw=True, Depth="0")
    desk.does("ann", "GET", "/hers/secret", 403, Origin="http://elsewhere.example")
    for depth in "0", "1":
        desk.does("cat", "PROPFIND", "/", 403, Depth=depth)


@pytest.mark.parametrize("field", [b"", b"Authorization: Basic YW5uOndyb25n\r\n",
                                   b"Authorization: Basic YW5uOm5vbg==\xff\r\n"], ids=["none", "wrong", "odd"])
@pytest.mark.parametrize("method", ["GET", "PROPFIND", "UNLOCK", "PUT"])
def test_the_gateway_alone_lets_nobody_in(desk, method, field):
    """Whoever reaches its socket past the front gets nothing without a login that the front takes."""
    for path in "/dav/plans/read/it", "/dav/plans/._x", "/dav/":
        with socket.socket(socket.AF_UNIX) as line:
            line.connect(desk.path("gate.sock"))
            line.sendall(f"{method} {path} HTTP/1.1\r\nHost: x\r\nLock-Token: <x>\r\nDepth: 0\r\nConnection: close"
                         "\r\n".encode() + field + b"\r\n")
            assert line.recv(99)[9:12] == b"401", path


def test_rooms(desk):
    """Also without the slash at the end, as file managers ask for a folder."""
    for end in "/", "":
        assert desk.does("bob", "PROPFIND", f"/dav{end}", 207, raw=True, Depth="1").hrefs == ["/dav/", "/dav/plans/"]
        assert desk.does("bob", "PROPFIND", f"/dav/plans{end}", 207, raw=True, Depth="0").hrefs == ["/dav/plans/"]
    desk.does("bob", "PUT", "/dav/x", 404, b"x", raw=True)
    desk.does("bob", "MKCOL", "/dav/", 405, raw=True)


@pytest.mark.parametrize("method, path, word, body", [
    ("PUT", "/read/it", "write", b"x"), ("PUT", "/read/new", "add-file", b"x"), ("MKCOL", "/read/d", "add-folder", b""),
    ("DELETE", "/read/it", "delete", b""), ("GET", "/hers/secret", "/hers", b""),
    ("PROPFIND", "/hers/secret", "/hers", b""), ("PROPFIND", "/hers", "/hers", b""),
    ("LOCK", "/read/it", "write", EXCLUSIVE), ("PROPPATCH", "/read/it", "write", NO_CHANGE)],
    ids=lambda it: it if isinstance(it, str) else "")
def test_a_refusal_names_what_is_lacking(desk, method, path, word, body):
    depth = "0" if method == "PROPFIND" else "infinity"
    assert word in desk.does("bob", method, path, 403, body, Depth=depth).body.decode()
    with desk.room() as room:
        assert (room.read("/read/it"), sorted(room.children("/read"))) == (b"r", ["it"])


def test_what_may_be_read_may_be_copied(desk):
    """And not moved away; what may not, is copied nowhere."""
    desk.play("bob MOVE /read/it 403 > /both/it; bob COPY /read/it 201 > /both/copy")
    desk.play("bob COPY /hers/secret 403 > /both/secret")
    with desk.room() as room:
        assert room.read("/read/it") == b"r"
        assert not {"secret", "it"} & {*room.children("/both")}


@pytest.mark.parametrize("name", [" plan", "plan ", "new "])
def test_blanks_at_the_ends_of_a_name(desk, name):
    """It would be another thing's name, or not be found in the next listing: it is neither made nor replaced."""
    desk.ask("ann", "PUT", "/both/plan", b"first")
    path = f"/both/{name}"
    for method, at, body, to in (("PUT", path, b"", None), ("MKCOL", path, b"", None), ("LOCK", path, EXCLUSIVE, None),
                                 ("PUT", f"{path}/it", b"", None), ("MOVE", "/both/plan", b"", path),
                                 ("COPY", "/both/plan", b"", path)):
        assert b"blank" in desk.does("ann", method, at, 403, body, to=to).body
    for method in "DELETE", "GET":
        desk.does("ann", method, path, 404)
    assert desk.get("ann", "/both/plan") == b"first"
    assert [it for it in desk.names("ann", "/both") if "new" in it] == []


def test_a_name_with_a_blank_that_the_room_has(desk):
    with desk.room() as room:
        room.create("/both/kept ", b"k")
    desk.does("ann", "PUT", "/both/kept ", 204, b"other")
    assert desk.get("ann", "/both/kept ") == b"other"
    desk.does("ann", "MOVE", "/both/kept ", 201, to="/both/kept")


@pytest.mark.parametrize("method, path, status, fields", [
    ("PUT", "/no/folder", 409, {}), ("MKCOL", "/no/folder", 409, {}), ("PUT", "/both", 405, {}),
    ("MKCOL", "/both", 405, {}), ("MKCOL", "/x", 415, {"body": b"body"}), ("GET", "/both", 405, {}),
    ("GET", "/no", 404, {}), ("GET", "/ ", 404, {}),  # (and not the root)
    ("PROPFIND", "/both/ ", 404, {"Depth": "0"}), ("DELETE", "/no", 404, {}), ("MOVE", "/no", 404, {"to": "/yes"}),
    ("PUT", "/" + "n" * 65, 403, {}), ("PUT", "/a\x01b", 403, {}), ("PUT", "/.room-file", 403, {}),
    ("GET", "/" + "n" * 65, 404, {}), ("PUT", "/a" * 16, 409, {}), ("PUT", "/a" * 17, 403, {}),
    ("PUT", "/a", 413, {"Content_Length": "99999999999"}), ("PUT", "/dav/plans/%ff", 400, {"raw": True}),
    ("DELETE", "/", 403, {}), ("PATCH", "/both", 501, {}), ("PROPFIND", "/", 403, {"Depth": "infinity"}),
    ("PROPFIND", "/", 400, {"Depth": "2"}), ("LOCK", "/both", 400, {"body": EXCLUSIVE, "Depth": "1"}),
    ("MKCOL", "/._d", 403, {}), ("COPY", "/hers/secret", 400, {"to": "/both/c", "Overwrite": "no"}),
    ("LOCK", "/large/in", 409, {"body": EXCLUSIVE}), *((it, "/large/in", 409, {}) for it in ("PUT", "MKCOL")),
    *((it, "/hers/secret", 409, {"to": "/large/in"}) for it in ("MOVE", "COPY"))], ids=lambda it: ascii(it)[:30])
def test_where_it_cannot_be(desk, method, path, status, fields):
    got = desk.does("ann", method, path, status, **fields)
    assert (status == 405) == ("PROPFIND" in got.fields.get("allow", ""))


def test_what_the_room_refuses():
    """By the first of docs/DAV.md's statuses that names it."""
    rows = re.findall(r"^\| (\d{3}) \| ([^|]*) \|", text_of(os.path.join(HERE, "..", "docs", "DAV.md")), re.M)
    told = {name: int(status) for status, names in reversed(rows)
            for name in re.findall("[A-Z_]{4,}", re.sub(r"\(.*?\)", "", names)) if name != "DELAY"}
    got = {it: faults.as_answered(Refused({"code": 99, "error": it}, {}, "")).status for it in told}
    assert (got, len(told) > 12) == (told, True)


def test_nothing_takes_its_own_place(desk):
    for it in "/outer", "/outer/inner":
        desk.does("ann", "MKCOL", it, 201)
    desk.does("ann", "PUT", "/outer/inner/f", 201, b"x")
    for method in "COPY", "MOVE":
        for source, target in (("/outer", "/outer"), ("/outer", "/outer/inner"), ("/outer/inner", "/outer"),
                               ("/outer", "/outer/new"), ("/outer/inner/f", "/outer")):
            desk.does("ann", method, source, 403, to=target)
    desk.does("ann", "MOVE", "/outer", 502, to="http://elsewhere.example/dav/plans/x")
    desk.play("ann MOVE /outer 400; ann PUT /plain 201 > p")
    desk.does("ann", "COPY", "/plain", 412, to="/outer", Overwrite="F")
    desk.does("ann", "MOVE", "/plain", 412, to="/outer/inner/f", Overwrite="F")
    assert desk.get("ann", "/outer/inner/f") == b"x"
    desk.does("ann", "MOVE", "/plain", 201, to="http://ROOMS.example/dav/plans/moved", Host="rooms.EXAMPLE")


def test_versions(desk):
    assert desk.does("ann", "PUT", "/v", 201, b"one").fields["etag"] == tag_of(b"one")
    desk.does("ann", "PUT", "/v", 412, b"two", If_None_Match="*")
    desk.does("ann", "PUT", "/v", 412, b"two", If_Match=tag_of(b"other"))
    desk.does("ann", "PUT", "/none", 412, b"two", If_Match="*")
    for method, path, body in (("DELETE", "/v", b""), ("MOVE", "/v", b""), ("COPY", "/v", b""), ("MKCOL", "/w", b""),
                               ("LOCK", "/v", EXCLUSIVE), ("PROPPATCH", "/v", NO_CHANGE)):
        desk.does("ann", method, path, 412, body, to="/w" if body == b"" else None, If_Match=tag_of(b"other"))
    for room, told, status in (("plans", "", 204), ("plans", "W/", 204), ("other", "", 412)):
        desk.does("ann", "PUT", "/v", status, b"one", If=f"</dav/{room}/v> ([{told}{tag_of(b'one')}])")
    desk.does("ann", "PUT", "/v", 204, b"two", If_Match=f"W/{tag_of(b'one')}")
    with desk.room() as room:
        room.write("/v", b"three, past the gateway")
    desk.does("ann", "PUT", "/v", 412, b"four", If_Match=tag_of(b"two"))
    tag = desk.does("ann", "GET", "/v", 200).fields["etag"]
    assert tag == tag_of(b"three, past the gateway")
    desk.does("ann", "GET", "/v", 304, If_None_Match=tag)
    desk.does("ann", "GET", "/v", 412, If_Match=tag_of(b"two"))
    assert len(desk.does("ann", "GET", "/v", 200, Range="bytes=0-4", If_Range=tag_of(b"two")).body) == 23
    assert desk.does("ann", "GET", "/v", 206, Range="bytes=0-4", If_Range=tag).body == b"three"
    head = desk.does("ann", "HEAD", "/v", 200)
    assert (head.fields["content-length"], head.body) == ("23", b"")
    desk.does("ann", "PUT", "/v", 400, b"x", Content_Range="bytes 0-0/3")


def test_versions_that_are_not_wanted(desk):
    """Of several, whichever stands there, also by a weak tag."""
    desk.ask("ann", "PUT", "/unwanted", b"it")
    here, other = tag_of(b"it"), tag_of(b"other")
    for told, is_here in (f"{other}, W/{here}", True), (f"{here},{other}", True), (f'{other}, "x"', False), ("*", True):
        desk.does("ann", "GET", "/unwanted", 304 if is_here else 200, If_None_Match=told)
        desk.does("ann", "PUT", "/unwanted", 412 if is_here else 204, b"it", If_None_Match=told)
        desk.does("ann", "PROPPATCH", "/unwanted", 412 if is_here else 207, NO_CHANGE, If_None_Match=told)


def test_words_of_fields_in_other_letters(desk):
    desk.play("ann PUT /both/words 201 > 1; ann PUT /both/others 201 > 2")
    token = desk.locked("ann", "/both/words", Depth="Infinity", Timeout="second-60")
    assert "<D:depth>infinity</D:depth><D:owner>me &amp; mine</D:owner><D:timeout>Second-60<" in desk.told(
        "ann", "/both/words", "0")
    desk.does("ann", "COPY", "/both/words", 412, to="/both/others", Overwrite="f")
    desk.does("ann", "COPY", "/both/words", 204, to="/both/others", Overwrite="t")
    desk.unlock("ann", "/both/words", token)


@each("field, status", [
    ("its first list", "(<mine>) ([wrong])", 204), ("its second list", "([wrong]) (<mine>)", 204),
    ("none of its lists", "([wrong]) (<mine> [wrong])", 412), ("all of a list", "(<mine> [right])", 204),
    ("the first of a list alone", "(<mine> [wrong])", 412), ("the last of a list alone", "([wrong] <mine>)", 412),
    ("what is not so", "(Not [wrong] <mine>)", 204), ("what is so", "(Not [right]) ([wrong] <mine>)", 412),
    ("not what follows behind it", "(Not [wrong] [wrong] <mine>)", 412),
    ("no lock", "([wrong] <mine>) (Not <DAV:no-lock>)", 204),
    ("what is elsewhere", "</dav/plans/both/beside> ([other]) </dav/plans/both/if> (<mine> [wrong])", 204),
    ("what is elsewhere, and in its second list", "</dav/plans/both/beside> (<mine>) ([other])", 204),
    ("a lock of elsewhere", "</dav/plans/both/beside> (<mine>)", 412),
    ("a version of elsewhere", "(<mine> [other])", 412)])
def test_the_field_if(desk, field, status):
    """It holds where all of one of its lists does (RFC 4918, 10.4)."""
    for name, data in ("if", b"it"), ("beside", b"other"):
        desk.ask("ann", "PUT", f"/both/{name}", data)
    mine = desk.locked("ann", "/both/if", Depth="0")
    for word, told in ("<mine>", mine), ("right", tag_of(b"it")), ("wrong", tag_of(b"no")), ("other", tag_of(b"other")):
        field = field.replace(word, told)
    got = desk.ask("ann", "PUT", "/both/if", b"it", If=field)
    desk.unlock("ann", "/both/if", mine)
    assert got.status == status, got.body


def test_a_range(desk):
    """Also one that is longer than the file."""
    desk.does("ann", "PUT", "/range", 201, bytes(range(23)))
    for told, first, last in (("0-4", 0, 4), ("-3", 20, 22), ("-99", 0, 22), ("-23", 0, 22), ("0-99", 0, 22)):
        got = desk.does("ann", "GET", "/range", 206, Range=f"bytes={told}")
        assert (got.fields["content-range"], got.body) == (f"bytes {first}-{last}/23", bytes(range(first, last + 1)))
    for told in "99-", "-0", "5-2":
        desk.does("ann", "GET", "/range", 416, Range=f"bytes={told}")


def test_no_page_of_ours(desk):
    page = b"<script>alert(1)</script>"
    desk.does("ann", "PUT", "/page.html", 201, page)
    got = desk.does("ann", "GET", "/page.html", 200)
    names = "content-type", "content-disposition", "x-content-type-options"
    assert [got.body, *(got.fields[it] for it in names)] == [page, "application/octet-stream", "attachment", "nosniff"]
    assert "sandbox" in got.fields["content-security-policy"]
    assert "private" in got.fields["cache-control"]
    assert "script-src" not in got.fields["content-security-policy"]


@each("method, path, status, body", [
    ("a bomb", "PROPFIND", "/", 400, BOMB), ("a file", "LOCK", "/xml", 400, FILE_ENTITY),
    ("deep", "PROPFIND", "/", 400, b"<a>" * 30 + b"</a>" * 30), ("never closed", "PROPFIND", "/", 400, b"<a>" * 5000),
    ("many", "PROPFIND", "/", 400, b"<a>" + b"<b/>" * 2000 + b"</a>"),
    ("long", "PROPFIND", "/", 413, b"<a>" + b" " * 70000 + b"</a>"),
    ("utf-7", "PROPFIND", "/", 400, b'<?xml version="1.0" encoding="utf-7"?><a/>'),
    ("two of one", "PROPFIND", "/", 400, b"<D:propfind xmlns:D='DAV:'><D:prop/><D:allprop/></D:propfind>"),
    ("another one", "PROPFIND", "/", 400, b"<D:other xmlns:D='DAV:'><D:allprop/></D:other>"),
    ("no change", "PROPPATCH", "/xml", 400, EXCLUSIVE), ("not to write", "LOCK", "/xml", 400,
                                                        EXCLUSIVE.replace(b"write", b"other")),
    ("no scope", "LOCK", "/xml", 400, EXCLUSIVE.replace(b"exclusive", b"other"))])
def test_xml_of_strangers(desk, method, path, status, body):
    desk.does("ann", method, path, status, body, Depth="0")


def test_odd_names_and_conditions(desk):
    odd = b'<D:propfind xmlns:D="DAV:" xmlns:x="a&quot;&lt;b"><D:prop><x:y/></D:prop></D:propfind>'
    assert b'xmlns:x="a&quot;&lt;b"' in desk.does("ann", "PROPFIND", "/", 207, odd, Depth="0").body
    for it in "(<a", "(<a>)" * 200:
        desk.does("ann", "PUT", "/odd", 400, b"x", If=it)


@each("inside, statuses", [("Explorers", b"<Z:Win32FileAttributes>0</Z:Win32FileAttributes>", ["200"]),
                           ("ones own", b"<x:y/>", ["403"]), ("both", b"<x:y/><Z:a/>", ["403", "424"])])
def test_properties_that_are_set(desk, inside, statuses):
    """All of them, or none."""
    told = desk.does("ann", "PROPPATCH", "/both", 207, CHANGE % inside).body.decode()
    assert re.findall(r"<D:status>HTTP/1.1 (\d+) ", told) == statuses


def test_a_body_of_a_length_that_is_not_told(desk):
    """Finder sends such, and curl from a pipe. (What is iterated http.client sends in chunks.)"""
    large = os.urandom(200_000)
    for status, parts in (201, [b"one, ", b"two"]), (204, [large[:70_000], large[70_000:]]), (204, []):
        desk.does("ann", "PUT", "/chunked", status, iter(parts))
        assert desk.get("ann", "/chunked") == b"".join(parts)
    desk.does("ann", "PUT", "/chunked", 204, b"1\r\nx\r\n0\r\n\r\n", Transfer_Encoding="Chunked")
    words = ["curl", "-s", "-o", "/dev/null", "-w", "%{http_code}", "-u", f"ann:{PASSWORDS['ann']}", "-T", "-"]
    said = subprocess.run([*words, desk.url("/chunked")], input=large, capture_output=True, timeout=HANGS).stdout
    assert (said, desk.get("ann", "/chunked")) == (b"204", large)
    top = b'<D:propfind xmlns:D="DAV:"><D:prop><D:resourcetype/></D:prop></D:propfind>'
    desk.does("ann", "PROPFIND", "/chunked", 207, iter([top[:9], top[9:]]), Depth="0")


def test_a_body_without_a_length_that_is_too_large(desk):
    for path, end, status in ("/._just", [], 201), ("/chunked-17", [b"y"], 413):
        desk.does("ann", "PUT", path, status, iter([b"x" * (1 << 20)] * 16 + end))
    desk.does("ann", "GET", "/chunked-17", 404)
    desk.does("nobody", "PUT", "/chunked-17", 401, iter([b"x"]))
    desk.does("ann", "POST", "/rooms/plans/v1/check", 411, iter([b"{}"]), raw=True)


def test_passing_files_stay_here(desk):
    for name in "._notes.txt", ".DS_Store", "Thumbs.db", "desktop.ini":
        desk.does("ann", "PUT", f"/{name}", 201, b"mac")
        assert desk.get("ann", f"/{name}") == b"mac"
        desk.does("ann", "PROPFIND", f"/{name}", 207, Depth="0")
        desk.does("bob", "GET", f"/{name}", 404)
    with desk.room() as room:
        assert [it for it in room.children("/") if it.startswith((".", "T", "desk"))] == []
        room.create("/._brought", b"by page or command")
    assert [it for it in desk.names("ann", "/") if "._" in it] == []
    desk.play("ann GET /._brought 404; ann DELETE /._notes.txt 204; ann GET /._notes.txt 404")
    desk.play("nobody GET /.DS_Store 401")


def test_locks(desk):
    desk.does("ann", "PUT", "/both/l", 201, b"1")
    token = desk.locked("ann", "/both/l", Depth="0", Timeout="Infinite, Second-4100000000")
    desk.locked("bob", "/both/l", 423)
    desk.does("bob", "PUT", "/both/l", 423, b"2")
    desk.does("bob", "PROPPATCH", "/both/l", 423, NO_CHANGE)
    desk.does("bob", "PUT", "/both/l", 412, b"2", If=f"({token})")  # (somebody else's)
    desk.does("ann", "PUT", "/both/l", 423, b"2")
    desk.does("ann", "PUT", "/both/l", 204, b"2", If=f"({token})")
    for path in "/both/l", "/both":
        desk.does("bob", "DELETE", path, 423)
    desk.does("bob", "MOVE", "/both/l", 423, to="/both/m")
    assert [token.strip("<>") in desk.told(it, "/both/l", "0") for it in ("bob", "ann")] == [False, True]
    desk.unlock("bob", "/both/l", token, 409)
    for seconds in "1800", "60":
        assert f"Second-{seconds}<" in desk.told("bob", "/both/l", "0")
        desk.does("ann", "LOCK", "/both/l", 200, If=f"({token})", Timeout="Second-60")
    desk.unlock("ann", "/both/l", token)
    desk.does("bob", "PUT", "/both/l", 204, b"3")


@each("method, status, to", [("removed", "DELETE", 204, None), ("moved", "MOVE", 201, "/both/elsewhere")])
def test_what_is_gone_is_locked_no_longer(desk, method, status, to):
    desk.does("ann", "PUT", "/both/gone", 201, b"hers")
    token = desk.locked("ann", "/both/gone", Depth="0")
    desk.does("ann", method, "/both/gone", status, to=to, If=f"({token})")
    desk.does("bob", "PUT", "/both/gone", 201, b"his")
    desk.does("bob", "DELETE", "/both/gone", 204)


@pytest.mark.parametrize("method", ["MOVE", "COPY"])
def test_what_was_in_a_replaced_folder_is_locked_no_longer(desk, method):
    """It is gone, as by DELETE (RFC 4918, 9.8.4)."""
    top = f"/both/over-{method}"
    desk.play(f"ann MKCOL {top} 201; ann PUT {top}/it 201 > hers; ann MKCOL /both/comes 201")
    token = desk.locked("ann", f"{top}/it", Depth="0")
    desk.does("ann", method, "/both/comes", 204, to=top, If=f"</dav/plans{top}/it> ({token})")
    desk.does("ann", "PROPFIND", f"{top}/it", 404, Depth="0")
    desk.does("bob", "PUT", f"{top}/it", 201, b"his")
    desk.ask("ann", "DELETE", "/both/comes")


def test_locks_of_folders(desk):
    desk.does("ann", "MKCOL", "/both/f", 201)
    token = desk.locked("ann", "/both/f", Depth="infinity")
    desk.does("bob", "PUT", "/both/f/new", 423, b"x")
    desk.locked("bob", "/both/f/new", 423)
    desk.does("ann", "PUT", "/both/f/new", 201, b"x", If=f"</dav/plans/both/f> ({token})")
    for path, depth, count in ("/both/f", "1", 2), ("/both/f/new", "0", 1), ("/both/f/new", "1", 1), ("/both", "1", 1):
        root = "<D:lockroot><D:href>/dav/plans/both/f</D:href></D:lockroot>"
        assert [desk.told(it, path, depth).count(root) for it in ("ann", "bob")] == [count] * 2, path
    desk.unlock("ann", "/both/f", token)
    new = desk.locked("bob", "/both/f/made", 201, SHARED)
    desk.locked("ann", "/both/f/made", 423)
    other = desk.locked("ann", "/both/f/made", 200, SHARED)
    desk.does("bob", "PUT", "/both/f/made", 204, b"x", If=f"({new})")
    desk.locked("cat", "/both/f/made", 403)
    desk.unlock("bob", "/both/f/made", new)
    desk.unlock("ann", "/both/f/made", other)


@pytest.mark.parametrize("method", ["MOVE", "COPY"])
def test_a_folder_in_which_others_locked_something(desk, method):
    """Nothing takes its place."""
    top, its = f"/both/in-{method}", f"/both/comes-{method}"
    desk.play(f"ann MKCOL {top} 201; ann PUT {top}/it 201 > hers; bob MKCOL {its} 201")
    token = desk.locked("ann", f"{top}/it", Depth="0")
    desk.does("bob", method, its, 423, to=top)
    desk.unlock("ann", f"{top}/it", token)
    assert desk.get("ann", f"{top}/it") == b"hers"
    desk.does("bob", method, its, 204, to=top)


def test_a_lock_of_the_whole_room(desk):
    token = desk.locked("ann", "/", Depth="0")
    desk.does("ann", "PUT", "/in-it", 423, b"1")
    desk.does("ann", "PUT", "/in-it", 201, b"1", If=f"</dav/plans/> ({token})")
    desk.unlock("ann", "/", token)
    desk.does("ann", "DELETE", "/in-it", 204)


def test_shared_locks_of_a_folder(desk):
    """Whoever has one of them writes what is in it; and none is given beside an exclusive one in it."""
    desk.play("ann MKCOL /both/shared 201; ann PUT /both/shared/it 201 > 1")
    hers = desk.locked("ann", "/both/shared/it", Depth="0")
    desk.locked("bob", "/both/shared", 207, SHARED)
    desk.unlock("ann", "/both/shared/it", hers)
    tokens = {it: desk.locked(it, "/both/shared", 200, SHARED) for it in ("ann", "bob")}
    for user, token in tokens.items():
        desk.does(user, "PUT", "/both/shared/it", 423, b"2")
        desk.does(user, "PUT", "/both/shared/it", 204, b"2", If=f"({token})")
        told = desk.does(user, "LOCK", "/both/shared/it", 200, If=f"({token})", Timeout="Second-60").body
        assert b"<D:timeout>Second-60<" in told
    for user, token in tokens.items():
        desk.unlock(user, "/both/shared/it", token)
    desk.does("bob", "PUT", "/both/shared/it", 204, b"3")


def test_who_holds_what(desk):
    """Whoever may write there is told what is locked, and by whom, and not the token."""
    desk.play("ann MKCOL /both/held 201; ann PUT /both/held/it 201 > 1")
    token = desk.locked("ann", "/both/held/it", Depth="0")
    asked = [("PUT", "/both/held/it"), ("DELETE", "/both/held/it"), ("DELETE", "/both/held"), ("LOCK", "/both/held/it")]
    for method, path in asked:
        told = desk.does("bob", method, path, 423, EXCLUSIVE if method == "LOCK" else b"").body.decode()
        name = "no-conflicting-lock" if method == "LOCK" else "lock-token-submitted"
        assert f"<D:{name}>{OF_IT}</D:{name}>" in told
        assert "/both/held/it is locked by ann" in told
    told = desk.does("bob", "LOCK", "/both/held", 207, EXCLUSIVE).body.decode()
    assert f"<D:response>{OF_IT}<D:status>HTTP/1.1 423 Locked</D:status>" in told
    assert "<D:href>/dav/plans/both/held</D:href><D:status>HTTP/1.1 424 Failed Dependency</D:status>" in told
    for path, depth in ("/both/held/it", "0"), ("/both/held", "1"):
        told = desk.told("bob", path, depth)
        assert "<D:depth>0</D:depth><D:owner>me &amp; mine</D:owner>" in told
        assert f"<D:lockroot>{OF_IT}</D:lockroot>" in told
        assert "locktoken" not in told
    desk.unlock("ann", "/both/held/it", token)


def test_who_holds_what_is_not_for_everybody(desk):
    """Not for who only reads it, nor what they may not see of what is below."""
    with desk.room() as room:
        for it in "/both/top", "/both/top/closed":
            room.mkdir(it)
        room.set_list("/both/top/closed", 3, [HERS])
    tokens = {path: desk.locked("ann", path, status, Depth="0")
              for path, status in (("/read/it", 200), ("/both/top/closed/secret", 201))}
    for user, path in ("bob", "/read"), ("cat", "/read"), ("bob", "/both/top"):
        told = desk.ask(user, "PROPFIND", path, Depth="1").body
        assert [it for it in (b"activelock", b"mine") if it in told] == []
    for method, body in ("DELETE", b""), ("LOCK", EXCLUSIVE):
        told = desk.does("bob", method, "/both/top", 423, body).body
        assert told == b"something in /both/top is locked by somebody else\n"
    for path, token in tokens.items():
        desk.unlock("ann", path, token)
