"""The front's logs: of changes, also where their callers left; of refusals and of WebDAV little; turned over."""
import contextlib
import glob
import json
import os
import shutil
import subprocess
import time

import pytest
from given import each
from nginx import FOLDER, login
from served import put_file, text_of, until, whole

from .conftest import LONGEST_LOGIN, LONGEST_NAME
from .sides import SLOT, SOON, begun, log_of

DONE, REFUSED = b'{"code":0,"size":65536}', b'{"code":9,"error":"FBIG"}'  # the longest, and the shortest
LINE_OF_REFUSAL = 800  # bytes at most, whatever was asked
GROWN = 257 << 20  # bytes: more than the log of changes may have
CHANGE, LOOK = b'{"cmd":"MKDIR","path":"/a"}', b'{"cmd":"STAT","path":"/"}'
MEMBERS = {"cmd": '"RENAME"', "path": '"/a"', "to": '"/b"', "owner": '"bob"', "group": '"eng"', "aclflag": "3",
           "entries": "[]"}  # in the order in which the log has them


def changes_of(front):
    front.settle()
    return text_of(log_of(front)).splitlines()


def test_changes_whose_callers_left(front, peer):
    peer.may.clear()
    lines = [begun(front, "u01", at, f"127.2.0.{at + 1}") for at in range(3)]
    assert until(lambda: len(peer.came) == len(lines), SOON)
    for it in lines:
        it.close()
    time.sleep(1)
    assert changes_of(front) == []
    peer.may.set()
    until(lambda: len(changes_of(front)) == len(lines), SOON)
    told = [json.loads(it) for it in changes_of(front)]
    assert sorted((it["user"], it["from"], it["slot"][-4:], it["asked"]) for it in told) == [
        ("u01", f"127.2.0.{at + 1}", f"/0/{at}", CHANGE.decode()) for at in range(len(lines))]


def test_a_change_without_an_answer(front, peer):
    """It may have acted: also where what stands before the room says that none came."""
    said = {502: b""} | {it: whole(b"", it) for it in (500, 503, 504)}
    for status, peer.said in said.items():
        assert front.status("u01", "POST", f"{SLOT}{status}", CHANGE) == status
    assert [(it["status"], it["asked"]) for it in map(json.loads, changes_of(front))] == [
        (str(it), CHANGE.decode()) for it in said]


def test_a_change_in_the_room_of_the_longest_name(front):
    """With the greatest number that a slot has."""
    target = f"{SLOT.replace('plans', LONGEST_NAME)}4294967295"
    assert front.status("u01", "POST", target, CHANGE) == 200
    assert [(it["by"], f"/rooms/{it['slot']}") for it in map(json.loads, changes_of(front))] == [
        (f"u01@{LONGEST_NAME}", target)]


def test_a_login_of_any_letters(fronted, gateway):
    """That a roster may have: it is counted, and held, also by WebDAV; and a guess of it has its name, as long as a
    password may be."""
    front, user = fronted([LONGEST_LOGIN], dav=gateway.at), LONGEST_LOGIN
    assert front.status(user, "POST", SLOT + "1", CHANGE) == 200
    assert [json.loads(it)["by"] for it in changes_of(front)] == [f"{user}@plans"]
    put_file(os.path.join(front.folder, "held", f"{user}@plans"), "")
    for method, target, body, status in (("POST", SLOT + "2", CHANGE, 429), ("POST", SLOT + "2", LOOK, 200),
                                         ("PUT", "/dav/plans/x", b"x", 429), ("GET", "/dav/plans/x", b"", 200)):
        assert front.status(user, method, target, body) == status, (method, status)
    for letters in 2, 256, 300:
        assert front.status(None, "GET", "/whoami", more=[login(user, "x" * letters)]) == 401
    front.settle()
    told = text_of(log_of(front, "fileroom-logins.log")).splitlines()
    assert [it.rpartition(" as ")[2] for it in told] == [f'"{user}"'] * 2


@each("length, count", [("a look", len(LOOK), 0), ("the longest", 3999, 0), ("one that is padded", 4000, 1)])
def test_looks(front, length, count):
    """What a slot keeps of one that is longer counts as a change."""
    assert front.status("u01", "POST", SLOT + "1", LOOK.rjust(length)) == 200
    assert len(changes_of(front)) == count


def by_numbers(name):
    """A member's name with each letter by its number, in small letters and capitals, and with all of them."""
    for letters in "x", "X":
        its = [f"\\u{ord(it):04{letters}}" for it in name]
        yield from (name[:at] + it + name[at + 1:] for at, it in enumerate(its))
        yield "".join(its)


def test_a_member_by_numbers_of_its_letters(front, peer):
    """It is told as any other: nothing hides where a thing went, or whose it became."""
    peer.said, plain = whole(DONE), "{" + ",".join(f'"{name}":{its}' for name, its in MEMBERS.items()) + "}"
    odd = [plain.replace(f'"{name}"', f'"{it}"') for name in MEMBERS for it in by_numbers(name)]
    for at, body in enumerate(odd):
        assert front.status("u01", "POST", f"{SLOT}{at}", body.encode()) == 200
    assert [json.loads(it)["asked"] for it in changes_of(front)] == [plain] * len(odd)


def test_what_is_done_is_told_whole(front, peer):
    peer.said, body = whole(DONE), '{"cmd":"MKDIR","path":"/%s"}' % ("p" * 900)
    assert front.status("u01", "POST", SLOT + "1", body.encode()) == 200
    assert [json.loads(it)["asked"] for it in changes_of(front)] == [body]


@each("pad", [("newlines", b"\n"), ("quotes", b'"'), ("control letters", b"\1")])
def test_a_refusal_is_cut(front, peer, pad):
    """However it is written."""
    peer.said = whole(REFUSED)
    assert front.status("u01", "POST", SLOT + "1", b'{"cmd":"MKDIR","path":"/p' + pad * 900 + b'"}') == 200
    told = changes_of(front)
    assert (len(told), len(told[0]) <= LINE_OF_REFUSAL) == (1, True)


@pytest.mark.parametrize("target", ["/dav/plans/secret%20plan", "/d%61v/plans/secret%20plan",
                                    "/x/../dav/plans/secret%20plan"])
def test_a_path_of_webdav_is_not_told(fronted, memory, target):
    front = fronted(dav=os.path.join(memory, "no.sock"))
    assert front.status("u01", "GET", target) == 502
    front.settle()
    told = text_of(log_of(front, "access.log")).splitlines()
    assert (len(told), "dav" in told[0], "secret" in told[0]) == (1, True, False)


@pytest.fixture
def rotate(front, tmp_path):
    """By logrotate with the front's file, whose systemctl signals this front: whether the log of changes was turned
    over."""
    if os.geteuid() != 0 or not shutil.which("logrotate", path="/usr/sbin:/usr/bin"):
        pytest.skip("this machine lacks logrotate, or root")
    rules = text_of(os.path.join(FOLDER, "logrotate.conf")).replace("root fileroom-front", "root root")
    (tmp_path / "rules").write_text(rules.replace("/var/log/fileroom/changes.log", log_of(front)))
    asked = "kill --signal=USR1 --kill-whom=main nginx"
    (tmp_path / "systemctl").write_text(f'#!/bin/sh\n[ "$*" = "{asked}" ] && kill -USR1 {front.server.pid}\n')
    (tmp_path / "systemctl").chmod(0o755)
    words = ["logrotate", "--state", tmp_path / "state", tmp_path / "rules"]

    def has_it():
        """(What nginx has open goes meanwhile.)"""
        with contextlib.suppress(OSError):
            files = glob.glob(f"/proc/{front.server.pid}/fd/*")
            return any(os.path.samefile(it, log_of(front)) for it in files if os.path.exists(it))
        return False

    def rotated(*how):
        front.settle()  # (a log without a line is left as it is)
        before = os.stat(log_of(front)).st_ino
        subprocess.run([*words, *how], env={"PATH": f"{tmp_path}:/usr/sbin:/usr/bin:/sbin:/bin"}, check=True)
        until(has_it)
        return os.stat(log_of(front)).st_ino != before
    return rotated


def test_logs_are_turned_over(front, rotate):
    """nginx writes on in a new log; one that has grown does not wait a day."""
    for how, is_large, is_turned in (["--force"], False, True), ([], False, False), ([], True, True):
        front.once("u02", "POST", SLOT + "1", CHANGE)
        if is_large:
            os.truncate(log_of(front), GROWN)
        assert rotate(*how) == is_turned
    front.once("u02", "POST", SLOT + "2", CHANGE)
    assert len(changes_of(front)) == 1
