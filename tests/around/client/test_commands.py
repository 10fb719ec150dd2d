"""Odd names, settings, and what the state file is for. (What each command prints: test_told.py.)"""
import os
import stat

import pytest

ODD = ["my notes", "it's \"so\"", "-x", "--help", "ünï ☃", "a\\b", "%41?#", "*", "\u202etxt.exe", "x" * 64]


def test_odd_names(desk):
    with desk.room() as room:
        for name in ODD:
            room.put(f"/{name}", name.encode())
        assert set(room.children("/")) == set(ODD)
        assert [room.read(f"/{it}") for it in ODD] == [it.encode() for it in ODD]
    for name in ODD:
        desk.prints("get", f"/{name}", want=name)
        told = name.replace("\u202e", "\\u202e")
        desk.prints("get", f"/{name}", ".", want=f"{len(name.encode())} bytes to ./{told}\n")
    assert "\\u202etxt.exe\n" in desk.does("ls")[1]
    with desk.room() as room:
        room.create("/.room-x", b"")
    desk.refuses("get", "/.room-x", ".", status=5, want=".room-x is no name of a file here: name another one")
    desk.prints("put", "--", "-x", "/other", want="/other: 2 bytes\n")
    desk.prints("acl", "/other", "add", "allow -x read", "allow group:-- read", want="/other: list set\n")
    assert "allow -x read\nallow group:-- read\n" in desk.does("acl", "/other")[1]
    desk.prints("chown", "--", "-x:eng", "/other", want="/other: owner -x, group eng\n")
    desk.refuses("rm", b"/\xff", status=2, want="a name is no UTF-8")


@pytest.mark.front
def test_settings_of_a_front(desk):
    url, secret = desk.front_url, desk.path("secret")
    desk.file(".config/room", f'url = "{url}/"\nlogin = "ann"\npassword-file = "{secret}"\n'.encode())
    plain = lambda *words: desk.does(*words, own_settings=False)  # (without flags but its own)
    assert plain("mkdir", "/a") == (0, "/a: made\n", "")
    assert plain("ls") == (0, "a/\n", "")
    states = [os.stat(it) for it in os.scandir(desk.path(".local/state/room"))]
    assert [stat.S_IMODE(it.st_mode) for it in states] == [0o600] * 2
    assert stat.S_IMODE(os.stat(desk.path(".local/state/room")).st_mode) == 0o700
    desk.file("secret", b"wrong\n", 0o600)
    wrong = ("answered 401: the login or its password is wrong: correct --login or the password file; nothing was "
             "done, and nothing is kept")
    assert plain("ls") == (3, "", f"room: {url} {wrong}\n")
    os.chmod(secret, 0o640)
    assert plain("ls") == (5, "", f"room: others may read {secret}: chmod 600 {secret}\n")
    assert plain("--room-user", "ann", "--url", desk.url, "ls") == (0, "a/\n", "")


def test_state_file_is_one_users_and_one_process_has_it(desk):
    state = desk.path("ann.json")
    with desk.room() as room:
        room.mkdir("/a")
        desk.refuses("ls", flags=["--patience", "0.2"], status=5,
                     want=f"another process uses {state}: wait for it, or give --state")
    for flags in ["--room-user", "bob"], ["--url", desk.url + "/x"]:
        desk.refuses("ls", flags=flags, status=5,
                     want=f"{state} is for ann at {desk.url}: name another file with --state")
    desk.refuses("ls", flags=["--url", desk.url + "/x", "--state", "x"],
                 want="BAD_ROUTE (41): the room has no such route: correct the URL")
    desk.file("ann.json", b"{}")
    desk.refuses("ls", status=5, want=f"{state} is no state file: name another one with --state")
