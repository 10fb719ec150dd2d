"""Requests and answers that are lost, kills, and many at once: each thing is done once, or not at all."""
import os
from concurrent.futures import ThreadPoolExecutor

import pytest

from .desk import asks, has, stop, tag_of

HOW = {"patience": 5}
SHARE = 0.3  # of requests to the room that something happens to
FILES = 30


def kinds_in(room, path):
    return sorted(it.partition("-")[2].partition("-")[0] for it in room.children(path))


def test_losses_change_no_outcome(desk, tell):
    stop(desk.gateway)
    desk.start_gateway(PATIENCE="120")  # (among so many requests one is lost many times in turn)
    desk.loser.share, large = SHARE, os.urandom(150_000)
    for it in range(FILES):
        folder = f"/d{it}"
        desk.does("ann", "MKCOL", folder, 201)
        desk.does("ann", "PUT", f"{folder}/a", 201, b"first")
        desk.does("ann", "PUT", f"{folder}/a", 204, b"second %d" % it)
        desk.play(f"ann MOVE {folder}/a 201 > {folder}/b; ann COPY {folder}/b 201 > {folder}/c")
        desk.play(f"ann DELETE {folder}/c 204")
        desk.does("ann", "PUT", f"{folder}/e", 412, b"", If_Match='"no"')
        assert sorted(desk.names("ann", folder)) == [f"/dav/plans{folder}/", f"/dav/plans{folder}/b"]
    desk.does("ann", "PUT", "/large", 201, large)
    desk.does("ann", "PUT", "/large", 204, iter([large[:0:-1], large[:1]]))  # (in chunks)
    got = desk.does("ann", "GET", "/large", 200)
    assert (got.body, got.fields["etag"]) == (large[::-1], tag_of(large[::-1]))
    assert desk.names("ann", "/large") == ["/dav/plans/large"]
    desk.play("ann MKCOL /large/inside 409; ann GET /large/.room-file 404")
    desk.loser.share = 0.0
    assert all(desk.loser.lost.values()), desk.loser.lost
    with desk.room() as room:
        for it in range(FILES):
            assert (room.children(f"/d{it}"), room.read(f"/d{it}/b")) == ({"b": "file"}, b"second %d" % it)
        assert kinds_in(room, "/large") == ["file", "gone", "pieces"]
    tell(f"dav: lost on the way: {desk.loser.lost}")
    stop(desk.gateway)


def test_no_answer(desk):
    """What got no answer is not known, and the caller is told so; it is not done later."""
    desk.does("ann", "PUT", "/late", 201, b"before")
    desk.loser.share = 1.0
    got = desk.does("ann", "PUT", "/late", 503, b"during")
    assert ("retry-after" in got.fields, got.body.startswith(b"no answer from the room in ")) == (True, True), got.body
    desk.loser.share = 0.0
    with desk.room() as room:
        room.write("/late", b"after")
    for _ in range(4):  # (each seat)
        assert desk.get("ann", "/late") == b"after"
    with desk.room() as room:
        assert room.read("/late") == b"after"


def test_who_is_held_reads_on(desk):
    """What may have acted, and got no answer, is not sent again: who is held meanwhile would be refused all by it."""
    desk.loser.fate = lambda message: "answer" if b"MKDIR" in message else "none"
    desk.does("ann", "MKCOL", "/mine", 503)
    desk.loser.settle()
    desk.hold()
    assert "/dav/plans/mine/" in desk.names("ann", "/")
    desk.does("ann", "MKCOL", "/more", 429)
    desk.release()
    desk.does("ann", "MKCOL", "/more", 201)


def test_a_lock_that_nobody_was_told(desk):
    """What it was to be on was made, and no answer came: its caller does not know the token, and is not held off."""
    desk.loser.fate = lambda message: "answer" if b'"CREATE"' in message else "none"
    desk.locked("ann", "/untold", 503)
    desk.loser.settle()
    desk.does("ann", "PUT", "/untold", 204, b"x")


def test_what_may_have_acted_is_not_sent_in_a_new_session(desk):
    """A new version is written, and no answer comes; somebody else writes theirs; then the room knows no session any
    more. Theirs stands."""
    desk.does("ann", "PUT", "/theirs", 201, b"first")

    def write():
        with desk.room() as room:
            assert room.read("/theirs") == b"hers"
            room.write("/theirs", b"theirs")
    said = desk.as_sessions_end(has('"WRITE"'), "ann", "PUT", "/theirs", b"hers", meanwhile=write)
    assert (said, desk.get("ann", "/theirs")) == (503, b"theirs")


@pytest.mark.parametrize("path, before, cmd", [
    ("/was-small", b"first", "WRITE"), ("/was-large", b"1" * 70_000, "LIST")], ids=["small", "large"])
def test_what_was_refused_is_asked_in_a_new_session(desk, path, before, cmd):
    """A new version is no new document (CREATE), nor that of a large file a document (WRITE). The room refuses these,
    and loses its sessions before it is asked for more: nothing was done yet, and the new version comes."""
    desk.does("ann", "PUT", path, 201, before)
    said = desk.as_sessions_end(asks(cmd, f'"path":"{path}"'), "ann", "PUT", path, b"second", acts=False)
    assert (said, desk.get("ann", path)) == (204, b"second")


def moves_to(desk, host):
    """What was there is gone at once."""
    for it in desk.gateway, desk.front.server:
        stop(it)
    desk.served.kill()
    desk.host = host
    desk.served.start()
    desk.start_front()
    desk.loser.to = desk.at_front
    desk.start_gateway()


def test_another_host_and_back(desk):
    """A room's file goes to another host, which has a front and a gateway of its own (docs/SCALE.md, A standby). Each
    gateway goes on in its own session, and does nothing late. Locks do not come along."""
    desk.does("ann", "PUT", "/it", 201, b"first")
    token = desk.locked("ann", "/it", Depth="0")
    desk.loser.share = 1.0
    desk.does("ann", "PUT", "/it", 503, b"late", If=f"({token})")
    desk.loser.share = 0.0
    moves_to(desk, "-other")
    assert desk.get("ann", "/it") in (b"first", b"late")
    desk.does("ann", "PUT", "/it", 412, b"x", If=f"({token})")
    desk.does("ann", "PUT", "/it", 204, b"second")
    moves_to(desk, "")
    for _ in range(4):  # (each seat)
        assert desk.get("ann", "/it") == b"second"
    desk.does("ann", "PUT", "/it", 204, b"third", If=f"({token})")
    moves_to(desk, "-other")
    assert desk.get("ann", "/it") == b"third"
    desk.does("ann", "PUT", "/it", 204, b"fourth")


def test_many_at_once(desk):
    """More requests of two users than there are sessions."""
    with desk.room() as room:
        room.mkdir("/at-once")
        room.set_list("/", 0, [{"flag": 0x40, "mask": 0x1200A9, "type": 0, "who": "EVERYONE@"},
                               *room.get_list("/")["entries"]])
        room.set_list("/at-once", 0, [{"flag": 3, "mask": 0x1F07FF, "type": 0, "who": "EVERYONE@"}])

    def write(at):
        user = "bob" if at % 5 == 4 else "ann"
        return [desk.ask(user, "PUT", f"/at-once/{at}-{it}", b"%d" % it).status for it in range(6)]
    with ThreadPoolExecutor(10) as crew:
        assert [*crew.map(write, range(10))] == [[201] * 6] * 10
    with desk.room() as room:
        assert len(room.children("/at-once")) == 60
