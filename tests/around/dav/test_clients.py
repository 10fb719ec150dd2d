"""Programs that others wrote: litmus, cadaver, rclone."""
import os
import random
import re
import subprocess
import unicodedata

import pytest
from room_client import files

from .desk import PASSWORDS, laid, rclone_of

HOW = {"is_lossy": False}
# What has no place in a room: properties of one's own choice.
DEAD_PROPERTIES = [("props", 6, "propset"), ("props", 26, "propmanyns"), ("props", 27, "propget"),
                   ("locks", 11, "owner_modify"), ("locks", 26, "owner_modify"), ("locks", 33, "owner_modify")]
PASSED = {"basic": 16, "copymove": 13, "props": 11, "locks": 38, "http": 4}
MANY = 400  # small files


def test_litmus(desk):
    words = ["litmus", "-k", desk.url(), "ann", PASSWORDS["ann"]]
    said = subprocess.run(words, cwd=desk.folder, capture_output=True, text=True, timeout=900).stdout
    failed, passed, suite = [], {}, ""
    for line in said.splitlines():
        begins = re.match(r"-> running `(\w+)'", line)
        suite = begins[1] if begins else suite
        fails = re.search(r"([0-9]+)\. (\w+)\.* *FAIL", line)
        if fails:
            failed.append((suite, int(fails[1]), fails[2]))
        sums = re.match(r"<- summary for `(\w+)': of [0-9]+ tests run: ([0-9]+) passed", line)
        if sums:
            passed[sums[1]] = int(sums[2])
    assert failed == DEAD_PROPERTIES, said
    assert passed == PASSED


def test_cadaver(desk, tmp_path):
    (tmp_path / ".netrc").write_text(f"machine 127.0.0.1 login ann password {PASSWORDS['ann']}\n")
    os.chmod(tmp_path / ".netrc", 0o600)
    (tmp_path / "up").write_text("hello\n")
    script = ("mkcol d\ncd d\nput up a.txt\nls\nlock a.txt\nput up a.txt\nunlock a.txt\nmove a.txt b.txt\n"
              "copy b.txt c.txt\nget c.txt down\ndelete b.txt\nls\nquit\n")
    done = subprocess.run(["cadaver", desk.url()], input=script, cwd=tmp_path, capture_output=True, text=True,
                          timeout=300, env={**os.environ, "HOME": str(tmp_path)})
    assert "failed" not in done.stdout, done.stdout
    assert (tmp_path / "down").read_text() == "hello\n"
    with desk.room() as room:
        assert (room.children("/d"), room.read("/d/c.txt")) == ({"c.txt": "file"}, b"hello\n")


@pytest.fixture
def rclone(desk, tmp_path):
    return rclone_of(desk, str(tmp_path))


def test_odd_names_large_files_and_many(desk, rclone, tmp_path):
    rand = random.Random(3)
    its = {"with blanks/two  of them.txt": b"a", "Käse/Öl für 5 €.txt": b"b", "100%/a#b?c;d=e&f+g.txt": b"c",
           "empty": b"", "just/65536": rand.randbytes(65536), "more/65537": rand.randbytes(65537),
           "large.bin": rand.randbytes(1_000_000), "日本/語.txt": b"d", "'quoted' \"too\".txt": b"e",
           **{f"many/{it % 8}/{it}.txt": b"%d" % it for it in range(MANY)}}
    top, down = laid(str(tmp_path / "odd"), its), str(tmp_path / "down")
    rclone("copy", top, "R:odd")
    rclone("check", "--download", top, "R:odd")
    with desk.room() as room:
        for at, data in its.items():
            if not at.startswith("many"):
                assert files.read(room, f"/odd/{at}") == data, at
        assert sum(len(room.children(f"/odd/many/{it}")) for it in range(8)) == MANY
    laid(top, {"large.bin": rand.randbytes(500_000)})
    os.remove(os.path.join(top, "empty"))
    rclone("sync", top, "R:odd")
    rclone("copy", "R:odd", down)
    assert subprocess.run(["diff", "-r", top, down]).returncode == 0


def test_folders_with_letters_in_two_parts(desk):
    """What has such a name in the room is found by it, and takes new things."""
    apart = unicodedata.normalize("NFD", "/Öl/Käse")
    outer, inner = apart.split("/")[1:]
    with desk.room() as room:
        room.mkdir(f"/{outer}")
    desk.does("ann", "MKCOL", apart, 201)
    for name in "ä.txt", unicodedata.normalize("NFD", "ü.txt"):
        desk.does("ann", "PUT", f"{apart}/{name}", 201, b"x")
        assert desk.get("ann", f"{apart}/{name}") == b"x"
    token = desk.locked("ann", f"{apart}/{name}")
    desk.does("ann", "PUT", f"{apart}/{name}", 204, b"y", If=f"({token})")
    assert desk.get("ann", f"/{outer}/Käse/ü.txt") == b"y"
    desk.unlock("ann", f"{apart}/{name}", token)
    desk.does("ann", "MOVE", f"{apart}/{name}", 201, to=f"{apart}/new")
    with desk.room() as room:
        assert room.children(f"/{outer}") == {unicodedata.normalize("NFC", inner): "folder"}
        assert sorted(room.children(f"/{outer}/Käse")) == ["new", "ä.txt"]
