"""The access report as a table and as a page."""
import csv
import html
import io
import os
import pty
import re
import subprocess
import sys

import pytest
from given import each
from room_client import BadWords, files, report
from room_client.reading import manifest_at
from served import HANGS

from .desk import CLIENT, COMMAND

MARKUP = '<b>"&\'=x'


def cells(page):
    """The texts of a page's cells, row by row."""
    return [[html.unescape(re.sub("<[^>]*>", "", it)) for it in re.findall("<t[hd] [^>]*>(.*?)</t[hd]>", row)]
            for row in re.findall("<tr>.*?</tr>", page)]


@pytest.fixture
def told(desk):
    """What the program reports of a room, once something more was done in it."""
    with desk.room() as room:
        room.mkdir("/plans")
        room.create(f"/plans/{MARKUP}", b"")
        room.set_list(f"/plans/{MARKUP}", 0, [{"flag": 0, "mask": 0x1200AE, "type": 0, "who": "bob"},
                                              {"flag": 0, "mask": 0x1301FF, "type": 0, "who": "OWNER@"}])

    def told(does=lambda room: None):
        with desk.room() as room:
            does(room)
        desk.served.kill()
        status, text, err = desk.served.report("access")
        assert (status, err) == (0, b"")
        return text
    return told


def table(desk, text, **how):
    """The rows of the table that the command makes of it."""
    status, out, err = desk.does("report", "--csv", stdin=text, own_settings=False)
    assert (status, err, out[0]) == (0, "", "\ufeff")
    return list(csv.reader(io.StringIO(out[1:], newline=""), **how))


def test_report_as_a_table(desk, told):
    rows = table(desk, told())
    assert rows[0][:6] == ["path", "user", "rights", "mask", "list/read", "add-file/write"]
    assert rows[1] == ["/", "ann", "all", "001f07ff", *["yes"] * 16]
    assert rows[3][:5] == ["/", "eng", "none", "00000000", ""]
    rights = "add-file,write,add-folder,append,read-named-attrs,traverse,execute,read-attributes,read-acl,synchronize"
    assert rows[8][:6] == [f"/plans/{MARKUP}", "bob", rights, "001200ae", "", "yes"]
    assert len(rows) == 10


def test_report_at_a_terminal(desk, told):
    """Whoever types is told that the command reads what is typed."""
    ours, theirs = pty.openpty()
    os.write(ours, told() + b"\x04")
    done = subprocess.run([COMMAND, "report"], stdin=theirs, capture_output=True, text=True, timeout=HANGS,
                          env=desk.environment())
    os.close(ours)
    os.close(theirs)
    said = "room: it reads standard input; Ctrl-D ends it\n"
    assert (done.returncode, done.stderr, "ann" in done.stdout) == (0, said, True)


def test_report_as_a_page(desk, told):
    desk.file("access", told())
    status, text, err = desk.does("report", "--html", "access", own_settings=False)
    assert (status, err) == (0, "")
    legend, *rows = cells(text)
    assert rows[:2] == [["object", "ann", "bob", "eng"], ["/", "all", "view", "none"]]
    path, anns, bobs = rows[3][:3]
    assert (path, anns[:9], bobs[:17]) == (f"/plans/{MARKUP}", "change + ", "add-file, write, ")
    assert "view: see it and what is in it" in legend
    assert "<b>" not in text


def test_report_has_no_formula(desk, told):
    """Not where a program parts cells at ; either."""
    rows = table(desk, told(lambda room: room.create("/plans/;=1+1;", b"")), delimiter=";")
    assert [cell for row in rows for cell in row if cell.startswith("=")] == []
    assert any("/plans/;=1+1;" in row[0] for row in rows)


def test_report_has_a_large_file_as_one(desk, told):
    """It is one object, but for what is in it and has other rights."""
    pieces = []

    def does(room):
        for path in "/plans/lake", "/plans/shared":
            files.write(room, path, bytes(70_000))
        room.mkdir("/plans/.room-pieces-0123456789abcdef")
        pieces.append(f"/plans/shared/{manifest_at(room, '/plans/shared').folder}/001")
        room.set_list(pieces[0], 0, [{"flag": 0, "mask": 1, "type": 0, "who": "bob"}])
    paths = dict.fromkeys(it[0] for it in table(desk, told(does))[1:])
    assert [*paths] == ["/", "/plans", "/plans/.room-pieces-0123456789abcdef", f"/plans/{MARKUP}", "/plans/lake",
                        "/plans/shared", *pieces]


LINE = f"001f07ff {'ann':32} /\n".encode()


@each("text, says", [
    ("cut", b"001f07ff ann", "in the middle of a line"), ("a word", b"hello\n", "line 1 is none"),
    ("a mask that is none", LINE + LINE.replace(b"001f07ff", b"00000800"), "line 2 is none"),
    ("a narrow name", b"001f07ff ann /\n", "line 1 is none"), ("no end", LINE[:-1], "in the middle")])
def test_report_that_is_none(text, says):
    with pytest.raises(BadWords, match=says):
        report.read_report(text)


def test_report_of_nothing():
    assert report.read_report(b"") == []


def test_what_else_this_machine_lacks_is_not_told_of_the_output(tmp_path):
    lacks = f"import sys; sys.path.insert(0, {CLIENT!r}); from room_client import command\n" \
        "def make_report(asked): raise OSError(24, 'Too many open files')\n" \
        "command.make_report = make_report; sys.exit(command.main(['report', 'it']))"
    done = subprocess.run([sys.executable, "-B", "-c", lacks], capture_output=True)
    assert (done.returncode, done.stdout, done.stderr) == (5, b"", b"room: Too many open files\n")


def test_output_that_takes_nothing(tmp_path):
    """A full disk is told in a line, as a fault of this machine."""
    (tmp_path / "it").write_text(f"001f07ff {'ann':32} /a\n")
    with open("/dev/full", "wb") as full:
        done = subprocess.run([COMMAND, "report", "--csv", tmp_path / "it"], stdout=full, stderr=subprocess.PIPE)
    assert (done.returncode, done.stderr) == (5, b"room: standard output: No space left on device\n")
