"""The front's log of changes, and `fileroom-admin log`: each change once, however its request is written."""
import base64
import contextlib
import gzip
import itertools
import json
import os
import subprocess
import sys

import pytest
from given import each
from nginx import Front
from served import HANGS, HERE, Line, Room, bytes_of, message, put_file, text_of

from .contents import INSIDE, measured
from .machines import ADMIN

CLIENT = os.path.join(HERE, "..", "client", "room")
SID = "0123456789abcdef0123456789abcdef"
USERS = {"ann": "ann-word", "bob": "bob-word"}
MOST = 70 << 10  # KiB of memory, however long the log is
LONGEST = 7500  # bytes of a line of the log, whatever is asked
LOG = "var/log/fileroom"
TIME = "2026-11-28T09:00:00+00:00"


# Logs that were written before

def log_of(root, lines, name="changes.log"):
    """A root whose log has these, by ann."""
    about = {"time": TIME, "from": "::1", "user": "ann", "status": "200", "length": "10"}
    os.makedirs(os.path.join(root, LOG), exist_ok=True)
    kind = gzip.open if name.endswith(".gz") else open
    with kind(os.path.join(root, LOG, name), "wt", encoding="utf-8") as file:
        for at, line in enumerate(lines):
            asked = line.pop("asked", None) or json.dumps(line.pop("body"))
            slot = f"plans/v1/sessions/{SID}/slots/{line.pop('slot', at)}/1"
            file.write(json.dumps(about | {"slot": slot, "asked": asked} | line, separators=(",", ":")) + "\n")
    return root


def tells(root, *words):
    """The status, who did what, and what is told as a fault."""
    line = [sys.executable, "-B", ADMIN, "--root", root, "log", "plans", *words]
    done = subprocess.run(line, capture_output=True, text=True, timeout=HANGS)
    return done.returncode, [it.split("  ", 3)[1::2] for it in done.stdout.splitlines()], done.stderr


ENTRY = {"type": 0, "flag": 0, "mask": 1, "who": "ann"}
ODD = [{"cmd": "SETLIST", "path": "/z", "aclflag": 0, "entries": its} for its in (
    [ENTRY | {"flag": "x"}], [ENTRY | {"mask": 1e999}], [ENTRY | {"type": None}], [ENTRY | {"who": 7}], [7], 7)]
ODD += [{"cmd": "RENAME", "path": "/z", "to": 7}, {"cmd": "CHOWN", "path": "/z", "owner": [], "group": "x"},
        {"cmd": "MKDIR", "path": ["/z"]}, {"cmd": 7, "path": "/z"}, {"cmd": "CHOWN", "path": "/z"}, [1]]


def test_odd_forms_that_no_room_took(folder):
    """Of what no room took, since it was down, its text alone is known: each is told by itself, whatever it says, and
    whether it is a command at all. (How deep a text may go before it is none is Python's own.)"""
    texts = [*map(json.dumps, ODD), "[" * 1200]
    texts += ['{"path":' + "[" * it + "]" * it + "}" for it in range(900, 1000, 3)]
    texts += [" " * 3000 + "[7]", " " * 300]
    status, lines, faults = tells(log_of(folder, [{"asked": it, "status": "502", "length": "-"} for it in [
        *texts, '{"cmd":"MKDIR","path":"/last"}']]))
    assert (status, faults, len(lines), lines[-1:]) == (0, "", len(texts) + 1, [["ann", "no answer  MKDIR /last"]])
    begin = "no answer  in an odd form"
    for text, (_, line) in zip(texts, lines):
        cut, is_deep = f" (cut, or no command: {len(text)} letters are kept)", text.startswith('{"path":[[')
        shown = text.strip()[:200] or "blanks alone"
        assert line in [f"{begin}{it}: {shown}" for it in ("", cut) if is_deep or bool(it) != text.startswith("{")]


NONE, REFUSED, NOT_KEPT, DONE = ("502", "-"), ("409", "36"), ("409", "37"), ("200", "10")


@each("told, answers", [
    ("not kept since", "no answer", [NONE, NOT_KEPT]), ("misordered before", "no answer", [REFUSED, NONE]),
    ("refused twice", "refused", [REFUSED, REFUSED]), ("done at last", "done", [REFUSED, NONE, DONE]),
    ("done at first", "done", [DONE, NONE, NOT_KEPT])])
def test_what_may_have_acted(folder, told, answers):
    """What had no answer may have, also where it was refused before, as misordered, or since, as not kept."""
    log_of(folder, [{"status": status, "length": length, "slot": 0, "body": {"cmd": "REMOVE", "path": "/x"}}
                    for status, length in answers])
    assert tells(folder) == (0, [["ann", f"{told}  REMOVE /x  ({len(answers)} times)"]], "")


def test_owners_and_lists_within_a_large_file(folder):
    """Among the pieces of a large file too each new owner, each list and each odd command is told."""
    inside, entry = f"/c/{INSIDE}", ENTRY | {"mask": 0x1F07FF, "who": "eve"}
    log_of(folder, [{"body": {"cmd": cmd, "path": path, **more}} for cmd, path, more in (
        ("MKDIR", inside, {}), ("CREATE", f"{inside}/000", {}),
        ("SETLIST", f"{inside}/000", {"aclflag": 0, "entries": [entry]}),
        ("CHOWN", f"{inside}/000", {"owner": "bob", "group": "eng"}),
        ("CHOWN", inside, {"owner": "bob", "group": "eng"}), ("CHOWN", inside, {"owner": "eve", "group": "eng"}),
        ("TURN", f"{inside}/000", {}))])
    of = "of the large file /c"
    assert tells(folder) == (0, [["ann", f"done  {it}"] for it in (
        f"CREATE+MKDIR {of} (2 requests)", f"SETLIST {inside}/000: allow eve all  (before: not known)",
        f"CHOWN {of} to bob:eng (2 requests)", f"CHOWN {of} to eve:eng (1 requests)", f"TURN {inside}/000")], "")


def test_a_log_of_any_length(folder):
    """It takes little memory, whether each line is a change, or a part of one file by a slot of its own. Each change is
    told in its turn; what is sent again is told once, unless many others came between."""
    long, many, again = "x" * 1000, 30_000, [("again", "/again")]
    log_of(folder, ({"slot": at, "body": {"cmd": "MKDIR", "path": path}} for at, path in itertools.chain(
        again, ((at, f"/{at}-{long}") for at in range(many)), again * 2, (
            (f"f{at}", f"/f/{INSIDE}/{at}-{long}") for at in range(many)))), "changes.log.1.gz")
    status, faults, memory = measured(sys.executable, "-B", ADMIN, "--root", folder, "log", "plans")
    assert (status, faults, memory < MOST) == (0, "", True), memory
    lines = [line.replace(long, "") for _, line in tells(folder)[1]]
    assert lines == ["done  MKDIR /again", *(f"done  MKDIR /{at}-" for at in range(many)),
                     "done  MKDIR /again  (2 times)", f"done  MKDIR of the large file /f ({many} requests)"]
    status, lines, _ = tells(folder, "--path", f"/f/{INSIDE}/9-{long}")
    assert (status, len(lines)) == (0, 1)


def test_a_log_that_was_cut_short(folder):
    """Of a file that is not whole, as one that was being compressed when the machine ended, all is told that is there,
    and that it is not whole; one that stands there whole too is read in its place."""
    made = lambda it, times=1: [{"slot": it, "body": {"cmd": "MKDIR", "path": f"/{it}"}} for _ in range(times)]
    for it, name in (0, "changes.log.2.gz"), (1, "changes.log.1.gz"):
        log_of(folder, made(it, 2000), name)
        path = os.path.join(folder, LOG, name)
        os.truncate(path, os.path.getsize(path) - 20)
    log_of(folder, made(1, 2000), "changes.log.1")
    log_of(folder, made(2))
    status, lines, faults = tells(folder)
    assert (status, [line.split()[2] for _, line in lines]) == (1, ["/0", "/1", "/2"])
    assert faults == f"fileroom-admin: 1 lines of the log cannot be read: 1 after {TIME}\n"


CHANGES = [{"body": {"cmd": "MKDIR", "path": "/a"}}, {"body": {"cmd": "RENAME", "path": "/a/b", "to": "/a/c"}},
           {"body": {"cmd": "SETLIST", "path": "/a/c", "aclflag": 0, "entries": [ENTRY]}},
           {"body": {"cmd": "CHOWN", "path": "/a/c", "owner": "bob", "group": "staff"}},
           {"body": {"cmd": "MKDIR", "path": "/a/x"}, "user": "bob", "status": "409", "length": "36"},
           {"body": {"cmd": "MKDIR", "path": "/d"}, "time": "2999-01-01T00:00:00+00:00"}]


@pytest.mark.parametrize("words, paths", [
    ("--user bob", ["/a/x"]), ("--path /a/c", ["/a/b", "/a/c:", "/a/c"]), ("--since 1h", ["/d"]),
    ("--path /a/b/x", ["/a/b"]), ("--path /a/c/x/y", ["/a/b"]), ("--path /a/cx", []),
    ("--since 2020-01-01", ["/a", "/a/b", "/a/c:", "/a/c", "/a/x", "/d"]), ("--since 2999-02-01", [])])
def test_some_of_it(folder, words, paths):
    """By user, path, and time. What was in a folder went, or came, with it."""
    status, lines, faults = tells(log_of(folder, [{**it} for it in CHANGES]), *words.split())
    assert (status, [line.split()[2] for _, line in lines]) == (0, paths)
    begins = f"fileroom-admin: the log here begins {TIME}: what was before is not known\n"
    assert faults == begins * ("2020" in words)


def test_a_log_that_has_nothing(folder):
    """As on a machine that took the place of another, whose log stayed there."""
    for root in folder, log_of(folder, []):
        status, lines, faults = tells(root, "--since", "3d")
        assert (status, lines) == (0, [])
        assert faults == "fileroom-admin: the log here has nothing: what was done is not known\n"


def test_no_time(folder):
    assert tells(log_of(folder, []), "--since", "soon")[0] == 1


def test_a_line_that_a_full_disk_cut(folder):
    """The next one stands behind it in the same line, and is told, as what is like it in a command is not."""
    name = 'x{"time":"2020'
    log_of(folder, [{"body": {"cmd": "MKDIR", "path": f"/{it}"}} for it in ("a", name, "cut", "b")])
    path = os.path.join(folder, LOG, "changes.log")
    *whole, cut, last = text_of(path).splitlines(keepends=True)
    put_file(path, "".join([*whole, cut[:70], last]))
    status, lines, faults = tells(folder)
    assert (status, [it.split()[2] for _, it in lines]) == (1, ["/a", f"/{name}", "/b"])
    assert faults == f"fileroom-admin: 1 lines of the log cannot be read: 1 after {TIME}\n"


def test_a_log_that_was_turned_over_and_a_line_that_cannot_be_read(folder):
    log_of(folder, [{**it} for it in CHANGES], "changes.log.2.gz")
    put_file(os.path.join(folder, LOG, "changes.log.1"), "no line\n")
    status, lines, faults = tells(folder)
    last = CHANGES[-1]["time"]
    assert (status, len(lines)) == (1, 6)
    assert faults == f"fileroom-admin: 1 lines of the log cannot be read: 1 after {last}\n"


def test_each_place_of_lines_that_cannot_be_read(folder):
    """As far as somebody reads them."""
    log_of(folder, [{"body": {"cmd": "MKDIR", "path": f"/{it}"}, "time": f"2026-02-01T10:00:{it:02}+00:00"}
                    for it in range(30)])
    path = os.path.join(folder, LOG, "changes.log")
    lines = text_of(path).splitlines(keepends=True)
    told = lambda: tells(folder)[2]
    put_file(path, "".join(["cut\n", *lines[:7], "cut\n", "cut\n", *lines[7:]]))
    assert told() == ("fileroom-admin: 3 lines of the log cannot be read: 1 at the beginning, "
                      "2 after 2026-02-01T10:00:06+00:00\n")
    put_file(path, "".join(f"{it}cut\n" for it in lines))
    assert told().startswith("fileroom-admin: 30 lines of the log cannot be read: 1 after 2026-02-01T10:00:00+00:00, ")
    assert told().endswith("1 after 2026-02-01T10:00:19+00:00, and 10 places more\n")


# The log of a real front

class Asked:
    """A room behind a front, and what its log then tells."""

    def __init__(self, folder):
        self.folder, self.room, self.seen = folder, Room(folder).start(), 0
        self.front = Front(os.path.join(folder, "front"), USERS, {"plans": self.room.port},
                           os.path.join(HERE, "..", "page"))
        self.log = os.path.join(folder, "front", "work", "changes.log")
        self.numbers = dict.fromkeys(USERS, 0)
        for user in USERS:
            self.once(user, "", b'{"slots":4}')
        os.makedirs(os.path.join(folder, "root", "var", "log"))
        os.symlink(os.path.dirname(self.log), os.path.join(folder, "root", LOG))

    def once(self, user, target, body):
        sid = SID if user == "ann" else SID[::-1]
        return self.front.once(user, "POST", f"/rooms/plans/v1/sessions/{sid}{target}", body)

    def sends(self, body, user="ann", number=None):
        """Sends a command, as text or as it stands; its reply's code."""
        self.numbers[user] += number is None
        body = body if isinstance(body, bytes) else json.dumps(body).encode()
        answer = self.once(user, f"/slots/0/{number or self.numbers[user]}", body)
        return answer and json.loads(answer.body)["code"] if answer and answer.body[:1] == b"{" else None

    def new(self):
        """What the log has since the last time, without times and addresses."""
        self.front.settle()
        status, lines, faults = tells(os.path.join(self.folder, "root"))
        assert (status, faults) == (0, "")
        seen, self.seen = self.seen, len(lines)
        return ["  ".join(it) for it in lines[seen:]]


@pytest.fixture(scope="module")
def front(tmp_path_factory):
    it = Asked(str(tmp_path_factory.mktemp("m")))
    yield it
    it.room.kill()
    it.front.server.kill()
    it.front.server.wait()


@pytest.fixture
def asked(front):
    """The same, with nothing new in its log."""
    front.new()
    return front


def test_each_command(asked):
    """What changes something has a line, with whether it was refused."""
    data = base64.b64encode(bytes(65536)).decode()
    entry = [{"type": 0, "flag": 0x43, "mask": 0x1200A9, "who": "staff"},
             {"type": 1, "flag": 0, "mask": 2, "who": "eve"}]
    for body in ({"cmd": "MKDIR", "path": "/a"}, {"cmd": "CREATE", "path": "/a/b", "data": "aGk="},
                 {"data": data, "cmd": "WRITE", "path": "/a/b"}, {"cmd": "APPEND", "path": "/a/b", "data": "aGk="},
                 {"cmd": "RENAME", "path": "/a/b", "to": "/a/c", "keep": False},
                 {"aclflag": 0, "cmd": "SETLIST", "path": "/a/c", "entries": entry},
                 {"cmd": "CHOWN", "path": "/a/c", "owner": "bob", "group": "staff"},
                 {"cmd": "REMOVE", "path": "/a/none"}, {"cmd": "REMOVE", "path": "/a"}):
        asked.sends(body)
    asked.sends({"cmd": "MKDIR", "path": "/a/x"}, "bob")
    assert asked.new() == [*(f"ann  {it}" for it in (
        "done  MKDIR /a", "done  CREATE /a/b", "done  WRITE /a/b", "refused  APPEND /a/b",
        "done  RENAME /a/b -> /a/c", "refused  SETLIST /a/c: allow group:staff view inherit; deny eve add-file,write",
        "done  CHOWN /a/c to bob:staff", "refused  REMOVE /a/none", "refused  REMOVE /a")), "bob  refused  MKDIR /a/x"]


def test_looks_and_what_is_no_command(asked):
    """They have no line."""
    looks = [{"cmd": it, "path": "/"} for it in ("STAT", "LIST", "READ", "GETLIST")]
    looks += [{"cmd": "ACCESS", "mask": 1, "path": "/"}, {"path": "/", "keep": True, "cmd": "LIST"}]
    for body in [*looks, b' {"path" : "/a\\"b" ,\n"cmd":"STAT"}\r\n', b'{"cmd":"GETLIST","path":"/\\u00e4"}']:
        asked.sends(body)
    asked.sends(b"no command", number=asked.numbers["ann"] + 1)
    asked.once("ann", "/slots/x/1", b'{"cmd":"MKDIR","path":"/y"}')
    assert asked.new() == []


@each("body, want", [(want, body, want) for want, body in {
    "MKDIR /o1": b'{"cmd":"READ","path":"/a","cmd":"MKDIR","path":"/o1"}',
    "MKDIR /o2": b'{"\\u0063md":"MKDIR","path":"/o2"}', "MKDIR /o3": b'{"cmd":"MKD\\u0049R","p\\u0061th":"/o3"}',
    "MKDIR /o4": b'\n{\n\t"cmd" : "MKDIR",\r\n\t"path" : "/o4"\n}\n',
    "CREATE /o5": b'{"cmd":"CREATE","data":"aGk\\u003d","path":"/o5"}',
    'MKDIR /"cmd":"READ"': b'{"cmd":"MKDIR","path":"/\\"cmd\\":\\"READ\\""}',
    'MKDIR /"data":"x': b'{"cmd":"MKDIR","path":"/\\"data\\":\\"x"}',
    "MKDIR /\\u202eo6\\u2028": "{\"cmd\":\"MKDIR\",\"path\":\"/\u202eo6\u2028\"}".encode(),
    **{f"MKDIR /p{at}": b'{%s"cmd":"MKDIR","path":"/p%d"}' % (pad, at) for at, pad in enumerate((
        b" " * 4000, b'"keep":true,' * 400, b'"cmd":"STAT","path":"/a",' * 200))},
    **{f"MKDIR /q{at}": b'{"cmd":"MKDIR",%s"path":"/q%d"}' % (pad, at) for at, pad in enumerate((
        b" " * 4000, b'"keep":true,' * 400))}}.items()])
def test_an_odd_form(asked, body, want):
    """Nobody is left out by how a request is written, and no line is longer."""
    asked.sends(body)
    assert asked.new() == [f"ann  done  {want}"]
    assert max(map(len, bytes_of(asked.log).splitlines())) <= LONGEST


def test_in_pieces(asked):
    """A command whose length no field tells, so that of a long one nginx could not keep the text."""
    body = b'{"cmd":"MKDIR","path":"/o8"}'
    fields = asked.front.fields("ann", ["transfer-encoding: chunked"])
    head = message(None, "POST", f"/rooms/plans/v1/sessions/{SID}/slots/0/{asked.numbers['ann'] + 1}", fields=fields)
    with contextlib.closing(Line(asked.front.port)) as line:
        told = line.ask(head.replace(b"content-length: 0\r\n", b"") + b"%x\r\n%s\r\n0\r\n\r\n" % (len(body), body))
    assert told.status == 411
    assert asked.new() == []


def test_a_request_that_is_sent_again(asked):
    """It is told once; another one of its number too."""
    for _ in range(3):
        asked.sends({"cmd": "MKDIR", "path": "/r"}, number=asked.numbers["ann"] + 1)
    asked.numbers["ann"] += 1
    asked.sends({"cmd": "MKDIR", "path": "/s"}, number=asked.numbers["ann"])
    asked.sends({"cmd": "MKDIR", "path": "/t"}, number=asked.numbers["ann"] + 5)
    assert asked.new() == ["ann  done  MKDIR /r  (3 times)", "ann  refused  MKDIR /s", "ann  refused  MKDIR /t"]
    late = asked.numbers["ann"] + 2
    asked.sends({"cmd": "MKDIR", "path": "/v"}, number=late)
    asked.sends({"cmd": "STAT", "path": "/"})
    asked.sends({"cmd": "MKDIR", "path": "/v"})
    assert asked.new() == ["ann  done  MKDIR /v  (2 times)"]


def test_a_request_that_had_no_answer_at_first(asked):
    asked.room.kill()
    asked.sends({"cmd": "MKDIR", "path": "/u"})
    assert asked.new() == ["ann  no answer  MKDIR /u"]
    asked.room.start()
    asked.seen -= 1
    asked.sends({"cmd": "MKDIR", "path": "/u"}, number=asked.numbers["ann"])
    assert asked.new() == ["ann  done  MKDIR /u  (2 times)"]


def test_a_large_file(asked, folder):
    """The requests of an upload are one line."""
    path, word = os.path.join(folder, "lake.jpg"), os.path.join(folder, "word")
    with open(path, "wb") as file:
        file.write(os.urandom(400_000))
    with open(word, "w", opener=lambda *it: os.open(*it, 0o600), encoding="utf-8") as file:
        file.write("ann-word\n")
    words = ["--url", f"http://127.0.0.1:{asked.front.port}/rooms/plans", "--login", "ann", "--password-file", word,
             "--state", os.path.join(folder, "state")]
    done = subprocess.run([sys.executable, "-B", CLIENT, *words, "put", path, "/lake.jpg"], capture_output=True)
    assert done.returncode == 0, done.stderr
    assert [it.partition(" (")[0] for it in asked.new() if "/lake.jpg" in it] == [
        "ann  done  MKDIR /lake.jpg", "ann  done  CREATE+MKDIR+RENAME of the large file /lake.jpg"]


def test_what_leaves_a_large_file(asked):
    """It has a line by itself, as what only has such a name."""
    for body in ({"cmd": "MKDIR", "path": "/b"}, {"cmd": "MKDIR", "path": f"/b/{INSIDE}"},
                 {"cmd": "CREATE", "path": f"/b/{INSIDE}/000", "data": "aGk="},
                 {"cmd": "RENAME", "path": f"/b/{INSIDE}/000", "to": "/b/bill"},
                 {"cmd": "MKDIR", "path": "/b/.room-x"}):
        assert asked.sends(body) == 0
    assert asked.new() == [f"ann  done  {it}" for it in (
        "MKDIR /b", "CREATE+MKDIR of the large file /b (2 requests)", f"RENAME /b/{INSIDE}/000 -> /b/bill",
        "MKDIR /b/.room-x")]
