"""Connections to a served room that are odd, cut or rude, and odd words, rosters and streams to the program, against
docs/WIRE.md and docs/CODES.md. What a message may say stands in the examples, which test_examples.py sends."""
import base64
import os
import re
import resource
import shutil
import signal
import socket
import struct
import subprocess
import time

import pytest
from given import each
from served import (PROGRAM, ROSTER, SID, bytes_of, end_with_parent, free_port, message, put_file, run, session, slot,
                    started_here, text_of, whole)

BASE, BODY = f"/v1/sessions/{SID}", b'{"slots":3}'
GOOD, LAST = (whole(b'{"code":0,"slots":3}', last=it) for it in (False, True))
ONE, CLOSING = session(), message("ann", "POST", BASE, BODY, fields=["connection: close"])
STATUS = {"BAD_HTTP": (40, 400), "BAD_ROUTE": (41, 404), "UNKNOWN_USER": (42, 403), "BAD_REQUEST": (43, 400)}


def refused(name, last=False):
    code, status = STATUS[name]
    return whole(b'{"code":%d,"error":"%s"}' % (code, name.encode()), status, last)


BAD = refused("BAD_HTTP", last=True)


def P(cmd, path, **more):
    return {"cmd": cmd, "path": path, **more}


# What is sent to the server, and what comes back

def listed(entry, flags=0):
    return P("SETLIST", "/", aclflag=flags, entries=[entry])


PLAIN = {"flag": 0, "mask": 1, "type": 0, "who": "ann"}


@each("command", [
    ("keep is empty", P("STAT", "/", keep="")), ("a mask of 1.5", P("ACCESS", "/", mask=1.5)),
    ("flags as text", listed(PLAIN, "0")), ("an entry of 1", listed(1)), ("an entry of none", listed([])),
    *((f"an entry with {it}", listed(PLAIN | it))
      for it in ({"flag": 32}, {"flag": 256}, {"who": ""}, {"who": "owner@"})),
    *((f"an owner {it!r}", P("CHOWN", "/", owner=it, group="eng")) for it in ("\u00e9", "OWNER@", 1))])
def test_no_command(line, command):
    line.ask(ONE)
    assert line.ask(slot(2, 1, command)).whole == refused("BAD_REQUEST")
    assert line.ask(slot(2, 2, P("STAT", "/"))).status == 409  # (the number is still unused)


def sent(line, data):
    try:
        line.send(data)
    except OSError:
        pass  # (the server may close it before all is sent)


@each("data, want", [
    ("nothing", b"", b""), ("three at once", ONE * 3, GOOD * 3), ("a line end behind it", ONE + b"\r\n", GOOD + BAD),
    ("no length and a body", ONE.replace(b"content-length: 11\r\n", b""), refused("BAD_REQUEST") + BAD),
    *((f"cut behind {cut} bytes", ONE[:cut], BAD) for cut in (1, len(ONE) // 2, len(ONE) - 5))])
def test_ended_by_the_client(line, data, want):
    sent(line, data)
    line.end()
    assert line.to_end() == want


@each("data, want", [
    ("HTTP/1.0", ONE.replace(b"1.1", b"1.0", 1) + ONE, LAST), ("close", CLOSING + ONE, LAST),
    ("close, and refused", CLOSING.replace(BODY, b'{"slots":0}'), refused("BAD_REQUEST", last=True)),
    ("close, then rubbish", CLOSING + b"\0\1\2" * 5000, LAST), ("noise", bytes(range(256)) * 40, BAD),
    ("a field that is none", ONE.replace(b"room-user:", b"room user:"), BAD),
    ("a transfer-encoding", message("ann", "POST", BASE, BODY, fields=["transfer-encoding: chunked"]), BAD),
    ("two lengths", message("ann", "POST", BASE, BODY, fields=["content-length: 11"]), BAD),
    ("a length of 131,073", message("ann", "POST", BASE).replace(b": 0", b": 131073"), BAD),
    ("a head that is too long", b"POST /" + b"a" * 9000, BAD),
    ("a TLS hello", bytes.fromhex("1603010200010001fc0303") + bytes(500), BAD)])
def test_ended_by_the_server(line, data, want):
    sent(line, data)
    assert line.to_end() == want


@pytest.mark.parametrize("time_sent", range(5))
@each("data, want", [("the last", CLOSING + bytes(131_000), LAST), ("noise", b"noise\r\n\r\n" + bytes(200_000), BAD)])
def test_more_behind_it_than_one_read_takes(line, data, want, time_sent):
    """Closed over unread bytes, a connection loses its answer, but where its writing was ended first."""
    sent(line, data)
    assert line.to_end() == want


def test_one_byte_at_a_time(line):
    for at in range(len(ONE)):
        line.send(ONE[at : at + 1])
    assert line.answer().whole == GOOD


def reset(line):
    line.socket.setsockopt(socket.SOL_SOCKET, socket.SO_LINGER, struct.pack("ii", 1, 0))
    line.close()


def test_connections_that_end_badly_do_not_end_the_server(room):
    mine, large = "b" * 32, base64.b64encode(bytes(65536)).decode()
    line = room.line()
    line.ask(session(1, mine))
    line.ask(slot(0, 1, P("CREATE", "/large", data=large), sid=mine))
    line.close()
    for data, end in (ONE[:40], lambda it: it.close()), (ONE, reset), (b"", lambda it: it.close()):
        line = room.line()
        line.send(data)
        end(line)
    line = room.line()  # that sends and never reads: 2,000 requests for 87 kB each, and then goes away
    line.socket.settimeout(2)
    sent(line, b"".join(slot(0, n, P("READ", "/large"), sid=mine) for n in range(2, 2002)))
    reset(line)
    start = time.monotonic()
    line = room.line()
    assert line.ask(ONE).whole == GOOD
    assert time.monotonic() - start < 50  # (a peer that takes nothing is waited for a minute)
    line.close()


# Words, names, rosters and stores, in the order of the faults

@pytest.fixture(scope="module")
def made(tmp_path_factory):
    db = str(tmp_path_factory.mktemp("made") / "db")
    assert run("init", db, "ann", "eng") == (0, b"", b"")
    return db


@pytest.fixture
def at(made, tmp_path):
    """What words stand for: a room that was made, rosters, no file, a folder, ports."""
    for name, text in ("ROSTER", ROSTER), ("BAD", "no roster"), ("BOBS", "[users]\nbob = []\n"):
        (tmp_path / name).write_text(text)
    shutil.copy(made, tmp_path / "DB")
    with socket.create_server(("127.0.0.1", 0)) as taken:
        paths = {it: str(tmp_path / it) for it in ("DB", "ROSTER", "BAD", "BOBS", "NONE")}
        yield paths | {"DIR": str(tmp_path), "PORT": str(free_port()), "TAKEN": str(taken.getsockname()[1])}


def said(at, words, **how):
    return run(*(at.get(it, it) for it in words.split(" ")) if words else (), **how)


@pytest.mark.parametrize("words", [
    "", "init", "init NONE", "init NONE ann", "init NONE ann eng x", "none", "replay", "replay ROSTER ann", "serve",
    "serve DB ROSTER", "serve DB ROSTER PORT", "serve DB ROSTER 0 1", "serve DB ROSTER 65536 1", "serve DB ROSTER x 1",
    "serve DB ROSTER PORT 0", "serve DB ROSTER PORT 4294967296", "serve DB ROSTER -1 1", "report DB ROSTER",
    "report DB ROSTER all", "report DB ROSTER ACCESS", "check x", "selftest x", "init NONE -x eng", "--none"])
def test_words_that_are_none(at, words):
    status, output, errors = said(at, words)
    assert (status, output, bool(errors)) == (2, b"", True)


def test_help_and_a_word_that_is_no_text():
    status, output, errors = run("--help")
    assert (status, bool(output), errors) == (0, True, b"")
    assert run("init", b"/\xff", "ann", "eng") == (2, b"", b"error: the words are not UTF-8\n")


@pytest.mark.parametrize("name", ["a b", "", "x" * 33, "OWNER@", "a/b", "\u00e9", "a\n"])
@each("words", [("owner", ("init", "NONE", None, "eng")), ("group", ("init", "NONE", "ann", None)),
                ("owner of a replay", ("replay", "/none", None, "eng"))])
def test_bad_names(at, words, name):
    assert run(*(name if it is None else at.get(it, it) for it in words)) == (1, b"", b"fileroom: bad name\n")
    assert not os.path.exists(at["NONE"])


@pytest.mark.parametrize("fault, words", [
    ("cannot read roster", "serve NONE /none PORT 1"), ("cannot read roster", "report NONE DIR lists"),
    ("not a room", "serve NONE ROSTER PORT 1"), ("room exists", "init DB ann eng"),
    ("store failed", "init NONE/x.db ann eng"), ("store failed", "init DIR ann eng"),
    # each fault with all that are looked for later behind it
    ("bad name", "init DB @ eng"), ("cannot read roster", "report NONE /none access"),
    ("cannot read roster", "replay /none ann eng"), ("bad name", "replay BAD ann @"),
    ("bad roster", "replay BAD ann eng"), ("bad roster", "report NONE BAD access"),
    ("bad roster", "serve NONE BAD PORT 1"),
    ("not a room", "serve NONE ROSTER TAKEN 1"), ("network failed", "serve DB ROSTER TAKEN 1")])
def test_faults(at, fault, words):
    before = bytes_of(at["DB"])
    assert said(at, words, stdin=b"no message") == (1, b"", f"fileroom: {fault}\n".encode())
    assert bytes_of(at["DB"]) == before
    assert not os.path.exists(at["NONE"])


def test_a_name_behind_dashes(at):
    assert said(at, "init NONE -- -x eng") == (0, b"", b"")


MANY = "".join(f"u{n} = []\n" for n in range(1001))
SEVENTEEN = ",".join(f'"g{n}"' for n in range(17))
BAD_ROSTERS = [
    "", "users = 1", "[users]\n[more]\n", "x = 1\n[users]\n", "[users]\nann = 1\n", "[users]\nann = [1]\n",
    f"[users]\nann = [{SEVENTEEN}]\n", '[users]\n"a b" = []\n', '[users]\nann = ["a b"]\n',
    "[users]\nann = []\nann = []\n", "[users\n", "[users]\n" + MANY, '[users]\n"OWNER@" = []\n',
    "[[users]]\nann = []\n"]
NO_ROOM = [
    "[users]\n", "users = {ann = []}\n", 'users.ann = ["eng"]\n', '# x\n[users]\n-x = ["."]\n',
    "[users]\n" + MANY.replace("u1000 = []\n", ""), "[users]\nann = [" + SEVENTEEN.replace(',"g16"', "") + "]\n"]


@each("text, fault", [*((it[:40], it.encode(), "bad roster") for it in BAD_ROSTERS),
                      *((it[:40], it.encode(), "not a room") for it in NO_ROOM),
                      ("no UTF-8", b"[users]\nann = [\"\xff\"]\n", "cannot read roster")])
def test_rosters(at, text, fault):
    put_file(at["ROSTER"], text)
    assert said(at, "report NONE ROSTER lists") == (1, b"", f"fileroom: {fault}\n".encode())
    assert not os.path.exists(at["NONE"])


# Streams

def with_streams(at, words, **how):
    how = {"stdout": subprocess.PIPE, "stderr": subprocess.PIPE, "timeout": 60, **how}
    done = subprocess.run([PROGRAM, *(at.get(it, it) for it in words.split(" "))], **how)
    return done.returncode, done.stdout or b"", done.stderr


@pytest.mark.parametrize("words", ["check", "replay ROSTER ann eng"])
def test_an_input_that_cannot_be_read(at, words):
    folder = os.open(at["DIR"], os.O_RDONLY)
    assert with_streams(at, words, stdin=folder) == (1, b"", b"fileroom: read failed\n")
    os.close(folder)


@pytest.mark.parametrize("words", ["check", "replay ROSTER ann eng", "report DB ROSTER access",
                                   "report DB ROSTER lists", "selftest", "--help"])
def test_a_full_device(at, words, tmp_path):
    question = {"entries": [], "group": "g", "groups": [], "mask": 1, "owner": "o", "user": "u"}
    (tmp_path / "asked").write_bytes(message(None, "POST", "/v1/check", question))
    with open("/dev/full", "wb") as full, open(tmp_path / "asked", "rb") as asked:
        assert with_streams(at, words, stdin=asked, stdout=full) == (1, b"", b"fileroom: write failed\n")


def test_selftest(at):
    few = lambda: resource.setrlimit(resource.RLIMIT_NOFILE, (4, 4))
    told = with_streams(at, "selftest", stdin=subprocess.DEVNULL, preexec_fn=few)
    assert told == (1, b"", b"fileroom: selftest failed\n")
    assert run("selftest") == (0, b"selftest ok\n", b"")


STREAM = ONE + slot(0, 1, P("MKDIR", "/plans")) * 2 + slot(1, 1, P("LIST", "/"))
BEFORE = GOOD + whole(b'{"code":0}') * 2
ANSWERS = BEFORE + whole(b'{"code":0,"names":[["plans","folder"]]}')


@each("words, stdin, want", [
    ("whole", "replay ROSTER ann eng", STREAM, (0, ANSWERS, b"")),
    ("nothing", "replay ROSTER ann eng", b"", (0, b"", b"")),
    ("cut", "replay ROSTER ann eng", STREAM[:-1], (1, BEFORE + BAD, b"fileroom: bad message\n")),
    ("a last message", "replay ROSTER ann eng", CLOSING + STREAM, (0, LAST, b"")),
    ("another roster", "replay BOBS ann eng", ONE + session(user="bob"), (0, refused("UNKNOWN_USER") + GOOD, b"")),
    ("check has one route", "check", ONE, (0, refused("BAD_ROUTE"), b"")),
    ("check, cut", "check", STREAM[:len(ONE) + 9], (1, refused("BAD_ROUTE") + BAD, b"fileroom: bad message\n"))])
def test_streams(at, words, stdin, want):
    assert said(at, words, stdin=stdin) == want


# Reports

WORKED = [("ann", "001f07ff"), ("bob", "001200a9"), ("eng", "00000000")]
SOME = [(f"u{n:03}", "001200a9" if n % 2 == 0 else "00000000") for n in range(1000)]


@each("text, due", [
    ("a table", ROSTER, WORKED), ("in a line", "users = { bob = ['eng', 'staff'], ann = ['eng'], eng = [] }", WORKED),
    ("dots", "users.eng = []\nusers.ann = ['eng']\nusers.bob = ['eng', 'staff']\n", WORKED),
    ("nobody", "[users]\n", []),
    ("quoted", "# nobody\n[users]\n\"a.b_c-d\" = ['eng', 'eng']\n", [("a.b_c-d", "001200a9")]),
    ("a thousand", "[users]\n" + "".join(f"{it} = {['eng'] * (mask > '00000000')}\n" for it, mask in SOME), SOME)])
def test_users_have_their_lines_in_order_of_name(own, text, due):
    put_file(own.roster, text)
    assert own.report("access") == (0, "".join(f"{mask} {name:32} /\n" for name, mask in due).encode(), b"")


def test_reports_of_what_was_served(own):
    line = own.start(1).line()
    line.ask(ONE)
    line.ask(slot(0, 1, P("MKDIR", "/plans")))
    line.close()
    assert own.wait() == 0
    text = "".join(f"{mask} {user:32} {path}\n" for path in ("/", "/plans") for user, mask in WORKED)
    assert own.report("access") == (0, text.encode(), b"")
    standing = f"{'ann':32} {'eng':32}"
    text = (f"d 0 {standing} /\n  A 03 001f07ff OWNER@\n  A 03 001200a9 GROUP@\n"
            f"d 1 {standing} /plans\n  A 83 001f07ff OWNER@\n  A 83 001200a9 GROUP@\n")
    assert own.report("lists") == (0, text.encode(), b"")


# What the server asks of the system

def listened_for(port):
    """The addresses at which connections to a port are listened for, by the system's tables of both kinds."""
    for table in ("tcp", "tcp6"):
        if os.path.exists(f"/proc/net/{table}"):  # (there is no tcp6 where the system has no IPv6)
            rows = [it.split() for it in text_of(f"/proc/net/{table}").splitlines()[1:]]
            yield from (f"{table} {it[1]}" for it in rows if it[3] == "0A" and it[1].endswith(f":{port:04X}"))


def test_two_connections_and_its_end(own):
    """At 127.0.0.1 alone; both wait before it takes one: half a message on the first, an answer on the second."""
    own.start(2)
    assert [*listened_for(own.port)] == [f"tcp 0100007F:{own.port:04X}"]
    own.server.send_signal(signal.SIGSTOP)
    line = own.line()
    line.send(ONE[:40])
    line.close()
    line = own.line()
    line.send(CLOSING)
    own.server.send_signal(signal.SIGCONT)
    assert line.to_end() == LAST
    line.close()
    assert own.wait() == 0


@pytest.mark.skipif(not shutil.which("strace"), reason="there is no strace")
@each("call, name", [("none", 100, None), ("RCVTIMEO", 2, "RCVTIMEO"), ("SNDTIMEO", 3, "SNDTIMEO")])
def test_an_option_that_the_system_refuses(own, call, name):
    """A connection whose waits have no bound is closed, and not counted; answers go out at once. (The first call is of
    the socket that listens.)"""
    words = ["strace", "-D", "-qq", "-o", f"{own.db}.calls", "-e", "signal=none", "-e", "trace=setsockopt"]
    words += ["-e", f"inject=setsockopt:error=ENOPROTOOPT:when={call}"]
    words += [PROGRAM, "serve", own.db, own.roster, str(own.port), "1"]
    own.server = subprocess.Popen(words, preexec_fn=end_with_parent)
    started_here.append(own.server)
    assert own.listens()
    if name:
        line = own.line()
        assert line.to_end() == b""
        line.close()
    line = own.line()
    assert line.ask(ONE).whole == GOOD
    line.close()
    assert own.wait() == 0
    calls = text_of(f"{own.db}.calls")
    assert re.findall(r"SO_(\w+TIMEO)\w*, .*INJECTED", calls) == ([name] if name else [])
    assert calls.count("TCP_NODELAY, [1], 4) = 0") == 1
