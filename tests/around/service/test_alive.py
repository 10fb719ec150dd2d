"""Whether a room takes requests, by a real one; what is told, and what a monitor gets, where it takes none."""
import json
import os
import socketserver
import sqlite3
import subprocess
import threading
import time
from unittest import mock

import pytest
from fileroom_admin import alive
from fileroom_admin.places import Places
from nginx import certified
from served import text_of

from .contents import SERVICE

OWN = "var/lib/fileroom-watch/plans.json"


def sessions(machine):
    with sqlite3.connect(f"file:{machine.at('var/lib/fileroom/plans/room.db')}?mode=ro", uri=True) as table:
        return table.execute("SELECT count(*) FROM session").fetchone()[0]


def fault(machine, seconds=60):
    with mock.patch.object(alive, "WAIT", seconds), mock.patch.object(alive, "said", return_value=(0, "")):
        return alive.fault_of(Places(machine.root), "plans")


def own(machine):
    return json.loads(text_of(machine.at(OWN)))


def test_one_session_for_good(machine, plans):
    """Each look uses up a number of it, and so is a request that the room has to write down."""
    assert [fault(machine) for _ in range(3)] == [None] * 3
    assert (own(machine)["number"], own(machine)["user"]) == (3, "ann")
    assert [oct(os.stat(machine.at(it)).st_mode & 0o777) for it in (os.path.dirname(OWN), OWN)] == ["0o700", "0o600"]
    assert machine.numbers()['fileroom_up{room="plans"}'] == "1"
    assert machine.does("watch") == (0, "", "")
    plans.room.kill()
    assert (own(machine)["number"], sessions(machine)) == (5, 1)


@pytest.mark.parametrize("what, number, user, count", [
    ("not written down", 2, "ann", 1), ("another room's", 1234, "ann", 2), ("a user who is gone", 3, "zed", 2),
    ("no number", None, "ann", 1)])
def test_it_goes_on_whatever_became_of_the_file(machine, plans, what, number, user, count):
    for _ in range(3):
        fault(machine)
    text = json.dumps(own(machine) | {"number": number, "user": user}) if number else "["
    machine.write(OWN, text)
    assert [fault(machine), fault(machine)] == [None, None]
    plans.room.kill()
    assert sessions(machine) == count + (number is None)


class Delaying(socketserver.StreamRequestHandler):
    """What a room answers that cannot write: a session that it has is there, and each request comes again later."""

    def handle(self):
        head = self.rfile.readline()
        while line := self.rfile.readline().strip():
            length = int(line.split()[1]) if line.lower().startswith(b"content-length") else 0
            self.rfile.read(0 * length)
        is_open = b"/slots/" not in head
        body = b'{"code":0,"slots":1}' if is_open else b'{"code":30,"error":"DELAY"}'
        status = b"200 OK" if is_open else b"503 Service Unavailable"
        self.wfile.write(b"HTTP/1.1 %s\r\ncontent-length: %d\r\n\r\n%s" % (status, len(body), body))


@pytest.fixture
def delaying(machine):
    path = machine.at("run/fileroom/plans.sock")
    os.makedirs(os.path.dirname(path))
    with socketserver.ThreadingUnixStreamServer(path, Delaying) as server:
        server.daemon_threads = True
        threading.Thread(target=server.serve_forever, daemon=True).start()
        yield machine
        server.shutdown()


LACKS = "plans takes no request: "
# (by what the unit failed last, where just that is asked)
FAILED = """case "$*" in *--since=-5min*"--output-fields=UNIT_RESULT _PID=1 MESSAGE_ID="*" UNIT={}") echo {} ;; esac"""


def test_a_room_that_cannot_write(delaying):
    """What answers at its socket is no room that takes requests."""
    assert fault(delaying, 1) == (
        f"{LACKS}its program runs, and says DELAY, or nothing: memory may be short, or the disk may fail")
    full = mock.Mock(free=100)
    with mock.patch.object(alive.shutil, "disk_usage", return_value=full):
        told = fault(delaying, 1)
    folder = delaying.at("var/lib/fileroom/plans")
    assert told == f"{LACKS}the disk of {folder} is full; nobody can read either until there is space"


def test_a_room_without_users(machine):
    """Nobody can ask it."""
    machine.write("etc/fileroom/plans.toml", "[users]\n")
    assert fault(machine) is None


def test_the_disk_of_a_folder_that_is_not_there(folder):
    assert not alive.is_full(Places(folder), "plans")


def test_what_is_told_of_it(delaying):
    """In the journal, to a monitor, and by check; not while the room rests for its backup."""
    delaying.shows("fileroom@plans Result=success\nfileroom@plans MemoryMax=2097152\n")
    delaying.stand_in("journalctl", FAILED.format("fileroom@plans.service", "oom-kill"))
    want = f"{LACKS}its program was killed for want of memory: the file has 0 MiB, the unit 2 MiB"
    assert delaying.does("watch") == (1, f"{want}\n", "")
    assert delaying.numbers()['fileroom_up{room="plans"}'] == "0"
    assert want in delaying.does("check")[1].splitlines()
    delaying.stand_in("systemctl", '[ "$1 $2" != "is-active fileroom-backup@plans.service" ] || echo activating')
    assert delaying.does("watch") == (0, "", "")


@pytest.mark.parametrize("unit, result", [("fileroom@club.service", "oom-kill"), ("fileroom@plans.service", "signal")])
def test_what_else_ended_is_no_want_of_memory(delaying, unit, result):
    delaying.stand_in("journalctl", FAILED.format(unit, result))
    assert "memory may be short" in delaying.does("watch")[1]


def test_a_room_whose_program_does_not_run(machine, plans):
    plans.room.kill()
    machine.breaks("fileroom@plans")
    status, said, faults = machine.does("watch")
    assert (status, faults) == (1, "")
    assert said == f"{LACKS}its program does not run: journalctl -u fileroom@plans says why\n"


def test_a_roster_with_a_fault_hides_no_other_room(machine, plans):
    """It is told with its path, and by check; that its room does not run is told too."""
    machine.write("run/fileroom/club.sock", "")
    machine.write("etc/fileroom/club.toml", "[users")
    plans.room.kill()
    machine.breaks("fileroom@plans")
    fault = f"{machine.at('etc/fileroom/club.toml')} is no TOML: "
    status, said, faults = machine.does("watch")
    assert (status, faults, [it.partition("Expected")[0] for it in said.splitlines()]) == (
        1, "", [fault, f"{LACKS}its program does not run: journalctl -u fileroom@plans says why"])
    machine.breaks("fileroom@club")
    said = machine.does("check")[1].splitlines()
    assert [it.partition("Expected")[0] for it in said if " TOML" in it] == [fault]
    assert "fileroom@club is not running" in said


def test_a_program_that_never_stays(delaying):
    """It is up whenever one looks, and was started a moment ago."""
    def just_started(*_):
        return 0, f"ActiveEnterTimestampMonotonic={int(time.monotonic() * 1e6)}"
    with mock.patch.object(alive, "WAIT", 1), mock.patch.object(alive, "said", just_started):
        told = alive.fault_of(Places(delaying.root), "plans")
    assert told == f"{LACKS}its program does not run: journalctl -u fileroom@plans says why"


@pytest.mark.parametrize("word", ["remove", "purge"])
def test_the_package_goes(machine, word):
    """The watch's sessions outlive a removal, and no purge."""
    machine.write(OWN, "{}")
    how = {"env": machine.env | {"DPKG_ROOT": machine.root}, "capture_output": True}
    subprocess.run(["sh", os.path.join(SERVICE, "deb/postrm"), word], check=True, **how)
    assert os.path.exists(machine.at(os.path.dirname(OWN))) == (word == "remove")


def test_a_certificate_that_has_ended_is_said(machine, folder):
    """In the journal, by the unit that says which room takes no request: people reach none."""
    cert, key = certified(os.path.join(folder, "tls"), "DNS:room.example")
    assert machine.does("tls", cert, key)[0] == 0
    assert machine.does("watch") == (0, "", "")
    words = ["-in", cert, "-signkey", key, "-days", "-1", "-out", machine.at("etc/nginx/fileroom/tls/cert.pem")]
    subprocess.run(["openssl", "x509", *words], check=True, capture_output=True)
    status, said, _ = machine.does("watch")
    assert (status, said.partition(": ")[0]) == (1, "the front's certificate has expired")


def test_a_front_that_does_not_run_is_said(machine, plans):
    machine.breaks("nginx")
    status, said, _ = machine.does("watch")
    assert (status, said.partition(": systemctl")[0]) == (1, "nothing reaches a room: nginx is not running")
