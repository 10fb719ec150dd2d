"""`fileroom-admin dav`: rooms get WebDAV and lose it, each time the front and the gateway's socket together."""
import os
import subprocess

import pytest

from .contents import SERVICE
from .stopped import stops

OFF = ["systemctl disable --now fileroom-dav.socket", "systemctl stop fileroom-dav.service"]
WANTS = "etc/systemd/system/sockets.target.wants/fileroom-dav.socket"
TRIES = "etc/systemd/system/timers.target.wants/fileroom-try@plans.timer"
ROOM_WANTS = "etc/systemd/system/multi-user.target.wants/fileroom@plans.service"
OF_GATEWAY = "var/lib/fileroom-dav/sessions"


def test_what_is_typed_and_said(bare):
    bare.plays("dav.txt")


def test_stopped_at_a_step(machine):
    stops(machine, "dav", "on", "plans", broken="fileroom-dav.socket")


def test_it_goes_with_its_room(machine):
    """And with the last one the gateway's socket; and it comes back with the room, which is there without it too."""
    of_dav = lambda: [it for it in machine.files().items() if "nginx/fileroom/dav" in it[0]]
    machine.does("dav", "on", "plans")
    before = of_dav()
    machine.backed_up()
    machine.told()
    status, said, faults = machine.does("room", "remove", "plans")
    assert (status, of_dav()) == (0, [("etc/nginx/fileroom/dav.json", (oct(0o100644), "[]\n"))]), faults
    assert [it for it in machine.told() if "fileroom-dav" in it] == OFF
    path = said.splitlines()[0].partition(" is in ")[2].partition(": ")[0]
    assert (machine.does("room", "import", path)[0], of_dav()) == (0, before)
    assert [it for it in machine.told() if "fileroom-dav" in it] == ["systemctl enable --now fileroom-dav.socket"]
    machine.write("../lacks/waitress.py", "raise ImportError")
    machine.env.update(PYTHONPATH=machine.at("../lacks"))
    status, said, faults = machine.does("room", "import", "--as", "second", path)
    lacks = "the room had WebDAV, and has none here: the gateway needs two packages: "
    assert (status, lacks in said) == (0, True), faults


@pytest.mark.parametrize("word, want", [("remove", [WANTS, TRIES, ROOM_WANTS, OF_GATEWAY]), ("purge", [ROOM_WANTS])])
def test_the_package_goes(machine, word, want):
    """Removed, it has the gateway and trials enabled still; by a purge they are not, and nothing of the gateway is
    left. Rooms stay enabled. (`front`, which an installation calls, enables the others again: dav.txt.)"""
    for it in WANTS, TRIES, ROOM_WANTS:
        os.makedirs(os.path.dirname(machine.at(it)))
        os.symlink(f"/lib/systemd/system/{os.path.basename(it)}", machine.at(it))
    machine.write(OF_GATEWAY, "some")
    how = {"env": machine.env | {"DPKG_ROOT": machine.root}, "capture_output": True}
    subprocess.run(["sh", os.path.join(SERVICE, "deb/postrm"), word], check=True, **how)
    assert [it for it in (WANTS, TRIES, ROOM_WANTS, OF_GATEWAY) if os.path.lexists(machine.at(it))] == want
