"""What `make install` puts, with its modes, and what is left after `make uninstall`; each unit by systemd's own tools,
the man pages by groff, root's scripts by shellcheck. (At work: tests/around/firstday.)"""
import glob
import json
import os
import re
import stat

import pytest
from served import HERE, PROGRAM, bytes_of, text_of

from .contents import SERVICE, below, said
from .machines import FOLDER, TOLD

TOP = os.path.join(HERE, "..")
SHARE = "share/fileroom"
ROSTER = "share/doc/fileroom/roster.toml"
ROWS = [it.split() for it in text_of(os.path.join(FOLDER, "installed.txt")).splitlines() if it[:1].isdigit()]
MODES, EXPOSURES = {it[1]: f"0o{it[0]}" for it in ROWS}, {it[1]: float(it[2]) for it in ROWS if len(it) > 2}
UNITS = [it for it in MODES if it.startswith("lib/systemd/system/fileroom") and not it.endswith(".conf")]
PAGES = [it for it in MODES if it.startswith("share/man")]
FOLDERS = {  # whole folders of the checkout: where each is installed, and what of it
    "client/room_client": (f"{SHARE}/client/room_client", r".*\.py"),
    "dav/fileroom_dav": (f"{SHARE}/dav/fileroom_dav", r".*\.py"),
    "signin/fileroom_signin": (f"{SHARE}/signin/fileroom_signin", r".*\.py"),
    "service/admin/fileroom_admin": (f"{SHARE}/admin/fileroom_admin", r".*\.py"),
    "page": (f"{SHARE}/page", r".*\.(html|css|js|svg)"),
    "front": (f"{SHARE}/front", r".*\.conf"),
    "service/fail2ban": ("share/doc/fileroom/fail2ban", r".*\.conf"),
}
# each file of these as it is installed, with where it stands in the checkout
IN_FOLDERS = {f"{to}/{name}": os.path.join(TOP, it, name) for it, (to, which) in FOLDERS.items()
              for name in os.listdir(os.path.join(TOP, it)) if re.fullmatch(which, name)}


def newest():
    """The version that CHANGES tells first."""
    return re.search(r"(?m)^## (\d+\.\d+\.\d+)", text_of(os.path.join(TOP, "docs", "CHANGES.md")))[1]


@pytest.fixture(scope="module")
def top(tmp_path_factory):
    """Where it is installed."""
    at = str(tmp_path_factory.mktemp("usr"))
    status, _, faults = said("sh", "-c", 'umask 077; exec "$@"', "sh", os.path.join(SERVICE, "install"), "", at)
    assert (status, faults) == (0, "")
    return at


def test_each_file_with_its_mode(top):
    modes = {it: oct(stat.S_IMODE(os.stat(os.path.join(top, it)).st_mode)) for it in below(top)}
    assert modes == MODES | dict.fromkeys(IN_FOLDERS, "0o644")
    folders = {os.path.dirname(it) for it in modes}
    assert {oct(stat.S_IMODE(os.stat(os.path.join(top, it)).st_mode)) for it in folders} == {"0o755"}


def test_what_is_left_when_it_is_taken_away(folder):
    said(os.path.join(SERVICE, "install"), "", folder)
    open(os.path.join(folder, "etc-that-stays"), "w").close()
    status, _, faults = said(os.path.join(SERVICE, "install"), "--remove", "", folder)
    assert (status, faults, below(folder)) == (0, "", ["etc-that-stays"])
    assert glob.glob(os.path.join(folder, "lib/systemd/system/fileroom*")) == []


OF_SITE = {f"etc/nginx/{it}" for it in (
    "conf.d/fileroom.conf", "conf.d/fileroom-redirect.conf", "modules-enabled/60-fileroom.conf")}
OF_A_ROOM = "-backup@{}.timer", "-try@{}.timer", "-proxy@{}.socket", "-proxy@{}.service", "@{}.service"
OF_ALL = "dav.socket", "dav.service", "signin.socket", "signin.service", "metrics.timer", "roster.timer", "watch.timer"
SITE_ENDS = [
    *(" ".join(["systemctl stop", *(f"fileroom{it.format(room)}" for it in OF_A_ROOM)]) for room in ("club", "plans")),
    " ".join(["systemctl stop", *(f"fileroom-{it}" for it in OF_ALL)]), "systemctl is-active --quiet nginx",
    "systemctl reload nginx", "systemctl stop fileroom-ports.service"]


@pytest.mark.parametrize("reads", [True, False], ids=["nginx reads it", "nginx reads nothing"])
def test_the_site_goes_with_what_serves_it(machine, pair, reads):
    """Its wall stays as long as nginx has the site. `front` brings all back, once the program is there again."""
    top, env = os.path.join(machine.folder, "usr"), {"ETC": machine.at("etc"), "RUN": machine.at("run")}
    does = lambda *words: said(os.path.join(SERVICE, "install"), *words, "", top, **machine.env, **env)
    admin = lambda *words: machine.does(*words, first=[os.path.join(top, "bin/fileroom-admin")])
    does()
    admin("tls", *pair)
    admin("front")
    os.makedirs(machine.at("run/systemd/system"))  # (systemd runs)
    before = machine.files()
    machine.told()
    if not reads:
        machine.stand_in("systemctl", TOLD + '[ "$1" != reload ]')
    status, _, faults = does("--remove")
    assert (status, "the wall stays" in faults, below(top)) == (0, not reads, [])
    assert machine.told() == (SITE_ENDS if reads else SITE_ENDS[:-1])
    assert before.keys() ^ machine.files().keys() == OF_SITE | {"etc/nginx/fileroom/redirect.conf"}
    does()
    assert (admin("front")[0], machine.files() == before) == (0, True)


def test_another_copy_goes_alone(machine):
    """The site is served by the one whose page it shows."""
    tops = [os.path.join(machine.folder, it) for it in ("usr", "old")]
    does = lambda *words: said(os.path.join(SERVICE, "install"), *words, **machine.env, ETC=machine.at("etc"),
                               RUN=machine.at("run"))
    for it in tops:
        does("", it)
    machine.does("front", first=[os.path.join(tops[0], "bin/fileroom-admin")])
    os.makedirs(machine.at("run/systemd/system"))  # (systemd runs)
    before = machine.files()
    machine.told()
    assert does("--remove", "", tops[1])[0] == 0
    assert (machine.told(), machine.files() == before, below(tops[1])) == ([], True, [])


def test_a_package_starts_what_was_enabled(machine):
    """(A room that was switched off is not; nor is one with a standby, which the cluster starts.)"""
    for it in "systemd-sysusers", "py3compile", "systemd-tmpfiles", "fileroom-admin", "deb-systemd-invoke":
        machine.stand_in(it, TOLD)
    machine.breaks("fileroom@club.service\nfileroom-dav.socket\nfileroom-roster.timer\n")
    os.makedirs(machine.at("run/systemd/system"))
    machine.told()
    text = re.sub("/(etc|run)/", rf"{machine.root}/\1/", text_of(os.path.join(SERVICE, "deb/postinst")))
    assert said("sh", "-c", text, "postinst", "configure", **machine.env)[::2] == (0, "")
    told = machine.told()
    assert told[:5] == ["systemd-sysusers fileroom.conf", "py3compile -p fileroom /usr/share/fileroom",
                        "systemctl --system daemon-reload", "systemd-tmpfiles --create fileroom.conf",
                        "fileroom-admin front"]
    assert [it.partition(" start ")[2] for it in told if " start " in it] == [
        "fileroom-ports.service fileroom@plans.service fileroom-backup@plans.timer fileroom-try@plans.timer",
        "fileroom-signin.socket", "fileroom-metrics.timer"]
    assert said("sh", "-c", text, "postinst", "abort-upgrade", **machine.env)[::2] == (0, "")
    assert machine.told() == []


@pytest.mark.parametrize("word, leaves", [("remove", True), ("upgrade", False)])
def test_a_package_ends_what_is_served_where_it_goes(machine, word, leaves):
    for it in "py3clean", "leaves":
        machine.stand_in(it, TOLD)
    text = text_of(os.path.join(SERVICE, "deb/prerm")).replace("/usr/share/fileroom/fileroom-leave", "leaves")
    machine.told()
    assert said("sh", "-c", text, "prerm", word, **machine.env)[::2] == (0, "")
    assert [it.strip() for it in machine.told()] == ["py3clean -p fileroom", *["leaves"] * leaves]


def test_versions(top):
    for name, word in ("fileroom", "--version"), ("fileroom", "-V"), ("room", "--version"):
        assert said(os.path.join(top, "bin", name), word) == (0, f"{name} {newest()}\n", "")
    for it in PAGES:
        assert f'"fileroom {newest()}"' in text_of(os.path.join(top, it)), it


def test_a_trial_finds_the_client(top):
    status, output, faults = said(os.path.join(top, SHARE, "fileroom-tried"), "plans", BACKUPS=top)
    assert (status, output, faults) == (1, "", f"fileroom-tried: there is no backup in {top}/plans\n")


def test_the_sample_of_a_roster(top):
    assert said(PROGRAM, "replay", os.path.join(top, ROSTER), "ann", "eng")[0] == 0


@pytest.mark.parametrize("unit", UNITS, ids=os.path.basename)
def test_a_unit(top, unit):
    """(Its exposure is counted by the files alone: lab/machine asks the systemd that has read them.)"""
    path = os.path.join(top, unit)
    assert re.findall(r"@[A-Z]+@", text_of(path)) == []  # (each place is filled in)
    one = path.replace("@.", "@plans.")
    if one != path:
        os.symlink(os.path.basename(path), one)
    status, output, faults = said("systemd-analyze", "verify", "--man=no", one)
    if one != path:
        os.remove(one)
    assert (status, [line for line in (output + faults).splitlines() if "fileroom" in line]) == (0, [])
    if unit.endswith(".service"):
        told = said("systemd-analyze", "security", "--offline=true", "--no-pager", path)[1]
        assert float(re.search(r"exposure level for \S+: ([0-9.]+)", told)[1]) <= EXPOSURES[unit]


@pytest.mark.parametrize("unit", EXPOSURES, ids=os.path.basename)
def test_systemd_takes_what_all_units_shut_out(top, unit):
    keys = {*re.findall(r"(?m)^(\w+)=", text_of(os.path.join(SERVICE, "hardening.conf")))}
    words = "systemd-analyze", "security", "--offline=true", "--json=short", os.path.join(top, unit)
    found = [(it["json_field"].partition("_")[0], it["set"]) for it in json.loads(said(*words)[1])]
    assert {it for it in found if it[0] in keys} == {(it, True) for it in keys}


def test_a_standbys_unit_shuts_out_what_the_rooms_does(top):
    shut = [text_of(os.path.join(top, f"lib/systemd/system/{it}@.service")).partition("PrivateNetwork")[2]
            .partition("\n[Install]")[0].strip() for it in ("fileroom", "fileroom-standby")]
    assert shut[0] == shut[1]
    assert "CapabilityBoundingSet=\n" in shut[0] and "MemoryMax=80%" in shut[0]


def test_man_pages(top):
    for it in PAGES:
        assert said("groff", "-man", "-ww", "-z", os.path.join(top, it)) == (0, "", "")


def test_roots_scripts():
    """shellcheck finds nothing in what root runs, nor in bash's completion; Python takes nothing from where it runs."""
    first = {it: bytes_of(os.path.join(SERVICE, it)).partition(b"\n")[0] for it in below(SERVICE)}
    assert {it for it in first.values() if re.match(rb"#!.*python", it)} == {b"#!/usr/bin/python3 -I"}
    shells = [os.path.join(SERVICE, it) for it, line in first.items() if re.match(
        rb"#!/bin/(ba)?sh\b|#!/usr/bin/env bash\b", line)]
    assert len(shells) > 4
    for words in shells, ["--shell=bash", os.path.join(TOP, "client/room.bash")]:
        assert said("shellcheck", *words) == (0, "", "")


def test_as_in_the_checkout(top):
    """Page, front and code, but for where the page is, and the version."""
    sample = f"{SHARE}/front/fileroom.conf"
    assert f"root {top}/{SHARE}/page;" in text_of(os.path.join(top, sample))
    for name, source in IN_FOLDERS.items():
        want = text_of(source)
        if name == sample:
            want = want.replace("/usr/local/share/fileroom", os.path.join(top, SHARE))
        if name.endswith("/version.py"):
            want = want.replace("@VERSION@", newest())
        assert text_of(os.path.join(top, name)) == want, name
