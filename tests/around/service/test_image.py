"""The container image: what outlives a container is in its volume, and what is not there is made anew."""
import os
import re
import shutil
import subprocess

import pytest
from served import text_of

from .contents import SERVICE

TOP = os.path.join(SERVICE, "..")
VOLUME = [it.partition(":")[2] for it in
          re.search(r'(?s)\nVOLUME="(.*?)"\n', text_of(os.path.join(TOP, "tools", "image")))[1].split()]
MADE_ANEW = {"/etc/logrotate.d/fileroom", "/var/lib/prometheus/node-exporter/fileroom.prom",
             "/var/log/nginx/fileroom-logins.log"}  # (the last one: of guesses of this day)


def is_in_volume(path):
    return any(path == it or path.startswith(f"{it}/") for it in VOLUME)


def users(path):
    """{name: number} of a file for systemd-sysusers."""
    lines = [it.split() for it in text_of(os.path.join(SERVICE, path)).splitlines() if it[:1] in ("u", "g")]
    return {it[1]: it[2] for it in lines}


def test_what_a_purge_keeps_outlives_a_container():
    kept = re.search(r"(?s)for kept in (.*?)\n    do", text_of(os.path.join(SERVICE, "deb", "postrm")))[1]
    paths = [it for it in kept.replace("\\", " ").split() if it not in MADE_ANEW]
    assert len(paths) > 4
    assert [it for it in [*paths, "/var/lib/fileroom-dav"] if not is_in_volume(it)] == []


def test_users_have_the_same_numbers_in_each_image():
    numbers = users("image/sysusers.conf")
    assert numbers.keys() == users("sysusers.conf").keys()
    assert all(it.isdigit() for it in numbers.values()) and len({*numbers.values()}) == len(numbers)


@pytest.mark.parametrize("has_tls", [True, False])
def test_a_new_container_serves_its_volume(machine, pair, has_tls):
    if has_tls:
        assert machine.does("tls", *pair)[0] == 0
    before = machine.files()
    for path in before:
        if path != "etc/nginx/nginx.conf" and "nginx" in path and not is_in_volume(f"/{path}"):
            os.remove(machine.at(path))
    shutil.rmtree(machine.at("etc/logrotate.d"))
    machine.told()
    done = subprocess.run([os.path.join(SERVICE, "image", "fileroom-volume")], capture_output=True, text=True,
                          env={**os.environ, **machine.env, "ETC": machine.at("etc")})
    assert (done.returncode, done.stderr) == (0, "")
    assert machine.files() == before
    units = [it.split()[5:] for it in machine.told() if it.startswith("systemctl -q enable --now fileroom-ports ")]
    assert units == [[f"fileroom@{it}", f"fileroom-backup@{it}.timer", f"fileroom-try@{it}.timer"]
                     for it in ("club", "plans")]
