"""What docs/CLIENT.md shows of the command is what it prints, from the first line on."""
import os
import re
import subprocess

import pytest
from room_client import command
from served import HERE, ROSTER, text_of

from .desk import COMMAND

TOP = os.path.join(HERE, "..")


def test_docs_show_what_it_prints(desk):
    desk.file("roster.toml", ROSTER.encode())
    os.symlink(COMMAND, desk.path("room"))
    env = desk.environment() | {"ROOM_URL": desk.url, "ROOM_USER": "ann", "PYTHONDONTWRITEBYTECODE": "1"}
    env["PATH"] = desk.folder + os.pathsep + env["PATH"]
    text = text_of(os.path.join(TOP, "docs", "CLIENT.md"))
    shown = re.findall(r"^    \$ (.*)\n((?:    (?!\$).*\n)*)", text, re.MULTILINE)
    lines = [it for it in shown if not it[0].startswith("fileroom")]  # (its file is served now)
    assert len(lines) > 12
    how = {"env": env, "cwd": desk.folder, "capture_output": True, "text": True, "timeout": 60}
    for line, want in lines:
        done = subprocess.run(["bash", "-c", line], **how)
        want = re.sub("^    ", "", want, flags=re.MULTILINE)
        assert (line, done.stdout, done.stderr) == (line, want, "")


@pytest.mark.parametrize("name", ["", "README.md", "docs/CLIENT.md", "docs/RUNNING.md",
                                  "client/room_client/__init__.py"])
def test_docs_have_the_ports_of_the_front_and_a_first_room(name):
    front = re.search(r"listen 127\.0\.0\.1:(\d+)", text_of(os.path.join(TOP, "front", "listen.conf")))[1]
    admin = text_of(os.path.join(TOP, "service", "admin", "fileroom_admin", "front.py"))
    ports = {"/": front, "": re.search(r"(?m)^PORT = (\d+)", admin)[1]}
    text = text_of(os.path.join(TOP, name)) if name else command.parser().format_help()
    found = re.findall(r"http://127\.0\.0\.1:(\d+)(/?)", text)
    assert found
    assert [port for port, kind in found if port != ports[kind]] == []
