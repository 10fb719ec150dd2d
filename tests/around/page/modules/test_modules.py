"""Modules of the page in node, without a browser: how names and rights are shown, what is left of a copy, an upload or
a removal, and what a session, over a served room, keeps and sends again.

Each scene of a file is a test, `FILE: NAME`; those of one file are played by `-k FILE:`. browser.mjs and shelf.mjs
stand in for what of a browser, and of a room that never fails, the modules ask for; room.mjs and saves.mjs are shared
by those that ask a served room.
"""
import glob
import os
import re
import shutil
import subprocess
import sys
from unittest import mock

import pytest
from given import each
from served import HERE, Room, end_with_parent, text_of

FOLDER = os.path.dirname(os.path.abspath(__file__))
PAGE = os.path.join(HERE, "..", "page")
sys.path.append(os.path.join(HERE, "..", "service", "admin"))
from fileroom_admin import paces, places, warned

ROSTER = '[users]\nann = ["eng"]\nbob = ["eng"]\neve = []\n'
SCENE = re.compile(r'^ *test\(\s*(?:"((?:[^"\\]|\\.)*)"|`(.*?)`),', re.MULTILINE)
TOLD = re.compile(r"^(not ok|ok) \d+ - (.*)\n((?:  .*\n)*)", re.MULTILINE)  # (of the scenes, and of a file that fails)


def scenes():
    """Each with its file. (One with ${..} in its name stands for several.)"""
    for path in sorted(glob.glob(os.path.join(FOLDER, "*.mjs"))):
        for name in SCENE.findall(text_of(path)):
            yield os.path.basename(path).removesuffix(".mjs"), "".join(name)


def is_of(name, scene):
    return re.fullmatch(".*".join(map(re.escape, re.split(r"\$\{.*?\}", scene))), name)


def laid(folder):
    """The page's modules and those that try them in one folder, which says to node what they are."""
    for it in glob.glob(os.path.join(PAGE, "*.js")) + glob.glob(os.path.join(FOLDER, "*.mjs")):
        shutil.copy(it, folder)
    with open(os.path.join(folder, "package.json"), "w", encoding="utf-8") as file:
        file.write('{"type":"module"}')
    return folder


def written_warnings(folder):
    """The file in which the service has ann's warnings of the room club."""
    for name, text in {"etc/fileroom/club.env": "", "var/backups/fileroom/club/2026-01-01T00-00-00Z/owner": "ann\n",
                       **{f"etc/nginx/fileroom/held/{it}": "" for it in ("bob@club", "eve@club", "bob@plans")}}.items():
        path = os.path.join(folder, name)
        os.makedirs(os.path.dirname(path), exist_ok=True)
        with open(path, "w", encoding="utf-8") as file:
            file.write(text)
    left = {"of_numbers": (900_000, 7.9), "of_memory": 3.2, "of_disk": 0.4}
    with mock.patch.multiple(paces, **{name: mock.Mock(return_value=it) for name, it in left.items()}):
        warned.put(places.Places(folder))
    return os.path.join(folder, "etc/nginx/fileroom/warnings/ann.json")


@pytest.fixture(scope="module")
def told(request, tmp_path_factory):
    """Of each scene of the files that are chosen, its name, and how it failed or nothing."""
    if not shutil.which("node"):
        pytest.skip("this machine lacks node")
    chosen = [it.callspec.params for it in request.session.items if getattr(it, "function", None) is test_scene]
    files = sorted({f"{it['file']}.mjs" for it in chosen})
    folder, machine = (str(tmp_path_factory.mktemp(it)) for it in ("modules", "machine"))
    room = Room(str(tmp_path_factory.mktemp("room")), ROSTER).start()
    env = {**os.environ, "PAGE": laid(folder), "WARNINGS": written_warnings(machine),
           "ROOM": f"http://127.0.0.1:{room.port}"}
    how = {"stdin": subprocess.DEVNULL, "stdout": subprocess.PIPE, "text": True, "preexec_fn": end_with_parent}
    done = subprocess.run(["node", "--test", "--test-reporter=tap", *files], cwd=folder, env=env, **how)
    room.kill()
    found = [(name.replace("\\#", "#").replace("\\\\", "\\"), why if status != "ok" else "")
             for status, name, why in TOLD.findall(done.stdout)]
    strange = [both for both in found if not any(f"{file}.mjs" in files and is_of(both[0], scene)
                                                 for file, scene in scenes())]
    assert strange == [], done.stdout[-2000:]
    assert (done.returncode != 0) == any(why for _, why in found), done.stdout[-2000:]
    return found


@each("file, scene", [(f"{file}: {scene}", file, scene) for file, scene in scenes()])
def test_scene(told, file, scene):
    its = [why for name, why in told if is_of(name, scene)]
    assert its, "it was not played"
    assert [it for it in its if it] == []
